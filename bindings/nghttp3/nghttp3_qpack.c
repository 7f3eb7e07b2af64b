/* The calls of QPACK that nghttp3 0.8.0 has, over h3_qpack.h. This file takes the place of lib/nghttp3_qpack.c in the
 * source of nghttp3; build says how.
 *
 * With H3_QPACK_BOOKS nghttp3's own books of sections are kept besides, for the tests that look into them. After each call
 * they must be what h3_qpack says. from_nghttp3.inc is what build takes from nghttp3's own file. */
#include "nghttp3_qpack.h"

#include <assert.h>
#include <stdio.h>
#include <stdlib.h>
#include <string.h>

#include "nghttp3_macro.h"
#include "nghttp3_str.h"

/* The most blocked streams that a decoder of h3_qpack allows, and the capacity that it does not take. */
#define MOST_BLOCKED 65534
#define TOO_LARGE_CAPACITY ((size_t)1 << 30)
/* The most bytes of an instruction of a decoder stream: an integer of 62 bits. */
#define MOST_INSTRUCTION 11
/* A cookie that is shorter is never indexed, as in nghttp3. */
#define SHORT_COOKIE 20
/* So many fields are passed without a call of malloc. */
#define USUAL_FIELDS 64
/* The most bytes of a line that a stream keeps: two strings of nghttp3's lengths, and their integers. */
#define MOST_KEPT (NGHTTP3_QPACK_MAX_NAMELEN + NGHTTP3_QPACK_MAX_VALUELEN + 20)

#include "from_nghttp3.inc"
#include "h3_qpack_books.h"

/* Makes room for |more| bytes at the end of a buffer, which grows to twice its size at least. */
static int make_room(nghttp3_buf *buf, size_t more, const nghttp3_mem *mem) {
  size_t used = (size_t)(buf->last - buf->begin);
  if (nghttp3_buf_left(buf) >= more) return 0;
  return nghttp3_buf_reserve(buf, nghttp3_max(2 * used, used + more), mem);
}

/* ---- The encoder */

/* Fills in the numbers of nghttp3's struct. */
static void note_encoder(nghttp3_qpack_encoder *encoder) {
  h3_qpack_encoder *end = &encoder->own.end;
  encoder->ctx.next_absidx = h3_qpack_encoder_get_icnt(end);
  compare_books(encoder);
  encoder->krcnt = h3_qpack_encoder_get_krcnt(end);
}

/* The encoder is made before the peer's settings are known. */
int nghttp3_qpack_encoder_init(nghttp3_qpack_encoder *encoder, size_t hard_max_dtable_capacity, const nghttp3_mem *mem) {
  h3_qpack_encoder_settings settings;
  memset(encoder, 0, sizeof *encoder);
  encoder->ctx.mem = mem;
  encoder->ctx.hard_max_dtable_capacity = hard_max_dtable_capacity;
  encoder->min_dtable_update = SIZE_MAX;
  open_books(encoder);
  h3_qpack_encoder_settings_default(&settings);
  settings.capacity = hard_max_dtable_capacity;
  return h3_qpack_encoder_new(&encoder->own.end, &settings) ? NGHTTP3_ERR_NOMEM : 0;
}

void nghttp3_qpack_encoder_free(nghttp3_qpack_encoder *encoder) {
  close_books(encoder);
  h3_qpack_encoder_del(&encoder->own.end);
}

/* The first maximum above 0 is the peer's setting. A maximum of 2^30 or more is taken as no table. */
static void set_peer_capacity(nghttp3_qpack_encoder *encoder, size_t capacity) {
  if (capacity >= TOO_LARGE_CAPACITY) capacity = 0;
  if (h3_qpack_encoder_set_peer_settings(&encoder->own.end, capacity, encoder->ctx.max_blocked_streams)) return;
  encoder->own.peer_capacity = capacity;
  encoder->ctx.max_dtable_capacity = nghttp3_min(capacity, encoder->ctx.hard_max_dtable_capacity);
}

/* Later ones change the capacity before the next section whose entries allow it. */
void nghttp3_qpack_encoder_set_max_dtable_capacity(nghttp3_qpack_encoder *encoder, size_t max_dtable_capacity) {
  if (!encoder->own.peer_capacity) {
    set_peer_capacity(encoder, max_dtable_capacity);
    return;
  }
  max_dtable_capacity = nghttp3_min(max_dtable_capacity, encoder->ctx.hard_max_dtable_capacity);
  if (encoder->ctx.max_dtable_capacity == max_dtable_capacity) return;
  encoder->flags |= NGHTTP3_QPACK_ENCODER_FLAG_PENDING_SET_DTABLE_CAP;
  encoder->last_max_dtable_update = max_dtable_capacity;
  if (encoder->min_dtable_update > max_dtable_capacity)
    encoder->min_dtable_update = encoder->ctx.max_dtable_capacity = max_dtable_capacity;
}

void nghttp3_qpack_encoder_set_max_blocked_streams(nghttp3_qpack_encoder *encoder, size_t max_blocked_streams) {
  encoder->ctx.max_blocked_streams = max_blocked_streams;
  h3_qpack_encoder_set_peer_settings(&encoder->own.end, encoder->own.peer_capacity, max_blocked_streams);
}

/* Sets the least capacity that was asked for since, and then the last, unless the least waits for acknowledgments. */
static void set_asked_capacity(nghttp3_qpack_encoder *encoder) {
  h3_qpack_encoder *end = &encoder->own.end;
  size_t pending;
  if (!(encoder->flags & NGHTTP3_QPACK_ENCODER_FLAG_PENDING_SET_DTABLE_CAP)) return;
  if (h3_qpack_encoder_shrink(end, encoder->min_dtable_update) || h3_qpack_encoder_get_pending_capacity(end, &pending) ||
      h3_qpack_encoder_set_capacity(end, encoder->last_max_dtable_update))
    return;
  encoder->min_dtable_update = SIZE_MAX;
  encoder->ctx.max_dtable_capacity = encoder->last_max_dtable_update;
  encoder->flags = NGHTTP3_QPACK_ENCODER_FLAG_NONE;
}

/* What nghttp3 marks as never to be indexed is so here: what the caller marks, credentials and short cookies. */
static uint8_t flags_of(const nghttp3_nv *nv) {
  int32_t token = qpack_lookup_token(nv->name, nv->namelen);
  return nv->flags & NGHTTP3_NV_FLAG_NEVER_INDEX || token == NGHTTP3_QPACK_TOKEN_AUTHORIZATION ||
                 (token == NGHTTP3_QPACK_TOKEN_COOKIE && nv->valuelen < SHORT_COOKIE)
             ? H3_QPACK_NV_FLAG_NEVER_INDEX
             : 0;
}

/* Encodes fields, and writes the section to |section|, with the room made that is missing. */
static h3_qpack_encoded encode_to(nghttp3_qpack_encoder *encoder, int64_t stream_id, const h3_qpack_nv *fields, size_t count,
                                  nghttp3_buf *section) {
  h3_qpack_encoder *end = &encoder->own.end;
  set_asked_capacity(encoder);
  h3_qpack_encoded encoded =
      h3_qpack_encoder_encode(end, (uint64_t)stream_id, fields, count, section->last, nghttp3_buf_left(section));
  if (encoded.status != H3_QPACK_ERR_NO_ROOM) return encoded;
  encoded.status = H3_QPACK_ERR_NO_MEMORY;
  if (make_room(section, encoded.len, encoder->ctx.mem)) return encoded;
  encoded.status = h3_qpack_encoder_section(end, section->last, encoded.len).status;
  return encoded;
}

/* Encodes fields of nghttp3. The section is written after what |rbuf| has. */
static h3_qpack_encoded encode(nghttp3_qpack_encoder *encoder, int64_t stream_id, const nghttp3_nv *nva, size_t nvlen,
                               nghttp3_buf *rbuf) {
  h3_qpack_encoded encoded = {H3_QPACK_ERR_NO_MEMORY, 0, 0, 0};
  h3_qpack_nv usual[USUAL_FIELDS], *fields = usual;
  const nghttp3_mem *mem = encoder->ctx.mem;
  if (nvlen > USUAL_FIELDS) fields = nghttp3_mem_calloc(mem, nvlen, sizeof *fields);
  if (!fields) return encoded;
  for (size_t i = 0; i < nvlen; i++)
    fields[i] = (h3_qpack_nv){nva[i].name, nva[i].namelen, nva[i].value, nva[i].valuelen, flags_of(&nva[i])};
  encoded = encode_to(encoder, stream_id, fields, nvlen, rbuf);
  if (fields != usual) nghttp3_mem_free(mem, fields);
  return encoded;
}

/* Returns the length of an integer whose first byte has that many bits of it. The section is the encoder's own. */
static size_t integer_length(const uint8_t *at, unsigned bits) {
  unsigned most = (1u << bits) - 1;
  size_t length = 1;
  if ((at[0] & most) < most) return length;
  while (at[length++] & 0x80) continue;
  return length;
}

/* Moves the prefix of the section that was written after |rbuf| to |pbuf|, and leaves its lines in |rbuf|. */
static int split_section(nghttp3_buf *pbuf, nghttp3_buf *rbuf, size_t length, const nghttp3_mem *mem) {
  uint8_t *section = rbuf->last;
  size_t prefix = integer_length(section, 8);
  prefix += integer_length(section + prefix, 7);
  if (make_room(pbuf, prefix, mem)) return NGHTTP3_ERR_NOMEM;
  pbuf->last = nghttp3_cpymem(pbuf->last, section, prefix);
  memmove(section, section + prefix, length - prefix);
  rbuf->last += length - prefix;
  return 0;
}

/* Appends what is to be sent on the encoder stream to |ebuf|. */
static int write_instructions(nghttp3_qpack_encoder *encoder, nghttp3_buf *ebuf) {
  size_t length = h3_qpack_encoder_get_encoder_streamlen(&encoder->own.end);
  if (!length) return 0;
  if (make_room(ebuf, length, encoder->ctx.mem)) return NGHTTP3_ERR_NOMEM;
  ebuf->last += h3_qpack_encoder_write_encoder(&encoder->own.end, ebuf->last, length);
  return 0;
}

/* After an error the encoder is not to be used, as in nghttp3: a section may be lost that the peer is to acknowledge. */
int nghttp3_qpack_encoder_encode(nghttp3_qpack_encoder *encoder, nghttp3_buf *pbuf, nghttp3_buf *rbuf, nghttp3_buf *ebuf,
                                 int64_t stream_id, const nghttp3_nv *nva, size_t nvlen) {
  h3_qpack_encoded encoded;
  int rv;
  if (encoder->ctx.bad) return NGHTTP3_ERR_QPACK_FATAL;
  encoded = encode(encoder, stream_id, nva, nvlen, rbuf);
  rv = encoded.status == H3_QPACK_ERR_NO_MEMORY ? NGHTTP3_ERR_NOMEM : encoded.status ? NGHTTP3_ERR_QPACK_FATAL : 0;
  if (!rv) rv = split_section(pbuf, rbuf, encoded.len, encoder->ctx.mem);
  if (!rv) rv = write_instructions(encoder, ebuf);
  if (!rv) rv = note_section(encoder, stream_id, encoded.required);
  if (!rv) note_encoder(encoder);
  encoder->ctx.bad = rv != 0;
  return rv;
}

nghttp3_ssize nghttp3_qpack_encoder_read_decoder(nghttp3_qpack_encoder *encoder, const uint8_t *src, size_t srclen) {
  h3_qpack_received received = h3_qpack_encoder_read_decoder(&encoder->own.end, src, srclen);
  note_feedback(encoder, src, srclen, received.status);
  if (received.status) return NGHTTP3_ERR_QPACK_DECODER_STREAM_ERROR;
  note_encoder(encoder);
  return (nghttp3_ssize)srclen;
}

/* Calls that say what an instruction says: it is written and read. */
static int read_instruction(nghttp3_qpack_encoder *encoder, uint8_t form, uint64_t number, size_t bits) {
  uint8_t text[MOST_INSTRUCTION] = {form}, *end = nghttp3_qpack_put_varint(text, number, bits);
  return nghttp3_qpack_encoder_read_decoder(encoder, text, (size_t)(end - text)) < 0 ? NGHTTP3_ERR_QPACK_DECODER_STREAM_ERROR
                                                                                     : 0;
}

int nghttp3_qpack_encoder_ack_header(nghttp3_qpack_encoder *encoder, int64_t stream_id) {
  return read_instruction(encoder, 0x80, (uint64_t)stream_id, 7);
}

int nghttp3_qpack_encoder_add_icnt(nghttp3_qpack_encoder *encoder, uint64_t n) { return read_instruction(encoder, 0, n, 6); }

void nghttp3_qpack_encoder_cancel_stream(nghttp3_qpack_encoder *encoder, int64_t stream_id) {
  read_instruction(encoder, 0x40, (uint64_t)stream_id, 6);
}

/* Acknowledges the insertions. No call of h3_qpack acknowledges all sections. */
void nghttp3_qpack_encoder_ack_everything(nghttp3_qpack_encoder *encoder) {
  size_t count = h3_qpack_encoder_get_icnt(&encoder->own.end) - h3_qpack_encoder_get_krcnt(&encoder->own.end);
  if (count) nghttp3_qpack_encoder_add_icnt(encoder, count);
}

size_t nghttp3_qpack_encoder_get_num_blocked_streams(nghttp3_qpack_encoder *encoder) {
  return h3_qpack_encoder_get_num_blocked(&encoder->own.end);
}

int nghttp3_qpack_encoder_new(nghttp3_qpack_encoder **pencoder, size_t hard_max_dtable_capacity, const nghttp3_mem *mem) {
  nghttp3_qpack_encoder *encoder = nghttp3_mem_malloc(mem, sizeof *encoder);
  int rv = encoder ? nghttp3_qpack_encoder_init(encoder, hard_max_dtable_capacity, mem) : NGHTTP3_ERR_NOMEM;
  if (rv) nghttp3_mem_free(mem, encoder);
  else *pencoder = encoder;
  return rv;
}

void nghttp3_qpack_encoder_del(nghttp3_qpack_encoder *encoder) {
  if (!encoder) return;
  nghttp3_qpack_encoder_free(encoder);
  nghttp3_mem_free(encoder->ctx.mem, encoder);
}

/* ---- The decoder */

/* Fills in the numbers of nghttp3's struct. */
static void note_decoder(nghttp3_qpack_decoder *decoder) {
  decoder->ctx.next_absidx = h3_qpack_decoder_get_icnt(&decoder->own.end);
  note_table(decoder);
}

/* Returns the error of a status. After it the decoder is not to be used, as in nghttp3. */
static int fail(nghttp3_qpack_decoder *decoder, int32_t status) {
  decoder->ctx.bad = 1;
  switch (status) {
  case H3_QPACK_ERR_NO_MEMORY: return NGHTTP3_ERR_NOMEM;
  case H3_QPACK_ERR_TOO_LARGE: return NGHTTP3_ERR_QPACK_HEADER_TOO_LARGE;
  case H3_QPACK_ENCODER_STREAM_ERROR: return NGHTTP3_ERR_QPACK_ENCODER_STREAM_ERROR;
  case H3_QPACK_DECOMPRESSION_FAILED: return NGHTTP3_ERR_QPACK_DECOMPRESSION_FAILED;
  default: return NGHTTP3_ERR_QPACK_FATAL;
  }
}

int nghttp3_qpack_decoder_init(nghttp3_qpack_decoder *decoder, size_t hard_max_dtable_capacity, size_t max_blocked_streams,
                               const nghttp3_mem *mem) {
  h3_qpack_decoder_settings settings;
  int status;
  memset(decoder, 0, sizeof *decoder);
  decoder->ctx.mem = mem;
  decoder->ctx.hard_max_dtable_capacity = hard_max_dtable_capacity;
  decoder->ctx.max_blocked_streams = max_blocked_streams;
  nghttp3_buf_init(&decoder->dbuf);
  h3_qpack_decoder_settings_default(&settings);
  settings.max_capacity = hard_max_dtable_capacity;
  settings.max_blocked = nghttp3_min(max_blocked_streams, MOST_BLOCKED);
  settings.max_section_size = UINT64_MAX;
  status = h3_qpack_decoder_new(&decoder->own.end, &settings);
  return status == H3_QPACK_ERR_NO_MEMORY ? NGHTTP3_ERR_NOMEM : status ? NGHTTP3_ERR_INVALID_ARGUMENT : 0;
}

void nghttp3_qpack_decoder_free(nghttp3_qpack_decoder *decoder) {
  nghttp3_buf_free(&decoder->dbuf, decoder->ctx.mem);
  h3_qpack_decoder_del(&decoder->own.end);
}

/* Moves what the decoder has to send to |dbuf|, where nghttp3 has it. */
static int keep_instructions(nghttp3_qpack_decoder *decoder) {
  size_t length = h3_qpack_decoder_get_decoder_streamlen(&decoder->own.end);
  if (!length) return 0;
  if (make_room(&decoder->dbuf, length, decoder->ctx.mem)) return NGHTTP3_ERR_NOMEM;
  decoder->dbuf.last += h3_qpack_decoder_write_decoder(&decoder->own.end, decoder->dbuf.last, length);
  return 0;
}

/* Drops the increments that the decoder has to send. As in nghttp3 one is made for all insertions when it is written, so
 * that they do not add up while the peer does not let them go. */
static void drop_increments(nghttp3_qpack_decoder *decoder) {
  uint8_t dropped[MOST_INSTRUCTION];
  while (h3_qpack_decoder_write_decoder(&decoder->own.end, dropped, sizeof dropped)) continue;
}

nghttp3_ssize nghttp3_qpack_decoder_read_encoder(nghttp3_qpack_decoder *decoder, const uint8_t *src, size_t srclen) {
  h3_qpack_received received;
  if (decoder->ctx.bad) return NGHTTP3_ERR_QPACK_FATAL;
  if (keep_instructions(decoder)) return fail(decoder, H3_QPACK_ERR_NO_MEMORY);
  received = h3_qpack_decoder_read_encoder(&decoder->own.end, src, srclen);
  if (received.status) return fail(decoder, received.status);
  drop_increments(decoder);
  note_decoder(decoder);
  return (nghttp3_ssize)srclen;
}

/* The peer's instructions alone set the capacity. */
int nghttp3_qpack_decoder_set_max_dtable_capacity(nghttp3_qpack_decoder *decoder, size_t max_dtable_capacity) {
  (void)decoder;
  (void)max_dtable_capacity;
  return NGHTTP3_ERR_INVALID_ARGUMENT;
}

void nghttp3_qpack_decoder_set_max_concurrent_streams(nghttp3_qpack_decoder *decoder, size_t max_concurrent_streams) {
  decoder->max_concurrent_streams = nghttp3_max(decoder->max_concurrent_streams, max_concurrent_streams);
}

uint64_t nghttp3_qpack_decoder_get_icnt(const nghttp3_qpack_decoder *decoder) { return decoder->ctx.next_absidx; }

/* Returns how many insertions no instruction reports. */
static uint64_t unreported(const nghttp3_qpack_decoder *decoder) {
  uint64_t received = decoder->ctx.next_absidx;
  return received > decoder->written_icnt ? received - decoder->written_icnt : 0;
}

/* Whether the peer lets more pile up than nghttp3 allows: two instructions for each stream. */
static int is_too_much(nghttp3_qpack_decoder *decoder) {
  return nghttp3_qpack_decoder_get_decoder_streamlen(decoder) > nghttp3_max(decoder->max_concurrent_streams, 100) * 2 * 10;
}

size_t nghttp3_qpack_decoder_get_decoder_streamlen(nghttp3_qpack_decoder *decoder) {
  uint64_t count = unreported(decoder);
  return nghttp3_buf_len(&decoder->dbuf) + h3_qpack_decoder_get_decoder_streamlen(&decoder->own.end) +
         (count ? nghttp3_qpack_put_varint_len(count, 6) : 0);
}

void nghttp3_qpack_decoder_write_decoder(nghttp3_qpack_decoder *decoder, nghttp3_buf *dbuf) {
  uint64_t count = unreported(decoder);
  if (nghttp3_buf_len(&decoder->dbuf))
    dbuf->last = nghttp3_cpymem(dbuf->last, decoder->dbuf.pos, nghttp3_buf_len(&decoder->dbuf));
  nghttp3_buf_reset(&decoder->dbuf);
  dbuf->last += h3_qpack_decoder_write_decoder(&decoder->own.end, dbuf->last, nghttp3_buf_left(dbuf));
  if (!count) return;
  *dbuf->last = 0; /* an Insert Count Increment */
  dbuf->last = nghttp3_qpack_put_varint(dbuf->last, count, 6);
  decoder->written_icnt = decoder->ctx.next_absidx;
}

int nghttp3_qpack_decoder_cancel_stream(nghttp3_qpack_decoder *decoder, int64_t stream_id) {
  int status;
  if (is_too_much(decoder)) return NGHTTP3_ERR_QPACK_FATAL;
  status = h3_qpack_decoder_cancel_stream(&decoder->own.end, (uint64_t)stream_id);
  return status ? fail(decoder, status) : keep_instructions(decoder);
}

int nghttp3_qpack_decoder_new(nghttp3_qpack_decoder **pdecoder, size_t hard_max_dtable_capacity, size_t max_blocked_streams,
                              const nghttp3_mem *mem) {
  nghttp3_qpack_decoder *decoder = nghttp3_mem_malloc(mem, sizeof *decoder);
  int rv =
      decoder ? nghttp3_qpack_decoder_init(decoder, hard_max_dtable_capacity, max_blocked_streams, mem) : NGHTTP3_ERR_NOMEM;
  if (rv) nghttp3_mem_free(mem, decoder);
  else *pdecoder = decoder;
  return rv;
}

void nghttp3_qpack_decoder_del(nghttp3_qpack_decoder *decoder) {
  if (!decoder) return;
  nghttp3_qpack_decoder_free(decoder);
  nghttp3_mem_free(decoder->ctx.mem, decoder);
}

/* ---- A section in pieces */

void nghttp3_qpack_stream_context_init(nghttp3_qpack_stream_context *sctx, int64_t stream_id, const nghttp3_mem *mem) {
  memset(sctx, 0, sizeof *sctx);
  sctx->mem = mem;
  sctx->stream_id = stream_id;
}

void nghttp3_qpack_stream_context_free(nghttp3_qpack_stream_context *sctx) { h3_qpack_section_reader_del(&sctx->own.reader); }

void nghttp3_qpack_stream_context_reset(nghttp3_qpack_stream_context *sctx) {
  nghttp3_qpack_stream_context_free(sctx);
  nghttp3_qpack_stream_context_init(sctx, sctx->stream_id, sctx->mem);
}

uint64_t nghttp3_qpack_stream_context_get_ricnt(nghttp3_qpack_stream_context *sctx) { return sctx->ricnt; }

int nghttp3_qpack_stream_context_new(nghttp3_qpack_stream_context **psctx, int64_t stream_id, const nghttp3_mem *mem) {
  nghttp3_qpack_stream_context *sctx = nghttp3_mem_malloc(mem, sizeof *sctx);
  if (!sctx) return NGHTTP3_ERR_NOMEM;
  nghttp3_qpack_stream_context_init(sctx, stream_id, mem);
  *psctx = sctx;
  return 0;
}

void nghttp3_qpack_stream_context_del(nghttp3_qpack_stream_context *sctx) {
  if (!sctx) return;
  nghttp3_qpack_stream_context_free(sctx);
  nghttp3_mem_free(sctx->mem, sctx);
}

/* Makes the name of a field, and its token: a constant of nghttp3's if the static table has the name, or else a copy. */
static int make_name(nghttp3_qpack_nv *nv, const h3_qpack_view *view, const nghttp3_mem *mem) {
  if (view->static_name == H3_QPACK_NOT_STATIC) {
    nv->token = qpack_lookup_token(view->name, view->namelen);
    return nghttp3_rcbuf_new2(&nv->name, view->name, view->namelen, mem);
  }
  nv->token = stable[view->static_name].token;
  nv->name = &stable[view->static_name].name;
  return 0;
}

/* Makes its value: a constant if the static table has the field, or else a copy. */
static int make_value(nghttp3_qpack_nv *nv, const h3_qpack_view *view, const nghttp3_mem *mem) {
  if (view->static_field == H3_QPACK_NOT_STATIC) return nghttp3_rcbuf_new2(&nv->value, view->value, view->valuelen, mem);
  nv->value = &stable[view->static_field].value;
  return 0;
}

/* Makes nghttp3's field of the one that was read last. */
static int make_field(nghttp3_qpack_decoder *decoder, nghttp3_qpack_stream_context *sctx, nghttp3_qpack_nv *nv) {
  const nghttp3_mem *mem = decoder->ctx.mem;
  h3_qpack_view view;
  if (h3_qpack_section_reader_view(&sctx->own.reader, &view)) return NGHTTP3_ERR_QPACK_FATAL; /* there is one */
  if (make_name(nv, &view, mem)) return NGHTTP3_ERR_NOMEM;
  if (make_value(nv, &view, mem)) {
    nghttp3_rcbuf_decref(nv->name);
    return NGHTTP3_ERR_NOMEM;
  }
  nv->flags = view.flags & H3_QPACK_NV_FLAG_NEVER_INDEX ? NGHTTP3_NV_FLAG_NEVER_INDEX : NGHTTP3_NV_FLAG_NONE;
  return 0;
}

/* Gives the field that was read. */
static int give_field(nghttp3_qpack_decoder *decoder, nghttp3_qpack_stream_context *sctx, nghttp3_qpack_nv *nv,
                      uint8_t *pflags) {
  if (make_field(decoder, sctx, nv)) return fail(decoder, H3_QPACK_ERR_NO_MEMORY);
  *pflags |= NGHTTP3_QPACK_DECODE_FLAG_EMIT;
  return 0;
}

/* Ends the section, whose acknowledgment reports the insertions that it requires. */
static int end_section(nghttp3_qpack_decoder *decoder, size_t required, uint8_t *pflags) {
  if (is_too_much(decoder)) return fail(decoder, H3_QPACK_ERR_NO_ROOM);
  if (keep_instructions(decoder)) return fail(decoder, H3_QPACK_ERR_NO_MEMORY);
  decoder->written_icnt = nghttp3_max(decoder->written_icnt, required);
  *pflags |= NGHTTP3_QPACK_DECODE_FLAG_FINAL;
  return 0;
}

/* Makes the stream's reader before its first bytes. */
static int32_t make_reader(nghttp3_qpack_stream_context *sctx) {
  if (sctx->own.reader.at) return H3_QPACK_OK;
  return h3_qpack_section_reader_new(&sctx->own.reader, (uint64_t)sctx->stream_id);
}

/* Does what follows from a piece that was read. */
static int follow_piece(nghttp3_qpack_decoder *decoder, nghttp3_qpack_stream_context *sctx, nghttp3_qpack_nv *nv,
                        uint8_t *pflags, h3_qpack_piece piece) {
  switch (piece.status) {
  case H3_QPACK_OK:
    if (h3_qpack_section_reader_get_pending(&sctx->own.reader) <= MOST_KEPT) return 0;
    return fail(decoder, H3_QPACK_ERR_TOO_LARGE);
  case H3_QPACK_FIELD: return give_field(decoder, sctx, nv, pflags);
  case H3_QPACK_END: return end_section(decoder, piece.required, pflags);
  case H3_QPACK_BLOCKED:
    sctx->ricnt = piece.required;
    *pflags |= NGHTTP3_QPACK_DECODE_FLAG_BLOCKED;
    return 0;
  default: return fail(decoder, piece.status);
  }
}

nghttp3_ssize nghttp3_qpack_decoder_read_request(nghttp3_qpack_decoder *decoder, nghttp3_qpack_stream_context *sctx,
                                                 nghttp3_qpack_nv *nv, uint8_t *pflags, const uint8_t *src, size_t srclen,
                                                 int fin) {
  h3_qpack_piece piece;
  int rv;
  *pflags = NGHTTP3_QPACK_DECODE_FLAG_NONE;
  if (decoder->ctx.bad) return NGHTTP3_ERR_QPACK_FATAL;
  if (make_reader(sctx)) return fail(decoder, H3_QPACK_ERR_NO_MEMORY);
  piece = h3_qpack_section_reader_read(&sctx->own.reader, &decoder->own.end, src, srclen, fin);
  rv = follow_piece(decoder, sctx, nv, pflags, piece);
  return rv ? rv : (nghttp3_ssize)piece.taken;
}
