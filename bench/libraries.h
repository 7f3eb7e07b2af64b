/* This library and nghttp3 behind one table of functions, so that a program plays the same lists through both. */
#ifndef LIBRARIES_H
#define LIBRARIES_H

#include "../c/tests/peer.h"

/* What an encoder wrote of a list. */
typedef struct {
  uint8_t section[1 << 16], stream[1 << 16];
  size_t section_len, stream_len;
} wire;

typedef struct {
  h3_qpack_encoder encoder;
  h3_qpack_decoder decoder;
} ours;

typedef struct {
  nghttp3_qpack_encoder *encoder;
  nghttp3_qpack_decoder *decoder;
} theirs;

/* An encoder and a decoder of one library, which are connected. */
typedef union {
  ours ours;
  theirs theirs;
} connection;

/* The calls of a library. */
typedef struct {
  const char *name;
  void (*open)(connection *, size_t capacity, size_t blocked);
  /* Encodes a list, and takes the bytes of the encoder stream. */
  void (*encode)(connection *, uint64_t stream_id, const list *, wire *);
  /* Copies what the library left in buffers of its own to the wire, after each encode. */
  void (*collect)(wire *);
  /* Hands the bytes of the encoder stream to the decoder. */
  void (*receive)(connection *, const wire *);
  /* Decodes the section, and compares its fields with the list. */
  void (*decode)(connection *, uint64_t stream_id, const list *, const wire *);
  /* Decodes the section, copies its fields to memory of the caller, and returns how many there are. */
  size_t (*copy)(connection *, uint64_t stream_id, const wire *);
  /* Takes the bytes of the decoder stream. */
  void (*report)(connection *, answer *);
  /* Hands them to the encoder. */
  void (*hear)(connection *, const answer *);
  void (*close_decoder)(connection *);
  void (*close_encoder)(connection *);
} library;

/* Where decoded fields are copied to. */
static uint8_t text[1 << 17];
static h3_qpack_field fields[1 << 10];

static void open_ours(connection *c, size_t capacity, size_t blocked) {
  CHECK(!new_encoder(&c->ours.encoder, capacity, blocked));
  CHECK(!new_decoder(&c->ours.decoder, capacity, blocked, 1 << 20));
}

static void encode_ours(connection *c, uint64_t stream_id, const list *l, wire *w) {
  h3_qpack_encoder *e = &c->ours.encoder;
  h3_qpack_encoded a = h3_qpack_encoder_encode(e, stream_id, l->nv, l->len, w->section, sizeof w->section);
  CHECK(a.status == H3_QPACK_OK);
  w->section_len = a.len;
  w->stream_len = h3_qpack_encoder_write_encoder(e, w->stream, sizeof w->stream);
}

/* All is there already. */
static void collect_ours(wire *w) { (void)w; }

static void receive_ours(connection *c, const wire *w) {
  h3_qpack_decoder *d = &c->ours.decoder;
  CHECK(h3_qpack_decoder_read_encoder(d, w->stream, w->stream_len).status == H3_QPACK_OK);
}

/* Decodes a section and copies its fields: returns how many, and the length of their text. */
static inline size_t copy_fields(h3_qpack_decoder *d, uint64_t stream_id, const wire *w, size_t *len) {
  h3_qpack_decoded got = h3_qpack_decoder_decode(d, stream_id, w->section, w->section_len);
  CHECK(got.status == H3_QPACK_OK);
  h3_qpack_written all = h3_qpack_decoder_fields(d, fields, sizeof fields / sizeof *fields, text, sizeof text);
  CHECK(all.status == H3_QPACK_OK);
  *len = all.len;
  return got.fields;
}

static size_t copy_ours(connection *c, uint64_t stream_id, const wire *w) {
  size_t len;
  return copy_fields(&c->ours.decoder, stream_id, w, &len);
}

static void decode_ours(connection *c, uint64_t stream_id, const list *l, const wire *w) {
  size_t len;
  CHECK(copy_fields(&c->ours.decoder, stream_id, w, &len) == l->len);
  check_written(fields, text, len, l->nv, l->len);
}

static void report_ours(connection *c, answer *answer) {
  answer->len = h3_qpack_decoder_write_decoder(&c->ours.decoder, answer->bytes, sizeof answer->bytes);
}

static void hear_ours(connection *c, const answer *answer) { hear(&c->ours.encoder, answer->bytes, answer->len); }

static void close_our_decoder(connection *c) { h3_qpack_decoder_del(&c->ours.decoder); }

static void close_our_encoder(connection *c) { h3_qpack_encoder_del(&c->ours.encoder); }

/* What all encoders of nghttp3 write to, as all connections of a program do. */
static nghttp3_buf prefix, lines, instructions;

static void open_theirs(connection *c, size_t capacity, size_t blocked) {
  theirs *t = &c->theirs;
  CHECK(!nghttp3_qpack_encoder_new(&t->encoder, capacity, &their_memory));
  CHECK(!nghttp3_qpack_decoder_new(&t->decoder, capacity, blocked, &their_memory));
  nghttp3_qpack_encoder_set_max_blocked_streams(t->encoder, blocked);
  nghttp3_qpack_encoder_set_max_dtable_capacity(t->encoder, capacity);
  nghttp3_qpack_decoder_set_max_concurrent_streams(t->decoder, 1000);
}

static void encode_theirs(connection *c, uint64_t stream_id, const list *l, wire *w) {
  nghttp3_buf_reset(&prefix);
  nghttp3_buf_reset(&lines);
  nghttp3_buf_reset(&instructions);
  CHECK(!nghttp3_qpack_encoder_encode(c->theirs.encoder, &prefix, &lines, &instructions, (int64_t)stream_id, l->ng, l->len));
  w->section_len = nghttp3_buf_len(&prefix) + nghttp3_buf_len(&lines);
  w->stream_len = nghttp3_buf_len(&instructions);
}

static void collect_theirs(wire *w) {
  size_t front = nghttp3_buf_len(&prefix);
  CHECK(w->section_len <= sizeof w->section && w->stream_len <= sizeof w->stream);
  memcpy(w->section, prefix.pos, front);
  if (w->section_len > front) memcpy(w->section + front, lines.pos, w->section_len - front);
  if (w->stream_len) memcpy(w->stream, instructions.pos, w->stream_len);
}

static void receive_theirs(connection *c, const wire *w) {
  nghttp3_ssize taken = nghttp3_qpack_decoder_read_encoder(c->theirs.decoder, w->stream, w->stream_len);
  CHECK(taken == (nghttp3_ssize)w->stream_len);
}

static void decode_theirs(connection *c, uint64_t stream_id, const list *l, const wire *w) {
  CHECK(read_theirs(c->theirs.decoder, (int64_t)stream_id, l, w->section, w->section_len));
}

/* Copies a field that was decoded, and returns where the next one goes. */
static inline uint8_t *copy_their_field(uint8_t *at, const nghttp3_qpack_nv *nv) {
  nghttp3_vec name = nghttp3_rcbuf_get_buf(nv->name), value = nghttp3_rcbuf_get_buf(nv->value);
  memcpy(at, name.base, name.len);
  memcpy(at + name.len, value.base, value.len);
  nghttp3_rcbuf_decref(nv->name);
  nghttp3_rcbuf_decref(nv->value);
  return at + name.len + value.len;
}

static size_t copy_theirs(connection *c, uint64_t stream_id, const wire *w) {
  const uint8_t *from = w->section, *end = w->section + w->section_len;
  uint8_t *at = text, flags = 0;
  nghttp3_qpack_stream_context *context;
  size_t count = 0;
  CHECK(!nghttp3_qpack_stream_context_new(&context, (int64_t)stream_id, &their_memory));
  while (!(flags & NGHTTP3_QPACK_DECODE_FLAG_FINAL)) {
    nghttp3_qpack_nv nv;
    nghttp3_ssize taken =
        nghttp3_qpack_decoder_read_request(c->theirs.decoder, context, &nv, &flags, from, (size_t)(end - from), 1);
    CHECK(taken >= 0 && !(flags & NGHTTP3_QPACK_DECODE_FLAG_BLOCKED));
    from += taken;
    if (!(flags & NGHTTP3_QPACK_DECODE_FLAG_EMIT)) continue;
    at = copy_their_field(at, &nv);
    count++;
  }
  nghttp3_qpack_stream_context_del(context);
  return count;
}

static void report_theirs(connection *c, answer *answer) {
  nghttp3_buf sent;
  sent.begin = sent.pos = sent.last = answer->bytes;
  sent.end = answer->bytes + sizeof answer->bytes;
  nghttp3_qpack_decoder_write_decoder(c->theirs.decoder, &sent);
  answer->len = nghttp3_buf_len(&sent);
}

static void hear_theirs(connection *c, const answer *answer) {
  nghttp3_ssize taken = nghttp3_qpack_encoder_read_decoder(c->theirs.encoder, answer->bytes, answer->len);
  CHECK(taken == (nghttp3_ssize)answer->len);
}

static void close_their_decoder(connection *c) { nghttp3_qpack_decoder_del(c->theirs.decoder); }

static void close_their_encoder(connection *c) { nghttp3_qpack_encoder_del(c->theirs.encoder); }

static const library this_library = {"h3_qpack", open_ours,   encode_ours, collect_ours,      receive_ours,     decode_ours,
                                     copy_ours,  report_ours, hear_ours,   close_our_decoder, close_our_encoder};
static const library nghttp3 = {"nghttp3",      open_theirs,         encode_theirs,      collect_theirs,
                                receive_theirs, decode_theirs,       copy_theirs,        report_theirs,
                                hear_theirs,    close_their_decoder, close_their_encoder};

static inline void close_both(const library *library, connection *c) {
  library->close_decoder(c);
  library->close_encoder(c);
}

/* Encodes a list and decodes it, and leaves what the decoder sends. */
static inline void exchange(const library *library, connection *c, uint64_t stream_id, const list *l, wire *w,
                            answer *answer) {
  library->encode(c, stream_id, l, w);
  library->collect(w);
  library->receive(c, w);
  library->decode(c, stream_id, l, w);
  library->report(c, answer);
}

#endif
