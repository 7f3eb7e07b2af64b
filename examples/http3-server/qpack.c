/* Where each call of h3_qpack.h goes in an HTTP/3 connection. */
#include <stdlib.h>
#include <string.h>
#include "server.h"

/* A call failed by a code of QPACK, or otherwise, as without memory. */
static void fail(connection *c, int32_t status, const char *why) {
  end_connection(c, status > 0 ? (uint64_t)status : H3_INTERNAL_ERROR, why);
}

/* The decoder has this side's settings. The encoder has the peer's; until they arrive, those of a peer without a table.
 * Returns 0 if one can't be made. */
int open_qpack(connection *c) {
  h3_qpack_decoder_settings ours;
  h3_qpack_decoder_settings_default(&ours);
  ours.max_capacity = option.capacity;
  ours.max_blocked = option.blocked;
  ours.max_section_size = option.limit;
  h3_qpack_encoder_settings theirs;
  h3_qpack_encoder_settings_default(&theirs);
  theirs.capacity = option.encoder_capacity;
  return h3_qpack_decoder_new(&c->decoder, &ours) == H3_QPACK_OK && h3_qpack_encoder_new(&c->encoder, &theirs) == H3_QPACK_OK;
}

/* The SETTINGS frame of the peer arrived. A maximum of 2^30 or more is taken as no table. */
void take_settings(connection *c, uint64_t max_capacity, uint64_t max_blocked) {
  if (max_capacity >= 1u << 30) max_capacity = 0;
  int status = h3_qpack_encoder_set_peer_settings(&c->encoder, max_capacity, max_blocked);
  if (status) fail(c, status, "settings");
  c->has_settings = 1;
}

/* Gives up the sections of a stream that are not decoded. */
static void cancel(connection *c, uint64_t id) {
  int status = h3_qpack_decoder_cancel_stream(&c->decoder, id);
  if (status) fail(c, status, "no cancellation");
}

/* Decodes the sections that insertions have unblocked. */
static void read_ready(connection *c) {
  uint64_t id;
  while (!c->is_closing && h3_qpack_decoder_next_ready(&c->decoder, &id)) {
    stream *s = stream_of(c, (int64_t)id);
    if (s && s->is_waiting) receive_on(c, s);
    else cancel(c, id);
  }
}

/* Bytes of the peer's encoder stream or decoder stream arrived. */
void read_instructions(connection *c, stream *s) {
  int is_encoder_stream = s->type == 2;
  if (!s->in.len) return;
  add_bytes_event(c, "received", (unsigned)s->type, s->in.at, s->in.len);
  h3_qpack_received r = is_encoder_stream ? h3_qpack_decoder_read_encoder(&c->decoder, s->in.at, s->in.len)
                                          : h3_qpack_encoder_read_decoder(&c->encoder, s->in.at, s->in.len);
  if (r.status) fail(c, r.status, "invalid instruction");
  else if (is_encoder_stream) read_ready(c);
}

/* Takes the fields of a section that was decoded. Those of trailers are in the log alone. Returns 0 without memory. */
static int take_fields(connection *c, stream *s, h3_qpack_decoded d, const uint8_t *section, size_t len) {
  h3_qpack_field *lengths = calloc(d.fields + 1, sizeof *lengths);
  h3_qpack_nv *fields = calloc(d.fields + 1, sizeof *fields);
  uint8_t *text = malloc(d.len + 1), *at = text;
  h3_qpack_written w = {H3_QPACK_ERR_NO_MEMORY, 0};
  if (lengths && fields && text) w = h3_qpack_decoder_fields(&c->decoder, lengths, d.fields, text, d.len);
  if (w.status) d.fields = 0;
  for (size_t i = 0; i < d.fields; i++) {
    const h3_qpack_field *f = &lengths[i];
    fields[i] = (h3_qpack_nv){at, f->namelen, at + f->namelen, f->valuelen, (uint8_t)f->flags};
    at += f->namelen + f->valuelen;
  }
  free(lengths);
  if (!w.status) add_section_event(c, "section received", s, d.required, section, len, fields, d.fields);
  if (w.status || s->sections) {
    free(fields);
    free(text);
  } else {
    s->fields = fields;
    s->field_count = d.fields;
    s->text = text;
  }
  s->sections += !w.status;
  return !w.status;
}

/* A HEADERS frame arrived, or its section may not be blocked any more: decodes it, and keeps the fields with the stream. */
void read_section(connection *c, stream *s, const uint8_t *section, size_t len) {
  h3_qpack_decoded d = h3_qpack_decoder_decode(&c->decoder, (uint64_t)s->id, section, len);
  s->is_waiting = d.status == H3_QPACK_BLOCKED;
  if (s->is_waiting) return;
  if (d.status == H3_QPACK_ERR_TOO_LARGE) refuse(c, s, "431"); /* an error of this stream alone */
  else if (d.status) fail(c, d.status, "invalid section");
  else if (!take_fields(c, s, d, section, len)) fail_for_memory(c);
}

/* Reading of a stream ends before its end: the peer must not wait for an acknowledgment (RFC 9204, section 2.2.2.2). */
void cancel_section(connection *c, stream *s) {
  cancel(c, (uint64_t)s->id);
  s->is_waiting = 0;
}

/* Encodes the fields of an answer, and appends its HEADERS frame to |out|. The instructions that it needs go first. */
void send_section(connection *c, stream *s, const h3_qpack_nv *nva, size_t nvlen, bytes *out) {
  uint8_t small[1024], *section = small;
  h3_qpack_encoded e = h3_qpack_encoder_encode(&c->encoder, (uint64_t)s->id, nva, nvlen, small, sizeof small);
  if (e.status == H3_QPACK_ERR_NO_ROOM) {
    section = malloc(e.len);
    e.status = section ? h3_qpack_encoder_section(&c->encoder, section, e.len).status : H3_QPACK_ERR_NO_MEMORY;
  }
  if (e.status) {
    fail(c, e.status, "no section");
    if (section != small) free(section);
    return;
  }
  add_section_event(c, "section sent", s, e.required, section, e.len, nva, nvlen);
  send_instructions(c);
  add_varint(out, 0x01);
  add_varint(out, e.len);
  add(out, section, e.len);
  if (section != small) free(section);
}

/* Sends what both ends have to say on this side's encoder stream and decoder stream. A peer that does not read them ends
 * its connection. */
void send_instructions(connection *c) {
  uint8_t piece[2048];
  size_t len;
  if (!c->is_open) return;
  while (now() >= c->encoder_stream_due && (len = h3_qpack_encoder_write_encoder(&c->encoder, piece, sizeof piece))) {
    add_bytes_event(c, "sent", 2, piece, len);
    send_on(c, &c->own[ENCODER], piece, len);
  }
  if (option.late && now() >= c->encoder_stream_due)
    c->encoder_stream_due = now() + (uint64_t)option.late * NGTCP2_MILLISECONDS;
  while ((len = h3_qpack_decoder_write_decoder(&c->decoder, piece, sizeof piece))) {
    add_bytes_event(c, "sent", 3, piece, len);
    send_on(c, &c->own[DECODER], piece, len);
  }
  if (c->own[ENCODER].queued > MOST_INSTRUCTIONS || c->own[DECODER].queued > MOST_INSTRUCTIONS)
    end_connection(c, H3_EXCESSIVE_LOAD, "instructions are not read");
}

/* ---- What both ends tell of their tables */

enum { SHOWN_ENTRIES = 25 };

/* Appends the newest entries of the encoder's table, or of the decoder's, as [["name","value"],..]. */
static void add_entries(bytes *b, connection *c, int is_encoder) {
  size_t count = is_encoder ? h3_qpack_encoder_get_num_entries(&c->encoder) : h3_qpack_decoder_get_num_entries(&c->decoder);
  size_t room = is_encoder ? h3_qpack_encoder_get_capacity(&c->encoder) : h3_qpack_decoder_get_capacity(&c->decoder);
  uint8_t *text = malloc(room + 1); /* an entry is smaller than the table */
  add(b, "[", 1);
  for (size_t i = 0; text && i < count && i < SHOWN_ENTRIES; i++) {
    h3_qpack_field f =
        is_encoder ? h3_qpack_encoder_entry(&c->encoder, i, text, room) : h3_qpack_decoder_entry(&c->decoder, i, text, room);
    if (f.status) break;
    add_text(b, i ? ",[" : "[");
    add_json(b, text, f.namelen);
    add(b, ",", 1);
    add_json(b, text + f.namelen, f.valuelen);
    add(b, "]", 1);
  }
  add(b, "]", 1);
  free(text);
}

/* Appends a line of JSON: both tables as they are now, and whether the events have reached their bound. */
void add_tables(bytes *b, connection *c) {
  add_text(b, "{\"connection\":%u,\"event\":\"tables\",\"full\":%d,", c->number, c->events.is_short);
  add_text(b, "\"received\":{\"capacity\":%zu,\"size\":%zu,\"insertions\":%zu,", h3_qpack_decoder_get_capacity(&c->decoder),
           h3_qpack_decoder_get_table_size(&c->decoder), h3_qpack_decoder_get_icnt(&c->decoder));
  add_text(b, "\"blocked\":%zu,\"entries\":", h3_qpack_decoder_get_num_blocked(&c->decoder));
  add_entries(b, c, 0);
  add_text(b, "},\"sent\":{\"capacity\":%zu,\"size\":%zu,\"insertions\":%zu,", h3_qpack_encoder_get_capacity(&c->encoder),
           h3_qpack_encoder_get_table_size(&c->encoder), h3_qpack_encoder_get_icnt(&c->encoder));
  add_text(b, "\"known\":%zu,\"unacknowledged\":%zu,\"blocked\":%zu,\"entries\":", h3_qpack_encoder_get_krcnt(&c->encoder),
           h3_qpack_encoder_get_num_unacked(&c->encoder), h3_qpack_encoder_get_num_blocked(&c->encoder));
  add_entries(b, c, 1);
  add_text(b, "}}\n");
}

void close_qpack(connection *c) {
  h3_qpack_encoder_del(&c->encoder);
  h3_qpack_decoder_del(&c->decoder);
}
