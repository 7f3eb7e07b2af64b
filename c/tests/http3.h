/* HTTP/3 at two ends, whatever carries their streams: nghttp3, and a small framing that uses this library for QPACK.
 * They exchange a hundred requests with bodies, and each end checks what it hears. */
#ifndef HTTP3_H
#define HTTP3_H

#include "peer.h"

#define STREAMS 424
#define REQUESTS 100
#define BODY 3000

/* Bytes of one direction of a stream: those up to |seen| have arrived, those up to |read| were read. */
typedef struct {
  uint8_t *p;
  size_t len, room, seen, read;
  int fin;
} pipe_t;

typedef struct {
  int is_client;
  pipe_t in[STREAMS], out[STREAMS];
  h3_qpack_encoder encoder;
  h3_qpack_decoder decoder;
  nghttp3_conn *peer;
  uint64_t capacity, blocked, peer_capacity, peer_blocked;
  int has_settings;
  size_t heard_by_peer, heard, waited, given_up;
  size_t peer_fields[STREAMS], peer_body[STREAMS], body[STREAMS];
  int is_waiting[STREAMS], is_decoded[STREAMS], is_given_up[STREAMS], is_done[STREAMS];
} side;

static uint8_t body[BODY];

static inline const list *request_of(int64_t id) { return &lists[(size_t)(id / 4 * 2) % nlists]; }
static inline const list *response_of(int64_t id) { return &lists[((size_t)(id / 4 * 2) + 1) % nlists]; }

/* How many bytes the body of a message has: none where the answer is a 204 or a 304, which have none. */
static inline size_t body_of(int64_t id) {
  const h3_qpack_nv *status = &response_of(id)->nv[0];
  CHECK(status->namelen == 7 && !memcmp(status->name, ":status", 7));
  return memcmp(status->value, "204", 3) && memcmp(status->value, "304", 3) ? (size_t)id * 37 % BODY : 0;
}

static inline void append(pipe_t *b, const void *p, size_t n) {
  if (b->len + n > b->room) {
    b->room = (b->len + n) * 2;
    b->p = realloc(b->p, b->room);
    CHECK(b->p);
  }
  if (n) memcpy(b->p + b->len, p, n);
  b->len += n;
}

static inline void append_number(pipe_t *b, uint64_t n) {
  uint8_t bytes[8];
  int len = n < 64 ? 1 : n < 16384 ? 2 : n < 1073741824 ? 4 : 8;
  for (int i = 0; i < len; i++) bytes[i] = (uint8_t)(n >> 8 * (len - 1 - i));
  bytes[0] |= (uint8_t)(len == 1 ? 0 : len == 2 ? 0x40 : len == 4 ? 0x80 : 0xc0);
  append(b, bytes, (size_t)len);
}

static inline int read_number(const uint8_t **p, const uint8_t *end, uint64_t *n) {
  if (*p == end) return 0;
  int len = 1 << (**p >> 6);
  if (end - *p < len) return 0;
  *n = **p & 0x3f;
  for (int i = 1; i < len; i++) *n = *n << 8 | (*p)[i];
  *p += len;
  return 1;
}

/* ---- nghttp3's end */

static inline int take_header(nghttp3_conn *conn, int64_t id, int32_t token, nghttp3_rcbuf *name, nghttp3_rcbuf *value,
                              uint8_t flags, void *user, void *stream_user) {
  side *x = user;
  const list *l = x->is_client ? request_of(id) : response_of(id);
  size_t at = x->peer_fields[id]++;
  nghttp3_vec n = nghttp3_rcbuf_get_buf(name), v = nghttp3_rcbuf_get_buf(value);
  (void)conn, (void)token, (void)flags, (void)stream_user;
  CHECK(at < l->len && n.len == l->nv[at].namelen && !memcmp(n.base, l->nv[at].name, n.len));
  CHECK(v.len == l->nv[at].valuelen && !memcmp(v.base, l->nv[at].value, v.len));
  return 0;
}

static inline int take_data(nghttp3_conn *conn, int64_t id, const uint8_t *data, size_t len, void *user, void *stream_user) {
  side *x = user;
  (void)conn, (void)stream_user;
  CHECK(x->peer_body[id] + len <= body_of(id) && !memcmp(data, body + x->peer_body[id], len));
  x->peer_body[id] += len;
  return 0;
}

static inline nghttp3_ssize give_body(nghttp3_conn *conn, int64_t id, nghttp3_vec *vec, size_t veccnt, uint32_t *flags,
                                      void *user, void *stream_user) {
  (void)conn, (void)veccnt, (void)user, (void)stream_user;
  vec[0].base = body;
  vec[0].len = body_of(id);
  *flags |= NGHTTP3_DATA_FLAG_EOF;
  return body_of(id) ? 1 : 0;
}

static const nghttp3_data_reader reader = {give_body};

static inline int end_stream(nghttp3_conn *conn, int64_t id, void *user, void *stream_user) {
  side *x = user;
  const list *l = x->is_client ? request_of(id) : response_of(id);
  (void)stream_user;
  CHECK(x->peer_fields[id] == l->len && x->peer_body[id] == body_of(id));
  x->heard_by_peer++;
  if (x->is_client) CHECK(!nghttp3_conn_submit_response(conn, id, response_of(id)->ng, response_of(id)->len, &reader));
  return 0;
}

/* ---- our end */

static inline void send_streams(side *x) {
  uint8_t piece[256];
  size_t len;
  while ((len = h3_qpack_encoder_write_encoder(&x->encoder, piece, sizeof piece)))
    append(&x->out[x->is_client ? 6 : 7], piece, len);
  while ((len = h3_qpack_decoder_write_decoder(&x->decoder, piece, sizeof piece)))
    append(&x->out[x->is_client ? 10 : 11], piece, len);
}

static inline void send_message(side *x, int64_t id, const list *l) {
  static uint8_t section[1 << 16];
  pipe_t *out = &x->out[id];
  h3_qpack_encoded a = h3_qpack_encoder_encode(&x->encoder, (uint64_t)id, l->nv, l->len, section, sizeof section);
  CHECK(a.status == H3_QPACK_OK);
  append_number(out, 0x01);
  append_number(out, a.len);
  append(out, section, a.len);
  for (size_t at = 0; at < body_of(id);) {
    size_t piece = 1 + random_below(body_of(id) - at);
    append_number(out, 0x00);
    append_number(out, piece);
    append(out, body + at, piece);
    at += piece;
  }
  out->fin = 1;
  send_streams(x);
}

/* Decodes a section, and answers whether it did not wait. */
static inline int take_section(side *x, int64_t id, const uint8_t *p, size_t len) {
  const list *l = x->is_client ? response_of(id) : request_of(id);
  h3_qpack_decoded r = h3_qpack_decoder_decode(&x->decoder, (uint64_t)id, p, len);
  if (r.status == H3_QPACK_BLOCKED) {
    x->waited += !x->is_waiting[id];
    x->is_waiting[id] = 1;
    return 0;
  }
  x->is_waiting[id] = 0;
  CHECK(r.status == H3_QPACK_OK && r.fields == l->len && !x->is_decoded[id]);
  x->is_decoded[id] = 1;
  check_fields(&x->decoder, l->nv, l->len);
  return 1;
}

/* Takes the frames of a request's stream that stand whole. */
static inline void take_frames(side *x, int64_t id) {
  pipe_t *b = &x->in[id];
  const uint8_t *end = b->p + b->seen;
  if (x->is_given_up[id] || x->is_done[id]) return;
  for (;;) {
    const uint8_t *p = b->p + b->read;
    uint64_t type, len;
    if (!read_number(&p, end, &type) || !read_number(&p, end, &len) || (uint64_t)(end - p) < len) break;
    if (type == 0x01 && !take_section(x, id, p, len)) break;
    if (type == 0x00) {
      CHECK(x->body[id] + len <= body_of(id) && !memcmp(p, body + x->body[id], len));
      x->body[id] += len;
    }
    b->read = (size_t)(p + len - b->p);
  }
  if (b->fin && b->read == b->len) {
    CHECK(x->is_decoded[id] && x->body[id] == body_of(id));
    x->is_done[id] = 1;
    x->heard++;
    if (!x->is_client) send_message(x, id, response_of(id));
  }
}

static inline void take_settings(side *x, const uint8_t *p, const uint8_t *end) {
  uint64_t id, value;
  while (read_number(&p, end, &id) && read_number(&p, end, &value)) {
    if (id == 0x01) x->peer_capacity = value;
    if (id == 0x07) x->peer_blocked = value;
  }
  x->has_settings = 1;
}

static inline void take_control(side *x, pipe_t *b) {
  for (;;) {
    const uint8_t *p = b->p + b->read, *end = b->p + b->seen;
    uint64_t type, len;
    if (!read_number(&p, end, &type) || !read_number(&p, end, &len) || (uint64_t)(end - p) < len) return;
    if (type == 0x04) take_settings(x, p, p + len);
    b->read = (size_t)(p + len - b->p);
  }
}

/* Reads what has arrived on one of the peer's own streams. */
static inline void take_own_stream(side *x, pipe_t *b) {
  if (!b->read) b->read = 1; /* its type, which is below 64 */
  const uint8_t *p = b->p + b->read;
  size_t len = b->seen - b->read;
  if (b->p[0] == 0x00) take_control(x, b);
  if (b->p[0] == 0x02 || b->p[0] == 0x03) {
    h3_qpack_received r = b->p[0] == 0x02 ? h3_qpack_decoder_read_encoder(&x->decoder, p, len)
                                          : h3_qpack_encoder_read_decoder(&x->encoder, p, len);
    CHECK(r.status == H3_QPACK_OK && r.taken == len);
    b->read = b->seen;
  }
  uint64_t ready;
  while (h3_qpack_decoder_next_ready(&x->decoder, &ready)) take_frames(x, (int64_t)ready);
}

/* ---- a connection of the two, of which this library is the client or the server */

static inline void begin_peer(side *x) {
  static const nghttp3_callbacks callbacks = {.recv_header = take_header, .recv_data = take_data, .end_stream = end_stream};
  nghttp3_settings settings;
  nghttp3_settings_default(&settings);
  settings.qpack_max_dtable_capacity = settings.qpack_encoder_max_dtable_capacity = x->capacity;
  settings.qpack_blocked_streams = x->blocked;
  if (x->is_client) {
    CHECK(!nghttp3_conn_server_new(&x->peer, &callbacks, &settings, nghttp3_mem_default(), x));
    nghttp3_conn_set_max_client_streams_bidi(x->peer, REQUESTS);
    CHECK(!nghttp3_conn_bind_control_stream(x->peer, 3) && !nghttp3_conn_bind_qpack_streams(x->peer, 7, 11));
  } else {
    CHECK(!nghttp3_conn_client_new(&x->peer, &callbacks, &settings, nghttp3_mem_default(), x));
    CHECK(!nghttp3_conn_bind_control_stream(x->peer, 2) && !nghttp3_conn_bind_qpack_streams(x->peer, 6, 10));
  }
}

/* Both ends with the same settings; ours has written them, and the types of its own streams. */
static inline void begin(side *x, int is_client, size_t capacity, size_t blocked) {
  memset(x, 0, sizeof *x);
  x->is_client = is_client;
  x->capacity = capacity;
  x->blocked = blocked;
  begin_peer(x);
  pipe_t own = {0}, *control = &x->out[is_client ? 2 : 3];
  append_number(&own, 0x01);
  append_number(&own, capacity);
  append_number(&own, 0x07);
  append_number(&own, blocked);
  append_number(control, 0x00);
  append_number(control, 0x04);
  append_number(control, own.len);
  append(control, own.p, own.len);
  free(own.p);
  append_number(&x->out[is_client ? 6 : 7], 0x02);
  append_number(&x->out[is_client ? 10 : 11], 0x03);
  CHECK(!new_decoder(&x->decoder, capacity, blocked, 1 << 20));
}

/* The encoder, from the settings that the peer sent. */
static inline void make_encoder(side *x) {
  CHECK(x->peer_capacity == x->capacity && x->peer_blocked == x->blocked);
  CHECK(!new_encoder(&x->encoder, x->peer_capacity, x->peer_blocked));
}

/* Every request was answered, or given up, and nothing waits. */
static inline void finish(side *x) {
  CHECK(x->heard_by_peer == REQUESTS && x->heard + x->given_up == REQUESTS);
  CHECK(!h3_qpack_decoder_get_num_blocked(&x->decoder));
  nghttp3_conn_del(x->peer);
  h3_qpack_encoder_del(&x->encoder);
  h3_qpack_decoder_del(&x->decoder);
  for (int i = 0; i < STREAMS; i++) {
    free(x->in[i].p);
    free(x->out[i].p);
  }
}

#endif
