/* A whole HTTP/3 connection in memory: nghttp3 at one end, and at the other a small framing that uses this library for
 * QPACK, as client and as server. A hundred requests with bodies each; bytes arrive in pieces at random, the QPACK
 * streams before the requests or behind them, and some streams are given up. */
#include "http3.h"

static void move_from_peer(side *x) {
  for (;;) {
    int64_t id;
    int fin = 0;
    nghttp3_vec vec[8];
    nghttp3_ssize n = nghttp3_conn_writev_stream(x->peer, &id, &fin, vec, 8);
    CHECK(n >= 0);
    if (id < 0) return;
    CHECK(id < STREAMS);
    size_t len = 0;
    for (nghttp3_ssize i = 0; i < n; i++) {
      append(&x->in[id], vec[i].base, vec[i].len);
      len += vec[i].len;
    }
    x->in[id].fin |= fin;
    CHECK(!nghttp3_conn_add_write_offset(x->peer, id, len));
    CHECK(!nghttp3_conn_add_ack_offset(x->peer, id, len));
  }
}

/* Hands a piece of what we sent on a stream to the peer, and answers whether there was one. */
static int move_to_peer(side *x, int64_t id) {
  pipe_t *b = &x->out[id];
  size_t left = b->len - b->seen;
  if (!left) return 0;
  size_t piece = 1 + random_below(left);
  nghttp3_ssize taken = nghttp3_conn_read_stream(x->peer, id, b->p + b->seen, piece, b->fin && piece == left);
  if (taken < 0) fprintf(stderr, "stream %d: %s\n", (int)id, nghttp3_strerror((int)taken));
  CHECK(taken >= 0);
  b->seen += piece;
  return 1;
}

/* A piece arrives on a stream; answers whether there was one. */
static int arrive(side *x, int64_t id) {
  pipe_t *b = &x->in[id];
  size_t left = b->len - b->seen;
  if (!left) return 0;
  b->seen += 1 + random_below(left);
  if (id & 2) take_own_stream(x, b);
  else take_frames(x, id);
  if (x->is_client && x->is_waiting[id] && !x->is_given_up[id] && !random_below(4)) {
    CHECK(h3_qpack_decoder_cancel_stream(&x->decoder, (uint64_t)id) == H3_QPACK_OK);
    x->is_given_up[id] = 1;
    x->is_waiting[id] = 0;
    x->given_up++;
  }
  send_streams(x);
  return 1;
}

/* One piece on each stream, both ways; answers whether anything moved. */
static int turn(side *x, int is_late) {
  int moved = 0;
  move_from_peer(x);
  for (int half = 0; half < 2; half++)
    for (int64_t id = 0; id < STREAMS; id++)
      if (!(id & 2) == (half == !is_late)) moved |= move_to_peer(x, id) | arrive(x, id);
  return moved;
}

static void connect_both(int is_client, int is_late, size_t capacity, size_t blocked) {
  static side x;
  begin(&x, is_client, capacity, blocked);
  while (!x.has_settings) {
    move_from_peer(&x);
    CHECK(arrive(&x, is_client ? 3 : 2));
  }
  make_encoder(&x);
  for (int64_t id = 0; id < 4 * REQUESTS; id += 4) {
    const list *l = request_of(id);
    if (is_client) send_message(&x, id, l);
    else CHECK(!nghttp3_conn_submit_request(x.peer, id, l->ng, l->len, &reader, NULL));
    if (!random_below(4)) turn(&x, is_late);
  }
  while (turn(&x, is_late)) {
  }
  CHECK(!capacity == !x.waited && (!is_client || !capacity || x.given_up));
  printf("http3: as %s, table %zu, limit %zu, %s: %d requests; %zu sections waited, %zu streams given up\n",
         is_client ? "client" : "server", capacity, blocked, is_late ? "requests first" : "QPACK first", REQUESTS, x.waited,
         x.given_up);
  finish(&x);
}

int main(int argc, char **argv) {
  CHECK(argc == 2);
  read_corpus(argv[1], 1);
  for (size_t i = 0; i < sizeof body; i++) body[i] = (uint8_t)i;
  static const size_t tables[][2] = {{0, 0}, {4096, 100}, {65536, 100}};
  for (int t = 0; t < 3; t++)
    for (int i = 0; i < 4; i++) connect_both(i & 1, i >> 1, tables[t][0], tables[t][1]);
  free_lists();
  return 0;
}
