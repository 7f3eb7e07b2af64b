/* The same connection over QUIC, on the loopback: ngtcp2 with GnuTLS carries the streams of both ends, of which one is
 * nghttp3 and the other the small framing that uses this library for QPACK, as client and as server. Of the datagrams
 * behind the handshake one in ten is lost, so streams arrive out of order. The certificate is made for the run, and
 * the client believes it. */
#include "http3.h"

#include <arpa/inet.h>
#include <gnutls/crypto.h>
#include <gnutls/gnutls.h>
#include <gnutls/x509.h>
#include <ngtcp2/ngtcp2.h>
#include <ngtcp2/ngtcp2_crypto.h>
#include <ngtcp2/ngtcp2_crypto_gnutls.h>
#include <poll.h>
#include <sys/socket.h>
#include <unistd.h>

#define CONNECTION_ID 16
#define STREAM_ROOM (1 << 18) /* ngtcp2 reads what is sent until it is acknowledged, so it must not move */

typedef struct {
  int is_client, is_ours;
  side *x;
  int socket;
  struct sockaddr_in here, there;
  ngtcp2_conn *conn; /* of a server: none before the first datagram */
  ngtcp2_crypto_conn_ref ref;
  gnutls_session_t tls;
  int has_streams; /* its own three are open */
  size_t datagrams;
} quic_end;

static gnutls_certificate_credentials_t credentials[2];

/* ---- certificate and TLS */

static void make_credentials(void) {
  gnutls_x509_privkey_t key;
  gnutls_x509_crt_t certificate;
  unsigned bits = GNUTLS_CURVE_TO_BITS(GNUTLS_ECC_CURVE_SECP256R1);
  CHECK(!gnutls_x509_privkey_init(&key) && !gnutls_x509_privkey_generate(key, GNUTLS_PK_ECDSA, bits, 0));
  CHECK(!gnutls_x509_crt_init(&certificate) && !gnutls_x509_crt_set_version(certificate, 3));
  CHECK(!gnutls_x509_crt_set_serial(certificate, "\1", 1) && !gnutls_x509_crt_set_key(certificate, key));
  CHECK(!gnutls_x509_crt_set_dn_by_oid(certificate, GNUTLS_OID_X520_COMMON_NAME, 0, "localhost", 9));
  CHECK(!gnutls_x509_crt_set_activation_time(certificate, time(NULL) - 60));
  CHECK(!gnutls_x509_crt_set_expiration_time(certificate, time(NULL) + 3600));
  CHECK(!gnutls_x509_crt_sign2(certificate, certificate, key, GNUTLS_DIG_SHA256, 0));
  for (int i = 0; i < 2; i++) CHECK(!gnutls_certificate_allocate_credentials(&credentials[i]));
  CHECK(gnutls_certificate_set_x509_key(credentials[0], &certificate, 1, key) >= 0);
  gnutls_x509_crt_deinit(certificate);
  gnutls_x509_privkey_deinit(key);
}

static ngtcp2_conn *conn_of(ngtcp2_crypto_conn_ref *ref) { return ((quic_end *)ref->user_data)->conn; }

static void begin_tls(quic_end *e) {
  static const gnutls_datum_t protocol = {(unsigned char *)"h3", 2};
  CHECK(!gnutls_init(&e->tls, (e->is_client ? GNUTLS_CLIENT : GNUTLS_SERVER) | GNUTLS_NO_AUTO_SEND_TICKET));
  CHECK(!gnutls_priority_set_direct(e->tls, "%DISABLE_TLS13_COMPAT_MODE:NORMAL:-VERS-ALL:+VERS-TLS1.3", NULL));
  CHECK(!(e->is_client ? ngtcp2_crypto_gnutls_configure_client_session(e->tls)
                       : ngtcp2_crypto_gnutls_configure_server_session(e->tls)));
  e->ref.get_conn = conn_of;
  e->ref.user_data = e;
  gnutls_session_set_ptr(e->tls, &e->ref);
  CHECK(!gnutls_credentials_set(e->tls, GNUTLS_CRD_CERTIFICATE, credentials[e->is_client]));
  CHECK(!gnutls_alpn_set_protocols(e->tls, &protocol, 1, GNUTLS_ALPN_MANDATORY));
  ngtcp2_conn_set_tls_native_handle(e->conn, e->tls);
}

/* ---- what ngtcp2 calls */

static void fill(uint8_t *p, size_t len, const ngtcp2_rand_ctx *context) {
  (void)context;
  CHECK(!gnutls_rnd(GNUTLS_RND_RANDOM, p, len));
}

static int name_connection(ngtcp2_conn *conn, ngtcp2_cid *id, uint8_t *token, size_t len, void *user) {
  (void)conn, (void)user;
  id->datalen = len;
  fill(id->data, len, NULL);
  fill(token, NGTCP2_STATELESS_RESET_TOKENLEN, NULL);
  return 0;
}

static int take_stream(ngtcp2_conn *conn, uint32_t flags, int64_t id, uint64_t offset, const uint8_t *data, size_t len,
                       void *user, void *stream_user) {
  quic_end *e = user;
  int fin = !!(flags & NGTCP2_STREAM_DATA_FLAG_FIN);
  (void)conn, (void)stream_user;
  CHECK(id < STREAMS);
  if (!e->is_ours) {
    CHECK(nghttp3_conn_read_stream(e->x->peer, id, data, len, fin) >= 0);
    return 0;
  }
  pipe_t *b = &e->x->in[id];
  CHECK(offset == b->len);
  append(b, data, len);
  b->seen = b->len;
  b->fin |= fin;
  return 0;
}

static int take_acknowledgment(ngtcp2_conn *conn, int64_t id, uint64_t offset, uint64_t len, void *user, void *stream_user) {
  quic_end *e = user;
  (void)conn, (void)offset, (void)stream_user;
  if (!e->is_ours) CHECK(!nghttp3_conn_add_ack_offset(e->x->peer, id, len));
  return 0;
}

static const ngtcp2_callbacks calls = {
    .client_initial = ngtcp2_crypto_client_initial_cb,
    .recv_client_initial = ngtcp2_crypto_recv_client_initial_cb,
    .recv_crypto_data = ngtcp2_crypto_recv_crypto_data_cb,
    .encrypt = ngtcp2_crypto_encrypt_cb,
    .decrypt = ngtcp2_crypto_decrypt_cb,
    .hp_mask = ngtcp2_crypto_hp_mask_cb,
    .recv_stream_data = take_stream,
    .acked_stream_data_offset = take_acknowledgment,
    .recv_retry = ngtcp2_crypto_recv_retry_cb,
    .rand = fill,
    .get_new_connection_id = name_connection,
    .update_key = ngtcp2_crypto_update_key_cb,
    .delete_crypto_aead_ctx = ngtcp2_crypto_delete_crypto_aead_ctx_cb,
    .delete_crypto_cipher_ctx = ngtcp2_crypto_delete_crypto_cipher_ctx_cb,
    .get_path_challenge_data = ngtcp2_crypto_get_path_challenge_data_cb,
    .version_negotiation = ngtcp2_crypto_version_negotiation_cb,
};

/* ---- an end of QUIC */

static ngtcp2_path path_of(quic_end *e) {
  ngtcp2_addr here = {(struct sockaddr *)&e->here, sizeof e->here};
  ngtcp2_addr there = {(struct sockaddr *)&e->there, sizeof e->there};
  return (ngtcp2_path){here, there, NULL};
}

/* The client's connection, or the server's for the datagram that began it. */
static void begin_quic(quic_end *e, const ngtcp2_pkt_hd *first) {
  ngtcp2_settings settings;
  ngtcp2_transport_params params;
  ngtcp2_path path = path_of(e);
  ngtcp2_cid own = {.datalen = CONNECTION_ID}, other = {.datalen = CONNECTION_ID};
  ngtcp2_settings_default(&settings);
  ngtcp2_transport_params_default(&params);
  settings.initial_ts = now();
  params.initial_max_streams_bidi = REQUESTS;
  params.initial_max_streams_uni = 3;
  params.initial_max_data = 1 << 24;
  params.initial_max_stream_data_bidi_local = params.initial_max_stream_data_bidi_remote = STREAM_ROOM;
  params.initial_max_stream_data_uni = STREAM_ROOM;
  fill(own.data, own.datalen, NULL);
  fill(other.data, other.datalen, NULL);
  if (first) {
    params.original_dcid = first->dcid;
    CHECK(!ngtcp2_conn_server_new(&e->conn, &first->scid, &own, &path, first->version, &calls, &settings, &params, NULL, e));
  } else {
    CHECK(!ngtcp2_conn_client_new(&e->conn, &other, &own, &path, NGTCP2_PROTO_VER_V1, &calls, &settings, &params, NULL, e));
  }
  begin_tls(e);
}

static void open_socket(quic_end *e) {
  socklen_t len = sizeof e->here;
  e->socket = socket(AF_INET, SOCK_DGRAM, 0);
  CHECK(e->socket >= 0);
  e->here.sin_family = AF_INET;
  e->here.sin_addr.s_addr = htonl(INADDR_LOOPBACK);
  CHECK(!bind(e->socket, (struct sockaddr *)&e->here, len));
  CHECK(!getsockname(e->socket, (struct sockaddr *)&e->here, &len));
}

static void connect_socket(quic_end *e, const quic_end *other) {
  e->there = other->here;
  CHECK(!connect(e->socket, (struct sockaddr *)&e->there, sizeof e->there));
}

static int is_ready(const quic_end *e) { return e->conn && ngtcp2_conn_get_handshake_completed(e->conn); }

/* The stream that has something to send, what that is, and whether it is the last; -1 where nothing is to be sent. */
static int64_t next_pieces(quic_end *e, nghttp3_vec *pieces, size_t *number, int *fin) {
  side *x = e->x;
  int64_t id = -1;
  if (!e->is_ours) {
    nghttp3_ssize n = e->has_streams ? nghttp3_conn_writev_stream(x->peer, &id, fin, pieces, 8) : 0;
    CHECK(n >= 0);
    *number = (size_t)n;
    return id;
  }
  for (id = 0; e->has_streams && id < STREAMS; id++) {
    pipe_t *b = &x->out[id];
    if (b->seen == b->len) continue;
    CHECK(b->room == STREAM_ROOM);
    pieces->base = b->p + b->seen;
    pieces->len = b->len - b->seen;
    *number = 1;
    *fin = b->fin;
    return id;
  }
  return -1;
}

static void send_datagrams(quic_end *e) {
  for (;;) {
    uint8_t datagram[1200];
    nghttp3_vec pieces[8];
    size_t number = 0;
    int fin = 0;
    ngtcp2_ssize taken = -1;
    int64_t id = next_pieces(e, pieces, &number, &fin);
    ngtcp2_ssize len =
        ngtcp2_conn_writev_stream(e->conn, NULL, NULL, datagram, sizeof datagram, &taken,
                                  fin ? NGTCP2_WRITE_STREAM_FLAG_FIN : 0, id, (const ngtcp2_vec *)pieces, number, now());
    if (len < 0) fprintf(stderr, "quic: stream %d: %s\n", (int)id, ngtcp2_strerror((int)len));
    CHECK(len >= 0);
    if (taken >= 0 && e->is_ours) e->x->out[id].seen += (size_t)taken;
    if (taken >= 0 && !e->is_ours) CHECK(!nghttp3_conn_add_write_offset(e->x->peer, id, (size_t)taken));
    if (!len) return;
    CHECK(send(e->socket, datagram, (size_t)len, 0) == len);
    e->datagrams++;
  }
}

static void accept_first(quic_end *e, const uint8_t *datagram, size_t len) {
  ngtcp2_pkt_hd first;
  CHECK(!ngtcp2_accept(&first, datagram, len));
  begin_quic(e, &first);
}

/* Reads what has arrived; where |lossy|, one datagram in ten has not. */
static void receive_datagrams(quic_end *e, int lossy) {
  uint8_t datagram[2048];
  ngtcp2_path path = path_of(e);
  for (;;) {
    ssize_t len = recv(e->socket, datagram, sizeof datagram, MSG_DONTWAIT);
    if (len < 0) return;
    if (lossy && !random_below(10)) continue;
    if (!e->conn) accept_first(e, datagram, (size_t)len);
    int status = ngtcp2_conn_read_pkt(e->conn, &path, NULL, datagram, (size_t)len, now());
    if (status) fprintf(stderr, "quic: %s\n", ngtcp2_strerror(status));
    CHECK(!status);
  }
}

static void end_quic(quic_end *e) {
  ngtcp2_conn_del(e->conn);
  gnutls_deinit(e->tls);
  close(e->socket);
}

/* ---- HTTP/3 over it */

/* Sends and receives on both ends, and waits for at most what the first timer leaves. */
static void exchange(quic_end ends[2], int lossy) {
  struct pollfd wanted[2] = {{ends[0].socket, POLLIN, 0}, {ends[1].socket, POLLIN, 0}};
  uint64_t first = now() + NGTCP2_SECONDS;
  for (int i = 0; i < 2; i++) {
    if (!ends[i].conn) continue;
    if (ngtcp2_conn_get_expiry(ends[i].conn) <= now()) CHECK(!ngtcp2_conn_handle_expiry(ends[i].conn, now()));
    send_datagrams(&ends[i]);
    uint64_t expiry = ngtcp2_conn_get_expiry(ends[i].conn);
    first = expiry < first ? expiry : first;
  }
  uint64_t at = now();
  CHECK(poll(wanted, 2, first > at ? (int)((first - at) / NGTCP2_MILLISECONDS) + 1 : 0) >= 0);
  for (int i = 0; i < 2; i++) receive_datagrams(&ends[i], lossy);
}

/* Opens the three streams that an end has of its own: control, encoder and decoder stream. */
static void open_streams(quic_end *e) {
  for (int64_t wanted = e->is_client ? 2 : 3, id = -1; wanted < 12; wanted += 4)
    CHECK(!ngtcp2_conn_open_uni_stream(e->conn, &id, NULL) && id == wanted);
  e->has_streams = 1;
}

static void send_requests(side *x, quic_end *client) {
  for (int64_t wanted = 0, id = -1; wanted < 4 * REQUESTS; wanted += 4) {
    const list *l = request_of(wanted);
    CHECK(!ngtcp2_conn_open_bidi_stream(client->conn, &id, NULL) && id == wanted);
    if (x->is_client) send_message(x, id, l);
    else CHECK(!nghttp3_conn_submit_request(x->peer, id, l->ng, l->len, &reader, NULL));
  }
}

/* Takes what has arrived at our end: the peer's own streams, and the requests' once its settings are there. */
static void take_arrived(side *x, quic_end *client) {
  int had_settings = x->has_settings;
  pipe_t *control = &x->in[x->is_client ? 3 : 2];
  if (control->seen > control->read) take_own_stream(x, control);
  if (!x->has_settings) return;
  if (!had_settings) {
    make_encoder(x);
    send_requests(x, client);
  }
  for (int64_t id = 0; id < STREAMS; id++) {
    pipe_t *b = &x->in[id];
    if (b->seen == b->read || b == control) continue;
    if (id & 2) take_own_stream(x, b);
    else if (!x->is_waiting[id]) take_frames(x, id);
  }
  send_streams(x);
}

static void reserve_streams(side *x) {
  for (int64_t id = 0; id < STREAMS; id++) {
    pipe_t *b = &x->out[id];
    b->p = realloc(b->p, STREAM_ROOM);
    CHECK(b->p && b->len <= STREAM_ROOM);
    b->room = STREAM_ROOM;
  }
}

static void connect_over_quic(int is_client, size_t capacity, size_t blocked) {
  static side x;
  quic_end ends[2] = {{.is_client = 1, .is_ours = is_client}, {.is_client = 0, .is_ours = !is_client}};
  uint64_t begun = now();
  begin(&x, is_client, capacity, blocked);
  reserve_streams(&x);
  for (int i = 0; i < 2; i++) {
    ends[i].x = &x;
    open_socket(&ends[i]);
  }
  for (int i = 0; i < 2; i++) connect_socket(&ends[i], &ends[!i]);
  begin_quic(&ends[0], NULL);
  while (x.heard_by_peer < REQUESTS || x.heard < REQUESTS) {
    CHECK(now() - begun < 60 * NGTCP2_SECONDS);
    for (int i = 0; i < 2; i++)
      if (!ends[i].has_streams && is_ready(&ends[i])) open_streams(&ends[i]);
    exchange(ends, ends[0].has_streams && ends[1].has_streams);
    take_arrived(&x, &ends[0]);
  }
  printf("quic: as %s, table %zu, limit %zu: %d requests in %zu datagrams, of which one in ten was lost; "
         "%zu sections waited\n",
         is_client ? "client" : "server", capacity, blocked, REQUESTS, ends[0].datagrams + ends[1].datagrams, x.waited);
  for (int i = 0; i < 2; i++) end_quic(&ends[i]);
  finish(&x);
}

int main(int argc, char **argv) {
  CHECK(argc == 2);
  read_corpus(argv[1], 1);
  for (size_t i = 0; i < sizeof body; i++) body[i] = (uint8_t)i;
  make_credentials();
  for (int i = 0; i < 6; i++) connect_over_quic(i & 1, 4096, 100);
  for (int i = 0; i < 2; i++) gnutls_certificate_free_credentials(credentials[i]);
  free_lists();
  return 0;
}
