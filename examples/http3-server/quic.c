/* QUIC by ngtcp2 0.12 with GnuTLS, on one UDP socket of 127.0.0.1. */
#include <arpa/inet.h>
#include <errno.h>
#include <gnutls/crypto.h>
#include <ngtcp2/ngtcp2_crypto_gnutls.h>
#include <poll.h>
#include <signal.h>
#include <stdlib.h>
#include <string.h>
#include <sys/socket.h>
#include <time.h>
#include "server.h"

enum { ID_LENGTH = 16, PACKET = 1200, MOST_PACKETS = 64 };

static volatile sig_atomic_t is_stopped;
static gnutls_certificate_credentials_t credentials;
static int udp;
static struct sockaddr_in here;
static connection *connections;
static unsigned count, open_count; /* connections, ever and now */

uint64_t now(void) {
  struct timespec t;
  clock_gettime(CLOCK_MONOTONIC, &t);
  return (uint64_t)t.tv_sec * NGTCP2_SECONDS + (uint64_t)t.tv_nsec;
}

static void fill(uint8_t *at, size_t len, const ngtcp2_rand_ctx *context) {
  (void)context;
  CHECK(!gnutls_rnd(GNUTLS_RND_RANDOM, at, len));
}

/* ---- What the other parts call */

stream *stream_of(connection *c, int64_t id) {
  stream *s = c->streams;
  while (s && s->id != id) s = s->next;
  return s;
}

/* Returns a stream of the peer, which begins if it is new, or NULL without memory. */
static stream *find_stream(connection *c, int64_t id) {
  stream *s = stream_of(c, id);
  if (s) return s;
  if (!(s = calloc(1, sizeof *s))) return NULL;
  *s = (stream){.id = id, .type = -1, .next = c->streams, .file = -1};
  open_reader(s);
  return c->streams = s;
}

static void queue(connection *c, stream *s) {
  if (s->is_queued || s->is_shut) return;
  s->is_queued = 1;
  s->next_queued = NULL;
  if (c->last_queued) c->last_queued->next_queued = s;
  else c->first_queued = s;
  c->last_queued = s;
}

static void unqueue(connection *c, stream *s) {
  stream **at = &c->first_queued, *before = NULL;
  if (!s->is_queued) return;
  for (; *at != s; at = &(*at)->next_queued) before = *at;
  *at = s->next_queued;
  if (c->last_queued == s) c->last_queued = before;
  s->is_queued = 0;
}

void send_on(connection *c, stream *s, const uint8_t *p, size_t len) {
  if (s->is_shut || !len) return;
  chunk *k = malloc(sizeof *k + len);
  if (!k) {
    fail_for_memory(c);
    return;
  }
  *k = (chunk){.len = len};
  s->queued += len;
  c->queued += len;
  memcpy(k->at, p, len);
  if (s->last) s->last->next = k;
  else s->first = k;
  s->last = k;
  if (!s->unsent) s->unsent = k;
  queue(c, s);
}

void end_stream(connection *c, stream *s) {
  s->ends = 1;
  queue(c, s);
}

void reset_stream(connection *c, stream *s, uint64_t code) {
  s->is_given_up = s->is_shut = 1;
  unqueue(c, s);
  ngtcp2_conn_shutdown_stream(c->quic, s->id, code);
}

void stop_reading(connection *c, stream *s, uint64_t code) { ngtcp2_conn_shutdown_stream_read(c->quic, s->id, code); }

/* Flow control is the brake: the peer may send on only as fast as its bytes are read. */
void extend_windows(connection *c, stream *s, size_t len) {
  ngtcp2_conn_extend_max_stream_offset(c->quic, s->id, len);
  ngtcp2_conn_extend_max_offset(c->quic, len);
}

void end_connection(connection *c, uint64_t code, const char *why) {
  if (c->is_closing) return;
  c->is_closing = 1;
  ngtcp2_connection_close_error_set_application_error(&c->error, code, (const uint8_t *)why, strlen(why));
  add_event(c, "end", ",\"code\":%llu,\"why\":\"%s\"", (unsigned long long)code, why);
  fprintf(stderr, "http3-server: connection %u ends with 0x%llx: %s\n", c->number, (unsigned long long)code, why);
}

/* ---- What ngtcp2 calls */

static int make_id(ngtcp2_conn *quic, ngtcp2_cid *id, uint8_t *token, size_t len, void *user) {
  (void)quic, (void)user;
  id->datalen = len;
  fill(id->data, len, NULL);
  fill(token, NGTCP2_STATELESS_RESET_TOKENLEN, NULL);
  return 0;
}

static int on_data(ngtcp2_conn *quic, uint32_t flags, int64_t id, uint64_t offset, const uint8_t *data, size_t len, void *user,
                   void *stream_user) {
  connection *c = user;
  stream *s = find_stream(c, id);
  (void)quic, (void)offset, (void)stream_user;
  if (!s) return NGTCP2_ERR_CALLBACK_FAILURE;
  add(&s->in, data, len);
  if (flags & NGTCP2_STREAM_DATA_FLAG_FIN) s->has_ended = 1;
  receive_on(c, s);
  return 0;
}

/* Frees what is acknowledged, from the front of a stream. */
static int on_acknowledged(ngtcp2_conn *quic, int64_t id, uint64_t offset, uint64_t len, void *user, void *stream_user) {
  connection *c = user;
  stream *s = stream_of(c, id);
  (void)quic, (void)offset, (void)stream_user;
  for (int i = 0; i < OWN_STREAMS; i++)
    if (c->own[i].id == id) s = &c->own[i];
  while (s && s->first && s->first != s->unsent && len) {
    chunk *k = s->first;
    size_t part = k->len - k->acknowledged < len ? k->len - k->acknowledged : (size_t)len;
    k->acknowledged += part;
    len -= part;
    if (k->acknowledged < k->len) break;
    s->first = k->next;
    if (s->last == k) s->last = NULL;
    s->queued -= k->len;
    c->queued -= k->len;
    free(k);
  }
  return 0;
}

static int on_close(ngtcp2_conn *quic, uint32_t flags, int64_t id, uint64_t code, void *user, void *stream_user) {
  connection *c = user;
  stream *s = stream_of(c, id), **at = &c->streams;
  (void)flags, (void)code, (void)stream_user;
  if (!s) return 0;
  if (!s->is_answered) give_up(c, s);
  unqueue(c, s);
  while (*at != s) at = &(*at)->next;
  *at = s->next;
  ngtcp2_conn_extend_max_offset(quic, s->in.len);
  c->queued -= s->queued;
  free_stream(s);
  free(s);
  if (id & 2) ngtcp2_conn_extend_max_streams_uni(quic, 1);
  else ngtcp2_conn_extend_max_streams_bidi(quic, 1);
  return 0;
}

static int on_reset(ngtcp2_conn *quic, int64_t id, uint64_t size, uint64_t code, void *user, void *stream_user) {
  connection *c = user;
  stream *s = find_stream(c, id);
  (void)quic, (void)size, (void)stream_user;
  if (!s) return NGTCP2_ERR_CALLBACK_FAILURE;
  if (id & 2) { /* a critical stream may not end */
    s->has_ended = 1;
    receive_on(c, s);
    return 0;
  }
  if (s->is_given_up) return 0;
  give_up(c, s);
  reset_stream(c, s, code);
  return 0;
}

static const ngtcp2_callbacks callbacks = {
    .recv_client_initial = ngtcp2_crypto_recv_client_initial_cb,
    .recv_crypto_data = ngtcp2_crypto_recv_crypto_data_cb,
    .encrypt = ngtcp2_crypto_encrypt_cb,
    .decrypt = ngtcp2_crypto_decrypt_cb,
    .hp_mask = ngtcp2_crypto_hp_mask_cb,
    .recv_stream_data = on_data,
    .acked_stream_data_offset = on_acknowledged,
    .stream_close = on_close,
    .stream_reset = on_reset,
    .rand = fill,
    .get_new_connection_id = make_id,
    .update_key = ngtcp2_crypto_update_key_cb,
    .delete_crypto_aead_ctx = ngtcp2_crypto_delete_crypto_aead_ctx_cb,
    .delete_crypto_cipher_ctx = ngtcp2_crypto_delete_crypto_cipher_ctx_cb,
    .get_path_challenge_data = ngtcp2_crypto_get_path_challenge_data_cb,
    .version_negotiation = ngtcp2_crypto_version_negotiation_cb,
};

/* ---- Connections */

static ngtcp2_path path_to(const struct sockaddr_in *peer) {
  return (ngtcp2_path){{(struct sockaddr *)&here, sizeof here}, {(struct sockaddr *)(uintptr_t)peer, sizeof *peer}, NULL};
}

static ngtcp2_conn *quic_of(ngtcp2_crypto_conn_ref *ref) { return ((connection *)ref->user_data)->quic; }

/* Returns 0 if it fails. */
static int start_tls(connection *c) {
  static const gnutls_datum_t protocol = {(unsigned char *)"h3", 2};
  c->ref = (ngtcp2_crypto_conn_ref){quic_of, c};
  if (gnutls_init(&c->tls, GNUTLS_SERVER | GNUTLS_NO_AUTO_SEND_TICKET)) return 0;
  gnutls_session_set_ptr(c->tls, &c->ref);
  ngtcp2_conn_set_tls_native_handle(c->quic, c->tls);
  return !gnutls_priority_set_direct(c->tls, "%DISABLE_TLS13_COMPAT_MODE:NORMAL:-VERS-ALL:+VERS-TLS1.3", NULL) &&
         !ngtcp2_crypto_gnutls_configure_server_session(c->tls) &&
         !gnutls_credentials_set(c->tls, GNUTLS_CRD_CERTIFICATE, credentials) &&
         !gnutls_alpn_set_protocols(c->tls, &protocol, 1, GNUTLS_ALPN_MANDATORY);
}

/* The bounds of server.h are the peer's limits. The connection's window has room for that of each stream, so that a
 * stream that waits does not hold the encoder stream back, which it waits for (RFC 9204, section 2.1.3). */
static ngtcp2_transport_params limits_for(const ngtcp2_pkt_hd *header) {
  ngtcp2_transport_params parameters;
  ngtcp2_transport_params_default(&parameters);
  parameters.initial_max_streams_bidi = MOST_REQUESTS;
  parameters.initial_max_streams_uni = MOST_UNIDIRECTIONAL;
  parameters.initial_max_data = (MOST_REQUESTS + MOST_UNIDIRECTIONAL) * (uint64_t)STREAM_WINDOW;
  parameters.initial_max_stream_data_bidi_remote = STREAM_WINDOW;
  parameters.initial_max_stream_data_uni = STREAM_WINDOW;
  parameters.max_idle_timeout = 30 * NGTCP2_SECONDS;
  parameters.original_dcid = header->dcid;
  return parameters;
}

static int open_quic(connection *c, const ngtcp2_pkt_hd *header, const struct sockaddr_in *peer) {
  ngtcp2_settings settings;
  ngtcp2_transport_params parameters = limits_for(header);
  ngtcp2_cid own = {.datalen = ID_LENGTH};
  ngtcp2_path path = path_to(peer);
  fill(own.data, own.datalen, NULL);
  ngtcp2_settings_default(&settings);
  settings.initial_ts = now();
  return !ngtcp2_conn_server_new(&c->quic, &header->scid, &own, &path, header->version, &callbacks, &settings, &parameters,
                                 NULL, c);
}

static void free_connection(connection *c) {
  for (stream *s = c->streams, *next; s; s = next) {
    next = s->next;
    free_stream(s);
    free(s);
  }
  for (int i = 0; i < OWN_STREAMS; i++) free_stream(&c->own[i]);
  close_qpack(c);
  drop(&c->events);
  if (c->quic) ngtcp2_conn_del(c->quic);
  if (c->tls) gnutls_deinit(c->tls);
  free(c);
  open_count--;
}

/* Returns a new connection, or NULL without memory. */
static connection *begin(const ngtcp2_pkt_hd *header, const struct sockaddr_in *peer) {
  connection *c = calloc(1, sizeof *c);
  if (!c) return NULL;
  open_count++;
  c->number = ++count;
  c->first_id = header->dcid;
  for (int i = 0; i < OWN_STREAMS; i++) c->own[i].id = c->own[i].file = -1;
  ngtcp2_connection_close_error_default(&c->error);
  if (!open_quic(c, header, peer) || !start_tls(c) || !open_qpack(c)) {
    free_connection(c);
    return NULL;
  }
  c->next = connections;
  return connections = c;
}

/* The handshake is complete: opens the control stream and both streams of QPACK (RFC 9114, section 6.2). */
static void open_connection(connection *c) {
  c->is_open = 1;
  for (int i = 0; i < OWN_STREAMS; i++)
    if (ngtcp2_conn_open_uni_stream(c->quic, &c->own[i].id, NULL)) {
      end_connection(c, H3_STREAM_CREATION_ERROR, "too few streams");
      return;
    }
  open_http3(c);
}

static connection *connection_of(const ngtcp2_version_cid *to) {
  for (connection *c = connections; c; c = c->next) {
    ngtcp2_cid ids[64];
    size_t len = ngtcp2_conn_get_num_scid(c->quic);
    if (c->is_over || len > 64) continue;
    if (c->first_id.datalen == to->dcidlen && !memcmp(c->first_id.data, to->dcid, to->dcidlen)) return c;
    ngtcp2_conn_get_scid(c->quic, ids);
    for (size_t i = 0; i < len; i++)
      if (ids[i].datalen == to->dcidlen && !memcmp(ids[i].data, to->dcid, to->dcidlen)) return c;
  }
  return NULL;
}

/* ---- Datagrams */

static void send_datagram(const struct sockaddr *peer, socklen_t peerlen, const uint8_t *p, size_t len) {
  if (sendto(udp, p, len, 0, peer, peerlen) < 0 && errno != EAGAIN) perror("sendto");
}

/* Sends a packet on the path that ngtcp2 chose for it. */
static void send_packet(const ngtcp2_path_storage *to, const uint8_t *p, size_t len) {
  send_datagram(to->path.remote.addr, to->path.remote.addrlen, p, len);
}

static void close_connection(connection *c) {
  uint8_t packet[PACKET];
  ngtcp2_pkt_info info;
  ngtcp2_path_storage to;
  ngtcp2_path_storage_zero(&to);
  ngtcp2_ssize len = ngtcp2_conn_write_connection_close(c->quic, &to.path, &info, packet, sizeof packet, &c->error, now());
  if (len > 0) send_packet(&to, packet, (size_t)len);
  c->is_over = 1;
}

static void fail_quic(connection *c, int error) {
  if (error == NGTCP2_ERR_CRYPTO)
    ngtcp2_connection_close_error_set_transport_error_tls_alert(&c->error, ngtcp2_conn_get_tls_alert(c->quic), NULL, 0);
  else ngtcp2_connection_close_error_set_transport_error_liberr(&c->error, error, NULL, 0);
  c->is_closing = 1;
}

/* Notes what ngtcp2 took of a stream, and has the next piece of its answer read once all of this one is taken. */
static void pass(connection *c, stream *s, size_t len) {
  if (s->unsent) {
    s->unsent->sent += len;
    if (s->unsent->sent == s->unsent->len) s->unsent = s->unsent->next;
  }
  if (s->unsent) return;
  if (s->has_more) {
    send_more(c, s);
    return;
  }
  s->is_ended = s->ends;
  unqueue(c, s);
}

/* Writes what is queued, as far as congestion and flow control allow. */
static void write_packets(connection *c) {
  uint8_t packet[PACKET];
  if (c->is_closing) {
    close_connection(c);
    return;
  }
  send_instructions(c);
  for (stream *s = c->first_queued; s; s = s->next_queued) s->is_full = 0;
  for (int packets = 0; packets < MOST_PACKETS;) {
    stream *s = c->first_queued;
    while (s && s->is_full) s = s->next_queued;
    ngtcp2_vec data = {NULL, 0};
    uint32_t flags = s ? NGTCP2_WRITE_STREAM_FLAG_MORE : 0;
    if (s && s->unsent) data = (ngtcp2_vec){s->unsent->at + s->unsent->sent, s->unsent->len - s->unsent->sent};
    if (s && s->ends && (!s->unsent || !s->unsent->next)) flags |= NGTCP2_WRITE_STREAM_FLAG_FIN;
    ngtcp2_pkt_info info;
    ngtcp2_path_storage to;
    ngtcp2_path_storage_zero(&to);
    ngtcp2_ssize taken = -1, len = ngtcp2_conn_writev_stream(c->quic, &to.path, &info, packet, sizeof packet, &taken, flags,
                                                             s ? s->id : -1, &data, s != NULL, now());
    if (s && taken >= 0) pass(c, s, (size_t)taken);
    if (len == NGTCP2_ERR_WRITE_MORE) continue;
    if (len == NGTCP2_ERR_STREAM_DATA_BLOCKED) {
      s->is_full = 1;
    } else if (len == NGTCP2_ERR_STREAM_SHUT_WR || len == NGTCP2_ERR_STREAM_NOT_FOUND) {
      unqueue(c, s); /* the peer takes no more of it */
      close_answer(s);
      s->is_shut = 1;
    } else if (len < 0) {
      fail_quic(c, (int)len);
      close_connection(c);
      return;
    } else if (!len) {
      break;
    } else {
      send_packet(&to, packet, (size_t)len);
      packets++;
    }
  }
  ngtcp2_conn_update_pkt_tx_time(c->quic, now());
}

static void answer_version(const ngtcp2_version_cid *of, const struct sockaddr_in *peer) {
  static const uint32_t versions[] = {NGTCP2_PROTO_VER_V1};
  uint8_t packet[256], random;
  fill(&random, 1, NULL);
  ngtcp2_ssize len = ngtcp2_pkt_write_version_negotiation(packet, sizeof packet, random, of->scid, of->scidlen, of->dcid,
                                                          of->dcidlen, versions, 1);
  if (len > 0) send_datagram((const struct sockaddr *)peer, sizeof *peer, packet, (size_t)len);
}

/* There are too many connections: the peer may try again later. */
static void refuse_connection(const ngtcp2_pkt_hd *header, const struct sockaddr_in *peer) {
  uint8_t packet[PACKET];
  ngtcp2_ssize len = ngtcp2_crypto_write_connection_close(packet, sizeof packet, header->version, &header->scid, &header->dcid,
                                                          NGTCP2_CONNECTION_REFUSED, NULL, 0);
  if (len > 0) send_datagram((const struct sockaddr *)peer, sizeof *peer, packet, (size_t)len);
}

/* Returns the connection that a datagram to no other one begins, or NULL. */
static connection *accept_connection(const uint8_t *p, size_t len, const struct sockaddr_in *peer) {
  ngtcp2_pkt_hd header;
  if (ngtcp2_accept(&header, p, len) || header.type != NGTCP2_PKT_INITIAL) return NULL;
  if (open_count < MOST_CONNECTIONS) return begin(&header, peer);
  refuse_connection(&header, peer);
  return NULL;
}

static void read_datagram(const uint8_t *p, size_t len, const struct sockaddr_in *peer) {
  ngtcp2_version_cid to;
  int error = ngtcp2_pkt_decode_version_cid(&to, p, len, ID_LENGTH);
  if (error == NGTCP2_ERR_VERSION_NEGOTIATION) answer_version(&to, peer);
  if (error) return;
  connection *c = connection_of(&to);
  if (!c && !(c = accept_connection(p, len, peer))) return;
  ngtcp2_path path = path_to(peer);
  ngtcp2_pkt_info info = {0};
  error = ngtcp2_conn_read_pkt(c->quic, &path, &info, p, len, now());
  if (error == NGTCP2_ERR_DRAINING || error == NGTCP2_ERR_DROP_CONN || error == NGTCP2_ERR_RETRY) c->is_over = 1;
  else if (error) fail_quic(c, error);
  else if (!c->is_open && !c->is_closing && ngtcp2_conn_get_handshake_completed(c->quic)) open_connection(c);
}

/* ---- The loop */

static void stop(int signal) {
  (void)signal;
  is_stopped = 1;
}

static void open_socket(void) {
  CHECK(!gnutls_certificate_allocate_credentials(&credentials));
  if (gnutls_certificate_set_x509_key_file(credentials, option.certificate, option.key, GNUTLS_X509_FMT_PEM) < 0) {
    fprintf(stderr, "http3-server: no certificate in %s and %s: ./serve makes one\n", option.certificate, option.key);
    exit(1);
  }
  here.sin_family = AF_INET;
  here.sin_port = htons((uint16_t)option.port);
  here.sin_addr.s_addr = htonl(INADDR_LOOPBACK);
  CHECK((udp = socket(AF_INET, SOCK_DGRAM, 0)) >= 0);
  if (bind(udp, (struct sockaddr *)&here, sizeof here)) {
    fprintf(stderr, "http3-server: UDP port %d: %s\n", option.port, strerror(errno));
    exit(1);
  }
}

static void read_datagrams(void) {
  static uint8_t datagram[65536];
  struct sockaddr_in peer;
  for (int i = 0; i < 64; i++) {
    socklen_t size = sizeof peer;
    ssize_t len = recvfrom(udp, datagram, sizeof datagram, MSG_DONTWAIT, (struct sockaddr *)&peer, &size);
    if (len < 0) return;
    if (!option.lose || rand() % option.lose) read_datagram(datagram, (size_t)len, &peer);
  }
}

/* Handles the timers of each connection and writes its packets. Returns when the next timer expires. */
static uint64_t write_all(void) {
  uint64_t first = now() + 100 * NGTCP2_MILLISECONDS;
  for (connection **at = &connections; *at;) {
    connection *c = *at;
    if (!c->is_closing && !c->is_over && ngtcp2_conn_get_expiry(c->quic) <= now() && ngtcp2_conn_handle_expiry(c->quic, now()))
      c->is_over = 1;
    if (!c->is_over) write_packets(c);
    if (c->is_over) {
      *at = c->next;
      free_connection(c);
      continue;
    }
    uint64_t expiry = ngtcp2_conn_get_expiry(c->quic);
    if (expiry < first) first = expiry;
    if (option.late && c->encoder_stream_due > now() && c->encoder_stream_due < first) first = c->encoder_stream_due;
    at = &c->next;
  }
  return first;
}

void serve(void) {
  signal(SIGTERM, stop);
  signal(SIGINT, stop);
  open_socket();
  while (!is_stopped) {
    uint64_t first = write_all(), time = now();
    struct pollfd readable = {udp, POLLIN, 0};
    if (poll(&readable, 1, first > time ? (int)((first - time) / NGTCP2_MILLISECONDS) + 1 : 0) > 0) read_datagrams();
  }
  for (connection *c = connections; c; c = c->next) end_connection(c, H3_NO_ERROR, "the server stops");
  while (connections) write_all();
  gnutls_certificate_free_credentials(credentials);
}
