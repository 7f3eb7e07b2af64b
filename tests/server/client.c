/* A client of HTTP/3 that sends what a script says, right or wrong: client PORT WINDOW <SCRIPT. It keeps to QUIC alone.
 *
 * A line of the script is one of these:
 *
 *     send ID HEX      sends these bytes on a stream
 *     fill ID COUNT    sends that many bytes 'x'
 *     end ID           ends the stream
 *     reset ID         resets it
 *     pause MS         the next line is taken that much later
 *
 * Streams are opened in the order of their numbers. WINDOW is how much of each stream the server may send, in bytes; the
 * client extends no window. It ends when the connection does, or a second after its script and the last packet, five while
 * a request has no whole answer, or if the handshake takes eight seconds. Then it closes the connection, and
 * prints a line for each stream of its own, and how the connection ended. It is a test's client: a mistake ends it. */
#include <arpa/inet.h>
#include <errno.h>
#include <gnutls/crypto.h>
#include <gnutls/gnutls.h>
#include <h3_qpack.h>
#include <ngtcp2/ngtcp2.h>
#include <ngtcp2/ngtcp2_crypto.h>
#include <ngtcp2/ngtcp2_crypto_gnutls.h>
#include <poll.h>
#include <stdio.h>
#include <stdlib.h>
#include <string.h>
#include <sys/socket.h>
#include <time.h>
#include "../../examples/http3-server/frames.h"

#define CHECK(x) ((x) ? (void)0 : stop_at(__LINE__, #x))

enum { MOST_STREAMS = 512, KEPT = 1 << 16, ID_LENGTH = 16, QUIET = 1000, PATIENCE = 5000 }; /* milliseconds */

typedef struct stream {
  int is_used, is_open, ends, has_ended;
  uint8_t *out;
  size_t outlen, outroom, sent;
  uint8_t in[KEPT]; /* the first bytes that were received */
  size_t inlen, received;
  int64_t reset, stopped; /* the codes by which the server did so, or -1 */
} stream;

static stream streams[MOST_STREAMS]; /* by number */
static ngtcp2_conn *quic;
static int udp;
static struct sockaddr_in here, there;
static uint64_t last_packet;

static void stop_at(int line, const char *what) {
  fprintf(stderr, "client: line %d: not %s\n", line, what);
  exit(2);
}

static uint64_t now(void) {
  struct timespec t;
  clock_gettime(CLOCK_MONOTONIC, &t);
  return (uint64_t)t.tv_sec * NGTCP2_SECONDS + (uint64_t)t.tv_nsec;
}

static void fill(uint8_t *at, size_t len, const ngtcp2_rand_ctx *context) {
  (void)context;
  CHECK(!gnutls_rnd(GNUTLS_RND_RANDOM, at, len));
}

static stream *stream_of(int64_t id) {
  CHECK(id >= 0 && id < MOST_STREAMS);
  return &streams[id];
}

/* ---- What ngtcp2 calls */

static int make_id(ngtcp2_conn *c, ngtcp2_cid *id, uint8_t *token, size_t len, void *user) {
  (void)c, (void)user;
  id->datalen = len;
  fill(id->data, len, NULL);
  fill(token, NGTCP2_STATELESS_RESET_TOKENLEN, NULL);
  return 0;
}

static int on_data(ngtcp2_conn *c, uint32_t flags, int64_t id, uint64_t offset, const uint8_t *data, size_t len, void *user,
                   void *stream_user) {
  stream *s = stream_of(id);
  size_t part = len < KEPT - s->inlen ? len : KEPT - s->inlen;
  (void)c, (void)offset, (void)user, (void)stream_user;
  if (part) memcpy(s->in + s->inlen, data, part);
  s->inlen += part;
  s->received += len;
  if (flags & NGTCP2_STREAM_DATA_FLAG_FIN) s->has_ended = 1;
  return 0;
}

static int on_reset(ngtcp2_conn *c, int64_t id, uint64_t size, uint64_t code, void *user, void *stream_user) {
  (void)c, (void)size, (void)user, (void)stream_user;
  stream_of(id)->reset = (int64_t)code;
  return 0;
}

/* A stream that closes was read to its end, or was reset, which has its code. */
static int on_close(ngtcp2_conn *c, uint32_t flags, int64_t id, uint64_t code, void *user, void *stream_user) {
  (void)c, (void)user, (void)stream_user;
  if (flags & NGTCP2_STREAM_CLOSE_FLAG_APP_ERROR_CODE_SET && stream_of(id)->reset < 0 && stream_of(id)->stopped < 0)
    stream_of(id)->stopped = (int64_t)code;
  return 0;
}

static const ngtcp2_callbacks callbacks = {
    .client_initial = ngtcp2_crypto_client_initial_cb,
    .recv_crypto_data = ngtcp2_crypto_recv_crypto_data_cb,
    .encrypt = ngtcp2_crypto_encrypt_cb,
    .decrypt = ngtcp2_crypto_decrypt_cb,
    .hp_mask = ngtcp2_crypto_hp_mask_cb,
    .recv_stream_data = on_data,
    .stream_reset = on_reset,
    .stream_close = on_close,
    .recv_retry = ngtcp2_crypto_recv_retry_cb,
    .rand = fill,
    .get_new_connection_id = make_id,
    .update_key = ngtcp2_crypto_update_key_cb,
    .delete_crypto_aead_ctx = ngtcp2_crypto_delete_crypto_aead_ctx_cb,
    .delete_crypto_cipher_ctx = ngtcp2_crypto_delete_crypto_cipher_ctx_cb,
    .get_path_challenge_data = ngtcp2_crypto_get_path_challenge_data_cb,
    .version_negotiation = ngtcp2_crypto_version_negotiation_cb,
};

/* ---- The connection */

static ngtcp2_path path(void) {
  return (ngtcp2_path){{(struct sockaddr *)&here, sizeof here}, {(struct sockaddr *)&there, sizeof there}, NULL};
}

static void open_socket(int port) {
  socklen_t len = sizeof here;
  here = there = (struct sockaddr_in){.sin_family = AF_INET, .sin_addr.s_addr = htonl(INADDR_LOOPBACK)};
  there.sin_port = htons((uint16_t)port);
  CHECK((udp = socket(AF_INET, SOCK_DGRAM, 0)) >= 0);
  CHECK(!bind(udp, (struct sockaddr *)&here, sizeof here) && !getsockname(udp, (struct sockaddr *)&here, &len));
}

static void open_quic(uint64_t window) {
  ngtcp2_settings settings;
  ngtcp2_transport_params parameters;
  ngtcp2_cid to = {.datalen = ID_LENGTH}, own = {.datalen = ID_LENGTH};
  ngtcp2_path on = path();
  fill(to.data, to.datalen, NULL);
  fill(own.data, own.datalen, NULL);
  ngtcp2_settings_default(&settings);
  settings.initial_ts = now();
  settings.handshake_timeout = 8 * NGTCP2_SECONDS;
  ngtcp2_transport_params_default(&parameters);
  parameters.initial_max_streams_uni = 3;
  parameters.initial_max_data = 1 << 30;
  parameters.initial_max_stream_data_bidi_local = window;
  parameters.initial_max_stream_data_uni = 1 << 24;
  parameters.max_idle_timeout = 30 * NGTCP2_SECONDS;
  CHECK(!ngtcp2_conn_client_new(&quic, &to, &own, &on, NGTCP2_PROTO_VER_V1, &callbacks, &settings, &parameters, NULL, NULL));
}

static ngtcp2_conn *quic_of(ngtcp2_crypto_conn_ref *ref) {
  (void)ref;
  return quic;
}

/* Any certificate will do. */
static void open_tls(void) {
  static ngtcp2_crypto_conn_ref ref = {quic_of, NULL};
  static const gnutls_datum_t protocol = {(unsigned char *)"h3", 2};
  gnutls_certificate_credentials_t credentials;
  gnutls_session_t tls;
  CHECK(!gnutls_certificate_allocate_credentials(&credentials) && !gnutls_init(&tls, GNUTLS_CLIENT));
  CHECK(!gnutls_priority_set_direct(tls, "%DISABLE_TLS13_COMPAT_MODE:NORMAL:-VERS-ALL:+VERS-TLS1.3", NULL));
  CHECK(!ngtcp2_crypto_gnutls_configure_client_session(tls));
  CHECK(!gnutls_credentials_set(tls, GNUTLS_CRD_CERTIFICATE, credentials));
  CHECK(!gnutls_alpn_set_protocols(tls, &protocol, 1, GNUTLS_ALPN_MANDATORY));
  CHECK(!gnutls_server_name_set(tls, GNUTLS_NAME_DNS, "localhost", 9));
  gnutls_session_set_ptr(tls, &ref);
  ngtcp2_conn_set_tls_native_handle(quic, tls);
}

/* ---- The script */

static void append(stream *s, const uint8_t *p, size_t len) {
  if (s->outlen + len > s->outroom) {
    s->outroom = 2 * (s->outlen + len);
    CHECK((s->out = realloc(s->out, s->outroom)) != NULL);
  }
  if (p) memcpy(s->out + s->outlen, p, len);
  else memset(s->out + s->outlen, 'x', len);
  s->outlen += len;
}

static unsigned digit_of(char c) { return (unsigned)(c <= '9' ? c - '0' : c - 'a' + 10); }

static void append_hex(stream *s, const char *hex) {
  for (; hex[0] >= '0' && hex[1] >= '0'; hex += 2)
    append(s, (const uint8_t[]){(uint8_t)(digit_of(hex[0]) << 4 | digit_of(hex[1]))}, 1);
}

/* Does what a line says. Returns for how many milliseconds the next one waits. */
static int take(const char *line) {
  static char word[16];
  long long id = 0;
  int at = 0;
  char front[64] = "";
  strncpy(front, line, sizeof front - 1); /* sscanf reads to the end of what it is passed, at each call */
  CHECK(sscanf(front, "%15s %lld %n", word, &id, &at) == 2);
  if (!strcmp(word, "pause")) return (int)id;
  stream *s = stream_of(id);
  s->is_used = 1;
  if (!strcmp(word, "send")) append_hex(s, line + at);
  else if (!strcmp(word, "fill")) append(s, NULL, strtoull(line + at, NULL, 10));
  else if (!strcmp(word, "end")) s->ends = 1;
  else CHECK(!strcmp(word, "reset") && !ngtcp2_conn_shutdown_stream_write(quic, id, 0x10c));
  return 0;
}

/* Takes the lines that are due. Returns whether there are more. */
static int take_lines(void) {
  static char *line;
  static size_t room;
  static uint64_t due;
  while (now() >= due) {
    if (getline(&line, &room, stdin) < 0) return 0;
    due = now() + (uint64_t)take(line) * NGTCP2_MILLISECONDS;
  }
  return 1;
}

/* ---- Packets */

/* Opens the streams that are used, as far as the server allows. */
static void open_streams(void) {
  for (int64_t id = 0; id < MOST_STREAMS; id++) {
    int64_t opened = -1;
    if (!streams[id].is_used || streams[id].is_open) continue;
    int error = id & 2 ? ngtcp2_conn_open_uni_stream(quic, &opened, NULL) : ngtcp2_conn_open_bidi_stream(quic, &opened, NULL);
    if (error == NGTCP2_ERR_STREAM_ID_BLOCKED) continue;
    CHECK(!error && opened == id);
    streams[id].is_open = 1;
  }
}

/* Writes a packet with bytes of a stream, or with none. Returns whether there may be more to write. */
static int write_packet(int64_t id, stream *s) {
  uint8_t packet[1200];
  ngtcp2_pkt_info info;
  ngtcp2_path_storage to;
  ngtcp2_ssize taken = -1;
  ngtcp2_path_storage_zero(&to);
  ngtcp2_vec data = {s ? s->out + s->sent : NULL, s ? s->outlen - s->sent : 0};
  uint32_t flags = s && s->ends ? NGTCP2_WRITE_STREAM_FLAG_FIN : 0;
  ngtcp2_ssize len =
      ngtcp2_conn_writev_stream(quic, &to.path, &info, packet, sizeof packet, &taken, flags, id, &data, s != NULL, now());
  if (s && taken >= 0) s->sent += (size_t)taken;
  if (s && s->ends && taken >= 0 && s->sent == s->outlen) s->ends = 2;
  if (len == NGTCP2_ERR_STREAM_SHUT_WR || len == NGTCP2_ERR_STREAM_NOT_FOUND) s->outlen = s->sent;
  if (len <= 0) return 0;
  CHECK(send(udp, packet, (size_t)len, 0) == len || errno == ECONNREFUSED);
  return 1;
}

static void write_packets(void) {
  for (int64_t id = 0; id < MOST_STREAMS; id++) {
    stream *s = &streams[id];
    while (s->is_open && (s->sent < s->outlen || s->ends == 1) && write_packet(id, s)) {
    }
  }
  while (write_packet(-1, NULL)) {
  }
}

/* Reads the datagrams that are there. Returns 0 once the connection has ended. */
static int read_packets(void) {
  static uint8_t packet[65536];
  ngtcp2_path on = path();
  ngtcp2_pkt_info info = {0};
  for (ssize_t len; (len = recv(udp, packet, sizeof packet, MSG_DONTWAIT)) >= 0;) {
    last_packet = now();
    if (ngtcp2_conn_read_pkt(quic, &on, &info, packet, (size_t)len, now())) return 0;
  }
  return 1;
}

static void close_connection(void) {
  uint8_t packet[1200];
  ngtcp2_pkt_info info;
  ngtcp2_path_storage to;
  ngtcp2_connection_close_error error;
  ngtcp2_path_storage_zero(&to);
  ngtcp2_connection_close_error_default(&error);
  ngtcp2_connection_close_error_set_application_error(&error, 0x100, NULL, 0);
  ngtcp2_ssize len = ngtcp2_conn_write_connection_close(quic, &to.path, &info, packet, sizeof packet, &error, now());
  CHECK(len <= 0 || send(udp, packet, (size_t)len, 0) == len || errno == ECONNREFUSED);
}

/* ---- What happened */

/* Prints the field :status of the first HEADERS frame of an answer, and the length of the body so far. */
static void print_answer(stream *s) {
  frame_reader reader;
  const uint8_t *at = s->in;
  size_t body = 0;
  open_frames(&reader, 1, KEPT);
  for (frame_event f; (f = read_frame(&reader, &at, s->in + s->inlen)).kind != FRAME_NEEDS_MORE;) {
    h3_qpack_field fields[256];
    uint8_t text[KEPT];
    if (f.kind == FRAME_WHOLE) {
      CHECK(!h3_qpack_decode_stateless(f.at, f.len, KEPT, fields, 256, text, sizeof text).status);
      CHECK(fields[0].namelen == 7 && !memcmp(text, ":status", 7));
      printf(" status %.*s", (int)fields[0].valuelen, text + 7);
    }
    if (f.kind == FRAME_PART) body += f.len;
  }
  printf(" body %zu", body);
  drop_frame(&reader);
}

static void print_stream(int64_t id, stream *s) {
  printf("stream %lld sent %zu received %zu", (long long)id, s->sent, s->received);
  if (!(id & 2)) print_answer(s);
  if (s->has_ended) printf(" ended");
  if (s->reset >= 0) printf(" reset %#llx", (long long)s->reset);
  if (s->stopped >= 0) printf(" stopped %#llx", (long long)s->stopped);
  printf("\n");
}

static void print_all(int is_alive) {
  ngtcp2_connection_close_error error;
  for (int64_t id = 0; id < MOST_STREAMS; id++)
    if (streams[id].is_used) print_stream(id, &streams[id]);
  ngtcp2_conn_get_connection_close_error(quic, &error);
  if (is_alive) printf("connection open\n");
  else printf("connection closed %#llx\n", (unsigned long long)error.error_code);
}

/* Returns for how many milliseconds nothing may arrive until the client ends. */
static uint64_t patience(void) {
  for (int64_t id = 0; id < MOST_STREAMS; id += 4) {
    const stream *s = &streams[id];
    if (s->is_used && !s->has_ended && s->reset < 0 && s->stopped < 0) return PATIENCE;
  }
  return QUIET;
}

int main(int argc, char **argv) {
  int is_alive = 1, has_more = 1;
  CHECK(argc == 3);
  for (int64_t id = 0; id < MOST_STREAMS; id++) streams[id].reset = streams[id].stopped = -1;
  open_socket(atoi(argv[1]));
  CHECK(!connect(udp, (struct sockaddr *)&there, sizeof there));
  open_quic(strtoull(argv[2], NULL, 10));
  open_tls();
  last_packet = now();
  while (is_alive && (has_more || now() < last_packet + patience() * NGTCP2_MILLISECONDS)) {
    if (ngtcp2_conn_get_handshake_completed(quic)) {
      if (has_more && !(has_more = take_lines())) last_packet = now(); /* what answers the last line is still to come */
      open_streams();
    }
    write_packets();
    poll(&(struct pollfd){udp, POLLIN, 0}, 1, 10);
    is_alive = read_packets() && (ngtcp2_conn_get_expiry(quic) > now() || !ngtcp2_conn_handle_expiry(quic, now()));
  }
  print_all(is_alive);
  if (is_alive) close_connection();
  return 0;
}
