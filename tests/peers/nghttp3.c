/* Two ends of nghttp3 in one process: a client whose encoder has its default limit of 4,096 bytes, and a server that
 * allows a table of MAXIMUM bytes. It prints at which request the server closes the connection, if it does.
 *
 *   cc tests/peers/nghttp3.c -lnghttp3 -o nghttp3 && ./nghttp3 65536
 *
 * Every stream is delivered at once and whole. It calls the public interface of nghttp3 alone. */
#include <nghttp3/nghttp3.h>
#include <stdio.h>
#include <stdlib.h>
#include <string.h>

enum { REQUESTS = 400, CLIENT = 0, SERVER = 1 };

static nghttp3_conn *conns[2];

static void check(int is_right, const char *what) {
  if (is_right) return;
  fprintf(stderr, "%s failed\n", what);
  exit(2);
}

/* Makes a side of the connection. Only the server has a decoder with a table. */
static void make(int side, size_t maximum) {
  nghttp3_callbacks callbacks;
  nghttp3_settings settings;
  memset(&callbacks, 0, sizeof callbacks);
  nghttp3_settings_default(&settings);
  settings.qpack_max_dtable_capacity = side == SERVER ? maximum : 0;
  settings.qpack_blocked_streams = side == SERVER ? 100 : 0;
  if (side == CLIENT)
    check(!nghttp3_conn_client_new(&conns[side], &callbacks, &settings, nghttp3_mem_default(), NULL), "client_new");
  else check(!nghttp3_conn_server_new(&conns[side], &callbacks, &settings, nghttp3_mem_default(), NULL), "server_new");
  check(!nghttp3_conn_bind_control_stream(conns[side], 2 + side), "bind_control_stream");
  check(!nghttp3_conn_bind_qpack_streams(conns[side], 6 + side, 10 + side), "bind_qpack_streams");
  if (side == SERVER) nghttp3_conn_set_max_client_streams_bidi(conns[side], REQUESTS);
}

/* Delivers all that one side has to send. Returns 0, or the error with which the other one closes the connection. */
static int deliver(int from) {
  for (;;) {
    nghttp3_vec pieces[8];
    uint8_t bytes[1 << 16];
    int64_t id = -1;
    int fin = 0;
    size_t len = 0;
    nghttp3_ssize taken, many = nghttp3_conn_writev_stream(conns[from], &id, &fin, pieces, 8);
    check(many >= 0, "writev_stream");
    if (id == -1) return 0;
    for (nghttp3_ssize i = 0; i < many; i++) {
      memcpy(bytes + len, pieces[i].base, pieces[i].len);
      len += pieces[i].len;
    }
    check(!nghttp3_conn_add_write_offset(conns[from], id, len), "add_write_offset");
    check(!nghttp3_conn_add_ack_offset(conns[from], id, len), "add_ack_offset");
    taken = nghttp3_conn_read_stream(conns[!from], id, bytes, len, fin);
    if (taken < 0) return (int)taken;
  }
}

/* Sends a request with a value of referer that no other one has. */
static int request(int number) {
  char value[16];
  int len = snprintf(value, sizeof value, "%d", number);
  nghttp3_nv fields[] = {
      {(uint8_t *)":method", (uint8_t *)"GET", 7, 3, NGHTTP3_NV_FLAG_NONE},
      {(uint8_t *)":scheme", (uint8_t *)"https", 7, 5, NGHTTP3_NV_FLAG_NONE},
      {(uint8_t *)":authority", (uint8_t *)"www.example.org", 10, 15, NGHTTP3_NV_FLAG_NONE},
      {(uint8_t *)":path", (uint8_t *)"/", 5, 1, NGHTTP3_NV_FLAG_NONE},
      {(uint8_t *)"referer", (uint8_t *)value, 7, (size_t)len, NGHTTP3_NV_FLAG_NONE},
  };
  check(!nghttp3_conn_submit_request(conns[CLIENT], 4 * number, fields, 5, NULL, NULL), "submit_request");
  int error = deliver(CLIENT);
  return error ? error : deliver(SERVER);
}

int main(int argc, char **argv) {
  make(CLIENT, 0);
  make(SERVER, argc > 1 ? strtoul(argv[1], NULL, 10) : 65536);
  check(!deliver(SERVER) && !deliver(CLIENT), "the SETTINGS");
  for (int number = 0; number < REQUESTS; number++) {
    int error = request(number);
    if (error) {
      printf("nghttp3 %s: closed at request %d: %s\n", nghttp3_version(0)->version_str, number + 1, nghttp3_strerror(error));
      return 1;
    }
  }
  printf("nghttp3 %s: %d requests\n", nghttp3_version(0)->version_str, REQUESTS);
  return 0;
}
