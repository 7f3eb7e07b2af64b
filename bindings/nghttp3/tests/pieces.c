/* A client and a server of nghttp3 in one program, whose streams arrive in pieces:
 *   pieces REQUESTS RESPONSES COUNT MOST LATE SEED
 * sends COUNT requests and their responses, of the lists of two files of lines "name, tab, value" with an empty line after
 * each list. A piece has 1 to MOST bytes by chance, and the instructions of an encoder stream come LATE exchanges late.
 * Every field that arrives is compared. It uses public calls of nghttp3 alone, so it runs over any libnghttp3. It prints
 * the bytes of both sides, and how many lists were not there when all their bytes were. It fails if a field differs, a
 * list is missing, a connection is closed, or none was blocked though LATE is above 0. */
#include <nghttp3/nghttp3.h>
#include <stdio.h>
#include <stdlib.h>
#include <string.h>

enum { MOST_LINE = 1 << 16, MOST_STREAMS = 64 };

typedef struct list {
  nghttp3_nv *fields;
  size_t count;
} list;

typedef struct lists {
  list *at;
  size_t count;
} lists;

/* Bytes of a stream that are on their way. */
typedef struct stream {
  int64_t id;
  uint8_t *text;
  size_t length, at, due;
  int has_end, is_used;
} stream;

typedef struct side {
  nghttp3_conn *conn;
  lists sent;
  size_t bytes, received, differing, blocked;
  size_t *next; /* of each exchange, how many of its fields have arrived here */
  int64_t encoder_stream;
  stream arriving[MOST_STREAMS];
} side;

static side client, server;
static unsigned long long seed;

static void give_up(const char *why) {
  fprintf(stderr, "pieces: %s\n", why);
  exit(1);
}

static void *check_memory(void *memory) {
  if (!memory) give_up("no memory");
  return memory;
}

static size_t chance(size_t most) {
  seed = seed * 6364136223846793005u + 1442695040888963407u;
  return (size_t)(seed >> 33) % most;
}

/* Appends the field of a line to a list. Content lengths are left out: no message has a body. */
static void add_field(list *to, const char *line, size_t length) {
  const char *tab = memchr(line, '\t', length);
  size_t name = tab ? (size_t)(tab - line) : 0;
  uint8_t *copy;
  if (!tab) give_up("a line has no tab");
  if (name == 14 && !memcmp(line, "content-length", 14)) return;
  copy = check_memory(malloc(length));
  memcpy(copy, line, length);
  to->fields = check_memory(realloc(to->fields, (to->count + 1) * sizeof *to->fields));
  to->fields[to->count++] = (nghttp3_nv){copy, copy + name + 1, name, length - name - 1, NGHTTP3_NV_FLAG_NONE};
}

static lists read_lists(const char *path) {
  static char line[MOST_LINE];
  lists all = {NULL, 0};
  FILE *file = fopen(path, "rb");
  int is_open = 0;
  if (!file) give_up("a file of lists can't be read");
  while (fgets(line, sizeof line, file)) {
    size_t length = strcspn(line, "\n");
    if (line[0] == '#') continue;
    if (length && !is_open) {
      all.at = check_memory(realloc(all.at, (all.count + 1) * sizeof *all.at));
      all.at[all.count++] = (list){NULL, 0};
    }
    is_open = length != 0;
    if (length) add_field(&all.at[all.count - 1], line, length);
  }
  fclose(file);
  if (!all.count) give_up("a file has no lists");
  return all;
}

/* Returns the list that a side receives in an exchange. */
static const list *expected(const side *to, int64_t id) {
  const lists *sent = to == &server ? &client.sent : &server.sent;
  return &sent->at[(size_t)(id / 4) % sent->count];
}

static int is_equal(nghttp3_rcbuf *part, const uint8_t *text, size_t length) {
  nghttp3_vec bytes = nghttp3_rcbuf_get_buf(part);
  return bytes.len == length && (!length || !memcmp(bytes.base, text, length));
}

static int on_field(nghttp3_conn *conn, int64_t id, int32_t token, nghttp3_rcbuf *name, nghttp3_rcbuf *value, uint8_t flags,
                    void *user, void *stream_user) {
  side *to = user;
  const list *all = expected(to, id);
  size_t at = to->next[id / 4]++;
  (void)conn, (void)token, (void)flags, (void)stream_user;
  if (at >= all->count || !is_equal(name, all->fields[at].name, all->fields[at].namelen) ||
      !is_equal(value, all->fields[at].value, all->fields[at].valuelen))
    to->differing++;
  return 0;
}

static int on_list(nghttp3_conn *conn, int64_t id, int fin, void *user, void *stream_user) {
  side *to = user;
  const list *answer = &server.sent.at[(size_t)(id / 4) % server.sent.count];
  (void)fin, (void)stream_user;
  if (to->next[id / 4] != expected(to, id)->count) to->differing++;
  to->received++;
  if (to == &server && nghttp3_conn_submit_response(conn, id, answer->fields, answer->count, NULL))
    give_up("no response was taken");
  return 0;
}

/* Returns the stream of a number on its way to a side. */
static stream *find_stream(side *to, int64_t id) {
  stream *unused = NULL;
  for (size_t i = 0; i < MOST_STREAMS; i++) {
    stream *s = &to->arriving[i];
    if (s->is_used && s->id == id) return s;
    if (!s->is_used) unused = s;
  }
  if (!unused) give_up("too many streams");
  *unused = (stream){id, NULL, 0, 0, 0, 0, 1};
  return unused;
}

/* Takes what a side has to send. */
static void take(side *from, side *to, size_t due) {
  for (;;) {
    nghttp3_vec parts[16];
    int64_t id = -1;
    int fin = 0;
    nghttp3_ssize count = nghttp3_conn_writev_stream(from->conn, &id, &fin, parts, 16);
    if (count < 0) give_up(nghttp3_strerror((int)count));
    if (id == -1) return;
    stream *s = find_stream(to, id);
    size_t before = s->length;
    for (nghttp3_ssize i = 0; i < count; i++) {
      s->text = check_memory(realloc(s->text, s->length + parts[i].len + 1));
      memcpy(s->text + s->length, parts[i].base, parts[i].len);
      s->length += parts[i].len;
    }
    if (before == s->at) s->due = id == from->encoder_stream ? due : 0;
    s->has_end |= fin;
    from->bytes += s->length - before;
    if (nghttp3_conn_add_write_offset(from->conn, id, s->length - before)) give_up("an offset was not taken");
    nghttp3_conn_add_ack_offset(from->conn, id, s->length - before);
  }
}

/* Passes a piece of a stream to a side. Returns whether the stream has more that may arrive now. */
static int pass_piece(side *to, stream *s, size_t most, size_t now) {
  size_t left = s->length - s->at, piece, received = to->received;
  int fin;
  if (s->due > now || (!left && !s->has_end)) return 0;
  piece = left ? 1 + chance(most) : 0;
  if (piece > left) piece = left;
  fin = s->has_end && piece == left;
  nghttp3_ssize count = nghttp3_conn_read_stream(to->conn, s->id, s->text + s->at, piece, fin);
  if (count < 0) give_up(nghttp3_strerror((int)count));
  s->at += piece;
  if (fin) {
    to->blocked += to->received == received; /* all has arrived, and the list has not */
    free(s->text);
    *s = (stream){0};
  }
  return !fin;
}

/* Passes what may arrive at a side now, a piece of a stream by turns. */
static void pass(side *to, size_t most, size_t now) {
  for (int is_any = 1; is_any;) {
    is_any = 0;
    for (size_t i = 0; i < MOST_STREAMS; i++)
      if (to->arriving[i].is_used) is_any |= pass_piece(to, &to->arriving[i], most, now);
  }
}

static void open_side(side *of, int is_server, size_t count, int64_t first_stream) {
  nghttp3_callbacks callbacks = {.recv_header = on_field, .end_headers = on_list};
  nghttp3_settings settings;
  nghttp3_settings_default(&settings);
  settings.qpack_max_dtable_capacity = 4096;
  settings.qpack_blocked_streams = 100;
  const nghttp3_mem *mem = nghttp3_mem_default();
  if ((is_server ? nghttp3_conn_server_new(&of->conn, &callbacks, &settings, mem, of)
                 : nghttp3_conn_client_new(&of->conn, &callbacks, &settings, mem, of)) ||
      nghttp3_conn_bind_control_stream(of->conn, first_stream) ||
      nghttp3_conn_bind_qpack_streams(of->conn, first_stream + 4, first_stream + 8))
    give_up("no connection can be made");
  if (is_server) nghttp3_conn_set_max_client_streams_bidi(of->conn, count);
  of->encoder_stream = first_stream + 4;
  of->next = check_memory(calloc(count, sizeof *of->next));
}

/* Lets all arrive that was sent at an exchange, or before. */
static void exchange(size_t most, size_t now, size_t late) {
  for (int i = 0; i < 3; i++) {
    take(&client, &server, now + late);
    pass(&server, most, now);
    take(&server, &client, now + late);
    pass(&client, most, now);
  }
}

int main(int argc, char **argv) {
  if (argc != 7) give_up("usage: pieces REQUESTS RESPONSES COUNT MOST LATE SEED");
  size_t count = strtoull(argv[3], NULL, 10), most = strtoull(argv[4], NULL, 10), late = strtoull(argv[5], NULL, 10);
  seed = strtoull(argv[6], NULL, 10);
  client.sent = read_lists(argv[1]);
  server.sent = read_lists(argv[2]);
  open_side(&client, 0, count, 2);
  open_side(&server, 1, count, 3);
  exchange(most, 0, 0);
  for (size_t i = 0; i < count; i++) {
    const list *request = &client.sent.at[i % client.sent.count];
    if (nghttp3_conn_submit_request(client.conn, (int64_t)(4 * i), request->fields, request->count, NULL, NULL))
      give_up("a request was not taken");
    exchange(most, i, late);
  }
  for (size_t i = 0; i < 4; i++) exchange(most, count + late, 0);
  printf("%zu requests, %zu responses, %zu differ, %zu were blocked; the client wrote %zu bytes, the server %zu\n",
         server.received, client.received, client.differing + server.differing, client.blocked + server.blocked, client.bytes,
         server.bytes);
  nghttp3_conn_del(client.conn);
  nghttp3_conn_del(server.conn);
  return server.received != count || client.received != count || client.differing || server.differing ||
         (late && !client.blocked && !server.blocked);
}
