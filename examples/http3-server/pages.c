/* What the server answers: the files of a folder; /live, which shows what QPACK did on this connection; and /echo,
 * which sends back the fields of the request, and has the fields that its body lists. */
#include <errno.h>
#include <fcntl.h>
#include <limits.h>
#include <stdlib.h>
#include <string.h>
#include <sys/stat.h>
#include <time.h>
#include <unistd.h>
#include "server.h"

enum { MOST_FIELDS = 256 };

/* The fields of an answer. Their text is kept apart, each at a place that does not move. */
typedef struct {
  h3_qpack_nv nva[MOST_FIELDS];
  char *kept[MOST_FIELDS];
  size_t len;
  int is_short; /* a field is missing without memory */
} fields;

static void add_field(fields *l, const char *name, const char *value) {
  size_t namelen = strlen(name), valuelen = strlen(value);
  if (l->len == MOST_FIELDS) return;
  char *text = malloc(namelen + valuelen + 1);
  if (!text) {
    l->is_short = 1;
    return;
  }
  memcpy(text, name, namelen);
  memcpy(text + namelen, value, valuelen);
  l->kept[l->len] = text;
  l->nva[l->len++] = (h3_qpack_nv){(uint8_t *)text, namelen, (uint8_t *)text + namelen, valuelen, 0};
}

static void drop_fields(fields *l) {
  for (size_t i = 0; i < l->len; i++) free(l->kept[i]);
}

static void begin_answer(fields *l, const char *status) {
  char date[64];
  time_t time_now = time(NULL);
  l->len = 0;
  l->is_short = 0;
  add_field(l, ":status", status);
  add_field(l, "server", "h3_qpack example");
  strftime(date, sizeof date, "%a, %d %b %Y %H:%M:%S GMT", gmtime(&time_now));
  add_field(l, "date", date);
}

/* Sends the fields, and what there is of the body. The stream ends with it unless there is more. */
static void send_answer(connection *c, stream *s, const fields *l, const bytes *body) {
  bytes out = {NULL, 0, 0, 0};
  send_section(c, s, l->nva, l->len, &out);
  if (body->len) {
    add_varint(&out, DATA_FRAME);
    add_varint(&out, body->len);
    add(&out, body->at, body->len);
  }
  if (l->is_short || body->is_short || out.is_short) fail_for_memory(c);
  else send_on(c, s, out.at, out.len);
  if (!s->has_more) end_stream(c, s);
  drop(&out);
}

/* ---- Requests */

/* A request as far as the pages need it. */
typedef struct {
  char path[MOST_PATH]; /* without the query */
  char *query;          /* after the ?, or NULL */
} request;

static const h3_qpack_nv *find_field(const stream *s, const char *name) {
  for (size_t i = 0; i < s->field_count; i++)
    if (s->fields[i].namelen == strlen(name) && !memcmp(s->fields[i].name, name, s->fields[i].namelen)) return &s->fields[i];
  return NULL;
}

/* Returns NULL, or the status of an answer to a request without a path, or with one that is too long. */
static const char *read_request(const stream *s, request *r) {
  const h3_qpack_nv *path = find_field(s, ":path");
  if (!path || !path->valuelen || path->value[0] != '/' || memchr(path->value, 0, path->valuelen)) return "400";
  if (path->valuelen >= sizeof r->path) return "414";
  memcpy(r->path, path->value, path->valuelen);
  r->path[path->valuelen] = '\0';
  r->query = strchr(r->path, '?');
  if (r->query) *r->query++ = '\0';
  return NULL;
}

/* ---- Files */

static const char *type_of(const char *path) {
  static const char *const types[][2] = {
      {".html", "text/html; charset=utf-8"}, {".js", "text/javascript"}, {".css", "text/css"},
      {".json", "application/json"},         {".png", "image/png"},      {".svg", "image/svg+xml"},
      {".txt", "text/plain; charset=utf-8"}};
  const char *end = strrchr(path, '.');
  for (size_t i = 0; end && i < sizeof types / sizeof *types; i++)
    if (!strcmp(end, types[i][0])) return types[i][1];
  return "application/octet-stream";
}

/* Whether a resolved path is below a resolved folder. */
static int is_below(const char *path, const char *folder) {
  size_t len = strlen(folder);
  if (len && folder[len - 1] == '/') len--; /* the root */
  return !strncmp(path, folder, len) && path[len] == '/';
}

/* Opens a file of the folder. A path that leads elsewhere, also by a link, is not there, and only files are. Returns -1
 * if there is none. */
static int open_file(const char *folder, const char *path) {
  char name[PATH_MAX];
  struct stat is;
  if (snprintf(name, sizeof name, "%s%s", folder, path) >= (int)sizeof name) return -1;
  char *top = realpath(folder, NULL), *found = realpath(name, NULL);
  int file = top && found && is_below(found, top) ? open(found, O_RDONLY | O_NONBLOCK | O_CLOEXEC) : -1;
  free(top);
  free(found);
  if (file < 0 || (!fstat(file, &is) && S_ISREG(is.st_mode))) return file;
  close(file);
  return -1;
}

static int has_no_descriptor(void) { return errno == EMFILE || errno == ENFILE; }

static void answer_file(connection *c, stream *s, const char *path) {
  char name[MOST_PATH + sizeof "index.html"];
  const char *end = !strcmp(path, "/live") ? ".html" : path[strlen(path) - 1] == '/' ? "index.html" : "";
  fields l;
  bytes nothing = {NULL, 0, 0, 0};
  snprintf(name, sizeof name, "%s%s", path, end);
  errno = 0;
  s->file = open_file(option.folder, name);
  if (s->file < 0 && !has_no_descriptor()) s->file = open_file("www", name);
  if (s->file < 0) {
    answer_refusal(c, s, has_no_descriptor() ? "503" : "404");
    return;
  }
  s->has_more = 1;
  begin_answer(&l, "200");
  add_field(&l, "content-type", type_of(name));
  add_field(&l, "cache-control", "no-store");
  add_field(&l, "content-security-policy", "default-src 'self'; style-src 'self' 'unsafe-inline'");
  send_answer(c, s, &l, &nothing);
  drop_fields(&l);
}

/* ---- What a page asks for */

/* The tables of this connection, and its events from a place on; in a field, the place after the events. */
static void answer_events(connection *c, stream *s, const char *query) {
  char next[24];
  fields l;
  bytes body = {NULL, 0, 0, 0};
  s->event = query && !strncmp(query, "from=", 5) ? (size_t)strtoull(query + 5, NULL, 10) : 0;
  s->event_end = c->events.len;
  s->has_more = 1;
  add_tables(&body, c);
  snprintf(next, sizeof next, "%zu", s->event_end);
  begin_answer(&l, "200");
  add_field(&l, "x-next", next);
  add_field(&l, "content-type", "text/plain");
  add_field(&l, "cache-control", "no-store");
  send_answer(c, s, &l, &body);
  drop_fields(&l);
  drop(&body);
}

/* The body has a field a line, name TAB value: they become fields of the answer. */
static void answer_echo(connection *c, stream *s) {
  fields l;
  bytes lines = {NULL, 0, 0, 0}, body = {NULL, 0, 0, 0};
  begin_answer(&l, "200");
  add(&lines, s->body.at, s->body.len);
  add(&lines, "", 1);
  l.is_short |= lines.is_short;
  for (char *line = (char *)lines.at, *end; !lines.is_short && (end = strchr(line, '\n')); line = end + 1) {
    char *tab = memchr(line, '\t', (size_t)(end - line));
    if (!tab) break;
    *tab = *end = '\0';
    add_field(&l, line, tab + 1);
  }
  add_field(&l, "content-type", "application/json");
  add_field(&l, "cache-control", "no-store");
  add_fields(&body, s->fields, s->field_count);
  send_answer(c, s, &l, &body);
  drop_fields(&l);
  drop(&lines);
  drop(&body);
}

/* A page of the tests says what it saw. */
static void answer_report(connection *c, stream *s) {
  fields l;
  bytes nothing = {NULL, 0, 0, 0};
  add_text_event(c, "report", s->body.at, s->body.len);
  begin_answer(&l, "200");
  add_field(&l, "content-type", "text/plain");
  send_answer(c, s, &l, &nothing);
  drop_fields(&l);
}

void answer_refusal(connection *c, stream *s, const char *status) {
  fields l;
  bytes body = {NULL, 0, 0, 0};
  begin_answer(&l, status);
  add_field(&l, "content-type", type_of(".txt"));
  add_text(&body, "%s: no page is here by that request.\n", status);
  send_answer(c, s, &l, &body);
  drop_fields(&l);
  drop(&body);
}

void answer(connection *c, stream *s) {
  request r;
  const char *refused = c->queued > MOST_QUEUED ? "503" : read_request(s, &r);
  if (refused) answer_refusal(c, s, refused);
  else if (!strcmp(r.path, "/live/events")) answer_events(c, s, r.query);
  else if (!strcmp(r.path, "/echo")) answer_echo(c, s);
  else if (!strcmp(r.path, "/report")) answer_report(c, s);
  else answer_file(c, s, r.path);
}

/* ---- Answers that are sent in pieces */

void close_answer(stream *s) {
  if (s->file >= 0) close(s->file);
  s->file = -1;
  s->has_more = 0;
}

/* Returns the length of the next piece of an answer, and stores where it is. The end is 0, and a failure below 0. */
static ssize_t next_piece(const connection *c, stream *s, uint8_t *room, const uint8_t **piece) {
  *piece = room;
  if (s->file >= 0) return read(s->file, room, ANSWER_PIECE);
  size_t len = s->event < s->event_end ? s->event_end - s->event : 0;
  if (len > ANSWER_PIECE) len = ANSWER_PIECE;
  *piece = c->events.at + (len ? s->event : 0);
  s->event += len;
  return (ssize_t)len;
}

void send_more(connection *c, stream *s) {
  uint8_t room[ANSWER_PIECE];
  const uint8_t *piece;
  ssize_t len = next_piece(c, s, room, &piece);
  bytes out = {NULL, 0, 0, 0};
  if (len > 0) {
    add_varint(&out, DATA_FRAME);
    add_varint(&out, (uint64_t)len);
    add(&out, piece, (size_t)len);
    if (out.is_short) fail_for_memory(c);
    else send_on(c, s, out.at, out.len);
    drop(&out);
    return;
  }
  close_answer(s);
  if (len < 0) reset_stream(c, s, H3_INTERNAL_ERROR);
  else end_stream(c, s);
}
