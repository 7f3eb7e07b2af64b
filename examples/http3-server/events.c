/* What QPACK did on a connection, a line of JSON each: for the page /live, and for a log. */
#include <stdlib.h>
#include "server.h"

static FILE *log;

int open_log(void) {
  if (option.log) log = fopen(option.log, "w");
  return !option.log || log;
}

/* Without memory, or room for the line, the events of the connection end before it. */
static void end_event(connection *c, bytes *line) {
  add(line, "}\n", 2);
  if (line->is_short || line->len > MOST_EVENTS - c->events.len) c->events.is_short = 1;
  else add(&c->events, line->at, line->len);
  if (log && !line->is_short) {
    fwrite(line->at, 1, line->len, log);
    fflush(log);
  }
  drop(line);
}

static bytes begin_event(const connection *c, const char *kind) {
  bytes line = {NULL, 0, 0, 0};
  add_text(&line, "{\"connection\":%u,\"event\":\"%s\"", c->number, kind);
  return line;
}

void add_event(connection *c, const char *kind, const char *format, ...) {
  bytes line = begin_event(c, kind);
  va_list arguments;
  va_start(arguments, format);
  add_text_of(&line, format, arguments);
  va_end(arguments);
  end_event(c, &line);
}

void add_text_event(connection *c, const char *kind, const uint8_t *text, size_t len) {
  bytes line = begin_event(c, kind);
  add_text(&line, ",\"text\":");
  add_json(&line, text, len);
  end_event(c, &line);
}

void add_bytes_event(connection *c, const char *kind, unsigned type, const uint8_t *p, size_t len) {
  bytes line = begin_event(c, kind);
  add_text(&line, ",\"type\":%u,\"hex\":", type);
  add_hex(&line, p, len);
  end_event(c, &line);
}

void add_fields(bytes *b, const h3_qpack_nv *nva, size_t nvlen) {
  add(b, "[", 1);
  for (size_t i = 0; i < nvlen; i++) {
    add_text(b, i ? ",[" : "[");
    add_json(b, nva[i].name, nva[i].namelen);
    add(b, ",", 1);
    add_json(b, nva[i].value, nva[i].valuelen);
    add(b, "]", 1);
  }
  add(b, "]", 1);
}

void add_section_event(connection *c, const char *kind, const stream *s, size_t required, const uint8_t *section, size_t len,
                       const h3_qpack_nv *nva, size_t nvlen) {
  bytes line = begin_event(c, kind);
  add_text(&line, ",\"id\":%lld,\"required\":%zu,\"hex\":", (long long)s->id, required);
  add_hex(&line, section, len);
  add_text(&line, ",\"fields\":");
  add_fields(&line, nva, nvlen);
  end_event(c, &line);
}
