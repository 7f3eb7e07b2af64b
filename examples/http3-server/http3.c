/* The framing of HTTP/3 (RFC 9114): streams, frames and settings. */
#include <stdlib.h>
#include <string.h>
#include "server.h"

enum { CONTROL_STREAM = 0, PUSH_STREAM = 1, ENCODER_STREAM = 2, DECODER_STREAM = 3 };
enum { CANCEL_PUSH_FRAME = 3, PUSH_PROMISE_FRAME = 5, GOAWAY_FRAME = 7, MAX_PUSH_ID_FRAME = 13 };

/* The three streams that this side opens begin with their types, and the control stream goes on with the settings. */
void open_http3(connection *c) {
  bytes settings = {NULL, 0, 0, 0}, control = {NULL, 0, 0, 0};
  add_varint(&settings, 0x01); /* SETTINGS_QPACK_MAX_TABLE_CAPACITY */
  add_varint(&settings, option.capacity);
  add_varint(&settings, 0x07); /* SETTINGS_QPACK_BLOCKED_STREAMS */
  add_varint(&settings, option.blocked);
  add_varint(&settings, 0x06); /* SETTINGS_MAX_FIELD_SECTION_SIZE */
  add_varint(&settings, option.limit);
  add_varint(&control, CONTROL_STREAM);
  add_varint(&control, SETTINGS_FRAME);
  add_varint(&control, settings.len);
  add(&control, settings.at, settings.len);
  if (settings.is_short || control.is_short) fail_for_memory(c);
  else send_on(c, &c->own[CONTROL], control.at, control.len);
  send_on(c, &c->own[ENCODER], (const uint8_t *)"\2", 1);
  send_on(c, &c->own[DECODER], (const uint8_t *)"\3", 1);
  add_event(c, "begin", ",\"capacity\":%llu,\"blocked\":%llu", (unsigned long long)option.capacity,
            (unsigned long long)option.blocked);
  drop(&settings);
  drop(&control);
}

void fail_for_memory(connection *c) { end_connection(c, H3_INTERNAL_ERROR, "no memory"); }

/* ---- What is received and not read */

/* The bytes of a stream up to a place were read: the peer may send as many again. */
static void drop_front(connection *c, stream *s, const uint8_t *to) {
  size_t len = (size_t)(to - s->in.at);
  if (!len) return;
  s->in.len -= len;
  memmove(s->in.at, to, s->in.len);
  extend_windows(c, s, len);
}

static void drop_received(connection *c, stream *s) {
  if (s->in.len) drop_front(c, s, s->in.at + s->in.len);
}

/* A request keeps the section of its HEADERS frame, and no longer one than any that is within the limit. */
void open_reader(stream *s) {
  if (s->id & 2) open_frames(&s->frames, SETTINGS_FRAME, MOST_SETTINGS);
  else open_frames(&s->frames, HEADERS_FRAME, h3_qpack_longest_section(option.limit));
}

/* ---- The peer's unidirectional streams */

static void read_settings(connection *c, const uint8_t *at, size_t len) {
  const uint8_t *end = at + len;
  uint64_t id, value, capacity = 0, blocked = 0;
  while (at < end) {
    if (!take_varint(&at, end, &id) || !take_varint(&at, end, &value)) {
      end_connection(c, H3_FRAME_ERROR, "a setting is cut");
      return;
    }
    if (id == 0x01) capacity = value;
    if (id == 0x07) blocked = value;
  }
  take_settings(c, capacity, blocked);
  add_event(c, "settings", ",\"capacity\":%llu,\"blocked\":%llu", (unsigned long long)capacity, (unsigned long long)blocked);
}

/* Returns why a frame may not begin on the control stream, or 0. */
static uint64_t judge_control(const connection *c, uint64_t type) {
  if (!c->has_settings) return type == SETTINGS_FRAME ? 0 : H3_MISSING_SETTINGS;
  int is_of_requests = type == DATA_FRAME || type == HEADERS_FRAME || type == PUSH_PROMISE_FRAME;
  return type == SETTINGS_FRAME || is_of_requests ? H3_FRAME_UNEXPECTED : 0;
}

static void take_control(connection *c, const frame_event *f) {
  uint64_t code = f->kind == FRAME_BEGINS ? judge_control(c, f->type) : 0;
  if (code) end_connection(c, code, "this frame may not be here on the control stream");
  else if (f->kind == FRAME_TOO_LONG) end_connection(c, H3_EXCESSIVE_LOAD, "the settings are too long");
  else if (f->kind == FRAME_NO_MEMORY) fail_for_memory(c);
  else if (f->kind == FRAME_WHOLE) read_settings(c, f->at, f->len);
}

static void read_control(connection *c, stream *s) {
  const uint8_t *at = s->in.at, *end = at + s->in.len;
  while (!c->is_closing) {
    frame_event f = read_frame(&s->frames, &at, end);
    if (f.kind == FRAME_NEEDS_MORE) break;
    take_control(c, &f);
  }
  drop_front(c, s, at);
}

static int is_critical(const stream *s) {
  return s->type == CONTROL_STREAM || s->type == ENCODER_STREAM || s->type == DECODER_STREAM;
}

/* Reads the type of a stream. Returns 0 if it is not whole, or not allowed: a client opens each critical stream once, and
 * pushes nothing. */
static int read_type(connection *c, stream *s) {
  const uint8_t *at = s->in.at;
  uint64_t type;
  if (!s->in.len || !take_varint(&at, at + s->in.len, &type)) return 0;
  int is_second = type == PUSH_STREAM;
  for (const stream *other = c->streams; other; other = other->next)
    if (is_critical(other) && (uint64_t)other->type == type) is_second = 1;
  s->type = (int64_t)type;
  drop_front(c, s, at);
  if (is_second) end_connection(c, H3_STREAM_CREATION_ERROR, "this stream may not be opened");
  return !is_second;
}

static void receive_unidirectional(connection *c, stream *s) {
  if (s->type < 0 && !read_type(c, s)) return;
  if (s->has_ended && is_critical(s)) end_connection(c, H3_CLOSED_CRITICAL_STREAM, "critical stream");
  else if (s->type == CONTROL_STREAM) read_control(c, s);
  else if (is_critical(s)) read_instructions(c, s);
  drop_received(c, s); /* of a type that is not known (section 9) */
}

/* ---- Requests */

/* Returns why a frame may not begin in a request, or 0 (section 4.1). */
static uint64_t judge_request(const stream *s, uint64_t type) {
  if (type == DATA_FRAME) return s->sections == 1 ? 0 : H3_FRAME_UNEXPECTED;
  if (type == HEADERS_FRAME) return s->sections < 2 ? 0 : H3_FRAME_UNEXPECTED;
  int is_of_others = type == SETTINGS_FRAME || type == CANCEL_PUSH_FRAME || type == PUSH_PROMISE_FRAME ||
                     type == GOAWAY_FRAME || type == MAX_PUSH_ID_FRAME;
  return is_of_others ? H3_FRAME_UNEXPECTED : 0;
}

static void read_body(connection *c, stream *s, const uint8_t *part, size_t len) {
  if (len > MOST_BODY - s->body.len) {
    refuse(c, s, "413");
    return;
  }
  add(&s->body, part, len);
  if (s->body.is_short) fail_for_memory(c);
}

static void take_request(connection *c, stream *s, const frame_event *f) {
  uint64_t code = f->kind == FRAME_BEGINS || f->kind == FRAME_TOO_LONG ? judge_request(s, f->type) : 0;
  if (code) end_connection(c, code, "this frame may not be here in a request");
  else if (f->kind == FRAME_TOO_LONG) refuse(c, s, "431");
  else if (f->kind == FRAME_NO_MEMORY) fail_for_memory(c);
  else if (f->kind == FRAME_WHOLE) read_section(c, s, f->at, f->len);
  else if (f->kind == FRAME_PART && f->type == DATA_FRAME) read_body(c, s, f->at, f->len);
}

/* Whether reading of a request goes on. */
static int is_read(const connection *c, const stream *s) { return !c->is_closing && !s->is_given_up && !s->is_waiting; }

/* The whole request arrived: answers it. */
static void end_request(connection *c, stream *s) {
  if (!is_between_frames(&s->frames)) {
    end_connection(c, H3_FRAME_ERROR, "a stream ends in a frame");
  } else if (!s->sections) {
    give_up(c, s);
    reset_stream(c, s, H3_REQUEST_INCOMPLETE);
  } else {
    s->is_answered = 1;
    answer(c, s);
  }
}

/* What is after a section that is blocked stays in |in|: QUIC's flow control holds the rest back. */
static void receive_request(connection *c, stream *s) {
  const uint8_t *at = s->in.at, *end = at + s->in.len;
  if (s->is_waiting) read_section(c, s, s->frames.kept, s->frames.keptlen);
  while (is_read(c, s)) {
    frame_event f = read_frame(&s->frames, &at, end);
    if (f.kind == FRAME_NEEDS_MORE) break;
    take_request(c, s, &f);
  }
  if (is_read(c, s)) {
    drop_front(c, s, at);
    if (s->has_ended && !s->is_answered) end_request(c, s);
  } else if (s->is_waiting) {
    drop_front(c, s, at);
  } else {
    drop_received(c, s);
  }
}

void receive_on(connection *c, stream *s) {
  if (s->in.is_short) fail_for_memory(c);
  if (s->is_given_up || c->is_closing) drop_received(c, s);
  else if (s->id & 2) receive_unidirectional(c, s);
  else receive_request(c, s);
}

/* The stream ends before its request was read whole, or answered. */
void give_up(connection *c, stream *s) {
  if (s->is_given_up || s->id & 2) return;
  if (!s->has_ended || s->is_waiting || !s->sections) cancel_section(c, s);
  s->is_given_up = 1;
  drop_frame(&s->frames);
}

/* The answer goes out before the request was read whole, and the peer is asked to send no more of it (section 4.1). */
void refuse(connection *c, stream *s, const char *status) {
  int has_ended = s->has_ended;
  give_up(c, s);
  if (!has_ended) stop_reading(c, s, H3_NO_ERROR);
  s->is_answered = 1;
  answer_refusal(c, s, status);
}

void free_stream(stream *s) {
  for (chunk *k = s->first, *next; k; k = next) {
    next = k->next;
    free(k);
  }
  close_answer(s);
  drop_frame(&s->frames);
  free(s->fields);
  free(s->text);
  drop(&s->in);
  drop(&s->body);
}
