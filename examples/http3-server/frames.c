/* The frames of a stream, read in pieces. */
#include "frames.h"
#include <stdlib.h>
#include <string.h>

enum { LEAST_ROOM = 256 }; /* bytes that are allocated for a payload at first */

int take_varint(const uint8_t **at, const uint8_t *end, uint64_t *value) {
  if (*at == end) return 0;
  int len = 1 << (**at >> 6);
  if (end - *at < len) return 0;
  *value = **at & 0x3f;
  for (int i = 1; i < len; i++) *value = *value << 8 | (*at)[i];
  *at += len;
  return 1;
}

void open_frames(frame_reader *r, uint64_t kept_type, size_t most_kept) {
  *r = (frame_reader){.kept_type = kept_type, .most_kept = most_kept};
}

void drop_frame(frame_reader *r) {
  free(r->kept);
  r->kept = NULL;
  r->keptlen = r->keptroom = 0;
  r->is_whole = 0;
}

int is_between_frames(const frame_reader *r) { return !r->headlen && !r->left && !r->is_keeping; }

static size_t smaller(uint64_t a, size_t b) { return a < b ? (size_t)a : b; }

/* Reads a type and a length. Returns 0 if they are not whole. */
static int read_head(frame_reader *r, const uint8_t **at, const uint8_t *end) {
  while (*at < end) {
    r->head[r->headlen++] = *(*at)++;
    const uint8_t *head = r->head, *headend = r->head + r->headlen;
    if (take_varint(&head, headend, &r->type) && take_varint(&head, headend, &r->left)) {
      r->headlen = 0;
      return 1;
    }
  }
  return 0;
}

static frame_event begin_frame(frame_reader *r) {
  frame_event event = {FRAME_BEGINS, r->type, NULL, smaller(r->left, SIZE_MAX)};
  r->is_keeping = r->type == r->kept_type && r->left <= r->most_kept;
  if (r->type == r->kept_type && !r->is_keeping) event.kind = FRAME_TOO_LONG;
  return event;
}

/* Makes room for |len| bytes more of a payload, of which |left| are missing. Room grows with what has arrived, not with
 * what was announced. */
static int make_room(frame_reader *r, size_t len) {
  size_t whole = r->keptlen + (size_t)r->left, wanted = 2 * (r->keptlen + len);
  if (r->keptlen + len <= r->keptroom) return 1;
  if (wanted < LEAST_ROOM) wanted = LEAST_ROOM;
  if (wanted > whole) wanted = whole;
  uint8_t *larger = realloc(r->kept, wanted);
  if (!larger) return 0;
  r->kept = larger;
  r->keptroom = wanted;
  return 1;
}

static frame_event keep_part(frame_reader *r, const uint8_t *part, size_t len) {
  if (len && !make_room(r, len)) return (frame_event){FRAME_NO_MEMORY, r->type, NULL, 0};
  if (len) memcpy(r->kept + r->keptlen, part, len);
  r->keptlen += len;
  r->left -= len;
  if (r->left) return (frame_event){FRAME_NEEDS_MORE, r->type, NULL, 0};
  r->is_keeping = 0;
  r->is_whole = 1;
  return (frame_event){FRAME_WHOLE, r->type, r->kept, r->keptlen};
}

frame_event read_frame(frame_reader *r, const uint8_t **at, const uint8_t *end) {
  if (r->is_whole) drop_frame(r);
  if (is_between_frames(r) || r->headlen) {
    if (read_head(r, at, end)) return begin_frame(r);
    return (frame_event){FRAME_NEEDS_MORE, 0, NULL, 0};
  }
  const uint8_t *part = *at;
  size_t len = smaller(r->left, (size_t)(end - part));
  *at += len;
  if (r->is_keeping) return keep_part(r, part, len);
  r->left -= len;
  return (frame_event){len ? FRAME_PART : FRAME_NEEDS_MORE, r->type, part, len};
}
