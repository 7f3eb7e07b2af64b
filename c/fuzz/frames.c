/* Holds the frame reader of the example server against a naive reading of the whole, over what libFuzzer makes of an input.
 *
 * An input is a byte with the bound on what is kept, a byte with the length of the pieces, and the bytes of a stream.
 * fuzz/seeds.py writes such inputs. */
#include "../../examples/http3-server/frames.h"
#include "target.h"

#define KEPT_TYPE 1
#define MOST_KEPT 1024

/* What a reading found, written one after the other: for each frame its type, its length, and its payload as far as it
 * arrived. */
typedef struct reading {
  uint8_t at[1 << 18];
  size_t len;
} reading;

static void put(reading *r, const void *p, size_t len) {
  CHECK(len <= sizeof r->at - r->len);
  if (len) memcpy(r->at + r->len, p, len);
  r->len += len;
}

static void put_number(reading *r, uint64_t number) { put(r, &number, sizeof number); }

/* ---- The naive reading */

/* Reads a varint as section 16 of RFC 9000 has it. Returns 0 if it is not whole. */
static size_t read_number(const uint8_t *p, size_t len, uint64_t *number) {
  if (!len || len < (size_t)1 << (p[0] / 64)) return 0;
  size_t size = (size_t)1 << (p[0] / 64);
  *number = p[0] % 64;
  for (size_t i = 1; i < size; i++) *number = *number * 256 + p[i];
  return size;
}

/* Reads the frames of a stream that is there as a whole. Returns whether it ends between two frames. A frame that is kept
 * is found only if it is whole. */
static int read_naively(const uint8_t *p, size_t len, size_t most_kept, reading *found) {
  while (len) {
    uint64_t type, length;
    size_t first = read_number(p, len, &type);
    size_t second = first ? read_number(p + first, len - first, &length) : 0;
    if (!second) return 0;
    p += first + second;
    len -= first + second;
    size_t part = length < len ? (size_t)length : len;
    put_number(found, type);
    put_number(found, length);
    if (type != KEPT_TYPE || length > most_kept || part == length) put(found, p, part);
    if (part < length) return 0;
    p += part;
    len -= part;
  }
  return 1;
}

/* ---- The reader */

static void take(const frame_reader *reader, const frame_event *event, reading *found) {
  CHECK(event->kind != FRAME_NO_MEMORY);
  if (event->kind == FRAME_BEGINS || event->kind == FRAME_TOO_LONG) {
    int is_long = event->type == KEPT_TYPE && event->len > reader->most_kept;
    CHECK(is_long == (event->kind == FRAME_TOO_LONG));
    put_number(found, event->type);
    put_number(found, event->len);
  } else {
    CHECK(event->kind != FRAME_PART || event->len);
    put(found, event->at, event->len);
  }
}

/* Reads a piece, which stands alone so that a sanitizer sees what is read after it. Of |arrived| bytes no more is kept. */
static void read_piece(frame_reader *reader, const uint8_t *p, size_t len, size_t arrived, reading *found) {
  uint8_t *alone = malloc(len + !len);
  CHECK(alone);
  if (len) memcpy(alone, p, len);
  const uint8_t *at = alone;
  for (;;) {
    frame_event event = read_frame(reader, &at, alone + len);
    CHECK(reader->keptroom <= reader->most_kept && reader->keptlen <= arrived);
    if (event.kind == FRAME_NEEDS_MORE) break;
    take(reader, &event, found);
  }
  CHECK(at == alone + len);
  free(alone);
}

int LLVMFuzzerTestOneInput(const uint8_t *p, size_t len) {
  static reading naive, pieces;
  frame_reader reader;
  if (len < 2) return 0;
  size_t most_kept = (size_t)p[0] * MOST_KEPT / 255, piece = p[1] ? p[1] : len;
  p += 2;
  len -= 2;
  naive.len = pieces.len = 0;
  int is_whole = read_naively(p, len, most_kept, &naive);
  open_frames(&reader, KEPT_TYPE, most_kept);
  for (size_t at = 0; at < len; at += piece) {
    size_t part = len - at < piece ? len - at : piece;
    read_piece(&reader, p + at, part, at + part, &pieces);
  }
  CHECK(naive.len == pieces.len && !memcmp(naive.at, pieces.at, naive.len));
  CHECK(is_between_frames(&reader) == is_whole);
  drop_frame(&reader);
  return 0;
}
