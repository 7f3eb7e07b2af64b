/* Reads the frames of a stream of HTTP/3 (RFC 9114, section 7.1) in pieces of any size. It knows nothing of QUIC or QPACK.
 *
 * A reader keeps the frames of one type until they are whole, up to a bound. The payload of every other frame is returned
 * in parts, as it arrives, and is never kept. */
#ifndef FRAMES_H
#define FRAMES_H

#include <stddef.h>
#include <stdint.h>

enum { LONGEST_HEAD = 16 }; /* bytes of a frame's type and length */

typedef struct frame_reader {
  uint64_t kept_type; /* the type whose frames are kept */
  size_t most_kept;   /* the longest payload that is kept, in bytes */
  uint8_t head[LONGEST_HEAD];
  size_t headlen; /* bytes of a type and a length that are not both whole */
  uint64_t type;  /* of the frame that is being read */
  uint64_t left;  /* bytes of its payload that have not arrived */
  int is_keeping; /* that frame is kept */
  int is_whole;   /* a whole frame is in |kept|, until the next call */
  uint8_t *kept;
  size_t keptlen, keptroom;
} frame_reader;

typedef enum frame_kind {
  FRAME_NEEDS_MORE, /* all bytes were read */
  FRAME_BEGINS,     /* a type and a length were read: |len| is the length, at most SIZE_MAX */
  FRAME_PART,       /* a part of a payload that is not kept, in the bytes that were passed */
  FRAME_WHOLE,      /* a payload that was kept; it is valid until the next call */
  FRAME_TOO_LONG,   /* the payload is longer than may be kept. It is returned in parts if reading goes on */
  FRAME_NO_MEMORY   /* reading can't go on */
} frame_kind;

typedef struct frame_event {
  frame_kind kind;
  uint64_t type; /* of the frame */
  const uint8_t *at;
  size_t len;
} frame_event;

/* Makes a reader that keeps frames of |kept_type| with a payload of |most_kept| bytes or less. */
void open_frames(frame_reader *r, uint64_t kept_type, size_t most_kept);

/* Reads up to the next event, and moves |*at| past what it read. Call it until it returns FRAME_NEEDS_MORE. */
frame_event read_frame(frame_reader *r, const uint8_t **at, const uint8_t *end);

/* Returns whether the last frame is whole. Otherwise the end of the stream is H3_FRAME_ERROR. */
int is_between_frames(const frame_reader *r);

/* Frees what the reader keeps. The reader can go on with the next frame. */
void drop_frame(frame_reader *r);

/* Reads a varint (RFC 9000, section 16), and moves |*at| past it. Returns 0 if it is not whole. */
int take_varint(const uint8_t **at, const uint8_t *end, uint64_t *value);

#endif
