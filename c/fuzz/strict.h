/* A strict reader of QPACK (RFC 9204), written from the standard to hold the library against: slow, plain, and with nothing
 * of the library in it. */
#ifndef STRICT_H
#define STRICT_H

#include <stddef.h>
#include <stdint.h>

/* A field line or an entry: the name, and directly after it the value. */
typedef struct strict_field {
  uint8_t *text; /* owned */
  size_t namelen, valuelen;
  int is_never_indexed;
} strict_field;

typedef struct strict_fields {
  strict_field *at;
  size_t len, room;
} strict_fields;

/* Returns the first index of the static table that has a field's name, and with |has_value| its value too, or -1. */
int strict_find_static(const strict_field *field, int has_value);

/* What a decoder of a connection keeps. */
typedef struct strict_decoder {
  uint64_t max_capacity, capacity, size, insert_count;
  strict_fields entries; /* the oldest first */
  uint8_t *pending;      /* bytes of the encoder stream that are no whole instruction yet */
  size_t pendinglen;
  uint64_t number, offset; /* of the instruction at the front of |pending|, or of the one that is refused */
  int is_refused;
} strict_decoder;

typedef enum strict_status { STRICT_OK, STRICT_BLOCKED, STRICT_TOO_LARGE, STRICT_REFUSED } strict_status;

void strict_new(strict_decoder *d, uint64_t max_capacity);
void strict_del(strict_decoder *d);
void strict_free_fields(strict_fields *fields);

/* Reads more bytes of the encoder stream (section 4.3). Returns STRICT_OK or STRICT_REFUSED. |is_doomed| says whether the
 * cut instruction at the end must be refused whatever follows: a decoder may refuse it already. */
strict_status strict_receive(strict_decoder *d, const uint8_t *p, size_t len, int *is_doomed);

/* What a section reads as (section 4.5). */
typedef struct strict_section {
  strict_status status;
  uint64_t required;
  uint64_t number, offset; /* of the line at which it is refused or too large; else 0 */
  strict_fields fields;    /* to be freed */
} strict_section;

/* Reads a section whose fields take at most |limit| bytes, 32 more for each field (RFC 9114, section 4.2.2). */
strict_section strict_decode(const strict_decoder *d, const uint8_t *p, size_t len, uint64_t limit);

/* A section that an encoder sent, and whose acknowledgment it waits for. */
typedef struct strict_sent {
  uint64_t stream, required;
} strict_sent;

/* What an encoder of a connection keeps of its sections. */
typedef struct strict_encoder {
  uint64_t insert_count, known_received;
  strict_sent *sent; /* the oldest first */
  size_t len, room;
  uint8_t pending[16]; /* bytes of the decoder stream that are no whole instruction yet */
  size_t pendinglen;
  uint64_t number, offset; /* of the instruction at the front of |pending|, or of the one that is refused */
  int is_refused;
} strict_encoder;

void strict_new_encoder(strict_encoder *e);
void strict_del_encoder(strict_encoder *e);

/* Keeps a section of this Required Insert Count, unless that is 0. So many insertions were made by then. */
void strict_send(strict_encoder *e, uint64_t stream, uint64_t required, uint64_t insert_count);

/* Reads more bytes of the decoder stream (section 4.4). Returns STRICT_OK or STRICT_REFUSED. */
strict_status strict_hear(strict_encoder *e, const uint8_t *p, size_t len);

/* Returns how many streams have a section that requires more than so many insertions (section 2.1.2). */
size_t strict_count_streams(const strict_sent *sent, size_t len, uint64_t insertions);

#endif
