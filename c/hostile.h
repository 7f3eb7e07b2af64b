/* What the cases of hostile.c are made of: a meter, bytes of the wire, fields that a peer or an application would choose,
 * and calls of the ends. */
#ifndef HOSTILE_H
#define HOSTILE_H

#include "counted.h"

/* ---- The meter: a line for each case, with what a call took, and a byte where bytes are handed in. */

static size_t size, rows, live_before;
static double begun;

static __attribute__((noinline, unused)) void begin_case(void) {
  live_before = most_live = most_moving = live;
  begun = now();
}

/* How much more memory was live than when the case began, at most. */
static inline size_t most_taken(void) { return most_live - live_before; }

static __attribute__((noinline, unused)) void end_case(const char *call, const char *input, size_t calls, size_t bytes) {
  double ns = now() - begun;
  printf("%6zu  %s, %s: %.0f ns", size, call, input, ns / (double)calls);
  if (bytes) printf(", %.1f a byte", ns / (double)bytes);
  printf(" of %zu; %zu bytes of memory\n", calls, most_taken());
  rows++;
}

/* ---- Bytes of the wire */

typedef struct {
  uint8_t *at;
  size_t len, room;
} bytes;

static inline void put(bytes *b, const void *p, size_t len) {
  if (b->len + len > b->room) {
    b->room = 2 * (b->len + len) + 64;
    b->at = __real_realloc(b->at, b->room);
    CHECK(b->at);
  }
  if (len) memcpy(b->at + b->len, p, len);
  b->len += len;
}

static inline void put_often(bytes *b, uint8_t byte, size_t count) {
  while (count--) put(b, &byte, 1);
}

static inline void drop(bytes *b) {
  __real_free(b->at);
  *b = (bytes){NULL, 0, 0};
}

/* An integer after flags, with a prefix of |bits| bits. */
static inline void put_int(bytes *b, uint8_t flags, int bits, uint64_t value) {
  uint8_t at[11];
  put(b, at, write_int(at, flags, bits, value));
}

/* A character, and its code (RFC 7541, appendix B). */
typedef struct {
  const char *label;
  char letter;
  uint32_t code;
  int bits; /* 0: it is not coded */
} coding;

static const coding plain = {"a plain string", 'a', 0, 0};
static const coding shortest = {"codes of 5 bits", 'a', 0x3, 5};
static const coding longest = {"codes of 30 bits", '\n', 0x3ffffffc, 30};

/* A string of one character so often, with its length behind flags, in a prefix of so many bits. */
static inline void put_string(bytes *b, uint8_t flags, int bits, const coding *c, size_t count) {
  if (!c->bits) {
    put_int(b, flags, bits, count);
    put_often(b, (uint8_t)c->letter, count);
    return;
  }
  put_int(b, (uint8_t)(flags | 1 << bits), bits, (count * (size_t)c->bits + 7) / 8);
  uint64_t pending = 0;
  int have = 0;
  while (count--) {
    pending = pending << c->bits | c->code;
    for (have += c->bits; have >= 8; have -= 8) put_often(b, (uint8_t)(pending >> (have - 8)), 1);
  }
  if (have) put_often(b, (uint8_t)(pending << (8 - have) | 0xff >> have), 1);
}

/* An insertion whose name and value are one character so often (RFC 9204, section 4.3.3). */
static inline void put_insertion(bytes *b, const coding *name, size_t names, const coding *value, size_t values) {
  put_string(b, 0x40, 5, name, names);
  put_string(b, 0, 7, value, values);
}

/* The prefix of a section that requires so many insertions, which is its base too (section 4.5.1). */
static inline void put_prefix(bytes *b, size_t required, size_t max_capacity) {
  put_int(b, 0, 8, required ? required % (2 * (max_capacity / 32)) + 1 : 0);
  put_int(b, 0, 7, 0);
}

/* ---- Fields of sixteen bytes of name and of value: so an entry has 64 */

#define FIELD 64

typedef enum { RANDOM, ONE_NAME, EQUAL_FIELDS, EQUAL_NAMES, KINDS } kind;

static const char *const kinds[] = {"random fields", "one name", "equal hashes of fields", "equal hashes of names"};

typedef struct {
  uint8_t name[16], value[16];
} field;

static inline void write_digits(uint8_t *at, uint64_t number) {
  static const char digits[] = "0123456789abcdef";
  for (int i = 0; i < 16; i++, number /= 16) at[i] = (uint8_t)digits[number % 16];
}

/* The factor of the table's hash under the seed 0, which is no secret. */
#define FACTOR 0xe7037ed1a0b428dbu

/* Sixteen bytes that end in the factor, behind which the hash is 0 whatever was before. */
static inline void write_forgotten(uint8_t *at, uint64_t number) {
  uint64_t factor = FACTOR;
  memcpy(at, &number, 8);
  memcpy(at + 8, &factor, 8);
}

/* So many different fields of a kind. */
static inline field *make_fields(kind k, size_t count) {
  field *made = __real_malloc(count * sizeof *made);
  CHECK(made);
  for (size_t i = 0; i < count; i++) {
    field *f = &made[i];
    memcpy(f->name, "x-one-x-one-x-on", 16);
    memcpy(f->value, "x-one-x-one-x-on", 16);
    uint64_t scattered = (uint64_t)i * 0x9e3779b97f4a7c15u;
    if (k == RANDOM) write_digits(f->name, scattered);
    if (k == RANDOM) write_digits(f->value, i);
    if (k == ONE_NAME) write_digits(f->value, scattered);
    if (k == EQUAL_FIELDS) write_forgotten(f->value, i);
    if (k == EQUAL_NAMES) write_forgotten(f->name, i);
  }
  return made;
}

/* The field of a place. With the seed 0 all such have equal hashes, and are sorted in the order of their places. */
static inline field field_of_place(uint64_t place) {
  field f;
  memcpy(f.name, "x-one-x-one-x-on", 16);
  write_forgotten(f.value, __builtin_bswap64(place));
  return f;
}

/* ---- The ends, whose calls succeed */

static uint8_t section[1 << 12], stream[1 << 20];

static inline void open_seeded(h3_qpack_encoder *e, size_t capacity, size_t blocked, size_t unacknowledged,
                               uint64_t encoder_seed) {
  h3_qpack_encoder_settings settings;
  h3_qpack_encoder_settings_default(&settings);
  settings.max_capacity = settings.capacity = capacity;
  settings.max_blocked = blocked;
  settings.most_unacknowledged = unacknowledged;
  settings.seed = encoder_seed;
  CHECK(!h3_qpack_encoder_new(e, &settings));
}

static inline void open_encoder(h3_qpack_encoder *e, size_t capacity, size_t blocked, size_t unacknowledged) {
  open_seeded(e, capacity, blocked, unacknowledged, 0);
}

/* A decoder whose peer set the greatest capacity. */
static inline void open_decoder(h3_qpack_decoder *d, size_t capacity, size_t blocked, uint64_t limit) {
  bytes b = {NULL, 0, 0};
  put_int(&b, 0x20, 5, capacity);
  CHECK(!new_decoder(d, capacity, blocked, limit));
  CHECK(h3_qpack_decoder_read_encoder(d, b.at, b.len).status == H3_QPACK_OK);
  drop(&b);
}

static inline void receive(h3_qpack_decoder *d, const bytes *b) {
  h3_qpack_received r = h3_qpack_decoder_read_encoder(d, b->at, b->len);
  CHECK(r.status == H3_QPACK_OK && r.taken == b->len);
}

/* Encodes a section of one field with these flags, adds its instructions to |sent| if that is not null, and returns what it
 * requires. */
static inline size_t encode_as(h3_qpack_encoder *e, uint64_t stream_id, const field *f, uint8_t flags, bytes *sent) {
  h3_qpack_nv nv = {f->name, sizeof f->name, f->value, sizeof f->value, flags};
  h3_qpack_encoded a = h3_qpack_encoder_encode(e, stream_id, &nv, 1, section, sizeof section);
  CHECK(a.status == H3_QPACK_OK);
  size_t len = h3_qpack_encoder_write_encoder(e, stream, sizeof stream);
  if (sent) put(sent, stream, len);
  return a.required;
}

/* Encodes a field that is to be inserted. */
static inline size_t encode(h3_qpack_encoder *e, uint64_t stream_id, const field *f, bytes *sent) {
  return encode_as(e, stream_id, f, H3_QPACK_NV_FLAG_INSERT, sent);
}

/* Acknowledges a section of stream 0 if it requires insertions, and returns what it requires. */
static inline size_t heard(h3_qpack_encoder *e, size_t required) {
  if (required) hear(e, "\x80", 1);
  return required;
}

/* Encodes a field that is to be inserted, and acknowledges its section. */
static inline size_t encode_heard(h3_qpack_encoder *e, const field *f, bytes *sent) { return heard(e, encode(e, 0, f, sent)); }

static inline h3_qpack_decoded decode(h3_qpack_decoder *d, uint64_t stream_id, const bytes *b) {
  return h3_qpack_decoder_decode(d, stream_id, b->at, b->len);
}

static inline void close_decoder(h3_qpack_decoder *d, bytes *b) {
  h3_qpack_decoder_del(d);
  drop(b);
}

#endif
