/* Measures how much memory the two ends of a connection take at most, whatever the peer sends: the bounds of
 * docs/SECURITY.md. Each case prints what is taken after it, and the most that was taken so far, also while a block was
 * moved, and fails above its bound. 8 bytes are added for each block, for the heap itself. All bytes that are to be sent are
 * taken after each call. */
#include "hostile.h"

/* The settings of docs/SECURITY.md, and its bounds on each end. */
#define CAPACITY 4096
#define BLOCKED 16
#define LIMIT 65536
#define DECODER_BOUND (192 * 1024)
#define PIECE_BOUND (112 * 1024)
#define LEFT_BOUND (12 * 1024)
/* What an insertion takes whose bytes are all in one piece, on a decoder that has received nothing else: so much, and so many
 * bytes for each byte of the capacity if it fits, or of its name if that alone does. */
#define INSERTION_BASE 1024
#define FITTING_BOUND 3
#define NAME_BOUND 2
#define LONGEST 65536
#define ENCODER_BOUND (144 * 1024)
#define CANCELLED_BOUND (256 * 1024)

static void check_bound(const char *what, size_t number, size_t bound) {
  printf("%8zu  %-66s %7zu now, %7zu at most\n", number, what, live + 8 * blocks, most_moving);
  CHECK(most_moving <= bound);
}

/* ---- A decoder */

/* Receives instructions, in one piece. */
static void send(h3_qpack_decoder *d, bytes *b, int status) {
  CHECK(h3_qpack_decoder_read_encoder(d, b->at, b->len).status == status);
  CHECK(h3_qpack_decoder_write_decoder(d, stream, sizeof stream) < sizeof stream);
  b->len = 0;
}

/* Decodes a section. */
static void send_section(h3_qpack_decoder *d, uint64_t stream_id, bytes *b, int status) {
  CHECK(h3_qpack_decoder_decode(d, stream_id, b->at, b->len).status == status);
  CHECK(h3_qpack_decoder_write_decoder(d, stream, sizeof stream) < sizeof stream);
  b->len = 0;
}

/* Fills the table with fields of 34 bytes, forty times over, and then with an entry as large as the capacity. */
static void fill_table(h3_qpack_decoder *d) {
  bytes b = {NULL, 0, 0};
  for (size_t i = 0; i < 40 * (CAPACITY / 34); i++) {
    put_insertion(&b, &plain, 1, &plain, 1);
    send(d, &b, H3_QPACK_OK);
  }
  check_bound("fields of 34 bytes in the table, inserted forty times", CAPACITY / 34, DECODER_BOUND);
  put_insertion(&b, &plain, 0, &plain, CAPACITY - 32);
  send(d, &b, H3_QPACK_OK);
  drop(&b);
}

/* As many streams are blocked as may be. */
static void block_streams(h3_qpack_decoder *d) {
  bytes b = {NULL, 0, 0};
  for (uint64_t i = 0; i < BLOCKED; i++) {
    put_prefix(&b, h3_qpack_decoder_get_icnt(d) + 1, CAPACITY);
    put_int(&b, 0x80, 6, 0);
    send_section(d, i, &b, H3_QPACK_BLOCKED);
  }
  check_bound("blocked streams", BLOCKED, DECODER_BOUND);
  drop(&b);
}

/* Sections at the limit, of many fields and of one. */
static void decode_at_limit(h3_qpack_decoder *d) {
  bytes b = {NULL, 0, 0};
  put(&b, "\0\0", 2);
  for (size_t i = 0; i < LIMIT / 32; i++) put(&b, "\x20\0", 2);
  send_section(d, 100, &b, H3_QPACK_OK);
  check_bound("fields of 32 bytes in a section", LIMIT / 32, DECODER_BOUND);
  put(&b, "\0\0\x21n", 4);
  put_string(&b, 0, 7, &plain, LIMIT - 33);
  send_section(d, 100, &b, H3_QPACK_OK);
  check_bound("bytes in the one field of a section", LIMIT, DECODER_BOUND);
  drop(&b);
}

/* Sections past the limit: one string as long as a section may be, of the shortest codes, of the longest, and plain, after
 * some references to the largest entry. */
static void decode_past_limit(h3_qpack_decoder *d, const coding *c, size_t references) {
  bytes b = {NULL, 0, 0};
  size_t most = 4 * LIMIT + 20;
  put_prefix(&b, references ? h3_qpack_decoder_get_icnt(d) : 0, CAPACITY);
  put_often(&b, 0x80, references);
  put(&b, "\x21n", 2);
  put_string(&b, 0, 7, c, c->bits ? (most - b.len - 5) * 8 / (size_t)c->bits : most - b.len - 5);
  CHECK(b.len <= most);
  send_section(d, 100, &b, H3_QPACK_ERR_TOO_LARGE);
  char what[64];
  snprintf(what, sizeof what, "references before a string past the limit, %s", c->label);
  check_bound(what, references, DECODER_BOUND);
  drop(&b);
}

/* An insertion as large as the capacity, of the longest codes, and all but its last byte of it: as one piece, and in bytes. */
static void cut_insertion(h3_qpack_decoder *d) {
  bytes b = {NULL, 0, 0};
  put_insertion(&b, &plain, 0, &longest, CAPACITY - 32);
  b.len--;
  for (size_t i = 0; i < b.len; i++) {
    CHECK(h3_qpack_decoder_read_encoder(d, b.at + i, 1).status == H3_QPACK_OK);
  }
  check_bound("bytes of an insertion, cut before its last one", b.len, DECODER_BOUND);
  drop(&b);
}

static void hold_decoder(void) {
  bytes b = {NULL, 0, 0};
  h3_qpack_decoder d;
  begin_case();
  open_decoder(&d, CAPACITY, BLOCKED, LIMIT);
  fill_table(&d);
  block_streams(&d);
  decode_at_limit(&d);
  const coding *codings[] = {&plain, &shortest, &longest};
  for (size_t i = 0; i < 3; i++) {
    decode_past_limit(&d, codings[i], 0);
    decode_past_limit(&d, codings[i], LIMIT / CAPACITY);
  }
  cut_insertion(&d);
  put(&b, "\0\0\xd1", 3);
  send_section(&d, 100, &b, H3_QPACK_OK);
  check_bound("field in a section after these", 1, DECODER_BOUND);
  drop(&b);
  h3_qpack_decoder_del(&d);
  CHECK(!live && !blocks);
}

/* Whole instructions in one piece of so many bytes: what is kept after it does not grow with the piece. Once all that
 * reports its insertions is sent, the memory for that is given back. */
static void hold_piece(size_t len) {
  bytes b = {NULL, 0, 0};
  h3_qpack_decoder d;
  begin_case();
  open_decoder(&d, CAPACITY, BLOCKED, LIMIT);
  for (size_t i = 0; i < len; i += 2) put(&b, "\xc1\0", 2);
  CHECK(h3_qpack_decoder_read_encoder(&d, b.at, b.len).status == H3_QPACK_OK);
  while (h3_qpack_decoder_write_decoder(&d, stream, sizeof stream)) continue;
  check_bound("bytes of insertions in one piece", len, PIECE_BOUND);
  CHECK(live + 8 * blocks <= LEFT_BOUND);
  h3_qpack_decoder_del(&d);
  drop(&b);
  CHECK(!live && !blocks);
}

/* An insertion of a name and a value of these lengths, in one piece, at a capacity: it fits, or it is rejected, and no
 * text that is too long takes memory. */
static void hold_insertion(size_t capacity, const coding *c, size_t names, size_t values) {
  bytes b = {NULL, 0, 0};
  h3_qpack_decoder d;
  int fits = names + values + 32 <= capacity;
  size_t texts = fits ? FITTING_BOUND * capacity : names + 32 <= capacity ? NAME_BOUND * names : 0;
  char what[96];
  begin_case();
  open_decoder(&d, capacity, BLOCKED, LIMIT);
  put_insertion(&b, c, names, c, values);
  h3_qpack_received r = h3_qpack_decoder_read_encoder(&d, b.at, b.len);
  CHECK(r.status == (fits ? H3_QPACK_OK : H3_QPACK_ENCODER_STREAM_ERROR));
  snprintf(what, sizeof what, "bytes of an insertion in one piece at a capacity of %zu, %s", capacity, c->label);
  check_bound(what, b.len, INSERTION_BASE + texts);
  h3_qpack_decoder_del(&d);
  drop(&b);
  CHECK(!live && !blocks);
}

static void hold_insertions(void) {
  const coding *codings[] = {&plain, &shortest, &longest};
  size_t capacities[] = {CAPACITY, LONGEST};
  for (size_t i = 0; i < 6; i++) {
    size_t capacity = capacities[i / 3], longest_texts = capacity - 32;
    const coding *c = codings[i % 3];
    hold_insertion(capacity, c, longest_texts, 0);
    hold_insertion(capacity, c, longest_texts / 2, longest_texts / 2);
    hold_insertion(capacity, c, longest_texts / 2, longest_texts / 2 + 1);
    for (size_t len = capacity; len <= LONGEST; len *= 16) {
      hold_insertion(capacity, c, len, 1);
      hold_insertion(capacity, c, 1, len);
    }
  }
}

/* ---- An encoder */

/* Encodes sections that reference as much of the table as they can, of which none is acknowledged. */
static void hold_encoder(size_t unacknowledged, size_t bound) {
  h3_qpack_encoder e;
  static char values[CAPACITY / 36 + 1][4];
  static h3_qpack_nv nva[CAPACITY / 36];
  size_t count = sizeof nva / sizeof *nva;
  for (size_t i = 0; i < count; i++) {
    snprintf(values[i], 4, "%03zu", i);
    nva[i] = (h3_qpack_nv){(const uint8_t *)"x", 1, (const uint8_t *)values[i], 3, H3_QPACK_NV_FLAG_INSERT};
  }
  begin_case();
  open_encoder(&e, CAPACITY, 65534, unacknowledged);
  for (uint64_t i = 0; i < 3 * unacknowledged; i++) {
    h3_qpack_encoded a = h3_qpack_encoder_encode(&e, i, nva, count, section, sizeof section);
    CHECK(a.status == H3_QPACK_OK && (a.required > 0) == (i < unacknowledged));
    h3_qpack_encoder_write_encoder(&e, stream, sizeof stream);
  }
  check_bound("unacknowledged sections", unacknowledged, bound);
  h3_qpack_encoder_del(&e);
  CHECK(!live && !blocks);
}

/* A long section is kept until the next one is encoded, and no longer. */
static void hold_section(void) {
  static uint8_t value[1 << 20];
  const h3_qpack_nv large = {(const uint8_t *)"a", 1, value, sizeof value, 0}, small = {(const uint8_t *)"a", 1, value, 1, 0};
  h3_qpack_encoder e;
  begin_case();
  open_encoder(&e, CAPACITY, BLOCKED, 100);
  h3_qpack_encoded a = h3_qpack_encoder_encode(&e, 0, &large, 1, section, sizeof section);
  CHECK(a.status == H3_QPACK_ERR_NO_ROOM && a.len > sizeof value && live > a.len);
  CHECK(h3_qpack_encoder_encode(&e, 4, &small, 1, section, sizeof section).status == H3_QPACK_OK);
  printf("%8zu  %-66s %7zu now\n", a.len, "bytes of a section before one of a small field", live + 8 * blocks);
  CHECK(live + 8 * blocks <= LEFT_BOUND);
  h3_qpack_encoder_del(&e);
  CHECK(!live && !blocks);
}

/* Each stream is cancelled at once, and no insertion is ever reported: a peer that the encoder can learn nothing from. */
static void cancel_all(void) {
  bytes b = {NULL, 0, 0};
  field *f = make_fields(RANDOM, CAPACITY / FIELD);
  h3_qpack_encoder e;
  begin_case();
  open_encoder(&e, CAPACITY, BLOCKED, 100);
  for (uint64_t i = 0; i < 10000; i++) {
    encode(&e, i, &f[i % (CAPACITY / FIELD)], NULL);
    b.len = 0;
    put_int(&b, 0x40, 6, i);
    hear(&e, b.at, b.len);
  }
  check_bound("cancelled sections, no insertion reported", 10000, CANCELLED_BOUND);
  h3_qpack_encoder_del(&e);
  drop(&b);
  __real_free(f);
  CHECK(!live && !blocks);
}

/* As many streams as may be blocked are cancelled before their insertions are acknowledged, and no insertion is reported by
 * an increment, as a peer may do (section 2.1.4). The table is referenced all the same. */
static void cancel_blocked(void) {
  bytes b = {NULL, 0, 0};
  field *f = make_fields(RANDOM, BLOCKED + 8);
  h3_qpack_encoder e;
  open_encoder(&e, CAPACITY, BLOCKED, 100);
  for (uint64_t i = 0; i < BLOCKED; i++) {
    CHECK(encode(&e, i, &f[i], NULL));
    put_int(&b, 0x40, 6, i);
  }
  CHECK(h3_qpack_encoder_get_num_blocked(&e) == BLOCKED);
  hear(&e, b.at, b.len);
  CHECK(!h3_qpack_encoder_get_num_blocked(&e));
  for (uint64_t i = BLOCKED; i < 2000; i++) {
    CHECK(encode(&e, i, &f[BLOCKED + i % 8], NULL));
    b.len = 0;
    put_int(&b, 0x80, 7, i);
    hear(&e, b.at, b.len);
  }
  h3_qpack_encoder_del(&e);
  drop(&b);
  __real_free(f);
}

int main(void) {
  live = blocks = 0; /* the start of a program takes blocks too, on Windows */
  hold_decoder();
  for (size_t len = 1024; len <= 1 << 22; len *= 16) hold_piece(len);
  hold_insertions();
  hold_encoder(100, ENCODER_BOUND);
  hold_encoder(1000, 10 * ENCODER_BOUND);
  hold_section();
  cancel_all();
  cancel_blocked();
  printf("bounds: within the bounds of docs/SECURITY.md; cancelled streams are not blocked\n");
  return 0;
}
