/* hostile SIZE..: each call on the worst input that is known for it, in sizes of so many entries, bytes, sections or
 * streams. What the calls answer, and how much memory they take, is checked; how long they take is only printed.
 *
 * Instructions are counted by hand. This leaves a file for each row, in their order, of what is between its ends alone:
 *   valgrind --tool=callgrind --zero-before=begin_case --dump-before=end_case ./hostile 1000
 * and callgrind_annotate FILE has those of the row as PROGRAM TOTALS; with --inclusive=yes, those of each export too,
 * all that it calls included. */
#include "hostile.h"

static uint8_t text[1 << 20];

/* What is taken beside what grows: the ends themselves, and rooms that are made at once. */
#define BASE ((size_t)1 << 16)

/* The least that an entry takes, with two strings of sixteen bytes, and its index at an encoder. */
#define ENTRY ((size_t)80)
#define INDEX ((size_t)10)

/* ---- Tables of many entries */

/* A section of the newest entries, so many, and that many bytes of names and values. */
static void decode_newest(h3_qpack_decoder *d, kind k, size_t required) {
  bytes b = {NULL, 0, 0};
  put_prefix(&b, required, size * FIELD);
  for (size_t i = 0; i < size; i++) put_int(&b, 0x80, 6, i);
  begin_case();
  h3_qpack_decoded r = decode(d, 0, &b);
  end_case("decode", kinds[k], size, b.len);
  CHECK(r.status == H3_QPACK_OK && r.fields == size && r.required == required);
  CHECK(h3_qpack_decoder_fields(d, NULL, 0, NULL, 0).len == size * (FIELD - 32));
  drop(&b);
}

/* The capacity is set to 0, for which all entries and their memory go, and then back and to 0 again and again. */
static void empty_table(h3_qpack_decoder *d) {
  bytes b = {NULL, 0, 0};
  put_int(&b, 0x20, 5, 0);
  begin_case();
  receive(d, &b);
  CHECK(live + size * ENTRY <= live_before);
  end_case("receive", "a capacity of 0, for each entry that goes", size, 0);
  for (size_t i = 0; i < size; i++) {
    put_int(&b, 0x20, 5, size * FIELD);
    put_int(&b, 0x20, 5, 0);
  }
  begin_case();
  receive(d, &b);
  CHECK(!most_taken());
  end_case("receive", "a capacity of 0 and back, no entry being left", 2 * size, b.len);
  b.len = 0;
  put_prefix(&b, 2 * size, size * FIELD);
  put_int(&b, 0x80, 6, 0);
  CHECK(decode(d, 4, &b).status == H3_QPACK_DECOMPRESSION_FAILED);
  drop(&b);
}

/* Receives what fills a table, and again, where an entry goes for each that comes. */
static void receive_twice(kind k, const bytes *sent) {
  h3_qpack_decoder d;
  open_decoder(&d, size * FIELD, 0, size * FIELD);
  begin_case();
  receive(&d, sent);
  CHECK(h3_qpack_decoder_get_icnt(&d) == size && most_taken() <= BASE + size * 512);
  end_case("receive into a table that grows", kinds[k], size, sent->len);
  begin_case();
  receive(&d, sent);
  CHECK(h3_qpack_decoder_get_icnt(&d) == 2 * size && most_taken() <= BASE);
  end_case("receive", kinds[k], size, sent->len);
  decode_newest(&d, k, 2 * size);
  if (k == RANDOM) empty_table(&d);
  h3_qpack_decoder_del(&d);
}

/* Fields of a kind: as they fill a table, are found in it, and come into it when it is full. */
static void fill_tables(kind k) {
  size_t calls = size < 100 ? size : 100;
  field *f = make_fields(k, size + calls);
  bytes sent = {NULL, 0, 0};
  h3_qpack_encoder e;
  open_encoder(&e, size * FIELD, 16, 1000);
  begin_case();
  for (size_t i = 0; i < size; i++) CHECK(encode_heard(&e, &f[i], &sent) == i + 1);
  CHECK(most_taken() <= BASE + size * 1024);
  end_case("encode into a table that grows", kinds[k], size, 0);
  size_t len = sent.len;
  begin_case();
  for (size_t i = 0; i < calls; i++) CHECK(heard(&e, encode_as(&e, 0, &f[i], H3_QPACK_NV_FLAG_REUSE, &sent)) == i + 1);
  end_case("encode an entry", kinds[k], calls, 0);
  CHECK(sent.len == len);
  begin_case();
  for (size_t i = size; i < size + calls; i++) CHECK(encode_heard(&e, &f[i], NULL) == i + 1);
  end_case("encode no entry", kinds[k], calls, 0);
  begin_case();
  CHECK(h3_qpack_encoder_set_capacity(&e, 0) == H3_QPACK_OK);
  CHECK(live + size * (ENTRY + INDEX) <= live_before);
  h3_qpack_encoder_del(&e);
  receive_twice(k, &sent);
  drop(&sent);
  __real_free(f);
}

/* ---- Fields whose hashes are equal with the seed 0: then the encoder's index keeps them in the order of their values */

/* Returns whether the encoder finds the field of a place at this absolute index: else its value is in the section. */
static int finds(h3_qpack_encoder *e, size_t place, size_t index) {
  field f = field_of_place(place);
  h3_qpack_nv nv = {f.name, sizeof f.name, f.value, sizeof f.value, H3_QPACK_NV_FLAG_REUSE};
  h3_qpack_encoded a = h3_qpack_encoder_encode(e, 0, &nv, 1, section, sizeof section);
  CHECK(a.status == H3_QPACK_OK);
  heard(e, a.required);
  return a.len < sizeof f.value && a.required == index;
}

/* With the seed 0, each insertion puts a slot in front of the row of fields, and the eviction for it takes one near the
 * front: so either moves nearly all other slots of that row, eight bytes each. */
static void move_slots(const char *label, uint64_t encoder_seed) {
  size_t calls = size < 200 ? size / 2 : 100;
  h3_qpack_encoder e;
  open_seeded(&e, size * FIELD, 16, 1000, encoder_seed);
  for (size_t i = 0; i < size; i++) {
    field f = field_of_place(calls + i);
    CHECK(encode_heard(&e, &f, NULL) == i + 1);
  }
  begin_case();
  for (size_t i = 0; i < calls; i++) {
    field f = field_of_place(calls - 1 - i);
    CHECK(encode_heard(&e, &f, NULL) == size + i + 1);
  }
  CHECK(most_taken() <= BASE + size * 1024);
  end_case("encode", label, calls, 0);
  for (size_t place = 0; place < size + calls; place++) {
    int is_live = place < calls || place >= 2 * calls;
    CHECK(finds(&e, place, place < calls ? size + calls - place : place - calls + 1) == is_live);
  }
  h3_qpack_encoder_del(&e);
}

/* ---- Strings, and instructions that come byte by byte */

static void read_strings(const coding *c) {
  size_t count = c->bits ? size * 8 / (size_t)c->bits : size;
  bytes b = {NULL, 0, 0};
  h3_qpack_field f;
  h3_qpack_decoded_alone r = {0, 0, 0, 0, 0};
  h3_qpack_decoder d;
  put(&b, "\0\0\x21n", 4);
  put_string(&b, 0, 7, c, count);
  begin_case();
  for (int i = 0; i < 10; i++) r = h3_qpack_decode_stateless(b.at, b.len, UINT64_MAX, &f, 1, text, sizeof text);
  CHECK(most_taken() <= BASE + 2 * b.len + 4 * count);
  end_case("decode_stateless", c->label, 10, 10 * b.len);
  CHECK(r.status == H3_QPACK_OK && r.fields == 1 && r.len == count + 1 && text[0] == 'n');
  for (size_t i = 1; i <= count; i++) CHECK(text[i] == (uint8_t)c->letter);
  b.len = 0;
  for (int i = 0; i < 10; i++) put_insertion(&b, &plain, 1, c, count);
  open_decoder(&d, 1 << 20, 0, 0);
  begin_case();
  receive(&d, &b);
  end_case("receive", c->label, 10, b.len);
  CHECK(h3_qpack_decoder_get_icnt(&d) == 10);
  close_decoder(&d, &b);
}

/* An insertion as large as the capacity comes byte by byte, and is made by the last byte. Fewer than four bytes for each
 * of the capacity wait, in a room of twice as many at most; a string is given eight fifths of its payload. */
static void receive_bytes(const char *label, const coding *c, size_t names, size_t values) {
  size_t capacity = names + values + 32;
  bytes b = {NULL, 0, 0};
  h3_qpack_decoder d;
  open_decoder(&d, capacity, 0, 0);
  put_insertion(&b, c, names, c, values);
  CHECK(b.len <= 4 * capacity + 10);
  begin_case();
  for (size_t i = 0; i < b.len; i++) {
    CHECK(!h3_qpack_decoder_get_icnt(&d) && most_taken() <= 4096 + 2 * (4 * capacity + 10));
    CHECK(h3_qpack_decoder_read_encoder(&d, b.at + i, 1).status == H3_QPACK_OK);
  }
  CHECK(h3_qpack_decoder_get_icnt(&d) == 1 && most_taken() <= 4096 + 4 * (4 * capacity + 10) + capacity);
  end_case("receive byte by byte", label, b.len, 0);
  close_decoder(&d, &b);
}

/* ---- Sections that a peer never acknowledges */

/* An encoder with so many unacknowledged sections of one entry, on streams from 0 on, or all on stream 0. */
static void leave_unacknowledged(h3_qpack_encoder *e, const field *f, size_t count, int has_streams) {
  open_encoder(e, 4096, 1, count + 100);
  CHECK(encode_heard(e, f, NULL) == 1);
  for (size_t i = 0; i < count; i++) CHECK(encode(e, has_streams ? i : 0, f, NULL) == 1);
  CHECK(!h3_qpack_encoder_get_num_blocked(e));
}

enum { OLDEST, NEWEST, UNKNOWN, WAYS };
static const char *const ways[] = {"acknowledges the oldest of n sections", "acknowledges the newest of n sections",
                                   "cancels a stream that has none of n sections"};

static void hear_late(const field *f, int way) {
  size_t calls = size < 100 ? size : 100;
  h3_qpack_encoder e;
  bytes b = {NULL, 0, 0};
  leave_unacknowledged(&e, f, size, 1);
  for (size_t i = 0; i < calls; i++) {
    if (way == UNKNOWN) put_int(&b, 0x40, 6, size);
    else put_int(&b, 0x80, 7, way == OLDEST ? i : size - 1 - i);
  }
  begin_case();
  hear(&e, b.at, b.len);
  end_case("read_decoder", ways[way], calls, 0);
  b.len = 0;
  put_int(&b, 0x80, 7, way == OLDEST ? 0 : size - 1);
  h3_qpack_received r = h3_qpack_encoder_read_decoder(&e, b.at, b.len);
  CHECK(r.status == (way == UNKNOWN ? H3_QPACK_OK : H3_QPACK_DECODER_STREAM_ERROR));
  drop(&b);
  h3_qpack_encoder_del(&e);
}

/* One stream has all sections, and is cancelled; more are encoded behind them, up to as many as may wait. */
static void cancel_all(const field *f) {
  h3_qpack_encoder e;
  begin_case();
  leave_unacknowledged(&e, f, size, 0);
  CHECK(most_taken() <= BASE + 256 * size);
  end_case("encode", "a section of one entry, acknowledged by none", size, 0);
  begin_case();
  for (int i = 0; i < 100; i++) CHECK(encode(&e, 0, f, NULL) == 1);
  end_case("encode", "behind n unacknowledged sections", 100, 0);
  CHECK(!encode(&e, 0, f, NULL));
  begin_case();
  hear(&e, "\x40", 1);
  end_case("read_decoder", "cancels the stream of all n sections, for each", size + 100, 0);
  CHECK(encode(&e, 0, f, NULL) == 1);
  CHECK(h3_qpack_encoder_read_decoder(&e, (const uint8_t *)"\0", 1).status == H3_QPACK_DECODER_STREAM_ERROR);
  h3_qpack_encoder_del(&e);
}

/* As many sections as may be blocked, each by an insertion of its own, are unblocked one by one. */
static void unblock_sections(void) {
  size_t most = size < 4096 ? size : 4096; /* so many sections may be blocked, however many streams */
  field *f = make_fields(RANDOM, most + 1);
  h3_qpack_encoder e;
  bytes b = {NULL, 0, 0};
  open_encoder(&e, (most + 1) * FIELD, most, most + 1);
  for (size_t i = 0; i < most; i++) CHECK(encode(&e, i, &f[i], NULL) == i + 1);
  CHECK(!encode(&e, most, &f[most], NULL) && h3_qpack_encoder_get_num_blocked(&e) == most);
  put_often(&b, 1, most);
  begin_case();
  hear(&e, b.at, b.len);
  end_case("read_decoder", "an increment, which unblocks one of n sections", most, 0);
  CHECK(!h3_qpack_encoder_get_num_blocked(&e));
  drop(&b);
  h3_qpack_encoder_del(&e);
  __real_free(f);
}

/* ---- Few bytes that make a decoder copy many */

/* A decoder with one entry, whose name has so many bytes. */
static void open_large(h3_qpack_decoder *d, uint64_t limit) {
  bytes b = {NULL, 0, 0};
  open_decoder(d, 1 << 20, 0, limit);
  put_insertion(&b, &plain, size, &plain, 0);
  receive(d, &b);
  drop(&b);
}

/* A thousand lines of one byte, each the large entry: with no limit, and up to a limit of 16,384 bytes. */
static void decode_large(void) {
  bytes b = {NULL, 0, 0};
  h3_qpack_decoder d;
  put_prefix(&b, 1, 1 << 20);
  put_often(&b, 0x80, 1000);
  open_large(&d, UINT64_MAX);
  begin_case();
  h3_qpack_decoded r = decode(&d, 0, &b);
  end_case("decode", "a line of an entry of n bytes", 1000, 0);
  CHECK(r.status == H3_QPACK_OK && r.fields == 1000);
  CHECK(h3_qpack_decoder_fields(&d, NULL, 0, NULL, 0).len == 1000 * size);
  h3_qpack_decoder_del(&d);
  open_large(&d, 16384);
  begin_case();
  r = decode(&d, 0, &b);
  CHECK(most_taken() <= BASE + 2 * (16384 + size));
  end_case("decode", "lines of an entry of n bytes, up to a limit", 1, 0);
  CHECK(r.status == H3_QPACK_ERR_TOO_LARGE && r.number == 16384 / (size + 32) + 1);
  close_decoder(&d, &b);
}

/* Instructions of so many bytes insert the large entry again, or a field of its name. */
static void insert_large(const char *label, const char *instruction, size_t len, size_t count) {
  bytes b = {NULL, 0, 0};
  h3_qpack_decoder d;
  open_large(&d, 0);
  for (size_t i = 0; i < count; i++) put(&b, instruction, len);
  begin_case();
  receive(&d, &b);
  CHECK(h3_qpack_decoder_get_icnt(&d) == count + 1 && most_taken() <= ((size_t)2 << 20) + BASE);
  end_case("receive", label, count, 0);
  close_decoder(&d, &b);
}

/* ---- Limits */

/* A section of so many lines of one byte, each a field of 42 bytes. */
static void put_lines(bytes *b, size_t count) {
  b->len = 0;
  put(b, "\0\0", 2);
  put_often(b, 0xd1, count);
}

/* A decode without an end stops at the limit, or refuses a longer section unread. */
static void pass_limit(void) {
  bytes b = {NULL, 0, 0};
  h3_qpack_decoder d;
  put_lines(&b, size + 1000);
  begin_case();
  h3_qpack_decoded_alone alone = h3_qpack_decode_stateless(b.at, b.len, 16384, NULL, 0, text, sizeof text);
  CHECK(most_taken() <= BASE + 2 * b.len + 4 * 16384);
  end_case("decode_stateless", "n + 1,000 fields of 42 bytes, and a limit of 16,384", 1, 0);
  CHECK(alone.status == H3_QPACK_ERR_TOO_LARGE && alone.number == (b.len > 4 * 16384 + 20 ? 0 : 391));
  put_lines(&b, 4 * size + 19);
  open_decoder(&d, 4096, 0, size);
  begin_case();
  for (uint64_t i = 0; i < 1000; i++) {
    h3_qpack_decoded r = decode(&d, i, &b);
    CHECK(r.status == H3_QPACK_ERR_TOO_LARGE && !r.number);
  }
  CHECK(!most_taken());
  end_case("decode", "a section longer than any within a limit of n", 1000, 0);
  CHECK(h3_qpack_decoder_decode(&d, 0, b.at, 2).status == H3_QPACK_OK);
  close_decoder(&d, &b);
}

/* A section as long as any within a limit, whose one string passes it. */
static void decode_longest(const coding *c) {
  bytes b = {NULL, 0, 0};
  h3_qpack_decoder d;
  put(&b, "\0\0\x21n", 4);
  put_string(&b, 0, 7, c, c->bits ? 4 * size * 8 / (size_t)c->bits : 4 * size);
  put_often(&b, 0xd1, 4 * size + 20 - b.len);
  open_decoder(&d, 4096, 0, size);
  begin_case();
  h3_qpack_decoded r = decode(&d, 0, &b);
  CHECK(most_taken() <= BASE + 16 * size);
  end_case("decode the longest section", c->label, 1, b.len);
  CHECK(r.status == H3_QPACK_ERR_TOO_LARGE && r.number == 1);
  close_decoder(&d, &b);
}

/* Lines reference the newest of n entries, and the section requires all others. */
static void pass_required(void) {
  bytes b = {NULL, 0, 0};
  h3_qpack_decoder d;
  open_decoder(&d, 1 << 20, 0, 16384);
  for (size_t i = 0; i < size; i++) put_insertion(&b, &plain, 1, &plain, 1);
  receive(&d, &b);
  b.len = 0;
  put_prefix(&b, size - 1, 1 << 20);
  put_often(&b, 0x10, 1000);
  begin_case();
  h3_qpack_decoded r = decode(&d, 0, &b);
  end_case("decode", "lines past the required insert count", 1, 0);
  CHECK(r.status == H3_QPACK_DECOMPRESSION_FAILED && r.number == 1);
  close_decoder(&d, &b);
}

/* ---- Streams */

/* Cancellations are bytes to be sent, and nothing else. */
static void cancel_streams(void) {
  h3_qpack_decoder d;
  bytes b = {NULL, 0, 0};
  open_decoder(&d, 4096, 0, 0);
  for (size_t i = 0; i < size; i++) put_int(&b, 0x40, 6, i);
  begin_case();
  for (size_t i = 0; i < size; i++) CHECK(h3_qpack_decoder_cancel_stream(&d, i) == H3_QPACK_OK);
  CHECK(most_taken() <= 4096 + 2 * b.len);
  end_case("cancel_stream", "n streams, none being blocked", size, 0);
  CHECK(h3_qpack_decoder_get_decoder_streamlen(&d) == b.len);
  close_decoder(&d, &b);
}

/* Bytes that are to be sent are taken one by one: cancellations of a decoder, and an insertion of an encoder. */
static void send_bytes(void) {
  h3_qpack_decoder d;
  h3_qpack_encoder e;
  uint8_t byte;
  size_t sent = 0;
  open_decoder(&d, 4096, 0, 0);
  for (size_t i = 0; i < 4 * size; i++) CHECK(h3_qpack_decoder_cancel_stream(&d, 0) == H3_QPACK_OK);
  begin_case();
  while (h3_qpack_decoder_write_decoder(&d, &byte, 1)) sent += byte == 0x40;
  end_case("write_decoder", "byte by byte", sent, sent);
  CHECK(sent == 4 * size && !most_taken());
  h3_qpack_decoder_del(&d);
  h3_qpack_nv nv = {text, 4 * size, text, 0, H3_QPACK_NV_FLAG_INSERT};
  memset(text, 'a', 4 * size);
  open_encoder(&e, 8 * size + 4096, 1, 1);
  CHECK(h3_qpack_encoder_encode(&e, 0, &nv, 1, section, sizeof section).required == 1);
  size_t len = h3_qpack_encoder_get_encoder_streamlen(&e);
  begin_case();
  for (sent = 0; h3_qpack_encoder_write_encoder(&e, &byte, 1); sent++) continue;
  end_case("write_encoder", "byte by byte", sent, sent);
  CHECK(sent == len && sent > size && !most_taken());
  h3_qpack_encoder_del(&e);
}

static const uint8_t waiting[] = {2, 0, 0x80};

static size_t block_streams(h3_qpack_decoder *d, size_t first, size_t count) {
  for (size_t i = first; i < first + count; i++)
    CHECK(h3_qpack_decoder_decode(d, i, waiting, sizeof waiting).status == H3_QPACK_BLOCKED);
  return h3_qpack_decoder_get_num_blocked(d);
}

/* As many streams are blocked as may be, and one more is refused; all are decoded behind the insertion. */
static void block_all(void) {
  size_t most = size < 65534 ? size : 65534;
  uint64_t id;
  h3_qpack_decoder d;
  open_decoder(&d, 4096, most, 1000);
  begin_case();
  CHECK(block_streams(&d, 0, most) == most && most_taken() <= BASE + 128 * most);
  end_case("decode", "a section on a stream that comes to be blocked", most, 0);
  begin_case();
  for (int i = 0; i < 100; i++) CHECK(block_streams(&d, most - 1, 1) == most);
  end_case("decode", "a blocked section again, beside n blocked streams", 100, 0);
  begin_case();
  for (size_t i = 0; i < 100; i++) CHECK(h3_qpack_decoder_cancel_stream(&d, most + i) == H3_QPACK_OK);
  end_case("cancel_stream", "beside n blocked streams", 100, 0);
  CHECK(h3_qpack_decoder_get_num_blocked(&d) == most && !h3_qpack_decoder_next_ready(&d, &id));
  CHECK(h3_qpack_decoder_read_encoder(&d, (const uint8_t *)"\x41\x61\1b", 4).status == H3_QPACK_OK);
  begin_case();
  for (size_t i = 0; i < most; i++) {
    CHECK(h3_qpack_decoder_next_ready(&d, &id));
    CHECK(h3_qpack_decoder_decode(&d, id, waiting, sizeof waiting).fields == 1);
  }
  end_case("decode", "a section that was blocked, of n", most, 0);
  CHECK(!h3_qpack_decoder_get_num_blocked(&d) && !h3_qpack_decoder_next_ready(&d, &id));
  h3_qpack_decoder_del(&d);
  open_decoder(&d, 4096, most, 1000);
  CHECK(block_streams(&d, 0, most) == most);
  begin_case();
  CHECK(h3_qpack_decoder_decode(&d, most, waiting, sizeof waiting).status == H3_QPACK_DECOMPRESSION_FAILED);
  end_case("decode", "one more blocked stream than the n that may be", 1, 0);
  CHECK(h3_qpack_decoder_get_num_blocked(&d) == most);
  h3_qpack_decoder_del(&d);
}

/* ---- Lengths and capacities that are only declared: no memory is asked for. */

static void declare(void) {
  static const char *const refused[] = {"\x5f\xff\xff\xff\xff\xff\xff\xff\xff\x7f", "\x7f\xff\xff\xff\xff\xff\xff\xff\xff\x7f",
                                        "\xc1\xff\xff\xff\xff\xff\xff\xff\xff\x7f", "\x3f\xe0\xff\xff\xff\x03"};
  static const char *const cut[] = {"\x27\xff\xff\xff\xff\xff\xff\xff\xff\x7f", "\x2f\xff\xff\xff\xff\xff\xff\xff\xff\x7f",
                                    "\x51\x7f\xff\xff\xff\xff\xff\xff\xff\x7f"};
  for (size_t i = 0; i < 4; i++) {
    h3_qpack_decoder d;
    open_decoder(&d, 4096, 0, UINT64_MAX);
    begin_case();
    h3_qpack_received r = h3_qpack_decoder_read_encoder(&d, (const uint8_t *)refused[i], strlen(refused[i]));
    CHECK(r.status == H3_QPACK_ENCODER_STREAM_ERROR && r.number == 2 && most_taken() <= 4096);
    h3_qpack_decoder_del(&d);
  }
  for (size_t i = 0; i < 3; i++) {
    bytes b = {NULL, 0, 0};
    put(&b, "\0\0", 2);
    put(&b, cut[i], strlen(cut[i]));
    begin_case();
    h3_qpack_decoded_alone r = h3_qpack_decode_stateless(b.at, b.len, UINT64_MAX, NULL, 0, NULL, 0);
    CHECK(r.status == H3_QPACK_DECOMPRESSION_FAILED && r.number == 1 && most_taken() <= 4096);
    drop(&b);
  }
}

static void run_size(void) {
  for (kind k = 0; k < KINDS; k++) fill_tables(k);
  move_slots("each insertion and eviction moves the slots of its row", 0);
  move_slots("the same fields, with another seed", 0x5eed);
  read_strings(&plain);
  read_strings(&shortest);
  read_strings(&longest);
  receive_bytes("a name and a value of n bytes, the shortest codes", &shortest, size, size);
  receive_bytes("a value of n bytes, the longest codes", &longest, 1, size);
  field *f = make_fields(RANDOM, 1);
  for (int way = 0; way < WAYS; way++) hear_late(f, way);
  cancel_all(f);
  __real_free(f);
  unblock_sections();
  decode_large();
  insert_large("a duplicate of an entry of n bytes", "\0", 1, 129);
  insert_large("a duplicate of an entry of n bytes", "\0", 1, 1000);
  insert_large("an insertion under a name of n bytes", "\x80\0", 2, 1000);
  pass_limit();
  decode_longest(&plain);
  decode_longest(&shortest);
  pass_required();
  cancel_streams();
  send_bytes();
  block_all();
}

int main(int argc, char **argv) {
  declare();
  for (int i = 1; i < argc; i++) {
    size = (size_t)strtoull(argv[i], NULL, 10);
    CHECK(size >= 64);
    run_size();
  }
  printf("hostile: %zu rows, each answered as it should be, within its bounds on memory\n", rows);
  return 0;
}
