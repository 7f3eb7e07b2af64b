/* Holds the library's decoder against a strict reader, call by call, over what libFuzzer makes of an input.
 *
 * An input is three bytes of settings, and then calls: a byte that says which, two bytes of a length, and that many bytes,
 * or all that are left. fuzz/seeds.py writes such inputs. */
#include "h3_qpack.h"
#include "strict.h"
#include "target.h"

#define MOST_WAITING 256

/* A connection: both decoders, and the sections that wait at them. */
typedef struct connection {
  h3_qpack_decoder library;
  strict_decoder strict;
  uint64_t max_blocked, limit;
  uint64_t waiting[MOST_WAITING]; /* what each stream's blocked section requires, by its number; else 0 */
  int error;                      /* the code that ended the connection, else 0 */
} connection;

static size_t count_blocked(const connection *c) {
  size_t blocked = 0;
  for (size_t i = 0; i < MOST_WAITING; i++) blocked += c->waiting[i] > c->strict.insert_count;
  return blocked;
}

/* Checks what the library says of streams that wait. */
static void compare_waiting(connection *c) {
  uint64_t ready = 0;
  int is_ready = h3_qpack_decoder_next_ready(&c->library, &ready);
  int has_ready = 0;
  for (size_t i = 0; i < MOST_WAITING; i++) has_ready |= c->waiting[i] && c->waiting[i] <= c->strict.insert_count;
  CHECK(is_ready == has_ready);
  if (is_ready) CHECK(ready < MOST_WAITING && c->waiting[ready] && c->waiting[ready] <= c->strict.insert_count);
  CHECK(h3_qpack_decoder_get_num_blocked(&c->library) == count_blocked(c));
  CHECK(h3_qpack_decoder_get_icnt(&c->library) == c->strict.insert_count);
}

static void receive(connection *c, const uint8_t *p, size_t len) {
  int is_doomed;
  strict_status status = strict_receive(&c->strict, p, len, &is_doomed);
  h3_qpack_received got = h3_qpack_decoder_read_encoder(&c->library, p, len);
  CHECK(got.taken == len);
  if (got.status == H3_QPACK_ENCODER_STREAM_ERROR) {
    CHECK(status == STRICT_REFUSED || is_doomed);
    CHECK(got.number == c->strict.number && got.offset == c->strict.offset);
    c->error = got.status;
    return;
  }
  CHECK(got.status == H3_QPACK_OK && status == STRICT_OK && !got.number && !got.offset);
  compare_waiting(c);
}

/* A view is of this field, and says where the static table has it. */
static void compare_view(const h3_qpack_view *view, const strict_field *f) {
  CHECK(view->namelen == f->namelen && view->valuelen == f->valuelen && view->value == view->name + f->namelen);
  CHECK(!memcmp(view->name, f->text, f->namelen + f->valuelen));
  CHECK(view->flags == (f->is_never_indexed ? H3_QPACK_NV_FLAG_NEVER_INDEX : 0u));
  CHECK(view->static_name == strict_find_static(f, 0) && view->static_field == strict_find_static(f, 1));
}

static void compare_fields(connection *c, const strict_fields *fields, size_t got) {
  size_t len = 0, at = 0;
  CHECK(got == fields->len);
  for (size_t i = 0; i < fields->len; i++) len += fields->at[i].namelen + fields->at[i].valuelen;
  h3_qpack_field *told = malloc((got + 1) * sizeof *told);
  uint8_t *text = malloc(len + 1);
  CHECK(told && text);
  h3_qpack_written written = h3_qpack_decoder_fields(&c->library, told, got, text, len);
  CHECK(written.status == H3_QPACK_OK && written.len == len);
  for (size_t i = 0; i < got; i++) {
    const strict_field *f = &fields->at[i];
    CHECK(told[i].namelen == f->namelen && told[i].valuelen == f->valuelen);
    CHECK(told[i].flags == (f->is_never_indexed ? H3_QPACK_NV_FLAG_NEVER_INDEX : 0u));
    CHECK(!memcmp(text + at, f->text, f->namelen + f->valuelen));
    at += f->namelen + f->valuelen;
    h3_qpack_view view;
    CHECK(h3_qpack_decoder_view(&c->library, i, &view) == H3_QPACK_OK);
    compare_view(&view, f);
  }
  free(told);
  free(text);
}

/* The prefix alone says what the strict reader says of the whole: that the section waits, or not, or is refused in it. */
static void compare_prefix(connection *c, const strict_section *want, const uint8_t *p, size_t len) {
  h3_qpack_prefix prefix = h3_qpack_decoder_peek_prefix(&c->library, p, len);
  if (len > h3_qpack_longest_section(c->limit)) return; /* it was not read */
  if (want->status == STRICT_BLOCKED) {
    CHECK(prefix.status == H3_QPACK_BLOCKED && prefix.required == want->required && prefix.len >= 2);
  } else if (want->status == STRICT_OK) {
    CHECK(prefix.status == H3_QPACK_OK && prefix.required == want->required && prefix.len >= 2);
  } else if (want->number) {
    CHECK(prefix.status == H3_QPACK_OK && prefix.len >= 2 && prefix.len <= want->offset);
  } else {
    CHECK(prefix.status == H3_QPACK_DECOMPRESSION_FAILED && !prefix.required && !prefix.base && !prefix.len);
  }
}

/* Reads a section in pieces of this size, from its start, and holds each field against those of the whole. */
static h3_qpack_decoded decode_pieces(connection *c, uint64_t stream, const uint8_t *p, size_t len, size_t size,
                                      const strict_fields *fields) {
  h3_qpack_section_reader reader;
  h3_qpack_piece piece = {H3_QPACK_OK, 0, 0, 0, 0};
  size_t given = 0;
  CHECK(h3_qpack_section_reader_new(&reader, stream) == H3_QPACK_OK);
  while (piece.status == H3_QPACK_OK || piece.status == H3_QPACK_FIELD) {
    size_t part = len < size ? len : size;
    piece = h3_qpack_section_reader_read(&reader, &c->library, p, part, part == len);
    CHECK(piece.taken <= part && (piece.status != H3_QPACK_OK || piece.taken == part));
    p += piece.taken;
    len -= piece.taken;
    if (piece.status != H3_QPACK_FIELD) continue;
    CHECK(piece.taken);
    if (given < fields->len) {
      const strict_field *f = &fields->at[given];
      uint8_t *text = malloc(f->namelen + f->valuelen + 1);
      CHECK(text);
      h3_qpack_field told = h3_qpack_section_reader_field(&reader, text, f->namelen + f->valuelen);
      CHECK(told.status == H3_QPACK_OK && told.namelen == f->namelen && told.valuelen == f->valuelen);
      CHECK(told.flags == (f->is_never_indexed ? H3_QPACK_NV_FLAG_NEVER_INDEX : 0u));
      CHECK(!memcmp(text, f->text, f->namelen + f->valuelen));
      free(text);
      h3_qpack_view view;
      CHECK(h3_qpack_section_reader_view(&reader, &view) == H3_QPACK_OK);
      compare_view(&view, f);
    }
    given++;
  }
  CHECK(piece.status != H3_QPACK_BLOCKED || !given);
  CHECK(piece.status != H3_QPACK_END || given == fields->len);
  h3_qpack_section_reader_del(&reader);
  h3_qpack_decoded got = {piece.status, 0, 0, piece.required, piece.number, piece.offset};
  return got;
}

static void decode(connection *c, uint64_t stream, const uint8_t *p, size_t len) {
  strict_section want = strict_decode(&c->strict, p, len, c->limit);
  compare_prefix(c, &want, p, len);
  /* every other section in pieces: their size, or 0 for the whole; one that is too long is read up to that alone */
  size_t pieces = stream % 2 && len <= h3_qpack_longest_section(c->limit) ? len % 7 + 1 : 0;
  h3_qpack_decoded got =
      pieces ? decode_pieces(c, stream, p, len, pieces, &want.fields) : h3_qpack_decoder_decode(&c->library, stream, p, len);
  if (len > h3_qpack_longest_section(c->limit)) { /* no section of so many bytes is within the limit */
    CHECK(got.status == H3_QPACK_ERR_TOO_LARGE && !got.number && !got.offset && !got.fields);
    c->waiting[stream] = 0;
  } else if (want.status == STRICT_BLOCKED) {
    uint64_t before = c->waiting[stream];
    c->waiting[stream] = want.required;
    if (count_blocked(c) > c->max_blocked) {
      CHECK(got.status == H3_QPACK_DECOMPRESSION_FAILED && !got.number && !got.offset);
      c->waiting[stream] = before;
      c->error = got.status;
    } else {
      CHECK(got.status == H3_QPACK_BLOCKED && got.required == want.required && !got.fields);
    }
  } else {
    c->waiting[stream] = 0;
    CHECK(got.number == want.number && got.offset == want.offset);
    if (want.status == STRICT_OK) {
      CHECK(got.status == (pieces ? H3_QPACK_END : H3_QPACK_OK) && got.required == want.required);
      if (!pieces) compare_fields(c, &want.fields, got.fields);
    } else {
      CHECK(!got.fields);
      CHECK(got.status == (want.status == STRICT_REFUSED ? H3_QPACK_DECOMPRESSION_FAILED : H3_QPACK_ERR_TOO_LARGE));
      if (want.status == STRICT_REFUSED) c->error = got.status;
    }
  }
  strict_free_fields(&want.fields);
  if (!c->error) compare_waiting(c);
}

/* An error that ended the connection is returned by each later call. */
static void compare_end(connection *c) {
  CHECK(h3_qpack_decoder_read_encoder(&c->library, NULL, 0).status == c->error);
  CHECK(h3_qpack_decoder_decode(&c->library, 0, (const uint8_t *)"\0\0\xd1", 3).status == c->error);
  CHECK(h3_qpack_decoder_cancel_stream(&c->library, 0) == c->error);
}

static void take_decoder_stream(connection *c) {
  uint8_t bytes[64];
  while (h3_qpack_decoder_get_decoder_streamlen(&c->library))
    CHECK(h3_qpack_decoder_write_decoder(&c->library, bytes, sizeof bytes));
}

/* Runs one call of an input. */
static void run(connection *c, uint8_t what, const uint8_t *p, size_t len) {
  /* The bytes stand alone, so that a sanitizer sees what is read after them. */
  uint8_t *alone = malloc(len + !len);
  CHECK(alone);
  if (len) memcpy(alone, p, len);
  uint64_t stream = what >> 2;
  if (what % 4 < 2) receive(c, alone, len);
  else if (what % 4 == 2) decode(c, stream, alone, len);
  else {
    CHECK(h3_qpack_decoder_cancel_stream(&c->library, stream) == H3_QPACK_OK);
    c->waiting[stream] = 0;
    compare_waiting(c);
  }
  free(alone);
  if (what & 0x80) take_decoder_stream(c);
}

int LLVMFuzzerTestOneInput(const uint8_t *p, size_t len) {
  static const uint64_t capacities[] = {0, 31, 32, 64, 100, 256, 4096, 65536};
  if (len < 3) return 0;
  connection c = {.max_blocked = p[1] % 32, .limit = p[2] % 4 ? 64u << p[2] % 16 : p[2]};
  h3_qpack_decoder_settings settings;
  h3_qpack_decoder_settings_default(&settings);
  settings.max_capacity = capacities[p[0] % 8];
  settings.max_blocked = c.max_blocked;
  settings.max_section_size = c.limit;
  CHECK(h3_qpack_decoder_new(&c.library, &settings) == H3_QPACK_OK);
  strict_new(&c.strict, settings.max_capacity);
  p += 3;
  len -= 3;
  while (len >= 3 && !c.error) {
    uint8_t what = p[0];
    size_t part = (size_t)p[1] << 8 | p[2];
    p += 3;
    len -= 3;
    if (part > len) part = len;
    run(&c, what, p, part);
    p += part;
    len -= part;
  }
  if (c.error) compare_end(&c);
  h3_qpack_decoder_del(&c.library);
  strict_del(&c.strict);
  return 0;
}
