/* Holds the library's encoder against a strict reader, which is its peer, over what libFuzzer makes of an input.
 *
 * An input is four bytes of settings, and then calls: a byte that says which, and what that takes, as `run` reads it; 0
 * where the input ends. fuzz/seeds.py writes such inputs. */
#include "h3_qpack.h"
#include "strict.h"
#include "target.h"

#define STREAMS 32
#define MOST_FIELDS 16
#define MOST_SECTIONS 64
#define MOST_BYTES 65536
#define MOST_SECTION 8192 /* 16 fields of 126 bytes, each in at most 30 bits, and what is before them */

/* The input, which goes on with 0. */
typedef struct input {
  const uint8_t *p;
  size_t len;
} input;

static uint8_t next(input *in) {
  if (!in->len) return 0;
  in->len--;
  return *in->p++;
}

/* The bytes of a stream that were sent and are not received. */
typedef struct bytes {
  uint8_t at[MOST_BYTES];
  size_t len;
} bytes;

static void drop(bytes *b, size_t len) {
  b->len -= len;
  memmove(b->at, b->at + len, b->len);
}

/* A list of fields whose section the peer has not decoded. */
typedef struct section {
  strict_sent sent;
  uint8_t *p;
  size_t len;
  size_t fieldslen;
  h3_qpack_nv fields[MOST_FIELDS];
  uint8_t texts[MOST_FIELDS][128];
} section;

/* A connection: the encoder, what a strict encoder keeps, the strict peer, and what is under way. */
typedef struct connection {
  h3_qpack_encoder library;
  strict_encoder strict;
  strict_decoder peer;
  uint64_t max_capacity, max_blocked, most_unacknowledged;
  int knows_peer;            /* the encoder has the peer's settings */
  int is_lied_to;            /* the peer may have acknowledged what it did not decode or receive */
  uint64_t told;             /* how many insertions the peer acknowledged or reported */
  uint64_t streams[STREAMS]; /* the numbers of the streams that the peer has not given up */
  bytes instructions, answers;
  section *sections[MOST_SECTIONS]; /* in the order in which they were sent */
  size_t sectionslen;
} connection;

/* Takes a section out of those that wait. */
static void take_out(connection *c, size_t at) {
  free(c->sections[at]->p);
  free(c->sections[at]);
  c->sectionslen--;
  memmove(c->sections + at, c->sections + at + 1, (c->sectionslen - at) * sizeof *c->sections);
}

/* Returns how many streams are blocked at the peer if all sections came before what is under way of the encoder stream. */
static size_t count_waiting(const connection *c) {
  strict_sent waiting[MOST_SECTIONS];
  for (size_t i = 0; i < c->sectionslen; i++) waiting[i] = c->sections[i]->sent;
  return strict_count_streams(waiting, c->sectionslen, c->peer.insert_count);
}

static void compare_counts(connection *c) {
  CHECK(h3_qpack_encoder_get_krcnt(&c->library) == c->strict.known_received);
  CHECK(h3_qpack_encoder_get_num_unacked(&c->library) == c->strict.len);
  size_t blocked = strict_count_streams(c->strict.sent, c->strict.len, c->strict.known_received);
  CHECK(h3_qpack_encoder_get_num_blocked(&c->library) == blocked && blocked <= c->max_blocked);
  CHECK(c->is_lied_to || count_waiting(c) <= c->max_blocked);
  CHECK(h3_qpack_encoder_get_capacity(&c->library) <= c->max_capacity);
  CHECK(h3_qpack_encoder_get_table_size(&c->library) <= h3_qpack_encoder_get_capacity(&c->library));
}

/* ---- Fields */

static const char *const NAMES[] = {"cookie", ":path", "user-agent", "x-trace", "etag", "accept", "a", ""};

/* Reads a string: one of few, so that fields come again, or any bytes. */
static size_t read_string(input *in, uint8_t *to, int is_name) {
  uint8_t kind = next(in);
  size_t len = kind & 63;
  if (kind >= 128) {
    for (size_t i = 0; i < len; i++) to[i] = next(in);
  } else if (is_name) {
    len = strlen(NAMES[kind % 8]);
    memcpy(to, NAMES[kind % 8], len);
  } else {
    memset(to, 'a' + kind % 4, len);
  }
  return len;
}

static void read_field(input *in, h3_qpack_nv *field, uint8_t *texts) {
  static const uint8_t flags[] = {
      0, 0, 0, 0, H3_QPACK_NV_FLAG_INSERT, H3_QPACK_NV_FLAG_INSERT, H3_QPACK_NV_FLAG_REUSE, H3_QPACK_NV_FLAG_NEVER_INDEX};
  field->flags = flags[next(in) % 8];
  field->name = texts;
  field->namelen = read_string(in, texts, 1);
  field->value = texts + field->namelen;
  field->valuelen = read_string(in, texts + field->namelen, 0);
}

/* ---- Calls */

/* Encodes a list, and gets its section in one call or in two. */
static void encode(connection *c, input *in, uint64_t stream) {
  if (c->sectionslen == MOST_SECTIONS) return;
  section *s = calloc(1, sizeof *s);
  CHECK(s);
  s->fieldslen = next(in) % (MOST_FIELDS + 1);
  size_t size = 0;
  for (size_t i = 0; i < s->fieldslen; i++) {
    read_field(in, &s->fields[i], s->texts[i]);
    size += s->fields[i].namelen + s->fields[i].valuelen + 32;
  }
  size_t room = next(in) % 2 ? 0 : MOST_SECTION;
  int was_full = c->strict.len >= c->most_unacknowledged;
  s->p = malloc(MOST_SECTION);
  CHECK(s->p);
  h3_qpack_encoded got = h3_qpack_encoder_encode(&c->library, stream, s->fields, s->fieldslen, s->p, room);
  if (!room) {
    CHECK(got.status == H3_QPACK_ERR_NO_ROOM && got.len <= MOST_SECTION);
    h3_qpack_written written = h3_qpack_encoder_section(&c->library, s->p, got.len);
    CHECK(written.status == H3_QPACK_OK && written.len == got.len);
  } else {
    CHECK(got.status == H3_QPACK_OK);
  }
  CHECK(got.size == size);
  CHECK(!was_full || !got.required);
  s->len = got.len;
  s->sent = (strict_sent){stream, got.required};
  strict_send(&c->strict, stream, got.required, h3_qpack_encoder_get_icnt(&c->library));
  c->sections[c->sectionslen++] = s;
  compare_counts(c);
}

/* Sends what the encoder wrote for its stream. */
static void send_instructions(connection *c) {
  size_t room = sizeof c->instructions.at - c->instructions.len;
  size_t wanted = h3_qpack_encoder_get_encoder_streamlen(&c->library);
  size_t got = h3_qpack_encoder_write_encoder(&c->library, c->instructions.at + c->instructions.len, room);
  CHECK(got == (wanted < room ? wanted : room));
  c->instructions.len += got;
}

/* The peer receives some of the encoder stream. */
static void deliver(connection *c, size_t len) {
  int is_doomed;
  if (len > c->instructions.len) len = c->instructions.len;
  strict_status status = strict_receive(&c->peer, c->instructions.at, len, &is_doomed);
  CHECK(status == STRICT_OK && !is_doomed);
  CHECK(c->peer.insert_count <= h3_qpack_encoder_get_icnt(&c->library));
  drop(&c->instructions, len);
}

/* The peer answers, with an integer of so many bits behind these flags. */
static void answer(connection *c, uint8_t flags, int bits, uint64_t value) {
  uint64_t most = (1u << bits) - 1;
  if (c->answers.len + 16 > sizeof c->answers.at) return;
  if (value < most) {
    c->answers.at[c->answers.len++] = (uint8_t)(flags | value);
    return;
  }
  c->answers.at[c->answers.len++] = (uint8_t)(flags | most);
  for (value -= most; value > 127; value >>= 7) c->answers.at[c->answers.len++] = (uint8_t)(value | 128);
  c->answers.at[c->answers.len++] = (uint8_t)value;
}

static void compare_fields(const section *s, const strict_fields *fields) {
  CHECK(fields->len == s->fieldslen);
  for (size_t i = 0; i < fields->len; i++) {
    const strict_field *got = &fields->at[i];
    const h3_qpack_nv *want = &s->fields[i];
    CHECK(got->namelen == want->namelen && got->valuelen == want->valuelen);
    CHECK(!memcmp(got->text, want->name, want->namelen));
    CHECK(!memcmp(got->text + got->namelen, want->value, want->valuelen));
    CHECK(got->is_never_indexed == !!(want->flags & H3_QPACK_NV_FLAG_NEVER_INDEX));
  }
}

/* The peer decodes the section at a place, and acknowledges it; or it is blocked. Returns whether it was decoded. */
static int decode(connection *c, size_t at) {
  section *s = c->sections[at];
  strict_section got = strict_decode(&c->peer, s->p, s->len, UINT64_MAX);
  if (got.status == STRICT_BLOCKED) {
    CHECK(got.required == s->sent.required);
    return 0;
  }
  if (!c->is_lied_to) {
    CHECK(got.status == STRICT_OK && got.required == s->sent.required);
    compare_fields(s, &got.fields);
  }
  strict_free_fields(&got.fields);
  if (s->sent.required) {
    answer(c, 0x80, 7, s->sent.stream);
    if (s->sent.required > c->told) c->told = s->sent.required;
  }
  take_out(c, at);
  return 1;
}

/* Returns the place of the oldest section of a stream, or how many there are. */
static size_t oldest_of(const connection *c, uint64_t stream) {
  size_t at = 0;
  while (at < c->sectionslen && c->sections[at]->sent.stream != stream) at++;
  return at;
}

/* The peer gives up a stream. Another takes its place, since nothing more is sent on it. */
static void cancel(connection *c, uint64_t *stream) {
  for (size_t at; (at = oldest_of(c, *stream)) < c->sectionslen;) take_out(c, at);
  if (c->max_capacity) answer(c, 0x40, 6, *stream);
  *stream += STREAMS;
}

/* The peer reports insertions that it received. */
static void report(connection *c, uint64_t most) {
  uint64_t many = c->peer.insert_count > c->told ? c->peer.insert_count - c->told : 0;
  if (many > most) many = most;
  if (!many) return;
  answer(c, 0, 6, many);
  c->told += many;
}

/* The encoder reads some of the decoder stream. Returns whether the connection goes on. */
static int hear(connection *c, const uint8_t *p, size_t len) {
  strict_status status = strict_hear(&c->strict, p, len);
  h3_qpack_received got = h3_qpack_encoder_read_decoder(&c->library, p, len);
  CHECK(got.taken == len);
  if (status == STRICT_REFUSED) {
    CHECK(c->is_lied_to);
    CHECK(got.status == H3_QPACK_DECODER_STREAM_ERROR);
    CHECK(got.number == c->strict.number && got.offset == c->strict.offset);
    return 0;
  }
  CHECK(got.status == H3_QPACK_OK && !got.number && !got.offset);
  compare_counts(c);
  return 1;
}

/* The encoder reads some of what the peer answered. */
static int hear_answers(connection *c, size_t len) {
  if (len > c->answers.len) len = c->answers.len;
  int goes_on = hear(c, c->answers.at, len);
  drop(&c->answers, len);
  return goes_on;
}

/* The encoder reads bytes that no peer answered so. */
static int hear_anything(connection *c, input *in) {
  uint8_t any[32];
  size_t len = next(in) % sizeof any;
  for (size_t i = 0; i < len; i++) any[i] = next(in);
  if (len) c->is_lied_to = 1;
  return hear(c, any, len);
}

static void set_capacity(connection *c, size_t capacity) {
  size_t before = h3_qpack_encoder_get_capacity(&c->library);
  int got = h3_qpack_encoder_set_capacity(&c->library, capacity);
  uint64_t most = c->knows_peer ? c->max_capacity : 0;
  if (capacity > most) CHECK(got == H3_QPACK_ERR_INVALID);
  else CHECK(got == H3_QPACK_OK || got == H3_QPACK_ERR_HELD);
  CHECK(h3_qpack_encoder_get_capacity(&c->library) == (got == H3_QPACK_OK ? capacity : before));
}

/* The encoder gets the peer's settings, if it has not. */
static void set_peer_settings(connection *c) {
  int got = h3_qpack_encoder_set_peer_settings(&c->library, c->max_capacity, c->max_blocked);
  CHECK(got == H3_QPACK_OK);
  c->knows_peer = 1;
}

/* Runs one call of an input. Returns whether the connection goes on. */
static int run(connection *c, input *in) {
  uint8_t what = next(in);
  uint64_t stream = c->streams[what / 8];
  size_t at, capacity;
  switch (what % 8) {
  case 0:
  case 1: encode(c, in, stream); break;
  case 2:
    send_instructions(c);
    deliver(c, what / 8 % 2 ? next(in) : MOST_BYTES);
    break;
  case 3:
    at = oldest_of(c, stream);
    if (at < c->sectionslen) decode(c, at);
    break;
  case 4: report(c, what / 8 % 2 ? next(in) : UINT64_MAX); break;
  case 5: return hear_answers(c, what / 8 % 2 ? next(in) % 8 : MOST_BYTES);
  case 6:
    if (what / 8 % 4 == 0) {
      cancel(c, &c->streams[next(in) % STREAMS]);
    } else if (what / 8 % 4 == 1) {
      capacity = next(in);
      set_capacity(c, capacity << next(in) % 10);
    } else {
      set_peer_settings(c);
    }
    break;
  default: return what / 8 % 4 == 3 ? hear_anything(c, in) : 1;
  }
  return 1;
}

/* An error that ended the connection is returned by each later call. */
static void compare_end(connection *c) {
  CHECK(h3_qpack_encoder_encode(&c->library, 0, NULL, 0, NULL, 0).status == H3_QPACK_DECODER_STREAM_ERROR);
  CHECK(h3_qpack_encoder_read_decoder(&c->library, NULL, 0).status == H3_QPACK_DECODER_STREAM_ERROR);
  CHECK(h3_qpack_encoder_set_capacity(&c->library, 0) == H3_QPACK_DECODER_STREAM_ERROR);
}

/* Brings to its end what is under way: everything arrives, is decoded and answered. */
static void finish(connection *c) {
  do {
    send_instructions(c);
    deliver(c, MOST_BYTES);
  } while (h3_qpack_encoder_get_encoder_streamlen(&c->library) || c->instructions.len);
  CHECK(c->peer.insert_count == h3_qpack_encoder_get_icnt(&c->library) && !c->peer.pendinglen);
  while (c->sectionslen) CHECK(decode(c, 0));
  report(c, UINT64_MAX);
  CHECK(hear_answers(c, MOST_BYTES));
  CHECK(!c->strict.len && c->strict.known_received == c->strict.insert_count);
}

int LLVMFuzzerTestOneInput(const uint8_t *p, size_t len) {
  static const uint64_t capacities[] = {0, 31, 32, 64, 100, 256, 4096, 65536};
  static connection c;
  if (len < 4) return 0;
  memset(&c, 0, sizeof c);
  c.max_capacity = capacities[p[0] % 8];
  c.max_blocked = p[1] % 16;
  c.most_unacknowledged = p[2] % 32;
  c.knows_peer = p[3] % 4 != 0;
  h3_qpack_encoder_settings settings;
  h3_qpack_encoder_settings_default(&settings);
  settings.max_capacity = c.knows_peer ? c.max_capacity : 0;
  settings.max_blocked = c.knows_peer ? c.max_blocked : 0;
  settings.capacity = p[3] / 4 % 2 ? c.max_capacity / 2 : 65536;
  settings.most_unacknowledged = c.most_unacknowledged;
  settings.seed = p[3] / 8;
  CHECK(h3_qpack_encoder_new(&c.library, &settings) == H3_QPACK_OK);
  for (uint64_t i = 0; i < STREAMS; i++) c.streams[i] = i;
  strict_new_encoder(&c.strict);
  strict_new(&c.peer, c.max_capacity);
  input in = {p + 4, len - 4};
  int goes_on = 1;
  while (in.len && goes_on) goes_on = run(&c, &in);
  if (!goes_on) compare_end(&c);
  else if (!c.is_lied_to) finish(&c);
  while (c.sectionslen) take_out(&c, 0);
  h3_qpack_encoder_del(&c.library);
  strict_del_encoder(&c.strict);
  strict_del(&c.peer);
  return 0;
}
