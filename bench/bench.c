/* bench CORPUS ROUNDS [CAPACITY [UNTIMED [COLD]]]: ns a field across the boundary, this library and nghttp3 in turn in
 * one run over the corpus, the least of so many rounds, less what the clock takes; the same, of a fiftieth of the
 * rounds, with a table of 30,000 entries; and ns of calls that do nothing. Each list is on a stream of its own, and
 * acknowledged. An end receives bytes of a stream where there are any, as in a program. Of both, what is decoded is
 * copied to memory of the caller. With a capacity the lists are timed at that one alone, but for the first of them, as
 * many as UNTIMED says. COLD is how many KiB of other memory are written after each phase, so that the next one finds
 * little in the caches. */
#include "../c/tests/peer.h"
#include "clock.h"

static uint8_t section[1 << 16], stream[1 << 16], bytes[1 << 16];
static h3_qpack_field fields[1 << 10];

/* Of each phase, in its order: a list is encoded, the encoder stream received, the section decoded, and what the decoder
 * answers heard; and of both calls without a table. */
enum { ENCODE, RECEIVE, DECODE, HEAR, PHASES };
static const char *const phases[] = {"encode", "receive", "decode", "hear"};

typedef struct {
  double phase[PHASES];
  size_t written; /* bytes of sections and of the encoder stream */
} times;

/* How many lists fill the table before anything counts, and how many fields the others have. */
static size_t filling, ncounted;

/* Memory that neither library uses, and how much of it is written after a phase. */
static uint8_t *other;
static size_t other_len;

/* Writes a byte of each line of the other memory, which takes the place of what the caches held. */
static void write_other_memory(void) {
  volatile uint8_t *byte = other;
  for (size_t i = 0; i < other_len; i += 64) byte[i]++;
}

/* Adds the time since |*since|, less what the look at the clock takes, to a phase, which ends now. The next begins when
 * the other memory is written. */
static void end_phase(times *t, int phase, double *since) {
  double until = now();
  t->phase[phase] += until - *since - clock_cost;
  if (other_len) {
    write_other_memory();
    until = now();
  }
  *since = until;
}

static void keep_least(times *least, times t) {
  for (int p = 0; p < PHASES; p++)
    if (t.phase[p] < least->phase[p]) least->phase[p] = t.phase[p];
  least->written = t.written;
}

static times run_ours(size_t capacity) {
  h3_qpack_encoder e;
  h3_qpack_decoder d;
  times t = {{0}, 0};
  CHECK(!new_encoder(&e, capacity, 100));
  CHECK(!new_decoder(&d, capacity, 100, 1 << 20));
  for (size_t i = 0; i < nlists; i++) {
    if (i == filling) t = (times){{0}, 0};
    double since = now();
    h3_qpack_encoded a = h3_qpack_encoder_encode(&e, 4 * i, lists[i].nv, lists[i].len, section, sizeof section);
    size_t len = h3_qpack_encoder_write_encoder(&e, stream, sizeof stream);
    end_phase(&t, ENCODE, &since);
    if (len) CHECK(h3_qpack_decoder_read_encoder(&d, stream, len).status == H3_QPACK_OK);
    end_phase(&t, RECEIVE, &since);
    h3_qpack_decoded got = h3_qpack_decoder_decode(&d, 4 * i, section, a.len);
    h3_qpack_written w = h3_qpack_decoder_fields(&d, fields, sizeof fields / sizeof *fields, bytes, sizeof bytes);
    end_phase(&t, DECODE, &since);
    CHECK(a.status == H3_QPACK_OK && got.status == H3_QPACK_OK && w.status == H3_QPACK_OK);
    CHECK(got.fields == lists[i].len);
    t.written += a.len + len;
    since = now();
    len = h3_qpack_decoder_write_decoder(&d, stream, sizeof stream);
    if (len) h3_qpack_encoder_read_decoder(&e, stream, len);
    end_phase(&t, HEAR, &since);
  }
  h3_qpack_encoder_del(&e);
  h3_qpack_decoder_del(&d);
  return t;
}

/* Decodes a section by nghttp3, copies its fields to |bytes|, and answers how many there are. */
static size_t decode_theirs(nghttp3_qpack_decoder *d, int64_t stream_id, const uint8_t *p, size_t left) {
  nghttp3_qpack_stream_context *context;
  size_t count = 0, at = 0;
  nghttp3_qpack_stream_context_new(&context, stream_id, nghttp3_mem_default());
  for (;;) {
    nghttp3_qpack_nv nv;
    uint8_t flags;
    nghttp3_ssize taken = nghttp3_qpack_decoder_read_request(d, context, &nv, &flags, p, left, 1);
    CHECK(taken >= 0);
    p += taken;
    left -= (size_t)taken;
    if (flags & NGHTTP3_QPACK_DECODE_FLAG_EMIT) {
      nghttp3_vec name = nghttp3_rcbuf_get_buf(nv.name), value = nghttp3_rcbuf_get_buf(nv.value);
      memcpy(bytes + at, name.base, name.len);
      memcpy(bytes + at + name.len, value.base, value.len);
      at += name.len + value.len;
      nghttp3_rcbuf_decref(nv.name);
      nghttp3_rcbuf_decref(nv.value);
      count++;
    }
    if (flags & NGHTTP3_QPACK_DECODE_FLAG_FINAL) break;
  }
  nghttp3_qpack_stream_context_del(context);
  return count;
}

static times run_theirs(size_t capacity) {
  const nghttp3_mem *mem = nghttp3_mem_default();
  nghttp3_qpack_encoder *e;
  nghttp3_qpack_decoder *d;
  nghttp3_buf prefix, lines, instructions, answer;
  times t = {{0}, 0};
  CHECK(!nghttp3_qpack_encoder_new(&e, capacity, mem) && !nghttp3_qpack_decoder_new(&d, capacity, 100, mem));
  nghttp3_qpack_encoder_set_max_blocked_streams(e, 100);
  nghttp3_qpack_encoder_set_max_dtable_capacity(e, capacity);
  nghttp3_qpack_decoder_set_max_concurrent_streams(d, 1000);
  nghttp3_buf_init(&prefix);
  nghttp3_buf_init(&lines);
  nghttp3_buf_init(&instructions);
  for (size_t i = 0; i < nlists; i++) {
    int64_t stream_id = (int64_t)(4 * i);
    if (i == filling) t = (times){{0}, 0};
    double since = now();
    nghttp3_buf_reset(&prefix);
    nghttp3_buf_reset(&lines);
    nghttp3_buf_reset(&instructions);
    CHECK(!nghttp3_qpack_encoder_encode(e, &prefix, &lines, &instructions, stream_id, lists[i].ng, lists[i].len));
    end_phase(&t, ENCODE, &since);
    size_t front = nghttp3_buf_len(&prefix), len = front + nghttp3_buf_len(&lines);
    memcpy(section, prefix.pos, front);
    memcpy(section + front, lines.pos, len - front);
    t.written += len + nghttp3_buf_len(&instructions);
    since = now();
    if (nghttp3_buf_len(&instructions))
      nghttp3_qpack_decoder_read_encoder(d, instructions.pos, nghttp3_buf_len(&instructions));
    end_phase(&t, RECEIVE, &since);
    size_t count = decode_theirs(d, stream_id, section, len);
    end_phase(&t, DECODE, &since);
    CHECK(count == lists[i].len);
    since = now();
    answer.begin = answer.pos = answer.last = stream;
    answer.end = stream + sizeof stream;
    nghttp3_qpack_decoder_write_decoder(d, &answer);
    if (nghttp3_buf_len(&answer)) nghttp3_qpack_encoder_read_decoder(e, stream, nghttp3_buf_len(&answer));
    end_phase(&t, HEAR, &since);
  }
  nghttp3_buf_free(&prefix, mem);
  nghttp3_buf_free(&lines, mem);
  nghttp3_buf_free(&instructions, mem);
  nghttp3_qpack_encoder_del(e);
  nghttp3_qpack_decoder_del(d);
  return t;
}

/* Both calls without a table; nghttp3 has none such, and its ends of capacity 0 stand for them. */
static times run_alone(void) {
  times t = {{0}, 0};
  for (size_t i = 0; i < nlists; i++) {
    if (i == filling) t = (times){{0}, 0};
    double since = now();
    h3_qpack_written a = h3_qpack_encode_stateless(lists[i].nv, lists[i].len, section, sizeof section);
    end_phase(&t, ENCODE, &since);
    h3_qpack_decoded_alone got =
        h3_qpack_decode_stateless(section, a.len, 1 << 20, fields, sizeof fields / sizeof *fields, bytes, sizeof bytes);
    end_phase(&t, DECODE, &since);
    CHECK(a.status == H3_QPACK_OK && got.status == H3_QPACK_OK && got.fields == lists[i].len);
    t.written += a.len;
  }
  return t;
}

/* ns of a call that receives no bytes, and of one that asks for a field that is not there. */
static void time_boundary(int rounds) {
  h3_qpack_encoder e;
  h3_qpack_decoder d;
  double read = 1e18, field = 1e18;
  CHECK(!new_encoder(&e, 0, 0) && !new_decoder(&d, 0, 0, 0));
  for (int r = 0; r < rounds; r++) {
    double t0 = now();
    for (int i = 0; i < 10000; i++) h3_qpack_encoder_read_decoder(&e, NULL, 0);
    double t1 = now();
    for (int i = 0; i < 10000; i++) h3_qpack_decoder_field(&d, 0, NULL, 0);
    double t2 = now();
    if (t1 - t0 < read) read = t1 - t0;
    if (t2 - t1 < field) field = t2 - t1;
  }
  printf("a call that receives nothing %.1f ns, one for a field that is not there %.1f ns\n", read / 1e4, field / 1e4);
  h3_qpack_encoder_del(&e);
  h3_qpack_decoder_del(&d);
}

/* A phase's ns a field of both, and their ratio. */
static void print_phase(const char *what, double ours, double theirs) {
  double n = (double)ncounted;
  printf("  %-8s %5.0f ns a field, nghttp3 %5.0f (%.2f)\n", what, ours / n, theirs / n, ours / theirs);
}

static void print_times(times ours, times theirs) {
  double all = 0, their_all = 0;
  for (int p = 0; p < PHASES; p++) {
    all += ours.phase[p];
    their_all += theirs.phase[p];
    if (theirs.phase[p] >= (double)ncounted) print_phase(phases[p], ours.phase[p], theirs.phase[p]);
  }
  if (ours.phase[HEAR] != 0) print_phase("all", all, their_all);
  printf("  %zu bytes, nghttp3 %zu\n", ours.written, theirs.written);
}

/* Adds a field that none was before: a name of forty, and a value of its own. */
static void add_new_field(list *l) {
  static const char *named[] = {"cookie",   "referer",       "user-agent", ":path", "etag",
                                "location", "authorization", "origin",     "link",  "if-none-match"};
  char name[40], value[40];
  size_t which = random_below(40);
  if (which < 30) snprintf(name, sizeof name, "x-custom-header-%zu", which);
  else snprintf(name, sizeof name, "%s", named[which - 30]);
  snprintf(value, sizeof value, "value-%08zx-%06zu", random_below(0xffffffff), nfields);
  add_field(l, name, strlen(name), value, strlen(value), 0);
}

/* Lists of new fields, half as many again as the table is to hold; and then, to be counted, a thousand lists of thirty
 * fields, of which each fifth is new and the others are of the newer half of what the table holds. Answers a capacity
 * that holds about so many entries. */
static size_t add_growing_lists(size_t entries) {
  size_t size = 0, count = 0;
  const h3_qpack_nv **made = malloc((entries * 3 / 2 + 30 * 1001) * sizeof *made);
  CHECK(made);
  filling = entries * 3 / 2 / 30;
  for (size_t i = 0; i < filling + 1000; i++) {
    list *l = add_list();
    size_t before = count;
    l->room = 30;
    l->nv = malloc(30 * sizeof *l->nv);
    l->ng = malloc(30 * sizeof *l->ng);
    CHECK(l->nv && l->ng);
    for (size_t k = 0; k < 30; k++) {
      if (i < filling || k % 5 == 4) {
        add_new_field(l);
        made[count++] = &l->nv[k];
        size += l->nv[k].namelen + l->nv[k].valuelen + 32;
      } else {
        const h3_qpack_nv *nv = made[before - 1 - random_below(entries / 2)];
        add_field(l, nv->name, nv->namelen, nv->value, nv->valuelen, 0);
      }
    }
  }
  free(made);
  ncounted = 30 * 1000;
  return size / count * entries;
}

/* The least times of so many rounds at a capacity, printed; at capacity 0 those without an end too. */
static void compare(size_t capacity, int rounds) {
  times none = {{1e18, 1e18, 1e18, 1e18}, 0}, ours = none, theirs = none, alone = none;
  for (int r = 0; r < rounds; r++) {
    keep_least(&ours, run_ours(capacity));
    keep_least(&theirs, run_theirs(capacity));
    if (!capacity) keep_least(&alone, run_alone());
  }
  printf("capacity %zu\n", capacity);
  print_times(ours, theirs);
  if (capacity) return;
  printf("without an end\n");
  print_times(alone, theirs);
}

/* The lists of a file at one capacity, the first |untimed| of which only come before the others. */
static void compare_file(size_t capacity, size_t untimed, int rounds) {
  CHECK(untimed < nlists);
  filling = untimed;
  for (size_t i = 0; i < untimed; i++) ncounted -= lists[i].len;
  compare(capacity, rounds);
  free_lists();
}

int main(int argc, char **argv) {
  CHECK(argc >= 3 && argc <= 6);
  read_corpus(argv[1], 0);
  int rounds = atoi(argv[2]);
  ncounted = nfields;
  measure_clock();
  if (argc > 5) {
    other_len = strtoull(argv[5], NULL, 10) << 10;
    CHECK(other = calloc(1, other_len));
  }
  printf("a look at the clock takes %.0f ns, which are taken off\n", clock_cost);
  if (argc > 3) {
    compare_file(strtoull(argv[3], NULL, 10), argc > 4 ? strtoull(argv[4], NULL, 10) : 0, rounds);
    return 0;
  }
  compare(0, rounds);
  compare(4096, rounds);
  compare(65536, rounds);
  free_lists();
  size_t capacity = add_growing_lists(30000);
  printf("30,000 entries, ");
  compare(capacity, (rounds + 49) / 50);
  free_lists();
  time_boundary(rounds);
  return 0;
}
