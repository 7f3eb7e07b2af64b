/* bound [--rule] CORPUS..: the bytes of sections and of the encoder stream that this library writes, beside the least that ten
 * encoders write that know which fields come in the next lists, 10 to 2,500 of them. Such an encoder can't be had, and a
 * better rule than its own may write less. With --rule a model by rule.h takes the place of the library. All settings of
 * play.h are played, of two corpora that traffic.h makes, and of the requests and the responses of each other corpus. This
 * library's decoder decodes each section, of all encoders, and answers them.
 *
 * Prints a line for each setting; then, behind an empty line, the mean of the ratios for each corpus, capacity and limit of
 * blocked streams, and for all corpora. The columns are parted by TABs. */
#include "../c/tests/common.h"
#include "play.h"
#include "encoder.h"
#include "model_ends.h"
#include "rule.h"

/* ---- What comes in later lists */

/* For each number of a field, or of a name, the lists in which it comes, in their order: |lists| from |begins[number]| to
 * |begins[number + 1]|. */
typedef struct {
  size_t *begins, *lists;
} occurrences;

static size_t field_number(const field *f) { return f->number; }

static size_t name_number(const field *f) { return f->name_number; }

static occurrences find_occurrences(const corpus *c, size_t (*number_of)(const field *), size_t numbers) {
  occurrences o = {make_zeros(numbers + 2, sizeof *o.begins), make_zeros(c->nfields + 1, sizeof *o.lists)};
  /* The counts stand two places late, and then one: so each place begins where the last one ends. */
  for (size_t i = 0; i < c->nfields; i++) o.begins[number_of(&c->fields[i]) + 2]++;
  for (size_t n = 2; n < numbers + 2; n++) o.begins[n] += o.begins[n - 1];
  for (size_t i = 0; i < c->nlists; i++)
    for (size_t k = c->begins[i]; k < c->begins[i + 1]; k++) o.lists[o.begins[number_of(&c->fields[k]) + 1]++] = i;
  return o;
}

static void free_occurrences(occurrences *o) {
  free(o->begins);
  free(o->lists);
}

/* Returns where the lists begin that come after another one. */
static size_t first_after(const occurrences *o, size_t number, size_t list) {
  size_t low = o->begins[number], high = o->begins[number + 1];
  while (low < high) {
    size_t middle = low + (high - low) / 2;
    if (o->lists[middle] > list) {
      high = middle;
    } else {
      low = middle + 1;
    }
  }
  return low;
}

/* Returns whether it comes in a list after |from|, up to |to|. */
static int comes_within(const occurrences *o, size_t number, size_t from, size_t to) {
  size_t at = first_after(o, number, from);
  return at < o->begins[number + 1] && o->lists[at] <= to;
}

/* Returns whether it comes in two different lists after |from|, up to |to|. */
static int comes_twice(const occurrences *o, size_t number, size_t from, size_t to) {
  size_t at = first_after(o, number, from);
  return at < o->begins[number + 1] && comes_within(o, number, o->lists[at], to);
}

/* ---- The encoders that know it */

/* A reference to an entry at least this far before the base takes two bytes or more. */
#define FAR_AWAY 63

/* A far entry is inserted again if at least this many lists referenced it, and the last of them at most so far back. */
#define OFTEN 2
#define RECENT 8

/* After an insertion found no room, draining entries are not referenced for this many lists. */
#define TIGHT_LISTS 16

/* What an encoder knows, and does. */
typedef struct {
  /* How many lists it knows. */
  size_t ahead;
  /* Whether far entries are inserted again. */
  int brings_near;
  /* If this is not 0, only those that come in two of as many lists. */
  size_t twice_in;
} knowledge;

static const knowledge known[] = {{10, 1, 0},   {60, 1, 0}, {60, 1, 20}, {150, 1, 0}, {400, 1, 0},
                                  {2500, 1, 0}, {25, 0, 0}, {60, 0, 0},  {150, 0, 0}, {400, 0, 0}};

#define KNOWN (sizeof known / sizeof *known)

typedef struct {
  const corpus *from;
  occurrences fields, names;
} future;

typedef struct {
  const knowledge *knows;
  const future *sees;
  /* How many lists late the decoder answers. */
  size_t late;
  /* The newest entry that drains: it and older ones are to be evicted next. */
  size_t draining;
  /* Whether they are not referenced in this list, and before which one that is so. */
  int is_tight;
  size_t tight_until;
  /* For each entry, how many lists referenced it, and the last one that did, or that inserted it. */
  size_t *uses, *used_at;
  /* For each number of a field, an entry of which a newer one is a copy. */
  size_t *originals;
} seer;

static seer open_seer(const knowledge *k, const future *f, size_t late) {
  const corpus *c = f->from;
  return (seer){.knows = k,
                .sees = f,
                .late = late,
                .uses = make_zeros(c->nfields + 2, sizeof(size_t)),
                .used_at = make_zeros(c->nfields + 2, sizeof(size_t)),
                .originals = make_zeros(c->numbers + 1, sizeof(size_t))};
}

static void close_seer(seer *s) {
  free(s->uses);
  free(s->used_at);
  free(s->originals);
}

/* Whether a field comes again soon enough. One that may not be referenced yet is of no use before its answer. */
static int is_worth(const seer *s, const encoder *e, const occurrences *o, size_t number) {
  size_t now = e->nsections, wait = e->may_block ? 0 : s->late;
  return comes_within(o, number, now + wait, now + s->knows->ahead);
}

/* Notes which entries drain: those with less than a quarter of the capacity before them, as soon as half of it is used. */
static void begin_foreseen(void *state, const encoder *e) {
  seer *s = state;
  size_t before = e->capacity - e->used;
  s->is_tight = e->nsections < s->tight_until;
  s->draining = e->dropped;
  if (e->used <= e->capacity / 2) return;
  while (before < e->capacity / 4 && s->draining < e->inserted) before += e->entries[++s->draining].f->size;
}

/* Returns the newest equal entry that may be referenced, or the one that it is a copy of; or 0. */
static size_t foreseen_entry(const seer *s, const encoder *e, const field *f) {
  size_t newest = newest_equal(e, f), original = s->originals[f->number];
  if (!newest || may_reference(e, newest)) return newest;
  return is_equal(e, original, f) && may_reference(e, original) ? original : 0;
}

/* Whether an insertion evicts nothing but draining entries. */
static int spares_others(const seer *s, const encoder *e, const field *f) {
  size_t last = last_evicted(e, f->size);
  return last == e->dropped || last <= s->draining;
}

static int is_to_come_near(const seer *s, const encoder *e, const field *f, size_t entry) {
  size_t now = e->nsections;
  if (!s->knows->brings_near || entry <= s->draining || entry > e->base || e->base - entry < FAR_AWAY) return 0;
  if (now - s->used_at[entry] > RECENT || s->uses[entry] < OFTEN) return 0;
  return !s->knows->twice_in || comes_twice(&s->sees->fields, f->number, now, now + s->knows->twice_in);
}

static choice refer_to(seer *s, const encoder *e, size_t entry, int inserts) {
  s->uses[entry]++;
  s->used_at[entry] = e->nsections;
  return (choice){EQUAL, entry, inserts};
}

/* Chooses an insertion that is referenced. */
static choice insert_now(seer *s, const encoder *e) {
  s->uses[e->inserted + 1] = 1;
  s->used_at[e->inserted + 1] = e->nsections;
  return (choice){.form = INSERTED};
}

/* Chooses a reference, and after it a copy of the entry that nothing references yet. */
static choice copy_for_later(seer *s, const encoder *e, const field *f, size_t entry) {
  choice c = refer_to(s, e, entry, 1);
  s->originals[f->number] = entry;
  s->uses[e->inserted + 1] = s->uses[entry];
  s->used_at[e->inserted + 1] = e->nsections;
  return c;
}

static choice choose_at_limit_foreseen(seer *s, const encoder *e, const field *f, size_t entry) {
  if (entry < newest_equal(e, f)) return refer_to(s, e, entry, 0);
  if (entry <= s->draining) return copy_for_later(s, e, f, entry);
  if (is_to_come_near(s, e, f, entry) && spares_others(s, e, f)) return copy_for_later(s, e, f, entry);
  return refer_to(s, e, entry, 0);
}

static choice choose_equal_foreseen(seer *s, const encoder *e, const field *f, size_t entry) {
  if (!e->may_block) return choose_at_limit_foreseen(s, e, f, entry);
  if (is_to_come_near(s, e, f, entry)) {
    return spares_others(s, e, f) && has_room(e, f) ? insert_now(s, e) : refer_to(s, e, entry, 0);
  }
  if (entry > s->draining || !is_worth(s, e, &s->sees->fields, f->number)) return refer_to(s, e, entry, 0);
  if (has_room(e, f)) return insert_now(s, e);
  return s->is_tight ? (choice){.form = ALONE} : refer_to(s, e, entry, 0);
}

static choice choose_literal_foreseen(seer *s, const encoder *e, const field *f, int inserts) {
  size_t named = f->static_name < 0 ? newest_named(e, f) : 0;
  if (!named || !may_reference(e, named) || (s->is_tight && named <= s->draining)) return (choice){ALONE, 0, inserts};
  s->uses[named]++;
  s->used_at[named] = e->nsections;
  return (choice){NAMED, 0, inserts};
}

/* Whether a field that fits the table comes again, or its name, which no table has, or only a draining entry. */
static int is_wanted_foreseen(const seer *s, const encoder *e, const field *f) {
  if (f->size > e->capacity) return 0;
  if (is_worth(s, e, &s->sees->fields, f->number)) return 1;
  return f->static_name < 0 && newest_named(e, f) <= s->draining && is_worth(s, e, &s->sees->names, f->name_number);
}

static choice choose_foreseen(void *state, const encoder *e, const field *f) {
  seer *s = state;
  size_t entry = foreseen_entry(s, e, f);
  if (entry) return choose_equal_foreseen(s, e, f, entry);
  int inserts = !newest_equal(e, f) && is_wanted_foreseen(s, e, f);
  if (!inserts || !e->may_block) {
    s->uses[e->inserted + 1] = 0;
    s->used_at[e->inserted + 1] = e->nsections;
    return choose_literal_foreseen(s, e, f, inserts);
  }
  if (has_room(e, f)) return insert_now(s, e);
  s->tight_until = e->nsections + TIGHT_LISTS + 1;
  return choose_literal_foreseen(s, e, f, 0);
}

/* ---- Both, and their decoders */

typedef struct {
  h3_qpack_encoder encoder;
  h3_qpack_decoder decoder;
} our_ends;

static size_t exchange_ours(void *ends, uint64_t stream_id, const list *l, answer *answer) {
  our_ends *o = ends;
  return exchange_list(&o->encoder, &o->decoder, stream_id, l->nv, l->len, answer);
}

static void hear_by_ours(void *ends, const answer *answer) { hear(&((our_ends *)ends)->encoder, answer->bytes, answer->len); }

/* Returns the bytes of a model. */
static size_t play_model(direction d, const corpus *c, setting s, chooser by, int names_evicted) {
  model_ends m = open_model_ends(c, s, by, names_evicted);
  size_t bytes = play_lists(&by_model, &m, d, s.late);
  close_model_ends(&m);
  return bytes;
}

/* Returns the bytes of an encoder that knows so much. */
static size_t play_foreseen(direction d, const future *f, const knowledge *k, setting s) {
  seer seer = open_seer(k, f, s.late);
  size_t bytes = play_model(d, f->from, s, (chooser){&seer, begin_foreseen, choose_foreseen}, 1);
  close_seer(&seer);
  return bytes;
}

static size_t least_foreseen(direction d, const future *f, setting s) {
  size_t least = SIZE_MAX;
  for (size_t k = 0; k < KNOWN; k++) {
    size_t bytes = play_foreseen(d, f, &known[k], s);
    if (bytes < least) least = bytes;
  }
  return least;
}

/* Returns the bytes of the library. */
static size_t play_ours(direction d, setting s) {
  static const player by_ours = {exchange_ours, hear_by_ours};
  our_ends o;
  CHECK(!new_encoder(&o.encoder, s.capacity, s.blocked));
  CHECK(!new_decoder(&o.decoder, s.capacity, s.blocked, 1 << 20));
  size_t bytes = play_lists(&by_ours, &o, d, s.late);
  h3_qpack_encoder_del(&o.encoder);
  h3_qpack_decoder_del(&o.decoder);
  return bytes;
}

/* Returns the bytes of a model by the rule. */
static size_t play_rule(direction d, const corpus *c, setting s) {
  static rule r;
  begin_rule(&r, s.capacity);
  return play_model(d, c, s, (chooser){&r, begin_list, choose_by_rule}, NAMES_EVICTED);
}

/* ---- The table */

/* The sum of the ratios of a capacity and a limit, and how many there are. */
typedef struct {
  double sum;
  size_t count;
} mean;

#define MOST_CORPORA 64

static mean means[MOST_CORPORA][CAPACITIES * LIMITS];
static char names[MOST_CORPORA][64];
static size_t ncorpora;

/* Whether the model by the rule takes the place of the library. */
static int is_by_rule;

static void print_setting(const char *name, direction d, const future *f, size_t number) {
  setting s = setting_at(number);
  size_t bytes = is_by_rule ? play_rule(d, f->from, s) : play_ours(d, s), least = least_foreseen(d, f, s);
  double ratio = (double)bytes / (double)least;
  printf("%s\t%zu\t%zu\t%zu\t%zu\t%zu\t%.3f\n", name, s.capacity, s.blocked, s.late, bytes, least, ratio);
  means[ncorpora][number / DELAYS].sum += ratio;
  means[ncorpora][number / DELAYS].count++;
}

/* Prints the settings of the lists of one direction. */
static void print_settings(const char *name, direction d) {
  corpus c = make_corpus(d);
  future f = {&c, find_occurrences(&c, field_number, c.numbers), find_occurrences(&c, name_number, c.name_numbers)};
  CHECK(ncorpora < MOST_CORPORA && strlen(name) < sizeof *names);
  strcpy(names[ncorpora], name);
  for (size_t n = 0; n < SETTINGS; n++) print_setting(name, d, &f, n);
  ncorpora++;
  free_occurrences(&f.fields);
  free_occurrences(&f.names);
  free_corpus(&c);
}

static void print_mean(const char *name, size_t at, mean m) {
  setting s = setting_at(at * DELAYS);
  if (m.count) printf("%s\t%zu\t%zu\t%.3f\n", name, s.capacity, s.blocked, m.sum / (double)m.count);
}

static void print_means(void) {
  printf("\ncorpus\tcapacity\tblocked\tmean\n");
  for (size_t i = 0; i < ncorpora; i++)
    for (size_t k = 0; k < CAPACITIES * LIMITS; k++) print_mean(names[i], k, means[i][k]);
  for (size_t k = 0; k < CAPACITIES * LIMITS; k++) {
    mean all = {0, 0};
    for (size_t i = 0; i < ncorpora; i++) {
      all.sum += means[i][k].sum;
      all.count += means[i][k].count;
    }
    print_mean("all", k, all);
  }
}

int main(int argc, char **argv) {
  is_by_rule = argc > 1 && !strcmp(argv[1], "--rule");
  printf("corpus\tcapacity\tblocked\tlate\tbytes\tbound\tratio\n");
  visit_corpora(argv + 1 + is_by_rule, (size_t)(argc - 1 - is_by_rule), print_settings);
  print_means();
  return 0;
}
