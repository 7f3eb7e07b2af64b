/* cells [--rule] CORPUS..: the bytes of sections and of the encoder stream that this library writes, beside the fewer of
 * those of nghttp3 and of sections without a dynamic table. A cell is a corpus in a setting of play.h, and how many of its
 * first lists make the connection: 10, 30, 100 or all. The corpora are those of bound.c. With --rule a model by rule.h takes
 * the place of the library. Each field that is decoded is compared with the corpus.
 *
 * Prints a line for each cell; then, behind an empty line, for each capacity, limit of blocked streams and number of lists,
 * the mean of the ratios, the greatest one and its corpus, and how many are above 1.02 and above 1.08. The columns are parted
 * by TABs. */
#include "libraries.h"
#include "play.h"
#include "encoder.h"
#include "model_ends.h"
#include "rule.h"

/* ---- Bytes of the first lists */

/* How many lists a connection has; the last is all. */
static const size_t lengths[] = {10, 30, 100, SIZE_MAX};

#define LENGTHS (sizeof lengths / sizeof *lengths)

typedef struct {
  size_t lists, bytes;
  /* Those of the first lists, for each length. */
  size_t first[LENGTHS];
} tally;

/* Adds the bytes of the next list, and returns them. */
static size_t add_bytes(tally *t, size_t bytes) {
  t->bytes += bytes;
  t->lists++;
  for (size_t k = 0; k < LENGTHS; k++)
    if (t->lists <= lengths[k]) t->first[k] = t->bytes;
  return bytes;
}

/* Ends, what plays lists to them, and the bytes of those. */
typedef struct {
  const player *by;
  void *ends;
  tally tally;
} counted;

static size_t exchange_counted(void *e, uint64_t stream_id, const list *l, answer *answer) {
  counted *c = e;
  return add_bytes(&c->tally, c->by->exchange(c->ends, stream_id, l, answer));
}

static void hear_counted(void *e, const answer *answer) {
  counted *c = e;
  c->by->hear(c->ends, answer);
}

static tally play_counted(const player *by, void *ends, direction d, setting s) {
  static const player by_counted = {exchange_counted, hear_counted};
  counted c = {.by = by, .ends = ends};
  play_lists(&by_counted, &c, d, s.late);
  return c.tally;
}

/* ---- Libraries */

typedef struct {
  const library *library;
  connection both;
} library_ends;

static size_t exchange_by(void *e, uint64_t stream_id, const list *l, answer *answer) {
  static wire wire;
  library_ends *these = e;
  exchange(these->library, &these->both, stream_id, l, &wire, answer);
  return wire.section_len + wire.stream_len;
}

static void hear_by(void *e, const answer *answer) {
  library_ends *these = e;
  these->library->hear(&these->both, answer);
}

static tally play_library(const library *library, direction d, setting s) {
  static const player by_library = {exchange_by, hear_by};
  library_ends e = {.library = library};
  library->open(&e.both, s.capacity, s.blocked);
  tally t = play_counted(&by_library, &e, d, s);
  close_both(library, &e.both);
  return t;
}

/* ---- Models */

static tally play_rule(direction d, const corpus *c, setting s) {
  static rule r;
  model_ends m = open_model_ends(c, s, (chooser){&r, begin_list, choose_by_rule}, NAMES_EVICTED);
  begin_rule(&r, s.capacity);
  tally t = play_counted(&by_model, &m, d, s);
  close_model_ends(&m);
  return t;
}

static void begin_without_table(void *state, const encoder *e) {
  (void)state;
  (void)e;
}

static choice choose_without_table(void *state, const encoder *e, const field *f) {
  (void)state;
  (void)e;
  (void)f;
  return (choice){.form = ALONE};
}

/* Returns the bytes of sections without a dynamic table. */
static tally play_without_table(const corpus *c) {
  static const chooser alone = {NULL, begin_without_table, choose_without_table};
  encoder *e = open_model(c, (setting){0, 0, 0}, 0);
  tally t = {0};
  for (size_t i = 0; i < c->nlists; i++) {
    encode_next(e, &alone);
    add_bytes(&t, e->section.len);
  }
  close_model(e);
  return t;
}

/* ---- The table */

/* The cells of a capacity, a limit of blocked streams and a length. */
typedef struct {
  double sum, greatest;
  char worst[80];
  size_t count, above_2, above_8;
} group;

static group groups[CAPACITIES * LIMITS][LENGTHS];

/* Whether the model by the rule takes the place of the library. */
static int is_by_rule;

static void add_cell(group *g, const char *name, setting s, double ratio) {
  g->sum += ratio;
  g->count++;
  g->above_2 += ratio > 1.02;
  g->above_8 += ratio > 1.08;
  if (ratio <= g->greatest) return;
  g->greatest = ratio;
  CHECK(snprintf(g->worst, sizeof g->worst, "%s, %zu late", name, s.late) < (int)sizeof g->worst);
}

/* Prints the cells of a setting. A corpus is not printed at a length that it does not have. */
static void print_cells(const char *name, direction d, const corpus *c, const tally *none, size_t number) {
  setting s = setting_at(number);
  tally ours = is_by_rule ? play_rule(d, c, s) : play_library(&this_library, d, s), theirs = play_library(&nghttp3, d, s);
  for (size_t k = 0; k < LENGTHS; k++) {
    size_t lists = lengths[k] == SIZE_MAX ? d.count : lengths[k];
    size_t least = theirs.first[k] < none->first[k] ? theirs.first[k] : none->first[k];
    double ratio = (double)ours.first[k] / (double)least;
    if (lists > d.count) continue;
    printf("%s\t%zu\t%zu\t%zu\t%zu\t%zu\t%zu\t%zu\t%.3f\n", name, s.capacity, s.blocked, s.late, lists, ours.first[k],
           theirs.first[k], none->first[k], ratio);
    add_cell(&groups[number / DELAYS][k], name, s, ratio);
  }
}

static void print_settings(const char *name, direction d) {
  corpus c = make_corpus(d);
  tally none = play_without_table(&c);
  for (size_t n = 0; n < SETTINGS; n++) print_cells(name, d, &c, &none, n);
  free_corpus(&c);
}

static void print_groups(void) {
  printf("\ncapacity\tblocked\tlists\tcells\tmean\tgreatest\tof\tabove 1.02\tabove 1.08\n");
  for (size_t i = 0; i < CAPACITIES * LIMITS; i++)
    for (size_t k = 0; k < LENGTHS; k++) {
      const group *g = &groups[i][k];
      setting s = setting_at(i * DELAYS);
      if (!g->count) continue;
      printf("%zu\t%zu\t", s.capacity, s.blocked);
      if (lengths[k] == SIZE_MAX) {
        printf("all");
      } else {
        printf("%zu", lengths[k]);
      }
      printf("\t%zu\t%.3f\t%.3f\t%s\t%zu\t%zu\n", g->count, g->sum / (double)g->count, g->greatest, g->worst, g->above_2,
             g->above_8);
    }
}

int main(int argc, char **argv) {
  is_by_rule = argc > 1 && !strcmp(argv[1], "--rule");
  printf("corpus\tcapacity\tblocked\tlate\tlists\tbytes\tnghttp3\tnone\tratio\n");
  visit_corpora(argv + 1 + is_by_rule, (size_t)(argc - 1 - is_by_rule), print_settings);
  print_groups();
  return 0;
}
