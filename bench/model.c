/* model CORPUS..: foretells each byte that this library's encoder writes, of sections and of the encoder stream, by the
 * rule of rule.h, and compares. The corpora are those of bound.c, and lists at random whose fields have marks, each in
 * all settings of play.h, and in some where few streams may be blocked. Prints a line for each corpus: how many lists were
 * equal in all settings. Where a list differs, it ends with status 1, and prints what both wrote of it, and what the model
 * chose for each field. */
#include "../c/tests/common.h"
#include "play.h"
#include "encoder.h"
#include "model_ends.h"
#include "rule.h"

/* ---- Both, and a decoder that answers them */

typedef struct {
  rule rule;
  /* What was chosen for the fields of the list, in their order, without those that a static field equals. */
  choice chosen[1 << 10];
  size_t count;
} noted;

static void begin_noted(void *state, const encoder *e) {
  noted *n = state;
  n->count = 0;
  begin_list(&n->rule, e);
}

static choice choose_noted(void *state, const encoder *e, const field *f) {
  noted *n = state;
  CHECK(n->count < sizeof n->chosen / sizeof *n->chosen);
  return n->chosen[n->count++] = choose_by_rule(&n->rule, e, f);
}

typedef struct {
  const char *name;
  setting setting;
  h3_qpack_encoder encoder;
  model_ends foretells;
} ends;

static void print_bytes(const char *whose, const uint8_t *at, size_t len) {
  printf("  %s:", whose);
  for (size_t i = 0; i < len; i++) printf(" %02x", at[i]);
  printf("\n");
}

/* Prints what the model chose for each field of the list that it encoded last. */
static void print_choices(const encoder *e, const noted *n) {
  static const char *const forms[] = {"alone", "equal to", "named", "inserted"};
  size_t list = e->nsections - 1, chosen = 0;
  printf("  may %sbe blocked; base %zu, evicted %zu, known to be received %zu, used %zu, draining %zu\n",
         e->may_block ? "" : "not ", e->base, e->dropped, e->known, e->used, n->rule.draining);
  for (size_t i = e->from->begins[list]; i < e->from->begins[list + 1]; i++) {
    const field *f = &e->from->fields[i];
    printf("  %.*s: %.*s: ", (int)f->nv->namelen, (const char *)f->nv->name, (int)f->nv->valuelen, (const char *)f->nv->value);
    if (f->static_field >= 0 && !is_never_indexed(f)) {
      printf("static\n");
      continue;
    }
    const choice *c = &n->chosen[chosen++];
    printf("%s", forms[c->form]);
    if (c->form == EQUAL) printf(" %zu", c->entry);
    printf("%s\n", c->inserts ? ", inserted after it" : "");
  }
}

/* Ends the program if the bytes differ. */
static void compare(const ends *n, const char *what, const uint8_t *ours, size_t len, const output *foretold) {
  if (len == foretold->len && !memcmp(ours, foretold->at, len)) return;
  printf("%s, capacity %zu, %zu blocked, %zu late: the %s of list %zu differs\n", n->name, n->setting.capacity,
         n->setting.blocked, n->setting.late, what, n->foretells.model->nsections - 1);
  print_bytes("library", ours, len);
  print_bytes("foretold", foretold->at, foretold->len);
  print_choices(n->foretells.model, n->foretells.by.state);
  exit(1);
}

static size_t exchange_both(void *e, uint64_t stream_id, const list *l, answer *answer) {
  static uint8_t section[1 << 16], stream[1 << 16];
  ends *n = e;
  encoder *model = n->foretells.model;
  h3_qpack_encoded a = h3_qpack_encoder_encode(&n->encoder, stream_id, l->nv, l->len, section, sizeof section);
  CHECK(a.status == H3_QPACK_OK);
  size_t len = h3_qpack_encoder_write_encoder(&n->encoder, stream, sizeof stream);
  encode_next(model, &n->foretells.by);
  compare(n, "encoder stream", stream, len, &model->stream);
  compare(n, "section", section, a.len, &model->section);
  decode_model(&n->foretells, stream_id, l, answer);
  return a.len + len;
}

static void hear_both(void *e, const answer *answer) {
  ends *n = e;
  hear(&n->encoder, answer->bytes, answer->len);
  hear_by_model(&n->foretells, answer);
}

static void foretell(const char *name, direction d, const corpus *c, setting s) {
  static const player by_both = {exchange_both, hear_both};
  static noted noted;
  ends n = {.name = name, .setting = s};
  n.foretells = open_model_ends(c, s, (chooser){&noted, begin_noted, choose_noted}, NAMES_EVICTED);
  begin_rule(&noted.rule, s.capacity);
  CHECK(!new_encoder(&n.encoder, s.capacity, s.blocked));
  play_lists(&by_both, &n, d, s.late);
  h3_qpack_encoder_del(&n.encoder);
  close_model_ends(&n.foretells);
}

/* Settings where the limit of blocked streams is reached, and left again. */
static const setting limited[] = {{333, 2, 8}, {1024, 4, 8}, {4096, 4, 8}, {4096, 20, MOST_LATE}, {65536, 4, 8}};

#define LIMITED (sizeof limited / sizeof *limited)

static void foretell_all(const char *name, direction d) {
  corpus c = make_corpus(d);
  for (size_t i = 0; i < SETTINGS; i++) foretell(name, d, &c, setting_at(i));
  for (size_t i = 0; i < LIMITED; i++) foretell(name, d, &c, limited[i]);
  printf("%s: %zu lists equal in %zu settings\n", name, d.count, SETTINGS + LIMITED);
  free_corpus(&c);
}

/* Makes lists at random, and gives some of their fields marks. */
static void add_marked_lists(void) {
  seed = 0x9e3779b97f4a7c15u;
  add_random_lists(300);
  for (size_t i = 0; i < nlists; i++)
    for (size_t k = 0; k < lists[i].len; k++) {
      if (!random_below(10)) lists[i].nv[k].flags |= H3_QPACK_NV_FLAG_INSERT;
      if (!random_below(10)) lists[i].nv[k].flags |= H3_QPACK_NV_FLAG_REUSE;
    }
}

int main(int argc, char **argv) {
  visit_corpora(argv + 1, (size_t)argc - 1, foretell_all);
  add_marked_lists();
  visit_direction("random", 0, foretell_all);
  free_lists();
  return 0;
}
