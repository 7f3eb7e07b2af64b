/* tails LISTS REPLAYS CAPACITY..: the slowest single calls of this library and of nghttp3, at each capacity. A connection
 * sends LISTS lists of ten fields, three of them new, and acknowledges each. It is played REPLAYS times, and of each call
 * the least time is kept, so that what the machine does beside it does not count. Prints of encode and of receive the
 * median, the greatest but for one call in 10,000, and the greatest time, and the most bytes that were allocated in one
 * call, and the most allocations. Columns are parted by TABs. */
#include "libraries.h"
#include "../c/counted.h"

#define FIELDS 10
#define NEW 3
#define KEPT (1 << 16)

enum { ENCODE, RECEIVE, CALLS };
static const char *const calls[] = {"encode", "receive"};

/* What each call of a connection took: the least nanoseconds of all replays; and the most that one call allocated. */
typedef struct {
  float *ns[CALLS];
  size_t allocated[CALLS], allocations[CALLS];
} costs;

/* Fields that were sent, the last KEPT of them. */
static char names[KEPT][24], values[KEPT][40];
static size_t made;

static void make_field(void) {
  static const char *const common[] = {"cookie", "referer", "user-agent", "authorization-x",
                                       "link",   "origin",  "x-a",        "accept-language"};
  size_t at = made % KEPT;
  snprintf(names[at], sizeof names[at], "%s", common[random_below(8)]);
  snprintf(values[at], sizeof values[at], "value-%08zx-%06zu", random_below(0xffffffff), made % 1000000);
  made++;
}

/* Fills a list: some new fields, and others of those that a table of the capacity has. */
static void fill_list(h3_qpack_nv *nv, nghttp3_nv *ng, size_t capacity) {
  size_t recent = capacity / 160 < KEPT - FIELDS ? capacity / 160 : KEPT - FIELDS;
  for (size_t k = 0; k < FIELDS; k++) {
    if (k < NEW || made < 100) make_field();
    size_t back = k < NEW || made < 100 ? 1 : 1 + random_below(made < recent ? made : recent);
    size_t at = (made - back) % KEPT, namelen = strlen(names[at]), valuelen = strlen(values[at]);
    nv[k] = (h3_qpack_nv){(uint8_t *)names[at], namelen, (uint8_t *)values[at], valuelen, 0};
    ng[k] = (nghttp3_nv){(uint8_t *)names[at], (uint8_t *)values[at], namelen, valuelen, NGHTTP3_NV_FLAG_NONE};
  }
}

/* What was asked for, and when, as a call begins. */
typedef struct {
  size_t allocated, allocations;
  uint64_t at;
} mark;

static mark begin(void) { return (mark){allocated, allocations, now()}; }

static void end(costs *c, int call, size_t number, mark m) {
  float ns = (float)(now() - m.at);
  if (ns < c->ns[call][number]) c->ns[call][number] = ns;
  if (allocated - m.allocated > c->allocated[call]) c->allocated[call] = allocated - m.allocated;
  if (allocations - m.allocations > c->allocations[call]) c->allocations[call] = allocations - m.allocations;
}

/* Has malloc merge the small blocks that an earlier connection freed, which else the first call that asks for a large one
 * does. */
static void merge_free_blocks(void) {
  void *large = __real_malloc(100000);
  CHECK(large);
  __real_free(large);
}

static void play(const library *library, size_t capacity, size_t count, costs *c) {
  static wire sent;
  static answer answered;
  h3_qpack_nv nv[FIELDS];
  nghttp3_nv ng[FIELDS];
  list l = {nv, ng, FIELDS, FIELDS};
  merge_free_blocks();
  connection both;
  library->open(&both, capacity, 100);
  made = 0;
  seed = 0x9e3779b97f4a7c15u;
  for (size_t i = 0; i < count; i++) {
    fill_list(nv, ng, capacity);
    mark m = begin();
    library->encode(&both, 4 * i, &l, &sent);
    end(c, ENCODE, i, m);
    library->collect(&sent);
    m = begin();
    library->receive(&both, &sent);
    end(c, RECEIVE, i, m);
    library->decode(&both, 4 * i, &l, &sent);
    library->report(&both, &answered);
    library->hear(&both, &answered);
  }
  close_both(library, &both);
}

static int compare(const void *one, const void *other) {
  float a = *(const float *)one, b = *(const float *)other;
  return a < b ? -1 : a > b;
}

static void print_rows(const library *library, size_t capacity, size_t count, costs *c) {
  for (int call = 0; call < CALLS; call++) {
    qsort(c->ns[call], count, sizeof(float), compare);
    printf("%s\t%zu\t%s\t%.0f\t%.0f\t%.0f\t%zu\t%zu\n", library->name, capacity, calls[call], (double)c->ns[call][count / 2],
           (double)c->ns[call][count - 1 - count / 10000], (double)c->ns[call][count - 1], c->allocated[call],
           c->allocations[call]);
  }
}

static void measure(const library *library, size_t capacity, size_t count, size_t replays) {
  costs c = {{NULL, NULL}, {0, 0}, {0, 0}};
  for (int call = 0; call < CALLS; call++) {
    c.ns[call] = __real_malloc(count * sizeof(float));
    CHECK(c.ns[call]);
    for (size_t i = 0; i < count; i++) c.ns[call][i] = 1e30f;
  }
  while (replays--) play(library, capacity, count, &c);
  print_rows(library, capacity, count, &c);
  for (int call = 0; call < CALLS; call++) __real_free(c.ns[call]);
}

int main(int argc, char **argv) {
  CHECK(argc >= 4);
  size_t count = strtoul(argv[1], NULL, 10), replays = strtoul(argv[2], NULL, 10);
  CHECK(count && replays);
  printf("library\tcapacity\tcall\tmedian ns\t99.99 %% ns\tgreatest ns\tmost bytes\tmost allocations\n");
  for (int i = 3; i < argc; i++) {
    size_t capacity = strtoul(argv[i], NULL, 10);
    measure(&this_library, capacity, count, replays);
    measure(&nghttp3, capacity, count, replays);
  }
  return 0;
}
