/* counts DATA [PHASE]: plays each kind of traffic through the library, and prints how often each phase asks for memory. For
 * counts.py, which runs it beneath callgrind too. Its heap is at the same addresses on every machine. Before each call of a
 * PHASE all caches are filled with other memory, so that each line that the call touches is missed once. DATA is the folder
 * of the corpora. To be linked with --wrap=malloc, --wrap=calloc, --wrap=realloc and --wrap=free. */
#include "../c/tests/common.h"
#include "traffic.h"

#define CONNECTIONS 4
#define TURNS 24
#define BLOCKED 100

/* A line of a cache, and what begins at one wherever a compiler puts it. */
#define LINE 64
#define AT_A_LINE _Alignas(LINE)

/* ---- A heap that gives blocks in steps of sixteen bytes, with eight before each, as those of C libraries do. A block that
 * is freed is the next one of its size. */

#define STEP ((size_t)16)
#define FRONT ((size_t)8)
#define MOST_STEPS ((size_t)1 << 16)

static _Alignas(4096) uint8_t memory[1 << 26];
static size_t used, allocations;
static AT_A_LINE uint8_t *freed[MOST_STEPS];

void *__wrap_malloc(size_t size);
void *__wrap_calloc(size_t count, size_t size);
void *__wrap_realloc(void *p, size_t size);
void __wrap_free(void *p);

static size_t steps_for(size_t size) {
  size_t steps = (FRONT + size + STEP - 1) / STEP;
  CHECK(steps < MOST_STEPS);
  return steps;
}

static size_t steps_of(const uint8_t *block) {
  size_t steps;
  memcpy(&steps, block - FRONT, FRONT);
  return steps;
}

static uint8_t *new_block(size_t steps) {
  uint8_t *block = memory + used + STEP;
  used += steps * STEP;
  CHECK(used + STEP <= sizeof memory);
  memcpy(block - FRONT, &steps, FRONT);
  return block;
}

void *__wrap_malloc(size_t size) {
  size_t steps = steps_for(size);
  uint8_t *block = freed[steps];
  allocations++;
  if (!block) return new_block(steps);
  memcpy(&freed[steps], block, sizeof(uint8_t *));
  return block;
}

void *__wrap_calloc(size_t count, size_t size) { return memset(__wrap_malloc(count * size), 0, count * size); }

void __wrap_free(void *p) {
  if (!p) return;
  size_t steps = steps_of(p);
  memcpy(p, &freed[steps], sizeof(uint8_t *));
  freed[steps] = p;
}

void *__wrap_realloc(void *p, size_t size) {
  if (!p) return __wrap_malloc(size);
  size_t before = steps_of(p), steps = steps_for(size);
  if (steps == before) {
    allocations++;
    return p;
  }
  void *moved = __wrap_malloc(size);
  memcpy(moved, p, (steps < before ? steps : before) * STEP - FRONT);
  __wrap_free(p);
  return moved;
}

/* ---- The phases of a list. Callgrind counts in one of them at a time, by the names of these functions, which therefore
 * stay functions. */

typedef struct {
  h3_qpack_encoder encoder;
  h3_qpack_decoder decoder;
} connection;

static AT_A_LINE uint8_t section[1 << 16], stream[1 << 16], answered[1 << 12], text[1 << 16];
static AT_A_LINE h3_qpack_field fields[1 << 8];
static size_t section_len, stream_len;

#define NAMED __attribute__((noinline))
NAMED void encode_list(connection *c, uint64_t stream_id, const list *l);
NAMED void receive_stream(connection *c, uint64_t stream_id, const list *l);
NAMED void decode_section(connection *c, uint64_t stream_id, const list *l);
NAMED void hear_answer(connection *c, uint64_t stream_id, const list *l);

void encode_list(connection *c, uint64_t stream_id, const list *l) {
  h3_qpack_encoded a = h3_qpack_encoder_encode(&c->encoder, stream_id, l->nv, l->len, section, sizeof section);
  CHECK(a.status == H3_QPACK_OK);
  section_len = a.len;
  stream_len = h3_qpack_encoder_write_encoder(&c->encoder, stream, sizeof stream);
}

void receive_stream(connection *c, uint64_t stream_id, const list *l) {
  (void)stream_id, (void)l;
  if (stream_len) CHECK(h3_qpack_decoder_read_encoder(&c->decoder, stream, stream_len).status == H3_QPACK_OK);
}

void decode_section(connection *c, uint64_t stream_id, const list *l) {
  h3_qpack_decoded got = h3_qpack_decoder_decode(&c->decoder, stream_id, section, section_len);
  CHECK(got.status == H3_QPACK_OK && got.fields == l->len);
  h3_qpack_written all = h3_qpack_decoder_fields(&c->decoder, fields, sizeof fields / sizeof *fields, text, sizeof text);
  CHECK(all.status == H3_QPACK_OK);
}

void hear_answer(connection *c, uint64_t stream_id, const list *l) {
  (void)stream_id, (void)l;
  size_t len = h3_qpack_decoder_write_decoder(&c->decoder, answered, sizeof answered);
  if (len) hear(&c->encoder, answered, len);
}

typedef struct {
  const char *name;
  void (*play)(connection *, uint64_t stream_id, const list *);
} phase;

static const phase phases[] = {
    {"encode", encode_list}, {"receive", receive_stream}, {"decode", decode_section}, {"hear", hear_answer}};

#define PHASES (sizeof phases / sizeof *phases)

/* ---- Caches without what the library touched before */

/* As large as the last cache that counts.py has callgrind simulate. */
#define CACHE ((size_t)1 << 18)

static void fill_caches(void) {
  static _Alignas(4096) uint8_t other[CACHE];
  volatile uint8_t *byte = other;
  for (size_t i = 0; i < CACHE; i += LINE) byte[i]++;
}

/* ---- Settings */

typedef struct {
  const char *traffic;
  size_t capacity;
} setting;

/* Each kind in a table that gets full, and one in a table that does not. */
static const setting settings[] = {
    {"browser", 4096}, {"corpus", 4096}, {"grpc", 4096}, {"responses", 4096}, {"browser", 65536}};

#define SETTINGS (sizeof settings / sizeof *settings)

/* What was played in a setting. |first| is of the first encode of each connection. */
typedef struct {
  size_t lists, fields, asked[PHASES], first;
} played;

/* Between these, counts.py has callgrind count. Each does something else, so that no compiler makes them one function. */
static volatile int is_counted;

NAMED static void begin_setting(void) { is_counted = 1; }

NAMED static void end_setting(void) { is_counted = 0; }

/* Plays a list on a connection, with cold caches before the phase |cold|. The stack of each call begins at a line, as
 * |before| does. */
static void play_list(connection *c, size_t turn, const list *l, const phase *cold, played *sum) {
  for (size_t p = 0; p < PHASES; p++) {
    AT_A_LINE volatile size_t before = allocations;
    if (cold == &phases[p]) fill_caches();
    phases[p].play(c, 4 * turn, l);
    sum->asked[p] += allocations - before;
    if (!p && !turn) sum->first += allocations - before;
  }
  CHECK(text[0] == l->nv[0].name[0]);
  sum->lists++;
  sum->fields += l->len;
}

/* Plays the turns of all connections, one after the other in each. */
static played play(const setting *s, const phase *cold) {
  played sum = {0, 0, {0}, 0};
  connection all[CONNECTIONS];
  for (size_t k = 0; k < CONNECTIONS; k++) {
    CHECK(!new_encoder(&all[k].encoder, s->capacity, BLOCKED));
    CHECK(!new_decoder(&all[k].decoder, s->capacity, BLOCKED, 1 << 20));
  }
  begin_setting();
  for (size_t i = 0; i < TURNS; i++)
    for (size_t k = 0; k < CONNECTIONS; k++) play_list(&all[k], i, list_in_turn(k, i), cold, &sum);
  end_setting();
  for (size_t k = 0; k < CONNECTIONS; k++) {
    h3_qpack_encoder_del(&all[k].encoder);
    h3_qpack_decoder_del(&all[k].decoder);
  }
  return sum;
}

static const phase *find_phase(const char *name) {
  for (size_t p = 0; p < PHASES; p++)
    if (!strcmp(phases[p].name, name)) return &phases[p];
  CHECK(!"a phase");
  return NULL;
}

static const traffic *find_traffic(const char *name) {
  for (size_t k = 0; k < TRAFFICS; k++)
    if (!strcmp(traffics[k].name, name)) return &traffics[k];
  CHECK(!"a kind of traffic");
  return NULL;
}

static void print_row(const setting *s, const played *sum) {
  printf("%s\t%zu\t%zu\t%zu", s->traffic, s->capacity, sum->lists, sum->fields);
  for (size_t p = 0; p < PHASES; p++) printf("\t%zu", sum->asked[p]);
  printf("\t%zu\t%d\n", sum->first, CONNECTIONS);
}

int main(int argc, char **argv) {
  CHECK(argc == 2 || argc == 3);
  const phase *cold = argc == 3 ? find_phase(argv[2]) : NULL;
  printf("traffic\tcapacity\tlists\tfields");
  for (size_t p = 0; p < PHASES; p++) printf("\t%s", phases[p].name);
  printf("\tfirst\tconnections\n");
  for (size_t i = 0; i < SETTINGS; i++) {
    add_traffic(find_traffic(settings[i].traffic), argv[1]);
    played sum = play(&settings[i], cold);
    print_row(&settings[i], &sum);
    free_lists();
  }
  return 0;
}
