/* held CORPUS..: the memory that a connection holds, and how often it asks for memory, of this library and of nghttp3, as
 * medians of seven runs that begin at other lists. Each list is acknowledged at once, and 100 streams may be blocked. Bytes
 * are of blocks as malloc makes them, with 8 more for each; buffers that the program hands to nghttp3 are left out. Its
 * columns are parted by TABs:
 *   idle        both ends after 12 lists of the corpus, at 4,096 bytes
 *   encode ..   allocations a list of the encoder as it encodes, and of the decoder as it receives and decodes, over the
 *               whole corpus
 *   full table  an encoder and a decoder whose table of 65,536 bytes is full of entries of 61 bytes with five names */
#include "libraries.h"
#include "../c/counted.h"

#define CAPACITY 4096
#define FULL 65536
#define BLOCKED 100
#define RUNS 7
#define ENTRY 61

static const library *const libraries[] = {&this_library, &nghttp3};

static int compare(const void *one, const void *other) {
  size_t a = *(const size_t *)one, b = *(const size_t *)other;
  return a < b ? -1 : a > b;
}

/* Returns the median of RUNS runs, each of which begins at another list. */
static size_t median(size_t (*run)(const library *, size_t first), const library *library) {
  size_t found[RUNS];
  for (size_t i = 0; i < RUNS; i++) found[i] = run(library, i);
  qsort(found, RUNS, sizeof *found, compare);
  return found[RUNS / 2];
}

/* Prints a row: what was measured, of both libraries, and the ratio. */
static void print_row(const char *corpus, const char *what, double ours, double theirs) {
  printf("%s\t%s\t%.1f\t%.1f\t%.2f\n", corpus, what, ours, theirs, ours / theirs);
}

static wire sent;
static answer answered;

static void exchange_heard(const library *library, connection *both, uint64_t stream_id, const list *l) {
  exchange(library, both, stream_id, l, &sent, &answered);
  library->hear(both, &answered);
}

/* What both ends hold after 12 lists. */
static size_t hold_idle(const library *library, size_t first) {
  size_t before = held();
  connection both;
  library->open(&both, CAPACITY, BLOCKED);
  for (size_t i = 0; i < 12; i++) exchange_heard(library, &both, 4 * i, &lists[(first + i) % nlists]);
  size_t found = held() - before;
  close_both(library, &both);
  CHECK(held() == before);
  return found;
}

typedef struct {
  size_t encode, receive, decode;
} asked;

/* How often each phase of a connection with all lists asks for memory. */
static asked ask(const library *library) {
  asked a = {0, 0, 0};
  connection both;
  library->open(&both, CAPACITY, BLOCKED);
  for (size_t i = 0; i < nlists; i++) {
    size_t before = allocations;
    library->encode(&both, 4 * i, &lists[i], &sent);
    library->collect(&sent);
    a.encode += allocations - before;
    before = allocations;
    library->receive(&both, &sent);
    a.receive += allocations - before;
    before = allocations;
    library->decode(&both, 4 * i, &lists[i], &sent);
    a.decode += allocations - before;
    library->report(&both, &answered);
    library->hear(&both, &answered);
  }
  close_both(library, &both);
  return a;
}

static void print_corpus(const char *path) {
  const char *slash = strrchr(path, '/'), *name = slash ? slash + 1 : path;
  read_corpus(path, 0);
  CHECK(nlists);
  (void)ask(&nghttp3); /* the shared buffers grow */
  print_row(name, "idle, bytes", (double)median(hold_idle, &this_library), (double)median(hold_idle, &nghttp3));
  asked ours = ask(&this_library), theirs = ask(&nghttp3);
  double count = (double)nlists;
  print_row(name, "encode, allocations a list", (double)ours.encode / count, (double)theirs.encode / count);
  print_row(name, "receive, allocations a list", (double)ours.receive / count, (double)theirs.receive / count);
  print_row(name, "decode, allocations a list", (double)ours.decode / count, (double)theirs.decode / count);
  free_lists();
}

/* A list of ten fields that were never sent before, of five names, whose entries have ENTRY bytes on the average. */
static void add_new_fields(list *l, size_t *made) {
  static const char *const names[] = {"user-agent", "referer", "cookie", "origin", "link"};
  for (size_t k = 0; k < 10; k++, ++*made) {
    char value[32];
    int len = snprintf(value, sizeof value, "value-%08x-abcdef", (unsigned)*made * 2654435761u);
    const char *name = names[*made % 5];
    add_field(l, name, strlen(name), value, (size_t)len, 0);
  }
}

/* What an encoder and a decoder hold once their table is full. */
static void fill(const library *library, size_t *encoder, size_t *decoder) {
  size_t made = 0;
  nlists = 0;
  for (size_t i = 0; i < FULL / ENTRY / 10 + 20; i++) add_new_fields(add_list(), &made);
  size_t before = held();
  connection both;
  library->open(&both, FULL, BLOCKED);
  for (size_t turn = 0; turn < 3; turn++) /* an encoder may insert a field when it comes again */
    for (size_t i = 0; i < nlists; i++) exchange_heard(library, &both, 4 * (turn * nlists + i), &lists[i]);
  size_t all = held() - before;
  library->close_decoder(&both);
  *encoder = held() - before;
  *decoder = all - *encoder;
  library->close_encoder(&both);
  free_lists();
}

int main(int argc, char **argv) {
  CHECK(argc >= 2);
  printf("corpus\tmeasured\th3_qpack\tnghttp3\tratio\n");
  for (int i = 1; i < argc; i++) print_corpus(argv[i]);
  size_t encoders[2], decoders[2];
  for (size_t i = 0; i < 2; i++) fill(libraries[i], &encoders[i], &decoders[i]);
  print_row("made up", "full table, encoder, bytes", (double)encoders[0], (double)encoders[1]);
  print_row("made up", "full table, decoder, bytes", (double)decoders[0], (double)decoders[1]);
  return 0;
}
