/* servers DATA [CONNECTIONS [ROUNDS]]: what connections cost that are served in turn, 10,000 by default, as a server does,
 * where the caches have lost one before its next list comes. DATA is the folder of the corpora. Each connection has both
 * ends, sends 12 lists or 80, each acknowledged at once, and may block 100 streams. Both libraries play the same lists, in
 * turn, in processes of their own. Prints a row for each setting and library, the least of the rounds; its columns are
 * parted by TABs:
 *   encode .. all  ns a field, less what the clock takes, and less the share of the time in which other processes had the
 *                  processor. What is decoded is copied to the caller's memory
 *   resident       bytes that the process grew, a connection
 *   live           bytes of live blocks, as malloc makes them, with 8 more for each, a connection
 *   free           ns of the processor to free a connection
 *   first          allocations of a connection's first encode */
#include <sys/mman.h>
#include <sys/wait.h>
#include <unistd.h>
#include "libraries.h"
#include "../c/counted.h"
#include "clock.h"
#include "traffic.h"

#define BLOCKED 100

/* How many connections show what is live, and what the first encode allocates. */
#define COUNTED 100

static const library *const libraries[] = {&this_library, &nghttp3};
static const size_t capacities[] = {4096, 16384, 65536}, turns[] = {12, 80};

#define COUNT(array) (sizeof(array) / sizeof *(array))

typedef struct {
  const library *library;
  size_t capacity, turns, connections;
} setting;

/* The phases of a list: it is encoded, the encoder stream received, the section decoded, and what the decoder answers
 * heard. */
enum { ENCODE, RECEIVE, DECODE, HEAR, PHASES };

typedef struct {
  double phases[PHASES], resident, live, freed, first;
} costs;

/* Returns how many bytes of memory this process has. */
static size_t resident(void) {
  size_t all, pages;
  FILE *f = fopen("/proc/self/statm", "r");
  CHECK(f && fscanf(f, "%zu %zu", &all, &pages) == 2);
  fclose(f);
  return pages * (size_t)sysconf(_SC_PAGESIZE);
}

/* Returns the ns that this process had a processor. */
static double processor_now(void) {
  struct timespec t;
  CHECK(!clock_gettime(CLOCK_PROCESS_CPUTIME_ID, &t));
  return (double)t.tv_sec * 1e9 + (double)t.tv_nsec;
}

/* Adds the ns since |since|, and returns the time. */
static double end_phase(double *phase, double since) {
  double until = (double)now();
  *phase += until - since;
  return until;
}

static void serve(const library *library, connection *c, uint64_t stream_id, const list *l, double *phases) {
  static wire sent;
  static answer answered;
  double since = (double)now();
  library->encode(c, stream_id, l, &sent);
  end_phase(&phases[ENCODE], since);
  library->collect(&sent);
  since = (double)now();
  if (sent.stream_len) library->receive(c, &sent);
  since = end_phase(&phases[RECEIVE], since);
  size_t count = library->copy(c, stream_id, &sent);
  since = end_phase(&phases[DECODE], since);
  CHECK(count == l->len);
  library->report(c, &answered);
  if (answered.len) library->hear(c, &answered);
  end_phase(&phases[HEAR], since);
}

/* Serves a connection whose costs do not count, so that the buffers of the program and of nghttp3 are there. */
static void serve_before(setting s) {
  double phases[PHASES];
  connection c;
  s.library->open(&c, s.capacity, BLOCKED);
  for (size_t i = 0; i < s.turns; i++) serve(s.library, &c, 4 * i, list_in_turn(0, i), phases);
  close_both(s.library, &c);
}

/* Makes memory for the connections, all of which is resident. */
static connection *make_connections(size_t count) {
  connection *all = __real_malloc(count * sizeof *all);
  CHECK(all);
  memset(all, 0xff, count * sizeof *all);
  return all;
}

/* Returns how many allocations the first encode of a connection makes. */
static size_t count_first(setting s, const list *l) {
  static wire sent;
  connection c;
  s.library->open(&c, s.capacity, BLOCKED);
  size_t before = allocations;
  s.library->encode(&c, 0, l, &sent);
  size_t first = allocations - before;
  close_both(s.library, &c);
  return first;
}

/* Measures what is live after all turns, and what the first encode allocates. */
static void count(setting s, costs *c) {
  double phases[PHASES], connections = (double)s.connections;
  connection *all = make_connections(s.connections);
  serve_before(s);
  size_t before = held();
  for (size_t k = 0; k < s.connections; k++) {
    c->first += (double)count_first(s, list_in_turn(k, 0)) / connections;
    s.library->open(&all[k], s.capacity, BLOCKED);
    for (size_t i = 0; i < s.turns; i++) serve(s.library, &all[k], 4 * i, list_in_turn(k, i), phases);
  }
  c->live = (double)(held() - before) / connections;
}

/* Serves all turns of all connections. Returns how many fields they had. */
static double serve_turns(setting s, connection *all, double *phases) {
  double count = 0;
  for (size_t i = 0; i < s.turns; i++)
    for (size_t k = 0; k < s.connections; k++) {
      const list *l = list_in_turn(k, i);
      serve(s.library, &all[k], 4 * i, l, phases);
      count += (double)l->len;
    }
  return count;
}

/* Measures the times, and what is resident after all turns. */
static void take_times(setting s, costs *c) {
  double connections = (double)s.connections;
  connection *all = make_connections(s.connections);
  is_counting = 0;
  serve_before(s);
  size_t before = resident();
  for (size_t k = 0; k < s.connections; k++) s.library->open(&all[k], s.capacity, BLOCKED);
  double since = (double)now(), processor_since = processor_now();
  double count = serve_turns(s, all, c->phases);
  double share = (processor_now() - processor_since) / ((double)now() - since);
  double looks = connections * (double)s.turns * clock_cost;
  for (int p = 0; p < PHASES; p++) c->phases[p] = (c->phases[p] * share - looks) / count;
  c->resident = (double)(resident() - before) / connections;
  processor_since = processor_now();
  for (size_t k = 0; k < s.connections; k++) close_both(s.library, &all[k]);
  c->freed = (processor_now() - processor_since) / connections;
}

/* Runs a measurement in a process of its own, whose heap begins as this one's, and returns what it found. */
static costs run_apart(void (*measure)(setting, costs *), setting s) {
  costs *found = mmap(NULL, sizeof *found, PROT_READ | PROT_WRITE, MAP_SHARED | MAP_ANONYMOUS, -1, 0);
  CHECK(found != MAP_FAILED);
  pid_t child = fork();
  CHECK(child >= 0);
  if (!child) {
    measure(s, found);
    _exit(0);
  }
  int status;
  CHECK(waitpid(child, &status, 0) == child && status == 0);
  costs c = *found;
  munmap(found, sizeof *found);
  return c;
}

static void keep_less(double *least, double found) {
  if (found < *least) *least = found;
}

static void keep_least(costs *least, costs c) {
  for (int p = 0; p < PHASES; p++) keep_less(&least->phases[p], c.phases[p]);
  keep_less(&least->resident, c.resident);
  keep_less(&least->freed, c.freed);
}

static void print_row(const char *name, setting s, const costs *c) {
  double all = 0;
  printf("%s\t%zu\t%zu\t%s", name, s.capacity, s.turns, s.library->name);
  for (int p = 0; p < PHASES; p++) {
    printf("\t%.0f", c->phases[p]);
    all += c->phases[p];
  }
  printf("\t%.0f\t%.0f\t%.0f\t%.0f\t%.1f\n", all, c->resident, c->live, c->freed, c->first);
  fflush(stdout);
}

/* Both libraries in one setting, in turn in each round. */
static void compare(const char *name, setting s, size_t rounds) {
  costs least[2];
  for (size_t r = 0; r < rounds; r++)
    for (size_t l = 0; l < COUNT(libraries); l++) {
      s.library = libraries[l];
      costs c = run_apart(take_times, s);
      if (!r) least[l] = c;
      keep_least(&least[l], c);
    }
  for (size_t l = 0; l < COUNT(libraries); l++) {
    setting few = s;
    s.library = few.library = libraries[l];
    if (few.connections > COUNTED) few.connections = COUNTED;
    costs counted = run_apart(count, few);
    least[l].live = counted.live;
    least[l].first = counted.first;
    print_row(name, s, &least[l]);
  }
}

int main(int argc, char **argv) {
  CHECK(argc >= 2 && argc <= 4);
  size_t connections = argc > 2 ? strtoull(argv[2], NULL, 10) : 10000;
  size_t rounds = argc > 3 ? strtoull(argv[3], NULL, 10) : 1;
  CHECK(connections && rounds);
  measure_clock();
  printf("traffic\tcapacity\tlists\tlibrary\tencode\treceive\tdecode\thear\tall\tresident\tlive\tfree\tfirst\n");
  fflush(stdout);
  for (size_t k = 0; k < TRAFFICS; k++) {
    add_traffic(&traffics[k], argv[1]);
    for (size_t c = 0; c < COUNT(capacities); c++)
      for (size_t t = 0; t < COUNT(turns); t++) {
        setting s = {NULL, capacities[c], turns[t], connections};
        compare(traffics[k].name, s, rounds);
      }
    free_lists();
  }
  return 0;
}
