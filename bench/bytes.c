/* bytes CORPUS..: the bytes of sections and of the encoder stream that this library and nghttp3 write of each corpus, at
 * two capacities, where 100 streams may be blocked and where none may, with a decoder that answers at once, and 8 and 32
 * sections late. Requests and responses of a corpus have an encoder each. Each field that is decoded is compared with the
 * corpus. Prints a line for each setting, and first one without a table; its columns are parted by TABs. */
#include "libraries.h"
#include "play.h"

typedef struct {
  const library *library;
  connection both;
} ends;

static size_t exchange_by(void *e, uint64_t stream_id, const list *l, answer *answer) {
  static wire wire;
  ends *these = e;
  exchange(these->library, &these->both, stream_id, l, &wire, answer);
  return wire.section_len + wire.stream_len;
}

static void hear_by(void *e, const answer *answer) {
  ends *these = e;
  these->library->hear(&these->both, answer);
}

/* Returns the bytes of all requests, or of all responses, on one connection. */
static size_t play_one_way(const library *library, setting s, int responses) {
  static const player by_library = {exchange_by, hear_by};
  ends e = {.library = library};
  direction d = lists_of(responses);
  library->open(&e.both, s.capacity, s.blocked);
  size_t bytes = play_lists(&by_library, &e, d, s.late);
  close_both(library, &e.both);
  free(d.all);
  return bytes;
}

static size_t play(const library *library, setting s) { return play_one_way(library, s, 0) + play_one_way(library, s, 1); }

static void print_row(const char *corpus, setting s) {
  size_t ours = play(&this_library, s), theirs = play(&nghttp3, s);
  printf("%s\t%zu\t%zu\t%zu\t%zu\t%zu\t%.3f\n", corpus, s.capacity, s.blocked, s.late, ours, theirs,
         (double)ours / (double)theirs);
}

static void print_corpus(const char *path) {
  static const size_t capacities[] = {4096, 65536}, limits[] = {100, 0}, delays[] = {0, 8, MOST_LATE};
  const char *slash = strrchr(path, '/'), *name = slash ? slash + 1 : path;
  read_corpus(path, 0);
  print_row(name, (setting){0, 0, 0});
  for (size_t c = 0; c < 2; c++)
    for (size_t d = 0; d < 3; d++)
      for (size_t l = 0; l < 2; l++) print_row(name, (setting){capacities[c], limits[l], delays[d]});
  free_lists();
}

int main(int argc, char **argv) {
  CHECK(argc >= 2);
  printf("corpus\tcapacity\tblocked\tlate\tbytes\tnghttp3\tratio\n");
  for (int i = 1; i < argc; i++) print_corpus(argv[i]);
  return 0;
}
