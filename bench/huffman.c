/* huffman CORPUS ROUNDS: what the Huffman code costs a decoder, of this library and of nghttp3, in ns a string and a
 * byte. Each name and each value of the corpus that the code makes shorter is the value of a line, and a list is a
 * section. Every section is decoded with its strings in code, and with them as they are. The cost is the difference,
 * between the least of the rounds. */
#include "libraries.h"

static const library *const libraries[] = {&this_library, &nghttp3};

/* A section of lines whose values are strings in code, the same one with the strings as they are, and its fields. */
typedef struct {
  wire *coded, *plain;
  list fields;
} pair;

static pair *pairs;
static size_t nstrings, nbytes;

static wire *new_section(void) {
  wire *w = malloc(sizeof *w);
  CHECK(w);
  w->section[0] = w->section[1] = 0; /* no dynamic table */
  w->section_len = 2;
  return w;
}

static void append(wire *w, const void *bytes, size_t len) {
  CHECK(len <= sizeof w->section - w->section_len);
  memcpy(w->section + w->section_len, bytes, len);
  w->section_len += len;
}

/* Encodes a line with the name x and a value alone, and returns the length of the section. */
static size_t encode_value(uint8_t *section, size_t room, const uint8_t *value, size_t len) {
  const h3_qpack_nv field = {(const uint8_t *)"x", 1, value, len, 0};
  h3_qpack_written all = h3_qpack_encode_stateless(&field, 1, section, room);
  CHECK(all.status == H3_QPACK_OK);
  return all.len;
}

/* Adds a string to both sections, if the code makes it shorter. */
static void add_string(pair *p, const uint8_t *bytes, size_t len) {
  static uint8_t alone[1 << 16];
  uint8_t length[11];
  if (!len) return;
  size_t front = encode_value(alone, sizeof alone, bytes, 0) - 1; /* the prefix and the name, without the length 0 */
  size_t all = encode_value(alone, sizeof alone, bytes, len);
  if (!(alone[front] & 0x80)) return; /* plain */
  append(p->coded, alone + 2, all - 2);
  append(p->plain, alone + 2, front - 2);
  append(p->plain, length, write_int(length, 0, 7, len)); /* without the mark of a string in code */
  append(p->plain, bytes, len);
  add_field(&p->fields, "x", 1, bytes, len, 0);
  nstrings++;
  nbytes += len;
}

static void make_pairs(void) {
  pairs = calloc(nlists, sizeof *pairs);
  CHECK(pairs);
  for (size_t i = 0; i < nlists; i++) {
    pairs[i].coded = new_section();
    pairs[i].plain = new_section();
    for (size_t k = 0; k < lists[i].len; k++) {
      add_string(&pairs[i], lists[i].nv[k].name, lists[i].nv[k].namelen);
      add_string(&pairs[i], lists[i].nv[k].value, lists[i].nv[k].valuelen);
    }
  }
}

/* Returns the ns that a library takes to decode all sections, with the strings in code or as they are. */
static uint64_t decode_all(const library *library, int coded) {
  uint64_t all = 0;
  connection both;
  library->open(&both, 0, 0);
  for (size_t i = 0; i < nlists; i++) {
    const wire *w = coded ? pairs[i].coded : pairs[i].plain;
    uint64_t since = now();
    library->decode(&both, 4 * i, &pairs[i].fields, w);
    all += now() - since;
  }
  close_both(library, &both);
  return all;
}

int main(int argc, char **argv) {
  CHECK(argc == 3);
  read_corpus(argv[1], 0);
  make_pairs();
  uint64_t least[2][2] = {{UINT64_MAX, UINT64_MAX}, {UINT64_MAX, UINT64_MAX}};
  for (int r = 0; r < atoi(argv[2]); r++)
    for (int l = 0; l < 2; l++)
      for (int coded = 0; coded < 2; coded++) {
        uint64_t taken = decode_all(libraries[l], coded);
        if (taken < least[l][coded]) least[l][coded] = taken;
      }
  printf("%zu strings of %zu bytes\n", nstrings, nbytes);
  for (int l = 0; l < 2; l++) {
    double cost = (double)least[l][1] - (double)least[l][0];
    printf("%-8s %6.1f ns a string, %.2f a byte\n", libraries[l]->name, cost / (double)nstrings, cost / (double)nbytes);
  }
  return 0;
}
