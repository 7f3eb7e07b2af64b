/* Tests dist/heap_wasm64.c: blocks at random that keep their bytes, what is given back and joined, what is refused at the
 * end of memory, and the numbers of 128 bits. */
#include <malloc.h>
#include <stdint.h>
#include "tests/common.h"

#define SLOTS 400
#define ROUNDS 100000
#define GIGABYTE ((size_t)1 << 30)

typedef unsigned __int128 wide;

typedef struct {
  uint8_t *at;
  size_t len;
  uint8_t byte;
} slot;

static slot slots[SLOTS];

static size_t memory(void) { return __builtin_wasm_memory_size(0) << 16; }

/* A length: most are short, some are of a power of two and beside it, few are long. */
static size_t random_len(void) {
  size_t kind = random_below(20);
  if (kind < 14) return random_below(200);
  if (kind < 19) return ((size_t)1 << random_below(14)) + random_below(3) - 1;
  return random_below(200000);
}

static void check_slot(const slot *s) {
  for (size_t i = 0; i < s->len; i++) CHECK(s->at[i] == s->byte);
}

/* Makes, enlarges, shortens or gives back a block. It is aligned, and what it kept is what it had. */
static void change(slot *s) {
  size_t len = random_len(), kept = s->len < len ? s->len : len;
  if (s->at && !random_below(3)) {
    check_slot(s);
    free(s->at);
    *s = (slot){NULL, 0, 0};
    return;
  }
  uint8_t *at = s->at || random_below(2) ? realloc(s->at, len) : malloc(len);
  CHECK(at && !((size_t)at & 15) && malloc_usable_size(at) >= len && malloc_usable_size(at) < len + 48);
  for (size_t i = 0; i < kept; i++) CHECK(at[i] == s->byte);
  *s = (slot){at, len, (uint8_t)random_below(256)};
  memset(at, s->byte, len);
}

static void free_slots(void) {
  for (size_t i = 0; i < SLOTS; i++) {
    check_slot(&slots[i]);
    free(slots[i].at);
    slots[i] = (slot){NULL, 0, 0};
  }
}

/* Once all is given back, it is one block again: one as large needs no more memory. */
static void join_blocks(size_t first) {
  size_t had = memory();
  uint8_t *all = malloc(had - first - 65536);
  CHECK(all && memory() == had);
  free(all);
}

/* What there is no memory for is refused, and the block stays as it is. Then all can be had again. */
static void refuse_lengths(void) {
  uint8_t *block = malloc(100), *half = malloc(GIGABYTE / 2);
  CHECK(block && half);
  memset(block, 7, 100);
  for (size_t len = GIGABYTE; len; len <<= 1) CHECK(!malloc(len) && !realloc(block, len));
  CHECK(!malloc(SIZE_MAX) && !realloc(block, SIZE_MAX) && !malloc(SIZE_MAX - 15));
  for (size_t i = 0; i < 100; i++) CHECK(block[i] == 7);
  size_t blocks = 0;
  void *last = NULL;
  for (void **at; (at = malloc(1 << 20)); last = at, blocks++) *at = last;
  CHECK(blocks > 400 && memory() <= GIGABYTE);
  while (last) {
    void *before = *(void **)last;
    free(last);
    last = before;
  }
  free(half);
  half = malloc(GIGABYTE - (8 << 20));
  CHECK(half);
  free(half);
  free(block);
}

/* The product by 128 additions, and the shifts by single ones. */
static void multiply(wide a, wide b) {
  wide sum = 0, left = a, right = a;
  for (int bit = 0; bit < 128; bit++) {
    CHECK(a << bit == left && a >> bit == right);
    if ((size_t)(bit < 64 ? (uint64_t)b >> bit : (uint64_t)(b >> 64) >> (bit - 64)) & 1) sum += left;
    left += left;
    right = (wide)((uint64_t)(right >> 64) >> 1) << 64 | (uint64_t)(right >> 64) << 63 | (uint64_t)right >> 1;
  }
  volatile wide one = a, other = b;
  CHECK(one * other == sum);
}

static wide random_wide(void) {
  wide value = 0;
  for (int i = 0; i < 8; i++) value = value << 16 | (random_below(4) ? random_below(65536) : random_below(2) * 65535);
  return value;
}

int main(void) {
  size_t first = memory();
  for (size_t i = 0; i < ROUNDS; i++) change(&slots[random_below(SLOTS)]);
  size_t most = memory();
  CHECK(most < 16 << 20);
  free_slots();
  join_blocks(first);
  refuse_lengths();
  for (int i = 0; i < 300; i++) multiply(random_wide(), random_wide());
  printf("heap: %d changes of %d blocks in %zu bytes of memory\n", ROUNDS, SLOTS, most - first);
  return 0;
}
