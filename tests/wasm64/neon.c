/* Compares the functions of dist/neon_wasm64.c with the instructions of aarch64 that they stand for. Every place from 0 to 255
 * is looked up, and then bytes by chance. Prints how often they were compared; the status is 1 if they differ. */
#include <arm_neon.h>
#include <stdint.h>
#include <stdio.h>
#include <string.h>

#define ROUNDS 100000

typedef unsigned char bytes __attribute__((vector_size(16)));

bytes neon_addp(bytes low, bytes high);
bytes neon_tbl1(bytes table, bytes at);

/* Returns bytes by chance, the same in each run. */
static bytes by_chance(void) {
  static uint64_t state = 9204;
  uint64_t parts[2];
  bytes found;
  for (int i = 0; i < 2; i++) {
    state ^= state << 13;
    state ^= state >> 7;
    state ^= state << 17;
    parts[i] = state;
  }
  memcpy(&found, parts, sizeof found);
  return found;
}

static int are_equal(bytes one, uint8x16_t other) { return !memcmp(&one, &other, sizeof one); }

/* Returns whether both functions do as the processor, with a table by chance and these places in it. */
static int are_alike(bytes at) {
  bytes table = by_chance();
  return are_equal(neon_addp(table, at), vpaddq_u8((uint8x16_t)table, (uint8x16_t)at)) &&
         are_equal(neon_tbl1(table, at), vqtbl1q_u8((uint8x16_t)table, (uint8x16_t)at));
}

int main(void) {
  int rounds = 0;
  for (int place = 0; place < 256; place += 16, rounds++) {
    bytes at;
    for (int i = 0; i < 16; i++) at[i] = (unsigned char)(place + i);
    if (!are_alike(at)) return printf("they differ at the places from %d\n", place), 1;
  }
  for (; rounds < ROUNDS; rounds++)
    if (!are_alike(by_chance() & 0x1f)) return printf("they differ in round %d\n", rounds), 1;
  printf("neon: %d rounds are alike\n", rounds);
  return 0;
}
