/* Counts what is asked of malloc, calloc, realloc and free. To be linked with --wrap=malloc, --wrap=calloc, --wrap=realloc
 * and --wrap=free. The program's own blocks come from __real_malloc. */
#ifndef COUNTED_H
#define COUNTED_H

#include <malloc.h>
#include "tests/common.h"

#ifdef _WIN32
#define malloc_usable_size(p) ((p) ? _msize(p) : 0)
#endif

/* The bytes and the number of the blocks that are live, as malloc says, and the most bytes since a case began.
 * |most_moving| has 8 bytes more for each block, and a block that is enlarged twice, as before and as after it. */
static size_t live, blocks, most_live, most_moving;

/* How many blocks were made or enlarged, and their bytes. */
static size_t allocations, allocated;

/* A program whose calls are timed counts nothing meanwhile. */
static int is_counting = 1;

void *__real_malloc(size_t size);
void *__real_calloc(size_t count, size_t size);
void *__real_realloc(void *p, size_t size);
void __real_free(void *p);
void *__wrap_malloc(size_t size);
void *__wrap_calloc(size_t count, size_t size);
void *__wrap_realloc(void *p, size_t size);
void __wrap_free(void *p);

static void *count_block(void *p, size_t before) {
  if (!p) return p;
  blocks++;
  allocations++;
  allocated += malloc_usable_size(p);
  live += malloc_usable_size(p);
  if (live > most_live) most_live = live;
  if (live + before + 8 * blocks > most_moving) most_moving = live + before + 8 * blocks;
  return p;
}

static void *uncount_block(void *p) {
  blocks -= p != NULL;
  live -= malloc_usable_size(p);
  return p;
}

void *__wrap_malloc(size_t size) {
  void *p = __real_malloc(size);
  return is_counting ? count_block(p, 0) : p;
}

void *__wrap_calloc(size_t count, size_t size) {
  void *p = __real_calloc(count, size);
  return is_counting ? count_block(p, 0) : p;
}

void *__wrap_realloc(void *p, size_t size) {
  if (!is_counting) return __real_realloc(p, size);
  size_t before = malloc_usable_size(p);
  void *q = __real_realloc(p, size);
  if (!q) return q;
  live -= before;
  blocks -= p != NULL;
  return count_block(q, before);
}

void __wrap_free(void *p) { __real_free(is_counting ? uncount_block(p) : p); }

/* What the live blocks take, with 8 bytes more for each, for the heap itself. */
static inline size_t held(void) { return live + 8 * blocks; }

#endif
