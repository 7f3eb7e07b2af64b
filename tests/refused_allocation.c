/* Refuses an allocation of the program that it is loaded into, by LD_PRELOAD: the one of the number that the variable
   REFUSED_ALLOCATION has, from 1. Where ALLOCATIONS names a file, it has their number at the end. */
#include <stdio.h>
#include <stdlib.h>

extern void *__libc_malloc(size_t size);
extern void *__libc_realloc(void *block, size_t size);

static unsigned long made, refused;

__attribute__((constructor)) static void begin(void) {
  const char *number = getenv("REFUSED_ALLOCATION");
  refused = number ? strtoul(number, NULL, 10) : 0;
  made = 0;
}

__attribute__((destructor)) static void end(void) {
  const char *name = getenv("ALLOCATIONS");
  const unsigned long count = made;
  FILE *file = name ? fopen(name, "w") : NULL;
  if (file) {
    fprintf(file, "%lu\n", count);
    fclose(file);
  }
}

void *malloc(size_t size) { return ++made == refused ? NULL : __libc_malloc(size); }

void *realloc(void *block, size_t size) { return ++made == refused ? NULL : __libc_realloc(block, size); }
