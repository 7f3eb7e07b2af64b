/* Refuses one allocation in $REFUSE of the server and of the library, but none of libraries that are shared. The linker
 * has both call these functions: --wrap=malloc,--wrap=calloc,--wrap=realloc. */
#include <stdlib.h>

void *__real_malloc(size_t len);
void *__real_calloc(size_t count, size_t len);
void *__real_realloc(void *p, size_t len);

static int is_refused(void) {
  static unsigned long count;
  const char *every = getenv("REFUSE");
  return every && ++count % strtoul(every, NULL, 10) == 0;
}

void *__wrap_malloc(size_t len) { return is_refused() ? NULL : __real_malloc(len); }
void *__wrap_calloc(size_t count, size_t len) { return is_refused() ? NULL : __real_calloc(count, len); }
void *__wrap_realloc(void *p, size_t len) { return is_refused() ? NULL : __real_realloc(p, len); }
