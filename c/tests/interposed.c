/* Has a shared library take its memory from the test `memory`, as --wrap has a static one: the names malloc and realloc
 * are the program's own here, over glibc's. */
#include <stddef.h>

void *__libc_malloc(size_t size);
void *__libc_realloc(void *p, size_t size);
void *__wrap_malloc(size_t size);
void *__wrap_realloc(void *p, size_t size);
void *__real_malloc(size_t size);
void *__real_realloc(void *p, size_t size);

void *malloc(size_t size) { return __wrap_malloc(size); }

void *realloc(void *p, size_t size) { return __wrap_realloc(p, size); }

void *__real_malloc(size_t size) { return __libc_malloc(size); }

void *__real_realloc(void *p, size_t size) { return __libc_realloc(p, size); }
