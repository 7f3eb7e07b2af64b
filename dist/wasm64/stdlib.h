#ifndef STDLIB_H
#define STDLIB_H
#include <stddef.h>
void *malloc(size_t len);
void *calloc(size_t count, size_t len);
void *realloc(void *p, size_t len);
void free(void *p);
_Noreturn void exit(int status);
#endif
