#ifndef STRING_H
#define STRING_H
#include <stddef.h>
void *memcpy(void *to, const void *from, size_t len);
void *memmove(void *to, const void *from, size_t len);
void *memset(void *at, int byte, size_t len);
int memcmp(const void *one, const void *other, size_t len);
void *memchr(const void *at, int byte, size_t len);
size_t strlen(const char *text);
size_t strcspn(const char *text, const char *others);
#endif
