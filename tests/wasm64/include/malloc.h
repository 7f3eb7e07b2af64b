#include <stddef.h>
size_t malloc_usable_size(void *p);
