/* What the fuzz targets share: the function that libFuzzer calls, and a test at which it keeps the input. */
#ifndef TARGET_H
#define TARGET_H

#include <stdint.h>
#include <stdio.h>
#include <stdlib.h>
#include <string.h>

#define CHECK(x) \
  do { \
    if (!(x)) { \
      fprintf(stderr, "%s:%d: not %s\n", __FILE__, __LINE__, #x); \
      abort(); \
    } \
  } while (0)

int LLVMFuzzerTestOneInput(const uint8_t *p, size_t len);

#endif
