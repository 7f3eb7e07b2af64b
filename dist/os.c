/* What the generated assembly of the program qpk calls beside the C library and heap.c: its arguments, errno, and what the
 * processor has. Nothing proves this file; it is part of what you trust. dist/rename gave the assembly's own main the name
 * qpk_main, so that C's main can pass the arguments on with any C library. */
#include <errno.h>
#include <stddef.h>
#include <stdint.h>
#include <unistd.h>
#if defined __x86_64__
#include <cpuid.h>
#endif

#define HIDDEN __attribute__((visibility("hidden")))

HIDDEN int qpk_main(void);
HIDDEN int rattle_errno(void);
HIDDEN void rattle_set_errno(int error);
HIDDEN intptr_t rattle_arg(size_t index, unsigned char *out, size_t outlen);

static size_t count;
static char **words;

int rattle_errno(void) { return errno; }

void rattle_set_errno(int error) { errno = error; }

/* Copies the argument of an index to |out|, without its zero, and returns its length: -1 if there is no such argument, -2
 * if it is longer than |outlen|, and then its first |outlen| bytes are copied. */
intptr_t rattle_arg(size_t index, unsigned char *out, size_t outlen) {
  if (index >= count || !words[index]) return -1;
  for (size_t n = 0;; n++) {
    if (!words[index][n]) return (intptr_t)n;
    if (n == outlen) return -2;
    out[n] = (unsigned char)words[index][n];
  }
}

#if defined __x86_64__
/* What cpuid says of one leaf: eax, ebx, ecx and edx, and the same as far as the system lets a program use it. */
struct leaf {
  unsigned cpuid[4];
  unsigned usable[4];
};

HIDDEN const struct leaf *qpk_cpuid(unsigned index);
HIDDEN ssize_t qpk_write(int descriptor, const void *bytes, size_t len);

/* glibc's __x86_get_cpuid_feature_leaf for the two leaves that x86-64-v2 is made of: index 0 is leaf 1, and index 2 is leaf
 * 0x80000001. Nothing in them that x86-64-v2 needs depends on the system. */
const struct leaf *qpk_cpuid(unsigned index) {
  static struct leaf found;
  unsigned *is = found.usable;
  if (!__get_cpuid(index == 0 ? 1 : 0x80000001, &is[0], &is[1], &is[2], &is[3])) is[0] = is[1] = is[2] = is[3] = 0;
  return &found;
}

/* Writes the line that refuses a processor without x86-64-v2. */
ssize_t qpk_write(int descriptor, const void *bytes, size_t len) { return write(descriptor, bytes, len); }
#endif

int main(int argc, char **argv) {
  count = argc > 0 ? (size_t)argc : 0;
  words = argv;
  return qpk_main();
}
