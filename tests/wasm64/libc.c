/* What the tests of c/ use of a C library, over dist/heap_wasm64.c and dist/os_wasm64.c. A file is the input of the run,
 * whatever its name. What is printed has the forms that these tests print. */
#include <stdarg.h>
#include <stdint.h>
#include <stdio.h>
#include <stdlib.h>
#include <string.h>
#include <time.h>

#define WORDS 8
#define WORD 256

/* The main of a test, which is compiled with this name in its place. */
#ifdef WITHOUT_WORDS
int test_main(void);
#define RUN(argc, argv) test_main()
#else
int test_main(int argc, char **argv);
#define RUN(argc, argv) test_main(argc, argv)
#endif

int run_main(void) __asm__("__original_main");
ptrdiff_t rattle_arg(size_t index, unsigned char *out, size_t outlen);
ptrdiff_t read(int descriptor, void *bytes, size_t len);
ptrdiff_t write(int descriptor, const void *bytes, size_t len);

/* Where printed bytes go: to a descriptor, or to memory with some room. */
typedef struct {
  int descriptor;
  char *out;
  size_t room, len;
} sink;

int run_main(void) {
  static char words[WORDS][WORD];
  static char *argv[WORDS + 1];
  int argc = 0;
  while (argc < WORDS && rattle_arg((size_t)argc, (unsigned char *)words[argc], WORD - 1) >= 0) {
    argv[argc] = words[argc];
    argc++;
  }
  return RUN(argc, argv);
}

/* A run that fails stops where it is; the loader reports what it said. */
void exit(int status) {
  (void)status;
  __builtin_trap();
}

void *calloc(size_t count, size_t len) {
  void *p = len && count > SIZE_MAX / len ? NULL : malloc(count * len);
  return p ? memset(p, 0, count * len) : NULL;
}

void *memchr(const void *at, int byte, size_t len) {
  for (const unsigned char *p = at; len; len--, p++)
    if (*p == (unsigned char)byte) return (void *)p;
  return NULL;
}

size_t strlen(const char *text) {
  size_t len = 0;
  while (text[len]) len++;
  return len;
}

size_t strcspn(const char *text, const char *others) {
  size_t len = 0;
  while (text[len] && !memchr(others, text[len], strlen(others))) len++;
  return len;
}

int clock_gettime(int clock, struct timespec *now) {
  static long calls;
  (void)clock;
  *now = (struct timespec){0, calls++};
  return 0;
}

FILE *fopen(const char *path, const char *mode) {
  (void)path, (void)mode;
  return (FILE *)3;
}

int fclose(FILE *f) { return f == stderr; }

char *fgets(char *line, int room, FILE *f) {
  int len = 0;
  (void)f;
  while (len < room - 1 && read(0, line + len, 1) == 1)
    if (line[len++] == '\n') break;
  line[len] = 0;
  return len ? line : NULL;
}

static void put(sink *to, const char *text, size_t len) {
  if (!to->out) write(to->descriptor, text, len);
  for (size_t i = 0; to->out && i < len; i++)
    if (to->len + i + 1 < to->room) to->out[to->len + i] = text[i];
  to->len += len;
}

static void put_padded(sink *to, const char *text, size_t len, size_t width, int left, char with) {
  if (left) put(to, text, len);
  for (size_t i = len; i < width; i++) put(to, &with, 1);
  if (!left) put(to, text, len);
}

static void put_number(sink *to, int64_t number, size_t width, char with) {
  char digits[24];
  size_t at = sizeof digits;
  uint64_t left = number < 0 ? -(uint64_t)number : (uint64_t)number;
  do digits[--at] = (char)('0' + left % 10);
  while (left /= 10);
  if (number < 0) digits[--at] = '-';
  put_padded(to, digits + at, sizeof digits - at, width, 0, with);
}

/* Prints texts, and whole numbers, to a width. */
static int print(sink *to, const char *format, va_list values) {
  for (const char *p = format; *p; p++) {
    size_t plain = strcspn(p, "%"), width = 0;
    put(to, p, plain);
    p += plain;
    if (!*p) break;
    int left = *++p == '-', is_long = 0;
    p += left;
    char with = *p == '0' ? '0' : ' ';
    for (; *p >= '0' && *p <= '9'; p++) width = 10 * width + (size_t)(*p - '0');
    for (; *p == 'z' || *p == 'l'; p++) is_long = 1;
    if (*p == 's') {
      const char *text = va_arg(values, const char *);
      put_padded(to, text, strlen(text), width, left, ' ');
    } else if (*p == 'u' || *p == 'd') {
      put_number(to, is_long ? va_arg(values, int64_t) : va_arg(values, int), width, with);
    } else {
      __builtin_trap();
    }
  }
  if (to->out && to->room) to->out[to->len < to->room ? to->len : to->room - 1] = 0;
  return (int)to->len;
}

#define PRINT(to) \
  va_list values; \
  va_start(values, format); \
  int len = print(&(to), format, values); \
  va_end(values); \
  return len

int printf(const char *format, ...) {
  sink to = {1, NULL, 0, 0};
  PRINT(to);
}

int fprintf(FILE *f, const char *format, ...) {
  sink to = {f == stderr ? 2 : 1, NULL, 0, 0};
  PRINT(to);
}

int snprintf(char *out, size_t room, const char *format, ...) {
  sink to = {0, out, room, 0};
  PRINT(to);
}
