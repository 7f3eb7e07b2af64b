/* What the program qpk calls of a system, for its module for WebAssembly: words, an input, and what it writes, all in the
 * module's own memory. The module imports nothing. A page calls qpk_begin, stores the words and the input where that says,
 * calls qpk_run once, and reads what was written. Nothing proves this file; it is part of what you trust. It includes no
 * header. The numbers are those of Linux, which the program was compiled for. */
typedef __SIZE_TYPE__ size_t;
typedef __PTRDIFF_TYPE__ ssize_t;

#define EBADF 9
#define ENOMEM 12
#define ESPIPE 29

/* Bytes in one block of memory, as many as |len|. */
typedef struct text {
  unsigned char *at;
  size_t len, room;
} text;

void *malloc(size_t len);
void *realloc(void *p, size_t len);

int module_main(void) __asm__("__original_main"); /* clang's name for the main of the program */
int rattle_errno(void);
void rattle_set_errno(int error);
ssize_t rattle_arg(size_t index, unsigned char *out, size_t outlen);
ssize_t read(int descriptor, void *bytes, size_t len);
ssize_t write(int descriptor, const void *bytes, size_t len);
long lseek(int descriptor, long offset, int whence);
size_t __sysv_signal(int number, size_t handler);
unsigned char *qpk_begin(size_t wordslen, size_t inputlen);
int qpk_run(void);
const unsigned char *qpk_written(int descriptor);
size_t qpk_writtenlen(int descriptor);

static text words, input;
static text written[2]; /* to the descriptors 1 and 2 */
static int last_error;

/* Returns room for words, each with a zero behind it, and for the input behind them. Returns null without memory. */
unsigned char *qpk_begin(size_t wordslen, size_t inputlen) {
  if (wordslen + inputlen < inputlen) return 0;
  words.at = malloc(wordslen + inputlen);
  if (!words.at) return 0;
  words.len = wordslen;
  input.at = words.at + wordslen;
  input.len = inputlen;
  return words.at;
}

/* Runs the program, and returns its status. Call it once. */
int qpk_run(void) { return module_main(); }

/* Return what the program wrote to a descriptor, 1 or 2, and the length of that. */
const unsigned char *qpk_written(int descriptor) { return written[descriptor == 2].at; }
size_t qpk_writtenlen(int descriptor) { return written[descriptor == 2].len; }

int rattle_errno(void) { return last_error; }

void rattle_set_errno(int error) { last_error = error; }

static ssize_t fail(int error) {
  last_error = error;
  return -1;
}

/* As in os.c: copies a word, and returns its length, -1 if there is none, or -2 if it is longer than |outlen|. */
ssize_t rattle_arg(size_t index, unsigned char *out, size_t outlen) {
  size_t at = 0;
  for (; index && at < words.len; index--)
    while (at < words.len && words.at[at++]) continue;
  if (at == words.len) return -1;
  for (size_t n = 0;; n++) {
    if (at + n == words.len || !words.at[at + n]) return (ssize_t)n;
    if (n == outlen) return -2;
    out[n] = words.at[at + n];
  }
}

/* The input can be read once, as a pipe. */
ssize_t read(int descriptor, void *bytes, size_t len) {
  if (descriptor) return fail(EBADF);
  if (len > input.len) len = input.len;
  __builtin_memcpy(bytes, input.at, len);
  input.at += len;
  input.len -= len;
  return (ssize_t)len;
}

long lseek(int descriptor, long offset, int whence) {
  (void)descriptor, (void)offset, (void)whence;
  return fail(ESPIPE);
}

ssize_t write(int descriptor, const void *bytes, size_t len) {
  if (descriptor != 1 && descriptor != 2) return fail(EBADF);
  text *to = &written[descriptor - 1];
  if (len > to->room - to->len) {
    size_t room = 2 * (to->len + len);
    unsigned char *at = realloc(to->at, room);
    if (!at) return fail(ENOMEM);
    to->at = at;
    to->room = room;
  }
  __builtin_memcpy(to->at + to->len, bytes, len);
  to->len += len;
  return (ssize_t)len;
}

/* No signal comes. */
size_t __sysv_signal(int number, size_t handler) {
  (void)number, (void)handler;
  return 0;
}
