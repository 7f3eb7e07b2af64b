/* The memory of the modules for WebAssembly, which have no C library: malloc, realloc and free over memory.grow, and what
 * the compiler calls beside them. Nothing proves this file; it is part of what you trust. It includes no header.
 *
 * Blocks lie side by side, each behind a head of 16 bytes, so each is aligned to 16. A free one is in the row of its
 * length. The rows are found by bits that say which are not empty, so every call takes a few steps, whatever is free:
 * realloc alone copies. The last block is an end without bytes. Nothing else may grow the memory. */
typedef __SIZE_TYPE__ size_t;
typedef unsigned __int128 wide;

#define HEAD 16
#define PAGE 65536
#define USED ((size_t)1)
#define STEPS 16  /* rows for the lengths between two powers of two */
#define LEVELS 37 /* the powers of two up to MOST */
#define MOST ((size_t)1 << 43)

/* A block: the one before it, and its length without its head, with the bit USED. A free one has its neighbours in a row. */
typedef struct block {
  struct block *before;
  size_t len;
  struct block *next, *previous;
} block;

extern unsigned char __heap_base; /* the linker's: what is above it is free */

static block *end; /* the last block, once there is one */
static block *rows[LEVELS][STEPS];
static unsigned filled[LEVELS]; /* a bit for each row of a level that is not empty */
static size_t levels;           /* a bit for each level with such a row */

void *malloc(size_t len);
void *realloc(void *p, size_t len);
void free(void *p);
size_t malloc_usable_size(void *p);
void *memcpy(void *to, const void *from, size_t len);
void *memmove(void *to, const void *from, size_t len);
void *memset(void *at, int byte, size_t len);
int memcmp(const void *one, const void *other, size_t len);
wide __multi3(wide one, wide other);
wide __ashlti3(wide value, int bits);
wide __lshrti3(wide value, int bits);

static size_t len_of(const block *b) { return b->len & ~USED; }

/* Returns the length of a block that has room for so many bytes. */
static size_t round_up(size_t len) { return len ? (len + 15) & ~(size_t)15 : 16; }

static block *after(block *b) { return (block *)((unsigned char *)b + HEAD + len_of(b)); }

static int is_free(const block *b) { return b && !(b->len & USED); }

/* Stores the row of a length: the level of its highest bit, and the four bits below it. */
static void find_row(size_t len, unsigned *level, unsigned *step) {
  size_t units = len / 16;
  unsigned high = units < STEPS ? 0 : 60 - (unsigned)__builtin_clzl(units);
  *level = high;
  *step = (unsigned)(high ? (units >> (high - 1)) - STEPS : units);
}

static void put_in_row(block *b) {
  unsigned level, step;
  find_row(b->len, &level, &step);
  b->previous = 0;
  b->next = rows[level][step];
  if (b->next) b->next->previous = b;
  rows[level][step] = b;
  filled[level] |= 1u << step;
  levels |= (size_t)1 << level;
}

static void take_from_row(block *b) {
  unsigned level, step;
  find_row(b->len, &level, &step);
  if (b->next) b->next->previous = b->previous;
  if (b->previous) {
    b->previous->next = b->next;
    return;
  }
  rows[level][step] = b->next;
  if (!b->next && !(filled[level] &= ~(1u << step))) levels &= ~((size_t)1 << level);
}

/* Returns a free block of at least a length: the first of that length's row, or any of a later row. */
static block *find_free(size_t len) {
  unsigned level, step;
  find_row(len, &level, &step);
  if (rows[level][step] && rows[level][step]->len >= len) return rows[level][step];
  unsigned left = filled[level] & ~1u << step;
  if (!left) {
    size_t above = levels & ~(size_t)1 << level;
    if (!above) return 0;
    level = (unsigned)__builtin_ctzl(above);
    left = filled[level];
  }
  return rows[level][__builtin_ctz(left)];
}

/* Makes a free block of a used one, or of memory that is new, and of the free ones beside it. */
static void release(block *b) {
  block *next = after(b);
  b->len &= ~USED;
  if (is_free(next)) {
    take_from_row(next);
    b->len += HEAD + next->len;
  }
  if (is_free(b->before)) {
    take_from_row(b->before);
    b->before->len += HEAD + b->len;
    b = b->before;
  }
  after(b)->before = b;
  put_in_row(b);
}

/* Releases what a used block has beyond a length, if that is enough for a block. */
static void cut(block *b, size_t len) {
  size_t rest = len_of(b) - len;
  if (rest < HEAD + 16) return;
  block *next = after(b);
  b->len = len | USED;
  block *made = after(b);
  made->before = b;
  made->len = (rest - HEAD) | USED;
  next->before = made;
  release(made);
}

/* Adds memory for a block of a length, and an eighth of what there is, if there is as much. Returns whether there is. */
static int grow(size_t len) {
  size_t had = __builtin_wasm_memory_size(0), pages = len / PAGE + 1;
  if (end && (size_t)end + HEAD != had * PAGE) return 0;
  if (__builtin_wasm_memory_grow(0, pages + had / 8) == (size_t)-1 && __builtin_wasm_memory_grow(0, pages) == (size_t)-1)
    return 0;
  block *b = end ? end : (block *)round_up((size_t)&__heap_base);
  if (!end) b->before = 0;
  end = (block *)(__builtin_wasm_memory_size(0) * PAGE - HEAD);
  b->len = ((size_t)end - (size_t)b - HEAD) | USED;
  end->before = b;
  end->len = USED;
  release(b);
  return 1;
}

static void *allocate(size_t len) {
  if (len > MOST) return 0;
  len = round_up(len);
  block *b = find_free(len);
  if (!b && grow(len)) b = find_free(len);
  if (!b) return 0;
  take_from_row(b);
  b->len |= USED;
  cut(b, len);
  return (unsigned char *)b + HEAD;
}

void *malloc(size_t len) { return allocate(len); }

void free(void *p) {
  if (p) release((block *)((unsigned char *)p - HEAD));
}

/* Calls neither malloc nor free, so that a linker that wraps malloc and free sees each call once. */
void *realloc(void *p, size_t len) {
  if (!p) return allocate(len);
  if (len > MOST) return 0;
  block *b = (block *)((unsigned char *)p - HEAD);
  block *next = after(b);
  size_t wanted = round_up(len);
  if (wanted > len_of(b) && is_free(next) && len_of(b) + HEAD + next->len >= wanted) {
    take_from_row(next);
    b->len += HEAD + next->len;
    after(b)->before = b;
  }
  if (wanted <= len_of(b)) {
    cut(b, wanted);
    return p;
  }
  void *moved = allocate(len);
  if (!moved) return 0;
  __builtin_memcpy(moved, p, len_of(b));
  release(b);
  return moved;
}

size_t malloc_usable_size(void *p) { return p ? len_of((block *)((unsigned char *)p - HEAD)) : 0; }

/* Instructions of WebAssembly. */
void *memcpy(void *to, const void *from, size_t len) { return __builtin_memcpy(to, from, len); }

void *memmove(void *to, const void *from, size_t len) { return __builtin_memmove(to, from, len); }

void *memset(void *at, int byte, size_t len) { return __builtin_memset(at, byte, len); }

int memcmp(const void *one, const void *other, size_t len) {
  const unsigned char *left = one, *right = other;
  for (; len; len--, left++, right++)
    if (*left != *right) return *left - *right;
  return 0;
}

/* What WebAssembly has no instructions for, of numbers of 128 bits: the product, modulo 2^128, and shifts of 0 to 127. */
wide __multi3(wide one, wide other) {
  size_t a = (size_t)one, b = (size_t)other, half = 0xffffffff;
  size_t low = (a & half) * (b & half), left = (a >> 32) * (b & half), right = (a & half) * (b >> 32);
  size_t middle = (low >> 32) + (left & half) + (right & half);
  size_t high = (a >> 32) * (b >> 32) + (left >> 32) + (right >> 32) + (middle >> 32);
  high += a * (size_t)(other >> 64) + (size_t)(one >> 64) * b;
  return (wide)high << 64 | middle << 32 | (low & half);
}

wide __ashlti3(wide value, int bits) {
  size_t low = (size_t)value, high = (size_t)(value >> 64);
  if (bits >= 64) return (wide)(low << (bits - 64)) << 64;
  if (bits) high = high << bits | low >> (64 - bits);
  return (wide)high << 64 | low << bits;
}

wide __lshrti3(wide value, int bits) {
  size_t low = (size_t)value, high = (size_t)(value >> 64);
  if (bits >= 64) return high >> (bits - 64);
  if (bits) low = low >> bits | high << (64 - bits);
  return (wide)(high >> bits) << 64 | low;
}
