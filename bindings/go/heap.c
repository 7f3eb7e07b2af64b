/* The functions that the generated assembly calls for memory, over those of the C library. Nothing proves that they keep
 * to their contracts in Rattle's crate libc, src/heap.rt: they are part of what you trust. It includes no header, so that
 * dist/generate can compile it for each processor, without the C library of any. */
typedef __SIZE_TYPE__ size_t;

void *malloc(size_t len);
void *realloc(void *p, size_t len);
void free(void *p);

/* The assembly calls these functions by the convention of System V on every system. */
#ifdef _WIN64
#define CALLED __attribute__((sysv_abi))
#else
#define CALLED __attribute__((visibility("hidden")))
#endif

/* What a request for memory came to: the block, or if there is none, a byte of nobody's. */
typedef struct rattle_tried {
  _Bool ok;
  unsigned char *p;
} rattle_tried;

CALLED rattle_tried rattle_alloc(size_t len, size_t align);
CALLED rattle_tried rattle_realloc(unsigned char *p, size_t kept, size_t len, size_t align);
CALLED void rattle_dealloc(unsigned char *p);

static rattle_tried tried(unsigned char *p) {
  static unsigned char nothing;
  return p ? (rattle_tried){1, p} : (rattle_tried){0, &nothing};
}

/* Allocates len bytes, below 2^63, or align bytes if len is 0. The alignment divides 16, so malloc's will do. */
CALLED rattle_tried rattle_alloc(size_t len, size_t align) { return tried(malloc(len ? len : align)); }

/* Makes the block at p one of len bytes. It may move, and keeps its first kept bytes. Without memory it stays as it is. */
CALLED rattle_tried rattle_realloc(unsigned char *p, size_t kept, size_t len, size_t align) {
  (void)kept; /* realloc knows the old length */
  return tried(realloc(p, len ? len : align));
}

CALLED void rattle_dealloc(unsigned char *p) { free(p); }

#ifdef _WIN64
/* The C library's own are called by another convention there. */
CALLED void *rattle_memcpy(void *to, const void *from, size_t len);
CALLED void *rattle_memmove(void *to, const void *from, size_t len);
CALLED void *rattle_memset(void *at, int byte, size_t len);
CALLED int rattle_memcmp(const void *one, const void *other, size_t len);

CALLED void *rattle_memcpy(void *to, const void *from, size_t len) { return __builtin_memcpy(to, from, len); }

CALLED void *rattle_memmove(void *to, const void *from, size_t len) { return __builtin_memmove(to, from, len); }

CALLED void *rattle_memset(void *at, int byte, size_t len) { return __builtin_memset(at, byte, len); }

CALLED int rattle_memcmp(const void *one, const void *other, size_t len) { return __builtin_memcmp(one, other, len); }
#endif
