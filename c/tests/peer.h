/* What the tests beside nghttp3 share, over common.h: the fields of lists as it takes them, its memory, and how it reads a
 * section. Include it before all that includes common.h. */
#ifndef PEER_H
#define PEER_H

#ifdef COMMON_H
#error "include peer.h first: common.h has lists without the fields of nghttp3"
#endif

#include <nghttp3/nghttp3.h>
#include "h3_qpack.h"

/* A field as nghttp3 takes it. */
typedef nghttp3_nv their_nv;

static inline their_nv to_theirs(const h3_qpack_nv *nv) {
  their_nv ng = {(uint8_t *)nv->name, (uint8_t *)nv->value, nv->namelen, nv->valuelen,
                 (uint8_t)(nv->flags ? NGHTTP3_NV_FLAG_NEVER_INDEX : NGHTTP3_NV_FLAG_NONE)};
  return ng;
}

#include "common.h"

/* nghttp3 asks this program for memory, where a linker can count it. */
static inline void *their_malloc(size_t size, void *data) {
  (void)data;
  return malloc(size);
}

static inline void their_free(void *p, void *data) {
  (void)data;
  free(p);
}

static inline void *their_calloc(size_t count, size_t size, void *data) {
  (void)data;
  return calloc(count, size);
}

static inline void *their_realloc(void *p, size_t size, void *data) {
  (void)data;
  return realloc(p, size);
}

static const nghttp3_mem their_memory = {NULL, their_malloc, their_free, their_calloc, their_realloc};

/* Reads a section with nghttp3, and compares its fields with a list. Returns 0 where the section waits. */
static inline int read_theirs(nghttp3_qpack_decoder *d, int64_t stream_id, const list *l, const uint8_t *p, size_t len) {
  nghttp3_qpack_stream_context *context;
  CHECK(!nghttp3_qpack_stream_context_new(&context, stream_id, &their_memory));
  size_t k = 0;
  for (;;) {
    nghttp3_qpack_nv nv;
    uint8_t flags;
    nghttp3_ssize taken = nghttp3_qpack_decoder_read_request(d, context, &nv, &flags, p, len, 1);
    CHECK(taken >= 0);
    p += taken;
    len -= (size_t)taken;
    if (flags & NGHTTP3_QPACK_DECODE_FLAG_BLOCKED) {
      nghttp3_qpack_stream_context_del(context);
      return 0;
    }
    if (flags & NGHTTP3_QPACK_DECODE_FLAG_EMIT) {
      const h3_qpack_nv *ours = &l->nv[k++];
      nghttp3_vec name = nghttp3_rcbuf_get_buf(nv.name), value = nghttp3_rcbuf_get_buf(nv.value);
      CHECK(k <= l->len && name.len == ours->namelen && !memcmp(name.base, ours->name, name.len));
      CHECK(value.len == ours->valuelen && !memcmp(value.base, ours->value, value.len));
      CHECK(!(nv.flags & NGHTTP3_NV_FLAG_NEVER_INDEX) == !ours->flags);
      nghttp3_rcbuf_decref(nv.name);
      nghttp3_rcbuf_decref(nv.value);
    }
    if (flags & NGHTTP3_QPACK_DECODE_FLAG_FINAL) break;
  }
  CHECK(k == l->len);
  nghttp3_qpack_stream_context_del(context);
  return 1;
}

#endif
