/* nghttp3's ends of capacity 0, for bench_h3.rs. */
#include <nghttp3/nghttp3.h>
#include <stdlib.h>
#include <string.h>

typedef struct {
  nghttp3_qpack_encoder *encoder;
  nghttp3_qpack_decoder *decoder;
  nghttp3_buf prefix, lines, instructions;
} ends;

ends *bench_new(void);
size_t bench_encode(ends *ends, const nghttp3_nv *nva, size_t nvlen, uint8_t *section);
size_t bench_decode(ends *ends, const uint8_t *section, size_t len, void *list,
                    void (*take)(void *, const uint8_t *, size_t, const uint8_t *, size_t));

ends *bench_new(void) {
  const nghttp3_mem *mem = nghttp3_mem_default();
  ends *made = calloc(1, sizeof *made);
  if (!made || nghttp3_qpack_encoder_new(&made->encoder, 0, mem) || nghttp3_qpack_decoder_new(&made->decoder, 0, 0, mem))
    abort();
  return made;
}

/* Encodes fields, and copies the section; answers its length. */
size_t bench_encode(ends *ends, const nghttp3_nv *nva, size_t nvlen, uint8_t *section) {
  nghttp3_buf_reset(&ends->prefix);
  nghttp3_buf_reset(&ends->lines);
  nghttp3_buf_reset(&ends->instructions);
  if (nghttp3_qpack_encoder_encode(ends->encoder, &ends->prefix, &ends->lines, &ends->instructions, 0, nva, nvlen)) abort();
  size_t front = nghttp3_buf_len(&ends->prefix), rest = nghttp3_buf_len(&ends->lines);
  memcpy(section, ends->prefix.pos, front);
  memcpy(section + front, ends->lines.pos, rest);
  return front + rest;
}

/* Decodes a section, and hands on each field; answers how many there are. */
size_t bench_decode(ends *ends, const uint8_t *section, size_t len, void *list,
                    void (*take)(void *, const uint8_t *, size_t, const uint8_t *, size_t)) {
  nghttp3_qpack_stream_context *context;
  size_t count = 0;
  if (nghttp3_qpack_stream_context_new(&context, 0, nghttp3_mem_default())) abort();
  for (;;) {
    nghttp3_qpack_nv nv;
    uint8_t flags;
    nghttp3_ssize taken = nghttp3_qpack_decoder_read_request(ends->decoder, context, &nv, &flags, section, len, 1);
    if (taken < 0) abort();
    section += taken;
    len -= (size_t)taken;
    if (flags & NGHTTP3_QPACK_DECODE_FLAG_EMIT) {
      nghttp3_vec name = nghttp3_rcbuf_get_buf(nv.name), value = nghttp3_rcbuf_get_buf(nv.value);
      take(list, name.base, name.len, value.base, value.len);
      nghttp3_rcbuf_decref(nv.name);
      nghttp3_rcbuf_decref(nv.value);
      count++;
    }
    if (flags & NGHTTP3_QPACK_DECODE_FLAG_FINAL) break;
  }
  nghttp3_qpack_stream_context_del(context);
  return count;
}
