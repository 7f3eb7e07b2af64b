/* nghttp3's own books of what is not acknowledged, beside h3_qpack's. Some of nghttp3's tests look into them. Without
 * H3_QPACK_BOOKS, as in the library that is built for use, nothing is kept. */
#ifndef H3_QPACK_BOOKS_H
#define H3_QPACK_BOOKS_H

#include "nghttp3_qpack.h"

#ifdef H3_QPACK_BOOKS

#include <assert.h>

#include "nghttp3_debug.h"
#include "nghttp3_unreachable.h"

/* nghttp3's calls are those of the books by these names. */
#define nghttp3_qpack_encoder_read_decoder book_feedback
#define nghttp3_qpack_encoder_ack_header book_acknowledgment
#define nghttp3_qpack_encoder_add_icnt book_increment
#define nghttp3_qpack_encoder_cancel_stream book_cancellation
nghttp3_ssize book_feedback(nghttp3_qpack_encoder *encoder, const uint8_t *src, size_t srclen);
int book_acknowledgment(nghttp3_qpack_encoder *encoder, int64_t stream_id);
int book_increment(nghttp3_qpack_encoder *encoder, uint64_t n);
void book_cancellation(nghttp3_qpack_encoder *encoder, int64_t stream_id);
#include "books_of_nghttp3.inc"
#undef nghttp3_qpack_encoder_read_decoder
#undef nghttp3_qpack_encoder_ack_header
#undef nghttp3_qpack_encoder_add_icnt
#undef nghttp3_qpack_encoder_cancel_stream

static void open_books(nghttp3_qpack_encoder *encoder) {
  const nghttp3_mem *mem = encoder->ctx.mem;
  nghttp3_map_init(&encoder->streams, mem);
  nghttp3_ksl_init(&encoder->blocked_streams, max_cnt_greater, sizeof(nghttp3_blocked_streams_key), mem);
  nghttp3_pq_init(&encoder->min_cnts, ref_min_cnt_less, mem);
  nghttp3_qpack_read_state_reset(&encoder->rstate);
}

static void close_books(nghttp3_qpack_encoder *encoder) {
  nghttp3_pq_free(&encoder->min_cnts);
  nghttp3_ksl_free(&encoder->blocked_streams);
  nghttp3_map_each_free(&encoder->streams, map_stream_free, (void *)encoder->ctx.mem);
  nghttp3_map_free(&encoder->streams);
}

/* Notes a section. The first insertion is taken as the oldest that it references. */
static int note_section(nghttp3_qpack_encoder *encoder, int64_t stream_id, uint64_t required) {
  nghttp3_qpack_stream *stream = nghttp3_qpack_encoder_find_stream(encoder, stream_id);
  return required ? qpack_encoder_add_stream_ref(encoder, stream_id, stream, required, 1) : 0;
}

static void find_equal(const char *what, size_t here, size_t booked) {
  if (here == booked) return;
  fprintf(stderr, "%s: h3_qpack has %zu, and the books of nghttp3 %zu\n", what, here, booked);
  abort();
}

/* Notes bytes of the decoder stream, which h3_qpack read with that status. */
static void note_feedback(nghttp3_qpack_encoder *encoder, const uint8_t *src, size_t srclen, int32_t status) {
  find_equal("feedback that is rejected", status != 0, book_feedback(encoder, src, srclen) < 0);
}

static void compare_books(nghttp3_qpack_encoder *encoder) {
  h3_qpack_encoder *end = &encoder->own.end;
  find_equal("Known Received Count", h3_qpack_encoder_get_krcnt(end), encoder->krcnt);
  find_equal("streams that may be blocked", h3_qpack_encoder_get_num_blocked(end), nghttp3_ksl_len(&encoder->blocked_streams));
  find_equal("unacknowledged sections", h3_qpack_encoder_get_num_unacked(end), nghttp3_pq_size(&encoder->min_cnts));
  encoder->ctx.dtable_size = h3_qpack_encoder_get_table_size(end);
}

static void note_table(nghttp3_qpack_decoder *decoder) {
  decoder->ctx.dtable_size = h3_qpack_decoder_get_table_size(&decoder->own.end);
  decoder->ctx.max_dtable_capacity = h3_qpack_decoder_get_capacity(&decoder->own.end);
}

#else

#define open_books(encoder) ((void)0)
#define close_books(encoder) ((void)0)
#define note_section(encoder, stream_id, required) 0
#define note_feedback(encoder, src, srclen, status) ((void)0)
#define compare_books(encoder) ((void)0)
#define note_table(decoder) ((void)0)

#endif
#endif
