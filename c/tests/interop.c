/* The corpus and lists at random, both ways with nghttp3 in one process, at five capacities and three limits. Streams
 * are cut at random; where |late| instructions come behind sections, which then wait; some streams are given up. */
#include "peer.h"

#define SECTION (1 << 16)

static size_t sections, dynamic, waited, cancelled, encoder_bytes, decoder_bytes;

/* Sections that wait, as they came. */
typedef struct {
  uint8_t *bytes;
  size_t len;
} kept;

static void hand_to_decoder(h3_qpack_decoder *d, const uint8_t *p, size_t len) {
  while (len) {
    size_t piece = 1 + random_below(len);
    h3_qpack_received r = h3_qpack_decoder_read_encoder(d, p, piece);
    CHECK(r.status == H3_QPACK_OK && r.taken == piece);
    p += piece;
    len -= piece;
  }
}

/* What our decoder sends goes to nghttp3's encoder. */
static void answer_theirs(h3_qpack_decoder *d, nghttp3_qpack_encoder *e) {
  uint8_t piece[64];
  while (h3_qpack_decoder_get_decoder_streamlen(d)) {
    size_t len = h3_qpack_decoder_write_decoder(d, piece, 1 + random_below(sizeof piece));
    CHECK(nghttp3_qpack_encoder_read_decoder(e, piece, len) == (nghttp3_ssize)len);
    decoder_bytes += len;
  }
}

static void check_list(h3_qpack_decoder *d, const h3_qpack_decoded *r, const list *l) {
  CHECK(r->status == H3_QPACK_OK && r->fields == l->len);
  check_fields(d, l->nv, l->len);
  sections++;
  dynamic += r->required > 0;
}

static void decode_ready(h3_qpack_decoder *d, kept *waiting) {
  uint64_t id;
  while (h3_qpack_decoder_next_ready(d, &id)) {
    kept *w = &waiting[id / 4];
    CHECK(w->bytes);
    h3_qpack_decoded r = h3_qpack_decoder_decode(d, id, w->bytes, w->len);
    check_list(d, &r, &lists[id / 4]);
    free(w->bytes);
    w->bytes = NULL;
  }
}

/* nghttp3 encodes, and we decode. */
static void theirs_to_ours(size_t capacity, size_t limit, int late) {
  const nghttp3_mem *mem = nghttp3_mem_default();
  nghttp3_qpack_encoder *e;
  h3_qpack_decoder d;
  nghttp3_buf prefix, lines, instructions, held;
  kept *waiting = calloc(nlists, sizeof *waiting);
  CHECK(waiting && !nghttp3_qpack_encoder_new(&e, capacity, mem));
  nghttp3_qpack_encoder_set_max_blocked_streams(e, limit);
  nghttp3_qpack_encoder_set_max_dtable_capacity(e, capacity);
  CHECK(!new_decoder(&d, capacity, limit, 1 << 20));
  nghttp3_buf_init(&prefix);
  nghttp3_buf_init(&lines);
  nghttp3_buf_init(&instructions);
  nghttp3_buf_init(&held);
  for (size_t i = 0; i < nlists; i++) {
    nghttp3_buf_reset(&prefix);
    nghttp3_buf_reset(&lines);
    CHECK(!nghttp3_qpack_encoder_encode(e, &prefix, &lines, &instructions, (int64_t)(4 * i), lists[i].ng, lists[i].len));
    static uint8_t section[SECTION];
    size_t front = nghttp3_buf_len(&prefix), len = front + nghttp3_buf_len(&lines);
    CHECK(len <= sizeof section);
    memcpy(section, prefix.pos, front);
    if (len > front) memcpy(section + front, lines.pos, len - front);
    int delivered = !late || !random_below(4);
    if (delivered) {
      encoder_bytes += nghttp3_buf_len(&instructions);
      hand_to_decoder(&d, instructions.pos, nghttp3_buf_len(&instructions));
      nghttp3_buf_reset(&instructions);
      decode_ready(&d, waiting);
    }
    h3_qpack_decoded r = h3_qpack_decoder_decode(&d, 4 * i, section, len);
    if (r.status == H3_QPACK_BLOCKED) {
      CHECK(late && h3_qpack_decoder_get_num_blocked(&d) <= limit);
      waited++;
      if (!random_below(5)) {
        CHECK(h3_qpack_decoder_cancel_stream(&d, 4 * i) == H3_QPACK_OK);
        cancelled++;
      } else {
        waiting[i].bytes = copy_of(section, len);
        waiting[i].len = len;
      }
    } else check_list(&d, &r, &lists[i]);
    if (random_below(2)) answer_theirs(&d, e);
  }
  hand_to_decoder(&d, instructions.pos, nghttp3_buf_len(&instructions));
  decode_ready(&d, waiting);
  answer_theirs(&d, e);
  CHECK(!h3_qpack_decoder_get_num_blocked(&d));
  nghttp3_buf_free(&prefix, mem);
  nghttp3_buf_free(&lines, mem);
  nghttp3_buf_free(&instructions, mem);
  nghttp3_qpack_encoder_del(e);
  h3_qpack_decoder_del(&d);
  free(waiting);
}

/* Reads the section of a list with nghttp3. Returns whether it did not wait. */
static int read_list(nghttp3_qpack_decoder *d, size_t i, const uint8_t *p, size_t len) {
  if (!read_theirs(d, (int64_t)(4 * i), &lists[i], p, len)) return 0;
  sections++;
  return 1;
}

/* We encode, and nghttp3 decodes; it acknowledges without increments. */
static void ours_to_theirs(size_t capacity, size_t limit, int late) {
  nghttp3_qpack_decoder *d;
  h3_qpack_encoder e;
  CHECK(!nghttp3_qpack_decoder_new(&d, capacity, limit, nghttp3_mem_default()));
  nghttp3_qpack_decoder_set_max_concurrent_streams(d, 10000);
  CHECK(!new_encoder(&e, capacity, limit));
  kept *waiting = calloc(nlists, sizeof *waiting);
  CHECK(waiting);
  for (size_t i = 0; i < nlists; i++) {
    static uint8_t section[SECTION], stream[SECTION];
    size_t room = random_below(2) ? 8 : sizeof section;
    h3_qpack_encoded a = h3_qpack_encoder_encode(&e, 4 * i, lists[i].nv, lists[i].len, section, room);
    if (a.status == H3_QPACK_ERR_NO_ROOM) CHECK(h3_qpack_encoder_section(&e, section, a.len).status == H3_QPACK_OK);
    else CHECK(a.status == H3_QPACK_OK);
    CHECK(h3_qpack_encoder_get_num_blocked(&e) <= limit || !a.required);
    dynamic += a.required > 0;
    if (late && !read_list(d, i, section, a.len)) {
      waited++;
      waiting[i].bytes = copy_of(section, a.len);
      waiting[i].len = a.len;
    }
    size_t len;
    while ((len = h3_qpack_encoder_write_encoder(&e, stream, 1 + random_below(300)))) {
      CHECK(nghttp3_qpack_decoder_read_encoder(d, stream, len) == (nghttp3_ssize)len);
      encoder_bytes += len;
    }
    if (!late) CHECK(read_list(d, i, section, a.len));
    for (size_t k = 0; k <= i; k++)
      if (waiting[k].bytes) {
        if (!random_below(5)) {
          CHECK(!nghttp3_qpack_decoder_cancel_stream(d, (int64_t)(4 * k)));
          cancelled++;
        } else CHECK(read_list(d, k, waiting[k].bytes, waiting[k].len));
        free(waiting[k].bytes);
        waiting[k].bytes = NULL;
      }
    if (random_below(2)) continue;
    nghttp3_buf b;
    len = nghttp3_qpack_decoder_get_decoder_streamlen(d);
    CHECK(len <= sizeof stream);
    b.begin = b.pos = b.last = stream;
    b.end = stream + sizeof stream;
    nghttp3_qpack_decoder_write_decoder(d, &b);
    decoder_bytes += len;
    for (const uint8_t *p = stream; len;) {
      size_t piece = 1 + random_below(len);
      h3_qpack_received r = h3_qpack_encoder_read_decoder(&e, p, piece);
      CHECK(r.status == H3_QPACK_OK && r.taken == piece);
      p += piece;
      len -= piece;
    }
  }
  nghttp3_qpack_decoder_del(d);
  h3_qpack_encoder_del(&e);
  free(waiting);
}

int main(int argc, char **argv) {
  CHECK(argc == 2);
  read_corpus(argv[1], 0);
  const uint64_t first_seed = seed;
  add_random_lists(200);
  static const size_t capacities[] = {0, 64, 256, 4096, 65536}, limits[] = {0, 1, 100};
  for (size_t c = 0; c < 5; c++)
    for (size_t l = 0; l < 3; l++)
      for (int late = 0; late < 2; late++) {
        /* Each run has its own numbers, so that what our encoder writes changes nothing of what nghttp3 does. With some
         * numbers, at capacity 64 and a limit of 100, nghttp3 0.8.0 evicts an entry that is not known to be received, once
         * the section that referenced it is cancelled (RFC 9204, section 2.1.1). A later required insert count is then out
         * of our decoder's range, and the section is refused. These numbers do not lead there. */
        seed = first_seed;
        theirs_to_ours(capacities[c], limits[l], late);
        seed = first_seed;
        ours_to_theirs(capacities[c], limits[l], late);
      }
  CHECK(dynamic && waited && cancelled);
  printf("interop: %zu lists, %zu fields; %zu sections with nghttp3 both ways, %zu of them with the dynamic table, "
         "%zu that waited, %zu given up; %zu bytes of encoder streams, %zu of decoder streams\n",
         nlists, nfields, sections, dynamic, waited, cancelled, encoder_bytes, decoder_bytes);
  free_lists();
  return 0;
}
