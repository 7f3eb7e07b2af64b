/* A model and this library's decoder, which reads what it writes and answers it. Include it after play.h and encoder.h. */
#ifndef MODEL_ENDS_H
#define MODEL_ENDS_H

typedef struct {
  encoder *model;
  chooser by;
  h3_qpack_decoder decoder;
} model_ends;

static inline model_ends open_model_ends(const corpus *c, setting s, chooser by, int names_evicted) {
  model_ends m = {.model = open_model(c, s, names_evicted), .by = by};
  CHECK(!new_decoder(&m.decoder, s.capacity, s.blocked, 1 << 20));
  return m;
}

static inline void close_model_ends(model_ends *m) {
  h3_qpack_decoder_del(&m->decoder);
  close_model(m->model);
}

/* Has the decoder read what the model wrote of a list, compares the fields, and leaves what the decoder sends. */
static inline void decode_model(model_ends *m, uint64_t stream_id, const list *l, answer *answer) {
  static uint8_t copied_text[1 << 16];
  static h3_qpack_field copied[1 << 10];
  const output *stream = &m->model->stream, *section = &m->model->section;
  h3_qpack_received r = h3_qpack_decoder_read_encoder(&m->decoder, stream->at, stream->len);
  CHECK(r.status == H3_QPACK_OK && r.taken == stream->len);
  CHECK(h3_qpack_decoder_decode(&m->decoder, stream_id, section->at, section->len).status == H3_QPACK_OK);
  h3_qpack_written w =
      h3_qpack_decoder_fields(&m->decoder, copied, sizeof copied / sizeof *copied, copied_text, sizeof copied_text);
  CHECK(w.status == H3_QPACK_OK);
  check_written(copied, copied_text, w.len, l->nv, l->len);
  answer->len = h3_qpack_decoder_write_decoder(&m->decoder, answer->bytes, sizeof answer->bytes);
}

static inline size_t exchange_model(void *ends, uint64_t stream_id, const list *l, answer *answer) {
  model_ends *m = ends;
  encode_next(m->model, &m->by);
  decode_model(m, stream_id, l, answer);
  return m->model->section.len + m->model->stream.len;
}

static inline void hear_by_model(void *ends, const answer *answer) { hear_model(((model_ends *)ends)->model, answer); }

/* Plays lists to a model and its decoder. */
static const player by_model = {exchange_model, hear_by_model};

#endif
