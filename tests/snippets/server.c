/* The frame of the snippet of docs/USING.md: a program that decodes a blocked section again. */
#include <h3_qpack.h>

struct stream {
  uint64_t id;
  size_t len;
  int decoded;
  uint8_t section[64];
};

static h3_qpack_decoder decoder;
static struct stream stream = {4, 0, 0, {0}};

static struct stream *stream_of(uint64_t id) { return id == stream.id ? &stream : NULL; }

static void decode_again(struct stream *it) {
  if (it && h3_qpack_decoder_decode(&decoder, it->id, it->section, it->len).status == H3_QPACK_OK) it->decoded++;
}

/* Decodes what is ready. */
static void decode_ready(void) {
  // SNIPPET
}

/* Makes both ends, and encodes a field that is inserted. Returns the bytes of the encoder stream. */
static size_t begin(uint8_t *bytes, size_t len) {
  h3_qpack_nv field = {(const uint8_t *)"foo", 3, (const uint8_t *)"bar", 3, H3_QPACK_NV_FLAG_INSERT};
  h3_qpack_decoder_settings ours;
  h3_qpack_encoder_settings theirs;
  h3_qpack_encoder encoder;
  h3_qpack_decoder_settings_default(&ours);
  h3_qpack_encoder_settings_default(&theirs);
  theirs.max_capacity = ours.max_capacity = 4096;
  theirs.max_blocked = ours.max_blocked = 16;
  if (h3_qpack_decoder_new(&decoder, &ours) || h3_qpack_encoder_new(&encoder, &theirs)) return 0;
  stream.len = h3_qpack_encoder_encode(&encoder, stream.id, &field, 1, stream.section, sizeof stream.section).len;
  len = h3_qpack_encoder_write_encoder(&encoder, bytes, len);
  h3_qpack_encoder_del(&encoder);
  return len;
}

int main(void) {
  uint8_t bytes[64];
  size_t len = begin(bytes, sizeof bytes);
  if (!len) return 1;
  if (h3_qpack_decoder_decode(&decoder, stream.id, stream.section, stream.len).status != H3_QPACK_BLOCKED) return 2;
  decode_ready();
  if (stream.decoded != 0) return 3;
  if (h3_qpack_decoder_read_encoder(&decoder, bytes, len).status) return 4;
  decode_ready();
  h3_qpack_decoder_del(&decoder);
  return stream.decoded == 1 ? 0 : 5;
}
