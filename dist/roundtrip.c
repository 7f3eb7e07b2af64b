/* Encodes two fields for stream 4, and decodes them, with a dynamic table. The section comes before the instructions that
 * it requires, so it is blocked at first.
 * cc roundtrip.c $(pkg-config --cflags --libs h3_qpack) */
#include <h3_qpack.h>
#include <stdio.h>
#include <string.h>

static h3_qpack_nv field(const char *name, const char *value, uint8_t flags) {
  h3_qpack_nv nv = {(const uint8_t *)name, strlen(name), (const uint8_t *)value, strlen(value), flags};
  return nv;
}

int main(void) {
  h3_qpack_encoder_settings theirs; /* what the peer sent, and what this side wants of its table */
  h3_qpack_encoder_settings_default(&theirs);
  theirs.max_capacity = 4096;
  theirs.max_blocked = 16;
  h3_qpack_encoder encoder;
  if (h3_qpack_encoder_new(&encoder, &theirs)) return 1;

  h3_qpack_decoder_settings ours; /* what this side sent */
  h3_qpack_decoder_settings_default(&ours);
  ours.max_capacity = 4096;
  ours.max_blocked = 16;
  h3_qpack_decoder decoder;
  if (h3_qpack_decoder_new(&decoder, &ours)) return 1;

  uint8_t section[4096], stream[4096], text[4096];
  h3_qpack_nv fields[2];
  fields[0] = field("user-agent", "curl/8", 0);
  fields[1] = field("authorization", "Basic Og==", H3_QPACK_NV_FLAG_NEVER_INDEX);
  h3_qpack_encoded sent = h3_qpack_encoder_encode(&encoder, 4, fields, 2, section, sizeof section);
  if (sent.status) return 1; /* H3_QPACK_ERR_NO_ROOM: sent.len is the size to allocate */
  size_t len = h3_qpack_encoder_write_encoder(&encoder, stream, sizeof stream);
  printf("%zu bytes on stream 4, %zu on the encoder stream\n", sent.len, len);

  h3_qpack_decoded got = h3_qpack_decoder_decode(&decoder, 4, section, sent.len);
  if (got.status == H3_QPACK_BLOCKED) printf("blocked until insertion %zu\n", got.required); /* keep the section */
  if (h3_qpack_decoder_read_encoder(&decoder, stream, len).status) return 1;
  uint64_t ready; /* a stream whose section can be decoded now */
  while (h3_qpack_decoder_next_ready(&decoder, &ready)) got = h3_qpack_decoder_decode(&decoder, ready, section, sent.len);
  if (got.status) return 1;
  for (size_t i = 0; i < got.fields; i++) {
    h3_qpack_field f = h3_qpack_decoder_field(&decoder, i, text, sizeof text);
    if (f.status) return 1;
    printf("%.*s: %.*s\n", (int)f.namelen, (char *)text, (int)f.valuelen, (char *)text + f.namelen);
  }

  len = h3_qpack_decoder_write_decoder(&decoder, stream, sizeof stream);
  if (h3_qpack_encoder_read_decoder(&encoder, stream, len).status) return 1;
  h3_qpack_encoder_del(&encoder);
  h3_qpack_decoder_del(&decoder);
  return 0;
}
