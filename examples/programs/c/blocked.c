/* Two sections overtake the insertions that they require, so they are blocked. The client resets the second stream. Then the
 * insertions arrive, and the first section can be decoded. */
#include "text.h"

enum { STREAMS = 2, ROOM = 256 };

int main(void) {
  h3_qpack_encoder client;
  h3_qpack_decoder server;
  h3_qpack_encoder_settings theirs;
  h3_qpack_decoder_settings ours;
  h3_qpack_encoder_settings_default(&theirs);
  h3_qpack_decoder_settings_default(&ours);
  theirs.max_capacity = ours.max_capacity = 4096;
  theirs.max_blocked = ours.max_blocked = 16;
  expect(h3_qpack_encoder_new(&client, &theirs));
  expect(h3_qpack_decoder_new(&server, &ours));

  h3_qpack_nv list[] = {field(":method", "GET"), field("user-agent", "example/1")};
  uint8_t kept[STREAMS][ROOM], piece[ROOM];
  size_t lengths[STREAMS];
  for (uint64_t i = 0; i < STREAMS; i++) {
    h3_qpack_encoded encoded = h3_qpack_encoder_encode(&client, 4 * i, list, 2, kept[i], ROOM);
    expect(encoded.status);
    lengths[i] = encoded.len;
    h3_qpack_decoded decoded = h3_qpack_decoder_decode(&server, 4 * i, kept[i], lengths[i]);
    if (decoded.status != H3_QPACK_BLOCKED) return 1;
    printf("stream %d is blocked until insertion %d\n", (int)(4 * i), (int)decoded.required);
  }

  expect(h3_qpack_decoder_cancel_stream(&server, 4));
  printf("stream 4 is cancelled\n");

  size_t length = h3_qpack_encoder_write_encoder(&client, piece, ROOM);
  expect(h3_qpack_decoder_read_encoder(&server, piece, length).status);
  uint64_t stream;
  while (h3_qpack_decoder_next_ready(&server, &stream)) {
    h3_qpack_decoded decoded = h3_qpack_decoder_decode(&server, stream, kept[stream / 4], lengths[stream / 4]);
    expect(decoded.status);
    printf("stream %d is ready\n", (int)stream);
    print_decoded(&server, decoded);
  }

  length = h3_qpack_decoder_write_decoder(&server, piece, ROOM);
  print_bytes("decoder stream ", piece, length);
  expect(h3_qpack_encoder_read_decoder(&client, piece, length).status);
  printf("%d unacknowledged sections\n", (int)h3_qpack_encoder_get_num_unacked(&client));
  h3_qpack_encoder_del(&client);
  h3_qpack_decoder_del(&server);
}
