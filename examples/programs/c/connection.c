/* Two requests of a connection, from a client's encoder to a server's decoder. The second is short, since the table has
 * the fields of the first. */
#include "text.h"

static h3_qpack_encoder client;
static h3_qpack_decoder server;

static void request(uint64_t stream) {
  h3_qpack_nv list[] = {field(":method", "GET"), field(":authority", "example.org"), field("user-agent", "example/1")};
  uint8_t section[256], piece[256];
  h3_qpack_encoded encoded = h3_qpack_encoder_encode(&client, stream, list, 3, section, sizeof section);
  expect(encoded.status);
  printf("stream %d\n", (int)stream);
  print_bytes("  section ", section, encoded.len);

  /* The client's encoder stream arrives before the section. */
  size_t length = h3_qpack_encoder_write_encoder(&client, piece, sizeof piece);
  print_bytes("  encoder stream ", piece, length);
  expect(h3_qpack_decoder_read_encoder(&server, piece, length).status);
  h3_qpack_decoded decoded = h3_qpack_decoder_decode(&server, stream, section, encoded.len);
  expect(decoded.status);
  print_decoded(&server, decoded);

  /* The server's decoder stream acknowledges both. */
  length = h3_qpack_decoder_write_decoder(&server, piece, sizeof piece);
  print_bytes("  decoder stream ", piece, length);
  expect(h3_qpack_encoder_read_decoder(&client, piece, length).status);
}

int main(void) {
  h3_qpack_encoder_settings theirs;
  h3_qpack_encoder_settings_default(&theirs);
  expect(h3_qpack_encoder_new(&client, &theirs)); /* before the server's SETTINGS */
  h3_qpack_decoder_settings ours;
  h3_qpack_decoder_settings_default(&ours);
  ours.max_capacity = 4096;
  ours.max_blocked = 16;
  expect(h3_qpack_decoder_new(&server, &ours));
  expect(h3_qpack_encoder_set_peer_settings(&client, 4096, 16)); /* they arrived */
  request(0);
  request(4);
  printf("%d insertions, %d unacknowledged sections\n", (int)h3_qpack_encoder_get_icnt(&client),
         (int)h3_qpack_encoder_get_num_unacked(&client));
  h3_qpack_encoder_del(&client);
  h3_qpack_decoder_del(&server);
}
