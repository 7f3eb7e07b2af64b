/* A peer sends a section whose second line references an entry that is not in the static table. The connection must be
 * closed, and each later call says so again. */
#include "text.h"

int main(void) {
  static const uint8_t section[] = {0x00, 0x00, 0xd1, 0xff, 0x80, 0x01};
  h3_qpack_decoder server;
  h3_qpack_decoder_settings ours;
  h3_qpack_decoder_settings_default(&ours);
  expect(h3_qpack_decoder_new(&server, &ours));
  h3_qpack_decoded decoded = h3_qpack_decoder_decode(&server, 0, section, sizeof section);
  if (decoded.status <= 0) return 1;
  printf("close the connection with 0x%x: line %d, byte %d\n", decoded.status, (int)decoded.number, (int)decoded.offset);
  decoded = h3_qpack_decoder_decode(&server, 4, section, 3); /* this one is valid */
  printf("afterwards: 0x%x\n", decoded.status);
  h3_qpack_decoder_del(&server);
}
