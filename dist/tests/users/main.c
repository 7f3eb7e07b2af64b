/* Prints the field section of one field, in hexadecimal. */
#include <h3_qpack.h>
#include <stdio.h>

int main(void) {
  h3_qpack_nv field = {(const uint8_t *)":method", 7, (const uint8_t *)"GET", 3, 0};
  uint8_t section[16];
  h3_qpack_written written = h3_qpack_encode_stateless(&field, 1, section, sizeof section);
  for (size_t i = 0; i < written.len; i++) printf("%02x", section[i]);
  return written.status;
}
