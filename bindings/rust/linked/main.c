/* Decodes a section by the library in C, and one by the crate for Rust, in one program. */
#include <h3_qpack.h>

int32_t count_in_rust(void);

int main(void) {
  static const uint8_t section[] = {0, 0, 0xd1, 0xd7};
  h3_qpack_field fields[4];
  uint8_t text[64];
  h3_qpack_decoded_alone decoded = h3_qpack_decode_stateless(section, sizeof section, 4096, fields, 4, text, sizeof text);
  return decoded.status || decoded.fields != 2 || count_in_rust() != 2;
}
