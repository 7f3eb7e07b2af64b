/* Encodes and decodes a section without a table. Any peer can decode it, and nothing is kept between two. */
#include "text.h"

int main(void) {
  h3_qpack_nv list[] = {field(":method", "GET"), field(":path", "/"), field("user-agent", "example/1")};
  uint8_t section[256], text[256];
  h3_qpack_field fields[8];
  h3_qpack_written written = h3_qpack_encode_stateless(list, 3, section, sizeof section);
  expect(written.status);
  print_bytes("section ", section, written.len);
  h3_qpack_decoded_alone decoded = h3_qpack_decode_stateless(section, written.len, 65536, fields, 8, text, sizeof text);
  expect(decoded.status);
  print_fields(fields, decoded.fields, text);
}
