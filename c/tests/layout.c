/* Prints the structs of h3_qpack.h as c/tests/layout.txt has them: a row for each struct, with "-" and its size, and a
 * row for each of its fields, with its offset and its size in bytes. */
#include <stdio.h>
#include "h3_qpack.h"

#define SIZE(s) printf("%s - 0 %zu\n", #s, sizeof(s))
#define FIELD(s, f) printf("%s %s %zu %zu\n", #s, #f, offsetof(s, f), sizeof((s *)0)->f)

static void print_arguments(void) {
  SIZE(h3_qpack_nv);
  FIELD(h3_qpack_nv, name);
  FIELD(h3_qpack_nv, namelen);
  FIELD(h3_qpack_nv, value);
  FIELD(h3_qpack_nv, valuelen);
  FIELD(h3_qpack_nv, flags);
  SIZE(h3_qpack_encoder);
  FIELD(h3_qpack_encoder, at);
  SIZE(h3_qpack_decoder);
  FIELD(h3_qpack_decoder, at);
  SIZE(h3_qpack_section_reader);
  FIELD(h3_qpack_section_reader, at);
}

static void print_results(void) {
  SIZE(h3_qpack_field);
  FIELD(h3_qpack_field, status);
  FIELD(h3_qpack_field, flags);
  FIELD(h3_qpack_field, namelen);
  FIELD(h3_qpack_field, valuelen);
  SIZE(h3_qpack_view);
  FIELD(h3_qpack_view, name);
  FIELD(h3_qpack_view, value);
  FIELD(h3_qpack_view, namelen);
  FIELD(h3_qpack_view, valuelen);
  FIELD(h3_qpack_view, flags);
  FIELD(h3_qpack_view, static_name);
  FIELD(h3_qpack_view, static_field);
  SIZE(h3q_view);
  FIELD(h3q_view, text);
  FIELD(h3q_view, start);
  FIELD(h3q_view, namelen);
  FIELD(h3q_view, valuelen);
  FIELD(h3q_view, flags);
  FIELD(h3q_view, static_name);
  FIELD(h3q_view, static_field);
  SIZE(h3_qpack_encoded);
  FIELD(h3_qpack_encoded, status);
  FIELD(h3_qpack_encoded, len);
  FIELD(h3_qpack_encoded, required);
  FIELD(h3_qpack_encoded, size);
  SIZE(h3_qpack_written);
  FIELD(h3_qpack_written, status);
  FIELD(h3_qpack_written, len);
  SIZE(h3_qpack_received);
  FIELD(h3_qpack_received, status);
  FIELD(h3_qpack_received, taken);
  FIELD(h3_qpack_received, number);
  FIELD(h3_qpack_received, offset);
  SIZE(h3_qpack_prefix);
  FIELD(h3_qpack_prefix, status);
  FIELD(h3_qpack_prefix, required);
  FIELD(h3_qpack_prefix, base);
  FIELD(h3_qpack_prefix, len);
  SIZE(h3_qpack_piece);
  FIELD(h3_qpack_piece, status);
  FIELD(h3_qpack_piece, taken);
  FIELD(h3_qpack_piece, required);
  FIELD(h3_qpack_piece, number);
  FIELD(h3_qpack_piece, offset);
  SIZE(h3_qpack_pieces);
  FIELD(h3_qpack_pieces, status);
  FIELD(h3_qpack_pieces, taken);
  FIELD(h3_qpack_pieces, fields);
  FIELD(h3_qpack_pieces, len);
  FIELD(h3_qpack_pieces, required);
  FIELD(h3_qpack_pieces, number);
  FIELD(h3_qpack_pieces, offset);
  SIZE(h3_qpack_decoded_alone);
  FIELD(h3_qpack_decoded_alone, status);
  FIELD(h3_qpack_decoded_alone, fields);
  FIELD(h3_qpack_decoded_alone, len);
  FIELD(h3_qpack_decoded_alone, number);
  FIELD(h3_qpack_decoded_alone, offset);
  SIZE(h3_qpack_decoded);
  FIELD(h3_qpack_decoded, status);
  FIELD(h3_qpack_decoded, fields);
  FIELD(h3_qpack_decoded, len);
  FIELD(h3_qpack_decoded, required);
  FIELD(h3_qpack_decoded, number);
  FIELD(h3_qpack_decoded, offset);
}

static void print_settings(void) {
  SIZE(h3_qpack_encoder_settings);
  FIELD(h3_qpack_encoder_settings, max_capacity);
  FIELD(h3_qpack_encoder_settings, max_blocked);
  FIELD(h3_qpack_encoder_settings, capacity);
  FIELD(h3_qpack_encoder_settings, most_unacknowledged);
  FIELD(h3_qpack_encoder_settings, seed);
  SIZE(h3_qpack_decoder_settings);
  FIELD(h3_qpack_decoder_settings, max_capacity);
  FIELD(h3_qpack_decoder_settings, max_blocked);
  FIELD(h3_qpack_decoder_settings, max_section_size);
}

int main(void) {
  print_arguments();
  print_results();
  print_settings();
  return 0;
}
