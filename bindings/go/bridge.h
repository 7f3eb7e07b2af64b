/* The calls of h3_qpack.h that take fields, as Go passes them. A field of C has two pointers, and Go memory that is
 * passed to C may have none. So Go passes the lengths and one text, and C makes the fields for the time of the call. */
#ifndef H3QPACK_BRIDGE_H
#define H3QPACK_BRIDGE_H

#include "h3_qpack.h"
#include <stdlib.h>

/* Go can't call a macro. */
static inline size_t h3qpack_longest_section(uint64_t max_section_size) { return h3_qpack_longest_section(max_section_size); }

/* A field: its lengths in the text of all names and values, and its flags. */
typedef struct h3qpack_line {
  size_t namelen;
  size_t valuelen;
  uint8_t flags;
} h3qpack_line;

/* Returns the fields of |lines| in |text|, or NULL without memory. The caller frees them. */
static inline h3_qpack_nv *h3qpack_make_fields(const uint8_t *text, const h3qpack_line *lines, size_t count) {
  h3_qpack_nv *fields = malloc((count + 1) * sizeof *fields);
  size_t i;
  if (!text) text = (const uint8_t *)"";
  for (i = 0; fields && i < count; i++) {
    fields[i].name = text;
    fields[i].namelen = lines[i].namelen;
    fields[i].value = text + lines[i].namelen;
    fields[i].valuelen = lines[i].valuelen;
    fields[i].flags = lines[i].flags;
    text += lines[i].namelen + lines[i].valuelen;
  }
  return fields;
}

static inline h3_qpack_encoded h3qpack_encode(h3_qpack_encoder *encoder, uint64_t stream_id, const uint8_t *text,
                                              const h3qpack_line *lines, size_t count, uint8_t *section, size_t sectionlen) {
  h3_qpack_encoded encoded = {H3_QPACK_ERR_NO_MEMORY, 0, 0, 0};
  h3_qpack_nv *fields = h3qpack_make_fields(text, lines, count);
  if (fields) encoded = h3_qpack_encoder_encode(encoder, stream_id, fields, count, section, sectionlen);
  free(fields);
  return encoded;
}

static inline h3_qpack_written h3qpack_encode_stateless(const uint8_t *text, const h3qpack_line *lines, size_t count,
                                                        uint8_t *section, size_t sectionlen) {
  h3_qpack_written written = {H3_QPACK_ERR_NO_MEMORY, 0};
  h3_qpack_nv *fields = h3qpack_make_fields(text, lines, count);
  if (fields) written = h3_qpack_encode_stateless(fields, count, section, sectionlen);
  free(fields);
  return written;
}

#endif
