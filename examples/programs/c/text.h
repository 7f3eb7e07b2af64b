/* What the programs in C share: how bytes and fields are printed, and how a program ends that can't go on. */
#ifndef TEXT_H
#define TEXT_H

#include <h3_qpack.h>
#include <stdio.h>
#include <stdlib.h>
#include <string.h>

static inline void expect(int status) {
  if (status == H3_QPACK_OK) return;
  fprintf(stderr, "status %d\n", status);
  exit(1);
}

static inline h3_qpack_nv field(const char *name, const char *value) {
  return (h3_qpack_nv){(const uint8_t *)name, strlen(name), (const uint8_t *)value, strlen(value), 0};
}

static inline void print_bytes(const char *before, const uint8_t *bytes, size_t length) {
  fputs(before, stdout);
  for (size_t i = 0; i < length; i++) printf("%02x", bytes[i]);
  putchar('\n');
}

/* Prints fields whose names and values are in |text|, without gaps. */
static inline void print_fields(const h3_qpack_field *fields, size_t count, const uint8_t *text) {
  for (size_t i = 0; i < count; i++) {
    printf("  %.*s: %.*s\n", (int)fields[i].namelen, (const char *)text, (int)fields[i].valuelen,
           (const char *)text + fields[i].namelen);
    text += fields[i].namelen + fields[i].valuelen;
  }
}

/* Prints the fields of the last decode. */
static inline void print_decoded(h3_qpack_decoder *decoder, h3_qpack_decoded decoded) {
  h3_qpack_field *fields = calloc(decoded.fields + 1, sizeof *fields);
  uint8_t *text = malloc(decoded.len + 1);
  if (!fields || !text) exit(1);
  expect(h3_qpack_decoder_fields(decoder, fields, decoded.fields, text, decoded.len).status);
  print_fields(fields, decoded.fields, text);
  free(fields);
  free(text);
}

#endif
