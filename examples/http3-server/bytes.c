/* Bytes that grow. */
#include <stdlib.h>
#include <string.h>
#include "server.h"

void stop_at(const char *file, int line, const char *what) {
  fprintf(stderr, "http3-server: %s:%d: %s\n", file, line, what);
  exit(1);
}

void add(bytes *b, const void *p, size_t len) {
  if (b->is_short) return;
  if (!b->at || b->len + len > b->room) {
    size_t room = 2 * (b->len + len) + 64;
    uint8_t *larger = realloc(b->at, room);
    if (!larger) {
      b->is_short = 1;
      return;
    }
    b->at = larger;
    b->room = room;
  }
  if (len) memcpy(b->at + b->len, p, len);
  b->len += len;
}

void add_text(bytes *b, const char *format, ...) {
  va_list arguments;
  va_start(arguments, format);
  add_text_of(b, format, arguments);
  va_end(arguments);
}

void add_text_of(bytes *b, const char *format, va_list arguments) {
  char text[1024];
  int len = vsnprintf(text, sizeof text, format, arguments);
  if (len < 0 || (size_t)len >= sizeof text) b->is_short = 1;
  else add(b, text, (size_t)len);
}

void add_varint(bytes *b, uint64_t value) {
  int len = value < 64 ? 1 : value < 16384 ? 2 : value < 1073741824 ? 4 : 8;
  uint8_t at[8], bits = (uint8_t)(len == 1 ? 0 : len == 2 ? 0x40 : len == 4 ? 0x80 : 0xc0);
  for (int i = 0; i < len; i++) at[i] = (uint8_t)(value >> 8 * (len - 1 - i));
  at[0] |= bits;
  add(b, at, (size_t)len);
}

void add_hex(bytes *b, const uint8_t *p, size_t len) {
  static const char digits[] = "0123456789abcdef";
  add(b, "\"", 1);
  for (size_t i = 0; i < len; i++) {
    char pair[2] = {digits[p[i] >> 4], digits[p[i] & 15]};
    add(b, pair, 2);
  }
  add(b, "\"", 1);
}

void add_json(bytes *b, const uint8_t *p, size_t len) {
  add(b, "\"", 1);
  for (size_t i = 0; i < len; i++) {
    if (p[i] < 32 || p[i] > 126 || p[i] == '"' || p[i] == '\\') add_text(b, "\\u%04x", p[i]);
    else add(b, &p[i], 1);
  }
  add(b, "\"", 1);
}

void drop(bytes *b) {
  free(b->at);
  *b = (bytes){NULL, 0, 0, 0};
}
