/* A decoder whose stream nobody reads, while the peer inserts without end. What it has to send must stay a few bytes, and
 * report all insertions in the end. It uses public calls of nghttp3 alone, so it runs over any libnghttp3. */
#include <nghttp3/nghttp3.h>
#include <stdio.h>
#include <string.h>

enum { INSERTIONS = 100000, MOST_UNSENT = 16 };

static const uint8_t set_capacity[] = {0x3f, 0xe1, 0x1f}; /* to 4,096 bytes */
static const uint8_t insertion[] = {0xc1, 0x01, 'a'};     /* of a static name, :path, with the value a */
static const uint8_t increment[] = {0x3f, 0xe1, 0x8c, 0x06};

static int is_read(nghttp3_qpack_decoder *decoder, const uint8_t *text, size_t length) {
  return nghttp3_qpack_decoder_read_encoder(decoder, text, length) == (nghttp3_ssize)length;
}

/* Inserts without end. Returns the most bytes that wait to be sent meanwhile, or 0 if the decoder fails. */
static size_t insert_all(nghttp3_qpack_decoder *decoder) {
  size_t most = 0;
  for (size_t i = 0; i < INSERTIONS; i++) {
    size_t length;
    if (!is_read(decoder, insertion, sizeof insertion)) return 0;
    length = nghttp3_qpack_decoder_get_decoder_streamlen(decoder);
    if (length > most) most = length;
  }
  return most;
}

int main(void) {
  uint8_t room[MOST_UNSENT];
  nghttp3_buf sent = {room, room + sizeof room, room, room};
  nghttp3_qpack_decoder *decoder;
  size_t most, length;
  if (nghttp3_qpack_decoder_new(&decoder, 4096, 100, nghttp3_mem_default())) return 1;
  most = is_read(decoder, set_capacity, sizeof set_capacity) ? insert_all(decoder) : 0;
  printf("%zu bytes waited at most\n", most);
  if (!most || most > MOST_UNSENT) return 1;
  nghttp3_qpack_decoder_write_decoder(decoder, &sent);
  length = (size_t)(sent.last - sent.pos);
  most = nghttp3_qpack_decoder_get_decoder_streamlen(decoder);
  nghttp3_qpack_decoder_del(decoder);
  return most || length != sizeof increment || memcmp(sent.pos, increment, length);
}
