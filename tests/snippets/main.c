/* The frame of README's snippet in C: a program that sends a section, and receives in five ways. */
#include <h3_qpack.h>
#include <string.h>

enum { KEPT = 1, ROOM = 64 };

/* Bytes of a stream. */
typedef struct {
  uint8_t bytes[ROOM];
  size_t len;
} bytes;

static h3_qpack_encoder encoder;
static h3_qpack_decoder decoder;
static const h3_qpack_nv fields[] = {{(const uint8_t *)"foo", 3, (const uint8_t *)"bar", 3, H3_QPACK_NV_FLAG_INSERT}};
static const size_t fieldslen = 1;
/* What was sent last on the encoder stream and on the decoder stream, and the section. */
static bytes on_encoder_stream, on_decoder_stream, on_stream_4;

static void append(bytes *to, const uint8_t *from, size_t len) {
  memcpy(to->bytes + to->len, from, len);
  to->len += len;
}

static void send_encoder_stream(const uint8_t *piece, size_t len) { append(&on_encoder_stream, piece, len); }

static void send_decoder_stream(const uint8_t *piece, size_t len) { append(&on_decoder_stream, piece, len); }

static int close_connection(int32_t status) { return status; }

static int keep(const uint8_t *message) { return message ? KEPT : -1; }

/* Makes both ends, sends a section, and receives instructions, a section and answers. */
static int converse(const uint8_t *instructions, size_t instructionslen, const uint8_t *message, size_t messagelen,
                    const uint8_t *answers, size_t answerslen) {
  uint8_t section[ROOM], piece[4];
  size_t len;
  // SNIPPET
  append(&on_stream_4, section, sent.len);
  return got.fields == 1 ? 0 : -1;
}

/* Has ends of their own receive what a peer sent, and returns whether that gives the result. */
static int gives(int result, bytes instructions, bytes message, bytes answers) {
  on_encoder_stream.len = on_decoder_stream.len = on_stream_4.len = 0;
  int is = converse(instructions.bytes, instructions.len, message.bytes, message.len, answers.bytes, answers.len) == result;
  h3_qpack_encoder_del(&encoder);
  h3_qpack_decoder_del(&decoder);
  return is;
}

int main(void) {
  const bytes none = {{0}, 0}, method = {{0, 0, 0xd1}, 3}; /* :method: GET */
  const bytes no_entry = {{0x80}, 1};                      /* an insertion with the name of an entry that is not there */
  const bytes no_field = {{0, 0, 0x80}, 3}, no_increment = {{0}, 1};
  if (!gives(0, none, method, none)) return 1;
  if (on_encoder_stream.len <= 4 || !on_stream_4.len || on_decoder_stream.len) return 2;
  /* What was sent goes to the other end, which answers; and its answer to an end that sent the same. */
  const bytes instructions = on_encoder_stream, message = on_stream_4;
  if (!gives(0, instructions, message, none)) return 3;
  const bytes answers = on_decoder_stream;
  if (!answers.len || !gives(0, instructions, message, answers)) return 4;
  if (!gives(KEPT, none, message, none)) return 5;
  if (!gives(H3_QPACK_ENCODER_STREAM_ERROR, no_entry, message, none)) return 6;
  if (!gives(H3_QPACK_DECOMPRESSION_FAILED, instructions, no_field, none)) return 7;
  if (!gives(H3_QPACK_DECODER_STREAM_ERROR, instructions, message, no_increment)) return 8;
  return 0;
}
