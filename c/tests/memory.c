/* Each allocation of a connection is refused in turn: the call answers H3_QPACK_ERR_NO_MEMORY, is made again, and all
 * fields arrive. To be linked with --wrap=malloc and --wrap=realloc. */
#include "common.h"

#define LISTS 12

/* How many allocations are granted before one is refused; below 0 all are. */
static long granted = -1;
static size_t refused;

void *__real_malloc(size_t size);
void *__real_realloc(void *p, size_t size);
void *__wrap_malloc(size_t size);
void *__wrap_realloc(void *p, size_t size);

static int is_refused(void) { return granted >= 0 && granted-- == 0; }

void *__wrap_malloc(size_t size) { return is_refused() ? NULL : __real_malloc(size); }

void *__wrap_realloc(void *p, size_t size) { return is_refused() ? NULL : __real_realloc(p, size); }

/* Whether a call is to be made again. */
static int is_short(int status) {
  if (status == H3_QPACK_ERR_NO_MEMORY) refused++;
  return status == H3_QPACK_ERR_NO_MEMORY;
}

static void hand_to_decoder(h3_qpack_decoder *d, const uint8_t *p, size_t len) {
  h3_qpack_received r;
  do {
    r = h3_qpack_decoder_read_encoder(d, p, len);
    CHECK(r.taken <= len);
    p += r.taken;
    len -= r.taken;
  } while (is_short(r.status));
  CHECK(r.status == H3_QPACK_OK && !len);
}

static void send_list(h3_qpack_encoder *e, h3_qpack_decoder *d, size_t i) {
  static uint8_t section[1 << 14], stream[1 << 14];
  h3_qpack_encoded a;
  h3_qpack_decoded r;
  do a = h3_qpack_encoder_encode(e, 4 * i, lists[i].nv, lists[i].len, section, sizeof section);
  while (is_short(a.status));
  CHECK(a.status == H3_QPACK_OK);
  size_t len = h3_qpack_encoder_write_encoder(e, stream, sizeof stream);
  if (i % 3) hand_to_decoder(d, stream, len);
  do r = h3_qpack_decoder_decode(d, 4 * i, section, a.len);
  while (is_short(r.status));
  if (i % 3 == 0) {
    hand_to_decoder(d, stream, len);
    if (r.status == H3_QPACK_BLOCKED) {
      do r = h3_qpack_decoder_decode(d, 4 * i, section, a.len);
      while (is_short(r.status));
    }
  }
  CHECK(r.status == H3_QPACK_OK && r.fields == lists[i].len);
  check_fields(d, lists[i].nv, lists[i].len);
  int status;
  do status = h3_qpack_decoder_cancel_stream(d, 4 * i + 400);
  while (is_short(status));
  CHECK(status == H3_QPACK_OK);
  len = h3_qpack_decoder_write_decoder(d, stream, sizeof stream);
  CHECK(h3_qpack_encoder_read_decoder(e, stream, len).status == H3_QPACK_OK);
}

static void decode_alone(const uint8_t *section, size_t len) {
  static uint8_t text[1 << 12];
  static h3_qpack_field fields[1 << 6];
  h3_qpack_decoded_alone r;
  do r = h3_qpack_decode_stateless(section, len, 1 << 20, fields, sizeof fields / sizeof *fields, text, sizeof text);
  while (is_short(r.status));
  CHECK(r.status == H3_QPACK_OK && r.fields == lists[0].len);
  check_written(fields, text, r.len, lists[0].nv, lists[0].len);
}

/* A connection of which the allocation of this number, from 0, is refused; answers whether there was one. */
static int run_connection(long number) {
  h3_qpack_encoder e;
  h3_qpack_decoder d;
  h3_qpack_written w;
  uint8_t section[1 << 12];
  int status;
  granted = number;
  do status = new_encoder(&e, 4096, 100);
  while (is_short(status));
  CHECK(status == H3_QPACK_OK);
  do status = new_decoder(&d, 4096, 100, 1 << 20);
  while (is_short(status));
  CHECK(status == H3_QPACK_OK);
  for (size_t i = 0; i < LISTS; i++) send_list(&e, &d, i);
  do w = h3_qpack_encode_stateless(lists[0].nv, lists[0].len, section, sizeof section);
  while (is_short(w.status));
  CHECK(w.status == H3_QPACK_OK && w.len > 2);
  decode_alone(section, w.len);
  int was_refused = granted < 0;
  granted = -1;
  h3_qpack_encoder_del(&e);
  h3_qpack_decoder_del(&d);
  return was_refused;
}

int main(int argc, char **argv) {
  CHECK(argc == 2);
  read_corpus(argv[1], 0);
  CHECK(nlists >= LISTS);
  long number = 0;
  while (run_connection(number)) number++;
  CHECK(number > 100 && refused > 100);
  printf("memory: %ld allocations refused in turn, of which %zu were told\n", number, refused);
  free_lists();
  return 0;
}
