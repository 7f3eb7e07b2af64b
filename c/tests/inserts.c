/* 65,536 sections of one connection, whose fields change every 256 sections, names among them. To the last one the encoder
 * inserts what comes again, and references it: a full table goes on. Each section is acknowledged at once, or 32 sections
 * late. */
#include "common.h"

#define SECTIONS 65536
#define EPOCH 256   /* sections with the same fields */
#define SETTLED 128 /* of them, before which everything that comes again is inserted */
#define LATE 32
#define MOST_SETTLED 40 /* bytes of a section that references all but one short field, and of its instructions */

static h3_qpack_nv field(const char *name, const char *value) {
  return (h3_qpack_nv){(const uint8_t *)name, strlen(name), (const uint8_t *)value, strlen(value), 0};
}

/* Makes the fields of a section: the same in all, the same in an epoch, and its own. What all have comes first or last. */
static size_t make_fields(size_t section, int server_last, h3_qpack_nv *nva) {
  static char policy[400], version[40], number[24], id[24];
  size_t n = 0;
  memset(policy, 'c', 300);
  snprintf(policy + 300, sizeof policy - 300, "%zu", section / EPOCH);
  snprintf(version, sizeof version, "x-version-of-epoch-%zu", section / EPOCH);
  snprintf(number, sizeof number, "%zu", section / EPOCH);
  snprintf(id, sizeof id, "%zu", section * 7919);
  nva[n++] = field(":status", "200");
  if (!server_last) nva[n++] = field("server", "h3srv");
  nva[n++] = field("x-request-id", id);
  nva[n++] = field("content-security-policy", policy);
  nva[n++] = field(version, number);
  if (server_last) nva[n++] = field("server", "h3srv");
  return n;
}

static void run(size_t blocked, size_t late, int server_last) {
  static answer answers[LATE + 1];
  h3_qpack_encoder e;
  h3_qpack_decoder d;
  size_t bytes = 0, inserted = 0;
  CHECK(!new_encoder(&e, 4096, blocked) && !new_decoder(&d, 4096, blocked, 65536));
  for (size_t i = 0; i < SECTIONS; i++) {
    h3_qpack_nv nva[5];
    size_t len = exchange_list(&e, &d, 4 * i, nva, make_fields(i, server_last, nva), &answers[i % (late + 1)]);
    bytes += len;
    if (i % EPOCH >= SETTLED) CHECK(len <= MOST_SETTLED);
    const answer *heard = &answers[(i + 1) % (late + 1)]; /* of the section that came |late| before */
    if (i >= late) hear(&e, heard->bytes, heard->len);
    if (i % EPOCH == EPOCH - 1) {
      CHECK(h3_qpack_decoder_get_icnt(&d) >= inserted + 2);
      inserted = h3_qpack_decoder_get_icnt(&d);
    }
  }
  printf("inserts: %zu may be blocked, %zu late, server %s: %zu insertions, %zu bytes\n", blocked, late,
         server_last ? "last" : "first", inserted, bytes);
  h3_qpack_encoder_del(&e);
  h3_qpack_decoder_del(&d);
}

int main(void) {
  static const size_t limits[] = {100, 0}, delays[] = {0, LATE};
  for (size_t l = 0; l < 2; l++)
    for (size_t d = 0; d < 2; d++)
      for (int last = 0; last < 2; last++) run(limits[l], delays[d], last);
  return 0;
}
