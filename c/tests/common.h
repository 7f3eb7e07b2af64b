/* What the tests share: the corpus, lists of fields at random, a clock, and a test that ends the program. */
#ifndef COMMON_H
#define COMMON_H

#include <stdint.h>
#include <stdio.h>
#include <stdlib.h>
#include <string.h>
#include <time.h>
#include "h3_qpack.h"

#define CHECK(x) \
  do { \
    if (!(x)) { \
      fprintf(stderr, "%s:%d: %s\n", __FILE__, __LINE__, #x); \
      exit(1); \
    } \
  } while (0)

/* Nanoseconds of a clock that only moves forward. */
static inline uint64_t now(void) {
  struct timespec t;
  CHECK(!clock_gettime(CLOCK_MONOTONIC, &t));
  return (uint64_t)t.tv_sec * 1000000000 + (uint64_t)t.tv_nsec;
}

#ifndef PEER_H
/* A test without a peer has nothing in the place of the peer's fields. */
typedef char their_nv;

static inline their_nv to_theirs(const h3_qpack_nv *nv) {
  (void)nv;
  return 0;
}
#endif

/* A list of fields, as this library takes it, and as nghttp3 does in the tests that include peer.h. */
typedef struct {
  h3_qpack_nv *nv;
  their_nv *ng;
  size_t len, room;
} list;

static list *lists;
static size_t nlists, nfields;

static uint64_t seed = 0x9e3779b97f4a7c15u;

/* A number below |below|, the same in every run. */
static inline size_t random_below(size_t below) {
  seed ^= seed << 13;
  seed ^= seed >> 7;
  seed ^= seed << 17;
  return (size_t)(seed % below);
}

static inline uint8_t *copy_of(const void *bytes, size_t len) {
  uint8_t *copy = malloc(len ? len : 1);
  CHECK(copy);
  if (len) memcpy(copy, bytes, len);
  return copy;
}

static inline void add_field(list *l, const void *name, size_t namelen, const void *value, size_t valuelen, int never) {
  if (l->len == l->room) {
    l->room = 2 * l->room + 8;
    l->nv = realloc(l->nv, l->room * sizeof *l->nv);
    l->ng = realloc(l->ng, l->room * sizeof *l->ng);
    CHECK(l->nv && l->ng);
  }
  h3_qpack_nv nv = {copy_of(name, namelen), namelen, copy_of(value, valuelen), valuelen,
                    (uint8_t)(never ? H3_QPACK_NV_FLAG_NEVER_INDEX : 0)};
  l->nv[l->len] = nv;
  l->ng[l->len++] = to_theirs(&nv);
  nfields++;
}

static inline list *add_list(void) {
  lists = realloc(lists, (nlists + 1) * sizeof *lists);
  CHECK(lists);
  memset(&lists[nlists], 0, sizeof *lists);
  return &lists[nlists++];
}

/* Reads a corpus: a field a line, its name and its value parted by a TAB, and an empty line behind each list. With
 * |bodiless| it leaves out content-length, which messages without a body do not have. */
static inline void read_corpus(const char *path, int bodiless) {
  FILE *f = fopen(path, "rb");
  CHECK(f);
  static char line[1 << 16];
  list *l = NULL;
  while (fgets(line, sizeof line, f)) {
    size_t len = strcspn(line, "\n");
    if (!len) l = NULL;
    if (!len || *line == '#') continue;
    if (!l) l = add_list();
    char *tab = memchr(line, '\t', len);
    CHECK(tab);
    size_t namelen = (size_t)(tab - line);
    if (bodiless && namelen == 14 && !memcmp(line, "content-length", 14)) continue;
    add_field(l, line, namelen, tab + 1, len - namelen - 1, 0);
  }
  fclose(f);
}

/* Adds lists of fields at random: few names, some of them static, values that repeat, all bytes, some sensitive. */
static inline void add_random_lists(size_t many) {
  static const char *names[] = {":path", "cookie", "x", "x-long-name-that-is-not-static", "accept", "authorization", ""};
  while (many--) {
    list *l = add_list();
    for (size_t left = random_below(12); left; left--) {
      const char *name = names[random_below(sizeof names / sizeof *names)];
      uint8_t value[300];
      size_t valuelen = random_below(random_below(8) ? 20 : sizeof value), all = random_below(2);
      for (size_t i = 0; i < valuelen; i++) value[i] = (uint8_t)(all ? random_below(256) : 'a' + random_below(3));
      add_field(l, name, strlen(name), value, valuelen, !random_below(6));
    }
  }
}

/* Writes an integer after flags, with a prefix of |bits| bits (RFC 7541, section 5.1). Returns its length, at most
 * 11. */
static inline size_t write_int(uint8_t *at, uint8_t flags, int bits, uint64_t value) {
  uint64_t most = ((uint64_t)1 << bits) - 1;
  size_t len = 0;
  if (value < most) {
    at[len++] = (uint8_t)(flags | value);
    return len;
  }
  at[len++] = (uint8_t)(flags | most);
  for (value -= most; value > 127; value >>= 7) at[len++] = (uint8_t)(value | 128);
  at[len++] = (uint8_t)value;
  return len;
}

static inline void free_lists(void) {
  for (size_t i = 0; i < nlists; i++) {
    for (size_t k = 0; k < lists[i].len; k++) {
      free((void *)lists[i].nv[k].name);
      free((void *)lists[i].nv[k].value);
    }
    free(lists[i].nv);
    free(lists[i].ng);
  }
  free(lists);
  lists = NULL;
  nlists = nfields = 0;
}

/* Makes an encoder for a peer of these settings, whose table is as large as they allow. Returns the status. Each has one
 * seed, so that each run asks for the same memory. */
static inline int new_encoder(h3_qpack_encoder *e, uint64_t max_capacity, uint64_t max_blocked) {
  h3_qpack_encoder_settings settings;
  h3_qpack_encoder_settings_default(&settings);
  settings.max_capacity = settings.capacity = max_capacity;
  settings.max_blocked = max_blocked;
  settings.seed = 1;
  return h3_qpack_encoder_new(e, &settings);
}

/* Makes a decoder of these settings. Returns the status. */
static inline int new_decoder(h3_qpack_decoder *d, uint64_t max_capacity, uint64_t max_blocked, uint64_t max_section_size) {
  h3_qpack_decoder_settings settings;
  h3_qpack_decoder_settings_default(&settings);
  settings.max_capacity = max_capacity;
  settings.max_blocked = max_blocked;
  settings.max_section_size = max_section_size;
  return h3_qpack_decoder_new(d, &settings);
}

/* A field of a decoder is this one. */
static inline void check_field(h3_qpack_decoder *d, size_t index, const h3_qpack_nv *nv) {
  static _Thread_local uint8_t bytes[1 << 16];
  h3_qpack_field f = h3_qpack_decoder_field(d, index, bytes, sizeof bytes);
  CHECK(f.status == H3_QPACK_OK && f.namelen == nv->namelen && f.valuelen == nv->valuelen && f.flags == nv->flags);
  CHECK(!memcmp(bytes, nv->name, nv->namelen) && !memcmp(bytes + f.namelen, nv->value, nv->valuelen));
}

/* Fields that were written in one call, and their text of so many bytes, are these. */
static inline void check_written(const h3_qpack_field *fields, const uint8_t *text, size_t textlen, const h3_qpack_nv *nva,
                                 size_t nvlen) {
  size_t at = 0;
  for (size_t k = 0; k < nvlen; k++) {
    const h3_qpack_nv *nv = &nva[k];
    CHECK(fields[k].status == H3_QPACK_OK && fields[k].flags == (nv->flags & H3_QPACK_NV_FLAG_NEVER_INDEX));
    CHECK(fields[k].namelen == nv->namelen && fields[k].valuelen == nv->valuelen);
    CHECK(textlen - at >= nv->namelen + nv->valuelen);
    CHECK(!memcmp(text + at, nv->name, nv->namelen));
    CHECK(!memcmp(text + at + nv->namelen, nv->value, nv->valuelen));
    at += nv->namelen + nv->valuelen;
  }
  CHECK(at == textlen);
}

/* The fields of a decoder are these, one by one, and in one call, whose room is just large enough, or too small. */
static inline void check_fields(h3_qpack_decoder *d, const h3_qpack_nv *nva, size_t nvlen) {
  static _Thread_local uint8_t text[1 << 16];
  static _Thread_local h3_qpack_field fields[1 << 10];
  CHECK(nvlen <= sizeof fields / sizeof *fields);
  for (size_t k = 0; k < nvlen; k++) check_field(d, k, &nva[k]);
  h3_qpack_written w = h3_qpack_decoder_fields(d, fields, nvlen, text, sizeof text);
  CHECK(w.status == H3_QPACK_OK);
  check_written(fields, text, w.len, nva, nvlen);
  CHECK(h3_qpack_decoder_fields(d, fields, nvlen, text, w.len).status == H3_QPACK_OK);
  if (nvlen) {
    h3_qpack_written few = h3_qpack_decoder_fields(d, fields, nvlen - 1, text, sizeof text);
    CHECK(few.status == H3_QPACK_ERR_NO_ROOM && few.len == w.len);
  }
  if (w.len) CHECK(h3_qpack_decoder_fields(d, fields, nvlen, text, w.len - 1).status == H3_QPACK_ERR_NO_ROOM);
}

/* What a decoder sent after one section. */
typedef struct {
  uint8_t bytes[1 << 12];
  size_t len;
} answer;

/* Encodes fields for a stream and decodes them, and leaves what the decoder sends. Returns the bytes of the section and of
 * the encoder stream. */
static inline size_t exchange_list(h3_qpack_encoder *e, h3_qpack_decoder *d, uint64_t stream_id, const h3_qpack_nv *nva,
                                   size_t nvlen, answer *answer) {
  static _Thread_local uint8_t section[1 << 16], stream[1 << 16];
  h3_qpack_encoded a = h3_qpack_encoder_encode(e, stream_id, nva, nvlen, section, sizeof section);
  CHECK(a.status == H3_QPACK_OK);
  size_t len = h3_qpack_encoder_write_encoder(e, stream, sizeof stream);
  CHECK(h3_qpack_decoder_read_encoder(d, stream, len).status == H3_QPACK_OK);
  CHECK(h3_qpack_decoder_decode(d, stream_id, section, a.len).status == H3_QPACK_OK);
  check_fields(d, nva, nvlen);
  answer->len = h3_qpack_decoder_write_decoder(d, answer->bytes, sizeof answer->bytes);
  return a.len + len;
}

/* Hands bytes of the decoder stream to an encoder, which takes them all. */
static inline void hear(h3_qpack_encoder *e, const void *p, size_t len) {
  h3_qpack_received r = h3_qpack_encoder_read_decoder(e, p, len);
  CHECK(r.status == H3_QPACK_OK && r.taken == len);
}

#endif
