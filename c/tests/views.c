/* Fields where they lie in a decoder and in a reader: beside their copies, beside the static table, and while other calls
 * are made that decode nothing with it. */
#include "common.h"

enum { STATIC_FIELDS = 99, MOST_FIELDS = 1 << 10 };

static uint8_t section[1 << 16], stream[1 << 16];

/* The static table (Appendix A), as the library decodes a line for each index. */
static h3_qpack_nv table[STATIC_FIELDS];
static uint8_t table_text[1 << 13];

static void read_static_table(void) {
  static h3_qpack_field fields[STATIC_FIELDS];
  size_t len = 2, at = 0;
  section[0] = section[1] = 0;
  for (size_t i = 0; i < STATIC_FIELDS; i++) len += write_int(section + len, 0xc0, 6, i);
  h3_qpack_decoded_alone got =
      h3_qpack_decode_stateless(section, len, 1 << 16, fields, STATIC_FIELDS, table_text, sizeof table_text);
  CHECK(got.status == H3_QPACK_OK && got.fields == STATIC_FIELDS);
  for (size_t i = 0; i < STATIC_FIELDS; i++) {
    const uint8_t *name = table_text + at, *value = name + fields[i].namelen;
    table[i] = (h3_qpack_nv){name, fields[i].namelen, value, fields[i].valuelen, 0};
    at += fields[i].namelen + fields[i].valuelen;
  }
}

static int is_text(const uint8_t *a, size_t alen, const uint8_t *b, size_t blen) {
  return alen == blen && !memcmp(a, b, alen);
}

/* The first index of the static table that has a name, or a name and a value. */
static int find_static(const h3_qpack_view *v, int has_value) {
  for (int i = 0; i < STATIC_FIELDS; i++)
    if (is_text(table[i].name, table[i].namelen, v->name, v->namelen) &&
        (!has_value || is_text(table[i].value, table[i].valuelen, v->value, v->valuelen)))
      return i;
  return H3_QPACK_NOT_STATIC;
}

static void check_view(const h3_qpack_view *v, const h3_qpack_nv *nv) {
  CHECK(is_text(v->name, v->namelen, nv->name, nv->namelen) && is_text(v->value, v->valuelen, nv->value, nv->valuelen));
  CHECK(v->value == v->name + v->namelen && v->flags == nv->flags);
  CHECK(v->static_name == find_static(v, 0) && v->static_field == find_static(v, 1));
}

/* The views of a decoder are of these fields, one by one, and all at once. Their texts follow one another. */
static void check_views(h3_qpack_decoder *d, const h3_qpack_nv *nva, size_t nvlen) {
  static h3_qpack_view all[MOST_FIELDS];
  h3_qpack_view one;
  CHECK(nvlen < MOST_FIELDS && h3_qpack_decoder_views(d, all, MOST_FIELDS) == nvlen);
  for (size_t i = 0; i < nvlen; i++) {
    CHECK(h3_qpack_decoder_view(d, i, &one) == H3_QPACK_OK && one.name == all[i].name && one.value == all[i].value);
    check_view(&one, &nva[i]);
    check_view(&all[i], &nva[i]);
    if (i) CHECK(all[i].name == all[i - 1].value + all[i - 1].valuelen);
  }
  CHECK(h3_qpack_decoder_view(d, nvlen, &one) == H3_QPACK_ERR_INVALID);
}

/* The fields of a section in pieces, each viewed as the reader gives it. */
static void check_pieces(h3_qpack_decoder *d, uint64_t stream_id, size_t len, const list *l) {
  h3_qpack_section_reader r;
  h3_qpack_piece piece = {H3_QPACK_OK, 0, 0, 0, 0};
  h3_qpack_view v;
  size_t at = 0, given = 0;
  CHECK(!h3_qpack_section_reader_new(&r, stream_id));
  while (piece.status == H3_QPACK_OK || piece.status == H3_QPACK_FIELD) {
    size_t part = 1 + random_below(40);
    if (part > len - at) part = len - at;
    CHECK(h3_qpack_section_reader_view(&r, &v) == (piece.status == H3_QPACK_FIELD ? H3_QPACK_OK : H3_QPACK_ERR_INVALID));
    piece = h3_qpack_section_reader_read(&r, d, section + at, part, at + part == len);
    at += piece.taken;
    if (piece.status != H3_QPACK_FIELD) continue;
    CHECK(h3_qpack_section_reader_view(&r, &v) == H3_QPACK_OK);
    check_view(&v, &l->nv[given++]);
  }
  CHECK(piece.status == H3_QPACK_END && given == l->len);
  CHECK(h3_qpack_section_reader_view(&r, &v) == H3_QPACK_ERR_INVALID);
  h3_qpack_section_reader_del(&r);
}

/* Lists of a corpus and at random, whole and in pieces. The views of the whole stay while the pieces are read. */
static void view_lists(void) {
  h3_qpack_encoder e;
  h3_qpack_decoder d;
  CHECK(!new_encoder(&e, 4096, 100) && !new_decoder(&d, 4096, 100, 1 << 20));
  for (size_t i = 0; i < nlists; i++) {
    const list *l = &lists[i];
    h3_qpack_encoded a = h3_qpack_encoder_encode(&e, 2 * i, l->nv, l->len, section, sizeof section);
    size_t len = h3_qpack_encoder_write_encoder(&e, stream, sizeof stream);
    CHECK(a.status == H3_QPACK_OK && h3_qpack_decoder_read_encoder(&d, stream, len).status == H3_QPACK_OK);
    CHECK(h3_qpack_decoder_decode(&d, 2 * i, section, a.len).status == H3_QPACK_OK);
    check_fields(&d, l->nv, l->len);
    check_views(&d, l->nv, l->len);
    len = h3_qpack_decoder_write_decoder(&d, stream, sizeof stream);
    hear(&e, stream, len);
    check_pieces(&d, 2 * i + 1, a.len, l);
    check_views(&d, l->nv, l->len);
    h3_qpack_decoder_write_decoder(&d, stream, sizeof stream); /* what the encoder did not ask for */
  }
  h3_qpack_encoder_del(&e);
  h3_qpack_decoder_del(&d);
}

/* Each field of the static table, and its name with a value that no field has. */
static void view_static_table(void) {
  h3_qpack_decoder d;
  h3_qpack_view v;
  CHECK(!new_decoder(&d, 0, 0, 1 << 16));
  section[0] = section[1] = 0;
  for (size_t i = 0; i < STATIC_FIELDS; i++) {
    size_t len = 2 + write_int(section + 2, 0xc0, 6, i);
    CHECK(h3_qpack_decoder_decode(&d, 0, section, len).status == H3_QPACK_OK);
    check_views(&d, &table[i], 1);
    CHECK(!h3_qpack_decoder_view(&d, 0, &v) && v.static_field == (int)i);
    len = 2 + write_int(section + 2, 0x70, 4, i); /* never indexed, and named by this field */
    memcpy(section + len, "\x05other", 6);
    CHECK(h3_qpack_decoder_decode(&d, 0, section, len + 6).status == H3_QPACK_OK);
    h3_qpack_nv other = {table[i].name, table[i].namelen, (const uint8_t *)"other", 5, H3_QPACK_NV_FLAG_NEVER_INDEX};
    check_views(&d, &other, 1);
    CHECK(!h3_qpack_decoder_view(&d, 0, &v) && v.static_name >= 0 && v.static_field == H3_QPACK_NOT_STATIC);
  }
  h3_qpack_decoder_del(&d);
}

/* Empty names and values, no field, what is not there, and pointers that are NULL. */
static void view_little(void) {
  static const char text[] = "\0\0\x20\x00\x21x\x00\x20\x01y";
  static const h3_qpack_nv three[] = {{(const uint8_t *)"", 0, (const uint8_t *)"", 0, 0},
                                      {(const uint8_t *)"x", 1, (const uint8_t *)"", 0, 0},
                                      {(const uint8_t *)"", 0, (const uint8_t *)"y", 1, 0}};
  h3_qpack_decoder d, none = {NULL};
  h3_qpack_section_reader r, no_reader = {NULL};
  h3_qpack_view v, before, two[2];
  memset(&before, 0xee, sizeof before);
  v = before;
  CHECK(!new_decoder(&d, 4096, 1, 1 << 16) && !h3_qpack_section_reader_new(&r, 0));
  check_views(&d, NULL, 0);
  CHECK(h3_qpack_decoder_view(&d, 0, &v) == H3_QPACK_ERR_INVALID);
  CHECK(h3_qpack_decoder_decode(&d, 0, (const uint8_t *)text, sizeof text - 1).status == H3_QPACK_OK);
  check_views(&d, three, 3);
  CHECK(h3_qpack_decoder_views(&d, two, 2) == 2 && two[1].namelen == 1 && !two[1].valuelen);
  CHECK(!h3_qpack_decoder_views(&d, two, 0) && !h3_qpack_decoder_views(&d, NULL, 0) && !h3_qpack_decoder_views(&d, NULL, 2));
  CHECK(h3_qpack_decoder_view(&d, 3, &v) == H3_QPACK_ERR_INVALID);
  CHECK(h3_qpack_decoder_view(&d, SIZE_MAX, &v) == H3_QPACK_ERR_INVALID);
  CHECK(h3_qpack_decoder_view(&d, 0, NULL) == H3_QPACK_ERR_INVALID);
  CHECK(h3_qpack_decoder_view(NULL, 0, &v) == H3_QPACK_ERR_INVALID && !h3_qpack_decoder_views(NULL, two, 2));
  CHECK(h3_qpack_decoder_view(&none, 0, &v) == H3_QPACK_ERR_INVALID && !h3_qpack_decoder_views(&none, two, 2));
  CHECK(h3_qpack_section_reader_view(&r, &v) == H3_QPACK_ERR_INVALID);
  CHECK(h3_qpack_section_reader_view(&no_reader, &v) == H3_QPACK_ERR_INVALID);
  CHECK(h3_qpack_section_reader_view(NULL, &v) == H3_QPACK_ERR_INVALID);
  CHECK(h3_qpack_section_reader_read(&r, &d, (const uint8_t *)"\0\0\xd1", 3, 0).status == H3_QPACK_FIELD);
  CHECK(h3_qpack_section_reader_view(&r, NULL) == H3_QPACK_ERR_INVALID);
  CHECK(!memcmp(&v, &before, sizeof v)); /* none of these stored anything */
  CHECK(h3_qpack_section_reader_view(&r, &v) == H3_QPACK_OK && v.static_name == 15 && v.static_field == 17);
  h3_qpack_section_reader_del(&r);
  CHECK(h3_qpack_decoder_decode(&d, 0, (const uint8_t *)"\0\0", 2).status == H3_QPACK_OK); /* no field */
  check_views(&d, NULL, 0);
  CHECK(h3_qpack_decoder_decode(&d, 4, (const uint8_t *)"\x02\0\x80", 3).status == H3_QPACK_BLOCKED);
  check_views(&d, NULL, 0);
  h3_qpack_decoder_del(&d);
}

/* Views stay where they are, with their bytes, over calls that decode no section with the decoder. */
static void keep_views(void) {
  static const h3_qpack_nv fields[] = {{(const uint8_t *)":method", 7, (const uint8_t *)"GET", 3, 0},
                                       {(const uint8_t *)"x-other-name.", 13, (const uint8_t *)"value", 5, 0},
                                       {(const uint8_t *)":path", 5, (const uint8_t *)"/some/path", 10, 0}};
  h3_qpack_decoder d;
  h3_qpack_section_reader r;
  h3_qpack_view before[3], after[3], v;
  uint8_t bytes[64];
  uint64_t ready;
  size_t len = 2;
  section[0] = section[1] = 0;
  for (size_t i = 0; i < 3; i++) { /* literals with literal names */
    len += write_int(section + len, 0x20, 3, fields[i].namelen);
    memcpy(section + len, fields[i].name, fields[i].namelen);
    len += fields[i].namelen;
    len += write_int(section + len, 0x00, 7, fields[i].valuelen);
    memcpy(section + len, fields[i].value, fields[i].valuelen);
    len += fields[i].valuelen;
  }
  CHECK(!new_decoder(&d, 100, 2, 1 << 16) && !h3_qpack_section_reader_new(&r, 8));
  /* the section may go */
  CHECK(h3_qpack_decoder_decode(&d, 0, section, len).fields == 3 && h3_qpack_decoder_views(&d, before, 3) == 3);
  memset(section, 0xee, len);
  /* the capacity of 100 bytes, and insertions, most of which evict */
  CHECK(h3_qpack_decoder_read_encoder(&d, (const uint8_t *)"\x3f\x45", 2).status == H3_QPACK_OK);
  for (int i = 0; i < 200; i++) {
    CHECK(h3_qpack_decoder_read_encoder(&d, (const uint8_t *)"\x43xyz\x02pq", 7).status == H3_QPACK_OK);
    if (i == 100) CHECK(h3_qpack_decoder_cancel_stream(&d, 4) == H3_QPACK_OK);
  }
  while (h3_qpack_decoder_write_decoder(&d, bytes, sizeof bytes)) continue;
  CHECK(h3_qpack_decoder_peek_prefix(&d, (const uint8_t *)"\0\0", 2).status == H3_QPACK_OK);
  CHECK(!h3_qpack_decoder_next_ready(&d, &ready) && h3_qpack_decoder_entry(&d, 0, bytes, sizeof bytes).namelen == 3);
  check_fields(&d, fields, 3);
  CHECK(h3_qpack_section_reader_read(&r, &d, (const uint8_t *)"\0\0\xd1\xc1", 4, 1).status == H3_QPACK_FIELD);
  CHECK(!h3_qpack_section_reader_view(&r, &v) && v.static_field == 17);
  CHECK(h3_qpack_decoder_decode(&d, (uint64_t)1 << 62, NULL, 0).status == H3_QPACK_ERR_INVALID); /* reads nothing */
  CHECK(h3_qpack_decoder_views(&d, after, 3) == 3 && !memcmp(before, after, sizeof after));
  for (size_t i = 0; i < 3; i++) check_view(&before[i], &fields[i]);
  CHECK(h3_qpack_decoder_decode(&d, 12, (const uint8_t *)"\0\0\xc1", 3).status == H3_QPACK_OK);
  CHECK(is_text(v.name, v.namelen, (const uint8_t *)":method", 7)); /* the reader's stays over a decode */
  check_views(&d, &table[1], 1);
  h3_qpack_section_reader_del(&r);
  h3_qpack_decoder_del(&d);
}

int main(int argc, char **argv) {
  CHECK(argc == 2);
  read_static_table();
  read_corpus(argv[1], 0);
  add_random_lists(50);
  view_lists();
  view_static_table();
  view_little();
  keep_views();
  printf("views: %zu fields of %zu lists, whole and in pieces\n", nfields, nlists);
  free_lists();
  return 0;
}
