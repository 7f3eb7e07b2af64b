/* Every call once where it succeeds, and each refusal; and two threads with ends of their own. */
#include <pthread.h>
#include "common.h"

static uint8_t section[1 << 16], stream[1 << 16], bytes[1 << 12];
static h3_qpack_field fields[1 << 6];

static const h3_qpack_nv get = {(const uint8_t *)":method", 7, (const uint8_t *)"GET", 3, 0};
static const h3_qpack_nv custom = {(const uint8_t *)"foo", 3, (const uint8_t *)"bar", 3, 0};
static const h3_qpack_nv secret = {(const uint8_t *)"foo", 3, (const uint8_t *)"bar", 3, H3_QPACK_NV_FLAG_NEVER_INDEX};

/* A caller of the version that the library has, which is this header's, and callers of others. */
static void compare_versions(void) {
  static const uint32_t others[] = {0, H3_QPACK_VERSION - 1, H3_QPACK_VERSION + 1, H3_QPACK_VERSION + 0x10000, UINT32_MAX};
  h3_qpack_encoder_settings es, es_before;
  h3_qpack_decoder_settings ds, ds_before;
  CHECK(h3_qpack_version() == H3_QPACK_VERSION && H3_QPACK_VERSION == 2);
  memset(&es_before, 0, sizeof es);
  memset(&ds_before, 0, sizeof ds);
  for (size_t i = 0; i < sizeof others / sizeof *others; i++) {
    h3_qpack_encoder e = {&es};
    h3_qpack_decoder d = {&ds};
    es = es_before;
    ds = ds_before;
    h3_qpack_encoder_settings_default_versioned(others[i], &es);
    h3_qpack_decoder_settings_default_versioned(others[i], &ds);
    CHECK(!memcmp(&es, &es_before, sizeof es) && !memcmp(&ds, &ds_before, sizeof ds));
    CHECK(h3_qpack_encoder_new_versioned(&e, others[i], &es) == H3_QPACK_ERR_VERSION && !e.at);
    CHECK(h3_qpack_decoder_new_versioned(&d, others[i], &ds) == H3_QPACK_ERR_VERSION && !d.at);
  }
}

/* The defaults, and that each setting of an encoder is what it says. Those of a decoder are in the cases below. */
static void use_settings(void) {
  h3_qpack_encoder_settings es, others;
  h3_qpack_decoder_settings ds;
  h3_qpack_encoder e;
  static const h3_qpack_nv insert = {(const uint8_t *)"foo", 3, (const uint8_t *)"bar", 3, H3_QPACK_NV_FLAG_INSERT};
  h3_qpack_encoder_settings_default(NULL);
  h3_qpack_decoder_settings_default(NULL);
  h3_qpack_encoder_settings_default(&es);
  h3_qpack_encoder_settings_default(&others);
  h3_qpack_decoder_settings_default(&ds);
  CHECK(!es.max_capacity && !es.max_blocked && es.capacity == 16384 && es.most_unacknowledged == 100);
#ifdef __wasm__
  CHECK(!es.seed && !others.seed);
#else
  CHECK(es.seed && others.seed && es.seed != others.seed);
#endif
  CHECK(!ds.max_capacity && !ds.max_blocked && ds.max_section_size == 65536);
  es.max_capacity = 200;
  es.max_blocked = 3;
  es.capacity = 100;
  es.most_unacknowledged = 2;
  CHECK(!h3_qpack_encoder_new(&e, &es));
  for (uint64_t id = 0; id < 3; id++) /* the third section would be one unacknowledged too many */
    CHECK(h3_qpack_encoder_encode(&e, id, &insert, 1, section, sizeof section).required == (id < 2));
  CHECK(h3_qpack_encoder_write_encoder(&e, stream, 2) == 2 && !memcmp(stream, "\x3f\x45", 2)); /* 100 bytes */
  CHECK(h3_qpack_encoder_set_capacity(&e, 201) == H3_QPACK_ERR_INVALID && !h3_qpack_encoder_set_capacity(&e, 200));
  h3_qpack_encoder_del(&e);
  es.max_blocked = 1;
  es.most_unacknowledged = 3;
  CHECK(!h3_qpack_encoder_new(&e, &es));
  for (uint64_t id = 0; id < 2; id++) /* the second section would be one blocked too many */
    CHECK(h3_qpack_encoder_encode(&e, id, &insert, 1, section, sizeof section).required == (id < 1));
  CHECK(h3_qpack_encoder_get_num_blocked(&e) == 1);
  h3_qpack_encoder_del(&e);
}

/* Whether an encoder that an error ended returns its status from each later call. */
static int is_over(h3_qpack_encoder *e, int status) {
  size_t pending;
  return h3_qpack_encoder_encode(e, 0, &get, 1, section, sizeof section).status == status &&
         h3_qpack_encoder_set_peer_settings(e, 0, 0) == status && h3_qpack_encoder_set_capacity(e, 0) == status &&
         h3_qpack_encoder_shrink(e, 0) == status && !h3_qpack_encoder_get_pending_capacity(e, &pending) &&
         h3_qpack_encoder_read_decoder(e, NULL, 0).status == status;
}

/* An encoder that is made before the peer's settings come, and those that end a connection. */
static void take_peer_settings(void) {
  h3_qpack_encoder_settings none;
  h3_qpack_encoder e;
  h3_qpack_decoder d;
  h3_qpack_encoder_settings_default(&none);
  CHECK(!h3_qpack_encoder_new(&e, &none) && !new_decoder(&d, 4096, 1, 100));
  h3_qpack_encoded a = h3_qpack_encoder_encode(&e, 0, &custom, 1, section, sizeof section);
  CHECK(a.status == H3_QPACK_OK && !a.required && !h3_qpack_encoder_get_encoder_streamlen(&e));
  CHECK(h3_qpack_decoder_decode(&d, 0, section, a.len).status == H3_QPACK_OK);
  check_fields(&d, &custom, 1);
  hear(&e, (const uint8_t *)"\x40", 1);
  CHECK(h3_qpack_encoder_set_peer_settings(NULL, 4096, 1) == H3_QPACK_ERR_INVALID);
  CHECK(h3_qpack_encoder_set_peer_settings(&e, 1 << 30, 1) == H3_QPACK_ERR_INVALID);
  CHECK(h3_qpack_encoder_set_peer_settings(&e, 4096, 1) == H3_QPACK_OK);
  a = h3_qpack_encoder_encode(&e, 4, &custom, 1, section, sizeof section);
  CHECK(a.status == H3_QPACK_OK && a.required == 1 && h3_qpack_encoder_get_capacity(&e) == 4096);
  size_t len = h3_qpack_encoder_write_encoder(&e, stream, sizeof stream);
  CHECK(h3_qpack_decoder_read_encoder(&d, stream, len).status == H3_QPACK_OK);
  CHECK(h3_qpack_decoder_decode(&d, 4, section, a.len).status == H3_QPACK_OK);
  check_fields(&d, &custom, 1);
  CHECK(!h3_qpack_encoder_encode(&e, 8, &get, 1, section, sizeof section).required);
  CHECK(h3_qpack_encoder_set_peer_settings(&e, 4096, 2) == H3_QPACK_OK);
  CHECK(h3_qpack_encoder_set_peer_settings(&e, 4096, 1) == H3_QPACK_SETTINGS_ERROR);
  CHECK(is_over(&e, H3_QPACK_SETTINGS_ERROR));
  h3_qpack_encoder_del(&e);
  CHECK(!new_encoder(&e, 4096, 1));
  CHECK(h3_qpack_encoder_set_peer_settings(&e, 0, 1) == H3_QPACK_DECODER_STREAM_ERROR);
  CHECK(is_over(&e, H3_QPACK_DECODER_STREAM_ERROR));
  h3_qpack_encoder_del(&e);
  h3_qpack_decoder_del(&d);
}

/* Null ends, null memory with a length, and lengths that are too great; null with a length of 0 is taken. */
static void refuse_arguments(void) {
  h3_qpack_encoder none = {NULL}, e;
  h3_qpack_decoder nothing = {NULL}, d;
  size_t much = (size_t)PTRDIFF_MAX + 1, pending;
  h3_qpack_nv null_name = {NULL, 1, (const uint8_t *)"", 0, 0}, null_value = {(const uint8_t *)"a", 1, NULL, 1, 0};
  uint64_t id = 7;
  CHECK(new_encoder(NULL, 0, 0) == H3_QPACK_ERR_INVALID && new_decoder(NULL, 0, 0, 0) == H3_QPACK_ERR_INVALID);
  CHECK(h3_qpack_encoder_new(&e, NULL) == H3_QPACK_ERR_INVALID && !e.at);
  CHECK(h3_qpack_decoder_new(&d, NULL) == H3_QPACK_ERR_INVALID && !d.at);
  CHECK(new_encoder(&e, (size_t)1 << 30, 0) == H3_QPACK_ERR_INVALID && !e.at);
  CHECK(new_decoder(&d, (size_t)1 << 30, 0, 0) == H3_QPACK_ERR_INVALID && !d.at);
  CHECK(new_decoder(&d, 0, 65535, 0) == H3_QPACK_ERR_INVALID && !d.at);
  CHECK(h3_qpack_encoder_encode(&none, 0, &get, 1, section, 9).status == H3_QPACK_ERR_INVALID);
  CHECK(h3_qpack_encoder_section(NULL, section, 9).status == H3_QPACK_ERR_INVALID);
  CHECK(h3_qpack_encoder_read_decoder(&none, NULL, 0).status == H3_QPACK_ERR_INVALID);
  CHECK(h3_qpack_encoder_set_capacity(&none, 0) == H3_QPACK_ERR_INVALID);
  CHECK(h3_qpack_encoder_shrink(&none, 0) == H3_QPACK_ERR_INVALID);
  CHECK(!h3_qpack_encoder_get_pending_capacity(&none, &pending));
  CHECK(!h3_qpack_encoder_write_encoder(&none, section, 9) && !h3_qpack_encoder_get_encoder_streamlen(NULL));
  CHECK(!h3_qpack_encoder_get_num_blocked(&none) && !h3_qpack_encoder_get_num_unacked(NULL));
  CHECK(!h3_qpack_encoder_get_icnt(&none) && !h3_qpack_encoder_get_krcnt(&none));
  CHECK(!h3_qpack_encoder_get_capacity(NULL) && !h3_qpack_encoder_get_table_size(&none));
  CHECK(!h3_qpack_encoder_get_num_entries(&none));
  CHECK(h3_qpack_encoder_entry(&none, 0, section, 2).status == H3_QPACK_ERR_INVALID);
  CHECK(h3_qpack_decoder_peek_prefix(&nothing, section, 2).status == H3_QPACK_ERR_INVALID);
  CHECK(h3_qpack_decoder_decode(&nothing, 0, section, 2).status == H3_QPACK_ERR_INVALID);
  CHECK(h3_qpack_decoder_field(NULL, 0, section, 2).status == H3_QPACK_ERR_INVALID);
  CHECK(h3_qpack_decoder_read_encoder(&nothing, NULL, 0).status == H3_QPACK_ERR_INVALID);
  CHECK(h3_qpack_decoder_cancel_stream(&nothing, 0) == H3_QPACK_ERR_INVALID);
  CHECK(!h3_qpack_decoder_write_decoder(&nothing, section, 2) && !h3_qpack_decoder_get_decoder_streamlen(&nothing));
  CHECK(!h3_qpack_decoder_get_icnt(NULL) && !h3_qpack_decoder_get_num_blocked(&nothing));
  CHECK(!h3_qpack_decoder_get_capacity(&nothing) && !h3_qpack_decoder_get_table_size(NULL));
  CHECK(!h3_qpack_decoder_get_num_entries(&nothing));
  CHECK(h3_qpack_decoder_entry(NULL, 0, section, 2).status == H3_QPACK_ERR_INVALID);
  CHECK(!h3_qpack_decoder_next_ready(&nothing, &id) && id == 7);
  h3_qpack_encoder_del(NULL);
  h3_qpack_encoder_del(&none);
  h3_qpack_decoder_del(NULL);
  h3_qpack_decoder_del(&nothing);

  CHECK(!new_encoder(&e, 4096, 1) && !new_decoder(&d, 4096, 1, 100));
  CHECK(h3_qpack_encoder_encode(&e, 0, NULL, 1, section, 9).status == H3_QPACK_ERR_INVALID);
  CHECK(h3_qpack_encoder_encode(&e, 0, &null_name, 1, section, 9).status == H3_QPACK_ERR_INVALID);
  CHECK(h3_qpack_encoder_encode(&e, 0, &null_value, 1, section, 9).status == H3_QPACK_ERR_INVALID);
  CHECK(h3_qpack_encode_stateless(&null_value, 1, section, 9).status == H3_QPACK_ERR_INVALID);
  CHECK(h3_qpack_encoder_encode(&e, 0, &get, 1, NULL, 1).status == H3_QPACK_ERR_INVALID);
  CHECK(h3_qpack_encoder_encode(&e, 0, &get, 1, section, much).status == H3_QPACK_ERR_INVALID);
  CHECK(h3_qpack_encoder_encode(&e, 0, &get, much, section, 9).status == H3_QPACK_ERR_INVALID);
  CHECK(h3_qpack_encoder_encode(&e, (uint64_t)1 << 62, &get, 1, section, 9).status == H3_QPACK_ERR_INVALID);
  CHECK(!h3_qpack_encoder_get_encoder_streamlen(&e));
  CHECK(h3_qpack_encoder_read_decoder(&e, NULL, 1).status == H3_QPACK_ERR_INVALID);
  CHECK(h3_qpack_encoder_read_decoder(&e, NULL, 0).status == H3_QPACK_OK);
  CHECK(h3_qpack_encoder_set_capacity(&e, 4097) == H3_QPACK_ERR_INVALID);
  CHECK(h3_qpack_encoder_entry(&e, 0, bytes, sizeof bytes).status == H3_QPACK_ERR_INVALID);
  CHECK(h3_qpack_decoder_entry(&d, 0, bytes, sizeof bytes).status == H3_QPACK_ERR_INVALID);
  CHECK(h3_qpack_decoder_peek_prefix(&d, NULL, 1).status == H3_QPACK_ERR_INVALID);
  CHECK(h3_qpack_decoder_decode(&d, 0, NULL, 1).status == H3_QPACK_ERR_INVALID);
  CHECK(h3_qpack_decoder_decode(&d, (uint64_t)1 << 62, section, 0).status == H3_QPACK_ERR_INVALID);
  CHECK(h3_qpack_decoder_cancel_stream(&d, (uint64_t)1 << 62) == H3_QPACK_ERR_INVALID);
  CHECK(h3_qpack_decoder_field(&d, 0, bytes, sizeof bytes).status == H3_QPACK_ERR_INVALID);
  CHECK(h3_qpack_decoder_fields(&d, NULL, 1, bytes, 9).status == H3_QPACK_ERR_INVALID);
  CHECK(h3_qpack_decoder_fields(&d, fields, much / sizeof *fields + 1, bytes, 9).status == H3_QPACK_ERR_INVALID);
  CHECK(h3_qpack_decoder_fields(&d, fields, 1, NULL, 9).status == H3_QPACK_ERR_INVALID);
  CHECK(h3_qpack_decoder_fields(&d, NULL, 0, NULL, 0).status == H3_QPACK_OK);
  CHECK(!h3_qpack_decoder_next_ready(&d, NULL));
  CHECK(h3_qpack_encode_stateless(NULL, 1, section, 9).status == H3_QPACK_ERR_INVALID);
  CHECK(h3_qpack_decode_stateless(NULL, 1, 9, fields, 1, bytes, 9).status == H3_QPACK_ERR_INVALID);
  CHECK(h3_qpack_decode_stateless(section, 2, 9, NULL, 1, bytes, 9).status == H3_QPACK_ERR_INVALID);
  CHECK(h3_qpack_decode_stateless(section, 2, 9, fields, 1, NULL, 9).status == H3_QPACK_ERR_INVALID);
  CHECK(h3_qpack_decode_stateless(section, much, 9, fields, 1, bytes, 9).status == H3_QPACK_ERR_INVALID);
  h3_qpack_encoder_del(&e);
  h3_qpack_encoder_del(&e);
  h3_qpack_decoder_del(&d);
  h3_qpack_decoder_del(&d);
}

/* A pointer of a field may be null where its length is 0: the section is that of empty texts. */
static void take_null_texts(void) {
  const uint8_t *some = (const uint8_t *)"";
  h3_qpack_nv nulls[] = {{NULL, 0, NULL, 0, 0}, get, {(const uint8_t *)"x", 1, NULL, 0, H3_QPACK_NV_FLAG_INSERT}};
  h3_qpack_nv texts[] = {{some, 0, some, 0, 0}, get, {(const uint8_t *)"x", 1, some, 0, H3_QPACK_NV_FLAG_INSERT}};
  uint8_t others[64];
  h3_qpack_written w = h3_qpack_encode_stateless(nulls, 3, section, sizeof others);
  CHECK(w.status == H3_QPACK_OK && w.len == h3_qpack_encode_stateless(texts, 3, others, sizeof others).len);
  CHECK(!memcmp(section, others, w.len));
  h3_qpack_encoder e, other;
  CHECK(!new_encoder(&e, 4096, 1) && !new_encoder(&other, 4096, 1));
  h3_qpack_encoded a = h3_qpack_encoder_encode(&e, 0, nulls, 3, section, sizeof others);
  h3_qpack_encoded b = h3_qpack_encoder_encode(&other, 0, texts, 3, others, sizeof others);
  CHECK(a.status == H3_QPACK_OK && b.status == H3_QPACK_OK && a.len == b.len && a.required == b.required);
  CHECK(a.required && !memcmp(section, others, a.len));
  CHECK(nulls[0].name == NULL && nulls[2].value == NULL);
  h3_qpack_encoder_del(&e);
  h3_qpack_encoder_del(&other);
}

/* Memory that is too small changes nothing in it, and what was made is had by a second call. */
static void ask_for_room(void) {
  h3_qpack_encoder e;
  h3_qpack_decoder d;
  CHECK(!new_encoder(&e, 0, 0) && !new_decoder(&d, 0, 0, 100));
  memset(section, 0xee, 4);
  h3_qpack_encoded a = h3_qpack_encoder_encode(&e, 0, &get, 1, section, 2);
  CHECK(a.status == H3_QPACK_ERR_NO_ROOM && a.len == 3 && !a.required && section[0] == 0xee && section[1] == 0xee);
  CHECK(a.size == 42);
  h3_qpack_written w = h3_qpack_encoder_section(&e, NULL, 0);
  CHECK(w.status == H3_QPACK_ERR_NO_ROOM && w.len == 3);
  w = h3_qpack_encoder_section(&e, section, 4);
  CHECK(w.status == H3_QPACK_OK && w.len == 3 && !memcmp(section, "\0\0\xd1\xee", 4));
  h3_qpack_decoded r = h3_qpack_decoder_decode(&d, 0, section, 3);
  CHECK(r.status == H3_QPACK_OK && r.fields == 1 && r.len == 10 && !r.required);
  memset(bytes, 0xee, 11);
  h3_qpack_field f = h3_qpack_decoder_field(&d, 0, bytes, 9);
  CHECK(f.status == H3_QPACK_ERR_NO_ROOM && f.namelen == 7 && f.valuelen == 3 && !f.flags && bytes[0] == 0xee);
  f = h3_qpack_decoder_field(&d, 0, bytes, 11);
  CHECK(f.status == H3_QPACK_OK && !memcmp(bytes, ":methodGET\xee", 11));
  CHECK(h3_qpack_decoder_field(&d, 1, bytes, 11).status == H3_QPACK_ERR_INVALID);
  a = h3_qpack_encoder_encode(&e, 4, &secret, 1, section, sizeof section);
  CHECK(a.status == H3_QPACK_OK && section[2] & 0x10);
  r = h3_qpack_decoder_decode(&d, 4, section, a.len);
  CHECK(r.status == H3_QPACK_OK && r.fields == 1);
  check_field(&d, 0, &secret);
  w = h3_qpack_encode_stateless(&get, 1, section, 2);
  CHECK(w.status == H3_QPACK_ERR_NO_ROOM && w.len == 3);
  w = h3_qpack_encode_stateless(&get, 1, section, 3);
  CHECK(w.status == H3_QPACK_OK && !memcmp(section, "\0\0\xd1", 3));
  a = h3_qpack_encoder_encode(&e, 8, NULL, 0, section, 2);
  CHECK(a.status == H3_QPACK_OK && a.len == 2 && !a.size);
  r = h3_qpack_decoder_decode(&d, 8, section, 2);
  CHECK(r.status == H3_QPACK_OK && !r.fields && !r.len);
  h3_qpack_encoder_del(&e);
  h3_qpack_decoder_del(&d);
}

/* Whether the bytes have a prefix that says this. */
static int is_prefix(h3_qpack_decoder *d, const char *bytes, size_t len, int status, size_t required, size_t base,
                     size_t prefix) {
  h3_qpack_prefix p = h3_qpack_decoder_peek_prefix(d, (const uint8_t *)bytes, len);
  return p.status == status && p.required == required && p.base == base && p.len == prefix;
}

/* What the prefix of a section says before and after the insertion that it requires, and that reading it changes nothing. */
static void peek_prefixes(void) {
  h3_qpack_encoder e;
  h3_qpack_decoder d;
  CHECK(!new_encoder(&e, 4096, 1) && !new_decoder(&d, 4096, 1, 100));
  h3_qpack_encoded a = h3_qpack_encoder_encode(&e, 0, &custom, 1, section, sizeof section);
  CHECK(a.status == H3_QPACK_OK && a.required == 1);
  h3_qpack_prefix p = h3_qpack_decoder_peek_prefix(&d, section, a.len);
  CHECK(p.status == H3_QPACK_BLOCKED && p.required == 1 && p.len == 2);
  CHECK(!h3_qpack_decoder_get_num_blocked(&d) && !h3_qpack_decoder_get_decoder_streamlen(&d));
  size_t len = h3_qpack_encoder_write_encoder(&e, stream, sizeof stream);
  CHECK(h3_qpack_decoder_read_encoder(&d, stream, len).status == H3_QPACK_OK);
  len = h3_qpack_decoder_get_decoder_streamlen(&d);
  CHECK(h3_qpack_decoder_peek_prefix(&d, section, 2).status == H3_QPACK_OK);
  CHECK(is_prefix(&d, "\x02\x00", 2, H3_QPACK_OK, 1, 1, 2) && is_prefix(&d, "\x02\x80\xff", 3, H3_QPACK_OK, 1, 0, 2));
  CHECK(is_prefix(&d, "\x03\x05", 2, H3_QPACK_BLOCKED, 2, 7, 2));
  CHECK(is_prefix(&d, "\x00\x00\xd1", 3, H3_QPACK_OK, 0, 0, 2));
  CHECK(is_prefix(&d, "\x02\x7f\x00", 3, H3_QPACK_OK, 1, 128, 3));
  CHECK(is_prefix(&d, "", 0, H3_QPACK_DECOMPRESSION_FAILED, 0, 0, 0));
  CHECK(is_prefix(&d, "\x02", 1, H3_QPACK_DECOMPRESSION_FAILED, 0, 0, 0));
  CHECK(is_prefix(&d, "\x00\x80", 2, H3_QPACK_DECOMPRESSION_FAILED, 0, 0, 0));
  CHECK(is_prefix(&d, "\xff\xff\xff\xff\xff\x00\x00", 7, H3_QPACK_DECOMPRESSION_FAILED, 0, 0, 0));
  CHECK(h3_qpack_decoder_get_decoder_streamlen(&d) == len);
  CHECK(h3_qpack_decoder_decode(&d, 0, section, a.len).status == H3_QPACK_OK);
  check_fields(&d, &custom, 1);
  h3_qpack_encoder_del(&e);
  h3_qpack_decoder_del(&d);
  CHECK(!new_decoder(&d, 0, 0, 100));
  CHECK(is_prefix(&d, "\x02\x00", 2, H3_QPACK_DECOMPRESSION_FAILED, 0, 0, 0));
  CHECK(is_prefix(&d, "\x00\x00", 2, H3_QPACK_OK, 0, 0, 2));
  h3_qpack_decoder_del(&d);
}

/* Each list without an end, in room that is just large enough, or too small; and each refusal. */
static void decode_alone(void) {
  for (size_t i = 0; i < nlists; i++) {
    const list *l = &lists[i];
    h3_qpack_written w = h3_qpack_encode_stateless(l->nv, l->len, section, sizeof section);
    h3_qpack_decoded_alone r = h3_qpack_decode_stateless(section, w.len, 1 << 20, fields, l->len, bytes, sizeof bytes);
    CHECK(w.status == H3_QPACK_OK && r.status == H3_QPACK_OK && r.fields == l->len && !r.number && !r.offset);
    check_written(fields, bytes, r.len, l->nv, l->len);
    h3_qpack_decoded_alone s = h3_qpack_decode_stateless(section, w.len, 1 << 20, NULL, 0, NULL, 0);
    CHECK(s.status == (l->len ? H3_QPACK_ERR_NO_ROOM : H3_QPACK_OK) && s.fields == l->len && s.len == r.len);
  }
  h3_qpack_decoded_alone r = h3_qpack_decode_stateless((const uint8_t *)"\0\0\xd1", 3, 42, fields, 1, bytes, 10);
  CHECK(r.status == H3_QPACK_OK && r.fields == 1 && r.len == 10 && !memcmp(bytes, ":methodGET", 10));
  bytes[0] = 0xee;
  r = h3_qpack_decode_stateless((const uint8_t *)"\0\0\xd1", 3, 42, fields, 1, bytes, 9);
  CHECK(r.status == H3_QPACK_ERR_NO_ROOM && r.fields == 1 && r.len == 10 && bytes[0] == 0xee);
  r = h3_qpack_decode_stateless((const uint8_t *)"\0\0\xd1", 3, 41, fields, 1, bytes, 10);
  CHECK(r.status == H3_QPACK_ERR_TOO_LARGE && r.number == 1 && r.offset == 2 && !r.fields && !r.len);
  CHECK(h3_qpack_longest_section(0) == 20 && h3_qpack_longest_section(65536) == 262164);
  CHECK(h3_qpack_longest_section(UINT64_MAX) == SIZE_MAX);
  CHECK(h3_qpack_longest_section((SIZE_MAX - 20) / 4) == SIZE_MAX / 4 * 4);
  CHECK(h3_qpack_longest_section((SIZE_MAX - 20) / 4 + 1) == SIZE_MAX);
  uint8_t longest[4 * 50 + 21] = {0, 0, 0xd1}; /* a line of it is wrong, if it is read */
  r = h3_qpack_decode_stateless(longest, h3_qpack_longest_section(50), 50, fields, 1, bytes, 10);
  CHECK(r.status == H3_QPACK_DECOMPRESSION_FAILED && r.number == 2);
  r = h3_qpack_decode_stateless(longest, h3_qpack_longest_section(50) + 1, 50, fields, 1, bytes, 10);
  CHECK(r.status == H3_QPACK_ERR_TOO_LARGE && !r.number);
  r = h3_qpack_decode_stateless((const uint8_t *)"\0\0\xd1\x80", 4, 99, fields, 9, bytes, 99);
  CHECK(r.status == H3_QPACK_DECOMPRESSION_FAILED && r.number == 2 && r.offset == 3 && bytes[0] == 0xee);
  r = h3_qpack_decode_stateless((const uint8_t *)"\x02\0\x80", 3, 99, fields, 9, bytes, 99);
  CHECK(r.status == H3_QPACK_DECOMPRESSION_FAILED && !r.number && !r.offset);
}

/* What ends a connection: the code, where the fault stood, and the same answer from then on. */
static void end_connections(void) {
  h3_qpack_encoder e;
  h3_qpack_decoder d;
  CHECK(!new_encoder(&e, 4096, 1));
  h3_qpack_received r = h3_qpack_encoder_read_decoder(&e, (const uint8_t *)"\x44\x84", 2);
  CHECK(r.status == H3_QPACK_DECODER_STREAM_ERROR && r.number == 2 && r.offset == 1 && r.taken == 2);
  h3_qpack_encoded b = h3_qpack_encoder_encode(&e, 0, &get, 1, section, 9);
  CHECK(b.status == H3_QPACK_DECODER_STREAM_ERROR && !b.len && !b.size);
  CHECK(h3_qpack_encoder_set_capacity(&e, 0) == H3_QPACK_DECODER_STREAM_ERROR);
  r = h3_qpack_encoder_read_decoder(&e, (const uint8_t *)"\x44", 1);
  CHECK(r.status == H3_QPACK_DECODER_STREAM_ERROR && r.number == 2 && r.offset == 1 && !r.taken);
  h3_qpack_written w = h3_qpack_encoder_section(&e, section, 9);
  CHECK(w.status == H3_QPACK_OK && !w.len);
  h3_qpack_encoder_del(&e);
  CHECK(!new_decoder(&d, 4096, 1, 100));
  CHECK(h3_qpack_decoder_decode(&d, 0, (const uint8_t *)"\0\0\xd1", 3).status == H3_QPACK_OK);
  r = h3_qpack_decoder_read_encoder(&d, (const uint8_t *)"\x3f\xe1\x1f\x02\x20", 5);
  CHECK(r.status == H3_QPACK_ENCODER_STREAM_ERROR && r.number == 2 && r.offset == 3 && r.taken == 5);
  CHECK(h3_qpack_decoder_fields(&d, fields, 1, bytes, sizeof bytes).len == 10); /* those decoded before */
  h3_qpack_decoded a = h3_qpack_decoder_decode(&d, 0, (const uint8_t *)"\0\0\xd1", 3);
  CHECK(a.status == H3_QPACK_ENCODER_STREAM_ERROR && !a.number && !a.offset);
  w = h3_qpack_decoder_fields(&d, fields, 1, bytes, sizeof bytes);
  CHECK(w.status == H3_QPACK_OK && !w.len);
  CHECK(h3_qpack_decoder_cancel_stream(&d, 0) == H3_QPACK_ENCODER_STREAM_ERROR);
  r = h3_qpack_decoder_read_encoder(&d, (const uint8_t *)"\x20", 1);
  CHECK(r.status == H3_QPACK_ENCODER_STREAM_ERROR && r.number == 2 && r.offset == 3 && !r.taken);
  h3_qpack_decoder_del(&d);
  CHECK(!new_decoder(&d, 4096, 1, 100));
  a = h3_qpack_decoder_decode(&d, 0, (const uint8_t *)"\0\0\xd1\xff\x3f", 5);
  CHECK(a.status == H3_QPACK_DECOMPRESSION_FAILED && a.number == 2 && a.offset == 3 && !a.fields && !a.len);
  a = h3_qpack_decoder_decode(&d, 4, (const uint8_t *)"\0\0\xd1", 3);
  CHECK(a.status == H3_QPACK_DECOMPRESSION_FAILED && a.number == 2 && a.offset == 3);
  r = h3_qpack_decoder_read_encoder(&d, (const uint8_t *)"\x20", 1);
  CHECK(r.status == H3_QPACK_DECOMPRESSION_FAILED && !r.number && !r.offset && !r.taken);
  h3_qpack_decoder_del(&d);
  for (uint64_t limit = 83; limit < 85; limit++) { /* two fields of 42 bytes each are 84 */
    CHECK(!new_decoder(&d, 4096, 1, limit));
    a = h3_qpack_decoder_decode(&d, 0, (const uint8_t *)"\0\0\xd1\xd1", 4);
    CHECK(a.status == (limit < 84 ? H3_QPACK_ERR_TOO_LARGE : H3_QPACK_OK) && a.len == (limit < 84 ? 0 : 20));
    CHECK(h3_qpack_decoder_decode(&d, 0, (const uint8_t *)"\0\0\xd1", 3).status == H3_QPACK_OK);
    h3_qpack_decoder_del(&d);
  }
}

/* A blocked section turns out to be too large: its stream is not ready again. */
static void refuse_ready(void) {
  h3_qpack_decoder d;
  uint64_t id = 0;
  CHECK(!new_decoder(&d, 4096, 2, 65)); /* two fields of 33 bytes each are 66 */
  CHECK(h3_qpack_decoder_decode(&d, 8, (const uint8_t *)"\x02\0\x80\x80", 4).status == H3_QPACK_BLOCKED);
  CHECK(h3_qpack_decoder_read_encoder(&d, (const uint8_t *)"\x3f\xe1\x1f\x41\x61\0", 6).status == H3_QPACK_OK);
  size_t rounds = 0;
  while (h3_qpack_decoder_next_ready(&d, &id)) {
    h3_qpack_decoded r = h3_qpack_decoder_decode(&d, id, (const uint8_t *)"\x02\0\x80\x80", 4);
    CHECK(id == 8 && r.status == H3_QPACK_ERR_TOO_LARGE && r.number == 2 && ++rounds == 1);
  }
  CHECK(rounds == 1 && h3_qpack_decoder_cancel_stream(&d, 8) == H3_QPACK_OK);
  h3_qpack_decoder_del(&d);
}

/* A section that waits, one that would be one too many, and a stream that is given up. */
static void wait_for_insertions(void) {
  h3_qpack_encoder e;
  h3_qpack_decoder d;
  uint64_t id = 0;
  CHECK(!new_encoder(&e, 4096, 2) && !new_decoder(&d, 4096, 1, 100));
  h3_qpack_encoded a = h3_qpack_encoder_encode(&e, 4, &custom, 1, section, sizeof section);
  CHECK(a.status == H3_QPACK_OK && a.required == 1 && h3_qpack_encoder_get_num_blocked(&e) == 1);
  size_t len = h3_qpack_encoder_get_encoder_streamlen(&e);
  CHECK(h3_qpack_encoder_write_encoder(&e, stream, 3) == 3 && h3_qpack_encoder_get_encoder_streamlen(&e) == len - 3);
  CHECK(h3_qpack_encoder_write_encoder(&e, stream + 3, sizeof stream - 3) == len - 3);
  h3_qpack_decoded r = h3_qpack_decoder_decode(&d, 4, section, a.len);
  CHECK(r.status == H3_QPACK_BLOCKED && r.required == 1 && !r.fields && !r.len);
  CHECK(h3_qpack_decoder_get_num_blocked(&d) == 1);
  CHECK(h3_qpack_encoder_set_capacity(&e, 0) == H3_QPACK_ERR_HELD);
  CHECK(!h3_qpack_decoder_next_ready(&d, &id));
  h3_qpack_received t = h3_qpack_decoder_read_encoder(&d, stream, len);
  CHECK(t.status == H3_QPACK_OK && t.taken == len && h3_qpack_decoder_get_icnt(&d) == 1);
  CHECK(h3_qpack_decoder_get_decoder_streamlen(&d) == 1);
  CHECK(h3_qpack_decoder_next_ready(&d, &id) && id == 4);
  r = h3_qpack_decoder_decode(&d, 4, section, a.len);
  CHECK(r.status == H3_QPACK_OK && r.fields == 1 && r.required == 1 && !h3_qpack_decoder_get_num_blocked(&d));
  check_field(&d, 0, &custom);
  len = h3_qpack_decoder_get_decoder_streamlen(&d);
  /* The acknowledgment reports the insertion too. */
  CHECK(len == 1 && h3_qpack_decoder_write_decoder(&d, stream, 9) == 1 && stream[0] == 0x84);
  CHECK(h3_qpack_encoder_read_decoder(&e, stream, len).status == H3_QPACK_OK && !h3_qpack_encoder_get_num_blocked(&e));
  CHECK(h3_qpack_encoder_set_capacity(&e, 0) == H3_QPACK_OK);
  static const uint8_t waits[] = {0x03, 0x00, 0x80};
  CHECK(h3_qpack_decoder_decode(&d, 8, waits, 3).status == H3_QPACK_BLOCKED);
  CHECK(h3_qpack_decoder_cancel_stream(&d, 8) == H3_QPACK_OK && !h3_qpack_decoder_get_num_blocked(&d));
  CHECK(h3_qpack_decoder_cancel_stream(&d, 20) == H3_QPACK_OK);
  CHECK(h3_qpack_decoder_get_decoder_streamlen(&d) == 2 && h3_qpack_decoder_write_decoder(&d, stream, 1) == 1);
  CHECK(h3_qpack_decoder_write_decoder(&d, stream + 1, 9) == 1 && !memcmp(stream, "\x48\x54", 2));
  CHECK(h3_qpack_decoder_decode(&d, 12, waits, 3).status == H3_QPACK_BLOCKED);
  CHECK(h3_qpack_decoder_decode(&d, 16, waits, 3).status == H3_QPACK_DECOMPRESSION_FAILED);
  h3_qpack_encoder_del(&e);
  h3_qpack_decoder_del(&d);
}

/* An entry of the table of an encoder, or of a decoder where there is no encoder. */
static h3_qpack_field entry_of(h3_qpack_encoder *e, h3_qpack_decoder *d, size_t index, uint8_t *out, size_t outlen) {
  return e ? h3_qpack_encoder_entry(e, index, out, outlen) : h3_qpack_decoder_entry(d, index, out, outlen);
}

/* The table has these entries, the newest first: the name of each is n, its value a letter of |letters|. */
static void check_entries(h3_qpack_encoder *e, h3_qpack_decoder *d, const char *letters) {
  size_t count = strlen(letters);
  CHECK((e ? h3_qpack_encoder_get_num_entries(e) : h3_qpack_decoder_get_num_entries(d)) == count);
  CHECK((e ? h3_qpack_encoder_get_table_size(e) : h3_qpack_decoder_get_table_size(d)) == 34 * count);
  for (size_t i = 0; i < count; i++) {
    memset(bytes, 0xee, 3);
    h3_qpack_field f = entry_of(e, d, i, bytes, 1);
    CHECK(f.status == H3_QPACK_ERR_NO_ROOM && f.namelen == 1 && f.valuelen == 1 && bytes[0] == 0xee);
    f = entry_of(e, d, i, bytes, 2);
    CHECK(f.status == H3_QPACK_OK && f.namelen == 1 && f.valuelen == 1 && !f.flags);
    CHECK(bytes[0] == 'n' && bytes[1] == (uint8_t)letters[i] && bytes[2] == 0xee);
    CHECK(entry_of(e, d, i, NULL, 0).status == H3_QPACK_ERR_NO_ROOM);
    CHECK(entry_of(e, d, i, NULL, 1).status == H3_QPACK_ERR_INVALID);
  }
  bytes[0] = 0xee;
  h3_qpack_field none = entry_of(e, d, count, bytes, 9);
  CHECK(none.status == H3_QPACK_ERR_INVALID && !none.namelen && !none.valuelen && bytes[0] == 0xee);
  CHECK(entry_of(e, d, SIZE_MAX, bytes, 9).status == H3_QPACK_ERR_INVALID);
}

static void check_counts(h3_qpack_encoder *e, size_t insertions, size_t known, size_t unacknowledged) {
  CHECK(h3_qpack_encoder_get_icnt(e) == insertions && h3_qpack_encoder_get_krcnt(e) == known);
  CHECK(h3_qpack_encoder_get_num_unacked(e) == unacknowledged);
}

/* What both ends tell of their tables: with an entry more at a time, and after evictions. */
static void tell_tables(void) {
  static const char *const values[] = {"a", "b", "c"}, *const tables[] = {"a", "ba", "cb"};
  h3_qpack_encoder e;
  h3_qpack_decoder d;
  CHECK(!new_encoder(&e, 70, 9) && !new_decoder(&d, 70, 9, 100));
  CHECK(!h3_qpack_encoder_get_capacity(&e) && !h3_qpack_decoder_get_capacity(&d));
  check_entries(&e, NULL, "");
  check_entries(NULL, &d, "");
  for (size_t i = 0; i < 3; i++) {
    h3_qpack_nv nv = {(const uint8_t *)"n", 1, (const uint8_t *)values[i], 1, H3_QPACK_NV_FLAG_INSERT};
    check_counts(&e, i, i, 0);
    h3_qpack_encoded a = h3_qpack_encoder_encode(&e, 4 * i, &nv, 1, section, sizeof section);
    CHECK(a.status == H3_QPACK_OK && a.required == i + 1 && h3_qpack_encoder_get_capacity(&e) == 70);
    check_counts(&e, i + 1, i, 1);
    check_entries(&e, NULL, tables[i]);
    size_t len = h3_qpack_encoder_write_encoder(&e, stream, sizeof stream);
    CHECK(h3_qpack_decoder_read_encoder(&d, stream, len).status == H3_QPACK_OK);
    CHECK(h3_qpack_decoder_get_capacity(&d) == 70 && h3_qpack_decoder_get_icnt(&d) == i + 1);
    check_entries(NULL, &d, tables[i]);
    CHECK(h3_qpack_decoder_decode(&d, 4 * i, section, a.len).status == H3_QPACK_OK);
    len = h3_qpack_decoder_write_decoder(&d, stream, sizeof stream);
    hear(&e, stream, len);
  }
  check_counts(&e, 3, 3, 0);
  CHECK(h3_qpack_encoder_set_capacity(&e, 67) == H3_QPACK_OK && h3_qpack_encoder_get_capacity(&e) == 67);
  check_entries(&e, NULL, "c");
  CHECK(h3_qpack_encoder_set_capacity(&e, 0) == H3_QPACK_OK && !h3_qpack_encoder_get_capacity(&e));
  check_entries(&e, NULL, "");
  check_counts(&e, 3, 3, 0);
  h3_qpack_encoder_del(&e);
  h3_qpack_decoder_del(&d);
}

/* How many sections later the answer to one comes, of how many, and behind how many a lower capacity is asked for. */
enum { LATE = 3, LISTS = 12, BEFORE = 5 };

/* Asks for capacities below that of a table whose entries are referenced: the last one waits. */
static void ask_for_less(h3_qpack_encoder *e) {
  size_t pending = 7;
  CHECK(!h3_qpack_encoder_get_pending_capacity(e, &pending) && pending == 7);
  CHECK(h3_qpack_encoder_set_capacity(e, 32) == H3_QPACK_ERR_HELD);
  CHECK(h3_qpack_encoder_shrink(e, 4097) == H3_QPACK_ERR_INVALID);
  CHECK(!h3_qpack_encoder_get_pending_capacity(e, &pending));
  CHECK(h3_qpack_encoder_shrink(e, 0) == H3_QPACK_OK && h3_qpack_encoder_shrink(e, 32) == H3_QPACK_OK);
  CHECK(h3_qpack_encoder_get_pending_capacity(e, &pending) && pending == 32);
  CHECK(!h3_qpack_encoder_get_pending_capacity(e, NULL) && h3_qpack_encoder_get_capacity(e) == 4096);
}

/* A capacity comes down on a busy connection: with the first section behind the answers to all that reference an entry. */
static void shrink_tables(void) {
  static const char names[] = "abcdefghijkl";
  h3_qpack_encoder e;
  h3_qpack_decoder d;
  uint8_t answers[LISTS][9];
  size_t answered[LISTS], pending;
  CHECK(!new_encoder(&e, 4096, 100) && !new_decoder(&d, 4096, 100, 1000));
  for (size_t i = 0; i < LISTS; i++) {
    h3_qpack_nv nv = {(const uint8_t *)names + i, 1, (const uint8_t *)"1", 1, 0};
    if (i == BEFORE) ask_for_less(&e);
    h3_qpack_encoded a = h3_qpack_encoder_encode(&e, 4 * i, &nv, 1, section, sizeof section);
    CHECK(a.status == H3_QPACK_OK && a.required == (i < BEFORE ? i + 1 : 0) && a.size == 34);
    CHECK(h3_qpack_encoder_get_pending_capacity(&e, &pending) == (i >= BEFORE && i < BEFORE + LATE));
    size_t len = h3_qpack_encoder_write_encoder(&e, stream, sizeof stream);
    CHECK(!len == (i >= BEFORE && i != BEFORE + LATE));
    CHECK(h3_qpack_decoder_read_encoder(&d, stream, len).status == H3_QPACK_OK);
    CHECK(h3_qpack_decoder_decode(&d, 4 * i, section, a.len).fields == 1);
    check_field(&d, 0, &nv);
    answered[i] = h3_qpack_decoder_write_decoder(&d, answers[i], sizeof answers[i]);
    if (i >= LATE) hear(&e, answers[i - LATE], answered[i - LATE]);
  }
  check_counts(&e, BEFORE, BEFORE, 0);
  CHECK(h3_qpack_encoder_get_capacity(&e) == 32 && h3_qpack_decoder_get_capacity(&d) == 32);
  CHECK(h3_qpack_encoder_shrink(&e, 100) == H3_QPACK_OK && h3_qpack_encoder_get_capacity(&e) == 100);
  h3_qpack_encoder_del(&e);
  h3_qpack_decoder_del(&d);
}

/* Both ends have the same table. */
static void compare_tables(h3_qpack_encoder *e, h3_qpack_decoder *d) {
  static _Thread_local uint8_t ours[1 << 12], theirs[1 << 12];
  size_t count = h3_qpack_encoder_get_num_entries(e), size = 0;
  CHECK(count == h3_qpack_decoder_get_num_entries(d));
  for (size_t i = 0; i < count; i++) {
    h3_qpack_field f = h3_qpack_encoder_entry(e, i, ours, sizeof ours);
    h3_qpack_field g = h3_qpack_decoder_entry(d, i, theirs, sizeof theirs);
    CHECK(!f.status && !g.status && f.namelen == g.namelen && f.valuelen == g.valuelen);
    CHECK(!memcmp(ours, theirs, f.namelen + f.valuelen));
    size += f.namelen + f.valuelen + 32;
  }
  CHECK(size == h3_qpack_encoder_get_table_size(e) && size == h3_qpack_decoder_get_table_size(d));
  CHECK(size <= h3_qpack_encoder_get_capacity(e));
  CHECK(h3_qpack_encoder_get_capacity(e) == h3_qpack_decoder_get_capacity(d));
  CHECK(h3_qpack_encoder_get_icnt(e) == h3_qpack_decoder_get_icnt(d));
}

/* A thread's own connection, over all lists. */
static void *run_connection(void *rounds) {
  static _Thread_local uint8_t own[1 << 16], instructions[1 << 16];
  for (int round = 0; round < *(int *)rounds; round++) {
    h3_qpack_encoder e;
    h3_qpack_decoder d;
    CHECK(!new_encoder(&e, 4096, 100) && !new_decoder(&d, 4096, 100, 1 << 20));
    for (size_t i = 0; i < nlists; i++) {
      h3_qpack_encoded a = h3_qpack_encoder_encode(&e, 4 * i, lists[i].nv, lists[i].len, own, sizeof own);
      CHECK(a.status == H3_QPACK_OK);
      size_t len = h3_qpack_encoder_write_encoder(&e, instructions, sizeof instructions);
      CHECK(h3_qpack_decoder_read_encoder(&d, instructions, len).status == H3_QPACK_OK);
      h3_qpack_decoded r = h3_qpack_decoder_decode(&d, 4 * i, own, a.len);
      CHECK(r.status == H3_QPACK_OK && r.fields == lists[i].len && r.len + 32 * r.fields == a.size);
      CHECK(r.len == h3_qpack_decoder_fields(&d, NULL, 0, NULL, 0).len);
      check_fields(&d, lists[i].nv, lists[i].len);
      len = h3_qpack_decoder_write_decoder(&d, instructions, sizeof instructions);
      CHECK(h3_qpack_encoder_read_decoder(&e, instructions, len).status == H3_QPACK_OK);
      if (i % 16 == 0) compare_tables(&e, &d);
    }
    CHECK(h3_qpack_encoder_get_krcnt(&e) == h3_qpack_encoder_get_icnt(&e) && !h3_qpack_encoder_get_num_unacked(&e));
    h3_qpack_encoder_del(&e);
    h3_qpack_decoder_del(&d);
  }
  return NULL;
}

/* A call that is refused for an argument keeps what the call before it left: the section, and the fields. */
static void keep_results(void) {
  h3_qpack_encoder e;
  h3_qpack_decoder d;
  uint8_t again[16];
  const uint64_t no_stream = (uint64_t)1 << 62;
  CHECK(!new_encoder(&e, 4096, 1) && !new_decoder(&d, 4096, 1, 100));
  h3_qpack_encoded a = h3_qpack_encoder_encode(&e, 0, &get, 1, section, 16);
  CHECK(a.status == H3_QPACK_OK && a.len == 3);
  CHECK(h3_qpack_encoder_encode(&e, no_stream, &get, 1, again, sizeof again).status == H3_QPACK_ERR_INVALID);
  CHECK(h3_qpack_encoder_encode(&e, 0, NULL, 1, again, sizeof again).status == H3_QPACK_ERR_INVALID);
  h3_qpack_written w = h3_qpack_encoder_section(&e, again, sizeof again);
  CHECK(w.status == H3_QPACK_OK && w.len == a.len && !memcmp(again, section, w.len));
  CHECK(h3_qpack_decoder_decode(&d, 0, section, a.len).status == H3_QPACK_OK);
  CHECK(h3_qpack_decoder_decode(&d, no_stream, section, a.len).status == H3_QPACK_ERR_INVALID);
  CHECK(h3_qpack_decoder_decode(&d, 0, NULL, 1).status == H3_QPACK_ERR_INVALID);
  check_fields(&d, &get, 1);
  h3_qpack_encoder_del(&e);
  h3_qpack_decoder_del(&d);
}

/* No byte depends on the seed: encoders of two seeds write the same of all lists. */
static void compare_seeds(void) {
  static uint8_t sections[2][1 << 16], streams[2][1 << 16];
  h3_qpack_encoder_settings settings;
  h3_qpack_encoder encoders[2];
  h3_qpack_encoder_settings_default(&settings);
  settings.max_capacity = 4096;
  settings.max_blocked = settings.most_unacknowledged = 1000;
  for (int i = 0; i < 2; i++) {
    settings.seed = (uint64_t)i * 0x9e3779b97f4a7c15u;
    CHECK(!h3_qpack_encoder_new(&encoders[i], &settings));
  }
  for (size_t i = 0; i < nlists; i++) {
    size_t len[2], stream_len[2];
    for (int k = 0; k < 2; k++) {
      h3_qpack_encoded a =
          h3_qpack_encoder_encode(&encoders[k], 4 * i, lists[i].nv, lists[i].len, sections[k], sizeof sections[k]);
      CHECK(a.status == H3_QPACK_OK);
      len[k] = a.len;
      stream_len[k] = h3_qpack_encoder_write_encoder(&encoders[k], streams[k], sizeof streams[k]);
    }
    CHECK(len[0] == len[1] && !memcmp(sections[0], sections[1], len[0]));
    CHECK(stream_len[0] == stream_len[1] && !memcmp(streams[0], streams[1], stream_len[0]));
  }
  for (int i = 0; i < 2; i++) {
    CHECK(h3_qpack_encoder_get_icnt(&encoders[i]) > 0);
    h3_qpack_encoder_del(&encoders[i]);
  }
}

/* Reads a section in pieces of random sizes, and holds its fields against the list. Returns what the last call did. */
static h3_qpack_piece read_pieces(h3_qpack_section_reader *r, h3_qpack_decoder *d, const uint8_t *at, size_t len,
                                  const list *l) {
  static const size_t sizes[] = {1, 3, 40, 1000};
  h3_qpack_piece piece = {H3_QPACK_OK, 0, 0, 0, 0};
  size_t given = 0;
  while (piece.status == H3_QPACK_OK) {
    size_t part = random_below(sizes[random_below(4)] + 1);
    if (part > len) part = len;
    do {
      piece = h3_qpack_section_reader_read(r, d, at, part, part == len);
      at += piece.taken;
      part -= piece.taken;
      len -= piece.taken;
      if (piece.status == H3_QPACK_FIELD) {
        h3_qpack_field f = h3_qpack_section_reader_field(r, bytes, sizeof bytes);
        const h3_qpack_nv *nv = &l->nv[given++];
        CHECK(piece.taken && f.status == H3_QPACK_OK && f.namelen == nv->namelen && f.valuelen == nv->valuelen);
        CHECK(!memcmp(bytes, nv->name, f.namelen) && !memcmp(bytes + f.namelen, nv->value, f.valuelen));
        CHECK(f.flags == (nv->flags & H3_QPACK_NV_FLAG_NEVER_INDEX));
        CHECK(f.namelen + f.valuelen == 0 ||
              h3_qpack_section_reader_field(r, bytes, f.namelen + f.valuelen - 1).status == H3_QPACK_ERR_NO_ROOM);
      }
    } while (piece.status == H3_QPACK_FIELD);
    CHECK(!part || piece.status == H3_QPACK_BLOCKED);
  }
  if (piece.status == H3_QPACK_END) CHECK(!len && given == l->len && !h3_qpack_section_reader_get_pending(r));
  return piece;
}

/* Sections in pieces, beside the same sections whole: the fields, what waits, and the bytes of the decoder stream. */
static void read_in_pieces(void) {
  h3_qpack_encoder e;
  h3_qpack_decoder d, whole;
  h3_qpack_section_reader r, none = {NULL};
  static uint8_t streams[2][1 << 12];
  uint64_t ready;
  CHECK(!new_encoder(&e, 4096, 100) && !new_decoder(&d, 4096, 100, 1 << 20) && !new_decoder(&whole, 4096, 100, 1 << 20));
  for (size_t i = 0; i < nlists; i++) {
    const list *l = &lists[i];
    h3_qpack_encoded a = h3_qpack_encoder_encode(&e, i, l->nv, l->len, section, sizeof section);
    CHECK(a.status == H3_QPACK_OK && !h3_qpack_section_reader_new(&r, i));
    size_t len = h3_qpack_encoder_write_encoder(&e, stream, sizeof stream);
    int is_late = a.required > h3_qpack_decoder_get_icnt(&d);
    if (is_late) {
      h3_qpack_piece piece = h3_qpack_section_reader_read(&r, &d, section, a.len, 1);
      CHECK(piece.status == H3_QPACK_BLOCKED && piece.required == a.required && piece.taken <= 20);
      CHECK(h3_qpack_decoder_get_num_blocked(&d) == 1 && !h3_qpack_decoder_next_ready(&d, &ready));
      CHECK(h3_qpack_decoder_read_encoder(&d, stream, len).status == H3_QPACK_OK);
      CHECK(h3_qpack_decoder_next_ready(&d, &ready) && ready == i);
      piece = read_pieces(&r, &d, section + piece.taken, a.len - piece.taken, l);
      CHECK(piece.status == H3_QPACK_END && piece.required == a.required);
    } else {
      CHECK(h3_qpack_decoder_read_encoder(&d, stream, len).status == H3_QPACK_OK);
      CHECK(read_pieces(&r, &d, section, a.len, l).status == H3_QPACK_END);
    }
    CHECK(!h3_qpack_decoder_next_ready(&d, &ready));
    CHECK(h3_qpack_decoder_read_encoder(&whole, stream, len).status == H3_QPACK_OK);
    CHECK(h3_qpack_decoder_decode(&whole, i, section, a.len).status == H3_QPACK_OK);
    h3_qpack_section_reader_del(&r);
    len = h3_qpack_decoder_write_decoder(&d, streams[0], sizeof streams[0]);
    CHECK(h3_qpack_decoder_write_decoder(&whole, streams[1], sizeof streams[1]) == len);
    CHECK(!memcmp(streams[0], streams[1], len));
    hear(&e, streams[0], len);
  }
  /* a stream that is given up, the first bytes of a section, and what is refused */
  CHECK(!h3_qpack_section_reader_new(&r, 1));
  CHECK(h3_qpack_section_reader_read(&r, &d, (const uint8_t *)"", 1, 0).taken == 1);
  CHECK(h3_qpack_section_reader_get_pending(&r) == 1);
  CHECK(h3_qpack_section_reader_field(&r, bytes, sizeof bytes).status == H3_QPACK_ERR_INVALID);
  CHECK(h3_qpack_section_reader_read(&r, &d, NULL, 1, 0).status == H3_QPACK_ERR_INVALID);
  CHECK(h3_qpack_section_reader_read(NULL, &d, NULL, 0, 0).status == H3_QPACK_ERR_INVALID);
  CHECK(h3_qpack_section_reader_read(&r, NULL, NULL, 0, 0).status == H3_QPACK_ERR_INVALID);
  CHECK(h3_qpack_section_reader_new(NULL, 0) == H3_QPACK_ERR_INVALID && !h3_qpack_section_reader_get_pending(&none));
  CHECK(h3_qpack_section_reader_new(&none, (uint64_t)1 << 62) == H3_QPACK_ERR_INVALID && !none.at);
  CHECK(h3_qpack_section_reader_read(&r, &d, NULL, 0, 1).status == H3_QPACK_DECOMPRESSION_FAILED);
  CHECK(h3_qpack_section_reader_read(&r, &d, NULL, 0, 1).status == H3_QPACK_DECOMPRESSION_FAILED);
  h3_qpack_section_reader_del(&r);
  h3_qpack_section_reader_del(&r);
  h3_qpack_section_reader_del(NULL);
  h3_qpack_encoder_del(&e);
  h3_qpack_decoder_del(&d);
  h3_qpack_decoder_del(&whole);
}

int main(int argc, char **argv) {
  CHECK(argc == 2);
  read_corpus(argv[1], 0);
  add_random_lists(50);
  compare_versions();
  use_settings();
  compare_seeds();
  take_peer_settings();
  refuse_arguments();
  take_null_texts();
  keep_results();
  ask_for_room();
  peek_prefixes();
  decode_alone();
  end_connections();
  wait_for_insertions();
  refuse_ready();
  tell_tables();
  read_in_pieces();
  shrink_tables();
  pthread_t threads[2];
  int rounds = 20;
  for (int i = 0; i < 2; i++) CHECK(!pthread_create(&threads[i], NULL, run_connection, &rounds));
  for (int i = 0; i < 2; i++) CHECK(!pthread_join(threads[i], NULL));
  printf("calls: every call and each refusal; two threads, %zu fields each %d times\n", nfields, rounds);
  free_lists();
  return 0;
}
