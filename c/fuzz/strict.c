#include "strict.h"

#include <stdlib.h>
#include <string.h>

#include "tables.h"

/* ---- Bytes */

typedef struct reader {
  const uint8_t *p;
  size_t len, at;
} reader;

typedef enum outcome { WHOLE, CUT, BAD } outcome;

static void *claim(void *p) {
  if (!p) abort();
  return p;
}

/* Reads an integer with a prefix of |bits| bits (section 4.1.1). Ten bytes after the prefix are too many, as the library
 * has it: nine have room for the integers below 2^62 that section 4.1.1 asks for. */
static outcome read_integer(reader *r, int bits, uint64_t *value) {
  if (r->at == r->len) return CUT;
  uint64_t most = (1u << bits) - 1;
  *value = r->p[r->at++] & most;
  if (*value < most) return WHOLE;
  for (int i = 0; i < 9; i++) {
    if (r->at == r->len) return CUT;
    uint8_t byte = r->p[r->at++];
    *value += (uint64_t)(byte & 127) << 7 * i;
    if (byte < 128) return WHOLE;
  }
  return BAD;
}

/* The tree of the Huffman code (RFC 7541, appendix B): for each node and bit the next node, or below 0 a symbol, from -1. */
static int16_t tree[256][2];

static void make_tree(void) {
  int nodes = 1;
  if (tree[0][0]) return;
  for (int symbol = 0; symbol < 257; symbol++) {
    int node = 0;
    for (int i = CODES[symbol].bits - 1; i > 0; i--) {
      int16_t *next = &tree[node][CODES[symbol].code >> i & 1];
      if (!*next) *next = (int16_t)nodes++;
      node = *next;
    }
    tree[node][CODES[symbol].code & 1] = (int16_t)(-symbol - 1);
  }
}

/* Decodes a Huffman code bit by bit (RFC 7541, section 5.2). Returns the length of the text, or -1 for what is no code. */
static long decode_code(const uint8_t *p, size_t len, uint8_t *text) {
  long textlen = 0;
  int node = 0, bits = 0, are_ones = 1;
  make_tree();
  for (size_t i = 0; i < 8 * len; i++) {
    int bit = p[i / 8] >> (7 - i % 8) & 1, next = tree[node][bit];
    bits++;
    are_ones &= bit;
    node = next > 0 ? next : 0;
    if (next > 0) continue;
    if (next == -257) return -1;
    text[textlen++] = (uint8_t)(-next - 1);
    bits = 0;
    are_ones = 1;
  }
  /* The rest is the front of the code of the end, fewer than eight bits of ones. */
  return bits < 8 && are_ones ? textlen : -1;
}

typedef struct text {
  uint8_t *p; /* owned; NULL for what is no text */
  size_t len;
  uint64_t least; /* the least length that it can have by its declared length */
  int is_whole;   /* the reader is after it, even if its code means nothing */
} text;

/* Reads a string with a prefix of |bits| bits, above which the flag of the code is (section 4.1.2). A code that means
 * nothing is BAD. */
static outcome read_text(reader *r, int bits, text *t) {
  *t = (text){.p = NULL};
  if (r->at == r->len) return CUT;
  int is_code = r->p[r->at] >> bits & 1;
  uint64_t len;
  outcome done = read_integer(r, bits, &len);
  if (done != WHOLE) return done;
  t->least = len;
  if (is_code) t->least = len == 0 ? 0 : (8 * (len < (1u << 30) ? len : 1u << 30) - 7 + 29) / 30;
  if (len > r->len - r->at) return CUT;
  const uint8_t *from = r->p + r->at;
  r->at += len;
  t->is_whole = 1;
  t->p = claim(malloc(is_code ? 8 * len / 5 + 1 : len + 1));
  if (!is_code) {
    memcpy(t->p, from, len);
    t->len = len;
    return WHOLE;
  }
  long textlen = decode_code(from, len, t->p);
  if (textlen >= 0) {
    t->len = (size_t)textlen;
    return WHOLE;
  }
  free(t->p);
  t->p = NULL;
  return BAD;
}

/* ---- Fields */

static void add_field(strict_fields *fields, const uint8_t *name, size_t namelen, const uint8_t *value, size_t valuelen,
                      int is_never_indexed) {
  if (fields->len == fields->room) {
    fields->room = 2 * fields->room + 8;
    fields->at = claim(realloc(fields->at, fields->room * sizeof *fields->at));
  }
  uint8_t *both = claim(malloc(namelen + valuelen + 1));
  if (namelen) memcpy(both, name, namelen);
  if (valuelen) memcpy(both + namelen, value, valuelen);
  fields->at[fields->len++] = (strict_field){both, namelen, valuelen, is_never_indexed};
}

void strict_free_fields(strict_fields *fields) {
  for (size_t i = 0; i < fields->len; i++) free(fields->at[i].text);
  free(fields->at);
  *fields = (strict_fields){NULL, 0, 0};
}

static int is_text(const uint8_t *p, size_t len, const char *text) { return len == strlen(text) && !memcmp(p, text, len); }

int strict_find_static(const strict_field *field, int has_value) {
  for (int i = 0; i < 99; i++)
    if (is_text(field->text, field->namelen, STATIC[i].name) &&
        (!has_value || is_text(field->text + field->namelen, field->valuelen, STATIC[i].value)))
      return i;
  return -1;
}

/* ---- The table (section 3.2) */

void strict_new(strict_decoder *d, uint64_t max_capacity) { *d = (strict_decoder){.max_capacity = max_capacity, .number = 1}; }

void strict_del(strict_decoder *d) {
  strict_free_fields(&d->entries);
  free(d->pending);
}

static void evict_to(strict_decoder *d, uint64_t size) {
  size_t gone = 0;
  for (; d->size > size; gone++) {
    const strict_field *oldest = &d->entries.at[gone];
    d->size -= oldest->namelen + oldest->valuelen + 32;
    free(oldest->text);
  }
  if (!gone) return;
  d->entries.len -= gone;
  memmove(d->entries.at, d->entries.at + gone, d->entries.len * sizeof *d->entries.at);
}

/* Inserts an entry of texts that are not of the table. */
static outcome insert(strict_decoder *d, const uint8_t *name, size_t namelen, const uint8_t *value, size_t valuelen) {
  uint64_t size = (uint64_t)namelen + valuelen + 32;
  if (size > d->capacity) return BAD;
  evict_to(d, d->capacity - size);
  add_field(&d->entries, name, namelen, value, valuelen, 0);
  d->size += size;
  d->insert_count++;
  return WHOLE;
}

/* Inserts an entry of a name of the table, which may be evicted by it, and a value. */
static outcome insert_named(strict_decoder *d, const strict_field *named, const uint8_t *value, size_t valuelen) {
  uint8_t *name = claim(malloc(named->namelen + 1));
  size_t namelen = named->namelen;
  memcpy(name, named->text, namelen);
  outcome done = insert(d, name, namelen, value, valuelen);
  free(name);
  return done;
}

/* ---- The encoder stream (section 4.3). |is_doomed|: whether the instruction must be refused whatever follows */

static outcome read_insertion_by_name(strict_decoder *d, reader *r, int is_static, int *is_doomed) {
  uint64_t index;
  text value;
  *is_doomed = d->capacity < 32;
  outcome done = read_integer(r, 6, &index);
  if (done != WHOLE) return done;
  int is_named = is_static ? index < 99 : index < d->entries.len;
  strict_field named = {NULL, 0, 0, 0};
  if (is_named && is_static)
    named = (strict_field){(uint8_t *)(uintptr_t)STATIC[index].name, strlen(STATIC[index].name), 0, 0};
  else if (is_named) named = d->entries.at[d->entries.len - 1 - index];
  done = read_text(r, 7, &value);
  *is_doomed |= !is_named || named.namelen + value.least + 32 > d->capacity;
  if (done == WHOLE) done = is_named ? insert_named(d, &named, value.p, value.len) : BAD;
  free(value.p);
  return done;
}

static outcome read_insertion(strict_decoder *d, reader *r, int *is_doomed) {
  text name, value;
  *is_doomed = d->capacity < 32;
  outcome done = read_text(r, 5, &name);
  *is_doomed |= name.least + 32 > d->capacity;
  if (!name.is_whole) return done;
  int is_name = done == WHOLE;
  *is_doomed |= !is_name;
  done = read_text(r, 7, &value);
  *is_doomed |= (name.len > name.least ? name.len : name.least) + value.least + 32 > d->capacity;
  if (done == WHOLE) done = is_name ? insert(d, name.p, name.len, value.p, value.len) : BAD;
  free(name.p);
  free(value.p);
  return done;
}

static outcome read_instruction(strict_decoder *d, reader *r, int *is_doomed) {
  uint64_t value;
  *is_doomed = 0;
  if (r->at == r->len) return CUT;
  uint8_t first = r->p[r->at];
  if (first & 0x80) return read_insertion_by_name(d, r, first & 0x40, is_doomed);
  if (first & 0x40) return read_insertion(d, r, is_doomed);
  outcome done = read_integer(r, 5, &value);
  if (done != WHOLE) return done;
  if (first & 0x20) {
    if (value > d->max_capacity) return BAD;
    d->capacity = value;
    evict_to(d, value);
    return WHOLE;
  }
  if (value >= d->entries.len) return BAD;
  const strict_field *entry = &d->entries.at[d->entries.len - 1 - value];
  uint8_t *again = claim(malloc(entry->valuelen + 1));
  size_t len = entry->valuelen;
  memcpy(again, entry->text + entry->namelen, len);
  done = insert_named(d, entry, again, len);
  free(again);
  return done;
}

strict_status strict_receive(strict_decoder *d, const uint8_t *p, size_t len, int *is_doomed) {
  *is_doomed = 0;
  if (d->is_refused) return STRICT_REFUSED;
  d->pending = claim(realloc(d->pending, d->pendinglen + len + 1));
  if (len) memcpy(d->pending + d->pendinglen, p, len);
  d->pendinglen += len;
  reader r = {d->pending, d->pendinglen, 0};
  size_t taken = 0;
  outcome done;
  while ((done = read_instruction(d, &r, is_doomed)) == WHOLE) {
    d->number++;
    d->offset += r.at - taken;
    taken = r.at;
  }
  d->pendinglen -= taken;
  memmove(d->pending, d->pending + taken, d->pendinglen);
  d->is_refused = done == BAD;
  return done == BAD ? STRICT_REFUSED : STRICT_OK;
}

/* ---- Sections (section 4.5) */

/* Reads the prefix (section 4.5.1). Returns whether it can be. */
static int read_prefix(const strict_decoder *d, reader *r, uint64_t *required, uint64_t *base) {
  uint64_t encoded, delta, most = d->max_capacity / 32;
  if (read_integer(r, 8, &encoded) != WHOLE || r->at == r->len) return 0;
  int is_below = r->p[r->at] >> 7;
  if (read_integer(r, 7, &delta) != WHOLE) return 0;
  *required = 0;
  if (encoded) {
    if (encoded > 2 * most) return 0;
    uint64_t greatest = d->insert_count + most;
    *required = greatest / (2 * most) * (2 * most) + encoded - 1;
    if (*required > greatest) {
      if (*required <= 2 * most) return 0;
      *required -= 2 * most;
    }
    if (!*required) return 0;
  }
  if (is_below && *required <= delta) return 0;
  *base = is_below ? *required - delta - 1 : *required + delta;
  return 1;
}

/* What a line has before its value is read: a name by an index, or in full, and perhaps the value too. */
typedef struct line {
  const uint8_t *name, *value;
  size_t namelen, valuelen;
  text own_name, own_value;
  int has_value, is_never_indexed;
} line;

/* Has the line name a field of the static table. */
static outcome name_static(line *l, uint64_t index) {
  if (index >= 99) return BAD;
  l->name = (const uint8_t *)STATIC[index].name;
  l->namelen = strlen(STATIC[index].name);
  l->value = (const uint8_t *)STATIC[index].value;
  l->valuelen = strlen(STATIC[index].value);
  return WHOLE;
}

/* Has the line name an entry by its absolute index, which the section may reference (section 2.2.3). */
static outcome name_entry(const strict_decoder *d, line *l, uint64_t index, uint64_t required) {
  uint64_t dropped = d->insert_count - d->entries.len;
  if (index >= required || index < dropped) return BAD;
  const strict_field *entry = &d->entries.at[index - dropped];
  l->name = entry->text;
  l->namelen = entry->namelen;
  l->value = entry->text + entry->namelen;
  l->valuelen = entry->valuelen;
  return WHOLE;
}

/* Reads the index of a line, in so many bits, and has the line name what it is of. */
static outcome name_by_index(const strict_decoder *d, reader *r, line *l, int bits, int is_static, int is_post_base,
                             uint64_t base, uint64_t required) {
  uint64_t index;
  outcome done = read_integer(r, bits, &index);
  if (done != WHOLE) return done;
  if (is_static) return name_static(l, index);
  if (is_post_base) return index > UINT64_MAX - base ? BAD : name_entry(d, l, base + index, required);
  return index >= base ? BAD : name_entry(d, l, base - 1 - index, required);
}

static outcome read_line(const strict_decoder *d, reader *r, line *l, uint64_t base, uint64_t required) {
  uint8_t first = r->p[r->at];
  outcome done;
  *l = (line){.has_value = 0};
  if (first & 0x80) { /* an indexed field line */
    l->has_value = 1;
    done = name_by_index(d, r, l, 6, first & 0x40, 0, base, required);
  } else if (first & 0x40) { /* a literal with a name reference */
    l->is_never_indexed = first >> 5 & 1;
    done = name_by_index(d, r, l, 4, first & 0x10, 0, base, required);
  } else if (first & 0x20) { /* a literal with a literal name */
    l->is_never_indexed = first >> 4 & 1;
    done = read_text(r, 3, &l->own_name);
    l->name = l->own_name.p;
    l->namelen = l->own_name.len;
  } else if (first & 0x10) { /* an indexed field line with a post-base index */
    l->has_value = 1;
    done = name_by_index(d, r, l, 4, 0, 1, base, required);
  } else { /* a literal with a post-base name reference */
    l->is_never_indexed = first >> 3 & 1;
    done = name_by_index(d, r, l, 3, 0, 1, base, required);
  }
  if (done != WHOLE || l->has_value) return done;
  done = read_text(r, 7, &l->own_value);
  l->value = l->own_value.p;
  l->valuelen = l->own_value.len;
  return done;
}

strict_section strict_decode(const strict_decoder *d, const uint8_t *p, size_t len, uint64_t limit) {
  strict_section s = {.status = STRICT_OK};
  reader r = {p, len, 0};
  uint64_t base, size = 0;
  if (!read_prefix(d, &r, &s.required, &base)) s.status = STRICT_REFUSED;
  else if (s.required > d->insert_count) s.status = STRICT_BLOCKED;
  for (uint64_t number = 1; s.status == STRICT_OK && r.at < r.len; number++) {
    size_t offset = r.at;
    line l;
    if (read_line(d, &r, &l, base, s.required) != WHOLE) {
      s.status = STRICT_REFUSED;
    } else {
      size += (uint64_t)l.namelen + l.valuelen + 32;
      if (size > limit) s.status = STRICT_TOO_LARGE;
      else add_field(&s.fields, l.name, l.namelen, l.value, l.valuelen, l.is_never_indexed);
    }
    if (s.status != STRICT_OK) {
      s.number = number;
      s.offset = offset;
    }
    free(l.own_name.p);
    free(l.own_value.p);
  }
  return s;
}

/* ---- The decoder stream (section 4.4) */

void strict_new_encoder(strict_encoder *e) { *e = (strict_encoder){.number = 1}; }

void strict_del_encoder(strict_encoder *e) { free(e->sent); }

void strict_send(strict_encoder *e, uint64_t stream, uint64_t required, uint64_t insert_count) {
  e->insert_count = insert_count;
  if (!required) return;
  if (e->len == e->room) {
    e->room = 2 * e->room + 8;
    e->sent = claim(realloc(e->sent, e->room * sizeof *e->sent));
  }
  e->sent[e->len++] = (strict_sent){stream, required};
}

/* Releases sections of a stream, all or only the oldest. Returns how many, and stores what the last one requires. */
static size_t release(strict_encoder *e, uint64_t stream, int are_all, uint64_t *required) {
  size_t kept = 0, released = 0;
  for (size_t i = 0; i < e->len; i++) {
    if (e->sent[i].stream == stream && (are_all || !released)) {
      *required = e->sent[i].required;
      released++;
    } else {
      e->sent[kept++] = e->sent[i];
    }
  }
  e->len = kept;
  return released;
}

static outcome hear_instruction(strict_encoder *e, reader *r) {
  uint64_t value, required = 0;
  if (r->at == r->len) return CUT;
  uint8_t first = r->p[r->at];
  outcome done = read_integer(r, first & 0x80 ? 7 : 6, &value);
  if (done != WHOLE) return done;
  if (first & 0x80) {
    if (!release(e, value, 0, &required)) return BAD;
    if (required > e->known_received) e->known_received = required;
  } else if (first & 0x40) {
    release(e, value, 1, &required);
  } else {
    if (!value || value > e->insert_count - e->known_received) return BAD;
    e->known_received += value;
  }
  return WHOLE;
}

strict_status strict_hear(strict_encoder *e, const uint8_t *p, size_t len) {
  if (e->is_refused) return STRICT_REFUSED;
  for (size_t i = 0; i < len; i++) {
    if (e->pendinglen == sizeof e->pending) abort(); /* an integer has at most ten bytes */
    e->pending[e->pendinglen++] = p[i];
    reader r = {e->pending, e->pendinglen, 0};
    outcome done = hear_instruction(e, &r);
    e->is_refused = done == BAD;
    if (done == BAD) return STRICT_REFUSED;
    if (done == CUT) continue;
    e->number++;
    e->offset += e->pendinglen;
    e->pendinglen = 0;
  }
  return STRICT_OK;
}

size_t strict_count_streams(const strict_sent *sent, size_t len, uint64_t insertions) {
  size_t streams = 0;
  for (size_t i = 0; i < len; i++) {
    int is_first = sent[i].required > insertions;
    for (size_t j = 0; j < i && is_first; j++) is_first = sent[j].stream != sent[i].stream || sent[j].required <= insertions;
    streams += (size_t)is_first;
  }
  return streams;
}
