/* A model of an encoder: a dynamic table, and the lines and instructions that a chooser asks for, byte for byte (RFC 9204,
 * sections 2.1, 3.2, 4.3 and 4.5). Nothing of the library is in it. Include it after common.h or peer.h, and play.h. */
#ifndef ENCODER_H
#define ENCODER_H

#include "../c/fuzz/tables.h"

#define STATICS (sizeof STATIC / sizeof *STATIC)

/* What an entry takes beside its name and its value, in bytes (RFC 9204, section 3.2.1). */
#define ENTRY_OVERHEAD 32

/* ---- The lists of one direction, as an encoder looks at them */

/* A string by the Huffman code (RFC 7541, section 5.2) if that makes it shorter, else plain. */
typedef struct {
  uint8_t *bytes;
  size_t len;
  int is_coded;
} literal;

typedef struct {
  const h3_qpack_nv *nv;
  /* Equal fields have equal numbers, and so have fields of equal names. Numbers begin at 0. */
  size_t number, name_number;
  /* The index of the static field that equals it, and the least index of one with its name; -1 if there is none. */
  int static_field, static_name;
  /* What its entry takes, in bytes. */
  size_t size;
  literal name, value;
} field;

typedef struct {
  /* The fields of all lists. Those of a list begin where |begins| says, which ends with their number. */
  field *fields;
  size_t *begins;
  size_t nlists, nfields;
  /* How many different fields and names there are. */
  size_t numbers, name_numbers;
} corpus;

static inline literal encode_text(const uint8_t *text, size_t len) {
  /* No code is longer than 30 bits. */
  literal c = {malloc(4 * len + 1), 0, 1};
  uint64_t pending = 0;
  int have = 0;
  CHECK(c.bytes);
  for (size_t i = 0; i < len; i++) {
    pending = pending << CODES[text[i]].bits | CODES[text[i]].code;
    for (have += CODES[text[i]].bits; have >= 8; have -= 8) c.bytes[c.len++] = (uint8_t)(pending >> (have - 8));
  }
  if (have) c.bytes[c.len++] = (uint8_t)(pending << (8 - have) | 0xff >> have);
  if (c.len < len) return c;
  memcpy(c.bytes, text, len);
  c.len = len;
  c.is_coded = 0;
  return c;
}

static inline int is_text(const uint8_t *text, size_t len, const char *other) {
  return len == strlen(other) && !memcmp(text, other, len);
}

static inline void seek_static(field *f) {
  const h3_qpack_nv *nv = f->nv;
  f->static_field = f->static_name = -1;
  for (int i = (int)STATICS - 1; i >= 0; i--) {
    if (!is_text(nv->name, nv->namelen, STATIC[i].name)) continue;
    f->static_name = i;
    if (is_text(nv->value, nv->valuelen, STATIC[i].value)) f->static_field = i;
  }
}

static inline field make_field(const h3_qpack_nv *nv) {
  field f = {.nv = nv, .size = nv->namelen + nv->valuelen + ENTRY_OVERHEAD};
  seek_static(&f);
  f.name = encode_text(nv->name, nv->namelen);
  f.value = encode_text(nv->value, nv->valuelen);
  return f;
}

static inline int compare_texts(const uint8_t *a, size_t alen, const uint8_t *b, size_t blen) {
  if (alen != blen) return alen < blen ? -1 : 1;
  return alen ? memcmp(a, b, alen) : 0;
}

static inline int compare_names(const field *a, const field *b) {
  return compare_texts(a->nv->name, a->nv->namelen, b->nv->name, b->nv->namelen);
}

/* Compares what pointers to fields point to: the names, and of equal ones the values. */
static inline int compare_fields(const void *one, const void *other) {
  const field *a = *(field *const *)one, *b = *(field *const *)other;
  int names = compare_names(a, b);
  return names ? names : compare_texts(a->nv->value, a->nv->valuelen, b->nv->value, b->nv->valuelen);
}

/* Gives the fields their numbers. */
static inline void number_fields(corpus *c) {
  field **sorted = malloc((c->nfields + 1) * sizeof *sorted);
  CHECK(sorted);
  for (size_t i = 0; i < c->nfields; i++) sorted[i] = &c->fields[i];
  qsort(sorted, c->nfields, sizeof *sorted, compare_fields);
  for (size_t i = 0; i < c->nfields; i++) {
    c->numbers += !i || compare_fields(&sorted[i - 1], &sorted[i]);
    c->name_numbers += !i || compare_names(sorted[i - 1], sorted[i]);
    sorted[i]->number = c->numbers - 1;
    sorted[i]->name_number = c->name_numbers - 1;
  }
  free(sorted);
}

/* Returns the fields of these lists, which have to stay. */
static inline corpus make_corpus(direction d) {
  corpus c = {.nlists = d.count};
  for (size_t i = 0; i < d.count; i++) c.nfields += d.all[i]->len;
  c.fields = malloc((c.nfields + 1) * sizeof *c.fields);
  c.begins = malloc((c.nlists + 1) * sizeof *c.begins);
  CHECK(c.fields && c.begins);
  size_t count = 0;
  for (size_t i = 0; i < d.count; i++) {
    c.begins[i] = count;
    for (size_t k = 0; k < d.all[i]->len; k++) c.fields[count++] = make_field(&d.all[i]->nv[k]);
  }
  c.begins[d.count] = count;
  number_fields(&c);
  return c;
}

static inline void free_corpus(corpus *c) {
  for (size_t i = 0; i < c->nfields; i++) {
    free(c->fields[i].name.bytes);
    free(c->fields[i].value.bytes);
  }
  free(c->fields);
  free(c->begins);
}

/* ---- What is written */

/* Bytes that are written: those of a section, or those of the encoder stream for it. */
typedef struct {
  uint8_t at[1 << 16];
  size_t len;
} output;

static inline void write_bytes(output *o, const void *p, size_t len) {
  CHECK(len <= sizeof o->at - o->len);
  memcpy(o->at + o->len, p, len);
  o->len += len;
}

/* Writes an integer after flags, in a prefix of |bits| bits (RFC 9204, section 4.1.1). */
static inline void write_integer(output *o, uint8_t flags, int bits, uint64_t value) {
  uint8_t at[11];
  write_bytes(o, at, write_int(at, flags, bits, value));
}

/* Writes a string after flags; the bit before the prefix says whether it is coded (section 4.1.2). */
static inline void write_string(output *o, uint8_t flags, int bits, const literal *c) {
  write_integer(o, (uint8_t)(flags | c->is_coded << bits), bits, c->len);
  write_bytes(o, c->bytes, c->len);
}

/* ---- The table, and the sections that wait for their acknowledgments */

typedef struct {
  const field *f;
  /* How many sections reference it that are not acknowledged, and the one in progress. */
  size_t holders;
} entry;

typedef struct {
  /* Where its references begin, and how many there are; and its required insert count. */
  size_t first, count, required;
  int is_acknowledged;
} sent_section;

typedef struct {
  const corpus *from;
  size_t capacity, blocked;
  /* Whether an insertion may name an entry that it evicts (RFC 9204, section 3.2.2). */
  int names_evicted;
  /* The entries by their absolute indexes, which begin at 1; those up to |dropped| were evicted. */
  entry *entries;
  size_t inserted, dropped, used;
  /* The known received count (section 2.1.4). */
  size_t known;
  /* The absolute index of the newest entry with a field, and with a name, by their numbers; 0 or an evicted one: none. */
  size_t *newest, *newest_name;
  /* The sections by their numbers; those before |oldest| are acknowledged. And what all of them reference. */
  sent_section *sections;
  size_t nsections, oldest;
  size_t *references;
  size_t nreferences;
  /* Of the section in progress: its base, and whether it may be blocked. */
  size_t base;
  int may_block;
  /* What was written of it. */
  output section, stream;
} encoder;

static inline void *make_zeros(size_t count, size_t size) {
  void *p = calloc(count, size);
  CHECK(p);
  return p;
}

/* Returns an encoder for the lists of a corpus, each of which is to be encoded once, in their order. */
static inline encoder *open_model(const corpus *c, setting s, int names_evicted) {
  encoder *e = make_zeros(1, sizeof *e);
  e->from = c;
  e->capacity = s.capacity;
  e->blocked = s.blocked;
  e->names_evicted = names_evicted;
  /* No field is inserted twice for a list, and none is referenced twice. */
  e->entries = make_zeros(c->nfields + 1, sizeof *e->entries);
  e->references = make_zeros(c->nfields + 1, sizeof *e->references);
  e->sections = make_zeros(c->nlists + 1, sizeof *e->sections);
  e->newest = make_zeros(c->numbers + 1, sizeof *e->newest);
  e->newest_name = make_zeros(c->name_numbers + 1, sizeof *e->newest_name);
  return e;
}

static inline void close_model(encoder *e) {
  free(e->entries);
  free(e->references);
  free(e->sections);
  free(e->newest);
  free(e->newest_name);
  free(e);
}

static inline size_t live_or_none(const encoder *e, size_t absolute) { return absolute > e->dropped ? absolute : 0; }

/* Returns the newest entry that equals a field, or 0. */
static inline size_t newest_equal(const encoder *e, const field *f) { return live_or_none(e, e->newest[f->number]); }

/* Returns the newest entry with the name of a field, or 0. */
static inline size_t newest_named(const encoder *e, const field *f) { return live_or_none(e, e->newest_name[f->name_number]); }

static inline int is_equal(const encoder *e, size_t absolute, const field *f) {
  return absolute > e->dropped && absolute <= e->inserted && e->entries[absolute].f->number == f->number;
}

/* Whether an entry may be referenced: the section may be blocked, or it is known that the entry was received. */
static inline int may_reference(const encoder *e, size_t absolute) { return e->may_block || absolute <= e->known; }

/* Returns which entry is the last that has to be evicted for that many bytes, whether it can be or not. */
static inline size_t last_evicted(const encoder *e, size_t size) {
  size_t used = e->used, last = e->dropped;
  while (used + size > e->capacity && last < e->inserted) used -= e->entries[++last].f->size;
  return last;
}

/* Whether a field can be inserted: what has to be evicted for it is referenced no more, and known to be received (RFC 9204,
 * section 2.1.1). */
static inline int has_room(const encoder *e, const field *f) {
  if (f->size > e->capacity) return 0;
  size_t last = last_evicted(e, f->size);
  for (size_t i = e->dropped + 1; i <= last; i++)
    if (e->entries[i].holders || i > e->known) return 0;
  return 1;
}

/* Returns how many streams may be blocked (section 2.1.2). Each section has a stream of its own. */
static inline size_t count_blocked(const encoder *e) {
  size_t count = 0;
  for (size_t i = e->oldest; i < e->nsections; i++)
    count += !e->sections[i].is_acknowledged && e->sections[i].required > e->known;
  return count;
}

/* ---- What a chooser asks for */

/* How the line of a field is written. */
typedef enum {
  ALONE,   /* A literal, by the static field of its name, if there is one. */
  EQUAL,   /* A reference to an entry that equals it. */
  NAMED,   /* A literal with the name of the newest entry that has it. */
  INSERTED /* It is inserted, and the new entry referenced. */
} form;

typedef struct {
  form form;
  /* Of EQUAL: which entry. */
  size_t entry;
  /* Whether the field is inserted after its line, if there is room. Nothing references that entry. */
  int inserts;
} choice;

typedef struct {
  void *state;
  /* Begins a section that has a field. */
  void (*begin)(void *state, const encoder *e);
  /* Chooses for a field that no static field equals, or that is never indexed. */
  choice (*choose)(void *state, const encoder *e, const field *f);
} chooser;

static inline int is_never_indexed(const field *f) { return f->nv->flags & H3_QPACK_NV_FLAG_NEVER_INDEX; }

/* ---- Lines and instructions */

/* Adds an entry to the references of the section in progress. */
static inline void reference(encoder *e, size_t absolute) {
  sent_section *s = &e->sections[e->nsections];
  for (size_t i = 0; i < s->count; i++)
    if (e->references[s->first + i] == absolute) return;
  e->references[s->first + s->count++] = absolute;
  e->entries[absolute].holders++;
  if (absolute > s->required) s->required = absolute;
}

/* The line of a reference (RFC 9204, sections 4.5.2 and 4.5.3). */
static inline void write_reference(encoder *e, size_t absolute) {
  reference(e, absolute);
  if (absolute <= e->base) {
    write_integer(&e->section, 0x80, 6, e->base - absolute);
  } else {
    write_integer(&e->section, 0x10, 4, absolute - e->base - 1);
  }
}

/* The line of a literal without the dynamic table (sections 4.5.4 and 4.5.6). */
static inline void write_alone(encoder *e, const field *f) {
  int never = is_never_indexed(f);
  if (f->static_name >= 0) {
    write_integer(&e->section, never ? 0x70 : 0x50, 4, (uint64_t)f->static_name);
  } else {
    write_string(&e->section, never ? 0x30 : 0x20, 3, &f->name);
  }
  write_string(&e->section, 0, 7, &f->value);
}

/* The line of a literal with the name of an entry (sections 4.5.4 and 4.5.5). */
static inline void write_named(encoder *e, const field *f, size_t absolute) {
  int never = is_never_indexed(f);
  reference(e, absolute);
  if (absolute <= e->base) {
    write_integer(&e->section, never ? 0x60 : 0x40, 4, e->base - absolute);
  } else {
    write_integer(&e->section, never ? 0x08 : 0x00, 3, absolute - e->base - 1);
  }
  write_string(&e->section, 0, 7, &f->value);
}

/* The instruction that inserts a field, where entries up to |gone| can't be named (sections 4.3.2 to 4.3.4). */
static inline void write_insertion(encoder *e, const field *f, size_t gone) {
  size_t equal = newest_equal(e, f), named = newest_named(e, f);
  if (equal > gone) {
    write_integer(&e->stream, 0, 5, e->inserted - equal);
    return;
  }
  if (f->static_name >= 0) {
    write_integer(&e->stream, 0xc0, 6, (uint64_t)f->static_name);
  } else if (named > gone) {
    write_integer(&e->stream, 0x80, 6, e->inserted - named);
  } else {
    write_string(&e->stream, 0x40, 5, &f->name);
  }
  write_string(&e->stream, 0, 7, &f->value);
}

/* Inserts a field for which there is room. */
static inline void insert(encoder *e, const field *f) {
  size_t gone = last_evicted(e, f->size);
  write_insertion(e, f, e->names_evicted ? 0 : gone);
  while (e->dropped < gone) e->used -= e->entries[++e->dropped].f->size;
  e->entries[++e->inserted] = (entry){f, 0};
  e->used += f->size;
  e->newest[f->number] = e->newest_name[f->name_number] = e->inserted;
}

static inline void write_chosen(encoder *e, const field *f, choice c) {
  if (c.form == EQUAL) {
    CHECK(is_equal(e, c.entry, f) && may_reference(e, c.entry));
    write_reference(e, c.entry);
  } else if (c.form == NAMED) {
    size_t named = newest_named(e, f);
    CHECK(named && may_reference(e, named));
    write_named(e, f, named);
  } else if (c.form == INSERTED) {
    CHECK(e->may_block && has_room(e, f));
    insert(e, f);
    write_reference(e, e->inserted);
  } else {
    write_alone(e, f);
  }
  if (c.inserts && has_room(e, f)) insert(e, f);
}

/* The prefix of a section (section 4.5.1). */
static inline void write_prefix(output *o, size_t required, size_t base, size_t capacity) {
  size_t most = capacity / ENTRY_OVERHEAD;
  write_integer(o, 0, 8, required ? required % (2 * most) + 1 : 0);
  if (!required) {
    write_integer(o, 0, 7, 0);
  } else if (base >= required) {
    write_integer(o, 0, 7, base - required);
  } else {
    write_integer(o, 0x80, 7, required - base - 1);
  }
}

/* Writes the prefix before the lines that are written. */
static inline void put_prefix_before(encoder *e, size_t required) {
  static output prefix;
  prefix.len = 0;
  write_prefix(&prefix, required, e->base, e->capacity);
  CHECK(prefix.len <= sizeof e->section.at - e->section.len);
  memmove(e->section.at + prefix.len, e->section.at, e->section.len);
  memcpy(e->section.at, prefix.at, prefix.len);
  e->section.len += prefix.len;
}

/* Encodes the next list. Before the first one the capacity is announced (section 4.3.1). */
static inline void encode_next(encoder *e, const chooser *by) {
  const corpus *from = e->from;
  size_t number = e->nsections;
  CHECK(number < from->nlists);
  e->section.len = e->stream.len = 0;
  if (!number) write_integer(&e->stream, 0x20, 5, e->capacity);
  e->base = e->inserted;
  e->may_block = count_blocked(e) < e->blocked;
  e->sections[number] = (sent_section){.first = e->nreferences};
  if (from->begins[number] < from->begins[number + 1]) by->begin(by->state, e);
  for (size_t i = from->begins[number]; i < from->begins[number + 1]; i++) {
    const field *f = &from->fields[i];
    if (f->static_field >= 0 && !is_never_indexed(f)) {
      write_integer(&e->section, 0xc0, 6, (uint64_t)f->static_field);
    } else {
      write_chosen(e, f, by->choose(by->state, e, f));
    }
  }
  put_prefix_before(e, e->sections[number].required);
  e->sections[number].is_acknowledged = !e->sections[number].required;
  e->nreferences += e->sections[number].count;
  e->nsections++;
}

/* ---- What the decoder sends (RFC 9204, section 4.4) */

static inline uint64_t read_int(const uint8_t **at, const uint8_t *end, int bits) {
  uint64_t most = ((uint64_t)1 << bits) - 1, value = *(*at)++ & most;
  if (value < most) return value;
  for (int shift = 0; shift < 63; shift += 7) {
    CHECK(*at < end);
    uint8_t byte = *(*at)++;
    value += (uint64_t)(byte & 127) << shift;
    if (byte < 128) return value;
  }
  CHECK(!"a number below 2^62");
  return 0;
}

/* The section of a stream was decoded: what it references is referenced by one section less. */
static inline void acknowledge(encoder *e, uint64_t stream_id) {
  size_t number = (size_t)stream_id / 4;
  CHECK(number < e->nsections && !e->sections[number].is_acknowledged);
  sent_section *s = &e->sections[number];
  s->is_acknowledged = 1;
  for (size_t i = 0; i < s->count; i++) e->entries[e->references[s->first + i]].holders--;
  if (s->required > e->known) e->known = s->required;
  while (e->oldest < e->nsections && e->sections[e->oldest].is_acknowledged) e->oldest++;
}

static inline void hear_model(encoder *e, const answer *a) {
  const uint8_t *at = a->bytes, *end = a->bytes + a->len;
  while (at < end) {
    if (*at & 0x80) {
      acknowledge(e, read_int(&at, end, 7));
    } else {
      CHECK(!(*at & 0x40));
      e->known += (size_t)read_int(&at, end, 6);
    }
  }
}

#endif
