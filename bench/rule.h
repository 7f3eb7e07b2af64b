/* The rule of this library's encoder: what is inserted, what is referenced, and what is let go. It is that of
 * crates/qpack_encoding/src/choosing.rt, which model.c compares it with; bound.c --rule says what another one would write.
 * Include it after encoder.h. */
#ifndef RULE_H
#define RULE_H

/* Whether an insertion may name an entry that it evicts (RFC 9204, section 3.2.2). */
#define NAMES_EVICTED 1

/* After an insertion found no room, the table is tight for this many lists. */
#define LISTS_WITHOUT_ROOM 32

/* How many copies are remembered. */
#define MOST_COPIES 16

/* A reference with a relative index of this or more takes a second byte; and the part of the capacity that a field may take
 * which is inserted again for that. */
#define FAR 63
#define PART_OF_A_FAR_COPY 64

/* The part of the capacity that drains, and that of the oldest entries. In a table of less than LARGE bytes what was
 * referenced lately stays, no entry is let go, and room alone is no reason to insert. */
#define PART_THAT_DRAINS 4
#define PART_OF_THE_OLDEST 8
#define LARGE 2048

/* The history: the tags of a set, the bytes of capacity for each of the first FEW_SETS sets and for each of more, and the
 * greatest number of sets. */
#define WAYS 4
#define BYTES_A_FIRST_SET 128
#define BYTES_A_SET 256
#define FEW_SETS 4
#define MOST_SETS 32

/* The scores of names: how many there are, what each is at first, what a value that comes again adds, and the part that a new
 * value takes. Values of LONG bytes and more have another score than shorter ones. The name at DATE is that of dates, which
 * come again within a second: its score is DATED at first. From LIKELY on a field is inserted at first sight, at the limit from
 * LIKELY_AT_THE_LIMIT on, and below it in a tight table from LIKELY_IF_TIGHT on; below UNLIKELY it is not, even where there is
 * room, and at the limit not even if it comes again, but for one of TURNS, and none whose score is 0. */
#define SCORES 256
#define MIDDLE 128
#define DATE 135
#define DATED 164
#define SCORE_GAIN 48
#define SCORE_LOSS 8
#define LONG 128
#define LIKELY 140
#define LIKELY_AT_THE_LIMIT 144
#define LIKELY_IF_TIGHT 192
#define UNLIKELY 64
#define TURNS 8

/* The marks of entries: how many there are, that of the first list, how many lists they tell apart, and how many lists old
 * one is at most that was referenced lately. */
#define MARKS 256
#define FIRST_LIST 3
#define LISTS 253
#define LATELY 2

/* The most fields that may be inserted for their names, how many more the first reference to one allows, and the part of the
 * capacity that such a field may take. */
#define MOST_FOR_NAMES 2
#define GAIN 1
#define PART_OF_A_NAME 2

/* The most bytes that may be earned and not spent; among how many lists the bytes of all literals are shared, once there are
 * that many; how many fifths of a share may be owed, and how many sixteenths of the first one. In a small table an entry takes
 * its own room if its bytes are earned TIMES_EARNED times. */
#define MOST_EARNED 16384
#define SHARES 11
#define FIFTHS_OWED 4
#define SIXTEENTHS_OWED 11
#define TIMES_EARNED 8

/* When an entry was referenced last; if never, why it was inserted. */
typedef enum { NONE, NONE_FOR_NAME, NONE_SINCE, RECENT, EARLIER } last_use;

/* Why a field is inserted. */
typedef enum { NOT, ASKED, AGAIN, AT_FIRST_SIGHT, FOR_NAME } reason;

/* Absolute indexes; 0 is none. */
typedef struct {
  size_t copy, original;
} pair;

typedef struct {
  /* The newest entry that drains, or one that was evicted. */
  size_t draining;
  /* How many lists began since an insertion found no room. */
  size_t lists_since;
  /* The latest copies of entries, the latest first. */
  pair copies[MOST_COPIES];
  /* Tags of the fields that were seen lately, in sets, of each the latest first; 0 is none. */
  uint16_t tags[MOST_SETS][WAYS];
  size_t sets;
  uint8_t scores[SCORES], marks[MARKS], list, turns;
  /* How many fields may be inserted for their names. */
  size_t names_left;
  /* Of insertions at the limit: how many bytes references gave, how many are owed, how many the literals had, and how many
   * lists began. */
  size_t earned, owed, literals, lists;
} rule;

static inline size_t least_of(size_t a, size_t b) { return a < b ? a : b; }

/* Returns how many sets the history has. */
static inline size_t count_sets(size_t capacity) {
  size_t few = least_of(capacity / BYTES_A_FIRST_SET, FEW_SETS), sets = least_of(capacity / BYTES_A_SET, MOST_SETS);
  if (sets < few) sets = few;
  return sets ? sets : 1;
}

static inline void begin_rule(rule *r, size_t capacity) {
  *r = (rule){.lists_since = SIZE_MAX / 2, .names_left = MOST_FOR_NAMES};
  memset(r->scores, MIDDLE, sizeof r->scores);
  r->scores[DATE] = DATED;
  r->sets = count_sets(capacity);
}

static inline int drains(const rule *r, size_t absolute) { return absolute <= r->draining; }

static inline int is_tight(const rule *r) { return r->lists_since <= LISTS_WITHOUT_ROOM; }

/* Whether an insertion found no room in this list or a few before it. */
static inline int lacked_room_lately(const rule *r) { return r->lists_since <= LATELY; }

/* Returns the sizes of the entries after those that drain. */
static inline size_t size_of_rest(const rule *r, const encoder *e) {
  size_t rest = 0, first = r->draining > e->dropped ? r->draining : e->dropped;
  for (size_t i = first + 1; i <= e->inserted; i++) rest += e->entries[i].f->size;
  return rest;
}

/* Moves on what drains. */
static inline void begin_list(void *state, const encoder *e) {
  rule *r = state;
  r->lists_since++;
  r->list = (uint8_t)((r->list + 1) % LISTS);
  if (!e->may_block) r->lists = least_of(r->lists + 1, SHARES);
  if (r->draining < e->dropped) r->draining = e->dropped;
  size_t rest = size_of_rest(r, e);
  while (rest > e->capacity - e->capacity / PART_THAT_DRAINS) rest -= e->entries[++r->draining].f->size;
}

/* Whether live entries before this one take less than a part of the capacity. */
static inline int is_of_the_oldest(const encoder *e, size_t absolute) {
  size_t before = 0;
  for (size_t i = e->dropped + 1; i < absolute; i++) before += e->entries[i].f->size;
  return before < e->capacity / PART_OF_THE_OLDEST || absolute == e->dropped + 1;
}

static inline int is_let_go(const rule *r, const encoder *e, size_t absolute) {
  return e->capacity >= LARGE && is_tight(r) && drains(r, absolute) && is_of_the_oldest(e, absolute);
}

/* ---- Marks */

static inline last_use used_last(const rule *r, size_t absolute) {
  int mark = r->marks[absolute % MARKS];
  if (mark < FIRST_LIST) return (last_use)mark;
  return (r->list + LISTS - (mark - FIRST_LIST)) % LISTS <= LATELY ? RECENT : EARLIER;
}

static inline void mark_used(rule *r, size_t absolute) { r->marks[absolute % MARKS] = (uint8_t)(r->list + FIRST_LIST); }

static inline void mark_unused(rule *r, size_t absolute, last_use why) { r->marks[absolute % MARKS] = (uint8_t)why; }

/* Notes that the next entry is a copy of this one. */
static inline void note_copy(rule *r, const encoder *e, size_t original) {
  memmove(r->copies + 1, r->copies, sizeof r->copies - sizeof *r->copies);
  r->copies[0] = (pair){e->inserted + 1, original};
  mark_used(r, e->inserted + 1);
}

/* Whether one more copy would push out one that the decoder is not known to have received. */
static inline int has_too_many_copies(const rule *r, const encoder *e) {
  size_t oldest = r->copies[MOST_COPIES - 1].copy;
  return oldest > e->dropped && !may_reference(e, oldest);
}

/* ---- Hashes */

static inline uint64_t fold_product(uint64_t a, uint64_t b) {
  unsigned __int128 product = (unsigned __int128)a * b;
  return (uint64_t)product ^ (uint64_t)(product >> 64);
}

/* Returns the number of up to eight bytes, the least significant first. */
static inline uint64_t little_endian(const uint8_t *at, size_t len) {
  uint64_t number = 0;
  while (len--) number = number << 8 | at[len];
  return number;
}

static inline uint64_t hash_bytes(uint64_t hash, const uint8_t *at, size_t len) {
  static const uint64_t factor = 0xE7037ED1A0B428DBu;
  hash ^= len;
  for (; len >= 16; at += 16, len -= 16) hash = fold_product(hash ^ little_endian(at, 8), factor ^ little_endian(at + 8, 8));
  if (len >= 8) return fold_product(hash ^ little_endian(at, 8), factor ^ little_endian(at + len - 8, 8));
  if (len >= 4) return fold_product(hash ^ little_endian(at, 4), factor ^ little_endian(at + len - 4, 4));
  uint64_t few = 0;
  for (size_t i = 0; i < len; i++) few = few << 8 | at[i];
  return fold_product(hash ^ few, factor);
}

/* The hashes of a field and of its name, as tables compute them under the seed 0
 * (crates/qpack_table/src/dynamic/index/hash.rt). */
typedef struct {
  uint32_t name, field;
} hashes;

static inline hashes hash_field(const field *f) {
  uint64_t name = hash_bytes(0xA0761D6478BD642Fu, f->nv->name, f->nv->namelen);
  return (hashes){(uint32_t)(name >> 32), (uint32_t)(hash_bytes(name, f->nv->value, f->nv->valuelen) >> 32)};
}

/* Returns whether a field was seen lately, and keeps that it was. */
static inline int see(rule *r, uint32_t hash) {
  uint16_t *set = r->tags[hash % r->sets], tag = (uint16_t)((hash / r->sets & 0xffff) | 1);
  for (int i = 0; i < WAYS; i++)
    if (set[i] == tag) return 1;
  memmove(set + 1, set, (WAYS - 1) * sizeof *set);
  set[0] = tag;
  return 0;
}

/* ---- Scores */

static inline uint8_t *score_of(rule *r, const field *f, hashes h) {
  size_t of_long = f->nv->valuelen < LONG ? 0 : SCORES / 2;
  return &r->scores[(h.name >> 24) ^ of_long];
}

static inline void raise_score(uint8_t *score) { *score = *score > 255 - SCORE_GAIN ? 255 : (uint8_t)(*score + SCORE_GAIN); }

static inline void lower_score(uint8_t *score) { *score = (uint8_t)(*score - (*score + SCORE_LOSS - 1) / SCORE_LOSS); }

/* ---- The allowance */

/* Returns how many bytes the value has, with the name unless a static field has that. */
static inline size_t length(const field *f) { return f->nv->valuelen + (f->static_name < 0 ? f->nv->namelen : 0); }

/* Notes a literal that may be inserted, at the limit. */
static inline void note_literal(rule *r, const encoder *e, const field *f) {
  if (!e->may_block) r->literals += length(f);
}

/* Notes that an equal field references an entry, at the limit. */
static inline void earn(rule *r, const field *f) {
  size_t back = least_of(length(f), r->owed);
  r->owed -= back;
  r->earned = least_of(r->earned + length(f) - back, MOST_EARNED);
}

/* Returns how many bytes may be owed: four fifths of what an average list has in literals, and a little less of the first. */
static inline size_t credit(const rule *r) {
  return r->lists == 1 ? r->literals * SIXTEENTHS_OWED / 16 : r->literals * FIFTHS_OWED / (r->lists * 5);
}

/* Returns whether a field may be inserted that is not referenced, and takes its bytes. */
static inline int pay(rule *r, const field *f) {
  if (length(f) <= r->earned) {
    r->earned -= length(f);
    return 1;
  }
  if (r->owed + length(f) > credit(r)) return 0;
  r->owed += length(f);
  return 1;
}

static inline void gain_name(rule *r) { r->names_left = least_of(r->names_left + GAIN, MOST_FOR_NAMES); }

/* Notes that an equal field references an entry, and returns when one did before. */
static inline last_use note_equal(rule *r, const encoder *e, const field *f, size_t entry) {
  last_use last = used_last(r, entry);
  if (!e->may_block) earn(r, f);
  mark_used(r, entry);
  if (last == NONE_FOR_NAME) gain_name(r);
  if (last == NONE || last == NONE_FOR_NAME || (last == NONE_SINCE && !e->may_block))
    raise_score(score_of(r, f, hash_field(f)));
  return last;
}

/* Notes that a literal references the name of an entry. */
static inline void note_name(rule *r, size_t entry) {
  last_use last = used_last(r, entry);
  if (last == NONE_FOR_NAME) {
    gain_name(r);
    mark_unused(r, entry, NONE);
  } else if (last >= RECENT) {
    mark_used(r, entry);
  }
}

/* Returns the newest equal entry that may be referenced, or the one that it is a copy of; or 0. */
static inline size_t entry_to_reference(const rule *r, const encoder *e, const field *f) {
  size_t newest = newest_equal(e, f);
  if (may_reference(e, newest)) return newest;
  for (int i = 0; i < MOST_COPIES; i++) {
    size_t original = r->copies[i].original;
    if (r->copies[i].copy == newest) return may_reference(e, original) && is_equal(e, original, f) ? original : 0;
  }
  return 0;
}

/* Whether an entry that does not drain is inserted again: it is far, small and was referenced lately, and only entries that
 * drain are evicted for it. */
static inline int is_worth_a_copy(const rule *r, const encoder *e, const field *f, size_t entry, last_use last) {
  return e->base >= entry && e->base - entry >= FAR && last == RECENT && f->size <= e->capacity / PART_OF_A_FAR_COPY &&
         size_of_rest(r, e) + f->size <= e->capacity;
}

/* Whether a field can be inserted. In a small table nothing is evicted for it that was referenced lately, except an entry that
 * it replaces; 0 is none. */
static inline int can_insert(const rule *r, const encoder *e, const field *f, size_t replaced) {
  if (!has_room(e, f)) return 0;
  if (e->capacity >= LARGE) return 1;
  size_t last = last_evicted(e, f->size);
  for (size_t i = e->dropped + 1; i <= last; i++)
    if (i != replaced && used_last(r, i) == RECENT) return 0;
  return 1;
}

/* Whether a used entry of a small table is inserted again in its own room, and pays for it: at the limit, if references have
 * earned its bytes many times. */
static inline int takes_its_room(rule *r, const encoder *e, const field *f, size_t entry, last_use last) {
  return e->capacity < LARGE && last == RECENT && entry <= last_evicted(e, f->size) && can_insert(r, e, f, entry) &&
         r->earned >= TIMES_EARNED * length(f) && pay(r, f);
}

/* Chooses for a field that an entry equals which may be referenced. One that drains or is far is inserted again. */
static inline choice choose_equal(rule *r, const encoder *e, const field *f, size_t entry) {
  choice refer = {EQUAL, entry, 0};
  last_use last = note_equal(r, e, f, entry);
  if (f->nv->flags & H3_QPACK_NV_FLAG_REUSE || entry < newest_equal(e, f)) return refer;
  if (!drains(r, entry) && !is_worth_a_copy(r, e, f, entry, last)) return refer;
  if (!e->may_block) {
    if (can_insert(r, e, f, 0) && !has_too_many_copies(r, e)) {
      note_copy(r, e, entry);
      refer.inserts = 1;
    } else if (takes_its_room(r, e, f, entry, last)) {
      mark_used(r, e->inserted + 1);
      return (choice){ALONE, 0, 1};
    }
    return refer;
  }
  if (can_insert(r, e, f, last == RECENT && !lacked_room_lately(r) ? 0 : entry)) {
    mark_used(r, e->inserted + 1);
    return (choice){.form = INSERTED};
  }
  return is_let_go(r, e, entry) ? (choice){.form = ALONE} : refer;
}

/* Whether at most a half of the capacity is used with the field, and the list may be blocked. */
static inline int leaves_room(const encoder *e, const field *f) {
  return e->may_block && e->capacity >= LARGE && e->used + f->size <= e->capacity / 2;
}

/* Whether a field is inserted for its name alone, which no table has, or only an entry that drains. */
static inline int takes_name(const rule *r, const encoder *e, const field *f) {
  return f->static_name < 0 && r->names_left && f->size <= e->capacity / PART_OF_A_NAME && has_room(e, f) &&
         drains(r, newest_named(e, f));
}

/* Whether a field that came again is inserted, by the score of its name. */
static inline int is_worth_an_entry(rule *r, const encoder *e, int score) {
  if (e->may_block || score >= UNLIKELY) return 1;
  return score > 0 && ++r->turns % TURNS == 0;
}

/* Returns the score from which on a field is inserted when it comes for the first time. */
static inline int least_likely(const rule *r, const encoder *e) {
  if (!e->may_block) return LIKELY_AT_THE_LIMIT;
  return is_tight(r) ? LIKELY_IF_TIGHT : LIKELY;
}

/* Whether a field is inserted when it comes for the first time, by the score of its name. */
static inline int is_likely(const rule *r, const encoder *e, const field *f, int score) {
  return score >= least_likely(r, e) || (score >= UNLIKELY && leaves_room(e, f));
}

/* Returns why a field that no entry equals is to be inserted, if it is. */
static inline reason wants(rule *r, const encoder *e, const field *f) {
  hashes h = hash_field(f);
  uint8_t *of_name = score_of(r, f, h);
  int is_again = see(r, h.field), score = *of_name;
  if (!is_again) {
    lower_score(of_name);
  } else if (e->may_block) {
    raise_score(of_name);
  }
  if (f->nv->flags & H3_QPACK_NV_FLAG_REUSE) return NOT;
  if (f->nv->flags & H3_QPACK_NV_FLAG_INSERT) return ASKED;
  if (is_again) return is_worth_an_entry(r, e, score) ? AGAIN : NOT;
  if (is_likely(r, e, f, score)) return AT_FIRST_SIGHT;
  return takes_name(r, e, f) ? FOR_NAME : NOT;
}

/* Whether a field is inserted that its line does not reference, which it pays for. */
static inline int affords(rule *r, const encoder *e, const field *f) { return can_insert(r, e, f, 0) && pay(r, f); }

/* Notes that the next entry is inserted for a reason. */
static inline void note_insertion(rule *r, const encoder *e, reason why) {
  size_t next = e->inserted + 1;
  if (why == FOR_NAME) {
    r->names_left--;
    mark_unused(r, next, NONE_FOR_NAME);
  } else if (why == AT_FIRST_SIGHT) {
    mark_unused(r, next, NONE);
  } else if (why == AGAIN && !e->may_block) {
    mark_unused(r, next, NONE_SINCE);
  } else {
    mark_used(r, next);
  }
}

/* Chooses a literal, with the name of an entry if no static field has it. */
static inline choice choose_literal(rule *r, const encoder *e, const field *f, int inserts) {
  size_t named = f->static_name < 0 ? newest_named(e, f) : 0;
  if (!named || !may_reference(e, named) || is_let_go(r, e, named)) return (choice){ALONE, 0, inserts};
  note_name(r, named);
  return (choice){NAMED, 0, inserts};
}

static inline choice choose_new(rule *r, const encoder *e, const field *f) {
  note_literal(r, e, f);
  reason why = wants(r, e, f);
  if (why == NOT) return choose_literal(r, e, f, 0);
  if (!e->may_block) {
    int inserts = why == ASKED || affords(r, e, f);
    if (inserts) note_insertion(r, e, why);
    return choose_literal(r, e, f, inserts);
  }
  if (why == ASKED ? has_room(e, f) : can_insert(r, e, f, 0)) {
    note_insertion(r, e, why);
    return (choice){.form = INSERTED};
  }
  r->lists_since = 0;
  return choose_literal(r, e, f, 0);
}

static inline choice choose_by_rule(void *state, const encoder *e, const field *f) {
  rule *r = state;
  if (is_never_indexed(f)) return choose_literal(r, e, f, 0);
  if (!newest_equal(e, f)) return choose_new(r, e, f);
  size_t entry = entry_to_reference(r, e, f);
  if (entry) return choose_equal(r, e, f, entry);
  note_literal(r, e, f);
  return choose_literal(r, e, f, 0);
}

#endif
