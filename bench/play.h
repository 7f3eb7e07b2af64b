/* Plays lists of fields to an encoder, whose peer answers some lists late, and says in which settings, and which lists.
 * Include it after common.h or peer.h. */
#ifndef PLAY_H
#define PLAY_H

#include "traffic.h"

#define MOST_LATE 32

/* The capacity of the table in bytes, how many streams may be blocked, and how many lists late the peer answers. */
typedef struct {
  size_t capacity, blocked, late;
} setting;

/* The settings of small and large tables. */
static const size_t all_capacities[] = {220, 512, 1024, 4096, 16384, 65536}, all_limits[] = {100, 0},
                    all_delays[] = {0, 8, MOST_LATE};

#define CAPACITIES (sizeof all_capacities / sizeof *all_capacities)
#define LIMITS (sizeof all_limits / sizeof *all_limits)
#define DELAYS (sizeof all_delays / sizeof *all_delays)
#define SETTINGS (CAPACITIES * LIMITS * DELAYS)

/* Returns the setting of a number. Those of a capacity and a limit follow each other. */
static inline setting setting_at(size_t number) {
  return (setting){all_capacities[number / (LIMITS * DELAYS)], all_limits[number / DELAYS % LIMITS],
                   all_delays[number % DELAYS]};
}

/* The lists that one end of a connection sends. */
typedef struct {
  const list **all;
  size_t count;
} direction;

/* What plays lists: an encoder, and a decoder that answers it. */
typedef struct {
  /* Encodes a list, decodes it, leaves what the decoder sends, and returns the bytes of the section and of the encoder
   * stream. */
  size_t (*exchange)(void *ends, uint64_t stream_id, const list *l, answer *answer);
  void (*hear)(void *ends, const answer *answer);
} player;

static inline int begins_with(const list *l, const char *name) {
  return l->len && l->nv[0].namelen == strlen(name) && !memcmp(l->nv[0].name, name, l->nv[0].namelen);
}

/* A list without the fields that requests and responses begin with is of trailers. */
static inline int are_trailers(const list *l) { return !l->len || !l->nv[0].namelen || l->nv[0].name[0] != ':'; }

/* Returns all requests of the lists, or all responses. Trailers go with the list before them. */
static inline direction lists_of(int responses) {
  direction d = {malloc((nlists + 1) * sizeof *d.all), 0};
  int is_response = 0;
  CHECK(d.all);
  for (size_t i = 0; i < nlists; i++) {
    if (!are_trailers(&lists[i])) is_response = begins_with(&lists[i], ":status");
    if (is_response == responses) d.all[d.count++] = &lists[i];
  }
  return d;
}

/* Returns the bytes of all lists on one connection, each on a stream of its own. */
static inline size_t play_lists(const player *p, void *ends, direction d, size_t late) {
  static answer answers[MOST_LATE + 1];
  size_t bytes = 0;
  CHECK(late <= MOST_LATE);
  for (size_t i = 0; i < d.count; i++) {
    bytes += p->exchange(ends, 4 * i, d.all[i], &answers[i % (late + 1)]);
    if (i >= late) p->hear(ends, &answers[(i + 1) % (late + 1)]);
  }
  return bytes;
}

/* ---- The corpora */

/* What is done with the lists of one direction, which have a name. */
typedef void visit_lists(const char *name, direction d);

static inline void visit_direction(const char *name, int responses, visit_lists *visit) {
  direction d = lists_of(responses);
  if (d.count) visit(name, d);
  free(d.all);
}

/* Visits the requests and the responses among the lists, and forgets them. */
static inline void visit_both(const char *name, visit_lists *visit) {
  char second[64];
  CHECK(snprintf(second, sizeof second, "%s responses", name) < (int)sizeof second);
  direction d = lists_of(1);
  size_t count = d.count;
  free(d.all);
  visit_direction(name, 0, visit);
  visit_direction(count < nlists ? second : name, 1, visit);
  free_lists();
}

/* Visits what traffic.h makes, and then these corpora, which are named after their files. */
static inline void visit_corpora(char **paths, size_t count, visit_lists *visit) {
  for (size_t i = 0; i < TRAFFICS; i++) {
    if (!traffics[i].make) continue;
    add_traffic(&traffics[i], "");
    visit_both(traffics[i].name, visit);
  }
  for (size_t i = 0; i < count; i++) {
    char name[64];
    const char *slash = strrchr(paths[i], '/');
    CHECK(snprintf(name, sizeof name, "%s", slash ? slash + 1 : paths[i]) < (int)sizeof name);
    name[strcspn(name, ".")] = 0;
    read_corpus(paths[i], 0);
    visit_both(name, visit);
  }
}

#endif
