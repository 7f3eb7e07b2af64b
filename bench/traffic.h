/* Lists of fields as servers see them, of four kinds: two corpora, and two that are made, the same in every run. Include it
 * after common.h or peer.h. */
#ifndef TRAFFIC_H
#define TRAFFIC_H

/* How many lists are made of a kind. */
#define MADE 240

static inline void add_texts(list *l, const char *name, const char *value) {
  add_field(l, name, strlen(name), value, strlen(value), 0);
}

/* Writes random hexadecimal digits, |count| of them, and ends the text. */
static inline char *write_random_digits(char *at, size_t count) {
  while (count--) *at++ = "0123456789abcdef"[random_below(16)];
  *at = 0;
  return at;
}

/* A number of an id as load balancers make it: it never comes again. */
static inline void add_request_id(list *l) {
  char value[40];
  write_random_digits(value, 32);
  add_texts(l, "x-request-id", value);
}

/* The ids of a trace, and of one call in it. */
static inline void add_trace(list *l) {
  char value[64] = "00-";
  char *at = write_random_digits(value + 3, 32);
  *at++ = '-';
  at = write_random_digits(at, 16);
  memcpy(at, "-01", 4);
  add_texts(l, "traceparent", value);
}

/* A token that a client sends for some calls, and then another one. */
static inline void add_token(list *l, size_t number) {
  static char value[256] = "Bearer ";
  if (number % 60 == 0) write_random_digits(value + 7, 200);
  add_texts(l, "authorization", value);
}

/* Calls of a few methods of a service. All but the path, the deadline, the token and the ids are the same. */
static inline void make_grpc(void) {
  static const char *const methods[] = {"GetItem",    "ListItems", "GetPrice",   "Search",  "AddToCart", "GetCart",
                                        "PlaceOrder", "GetOrder",  "ListOrders", "Reserve", "Release",   "Watch"};
  for (size_t i = 0; i < MADE; i++) {
    char path[64], timeout[16];
    list *l = add_list();
    snprintf(path, sizeof path, "/shop.catalog.v1.Catalog/%s", methods[random_below(12)]);
    snprintf(timeout, sizeof timeout, "%zum", 4900 + random_below(100));
    add_texts(l, ":method", "POST");
    add_texts(l, ":scheme", "https");
    add_texts(l, ":path", path);
    add_texts(l, ":authority", "catalog.shop.internal:8443");
    add_texts(l, "te", "trailers");
    add_texts(l, "content-type", "application/grpc");
    add_texts(l, "user-agent", "grpc-go/1.62.1");
    add_texts(l, "grpc-accept-encoding", "gzip");
    add_texts(l, "grpc-timeout", timeout);
    add_token(l, i);
    add_request_id(l);
    add_trace(l);
  }
}

/* Responses of four fields, six of them in each second. */
static inline void make_responses(void) {
  static const char *const types[] = {"application/json", "text/html; charset=utf-8", "image/webp", "text/css"};
  static const char *const statuses[] = {"200", "200", "200", "200", "200", "200", "304", "404"};
  for (size_t i = 0; i < MADE; i++) {
    char length[16], date[40];
    list *l = add_list();
    snprintf(length, sizeof length, "%zu", 200 + random_below(20000));
    snprintf(date, sizeof date, "Tue, 21 May 2024 10:14:%02zu GMT", i / 6);
    add_texts(l, ":status", statuses[random_below(8)]);
    add_texts(l, "content-type", types[random_below(4)]);
    add_texts(l, "content-length", length);
    add_texts(l, "date", date);
  }
}

/* A kind of lists: a corpus, or a function that makes them. */
typedef struct {
  const char *name, *corpus;
  void (*make)(void);
} traffic;

static const traffic traffics[] = {{"browser", "chromium_4096_100.qif", NULL},
                                   {"corpus", "corpus.qif", NULL},
                                   {"grpc", NULL, make_grpc},
                                   {"responses", NULL, make_responses}};

#define TRAFFICS (sizeof traffics / sizeof *traffics)

/* Adds the lists of a kind. The corpora are in the folder |data|. */
static inline void add_traffic(const traffic *t, const char *data) {
  char path[4096];
  seed = 0x9e3779b97f4a7c15u;
  if (t->make) {
    t->make();
    return;
  }
  CHECK(snprintf(path, sizeof path, "%s/%s", data, t->corpus) < (int)sizeof path);
  read_corpus(path, 0);
}

/* The list of a connection in a turn: each begins at another one. */
static inline const list *list_in_turn(size_t connection, size_t turn) { return &lists[(31 * connection + turn) % nlists]; }

#endif
