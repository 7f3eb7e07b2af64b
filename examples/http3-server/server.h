/* The parts of the example server: bytes, connections and streams, and what quic.c, http3.c, qpack.c and pages.c do
 * with them. */
#ifndef SERVER_H
#define SERVER_H

#include <gnutls/gnutls.h>
#include <h3_qpack.h>
#include <netinet/in.h>
#include <ngtcp2/ngtcp2.h>
#include <ngtcp2/ngtcp2_crypto.h>
#include <stdarg.h>
#include <stdint.h>
#include <stdio.h>
#include "frames.h"

/* ---- Bounds: the most that a peer can have this server keep. A peer that asks for more is refused. */

enum {
  MOST_CONNECTIONS = 32,      /* a further one is refused */
  MOST_REQUESTS = 100,        /* of a connection at a time, by SETTINGS of QUIC */
  MOST_UNIDIRECTIONAL = 20,   /* streams of the peer at a time */
  STREAM_WINDOW = 65536,      /* bytes of a stream that may arrive before this server reads them */
  MOST_SETTINGS = 4096,       /* bytes of a SETTINGS frame */
  MOST_PATH = 512,            /* bytes of a path; else 414 */
  MOST_BODY = 65536,          /* bytes of a request's body; else 413 */
  MOST_EVENTS = 4 << 20,      /* bytes of a connection's events; later ones are in the log alone */
  ANSWER_PIECE = 16384,       /* bytes of a file, or of events, that are read before the peer takes them */
  MOST_QUEUED = 4 << 20,      /* bytes of answers that the peer has not acknowledged, more than a piece of each; else 503 */
  MOST_INSTRUCTIONS = 1 << 20 /* bytes of an instruction stream that the peer does not read; else the connection ends */
};

/* Ends the program with a message if |x| does not hold. For what fails at the start, and never for what a peer did or for
 * memory: those end a stream or a connection. */
#define CHECK(x) ((x) ? (void)0 : stop_at(__FILE__, __LINE__, #x))
_Noreturn void stop_at(const char *file, int line, const char *what);

/* ---- Bytes (bytes.c) */

/* Without memory an addition adds nothing, and neither does any later one: |is_short| says so at the end. */
typedef struct bytes {
  uint8_t *at;
  size_t len, room;
  int is_short;
} bytes;

void add(bytes *b, const void *p, size_t len);
void add_text(bytes *b, const char *format, ...) __attribute__((format(printf, 2, 3)));
void add_text_of(bytes *b, const char *format, va_list arguments) __attribute__((format(printf, 2, 0)));
void add_varint(bytes *b, uint64_t value);
void add_hex(bytes *b, const uint8_t *p, size_t len);
void add_json(bytes *b, const uint8_t *p, size_t len); /* a string, each byte as the character of its number */
void drop(bytes *b);

/* ---- Settings of this server, from the command line */

typedef struct options {
  int port;
  uint64_t capacity, blocked, limit; /* what the decoder sends as its settings */
  uint64_t encoder_capacity;         /* the capacity of the encoder's table, if the peer allows it */
  int late;                          /* so many milliseconds the encoder stream is held back, to have the peer wait */
  int lose;                          /* one datagram in so many that arrive is lost; 0: none */
  const char *folder, *certificate, *key, *log;
} options;

extern options option;

/* ---- Connections and streams */

/* Bytes that were handed to QUIC, and are kept until they are acknowledged. */
typedef struct chunk {
  struct chunk *next;
  size_t len, sent, acknowledged;
  uint8_t at[];
} chunk;

typedef struct stream {
  int64_t id;
  struct stream *next;
  /* receiving */
  int64_t type;        /* of a unidirectional stream; -1 until it is read */
  bytes in;            /* what is received and not read: QUIC's flow control bounds it */
  frame_reader frames; /* of a request or the control stream. It keeps a section that is blocked */
  int has_ended;       /* the peer ended it */
  int is_waiting;      /* its section is blocked: what is after it is not read */
  int is_given_up;     /* it was reset or refused: what still arrives is dropped */
  int sections;        /* that were decoded: the request's fields, and trailers */
  int is_answered;
  h3_qpack_nv *fields; /* of the request, in |text| */
  size_t field_count;
  uint8_t *text;
  bytes body;
  /* sending */
  chunk *first, *last, *unsent;
  size_t queued;           /* bytes of chunks */
  int has_more;            /* the rest of the answer is read when its chunks are sent */
  int file;                /* which has the rest, or -1 */
  size_t event, event_end; /* the rest of the events */
  int ends;                /* it ends after its last chunk */
  int is_ended;            /* QUIC has the end */
  int is_queued, is_full, is_shut;
  struct stream *next_queued;
} stream;

enum { CONTROL, ENCODER, DECODER, OWN_STREAMS };

typedef struct connection {
  struct connection *next;
  unsigned number;
  ngtcp2_conn *quic;
  ngtcp2_crypto_conn_ref ref;
  gnutls_session_t tls;
  ngtcp2_cid first_id;
  ngtcp2_connection_close_error error;
  int is_open, is_closing, is_over;
  stream *streams;         /* of the peer */
  stream own[OWN_STREAMS]; /* opened by this side */
  stream *first_queued, *last_queued;
  int has_settings; /* the peer's */
  h3_qpack_encoder encoder;
  h3_qpack_decoder decoder;
  uint64_t encoder_stream_due;
  size_t queued; /* bytes of chunks of all streams */
  bytes events;  /* lines of JSON: what QPACK did, for /live and the log */
} connection;

/* ---- QUIC (quic.c) */

void serve(void);
stream *stream_of(connection *c, int64_t id); /* NULL if there is none */
void send_on(connection *c, stream *s, const uint8_t *p, size_t len);
void end_stream(connection *c, stream *s);
void reset_stream(connection *c, stream *s, uint64_t code);
void stop_reading(connection *c, stream *s, uint64_t code);
void extend_windows(connection *c, stream *s, size_t len); /* that many bytes of the stream were read */
void end_connection(connection *c, uint64_t code, const char *why);
uint64_t now(void);

/* ---- HTTP/3 (http3.c) */

enum { DATA_FRAME = 0, HEADERS_FRAME = 1, SETTINGS_FRAME = 4 };

/* Error codes (RFC 9114, section 8.1). */
enum {
  H3_NO_ERROR = 0x100,
  H3_INTERNAL_ERROR = 0x102,
  H3_STREAM_CREATION_ERROR = 0x103,
  H3_CLOSED_CRITICAL_STREAM = 0x104,
  H3_FRAME_UNEXPECTED = 0x105,
  H3_FRAME_ERROR = 0x106,
  H3_EXCESSIVE_LOAD = 0x107,
  H3_MISSING_SETTINGS = 0x10a,
  H3_REQUEST_INCOMPLETE = 0x10d
};

void open_http3(connection *c);                            /* the handshake is complete */
void open_reader(stream *s);                               /* a stream of the peer begins */
void receive_on(connection *c, stream *s);                 /* bytes or the end of a stream arrived */
void give_up(connection *c, stream *s);                    /* the peer reset the stream, or it closed */
void refuse(connection *c, stream *s, const char *status); /* answers, and reads no more of the request */
void fail_for_memory(connection *c);                       /* ends the connection */
void free_stream(stream *s);

/* ---- QPACK (qpack.c) */

int open_qpack(connection *c);
void take_settings(connection *c, uint64_t max_capacity, uint64_t max_blocked);
void read_instructions(connection *c, stream *s);
void read_section(connection *c, stream *s, const uint8_t *section, size_t len);
void cancel_section(connection *c, stream *s);
void send_section(connection *c, stream *s, const h3_qpack_nv *nva, size_t nvlen, bytes *out);
void send_instructions(connection *c);
void add_tables(bytes *b, connection *c); /* a line of JSON */
void close_qpack(connection *c);

/* ---- Answers (pages.c) */

void answer(connection *c, stream *s);
void answer_refusal(connection *c, stream *s, const char *status);
void send_more(connection *c, stream *s); /* the next piece of an answer */
void close_answer(stream *s);

/* ---- Events: a line of JSON each (events.c) */

int open_log(void); /* returns 0 if the file of --log can't be written */
void add_event(connection *c, const char *kind, const char *format, ...) __attribute__((format(printf, 3, 4)));
void add_text_event(connection *c, const char *kind, const uint8_t *text, size_t len);
void add_bytes_event(connection *c, const char *kind, unsigned type, const uint8_t *p, size_t len);
void add_section_event(connection *c, const char *kind, const stream *s, size_t required, const uint8_t *section, size_t len,
                       const h3_qpack_nv *nva, size_t nvlen);
void add_fields(bytes *b, const h3_qpack_nv *nva, size_t nvlen); /* as [["name","value"],..] */

#endif
