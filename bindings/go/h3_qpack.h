/* h3_qpack: QPACK, the header compression of HTTP/3 (RFC 9204).
 *
 * The library is formally verified. This header and h3_qpack.c, which check arguments and call it, are tested.
 *
 * Each side of a connection has an encoder, made from the settings that the peer sent, and a decoder, made from the
 * settings that this side sent. In their order, for a connection:
 *
 *   sending     h3_qpack_encoder_encode           fields -> a field section for the request stream
 *               h3_qpack_encoder_write_encoder    -> bytes for this side's encoder stream
 *               h3_qpack_encoder_read_decoder     <- bytes of the peer's decoder stream
 *   receiving   h3_qpack_decoder_read_encoder     <- bytes of the peer's encoder stream
 *               h3_qpack_decoder_decode           <- a field section; then h3_qpack_decoder_view or _fields
 *               h3_qpack_decoder_next_ready       -> a blocked stream whose section can now be decoded
 *               h3_qpack_decoder_write_decoder    -> bytes for this side's decoder stream
 *
 * Pass the bytes of a stream in order, in pieces of any size, without the stream type (0x02 or 0x03) at its start. Pass
 * each field section whole.
 *
 * The library cannot check these rules. Keep them:
 *  - Make an encoder or a decoder by its _new. Use it from one thread at a time, never from a signal handler, and not
 *    after its _del. Do not copy the struct: the copy dangles after _del.
 *  - A buffer is valid for its full length and does not change until the call returns. A buffer that the call writes
 *    overlaps no other buffer of that call.
 *  - malloc, realloc and free belong to one allocator, and align as the C library's do.
 *
 * Calls that return a status return H3_QPACK_ERR_INVALID for a NULL encoder or decoder, for NULL memory with a length
 * above 0, and for a length above PTRDIFF_MAX. Calls that return a number return 0 then. Nothing else happens.
 *
 * A section number without a document is of RFC 9204.
 */
#ifndef H3_QPACK_H
#define H3_QPACK_H

#include <stddef.h>
#include <stdint.h>

#if SIZE_MAX != UINT64_MAX
#error "h3_qpack needs a size_t of 8 bytes: compile for a processor of 64 bits, without -m32 and -mx32"
#endif

/* Each call is a function of the library. C99, later C and C++ also see its body, at the end of this header, and can
 * inline it. Define H3_QPACK_NO_INLINE for prototypes alone, for example to generate bindings. */
#ifdef H3_QPACK_INLINE /* defined by h3_qpack.c, which defines the library's functions */
#define H3Q_HAS_BODIES
#elif defined(H3_QPACK_NO_INLINE)
#define H3_QPACK_INLINE
#elif defined(__cplusplus)
#define H3_QPACK_INLINE inline
#define H3Q_HAS_BODIES
#elif defined(__STDC_VERSION__) && __STDC_VERSION__ >= 199901L && !defined(__GNUC_GNU_INLINE__)
#define H3_QPACK_INLINE inline
#define H3Q_HAS_BODIES
#else
#define H3_QPACK_INLINE
#endif

#ifdef __cplusplus
extern "C" {
#endif

/* ---- Version */

/* The version of this header. A breaking change raises the major number, an addition the minor one. 0.2 is the first. */
#define H3_QPACK_VERSION_MAJOR 0
#define H3_QPACK_VERSION_MINOR 2
#define H3_QPACK_VERSION (H3_QPACK_VERSION_MAJOR << 16 | H3_QPACK_VERSION_MINOR)

/* Returns the version of the library, as H3_QPACK_VERSION has it for the header. Both _new calls compare the two. */
H3_QPACK_INLINE uint32_t h3_qpack_version(void);

/* ---- Statuses */

/* A status above 0 is an error code, of section 6 or of RFC 9114, section 8.1: close the connection with it. The encoder
 * or decoder is unusable then. Each later encode, decode, read, set_peer_settings, set_capacity and cancel_stream returns
 * the same status again. |number| and |offset| still locate that first error in the call that returned it, and are 0 in
 * others. The calls that only read the last result still succeed: after a failed encode or decode the result is empty. */
#define H3_QPACK_DECOMPRESSION_FAILED 0x200
#define H3_QPACK_ENCODER_STREAM_ERROR 0x201
#define H3_QPACK_DECODER_STREAM_ERROR 0x202
#define H3_QPACK_SETTINGS_ERROR 0x109 /* H3_SETTINGS_ERROR */

/* With any other status the connection goes on. */
#define H3_QPACK_OK 0
#define H3_QPACK_ERR_NO_MEMORY (-1) /* malloc or realloc failed: repeat the call later */
#define H3_QPACK_ERR_NO_ROOM (-2)   /* the buffer is too small: the lengths in the result say what is required */
#define H3_QPACK_BLOCKED (-3)       /* the section requires insertions that have not arrived (section 2.2.1) */
#define H3_QPACK_ERR_INVALID (-4)   /* an argument is out of its range: nothing was done */
#define H3_QPACK_ERR_TOO_LARGE (-5) /* the section exceeds the limit on its size (RFC 9114, section 4.2.2) */
#define H3_QPACK_ERR_HELD (-6)      /* the capacity would evict entries that may still be referenced (section 2.1.1) */
#define H3_QPACK_ERR_VERSION (-7)   /* the program was compiled with a header that does not fit this library */
#define H3_QPACK_FIELD (-8)         /* the next field of a section that comes in pieces */
#define H3_QPACK_END (-9)           /* its end */

/* ---- Fields */

/* Flags of a field. Set all other bits to 0. NEVER_INDEX takes precedence over REUSE, and REUSE over INSERT. */
#define H3_QPACK_NV_FLAG_NEVER_INDEX 0x01 /* a literal here and at every later hop, for secrets (section 7.1.3) */
#define H3_QPACK_NV_FLAG_INSERT 0x08      /* insert it if there is room, unless an entry equals it */
#define H3_QPACK_NV_FLAG_REUSE 0x10       /* insert nothing for it; an entry that equals it is referenced */

/* A field that is passed to an encoder. A pointer may be NULL if its length is 0. */
typedef struct h3_qpack_nv {
  const uint8_t *name;
  size_t namelen; /* bytes */
  const uint8_t *value;
  size_t valuelen; /* bytes */
  uint8_t flags;   /* H3_QPACK_NV_FLAG_.. */
} h3_qpack_nv;

/* A field that a decoder copied to the caller's buffer: its name, and directly after it its value. */
typedef struct h3_qpack_field {
  int32_t status;
  uint32_t flags;  /* H3_QPACK_NV_FLAG_NEVER_INDEX, if the peer marked the field so; ignore all other bits */
  size_t namelen;  /* bytes */
  size_t valuelen; /* bytes */
} h3_qpack_field;

/* A field where it lies in the memory of a decoder or of a section reader. */
typedef struct h3_qpack_view {
  const uint8_t *name;
  const uint8_t *value;
  size_t namelen;       /* bytes */
  size_t valuelen;      /* bytes */
  uint32_t flags;       /* H3_QPACK_NV_FLAG_NEVER_INDEX, if the peer marked the field so; ignore all other bits */
  int16_t static_name;  /* the first index of the static table that has the name (Appendix A), or H3_QPACK_NOT_STATIC */
  int16_t static_field; /* the index that has the name and the value, or H3_QPACK_NOT_STATIC */
} h3_qpack_view;

#define H3_QPACK_NOT_STATIC (-1) /* an index of the static table that does not exist */

/* ---- Results */

typedef struct h3_qpack_encoded {
  int32_t status;
  size_t len;      /* the length of the section, in bytes */
  size_t required; /* its Required Insert Count; if this is above 0, the peer acknowledges the section */
  size_t size;     /* the size of the fields, in bytes: the sum of name, value and 32 bytes each, at most SIZE_MAX. The
                      peer may reject a section above its SETTINGS_MAX_FIELD_SECTION_SIZE (RFC 9114, section 4.2.2) */
} h3_qpack_encoded;

typedef struct h3_qpack_written {
  int32_t status;
  size_t len; /* bytes */
} h3_qpack_written;

typedef struct h3_qpack_received {
  int32_t status;
  size_t taken;    /* with H3_QPACK_ERR_NO_MEMORY the bytes that must not be passed again; else all bytes, or 0 if the
                      call only returned an earlier error again */
  uint64_t number; /* the number of the invalid instruction, from 1 at the start of its stream; else 0 */
  uint64_t offset; /* the position of its first byte, from 0 after the stream type; else 0 */
} h3_qpack_received;

typedef struct h3_qpack_prefix {
  int32_t status;
  size_t required; /* the section's Required Insert Count, 0 if it references no entry of the dynamic table */
  size_t base;     /* its Base */
  size_t len;      /* the length of the prefix, in bytes */
} h3_qpack_prefix;

typedef struct h3_qpack_decoded_alone {
  int32_t status;
  size_t fields;   /* the number of fields */
  size_t len;      /* the length of all names and values, in bytes; at most SIZE_MAX */
  uint64_t number; /* the number of the field line at which decoding failed, from 1; else 0 */
  uint64_t offset; /* the position of its first byte in the section, from 0; else 0 */
} h3_qpack_decoded_alone;

typedef struct h3_qpack_decoded {
  int32_t status;
  size_t fields;   /* the number of fields */
  size_t len;      /* the length of all names and values, in bytes; at most SIZE_MAX */
  size_t required; /* the section's Required Insert Count, with H3_QPACK_OK and with H3_QPACK_BLOCKED */
  uint64_t number; /* the number of the field line at which decoding failed, from 1; else 0 */
  uint64_t offset; /* the position of its first byte in the section, from 0; else 0 */
} h3_qpack_decoded;

typedef struct h3_qpack_piece {
  int32_t status;
  size_t taken;    /* the bytes that were read: pass those after them next */
  size_t required; /* the section's Required Insert Count, with H3_QPACK_BLOCKED and with H3_QPACK_END */
  uint64_t number; /* the number of the field line at which decoding failed, from 1; else 0 */
  uint64_t offset; /* the position of its first byte in the section, from 0; else 0 */
} h3_qpack_piece;

typedef struct h3_qpack_pieces {
  int32_t status;
  size_t taken;    /* as in h3_qpack_piece */
  size_t fields;   /* the number of fields that were copied */
  size_t len;      /* the length of their names and values, in bytes */
  size_t required; /* as in h3_qpack_piece, and so are those below */
  uint64_t number;
  uint64_t offset;
} h3_qpack_pieces;

/* ---- Encoder, decoder and reader: only the calls read or write the pointer */

typedef struct h3_qpack_encoder {
  void *at;
} h3_qpack_encoder;
typedef struct h3_qpack_decoder {
  void *at;
} h3_qpack_decoder;
typedef struct h3_qpack_section_reader {
  void *at;
} h3_qpack_section_reader;

/* ---- Settings. A later minor version may add fields at the end, so fill them with _settings_default first. */

typedef struct h3_qpack_encoder_settings {
  uint64_t max_capacity;        /* the peer's SETTINGS_QPACK_MAX_TABLE_CAPACITY, in bytes, below 2^30 (section 5) */
  uint64_t max_blocked;         /* the peer's SETTINGS_QPACK_BLOCKED_STREAMS (section 5) */
  uint64_t capacity;            /* the table capacity, in bytes; |max_capacity| if that is less (section 3.2.3) */
  uint64_t most_unacknowledged; /* while this many sections that reference the table are unacknowledged (section 4.4.1),
                                   sections reference only the static table */
  uint64_t seed;                /* what the hashes of the table's fields are computed with. Anyone who knows it can choose
                                   fields that take long to insert, so keep the default, or set a random number. No byte
                                   that is written depends on it. */
} h3_qpack_encoder_settings;

typedef struct h3_qpack_decoder_settings {
  uint64_t max_capacity;     /* this side's SETTINGS_QPACK_MAX_TABLE_CAPACITY, in bytes, below 2^30 (section 5) */
  uint64_t max_blocked;      /* this side's SETTINGS_QPACK_BLOCKED_STREAMS, below 65,535 (section 5) */
  uint64_t max_section_size; /* this side's SETTINGS_MAX_FIELD_SECTION_SIZE, in bytes: the sum over the fields of name,
                                value and 32 bytes each (RFC 9114, section 4.2.2); UINT64_MAX: no limit */
} h3_qpack_decoder_settings;

/* ---- The encoder */

/* Stores the defaults in |settings|: |max_capacity| 0 and |max_blocked| 0, which are those of a peer that sends no such
 * settings, |capacity| 16,384, |most_unacknowledged| 100, and as |seed| a random number of the system's. That is 0 where the
 * system has none, as in WebAssembly. Does nothing if |settings| is NULL.
 *
 * Bindings call h3_qpack_encoder_settings_default_versioned, with the H3_QPACK_VERSION that their struct is of. It does
 * nothing for a version with which _new fails. */
#define h3_qpack_encoder_settings_default(settings) h3_qpack_encoder_settings_default_versioned(H3_QPACK_VERSION, (settings))
void h3_qpack_encoder_settings_default_versioned(uint32_t version, h3_qpack_encoder_settings *settings);

/* Makes an encoder for a peer that sent |settings|, and stores it in |encoder|. Free it with h3_qpack_encoder_del. The
 * encoder tells the peer its table capacity before the first section (section 4.3.1).
 *
 * Returns H3_QPACK_OK or an error, with which |encoder| needs no _del:
 *   H3_QPACK_ERR_INVALID    a pointer is NULL, |max_capacity| is 2^30 or more, or a value does not fit size_t. If
 *                           the peer's maximum is 2^30 or more, pass 0. No other value is safe: both sides compute
 *                           Required Insert Counts from the same maximum (section 4.5.1.1).
 *   H3_QPACK_ERR_VERSION    the header is of another major version than the library, or of a later minor version:
 *                           compile the program with the library's header, or install that version of the library.
 *   H3_QPACK_ERR_NO_MEMORY  call it again later.
 *
 * Bindings call h3_qpack_encoder_new_versioned, with the H3_QPACK_VERSION that their settings are of. */
#define h3_qpack_encoder_new(encoder, settings) h3_qpack_encoder_new_versioned((encoder), H3_QPACK_VERSION, (settings))
int h3_qpack_encoder_new_versioned(h3_qpack_encoder *encoder, uint32_t version, const h3_qpack_encoder_settings *settings);

/* Frees an encoder. Does nothing if it is NULL or already freed. */
H3_QPACK_INLINE void h3_qpack_encoder_del(h3_qpack_encoder *encoder);

/* Encodes the fields of |nva|, |nvlen| of them, for the stream |stream_id|, below 2^62, and writes the section to
 * |section|, which has |sectionlen| bytes (section 2.1). Send the section on that stream. Send the instructions that it
 * needs, which h3_qpack_encoder_write_encoder returns, on the encoder stream.
 *
 * Returns the length of the section, its Required Insert Count and the size of the fields, with a status:
 *   H3_QPACK_OK
 *   H3_QPACK_ERR_NO_ROOM    the fields are encoded, and the section has |len| bytes. Get it from
 *                           h3_qpack_encoder_section before the next encode; do not encode the fields again.
 *   H3_QPACK_ERR_NO_MEMORY  there is no section: encode the fields again later.
 *   H3_QPACK_ERR_INVALID    a pointer is NULL and its length is not 0, a length is above PTRDIFF_MAX, or |stream_id| is
 *                           2^62 or more.
 *   above 0                 an earlier call returned it. */
H3_QPACK_INLINE h3_qpack_encoded h3_qpack_encoder_encode(h3_qpack_encoder *encoder, uint64_t stream_id, const h3_qpack_nv *nva,
                                                         size_t nvlen, uint8_t *section, size_t sectionlen);

/* Writes the section of the last encode to |section|, which has |sectionlen| bytes, as often as it is called.
 *
 * Returns the length of the section, with H3_QPACK_OK, or with H3_QPACK_ERR_NO_ROOM if |sectionlen| is less. */
H3_QPACK_INLINE h3_qpack_written h3_qpack_encoder_section(h3_qpack_encoder *encoder, uint8_t *section, size_t sectionlen);

/* Returns how many bytes are to be sent on the encoder stream (section 4.3). */
H3_QPACK_INLINE size_t h3_qpack_encoder_get_encoder_streamlen(h3_qpack_encoder *encoder);

/* Moves bytes that are to be sent on the encoder stream to |out|, at most |outlen| (section 4.3).
 *
 * Returns how many. Send them in this order: the encoder does not keep them. */
H3_QPACK_INLINE size_t h3_qpack_encoder_write_encoder(h3_qpack_encoder *encoder, uint8_t *out, size_t outlen);

/* Reads the next bytes of the peer's decoder stream, |srclen| of them at |src| (section 4.4).
 *
 * Returns a status:
 *   H3_QPACK_OK                    all bytes were read.
 *   H3_QPACK_DECODER_STREAM_ERROR  an instruction is invalid: |number| and |offset| locate it. Close the connection. */
H3_QPACK_INLINE h3_qpack_received h3_qpack_encoder_read_decoder(h3_qpack_encoder *encoder, const uint8_t *src, size_t srclen);

/* Applies the peer's SETTINGS to an encoder that was made before they arrived (section 3.2.3). |max_capacity| is its
 * SETTINGS_QPACK_MAX_TABLE_CAPACITY, in bytes, and |max_blocked| its SETTINGS_QPACK_BLOCKED_STREAMS; 0 for one that is
 * missing.
 *
 * Make such an encoder with 0 for both, or for 0-RTT with the settings that were remembered. Until this call an encoder
 * of maximum 0 writes sections that any peer can decode, and nothing on the encoder stream. Afterwards it is as if made
 * with the peer's settings.
 *
 * Returns a status:
 *   H3_QPACK_OK
 *   H3_QPACK_ERR_INVALID           |max_capacity| is new, and 2^30 or more. Nothing changes: pass 0 instead.
 *   H3_QPACK_DECODER_STREAM_ERROR  |max_capacity| is not the maximum that the encoder has, which is above 0.
 *   H3_QPACK_SETTINGS_ERROR        |max_blocked| is below the limit that the encoder has (RFC 9114, section 7.2.4.2).
 * If an earlier call returned a status above 0, this one returns it again. */
H3_QPACK_INLINE int h3_qpack_encoder_set_peer_settings(h3_qpack_encoder *encoder, uint64_t max_capacity, uint64_t max_blocked);

/* Sets the capacity of the table, in bytes, at most the peer's maximum, and evicts what does not fit (section 3.2.3).
 *
 * Returns a status. With an error nothing changes:
 *   H3_QPACK_OK
 *   H3_QPACK_ERR_INVALID    |capacity| is above the maximum.
 *   H3_QPACK_ERR_HELD       the peer may still reference an entry that does not fit. On a busy connection it always may:
 *                           call h3_qpack_encoder_shrink.
 *   H3_QPACK_ERR_NO_MEMORY  call it again later.
 *   above 0                 an earlier call returned it. */
H3_QPACK_INLINE int h3_qpack_encoder_set_capacity(h3_qpack_encoder *encoder, size_t capacity);

/* Sets the capacity of the table, in bytes, as h3_qpack_encoder_set_capacity does, or has it wait while the peer may still
 * reference an entry that does not fit (section 3.2.3). The next encode that finds no such entry sets it, and announces it
 * before its section.
 *
 * While it waits, sections reference only the static table, and nothing is inserted. So it comes once all sections that
 * reference those entries are acknowledged or cancelled, and the insertions acknowledged. A later call of this, or a
 * capacity that h3_qpack_encoder_set_capacity sets, takes its place.
 *
 * Returns a status. With an error nothing changes:
 *   H3_QPACK_OK             it is set, or it waits: h3_qpack_encoder_get_pending_capacity says which.
 *   H3_QPACK_ERR_INVALID    |capacity| is above the maximum.
 *   H3_QPACK_ERR_NO_MEMORY  call it again later.
 *   above 0                 an earlier call returned it. */
H3_QPACK_INLINE int h3_qpack_encoder_shrink(h3_qpack_encoder *encoder, size_t capacity);

/* Stores in |capacity| the capacity that waits, in bytes.
 *
 * Returns 1, or 0 if none waits or |capacity| is NULL. */
H3_QPACK_INLINE int h3_qpack_encoder_get_pending_capacity(h3_qpack_encoder *encoder, size_t *capacity);

/* Returns how many streams may be blocked at the peer (section 2.1.2). A stream counts while it has a section that
 * requires insertions not known to have arrived, and that is neither acknowledged nor cancelled. */
H3_QPACK_INLINE size_t h3_qpack_encoder_get_num_blocked(h3_qpack_encoder *encoder);

/* Returns how many sections that reference the table are unacknowledged (section 4.4.1). While this is
 * |most_unacknowledged|, sections reference only the static table. */
H3_QPACK_INLINE size_t h3_qpack_encoder_get_num_unacked(h3_qpack_encoder *encoder);

/* Returns the Insert Count: how many insertions were made since the connection began (section 2.1.4). */
H3_QPACK_INLINE size_t h3_qpack_encoder_get_icnt(h3_qpack_encoder *encoder);

/* Returns the Known Received Count: how many insertions the peer is known to have received (section 2.1.4). */
H3_QPACK_INLINE size_t h3_qpack_encoder_get_krcnt(h3_qpack_encoder *encoder);

/* Returns the capacity of the table, in bytes (section 3.2.2). It is 0 before the first encode or set_capacity. */
H3_QPACK_INLINE size_t h3_qpack_encoder_get_capacity(h3_qpack_encoder *encoder);

/* Returns the size of the table, in bytes: the sum over its entries of name, value and 32 bytes each (section 3.2.1).
 * The call goes through all entries. */
H3_QPACK_INLINE size_t h3_qpack_encoder_get_table_size(h3_qpack_encoder *encoder);

/* Returns how many entries the table has. Of the insertions, the newest ones are entries; those before were evicted. */
H3_QPACK_INLINE size_t h3_qpack_encoder_get_num_entries(h3_qpack_encoder *encoder);

/* Copies one entry of the table to |out|, which has |outlen| bytes: its name, and directly after it its value. |index|
 * is 0 for the newest entry, as a relative index in an instruction is (section 3.2.5).
 *
 * Returns both lengths, with a status:
 *   H3_QPACK_OK
 *   H3_QPACK_ERR_NO_ROOM  |outlen| is less than both lengths together: nothing was written.
 *   H3_QPACK_ERR_INVALID  there is no such entry. */
H3_QPACK_INLINE h3_qpack_field h3_qpack_encoder_entry(h3_qpack_encoder *encoder, size_t index, uint8_t *out, size_t outlen);

/* ---- The decoder */

/* Stores the defaults in |settings|: no dynamic table (|max_capacity| 0 and |max_blocked| 0, which you need not send), and
 * a |max_section_size| of 65,536, which you must send. Does nothing if |settings| is NULL.
 *
 * Bindings call h3_qpack_decoder_settings_default_versioned, with the H3_QPACK_VERSION that their struct is of. It does
 * nothing for a version with which _new fails. */
#define h3_qpack_decoder_settings_default(settings) h3_qpack_decoder_settings_default_versioned(H3_QPACK_VERSION, (settings))
void h3_qpack_decoder_settings_default_versioned(uint32_t version, h3_qpack_decoder_settings *settings);

/* Makes a decoder for a side that sends |settings|, and stores it in |decoder|. Free it with h3_qpack_decoder_del.
 *
 * Returns H3_QPACK_OK or an error, with which |decoder| needs no _del:
 *   H3_QPACK_ERR_INVALID    a pointer is NULL, |max_capacity| is 2^30 or more, |max_blocked| is 65,535 or more, or a
 *                           value does not fit size_t.
 *   H3_QPACK_ERR_VERSION    as for h3_qpack_encoder_new.
 *   H3_QPACK_ERR_NO_MEMORY  call it again later.
 *
 * Bindings call h3_qpack_decoder_new_versioned, with the H3_QPACK_VERSION that their settings are of. */
#define h3_qpack_decoder_new(decoder, settings) h3_qpack_decoder_new_versioned((decoder), H3_QPACK_VERSION, (settings))
int h3_qpack_decoder_new_versioned(h3_qpack_decoder *decoder, uint32_t version, const h3_qpack_decoder_settings *settings);

/* Frees a decoder. Does nothing if it is NULL or already freed. */
H3_QPACK_INLINE void h3_qpack_decoder_del(h3_qpack_decoder *decoder);

/* Reads the next bytes of the peer's encoder stream, |srclen| of them at |src| (section 4.3). Then call
 * h3_qpack_decoder_next_ready: sections that were blocked may be decodable now.
 *
 * Returns a status:
 *   H3_QPACK_OK                    all bytes were read.
 *   H3_QPACK_ERR_NO_MEMORY         |taken| bytes were read. Call it again later with the rest, even if that is empty.
 *   H3_QPACK_ENCODER_STREAM_ERROR  an instruction is invalid: |number| and |offset| locate it. Close the connection.
 *   H3_QPACK_DECOMPRESSION_FAILED  h3_qpack_decoder_decode returned it before. */
H3_QPACK_INLINE h3_qpack_received h3_qpack_decoder_read_encoder(h3_qpack_decoder *decoder, const uint8_t *src, size_t srclen);

/* Returns the length, in bytes, of the longest section whose fields can be within |max_section_size|; at most SIZE_MAX. A
 * decoder rejects a longer one unread: H3_QPACK_ERR_TOO_LARGE, with |number| 0. So a buffer for a HEADERS frame needs no
 * more room. A macro: it evaluates |max_section_size| twice. */
#define h3_qpack_longest_section(max_section_size) \
  ((uint64_t)(max_section_size) > ((size_t)-1 - 20) / 4 ? (size_t)-1 : 4 * (size_t)(max_section_size) + 20)

/* Reads the prefix of a field section, which begins at |src|: |srclen| bytes, of which the lines may be missing (section
 * 4.5.1). It changes nothing. Call it to know at once whether the section waits, and for how many insertions.
 *
 * Returns the section's Required Insert Count, its Base and the length of the prefix, with a status:
 *   H3_QPACK_OK                    the section does not wait.
 *   H3_QPACK_BLOCKED               it waits until h3_qpack_decoder_get_icnt returns |required| or more.
 *   H3_QPACK_ERR_INVALID           a pointer is NULL, and its length is not 0.
 *   H3_QPACK_DECOMPRESSION_FAILED  the prefix is invalid, or not whole. Read more of the section, up to 20 bytes, or
 *                                  close the connection. */
H3_QPACK_INLINE h3_qpack_prefix h3_qpack_decoder_peek_prefix(h3_qpack_decoder *decoder, const uint8_t *src, size_t srclen);

/* Decodes a field section, |srclen| bytes at |src|, of the stream |stream_id|, below 2^62 (section 2.2). Pass the
 * sections of a stream in order. Get the fields from h3_qpack_decoder_view, or copies of them from h3_qpack_decoder_fields:
 * they are kept until the next decode.
 *
 * Returns the number of fields, the length of all names and values, and the section's Required Insert Count, with a
 * status:
 *   H3_QPACK_OK
 *   H3_QPACK_BLOCKED               keep the section. Pass it again when h3_qpack_decoder_next_ready returns its stream
 *                                  (section 2.2.1).
 *   H3_QPACK_ERR_TOO_LARGE         the fields exceed |max_section_size| at the line |number|, or the section is too
 *                                  long to be within it and |number| is 0. Reject the message (RFC 9114, section
 *                                  4.2.2), and call h3_qpack_decoder_cancel_stream.
 *   H3_QPACK_ERR_NO_MEMORY         decode the section again later.
 *   H3_QPACK_ERR_INVALID           |stream_id| is 2^62 or more.
 *   H3_QPACK_DECOMPRESSION_FAILED  a line is invalid, which |number| and |offset| locate, or the prefix is, or one
 *                                  stream too many is blocked (section 2.1.2). Close the connection.
 *   H3_QPACK_ENCODER_STREAM_ERROR  h3_qpack_decoder_read_encoder returned it before. */
H3_QPACK_INLINE h3_qpack_decoded h3_qpack_decoder_decode(h3_qpack_decoder *decoder, uint64_t stream_id, const uint8_t *src,
                                                         size_t srclen);

/* Copies one field of the last decode to |out|, which has |outlen| bytes: its name, and directly after it its value.
 * |index| is 0 for the first field.
 *
 * Returns both lengths and the flags, with a status:
 *   H3_QPACK_OK
 *   H3_QPACK_ERR_NO_ROOM  |outlen| is less than both lengths together: nothing was written.
 *   H3_QPACK_ERR_INVALID  there is no such field. */
H3_QPACK_INLINE h3_qpack_field h3_qpack_decoder_field(h3_qpack_decoder *decoder, size_t index, uint8_t *out, size_t outlen);

/* Copies all fields of the last decode. It writes their lengths and flags to |fields|, which has room for |fieldslen|
 * fields. It writes name, value, name, value and so on without gaps to |out|, which has |outlen| bytes.
 *
 * Returns the length of all names and values, with a status:
 *   H3_QPACK_OK
 *   H3_QPACK_ERR_NO_ROOM  nothing was written: |outlen| is below |len|, or |fieldslen| below the number of fields. */
H3_QPACK_INLINE h3_qpack_written h3_qpack_decoder_fields(h3_qpack_decoder *decoder, h3_qpack_field *fields, size_t fieldslen,
                                                         uint8_t *out, size_t outlen);

/* Stores in |view| where one field of the last decode lies, and its indexes in the static table. |index| is 0 for the first
 * field. Nothing is copied: do not use the name and the value after the next h3_qpack_decoder_decode, or _del.
 *
 * Returns:
 *   H3_QPACK_OK
 *   H3_QPACK_ERR_INVALID  there is no such field, or |view| is NULL. Nothing was stored. */
H3_QPACK_INLINE int h3_qpack_decoder_view(h3_qpack_decoder *decoder, size_t index, h3_qpack_view *view);

/* Stores in |views|, which has room for |viewslen|, where the fields of the last decode lie, as h3_qpack_decoder_view does.
 *
 * Returns how many it stored: all, or |viewslen| if there are more. */
H3_QPACK_INLINE size_t h3_qpack_decoder_views(h3_qpack_decoder *decoder, h3_qpack_view *views, size_t viewslen);

/* Stores in |stream_id| a blocked stream whose section can be decoded now (section 2.2.1). Decode that section, or
 * cancel the stream, before you call it again: until then it stores the same stream. A loop that decodes the section of
 * each such stream ends, except that a decode without memory leaves its stream: end the loop then.
 *
 * Returns 1, or 0 if there is none or |stream_id| is NULL. */
H3_QPACK_INLINE int h3_qpack_decoder_next_ready(h3_qpack_decoder *decoder, uint64_t *stream_id);

/* Returns the Insert Count: how many insertions were received since the connection began (section 2.1.4). */
H3_QPACK_INLINE size_t h3_qpack_decoder_get_icnt(h3_qpack_decoder *decoder);

/* Returns how many streams are blocked: their sections require insertions that have not arrived (section 2.1.2). */
H3_QPACK_INLINE size_t h3_qpack_decoder_get_num_blocked(h3_qpack_decoder *decoder);

/* Returns the capacity of the table, in bytes: 0 until the peer sets one (section 4.3.1). */
H3_QPACK_INLINE size_t h3_qpack_decoder_get_capacity(h3_qpack_decoder *decoder);

/* Returns the size of the table, in bytes, as h3_qpack_encoder_get_table_size does (section 3.2.1). */
H3_QPACK_INLINE size_t h3_qpack_decoder_get_table_size(h3_qpack_decoder *decoder);

/* Returns how many entries the table has. */
H3_QPACK_INLINE size_t h3_qpack_decoder_get_num_entries(h3_qpack_decoder *decoder);

/* Copies one entry of the table to |out|, which has |outlen| bytes, as h3_qpack_encoder_entry does. */
H3_QPACK_INLINE h3_qpack_field h3_qpack_decoder_entry(h3_qpack_decoder *decoder, size_t index, uint8_t *out, size_t outlen);

/* Returns how many bytes are to be sent on the decoder stream (section 4.4), unless memory is refused. */
H3_QPACK_INLINE size_t h3_qpack_decoder_get_decoder_streamlen(h3_qpack_decoder *decoder);

/* Moves bytes that are to be sent on the decoder stream to |out|, at most |outlen| (section 4.4).
 *
 * At their end are increments for insertions that no acknowledgment before them reports (sections 2.1.4 and 4.4.3). So
 * decode the sections that have come before you call this. If memory is refused for increments, a later call has them.
 *
 * Returns how many. Send them in this order: the decoder does not keep them. */
H3_QPACK_INLINE size_t h3_qpack_decoder_write_decoder(h3_qpack_decoder *decoder, uint8_t *out, size_t outlen);

/* Gives up the sections of a stream that are not decoded, and adds a Stream Cancellation to the decoder stream unless
 * |max_capacity| is 0 (section 2.2.2.2). Call it when the stream |stream_id|, below 2^62, is reset, or when you stop
 * reading it. It is allowed for any stream.
 *
 * Returns a status. With an error nothing changes:
 *   H3_QPACK_OK
 *   H3_QPACK_ERR_INVALID    |stream_id| is 2^62 or more.
 *   H3_QPACK_ERR_NO_MEMORY  call it again later.
 *   H3_QPACK_DECOMPRESSION_FAILED, H3_QPACK_ENCODER_STREAM_ERROR  another call returned it before. */
H3_QPACK_INLINE int h3_qpack_decoder_cancel_stream(h3_qpack_decoder *decoder, uint64_t stream_id);

/* ---- Sections in pieces, each field as soon as it is whole */

/* Makes a reader of the field sections of the stream |stream_id|, below 2^62, and stores it in |reader|. Make one for each
 * stream that passes sections in pieces, and free it with h3_qpack_section_reader_del.
 *
 * Returns H3_QPACK_OK or an error, with which |reader| needs no _del:
 *   H3_QPACK_ERR_NO_MEMORY  call it again later.
 *   H3_QPACK_ERR_INVALID    |stream_id| is 2^62 or more. */
H3_QPACK_INLINE int h3_qpack_section_reader_new(h3_qpack_section_reader *reader, uint64_t stream_id);

/* Frees a reader. Does nothing if it is NULL or already freed. To give up a section, call h3_qpack_decoder_cancel_stream
 * too. */
H3_QPACK_INLINE void h3_qpack_section_reader_del(h3_qpack_section_reader *reader);

/* Reads the next bytes of a field section, |srclen| of them at |src|, up to its next field. They continue those of earlier
 * calls, and may be cut anywhere. If |fin| is not 0, the section ends with them. Pass the same |decoder| each time. A
 * reader keeps at most h3_qpack_longest_section(max_section_size) bytes.
 *
 * Returns how many bytes it read, with a status:
 *   H3_QPACK_OK                    all of them. Call it with the next bytes.
 *   H3_QPACK_FIELD                 the bytes up to the end of a field. Get it from h3_qpack_section_reader_field, and
 *                                  call this again with the bytes after them, even if none are left.
 *   H3_QPACK_BLOCKED               the section waits. Keep the bytes that are left, and call it with them when
 *                                  h3_qpack_decoder_next_ready returns the stream (section 2.2.1).
 *   H3_QPACK_END                   all, and the section is over. The reader is at the start of the stream's next section.
 *   H3_QPACK_ERR_TOO_LARGE         as for h3_qpack_decoder_decode.
 *   H3_QPACK_ERR_NO_MEMORY         call it again later with the bytes that are left.
 *   H3_QPACK_ERR_INVALID           a pointer is NULL, and its length is not 0.
 *   H3_QPACK_DECOMPRESSION_FAILED  as for h3_qpack_decoder_decode.
 *   H3_QPACK_ENCODER_STREAM_ERROR  h3_qpack_decoder_read_encoder returned it before. */
H3_QPACK_INLINE h3_qpack_piece h3_qpack_section_reader_read(h3_qpack_section_reader *reader, h3_qpack_decoder *decoder,
                                                            const uint8_t *src, size_t srclen, int fin);

/* Copies the field of the last h3_qpack_section_reader_read to |out|, which has |outlen| bytes: its name, and directly
 * after it its value.
 *
 * Returns both lengths and the flags, with a status:
 *   H3_QPACK_OK
 *   H3_QPACK_ERR_NO_ROOM  |outlen| is less than both lengths together: nothing was written.
 *   H3_QPACK_ERR_INVALID  that call did not return H3_QPACK_FIELD. */
H3_QPACK_INLINE h3_qpack_field h3_qpack_section_reader_field(h3_qpack_section_reader *reader, uint8_t *out, size_t outlen);

/* Stores in |view| where the field of the last h3_qpack_section_reader_read lies, as h3_qpack_decoder_view does. Do not use
 * the name and the value after the reader's next read, or _del.
 *
 * Returns:
 *   H3_QPACK_OK
 *   H3_QPACK_ERR_INVALID  that call did not return H3_QPACK_FIELD, or |view| is NULL. Nothing was stored. */
H3_QPACK_INLINE int h3_qpack_section_reader_view(h3_qpack_section_reader *reader, h3_qpack_view *view);

/* Reads the next bytes of a field section as h3_qpack_section_reader_read does, and copies all fields that they give, as
 * h3_qpack_decoder_fields does: for a language in which a call of C costs much.
 *
 * Returns how many bytes it read and fields it copied, with a status of h3_qpack_section_reader_read, or:
 *   H3_QPACK_FIELD        |fields| is full. Call it again with the bytes that are left, even if none are.
 *   H3_QPACK_ERR_NO_ROOM  |outlen| is too small for the next field, which was read. Get it from
 *                         h3_qpack_section_reader_field, and call this again with the bytes that are left.
 * With an error the fields before it were copied too. */
H3_QPACK_INLINE h3_qpack_pieces h3_qpack_section_reader_read_all(h3_qpack_section_reader *reader, h3_qpack_decoder *decoder,
                                                                 const uint8_t *src, size_t srclen, int fin,
                                                                 h3_qpack_field *fields, size_t fieldslen, uint8_t *out,
                                                                 size_t outlen);

/* Returns how many bytes a reader keeps: of a prefix or of a field line that is not whole. */
H3_QPACK_INLINE size_t h3_qpack_section_reader_get_pending(h3_qpack_section_reader *reader);

/* ---- Sections that use the static table alone, without an encoder or a decoder */

/* Encodes the fields of |nva|, |nvlen| of them, and writes the section to |section|, which has |sectionlen| bytes
 * (section 4.5). Any decoder can read it.
 *
 * Returns the length of the section, with a status:
 *   H3_QPACK_OK
 *   H3_QPACK_ERR_NO_ROOM    |sectionlen| is less than |len|: nothing was written. Call it again with |len| bytes.
 *   H3_QPACK_ERR_NO_MEMORY  call it again later.
 *   H3_QPACK_ERR_INVALID    a pointer is NULL and its length is not 0, or a length is above PTRDIFF_MAX. */
H3_QPACK_INLINE h3_qpack_written h3_qpack_encode_stateless(const h3_qpack_nv *nva, size_t nvlen, uint8_t *section,
                                                           size_t sectionlen);

/* Decodes a field section, |srclen| bytes at |src|, and copies its fields to |fields| and |out|, as
 * h3_qpack_decoder_fields does (section 4.5). |max_section_size| is the limit of h3_qpack_decoder_settings.
 *
 * Returns the number of fields and the length of all names and values, with a status:
 *   H3_QPACK_OK
 *   H3_QPACK_ERR_NO_ROOM    nothing was written: call it again with room for |fields| fields and |len| bytes.
 *   H3_QPACK_ERR_TOO_LARGE  the fields exceed |max_section_size|: as for h3_qpack_decoder_decode.
 *   H3_QPACK_ERR_NO_MEMORY  call it again later.
 *   H3_QPACK_DECOMPRESSION_FAILED  a line is invalid, which |number| and |offset| locate, or the prefix is, or the
 *                                  section uses the dynamic table. Close the connection. */
H3_QPACK_INLINE h3_qpack_decoded_alone h3_qpack_decode_stateless(const uint8_t *src, size_t srclen, uint64_t max_section_size,
                                                                 h3_qpack_field *fields, size_t fieldslen, uint8_t *out,
                                                                 size_t outlen);

/* ---- The exports of the verified library. Call those above: these check neither pointers nor lengths.
 *
 * They are assembly, which is the same on every system of a processor. So on Windows with x86-64 they are called as on the
 * others, by the convention of System V. GCC and clang can call them. */

#if defined _WIN64 && defined __x86_64__
#define H3_QPACK_CALL __attribute__((sysv_abi))
#elif defined _WIN32 || defined __CYGWIN__
#error "h3_qpack is for Windows on x86-64 alone, by GCC or clang"
#else
#define H3_QPACK_CALL
#endif

/* A field in the text of its section, where its name begins at |start|. */
typedef struct h3q_view {
  const uint8_t *text;
  size_t start;
  size_t namelen;
  size_t valuelen;
  uint32_t flags;
  int16_t static_name;
  int16_t static_field;
} h3q_view;

H3_QPACK_CALL uint32_t h3q_version(void);
H3_QPACK_CALL int32_t h3q_encoder_new(size_t max_capacity, size_t max_blocked, size_t capacity, size_t most_unacknowledged,
                                      uint64_t seed, void **at);
H3_QPACK_CALL void h3q_encoder_free(h3_qpack_encoder encoder);
H3_QPACK_CALL h3_qpack_encoded h3q_encoder_encode(h3_qpack_encoder *encoder, uint64_t stream_id, const h3_qpack_nv *nva,
                                                  size_t nvlen, uint8_t *section, size_t sectionlen);
H3_QPACK_CALL h3_qpack_written h3q_encoder_section(h3_qpack_encoder *encoder, uint8_t *section, size_t sectionlen);
H3_QPACK_CALL size_t h3q_encoder_stream(h3_qpack_encoder *encoder, uint8_t *out, size_t outlen);
H3_QPACK_CALL size_t h3q_encoder_stream_len(h3_qpack_encoder *encoder);
H3_QPACK_CALL h3_qpack_received h3q_encoder_read(h3_qpack_encoder *encoder, const uint8_t *src, size_t srclen);
H3_QPACK_CALL int32_t h3q_encoder_set_peer_settings(h3_qpack_encoder *encoder, size_t max_capacity, size_t max_blocked);
H3_QPACK_CALL int32_t h3q_encoder_set_capacity(h3_qpack_encoder *encoder, size_t capacity);
H3_QPACK_CALL int32_t h3q_encoder_shrink(h3_qpack_encoder *encoder, size_t capacity);
H3_QPACK_CALL uint32_t h3q_encoder_pending_capacity(h3_qpack_encoder *encoder, size_t *capacity);
H3_QPACK_CALL size_t h3q_encoder_blocked(h3_qpack_encoder *encoder);
H3_QPACK_CALL size_t h3q_encoder_unacknowledged(h3_qpack_encoder *encoder);
H3_QPACK_CALL size_t h3q_encoder_insert_count(h3_qpack_encoder *encoder);
H3_QPACK_CALL size_t h3q_encoder_known_received_count(h3_qpack_encoder *encoder);
H3_QPACK_CALL size_t h3q_encoder_capacity(h3_qpack_encoder *encoder);
H3_QPACK_CALL size_t h3q_encoder_table_size(h3_qpack_encoder *encoder);
H3_QPACK_CALL size_t h3q_encoder_entries(h3_qpack_encoder *encoder);
H3_QPACK_CALL h3_qpack_field h3q_encoder_entry(h3_qpack_encoder *encoder, size_t index, uint8_t *out, size_t outlen);
H3_QPACK_CALL int32_t h3q_decoder_new(size_t max_capacity, size_t max_blocked, uint64_t max_section_size, void **at);
H3_QPACK_CALL void h3q_decoder_free(h3_qpack_decoder decoder);
H3_QPACK_CALL h3_qpack_prefix h3q_decoder_prefix(h3_qpack_decoder *decoder, const uint8_t *src, size_t srclen);
H3_QPACK_CALL h3_qpack_decoded h3q_decoder_decode(h3_qpack_decoder *decoder, uint64_t stream_id, const uint8_t *src,
                                                  size_t srclen);
H3_QPACK_CALL h3_qpack_field h3q_decoder_field(h3_qpack_decoder *decoder, size_t index, uint8_t *out, size_t outlen);
H3_QPACK_CALL h3_qpack_written h3q_decoder_fields(h3_qpack_decoder *decoder, h3_qpack_field *fields, size_t fieldslen,
                                                  uint8_t *out, size_t outlen);
H3_QPACK_CALL int32_t h3q_decoder_view(h3_qpack_decoder *decoder, size_t index, h3q_view *view);
H3_QPACK_CALL h3_qpack_received h3q_decoder_read(h3_qpack_decoder *decoder, const uint8_t *src, size_t srclen);
H3_QPACK_CALL size_t h3q_decoder_insert_count(h3_qpack_decoder *decoder);
H3_QPACK_CALL size_t h3q_decoder_blocked(h3_qpack_decoder *decoder);
H3_QPACK_CALL size_t h3q_decoder_capacity(h3_qpack_decoder *decoder);
H3_QPACK_CALL size_t h3q_decoder_table_size(h3_qpack_decoder *decoder);
H3_QPACK_CALL size_t h3q_decoder_entries(h3_qpack_decoder *decoder);
H3_QPACK_CALL h3_qpack_field h3q_decoder_entry(h3_qpack_decoder *decoder, size_t index, uint8_t *out, size_t outlen);
H3_QPACK_CALL uint32_t h3q_decoder_next_ready(h3_qpack_decoder *decoder, uint64_t *stream_id);
H3_QPACK_CALL size_t h3q_decoder_stream(h3_qpack_decoder *decoder, uint8_t *out, size_t outlen);
H3_QPACK_CALL size_t h3q_decoder_stream_len(h3_qpack_decoder *decoder);
H3_QPACK_CALL int32_t h3q_decoder_cancel(h3_qpack_decoder *decoder, uint64_t stream_id);
H3_QPACK_CALL h3_qpack_piece h3q_decoder_read_section(h3_qpack_decoder *decoder, h3_qpack_section_reader *reader,
                                                      const uint8_t *src, size_t srclen, uint32_t fin);
H3_QPACK_CALL int32_t h3q_reader_new(uint64_t stream_id, void **at);
H3_QPACK_CALL void h3q_reader_free(h3_qpack_section_reader reader);
H3_QPACK_CALL h3_qpack_field h3q_reader_field(h3_qpack_section_reader *reader, uint8_t *out, size_t outlen);
H3_QPACK_CALL int32_t h3q_reader_view(h3_qpack_section_reader *reader, h3q_view *view);
H3_QPACK_CALL size_t h3q_reader_waiting(h3_qpack_section_reader *reader);
H3_QPACK_CALL h3_qpack_written h3q_encode_stateless(const h3_qpack_nv *nva, size_t nvlen, uint8_t *section, size_t sectionlen);
H3_QPACK_CALL h3_qpack_decoded_alone h3q_decode_stateless(const uint8_t *src, size_t srclen, uint64_t max_section_size,
                                                          h3_qpack_field *fields, size_t fieldslen, uint8_t *out,
                                                          size_t outlen);

/* ---- What the bodies below share. H3Q_HAVE_NULL are fields of which a pointer is NULL, which the exports may not be
 * passed: the two calls pass a copy without NULL, from malloc. */

enum { H3Q_NO_FIELDS, H3Q_FIELDS, H3Q_HAVE_NULL };
enum { H3Q_PREFIX = -10 }; /* a status of h3q_decoder_read_section alone: call it again */
H3_QPACK_INLINE int h3q_are_fields(const h3_qpack_nv *nva, size_t nvlen);
H3_QPACK_INLINE void h3q_show(const h3q_view *seen, h3_qpack_view *view);
h3_qpack_encoded h3q_encode_copy(h3_qpack_encoder *encoder, uint64_t stream_id, const h3_qpack_nv *nva, size_t nvlen,
                                 uint8_t *section, size_t sectionlen);
h3_qpack_written h3q_encode_copy_stateless(const h3_qpack_nv *nva, size_t nvlen, uint8_t *section, size_t sectionlen);

/* ---- The bodies, which check arguments and call the exports */

#ifdef H3Q_HAS_BODIES

#define H3Q_IS_END(end) ((end) && (end)->at)
#define H3Q_IS_MEMORY(p, len) (((p) || !(len)) && (len) <= (size_t)PTRDIFF_MAX)
#define H3Q_IS_STREAM(stream_id) (!((stream_id) >> 62))
#define H3Q_ARE_PLACES(p, len) (((p) || !(len)) && (len) <= (size_t)PTRDIFF_MAX / sizeof(h3_qpack_field))
#define H3Q_LEND(T, p) ((p) ? (p) : (T *)(void *)sizeof(void *)) /* aligned, and never read: its length is 0 */

H3_QPACK_INLINE int h3q_are_fields(const h3_qpack_nv *nva, size_t nvlen) {
  size_t i;
  int are = H3Q_FIELDS;
  if ((!nva && nvlen) || nvlen > (size_t)PTRDIFF_MAX / sizeof *nva) return H3Q_NO_FIELDS;
  for (i = 0; i < nvlen; i++) {
    if (!H3Q_IS_MEMORY(nva[i].name, nva[i].namelen) || !H3Q_IS_MEMORY(nva[i].value, nva[i].valuelen)) return H3Q_NO_FIELDS;
    if (!nva[i].name || !nva[i].value) are = H3Q_HAVE_NULL;
  }
  return are;
}

H3_QPACK_INLINE uint32_t h3_qpack_version(void) { return h3q_version(); }

H3_QPACK_INLINE void h3_qpack_encoder_del(h3_qpack_encoder *encoder) {
  if (H3Q_IS_END(encoder)) {
    h3q_encoder_free(*encoder);
    encoder->at = NULL;
  }
}

H3_QPACK_INLINE h3_qpack_encoded h3_qpack_encoder_encode(h3_qpack_encoder *encoder, uint64_t stream_id, const h3_qpack_nv *nva,
                                                         size_t nvlen, uint8_t *section, size_t sectionlen) {
  h3_qpack_encoded invalid = {H3_QPACK_ERR_INVALID, 0, 0, 0};
  int are = h3q_are_fields(nva, nvlen);
  if (!H3Q_IS_END(encoder) || !H3Q_IS_STREAM(stream_id) || are == H3Q_NO_FIELDS) return invalid;
  if (!H3Q_IS_MEMORY(section, sectionlen)) return invalid;
  if (are == H3Q_HAVE_NULL) return h3q_encode_copy(encoder, stream_id, nva, nvlen, H3Q_LEND(uint8_t, section), sectionlen);
  return h3q_encoder_encode(encoder, stream_id, H3Q_LEND(const h3_qpack_nv, nva), nvlen, H3Q_LEND(uint8_t, section),
                            sectionlen);
}

H3_QPACK_INLINE h3_qpack_written h3_qpack_encoder_section(h3_qpack_encoder *encoder, uint8_t *section, size_t sectionlen) {
  h3_qpack_written invalid = {H3_QPACK_ERR_INVALID, 0};
  if (!H3Q_IS_END(encoder) || !H3Q_IS_MEMORY(section, sectionlen)) return invalid;
  return h3q_encoder_section(encoder, H3Q_LEND(uint8_t, section), sectionlen);
}

H3_QPACK_INLINE size_t h3_qpack_encoder_get_encoder_streamlen(h3_qpack_encoder *encoder) {
  return H3Q_IS_END(encoder) ? h3q_encoder_stream_len(encoder) : 0;
}

H3_QPACK_INLINE size_t h3_qpack_encoder_write_encoder(h3_qpack_encoder *encoder, uint8_t *out, size_t outlen) {
  if (!H3Q_IS_END(encoder) || !H3Q_IS_MEMORY(out, outlen)) return 0;
  return h3q_encoder_stream(encoder, H3Q_LEND(uint8_t, out), outlen);
}

H3_QPACK_INLINE h3_qpack_received h3_qpack_encoder_read_decoder(h3_qpack_encoder *encoder, const uint8_t *src, size_t srclen) {
  h3_qpack_received invalid = {H3_QPACK_ERR_INVALID, 0, 0, 0};
  if (!H3Q_IS_END(encoder) || !H3Q_IS_MEMORY(src, srclen)) return invalid;
  return h3q_encoder_read(encoder, H3Q_LEND(const uint8_t, src), srclen);
}

H3_QPACK_INLINE int h3_qpack_encoder_set_peer_settings(h3_qpack_encoder *encoder, uint64_t max_capacity,
                                                       uint64_t max_blocked) {
  if (!H3Q_IS_END(encoder) || (size_t)max_capacity != max_capacity || (size_t)max_blocked != max_blocked)
    return H3_QPACK_ERR_INVALID;
  return h3q_encoder_set_peer_settings(encoder, (size_t)max_capacity, (size_t)max_blocked);
}

H3_QPACK_INLINE int h3_qpack_encoder_set_capacity(h3_qpack_encoder *encoder, size_t capacity) {
  return H3Q_IS_END(encoder) ? h3q_encoder_set_capacity(encoder, capacity) : H3_QPACK_ERR_INVALID;
}

H3_QPACK_INLINE int h3_qpack_encoder_shrink(h3_qpack_encoder *encoder, size_t capacity) {
  return H3Q_IS_END(encoder) ? h3q_encoder_shrink(encoder, capacity) : H3_QPACK_ERR_INVALID;
}

H3_QPACK_INLINE int h3_qpack_encoder_get_pending_capacity(h3_qpack_encoder *encoder, size_t *capacity) {
  return H3Q_IS_END(encoder) && capacity && h3q_encoder_pending_capacity(encoder, capacity);
}

H3_QPACK_INLINE size_t h3_qpack_encoder_get_num_blocked(h3_qpack_encoder *encoder) {
  return H3Q_IS_END(encoder) ? h3q_encoder_blocked(encoder) : 0;
}

H3_QPACK_INLINE size_t h3_qpack_encoder_get_num_unacked(h3_qpack_encoder *encoder) {
  return H3Q_IS_END(encoder) ? h3q_encoder_unacknowledged(encoder) : 0;
}

H3_QPACK_INLINE size_t h3_qpack_encoder_get_icnt(h3_qpack_encoder *encoder) {
  return H3Q_IS_END(encoder) ? h3q_encoder_insert_count(encoder) : 0;
}

H3_QPACK_INLINE size_t h3_qpack_encoder_get_krcnt(h3_qpack_encoder *encoder) {
  return H3Q_IS_END(encoder) ? h3q_encoder_known_received_count(encoder) : 0;
}

H3_QPACK_INLINE size_t h3_qpack_encoder_get_capacity(h3_qpack_encoder *encoder) {
  return H3Q_IS_END(encoder) ? h3q_encoder_capacity(encoder) : 0;
}

H3_QPACK_INLINE size_t h3_qpack_encoder_get_table_size(h3_qpack_encoder *encoder) {
  return H3Q_IS_END(encoder) ? h3q_encoder_table_size(encoder) : 0;
}

H3_QPACK_INLINE size_t h3_qpack_encoder_get_num_entries(h3_qpack_encoder *encoder) {
  return H3Q_IS_END(encoder) ? h3q_encoder_entries(encoder) : 0;
}

H3_QPACK_INLINE h3_qpack_field h3_qpack_encoder_entry(h3_qpack_encoder *encoder, size_t index, uint8_t *out, size_t outlen) {
  h3_qpack_field invalid = {H3_QPACK_ERR_INVALID, 0, 0, 0};
  if (!H3Q_IS_END(encoder) || !H3Q_IS_MEMORY(out, outlen)) return invalid;
  return h3q_encoder_entry(encoder, index, H3Q_LEND(uint8_t, out), outlen);
}

H3_QPACK_INLINE void h3_qpack_decoder_del(h3_qpack_decoder *decoder) {
  if (H3Q_IS_END(decoder)) {
    h3q_decoder_free(*decoder);
    decoder->at = NULL;
  }
}

H3_QPACK_INLINE h3_qpack_received h3_qpack_decoder_read_encoder(h3_qpack_decoder *decoder, const uint8_t *src, size_t srclen) {
  h3_qpack_received invalid = {H3_QPACK_ERR_INVALID, 0, 0, 0};
  if (!H3Q_IS_END(decoder) || !H3Q_IS_MEMORY(src, srclen)) return invalid;
  return h3q_decoder_read(decoder, H3Q_LEND(const uint8_t, src), srclen);
}

H3_QPACK_INLINE h3_qpack_prefix h3_qpack_decoder_peek_prefix(h3_qpack_decoder *decoder, const uint8_t *src, size_t srclen) {
  h3_qpack_prefix invalid = {H3_QPACK_ERR_INVALID, 0, 0, 0};
  if (!H3Q_IS_END(decoder) || !H3Q_IS_MEMORY(src, srclen)) return invalid;
  return h3q_decoder_prefix(decoder, H3Q_LEND(const uint8_t, src), srclen);
}

H3_QPACK_INLINE h3_qpack_decoded h3_qpack_decoder_decode(h3_qpack_decoder *decoder, uint64_t stream_id, const uint8_t *src,
                                                         size_t srclen) {
  h3_qpack_decoded invalid = {H3_QPACK_ERR_INVALID, 0, 0, 0, 0, 0};
  if (!H3Q_IS_END(decoder) || !H3Q_IS_STREAM(stream_id) || !H3Q_IS_MEMORY(src, srclen)) return invalid;
  return h3q_decoder_decode(decoder, stream_id, H3Q_LEND(const uint8_t, src), srclen);
}

H3_QPACK_INLINE h3_qpack_field h3_qpack_decoder_field(h3_qpack_decoder *decoder, size_t index, uint8_t *out, size_t outlen) {
  h3_qpack_field invalid = {H3_QPACK_ERR_INVALID, 0, 0, 0};
  if (!H3Q_IS_END(decoder) || !H3Q_IS_MEMORY(out, outlen)) return invalid;
  return h3q_decoder_field(decoder, index, H3Q_LEND(uint8_t, out), outlen);
}

H3_QPACK_INLINE h3_qpack_written h3_qpack_decoder_fields(h3_qpack_decoder *decoder, h3_qpack_field *fields, size_t fieldslen,
                                                         uint8_t *out, size_t outlen) {
  h3_qpack_written invalid = {H3_QPACK_ERR_INVALID, 0};
  if (!H3Q_IS_END(decoder) || !H3Q_ARE_PLACES(fields, fieldslen) || !H3Q_IS_MEMORY(out, outlen)) return invalid;
  return h3q_decoder_fields(decoder, H3Q_LEND(h3_qpack_field, fields), fieldslen, H3Q_LEND(uint8_t, out), outlen);
}

H3_QPACK_INLINE void h3q_show(const h3q_view *seen, h3_qpack_view *view) {
  view->name = seen->text + seen->start;
  view->value = view->name + seen->namelen;
  view->namelen = seen->namelen;
  view->valuelen = seen->valuelen;
  view->flags = seen->flags;
  view->static_name = seen->static_name;
  view->static_field = seen->static_field;
}

H3_QPACK_INLINE int h3_qpack_decoder_view(h3_qpack_decoder *decoder, size_t index, h3_qpack_view *view) {
  h3q_view seen = {NULL, 0, 0, 0, 0, 0, 0};
  int32_t status;
  if (!H3Q_IS_END(decoder) || !view) return H3_QPACK_ERR_INVALID;
  status = h3q_decoder_view(decoder, index, &seen);
  if (!status) h3q_show(&seen, view);
  return status;
}

H3_QPACK_INLINE size_t h3_qpack_decoder_views(h3_qpack_decoder *decoder, h3_qpack_view *views, size_t viewslen) {
  size_t i = 0;
  if (!views) return 0;
  while (i < viewslen && !h3_qpack_decoder_view(decoder, i, &views[i])) i++;
  return i;
}

H3_QPACK_INLINE int h3_qpack_decoder_next_ready(h3_qpack_decoder *decoder, uint64_t *stream_id) {
  return H3Q_IS_END(decoder) && stream_id && h3q_decoder_next_ready(decoder, stream_id);
}

H3_QPACK_INLINE size_t h3_qpack_decoder_get_icnt(h3_qpack_decoder *decoder) {
  return H3Q_IS_END(decoder) ? h3q_decoder_insert_count(decoder) : 0;
}

H3_QPACK_INLINE size_t h3_qpack_decoder_get_num_blocked(h3_qpack_decoder *decoder) {
  return H3Q_IS_END(decoder) ? h3q_decoder_blocked(decoder) : 0;
}

H3_QPACK_INLINE size_t h3_qpack_decoder_get_capacity(h3_qpack_decoder *decoder) {
  return H3Q_IS_END(decoder) ? h3q_decoder_capacity(decoder) : 0;
}

H3_QPACK_INLINE size_t h3_qpack_decoder_get_table_size(h3_qpack_decoder *decoder) {
  return H3Q_IS_END(decoder) ? h3q_decoder_table_size(decoder) : 0;
}

H3_QPACK_INLINE size_t h3_qpack_decoder_get_num_entries(h3_qpack_decoder *decoder) {
  return H3Q_IS_END(decoder) ? h3q_decoder_entries(decoder) : 0;
}

H3_QPACK_INLINE h3_qpack_field h3_qpack_decoder_entry(h3_qpack_decoder *decoder, size_t index, uint8_t *out, size_t outlen) {
  h3_qpack_field invalid = {H3_QPACK_ERR_INVALID, 0, 0, 0};
  if (!H3Q_IS_END(decoder) || !H3Q_IS_MEMORY(out, outlen)) return invalid;
  return h3q_decoder_entry(decoder, index, H3Q_LEND(uint8_t, out), outlen);
}

H3_QPACK_INLINE size_t h3_qpack_decoder_get_decoder_streamlen(h3_qpack_decoder *decoder) {
  return H3Q_IS_END(decoder) ? h3q_decoder_stream_len(decoder) : 0;
}

H3_QPACK_INLINE size_t h3_qpack_decoder_write_decoder(h3_qpack_decoder *decoder, uint8_t *out, size_t outlen) {
  if (!H3Q_IS_END(decoder) || !H3Q_IS_MEMORY(out, outlen)) return 0;
  return h3q_decoder_stream(decoder, H3Q_LEND(uint8_t, out), outlen);
}

H3_QPACK_INLINE int h3_qpack_decoder_cancel_stream(h3_qpack_decoder *decoder, uint64_t stream_id) {
  return H3Q_IS_END(decoder) ? h3q_decoder_cancel(decoder, stream_id) : H3_QPACK_ERR_INVALID;
}

H3_QPACK_INLINE int h3_qpack_section_reader_new(h3_qpack_section_reader *reader, uint64_t stream_id) {
  if (!reader) return H3_QPACK_ERR_INVALID;
  reader->at = NULL;
  return h3q_reader_new(stream_id, &reader->at);
}

H3_QPACK_INLINE void h3_qpack_section_reader_del(h3_qpack_section_reader *reader) {
  if (H3Q_IS_END(reader)) {
    h3q_reader_free(*reader);
    reader->at = NULL;
  }
}

H3_QPACK_INLINE h3_qpack_piece h3_qpack_section_reader_read(h3_qpack_section_reader *reader, h3_qpack_decoder *decoder,
                                                            const uint8_t *src, size_t srclen, int fin) {
  h3_qpack_piece piece = {H3_QPACK_ERR_INVALID, 0, 0, 0, 0};
  size_t taken = 0;
  if (!H3Q_IS_END(reader) || !H3Q_IS_END(decoder) || !H3Q_IS_MEMORY(src, srclen)) return piece;
  do { /* again after the prefix */
    piece = h3q_decoder_read_section(decoder, reader, H3Q_LEND(const uint8_t, src) + taken, srclen - taken, fin != 0);
    piece.taken = taken += piece.taken;
  } while (piece.status == H3Q_PREFIX);
  return piece;
}

H3_QPACK_INLINE h3_qpack_field h3_qpack_section_reader_field(h3_qpack_section_reader *reader, uint8_t *out, size_t outlen) {
  h3_qpack_field invalid = {H3_QPACK_ERR_INVALID, 0, 0, 0};
  if (!H3Q_IS_END(reader) || !H3Q_IS_MEMORY(out, outlen)) return invalid;
  return h3q_reader_field(reader, H3Q_LEND(uint8_t, out), outlen);
}

H3_QPACK_INLINE int h3_qpack_section_reader_view(h3_qpack_section_reader *reader, h3_qpack_view *view) {
  h3q_view seen = {NULL, 0, 0, 0, 0, 0, 0};
  int32_t status;
  if (!H3Q_IS_END(reader) || !view) return H3_QPACK_ERR_INVALID;
  status = h3q_reader_view(reader, &seen);
  if (!status) h3q_show(&seen, view);
  return status;
}

H3_QPACK_INLINE h3_qpack_pieces h3_qpack_section_reader_read_all(h3_qpack_section_reader *reader, h3_qpack_decoder *decoder,
                                                                 const uint8_t *src, size_t srclen, int fin,
                                                                 h3_qpack_field *fields, size_t fieldslen, uint8_t *out,
                                                                 size_t outlen) {
  h3_qpack_pieces all = {H3_QPACK_ERR_INVALID, 0, 0, 0, 0, 0, 0};
  h3_qpack_piece piece;
  h3_qpack_field field;
  if (!H3Q_IS_MEMORY(src, srclen) || !H3Q_ARE_PLACES(fields, fieldslen) || !H3Q_IS_MEMORY(out, outlen)) return all;
  src = H3Q_LEND(const uint8_t, src);
  out = H3Q_LEND(uint8_t, out);
  for (;;) {
    all.status = H3_QPACK_FIELD;
    if (all.fields == fieldslen) return all;
    piece = h3_qpack_section_reader_read(reader, decoder, src + all.taken, srclen - all.taken, fin);
    all.status = piece.status;
    all.taken += piece.taken;
    all.required = piece.required;
    all.number = piece.number;
    all.offset = piece.offset;
    if (piece.status != H3_QPACK_FIELD) return all;
    field = h3_qpack_section_reader_field(reader, out + all.len, outlen - all.len);
    all.status = field.status;
    if (field.status) return all;
    fields[all.fields++] = field;
    all.len += field.namelen + field.valuelen;
  }
}

H3_QPACK_INLINE size_t h3_qpack_section_reader_get_pending(h3_qpack_section_reader *reader) {
  return H3Q_IS_END(reader) ? h3q_reader_waiting(reader) : 0;
}

H3_QPACK_INLINE h3_qpack_written h3_qpack_encode_stateless(const h3_qpack_nv *nva, size_t nvlen, uint8_t *section,
                                                           size_t sectionlen) {
  h3_qpack_written invalid = {H3_QPACK_ERR_INVALID, 0};
  int are = h3q_are_fields(nva, nvlen);
  if (are == H3Q_NO_FIELDS || !H3Q_IS_MEMORY(section, sectionlen)) return invalid;
  if (are == H3Q_HAVE_NULL) return h3q_encode_copy_stateless(nva, nvlen, H3Q_LEND(uint8_t, section), sectionlen);
  return h3q_encode_stateless(H3Q_LEND(const h3_qpack_nv, nva), nvlen, H3Q_LEND(uint8_t, section), sectionlen);
}

H3_QPACK_INLINE h3_qpack_decoded_alone h3_qpack_decode_stateless(const uint8_t *src, size_t srclen, uint64_t max_section_size,
                                                                 h3_qpack_field *fields, size_t fieldslen, uint8_t *out,
                                                                 size_t outlen) {
  h3_qpack_decoded_alone invalid = {H3_QPACK_ERR_INVALID, 0, 0, 0, 0};
  if (!H3Q_IS_MEMORY(src, srclen) || !H3Q_ARE_PLACES(fields, fieldslen) || !H3Q_IS_MEMORY(out, outlen)) return invalid;
  return h3q_decode_stateless(H3Q_LEND(const uint8_t, src), srclen, max_section_size, H3Q_LEND(h3_qpack_field, fields),
                              fieldslen, H3Q_LEND(uint8_t, out), outlen);
}

#endif

#ifdef __cplusplus
}
#endif
#endif
