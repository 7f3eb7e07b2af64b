/* What nghttp3's structs of QPACK have besides: the ends of h3_qpack, and a section that arrives in pieces. build puts a
 * member |own| of each type into nghttp3_qpack.h. */
#ifndef H3_QPACK_PARTS_H
#define H3_QPACK_PARTS_H

#include <h3_qpack.h>
#include <nghttp3/nghttp3.h>

typedef struct h3_qpack_own_encoder {
  h3_qpack_encoder end;
  size_t peer_capacity; /* the peer's SETTINGS_QPACK_MAX_TABLE_CAPACITY; 0 until it is above 0 */
} h3_qpack_own_encoder;

typedef struct h3_qpack_own_decoder {
  h3_qpack_decoder end;
} h3_qpack_own_decoder;

typedef struct h3_qpack_own_section {
  h3_qpack_section_reader reader; /* made when the first bytes arrive */
} h3_qpack_own_section;

#endif
