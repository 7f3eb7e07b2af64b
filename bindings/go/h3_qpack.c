/* The functions of h3_qpack.h that the library exports: those whose bodies are in the header, those that read or fill
 * settings, and those that take fields with NULL pointers. */
#define _GNU_SOURCE     /* for syscall */
#define _CRT_RAND_S     /* for rand_s */
#define H3_QPACK_INLINE /* so each body of the header is the definition of an ordinary function here */
#include "h3_qpack.h"

#include <stdlib.h>
#ifdef __linux__
#include <sys/syscall.h>
#include <unistd.h>
#endif

#define DONT_WAIT 1 /* GRND_NONBLOCK, which older headers lack */

/* A field that version 0.n adds to settings is read and written only if the caller's version is 0.n or later: an older
 * caller's struct ends before it, and the field has its default. */

/* The first version with these settings, 0.2. */
#define FIRST_VERSION 2

/* Whether a caller that was compiled with the header of a version may use this library. */
static int is_supported(uint32_t version) {
  uint32_t ours = h3q_version();
  return version >> 16 == ours >> 16 && version >= FIRST_VERSION && version <= ours;
}

static int fits_size(uint64_t value) { return (size_t)value == value; }

/* Returns a random number of the system's, or 0 where there is none or it is not ready. */
static uint64_t random_number(void) {
  uint64_t number = 0;
#if defined(_WIN32)
  for (int i = 0; i < 2; i++) {
    unsigned int part;
    if (rand_s(&part)) return 0;
    number = number << 32 | part;
  }
#elif defined(__APPLE__) || defined(__ANDROID__) || defined(__FreeBSD__) || defined(__OpenBSD__) || defined(__NetBSD__) || \
    defined(__DragonFly__) || defined(__sun)
  arc4random_buf(&number, sizeof number);
#elif defined(SYS_getrandom)
  if (syscall(SYS_getrandom, &number, sizeof number, DONT_WAIT) != (long)sizeof number) return 0;
#endif
  return number;
}

void h3_qpack_encoder_settings_default_versioned(uint32_t version, h3_qpack_encoder_settings *settings) {
  if (!settings || !is_supported(version)) return;
  settings->max_capacity = 0;
  settings->max_blocked = 0;
  settings->capacity = 16384;
  settings->most_unacknowledged = 100;
  settings->seed = random_number();
}

int h3_qpack_encoder_new_versioned(h3_qpack_encoder *encoder, uint32_t version, const h3_qpack_encoder_settings *settings) {
  if (!encoder) return H3_QPACK_ERR_INVALID;
  encoder->at = NULL;
  if (!is_supported(version)) return H3_QPACK_ERR_VERSION;
  if (!settings || !fits_size(settings->max_capacity) || !fits_size(settings->max_blocked) || !fits_size(settings->capacity) ||
      !fits_size(settings->most_unacknowledged))
    return H3_QPACK_ERR_INVALID;
  return h3q_encoder_new((size_t)settings->max_capacity, (size_t)settings->max_blocked, (size_t)settings->capacity,
                         (size_t)settings->most_unacknowledged, settings->seed, &encoder->at);
}

void h3_qpack_decoder_settings_default_versioned(uint32_t version, h3_qpack_decoder_settings *settings) {
  if (!settings || !is_supported(version)) return;
  settings->max_capacity = 0;
  settings->max_blocked = 0;
  settings->max_section_size = 65536;
}

int h3_qpack_decoder_new_versioned(h3_qpack_decoder *decoder, uint32_t version, const h3_qpack_decoder_settings *settings) {
  if (!decoder) return H3_QPACK_ERR_INVALID;
  decoder->at = NULL;
  if (!is_supported(version)) return H3_QPACK_ERR_VERSION;
  if (!settings || !fits_size(settings->max_capacity) || !fits_size(settings->max_blocked)) return H3_QPACK_ERR_INVALID;
  return h3q_decoder_new((size_t)settings->max_capacity, (size_t)settings->max_blocked, settings->max_section_size,
                         &decoder->at);
}

/* Returns a copy of fields, in which a pointer to nothing is in the place of NULL. Returns NULL without memory. */
static h3_qpack_nv *copy_fields(const h3_qpack_nv *nva, size_t nvlen) {
  static const uint8_t nothing[1];
  h3_qpack_nv *copy = malloc(nvlen * sizeof *copy);
  if (!copy) return NULL;
  for (size_t i = 0; i < nvlen; i++) {
    copy[i] = nva[i];
    if (!nva[i].name) copy[i].name = nothing;
    if (!nva[i].value) copy[i].value = nothing;
  }
  return copy;
}

h3_qpack_encoded h3q_encode_copy(h3_qpack_encoder *encoder, uint64_t stream_id, const h3_qpack_nv *nva, size_t nvlen,
                                 uint8_t *section, size_t sectionlen) {
  h3_qpack_encoded answer = {H3_QPACK_ERR_NO_MEMORY, 0, 0, 0};
  h3_qpack_nv *copy = copy_fields(nva, nvlen);
  if (!copy) return answer;
  answer = h3q_encoder_encode(encoder, stream_id, copy, nvlen, section, sectionlen);
  free(copy);
  return answer;
}

h3_qpack_written h3q_encode_copy_stateless(const h3_qpack_nv *nva, size_t nvlen, uint8_t *section, size_t sectionlen) {
  h3_qpack_written answer = {H3_QPACK_ERR_NO_MEMORY, 0};
  h3_qpack_nv *copy = copy_fields(nva, nvlen);
  if (!copy) return answer;
  answer = h3q_encode_stateless(copy, nvlen, section, sectionlen);
  free(copy);
  return answer;
}
