/*
 * Groups of checks, and what several of them use. C99 and C++17.
 */
#ifndef CALLS_H
#define CALLS_H

#include "check.h"

/* streaming.c */

/* The storage with these bytes and this count. */
encoding_text_utf8_decoder decoder_with(uint8_t first, uint8_t second, uint8_t third, uint8_t count);

/* Whether these bytes are pending. If there are any, both fields of the storage have to show them. */
bool pending_are(const encoding_text_utf8_decoder *decoder, const char *wanted, size_t length);

void decoder_storage(void);
void decoder_lengths(void);
void decoder_calls(void);
void borrowed_calls(void);

/* Whether the storage acts as a new encoder: a low surrogate is unpaired. */
bool is_new_encoder(encoding_text_utf8_encoder encoder);
encoding_text_utf8_encoder encoder_with(uint16_t surrogate);

void encoder_storage(void);
void encoder_lengths(void);
void encoder_calls_from_utf16(void);
void encoder_calls_from_text(void);

/* utf16.c */

/* The storage with these bytes, this count and this byte order. */
encoding_text_utf16_decoder utf16_decoder_with(uint8_t first, uint8_t second, uint8_t third, uint8_t count,
                                               uint8_t big_endian);

bool utf16_decoded_is(encoding_text_decoder_result decoded, size_t read, size_t written, uint8_t result,
                      uint8_t malformed_length, uint8_t read_after);

/* Whether these bytes are pending. If there are any, both fields of the storage have to show them. */
bool utf16_pending_are(const encoding_text_utf16_decoder *decoder, const char *wanted, size_t length);

void utf16_decoder_storage(void);
void utf16_decoder_lengths(void);
void utf16_decoder_calls(void);
void utf16_calls_of_no_elements(const uint8_t *bytes, uint8_t *to_bytes, uint16_t *to_units);

/* marks.c */

/* The storage with these pending bytes, this encoding and these marks. */
encoding_text_decoder stream_decoder_with(const char *pending, size_t length, uint8_t encoding, uint8_t bom);

bool coded_is(encoding_text_coder_result coded, size_t read, size_t written, size_t replaced, uint8_t result);

/* Whether the storage has these contents, and the calls that tell of it say the same. */
bool stream_decoder_is(const encoding_text_decoder *decoder, const char *pending, size_t length, uint8_t encoding,
                       uint8_t bom);

void stream_decoders(void);
void stream_calls_of_no_elements(const uint8_t *bytes, uint8_t *to_bytes, uint16_t *to_units);

/* search.c */
void searches(void);

/* surrogates.c */
void surrogate_counts(void);

/* runs.c */
encoding_text_report *fresh_reports(void);

/* Whether these are the first reports, each as `place` and `length`, and the elements after them are unchanged. */
bool reports_are(size_t count, ...);

void runs_to_the_end(void);
void runs_that_go_on(void);
void runs_from_utf16(void);

/* empty.c */
void buffers_of_no_elements(const uint8_t *bytes, const uint16_t *units, uint8_t *to_bytes, uint16_t *to_units);

/* layout.c */
void layouts(void);

#ifdef __cplusplus
/* vectors.cc */
void vectors_of_no_elements();
#endif

#endif
