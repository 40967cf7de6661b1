/**
 * @file
 * encoding_text: ASCII, Latin1, UTF-8 and UTF-16 kernels, streaming decoders of UTF-8, UTF-16LE and UTF-16BE, also by byte
 * order marks, a streaming UTF-8 encoder, and UTF-8 repair. Each function is proved to do what the Unicode Standard and the
 * Encoding Standard say.
 *
 * Terms
 * - "Well-formed" means well-formed UTF-8 (Unicode Standard, section 3.9, Table 3-7). A "text" is well-formed.
 * - A "malformed sequence" is what the UTF-8 decoder of the Encoding Standard reports as one error.
 * - An "unpaired surrogate" is a surrogate code unit outside of a surrogate pair.
 * - A "Latin1" buffer has only scalar values up to U+00FF.
 * - A "right-to-left" scalar value may trigger the bidirectional algorithm.
 *
 * Arguments
 * - A source is `src` and its length, a destination `dst` and its length. Lengths are in elements: bytes for uint8_t,
 *   UTF-16 code units for uint16_t. Each array has at most PTRDIFF_MAX bytes.
 * - A pointer with a length may be NULL if the length is 0 (`data()` of an empty std::vector may return NULL). No other
 *   pointer is NULL.
 * - A pointer is aligned for its type. A destination, an array of reports, a decoder and an encoder overlap no other
 *   argument.
 * - A destination or an array of reports may be uninitialised, except that the destination of a `_to_str` function is
 *   a text. Any of its elements may be read and written during the call.
 * - After the call the elements past those reported as written are unchanged. Only the `_to_str` functions clear some.
 *
 * Violated preconditions
 * - A function checks its preconditions on lengths and contents. If one is violated, the function changes nothing in
 *   memory. It returns a value that no other call of the function returns:
 *   - a size_t is ENCODING_TEXT_INVALID_ARGUMENT, a uint8_t is ENCODING_TEXT_INVALID_ARGUMENT_U8;
 *   - in encoding_text_progress, `read` and `written` are ENCODING_TEXT_INVALID_ARGUMENT, as in
 *     encoding_text_counted_progress, whose `replaced` is 0;
 *   - in encoding_text_encode_result and encoding_text_decode_run_result, `result` is
 *     ENCODING_TEXT_INVALID_ARGUMENT_U8, and the rest is 0;
 *   - in encoding_text_search_block_result, `read` and `found` are ENCODING_TEXT_INVALID_ARGUMENT;
 *   - in encoding_text_repair_result, `written` is ENCODING_TEXT_INVALID_ARGUMENT and `replaced` is 0.
 * - Functions that return void, bool or another structure check no precondition.
 * - The `_unchecked` functions don't check that a source is well-formed. If it isn't, the behaviour is undefined.
 * - Preconditions on pointers aren't checked either, nor is the limit of PTRDIFF_MAX bytes.
 *
 * Threads and memory
 * - Calls on different storage may run at once, in any threads. One thread at a time uses a decoder or an encoder.
 * - No function allocates memory. Between calls, only a decoder or an encoder keeps state, in the caller's storage.
 *
 * Processors
 * - For 64-bit ARM, the library holds one build, for all processors. It uses register x18, so it is for Linux with glibc or
 *   musl: Android, OpenHarmony and kernels with a shadow call stack reserve that register.
 * - For x86-64 with glibc, it holds a build for x86-64-v2 and one for x86-64-v3 (with AVX2). It selects one at load time.
 * - It selects the second if the processor supports it and ENCODING_TEXT_CPU=x86-64-v2 isn't in the environment.
 * - A library made by `make CPU=x86-64-v3` or the like, or without glibc, holds one build and ignores the variable. One that
 *   holds two links only with glibc.
 * - If the processor supports no build of the library, the program ends with SIGILL.
 *
 * Not available from C
 * - `is_str_latin1` and `is_str_bidi`: call encoding_text_mem_is_utf8_latin1 and encoding_text_mem_is_utf8_bidi. For a
 *   text they return the same.
 * - `is_char_bidi`: call encoding_text_mem_is_utf8_bidi with the UTF-8 of the scalar value.
 * - `decode_latin1` and `encode_latin1_lossy`, which may allocate. The functions of these names here write to the
 *   caller's destination.
 * - The constants `UTF8_DATA` and `ASCII_MASK`.
 * - `decode_to_str` and `decode_to_str_without_replacement` of a decoder, and `clear_continuation_bytes`: a destination in
 *   C is bytes, which encoding_text_decoder_decode_to_utf8 and its like fill.
 * - `copy_utf16_bytes_to_ascii` and `convert_utf16_bytes_to_utf8_up_to_invalid`: a decoder of UTF-16 converts the same bytes.
 * - The repair of a reader into a writer (`repair`, `Watch`).
 * - The laws, which are theorems.
 */
#ifndef ENCODING_TEXT_H
#define ENCODING_TEXT_H

#include <stdbool.h>
#include <stddef.h>
#include <stdint.h>

#ifdef __cplusplus
extern "C" {
#endif

/** The version of this header. encoding_text_version() returns that of the library, as one number. */
#define ENCODING_TEXT_VERSION \
    (10000 * ENCODING_TEXT_VERSION_MAJOR + 100 * ENCODING_TEXT_VERSION_MINOR + ENCODING_TEXT_VERSION_PATCH)
#define ENCODING_TEXT_VERSION_MAJOR 0 /**< its first number */
#define ENCODING_TEXT_VERSION_MINOR 1 /**< its second number */
#define ENCODING_TEXT_VERSION_PATCH 1 /**< its third number */

/* Returned if a precondition is violated. */
#define ENCODING_TEXT_INVALID_ARGUMENT SIZE_MAX     /**< a violated precondition, as a size_t */
#define ENCODING_TEXT_INVALID_ARGUMENT_U8 UINT8_MAX /**< a violated precondition, as a uint8_t */

/* Returned by the encoding_text_mem_check_ functions. */
#define ENCODING_TEXT_LATIN1 0        /**< each scalar value or code unit is up to U+00FF */
#define ENCODING_TEXT_LEFT_TO_RIGHT 1 /**< not Latin1, and nothing is right-to-left */
#define ENCODING_TEXT_BIDI 2          /**< not Latin1, and something is right-to-left, or bytes are malformed */

/** How much a call read and wrote. */
typedef struct {
    size_t read;    /**< elements of the source */
    size_t written; /**< elements of the destination */
} encoding_text_progress;

/** The longest ASCII prefix, and the element that ends it. */
typedef struct {
    size_t length;  /**< the length of the prefix, in elements */
    uint16_t other; /**< the element after it, or 0 if there is none */
} encoding_text_prefix;

/** @return the version of the library: 10,000 times the first number, plus 100 times the second, plus the third */
uint32_t encoding_text_version(void);

/** Does nothing. A program that refers to it links only with a library whose functions and types are those of this
 * header: a library that changes one of them incompatibly has another name here. */
void encoding_text_layout_0_1(void);

/** @name ASCII prefixes
 * @{ */

/** @param bytes,bytes_length the bytes.
 * @return the longest prefix of bytes below 0x80, and the byte after it */
encoding_text_prefix encoding_text_validate_ascii(const uint8_t *bytes, size_t bytes_length);

/** @param bytes,bytes_length the bytes.
 * @return the length of the longest prefix of bytes below 0x80 */
size_t encoding_text_ascii_valid_up_to(const uint8_t *bytes, size_t bytes_length);

/** @param bytes,bytes_length the bytes.
 * @return the length of the longest prefix of bytes below 0x80 other than 0x1B, 0x0E and 0x0F: the bytes that the
 * ISO-2022-JP decoder passes through (Encoding Standard, section 12.2.1) */
size_t encoding_text_iso_2022_jp_ascii_valid_up_to(const uint8_t *bytes, size_t bytes_length);

/** Copies the longest ASCII prefix of the first min(src_length, dst_length) elements.
 * @param src,src_length the source, in bytes.
 * @param dst,dst_length the destination, in bytes.
 * @return that prefix */
encoding_text_prefix encoding_text_ascii_to_ascii(const uint8_t *src, size_t src_length, uint8_t *dst,
                                                 size_t dst_length);

/** Copies the longest ASCII prefix of the first min(src_length, dst_length) bytes, each as a code unit.
 * @param src,src_length the source, in bytes.
 * @param dst,dst_length the destination, in code units.
 * @return that prefix */
encoding_text_prefix encoding_text_ascii_to_basic_latin(const uint8_t *src, size_t src_length, uint16_t *dst,
                                                       size_t dst_length);

/** Copies the longest ASCII prefix of the first min(src_length, dst_length) code units, each as a byte.
 * @param src,src_length the source, in code units.
 * @param dst,dst_length the destination, in bytes.
 * @return that prefix */
encoding_text_prefix encoding_text_basic_latin_to_ascii(const uint16_t *src, size_t src_length, uint8_t *dst,
                                                       size_t dst_length);

/** @} */

/** @name Whole buffers: checks
 * @{ */

/** @param buffer,buffer_length the buffer.
 * @return whether each element is below 0x80 */
bool encoding_text_mem_is_ascii(const uint8_t *buffer, size_t buffer_length);
/** @copydoc encoding_text_mem_is_ascii */
bool encoding_text_mem_is_basic_latin(const uint16_t *buffer, size_t buffer_length);

/** @param buffer,buffer_length the buffer.
 * @return whether the buffer is Latin1: UTF-8 is well-formed with scalar values up to U+00FF, UTF-16 has code units up
 * to 0x00FF */
bool encoding_text_mem_is_utf8_latin1(const uint8_t *buffer, size_t buffer_length);
/** @copydoc encoding_text_mem_is_utf8_latin1 */
bool encoding_text_mem_is_utf16_latin1(const uint16_t *buffer, size_t buffer_length);

/** @param buffer,buffer_length the buffer.
 * @return the length in bytes of the longest prefix that is the UTF-8 of scalar values up to U+00FF */
size_t encoding_text_mem_utf8_latin1_up_to(const uint8_t *buffer, size_t buffer_length);

/** @param buffer,buffer_length the buffer.
 * @return the length in bytes of the longest prefix of a text with scalar values up to U+00FF;
 * ENCODING_TEXT_INVALID_ARGUMENT if the buffer isn't well-formed */
size_t encoding_text_mem_str_latin1_up_to(const uint8_t *buffer, size_t buffer_length);

/** @param buffer,buffer_length the buffer.
 * @return the index of the first unpaired surrogate, or buffer_length if there is none */
size_t encoding_text_mem_utf16_valid_up_to(const uint16_t *buffer, size_t buffer_length);

/** Replaces each unpaired surrogate by 0xFFFD. @param buffer,buffer_length the code units */
void encoding_text_mem_ensure_utf16_validity(uint16_t *buffer, size_t buffer_length);

/** @param u a code unit.
 * @return whether a code unit is a right-to-left scalar value, or the high surrogate of one */
bool encoding_text_mem_is_utf16_code_unit_bidi(uint16_t u);

/** @param buffer,buffer_length the buffer.
 * @return whether the buffer isn't well-formed or has a right-to-left scalar value */
bool encoding_text_mem_is_utf8_bidi(const uint8_t *buffer, size_t buffer_length);

/** @param buffer,buffer_length the buffer.
 * @return whether the buffer has a right-to-left scalar value, or an unpaired high surrogate that could begin one */
bool encoding_text_mem_is_utf16_bidi(const uint16_t *buffer, size_t buffer_length);

/** @param buffer,buffer_length the buffer.
 * @return ENCODING_TEXT_LATIN1 if the buffer is Latin1, else ENCODING_TEXT_BIDI if the `_bidi` function of the same
 * type returns true, else ENCODING_TEXT_LEFT_TO_RIGHT. For `str`, ENCODING_TEXT_INVALID_ARGUMENT_U8 if the buffer isn't
 * well-formed. */
uint8_t encoding_text_mem_check_utf8_for_latin1_and_bidi(const uint8_t *buffer, size_t buffer_length);
/** @copydoc encoding_text_mem_check_utf8_for_latin1_and_bidi */
uint8_t encoding_text_mem_check_str_for_latin1_and_bidi(const uint8_t *buffer, size_t buffer_length);
/** @copydoc encoding_text_mem_check_utf8_for_latin1_and_bidi */
uint8_t encoding_text_mem_check_utf16_for_latin1_and_bidi(const uint16_t *buffer, size_t buffer_length);

/** @} */

/** @name Whole buffers: conversions
 * @{ */

/** Copies the longest ASCII prefix.
 * @param src,src_length the source, in bytes.
 * @param dst,dst_length the destination, in bytes.
 * @return its length; ENCODING_TEXT_INVALID_ARGUMENT if dst_length < src_length */
size_t encoding_text_mem_copy_ascii_to_ascii(const uint8_t *src, size_t src_length, uint8_t *dst, size_t dst_length);
/** @copydoc encoding_text_mem_copy_ascii_to_ascii */
size_t encoding_text_mem_copy_ascii_to_basic_latin(const uint8_t *src, size_t src_length, uint16_t *dst,
                                                   size_t dst_length);
/** @copydoc encoding_text_mem_copy_ascii_to_ascii */
size_t encoding_text_mem_copy_basic_latin_to_ascii(const uint16_t *src, size_t src_length, uint8_t *dst,
                                                   size_t dst_length);

/** Converts Latin1 to UTF-16.
 * @param src,src_length the source, in bytes.
 * @param dst,dst_length the destination, in code units.
 * @return the number of code units written; ENCODING_TEXT_INVALID_ARGUMENT if dst_length < src_length */
size_t encoding_text_mem_convert_latin1_to_utf16(const uint8_t *src, size_t src_length, uint16_t *dst,
                                                 size_t dst_length);

/** Converts the longest prefix of Latin1 whose UTF-8 fits (Encoding Standard, encodeInto).
 * @param src,src_length the source, in bytes.
 * @param dst,dst_length the destination, in bytes.
 * @return how much was read and written */
encoding_text_progress encoding_text_mem_convert_latin1_to_utf8_partial(const uint8_t *src, size_t src_length,
                                                                        uint8_t *dst, size_t dst_length);

/** Converts Latin1 to UTF-8.
 * @param src,src_length the source, in bytes.
 * @param dst,dst_length the destination, in bytes.
 * @return the number of bytes written; ENCODING_TEXT_INVALID_ARGUMENT if dst_length < 2 * src_length */
size_t encoding_text_mem_convert_latin1_to_utf8(const uint8_t *src, size_t src_length, uint8_t *dst, size_t dst_length);

/** Converts Latin1 to UTF-8, into a destination that may be exactly as long as the result.
 * @param src,src_length the source, in bytes.
 * @param dst,dst_length the destination, in bytes.
 * @return the number of bytes written; ENCODING_TEXT_INVALID_ARGUMENT if dst_length <
 * encoding_text_mem_utf8_length_from_latin1(src, src_length) */
size_t encoding_text_mem_decode_latin1(const uint8_t *src, size_t src_length, uint8_t *dst, size_t dst_length);

/** Converts a Latin1 text from UTF-8, one byte for each character.
 * @param src,src_length the source, in bytes.
 * @param dst,dst_length the destination, in bytes.
 * @return the number of bytes written; ENCODING_TEXT_INVALID_ARGUMENT if dst_length < src_length, or if src isn't a
 * Latin1 text */
size_t encoding_text_mem_convert_utf8_to_latin1_lossy(const uint8_t *src, size_t src_length, uint8_t *dst,
                                                      size_t dst_length);

/** Converts a Latin1 text from UTF-8, into a destination that may be exactly as long as the result.
 * @param src,src_length the source, in bytes.
 * @param dst,dst_length the destination, in bytes.
 * @return the number of bytes written; ENCODING_TEXT_INVALID_ARGUMENT if src isn't a Latin1 text, or if dst_length <
 * encoding_text_mem_latin1_length_from_utf8(src, src_length) */
size_t encoding_text_mem_encode_latin1(const uint8_t *src, size_t src_length, uint8_t *dst, size_t dst_length);

/** Writes the low eight bits of each code unit.
 * @param src,src_length the source, in code units.
 * @param dst,dst_length the destination, in bytes.
 * @return the number of bytes written; ENCODING_TEXT_INVALID_ARGUMENT if dst_length < src_length */
size_t encoding_text_mem_convert_utf16_to_latin1_lossy(const uint16_t *src, size_t src_length, uint8_t *dst,
                                                       size_t dst_length);

/** Converts to UTF-16, with U+FFFD for each malformed sequence (Encoding Standard, UTF-8 decode without BOM).
 * @param src,src_length the source, in bytes.
 * @param dst,dst_length the destination, in code units.
 * @return the number of code units written; ENCODING_TEXT_INVALID_ARGUMENT if dst_length <= src_length */
size_t encoding_text_mem_convert_utf8_to_utf16(const uint8_t *src, size_t src_length, uint16_t *dst, size_t dst_length);

/** Converts the longest prefix of whole characters whose UTF-16 fits, with U+FFFD for each malformed sequence (Encoding
 * Standard, UTF-8 decode without BOM). A destination of encoding_text_mem_utf16_length_from_utf8 code units is large
 * enough for all of src.
 * @param src,src_length the source, in bytes.
 * @param dst,dst_length the destination, in code units.
 * @return how much was read and written; `read` is less than src_length if and only if dst is too short */
encoding_text_progress encoding_text_mem_convert_utf8_to_utf16_partial(const uint8_t *src, size_t src_length,
                                                                       uint16_t *dst, size_t dst_length);

/** Converts a text to UTF-16.
 * @param src,src_length the source, in bytes.
 * @param dst,dst_length the destination, in code units.
 * @return the number of code units written; ENCODING_TEXT_INVALID_ARGUMENT if dst_length < src_length, or if src isn't
 * well-formed */
size_t encoding_text_mem_convert_str_to_utf16(const uint8_t *src, size_t src_length, uint16_t *dst, size_t dst_length);

/** Converts the longest well-formed prefix to UTF-16.
 * @param src,src_length the source, in bytes.
 * @param dst,dst_length the destination, in code units.
 * @return its length as `read`, which is src_length if and only if src is well-formed, and the number of code units
 * written; ENCODING_TEXT_INVALID_ARGUMENT as both if dst_length < src_length */
encoding_text_progress encoding_text_mem_convert_utf8_to_utf16_without_replacement(const uint8_t *src,
                                                                                   size_t src_length, uint16_t *dst,
                                                                                   size_t dst_length);

/** Converts the longest prefix of whole characters whose UTF-8 fits, with U+FFFD for each unpaired surrogate (Encoding
 * Standard, encodeInto).
 * @param src,src_length the source, in code units.
 * @param dst,dst_length the destination, in bytes.
 * @return how much was read and written */
encoding_text_progress encoding_text_mem_convert_utf16_to_utf8_partial(const uint16_t *src, size_t src_length,
                                                                       uint8_t *dst, size_t dst_length);

/** How much a conversion read and wrote, and how many unpaired surrogates it replaced. */
typedef struct {
    size_t read;     /**< code units of the source */
    size_t written;  /**< bytes of the destination */
    size_t replaced; /**< the number of unpaired surrogates among those units: U+FFFD is written for each */
} encoding_text_counted_progress;

/** Converts as encoding_text_mem_convert_utf16_to_utf8_partial does, and counts the unpaired surrogates that it replaces.
 * @param src,src_length the source, in code units.
 * @param dst,dst_length the destination, in bytes.
 * @return how much was read, written and replaced */
encoding_text_counted_progress encoding_text_mem_convert_utf16_to_utf8_partial_with_count(const uint16_t *src,
                                                                                          size_t src_length,
                                                                                          uint8_t *dst,
                                                                                          size_t dst_length);

/** Converts all of src, with U+FFFD for each unpaired surrogate.
 * @param src,src_length the source, in code units.
 * @param dst,dst_length the destination, in bytes.
 * @return the number of bytes written; ENCODING_TEXT_INVALID_ARGUMENT if dst_length < 3 * src_length */
size_t encoding_text_mem_convert_utf16_to_utf8(const uint16_t *src, size_t src_length, uint8_t *dst, size_t dst_length);

/** @} */

/** @name Whole buffers: texts that the caller knows to be well-formed
 * @{ */

/** For languages whose types guarantee a text. If it is ill-formed, the behaviour is undefined.
 * @param buffer,buffer_length the buffer.
 * @return what the function without `_unchecked` returns for a text; for `is_str_latin1` and `is_str_bidi`, what
 * encoding_text_mem_is_utf8_latin1 and encoding_text_mem_is_utf8_bidi return */
bool encoding_text_mem_is_str_latin1_unchecked(const uint8_t *buffer, size_t buffer_length);
/** @copydoc encoding_text_mem_is_str_latin1_unchecked */
size_t encoding_text_mem_str_latin1_up_to_unchecked(const uint8_t *buffer, size_t buffer_length);
/** @copydoc encoding_text_mem_is_str_latin1_unchecked */
bool encoding_text_mem_is_str_bidi_unchecked(const uint8_t *buffer, size_t buffer_length);
/** @copydoc encoding_text_mem_is_str_latin1_unchecked */
uint8_t encoding_text_mem_check_str_for_latin1_and_bidi_unchecked(const uint8_t *buffer, size_t buffer_length);

/** For languages whose types guarantee a text. If it is ill-formed, the behaviour is undefined.
 * @param src,src_length the source, in bytes.
 * @param dst,dst_length the destination, in code units.
 * @return what the function without `_unchecked` returns for a text; for `is_str_latin1` and `is_str_bidi`, what
 * encoding_text_mem_is_utf8_latin1 and encoding_text_mem_is_utf8_bidi return */
size_t encoding_text_mem_convert_str_to_utf16_unchecked(const uint8_t *src, size_t src_length, uint16_t *dst,
                                                        size_t dst_length);

/** Takes less time than the function without `_unchecked`. If src isn't a Latin1 text, the behaviour is undefined.
 * @param src,src_length the source, in bytes.
 * @return the number of characters of the text, which is its length in Latin1 */
size_t encoding_text_mem_latin1_length_from_utf8_unchecked(const uint8_t *src, size_t src_length);

/** Takes less time than the function without `_unchecked` for characters beyond ASCII. If src is ill-formed, the behaviour is
 * undefined.
 * @param src,src_length the source, in bytes.
 * @return the length of the text in UTF-16 code units */
size_t encoding_text_mem_utf16_length_from_utf8_unchecked(const uint8_t *src, size_t src_length);

/** Takes less time than the function without `_unchecked`. If src is ill-formed, the behaviour is undefined.
 * @param src,src_length the source, in bytes.
 * @return the number of characters of the text */
size_t encoding_text_utf8_count_unchecked(const uint8_t *src, size_t src_length);

/** @} */

/** @name Whole buffers: lengths
 * @{ */

/** Counts without writing; src may be ill-formed. A destination of this length lets
 * encoding_text_mem_convert_utf8_to_utf16_partial convert all of src. encoding_text_mem_convert_utf8_to_utf16 requires
 * src_length + 1 code units, although it writes only these.
 * @param src,src_length the source, in bytes.
 * @return the number of code units that encoding_text_mem_convert_utf8_to_utf16 writes for src: those of its
 * characters, and one for each malformed sequence */
size_t encoding_text_mem_utf16_length_from_utf8(const uint8_t *src, size_t src_length);

/** Measures the UTF-8 of UTF-16. A destination of this length lets encoding_text_mem_convert_utf16_to_utf8_partial
 * convert all of src.
 * @param src,src_length the source, in code units.
 * @return the length in bytes of the UTF-8 of src, with U+FFFD (three bytes) for each unpaired surrogate */
size_t encoding_text_mem_utf8_length_from_utf16(const uint16_t *src, size_t src_length);

/** Measures the UTF-8 of Latin1. A destination of this length lets encoding_text_mem_convert_latin1_to_utf8_partial
 * convert all of src.
 * @param src,src_length the source, in bytes.
 * @return the length in bytes of the UTF-8 of src */
size_t encoding_text_mem_utf8_length_from_latin1(const uint8_t *src, size_t src_length);

/** @param src,src_length the source, in bytes.
 * @return the number of bytes that encoding_text_mem_encode_latin1 writes for src, one for each character;
 * ENCODING_TEXT_INVALID_ARGUMENT if src isn't a Latin1 text */
size_t encoding_text_mem_latin1_length_from_utf8(const uint8_t *src, size_t src_length);

/** Counts characters; src may be ill-formed.
 * @param src,src_length the source, in bytes.
 * @return the number of characters in src, with one for each malformed sequence */
size_t encoding_text_utf8_count(const uint8_t *src, size_t src_length);

/** Counts characters; src may have unpaired surrogates.
 * @param src,src_length the source, in code units.
 * @return the number of characters in src, with one for each unpaired surrogate */
size_t encoding_text_utf16_count(const uint16_t *src, size_t src_length);

/** Measures repaired text; src may be ill-formed. A destination of this length lets encoding_text_repair_slice_partial
 * repair all of src. encoding_text_repair_slice requires 3 * src_length bytes, although it writes only these.
 * @param src,src_length the source, in bytes.
 * @return the length in bytes of src with U+FFFD (three bytes) for each malformed sequence; SIZE_MAX if it is greater */
size_t encoding_text_repaired_utf8_length(const uint8_t *src, size_t src_length);

/** @} */

/** @name Whole buffers: UTF-16LE and UTF-16BE
 * The bytes of code units (Encoding Standard, sections 14.3 and 14.4). No code unit is checked: surrogates may be unpaired.
 * @{ */

/** Converts UTF-16LE to code units, as many as fit. The last byte of an odd number is not read.
 * @param src,src_length the source, in bytes.
 * @param dst,dst_length the destination, in code units.
 * @return how much was read and written */
encoding_text_progress encoding_text_decode_utf16le(const uint8_t *src, size_t src_length, uint16_t *dst,
                                                    size_t dst_length);

/** Converts UTF-16BE to code units, as many as fit. The last byte of an odd number is not read.
 * @param src,src_length the source, in bytes.
 * @param dst,dst_length the destination, in code units.
 * @return how much was read and written */
encoding_text_progress encoding_text_decode_utf16be(const uint8_t *src, size_t src_length, uint16_t *dst,
                                                    size_t dst_length);

/** Converts code units to UTF-16LE, as many as fit.
 * @param src,src_length the source, in code units.
 * @param dst,dst_length the destination, in bytes.
 * @return how much was read and written */
encoding_text_progress encoding_text_encode_utf16le(const uint16_t *src, size_t src_length, uint8_t *dst,
                                                    size_t dst_length);

/** Converts code units to UTF-16BE, as many as fit.
 * @param src,src_length the source, in code units.
 * @param dst,dst_length the destination, in bytes.
 * @return how much was read and written */
encoding_text_progress encoding_text_encode_utf16be(const uint16_t *src, size_t src_length, uint8_t *dst,
                                                    size_t dst_length);

/** @} */

/** @name Whole buffers: text destinations
 * @{ */

/** Converts as the function with `utf8` instead of `str` does. The destination is a text before and after the call.
 * The two from UTF-16 set the continuation bytes directly after what is written to zero. The two from Latin1 set the
 * next sixteen bytes, or all that are left, to zero, and then the continuation bytes directly after these.
 * @param src,src_length the source, in code units.
 * @param dst,dst_length the destination, in bytes.
 * @return what the function with `utf8` returns; ENCODING_TEXT_INVALID_ARGUMENT (as `read` and `written` of a progress)
 * if dst isn't well-formed, if dst_length < 3 * src_length (`convert_utf16_to_str`), or if dst_length < 2 * src_length
 * (`convert_latin1_to_str`) */
encoding_text_progress encoding_text_mem_convert_utf16_to_str_partial(const uint16_t *src, size_t src_length,
                                                                      uint8_t *dst, size_t dst_length);
/** Converts as encoding_text_mem_convert_utf16_to_str_partial does, and counts the unpaired surrogates that it replaces.
 * @param src,src_length the source, in code units.
 * @param dst,dst_length the destination, in bytes.
 * @return how much was read, written and replaced; ENCODING_TEXT_INVALID_ARGUMENT as `read` and `written` if dst isn't
 * well-formed */
encoding_text_counted_progress encoding_text_mem_convert_utf16_to_str_partial_with_count(const uint16_t *src,
                                                                                         size_t src_length,
                                                                                         uint8_t *dst,
                                                                                         size_t dst_length);
/** @copydoc encoding_text_mem_convert_utf16_to_str_partial */
size_t encoding_text_mem_convert_utf16_to_str(const uint16_t *src, size_t src_length, uint8_t *dst, size_t dst_length);
/** @copydoc encoding_text_mem_convert_utf16_to_str_partial */
encoding_text_progress encoding_text_mem_convert_latin1_to_str_partial(const uint8_t *src, size_t src_length,
                                                                       uint8_t *dst, size_t dst_length);
/** @copydoc encoding_text_mem_convert_utf16_to_str_partial */
size_t encoding_text_mem_convert_latin1_to_str(const uint8_t *src, size_t src_length, uint8_t *dst, size_t dst_length);

/** @} */

/** @name UTF-8
 * @{ */

/** @param src,src_length the source, in bytes.
 * @return the length in bytes of the longest well-formed prefix */
size_t encoding_text_utf8_valid_up_to(const uint8_t *src, size_t src_length);

/** Converts the characters of the longest well-formed prefix to UTF-16, as many as fit.
 * @param src,src_length the source, in bytes.
 * @param dst,dst_length the destination, in code units.
 * @return how much was read and written */
encoding_text_progress encoding_text_convert_utf8_to_utf16_up_to_invalid(const uint8_t *src, size_t src_length,
                                                                         uint16_t *dst, size_t dst_length);

/** Converts a prefix of whole characters to UTF-8. Either all of src is read, or at most three bytes of dst are free.
 * @param src,src_length the source, in code units.
 * @param dst,dst_length the destination, in bytes.
 * @return how much was read and written */
encoding_text_progress encoding_text_convert_utf16_to_utf8_partial_inner(const uint16_t *src, size_t src_length,
                                                                         uint8_t *dst, size_t dst_length);

/** Converts the longest prefix of whole characters whose UTF-8 fits.
 * @param src,src_length the source, in code units.
 * @param dst,dst_length the destination, in bytes.
 * @return how much was read and written; ENCODING_TEXT_INVALID_ARGUMENT as both if src_length is 0 or dst_length > 3 */
encoding_text_progress encoding_text_convert_utf16_to_utf8_partial_tail(const uint16_t *src, size_t src_length,
                                                                        uint8_t *dst, size_t dst_length);

/** @} */

/** @name The streaming decoder (Encoding Standard, section 8.1.1)
 * @{ */

#define ENCODING_TEXT_DECODER_SIZE 4      /**< of encoding_text_utf8_decoder, in bytes */
#define ENCODING_TEXT_DECODER_ALIGNMENT 1 /**< of encoding_text_utf8_decoder, in bytes */

/** The state of a decoder between calls, in the caller's storage. The first `count` bytes of `pending`, one to three,
 * are an incomplete sequence, which a later call may complete; the bytes after them don't matter. With any other
 * contents (for example all zero) nothing is pending, as in a new decoder. */
typedef struct {
    uint8_t pending[3]; /**< an incomplete sequence */
    uint8_t count;      /**< its length in bytes */
} encoding_text_utf8_decoder;

/* The `result` of a decode call. */
#define ENCODING_TEXT_INPUT_EMPTY 0 /**< all of src is read; after the last call nothing is pending */
#define ENCODING_TEXT_OUTPUT_FULL 1 /**< the space left may be too short for the next character */
#define ENCODING_TEXT_MALFORMED 2   /**< the bytes read so far end with a malformed sequence; nothing is pending */

/** The result of a call of encoding_text_utf8_decoder, whose reports end where the call stopped reading. The calls of the
 * other two decoders return encoding_text_decoder_result, which has `read_after` too. */
typedef struct {
    size_t read;              /**< elements of the source */
    size_t written;           /**< elements of the destination */
    uint8_t result;           /**< ENCODING_TEXT_INPUT_EMPTY, ENCODING_TEXT_OUTPUT_FULL or ENCODING_TEXT_MALFORMED */
    uint8_t malformed_length; /**< length in bytes of the malformed sequence reported, 1 to 3, or 0 if none is */
} encoding_text_decode_result;

/** Initialises a decoder, with nothing pending. @param decoder storage with any contents */
void encoding_text_utf8_decoder_new(encoding_text_utf8_decoder *decoder);

/** @param decoder the decoder, in the caller's storage.
 * @return whether nothing is pending */
bool encoding_text_utf8_decoder_in_neutral_state(const encoding_text_utf8_decoder *decoder);

/** @param decoder the decoder, in the caller's storage.
 * @param byte_length how many bytes will follow.
 * @return the length of a destination that is large enough for the next byte_length bytes, in any number of calls: in
 * UTF-16 even if U+FFFD is written for each malformed sequence, in UTF-8 without that, and in UTF-8 with it. SIZE_MAX
 * if that length is SIZE_MAX or more. */
size_t encoding_text_utf8_decoder_max_utf16_buffer_length(const encoding_text_utf8_decoder *decoder,
                                                          size_t byte_length);
/** @copydoc encoding_text_utf8_decoder_max_utf16_buffer_length */
size_t encoding_text_utf8_decoder_max_utf8_buffer_length_without_replacement(const encoding_text_utf8_decoder *decoder,
                                                                             size_t byte_length);
/** @copydoc encoding_text_utf8_decoder_max_utf16_buffer_length */
size_t encoding_text_utf8_decoder_max_utf8_buffer_length(const encoding_text_utf8_decoder *decoder, size_t byte_length);

/** Decodes the next bytes. A malformed sequence is reported, and nothing is written for it: call again with the unread
 * bytes. If dst has space for two code units (four bytes in UTF-8) and src isn't empty, the call reads or reports.
 * @param decoder the decoder, in the caller's storage.
 * @param src,src_length the source, in bytes.
 * @param dst,dst_length the destination, in code units.
 * @param last whether no more will follow.
 * @return how much was read and written, and what ended the call */
encoding_text_decode_result encoding_text_utf8_decoder_decode_to_utf16(encoding_text_utf8_decoder *decoder,
                                                                       const uint8_t *src, size_t src_length,
                                                                       uint16_t *dst, size_t dst_length, bool last);
/** @copydoc encoding_text_utf8_decoder_decode_to_utf16 */
encoding_text_decode_result encoding_text_utf8_decoder_decode_to_utf8(encoding_text_utf8_decoder *decoder,
                                                                      const uint8_t *src, size_t src_length,
                                                                      uint8_t *dst, size_t dst_length, bool last);

/* The `kind` of a piece. */
#define ENCODING_TEXT_PIECE_TEXT 0        /**< the first `read` bytes of src are its longest well-formed prefix */
#define ENCODING_TEXT_PIECE_CHAR 1        /**< the pending bytes and the first `read` bytes are the UTF-8 of `character` */
#define ENCODING_TEXT_PIECE_MALFORMED 2   /**< the pending bytes and the first `read` bytes are a malformed sequence */
#define ENCODING_TEXT_PIECE_INPUT_EMPTY 3 /**< all of src is read */

/** The result of a borrowed call. */
typedef struct {
    size_t read;              /**< bytes of the source */
    uint32_t character;       /**< the scalar value of ENCODING_TEXT_PIECE_CHAR, or 0 with another kind */
    uint8_t kind;             /**< one of the four above */
    uint8_t malformed_length; /**< length in bytes of the malformed sequence, 1 to 3, or 0 with another kind */
} encoding_text_piece;

/** Decodes the next bytes without a destination.
 * @param decoder the decoder, in the caller's storage.
 * @param src,src_length the source, in bytes.
 * @param last whether no more will follow.
 * @return the first piece of them */
encoding_text_piece encoding_text_utf8_decoder_decode_borrowed(encoding_text_utf8_decoder *decoder, const uint8_t *src,
                                                               size_t src_length, bool last);

/** @} */

/** @name The streaming decoder of UTF-16LE and UTF-16BE (Encoding Standard, shared UTF-16 decoder)
 * @{ */

#define ENCODING_TEXT_UTF16_DECODER_SIZE 5      /**< of encoding_text_utf16_decoder, in bytes */
#define ENCODING_TEXT_UTF16_DECODER_ALIGNMENT 1 /**< of encoding_text_utf16_decoder, in bytes */

/** The state of a UTF-16 decoder between calls, in the caller's storage. The first `count` bytes of `pending`, one to
 * three, are a high surrogate, the first byte of a code unit, or both; the bytes after them don't matter. With any other
 * `pending` and `count` (for example all zero) nothing is pending, as in a new decoder. */
typedef struct {
    uint8_t pending[3]; /**< the start of a character */
    uint8_t count;      /**< its length in bytes */
    uint8_t big_endian; /**< 0 for UTF-16LE, any other number for UTF-16BE */
} encoding_text_utf16_decoder;

/** The result of a call of encoding_text_utf16_decoder, and of those calls of encoding_text_decoder that report. It has
 * `read_after`, which encoding_text_decode_result, that of encoding_text_utf8_decoder, has not. */
typedef struct {
    size_t read;              /**< elements of the source */
    size_t written;           /**< elements of the destination */
    uint8_t result;           /**< ENCODING_TEXT_INPUT_EMPTY, ENCODING_TEXT_OUTPUT_FULL or ENCODING_TEXT_MALFORMED */
    uint8_t malformed_length; /**< length in bytes of the malformed sequence reported, 1 to 3, or 0 if none is */
    uint8_t read_after;       /**< bytes read after the malformed sequence, 0 or 1: they stay pending */
} encoding_text_decoder_result;

/** Initialises a UTF-16 decoder, with nothing pending.
 * @param decoder storage with any contents.
 * @param big_endian whether the bytes are UTF-16BE, and not UTF-16LE */
void encoding_text_utf16_decoder_new(encoding_text_utf16_decoder *decoder, bool big_endian);

/** @param decoder the decoder, in the caller's storage.
 * @return whether nothing is pending */
bool encoding_text_utf16_decoder_in_neutral_state(const encoding_text_utf16_decoder *decoder);

/** @param decoder the decoder, in the caller's storage.
 * @param byte_length how many bytes will follow.
 * @return the length of a destination that is large enough for the next byte_length bytes, in any number of calls, even
 * if U+FFFD is written for each malformed sequence: with h half of byte_length, the pending bytes and one, h + 1 in
 * UTF-16 and 3 * h + 1 in UTF-8. SIZE_MAX if that length, or the sum that h is half of, is greater. */
size_t encoding_text_utf16_decoder_max_utf16_buffer_length(const encoding_text_utf16_decoder *decoder,
                                                           size_t byte_length);
/** @copydoc encoding_text_utf16_decoder_max_utf16_buffer_length */
size_t encoding_text_utf16_decoder_max_utf8_buffer_length_without_replacement(
    const encoding_text_utf16_decoder *decoder, size_t byte_length);
/** @copydoc encoding_text_utf16_decoder_max_utf16_buffer_length */
size_t encoding_text_utf16_decoder_max_utf8_buffer_length(const encoding_text_utf16_decoder *decoder,
                                                          size_t byte_length);

/** Decodes the next bytes. A malformed sequence is reported, and nothing is written for it: call again with the unread
 * bytes. It is an unpaired surrogate or, at the end of the input, all that is pending. If dst has space for two code
 * units (four bytes in UTF-8) and src isn't empty, the call reads or reports.
 * @param decoder the decoder, in the caller's storage.
 * @param src,src_length the source, in bytes.
 * @param dst,dst_length the destination, in code units.
 * @param last whether no more will follow.
 * @return how much was read and written, and what ended the call */
encoding_text_decoder_result encoding_text_utf16_decoder_decode_to_utf16(encoding_text_utf16_decoder *decoder,
                                                                              const uint8_t *src, size_t src_length,
                                                                              uint16_t *dst, size_t dst_length,
                                                                              bool last);
/** @copydoc encoding_text_utf16_decoder_decode_to_utf16 */
encoding_text_decoder_result encoding_text_utf16_decoder_decode_to_utf8(encoding_text_utf16_decoder *decoder,
                                                                             const uint8_t *src, size_t src_length,
                                                                             uint8_t *dst, size_t dst_length,
                                                                             bool last);

/** @} */

/** @name The streaming decoder with byte order marks and replacement (Encoding Standard, "decode")
 * encoding_text_decoder decodes UTF-8, UTF-16LE or UTF-16BE. encoding_text_utf8_decoder, above, decodes UTF-8 alone, and
 * the macros ENCODING_TEXT_DECODER_ are about that one.
 * @{ */

/* The `encoding` of a decoder. */
#define ENCODING_TEXT_UTF_8 0    /**< UTF-8 */
#define ENCODING_TEXT_UTF_16LE 1 /**< UTF-16LE */
#define ENCODING_TEXT_UTF_16BE 2 /**< UTF-16BE, as any greater number */

/* The `bom` of a decoder: which byte order marks it looks for at the start, and removes. */
#define ENCODING_TEXT_BOM_OFF 0    /**< none: U+FEFF is a character like any other */
#define ENCODING_TEXT_BOM_REMOVE 1 /**< that of its encoding */
#define ENCODING_TEXT_BOM_SNIFF 2  /**< that of any of the three, which decides the encoding; as any greater number */

#define ENCODING_TEXT_STREAM_DECODER_SIZE 6      /**< of encoding_text_decoder, in bytes */
#define ENCODING_TEXT_STREAM_DECODER_ALIGNMENT 1 /**< of encoding_text_decoder, in bytes */

/** The state of a decoder between calls, in the caller's storage. The first `count` bytes of `pending`, one to three, were
 * read and are still to be decoded; the bytes after them don't matter. While a mark is looked for they are the start of
 * one, and otherwise of a character. With any other `pending` and `count` (for example all zero) nothing is pending. */
typedef struct {
    uint8_t pending[3]; /**< bytes that are still to be decoded */
    uint8_t count;      /**< their number */
    uint8_t encoding;   /**< ENCODING_TEXT_UTF_8, ENCODING_TEXT_UTF_16LE or ENCODING_TEXT_UTF_16BE */
    uint8_t bom;        /**< ENCODING_TEXT_BOM_OFF (also after the start), _REMOVE or _SNIFF */
} encoding_text_decoder;

/** The result of a call that writes U+FFFD for each malformed sequence. */
typedef struct {
    size_t read;     /**< elements of the source */
    size_t written;  /**< elements of the destination */
    size_t replaced; /**< the number of malformed sequences that U+FFFD was written for */
    uint8_t result;  /**< ENCODING_TEXT_INPUT_EMPTY or ENCODING_TEXT_OUTPUT_FULL */
} encoding_text_coder_result;

/** A byte order mark. */
typedef struct {
    size_t length;    /**< its length in bytes, 2 or 3; 0 if there is none */
    uint8_t encoding; /**< its encoding; ENCODING_TEXT_UTF_8 if there is none */
} encoding_text_bom;

/** @param src,src_length the source, in bytes.
 * @return the byte order mark that src starts with (Encoding Standard, "BOM sniff") */
encoding_text_bom encoding_text_for_bom(const uint8_t *src, size_t src_length);

/** Initialises a decoder, with nothing pending.
 * @param decoder storage with any contents.
 * @param encoding the encoding unless a mark decides it.
 * @param bom which byte order marks are looked for */
void encoding_text_decoder_new(encoding_text_decoder *decoder, uint8_t encoding, uint8_t bom);

/** @param decoder the decoder, in the caller's storage.
 * @return its encoding: that of a mark, once one is read */
uint8_t encoding_text_decoder_encoding(const encoding_text_decoder *decoder);

/** @param decoder the decoder, in the caller's storage.
 * @return whether nothing is pending and no mark is looked for */
bool encoding_text_decoder_in_neutral_state(const encoding_text_decoder *decoder);

/** @param decoder the decoder, in the caller's storage.
 * @param byte_length how many bytes will follow.
 * @return the length of a destination that is large enough for the next byte_length bytes, in any number of calls: in
 * UTF-16 even if U+FFFD is written for each malformed sequence, in UTF-8 without that, and in UTF-8 with it. SIZE_MAX
 * if that length is SIZE_MAX or more. */
size_t encoding_text_decoder_max_utf16_buffer_length(const encoding_text_decoder *decoder, size_t byte_length);
/** @copydoc encoding_text_decoder_max_utf16_buffer_length */
size_t encoding_text_decoder_max_utf8_buffer_length_without_replacement(const encoding_text_decoder *decoder,
                                                                        size_t byte_length);
/** @copydoc encoding_text_decoder_max_utf16_buffer_length */
size_t encoding_text_decoder_max_utf8_buffer_length(const encoding_text_decoder *decoder, size_t byte_length);

/** @param decoder the decoder, in the caller's storage.
 * @param src,src_length the bytes that will follow.
 * @return the length of their longest ASCII prefix, each byte of which decodes to one character;
 * ENCODING_TEXT_INVALID_ARGUMENT unless the encoding is UTF-8, nothing is pending and no mark is looked for */
size_t encoding_text_decoder_latin1_byte_compatible_up_to(const encoding_text_decoder *decoder, const uint8_t *src,
                                                          size_t src_length);

/** Decodes the pending bytes and then src, with U+FFFD for each malformed sequence. Only whole characters are written. If
 * dst has space for two code units (four bytes in UTF-8) and src isn't empty, the call reads or writes: characters of the
 * pending bytes may take the space, and then nothing of src is read. With less space left, a character of pending bytes or
 * U+FFFD may wait for the next call though it fits. A call that ends with ENCODING_TEXT_OUTPUT_FULL, and reads and writes
 * nothing, leaves the decoder as it was.
 * @param decoder the decoder, in the caller's storage.
 * @param src,src_length the source, in bytes.
 * @param dst,dst_length the destination, in code units.
 * @param last whether no more will follow.
 * @return how much was read, written and replaced, and what ended the call */
encoding_text_coder_result encoding_text_decoder_decode_to_utf16(encoding_text_decoder *decoder, const uint8_t *src,
                                                                 size_t src_length, uint16_t *dst, size_t dst_length,
                                                                 bool last);
/** @copydoc encoding_text_decoder_decode_to_utf16 */
encoding_text_coder_result encoding_text_decoder_decode_to_utf8(encoding_text_decoder *decoder, const uint8_t *src,
                                                                size_t src_length, uint8_t *dst, size_t dst_length,
                                                                bool last);

/** Decodes the pending bytes and then src. A malformed sequence is reported, and nothing is written for it: call again with
 * the unread bytes. If dst has space for two code units (four bytes in UTF-8) and src isn't empty, the call reads, writes
 * or reports: characters of the pending bytes may take the space, and then nothing of src is read. With less space left, a
 * character of pending bytes or a report may wait for the next call though it fits. A call that ends with
 * ENCODING_TEXT_OUTPUT_FULL, and reads and writes nothing, leaves the decoder as it was.
 * @param decoder the decoder, in the caller's storage.
 * @param src,src_length the source, in bytes.
 * @param dst,dst_length the destination, in code units.
 * @param last whether no more will follow.
 * @return how much was read and written, and what ended the call */
encoding_text_decoder_result encoding_text_decoder_decode_to_utf16_without_replacement(encoding_text_decoder *decoder,
                                                                                       const uint8_t *src,
                                                                                       size_t src_length, uint16_t *dst,
                                                                                       size_t dst_length, bool last);
/** @copydoc encoding_text_decoder_decode_to_utf16_without_replacement */
encoding_text_decoder_result encoding_text_decoder_decode_to_utf8_without_replacement(encoding_text_decoder *decoder,
                                                                                      const uint8_t *src,
                                                                                      size_t src_length, uint8_t *dst,
                                                                                      size_t dst_length, bool last);

/** @} */

/** @name The streaming encoder (Encoding Standard, section 8.1.2)
 * @{ */

#define ENCODING_TEXT_ENCODER_SIZE 2      /**< of encoding_text_utf8_encoder, in bytes */
#define ENCODING_TEXT_ENCODER_ALIGNMENT 2 /**< of encoding_text_utf8_encoder, in bytes */

/** The state of an encoder between calls, in the caller's storage. If `surrogate` isn't a high surrogate (for example in
 * storage that is all zero), no surrogate is pending, as in a new encoder. */
typedef struct {
    uint16_t surrogate; /**< the pending surrogate: a high one that ended a call, and whose low one may follow */
} encoding_text_utf8_encoder;

/** The result of an encode call. `result` is ENCODING_TEXT_INPUT_EMPTY if all of src is read, and all but a pending
 * surrogate is written. It is ENCODING_TEXT_OUTPUT_FULL if the next character doesn't fit, and
 * ENCODING_TEXT_INVALID_ARGUMENT_U8 if a text isn't well-formed. */
typedef struct {
    size_t read;    /**< elements of the source */
    size_t written; /**< bytes of the destination */
    uint8_t result; /**< what ended the call */
} encoding_text_encode_result;

/** Initialises an encoder, with no surrogate pending. @param encoder storage with any contents */
void encoding_text_utf8_encoder_new(encoding_text_utf8_encoder *encoder);

/** @param encoder the encoder, in the caller's storage.
 * @param u16_length how many code units will follow.
 * @return the length in bytes of a destination that is large enough for the pending surrogate and the next u16_length
 * code units, or byte_length bytes of text. SIZE_MAX if that length is SIZE_MAX or more. */
size_t encoding_text_utf8_encoder_max_buffer_length_from_utf16_without_replacement(
    const encoding_text_utf8_encoder *encoder, size_t u16_length);

/** @param encoder the encoder, in the caller's storage.
 * @param byte_length how many bytes will follow.
 * @return the length in bytes of a destination that is large enough for the pending surrogate and the next u16_length
 * code units, or byte_length bytes of text. SIZE_MAX if that length is SIZE_MAX or more. */
size_t encoding_text_utf8_encoder_max_buffer_length_from_utf8_without_replacement(
    const encoding_text_utf8_encoder *encoder, size_t byte_length);

/** Encodes the next code units. A high surrogate at the end of a call that isn't marked last stays pending, since its
 * low surrogate may follow. Any other unpaired surrogate becomes U+FFFD. Only whole characters are written.
 * @param encoder the encoder, in the caller's storage.
 * @param src,src_length the source, in code units.
 * @param dst,dst_length the destination, in bytes.
 * @param last whether no more will follow.
 * @return how much was read and written, and what ended the call */
encoding_text_encode_result encoding_text_utf8_encoder_encode_from_utf16(encoding_text_utf8_encoder *encoder,
                                                                         const uint16_t *src, size_t src_length,
                                                                         uint8_t *dst, size_t dst_length, bool last);

/** Writes U+FFFD for a pending surrogate, then the text; `read` counts only bytes of the text. `last` has no effect:
 * any call writes U+FFFD, even if the text is empty, and the surrogate stays pending only if U+FFFD doesn't fit. If src
 * isn't well-formed, the surrogate stays pending.
 * @param encoder the encoder, in the caller's storage.
 * @param src,src_length the source, in bytes.
 * @param dst,dst_length the destination, in bytes.
 * @param last whether no more will follow.
 * @return how much was read and written, and what ended the call */
encoding_text_encode_result encoding_text_utf8_encoder_encode_from_utf8(encoding_text_utf8_encoder *encoder,
                                                                        const uint8_t *src, size_t src_length,
                                                                        uint8_t *dst, size_t dst_length, bool last);

/** Encodes as encoding_text_utf8_encoder_encode_from_utf16 does, and counts the unpaired surrogates that are replaced with
 * U+FFFD. One that became pending in an earlier call counts in the call that replaces it.
 * @param encoder the encoder, in the caller's storage.
 * @param src,src_length the source, in code units.
 * @param dst,dst_length the destination, in bytes.
 * @param last whether no more will follow.
 * @return how much was read, written and replaced, and what ended the call */
encoding_text_coder_result encoding_text_utf8_encoder_encode_from_utf16_with_count(encoding_text_utf8_encoder *encoder,
                                                                                   const uint16_t *src,
                                                                                   size_t src_length, uint8_t *dst,
                                                                                   size_t dst_length, bool last);

/** Encodes as encoding_text_utf8_encoder_encode_from_utf8 does. `replaced` is 1 if U+FFFD is written for a pending
 * surrogate, and else 0.
 * @param encoder the encoder, in the caller's storage.
 * @param src,src_length the source, in bytes.
 * @param dst,dst_length the destination, in bytes.
 * @param last whether no more will follow.
 * @return how much was read, written and replaced, and what ended the call: ENCODING_TEXT_INVALID_ARGUMENT_U8 if src isn't
 * well-formed */
encoding_text_coder_result encoding_text_utf8_encoder_encode_from_utf8_with_count(encoding_text_utf8_encoder *encoder,
                                                                                  const uint8_t *src,
                                                                                  size_t src_length, uint8_t *dst,
                                                                                  size_t dst_length, bool last);

/** @} */

/** @name Runs: a source in pieces of any length, a destination in spaces of any length
 * @{ */

#define ENCODING_TEXT_NO_CALL 3 /**< the `result` of a run without turns */

/** One call of a run. */
typedef struct {
    size_t take; /**< the length of its piece: all that is unread, if that is less */
    size_t room; /**< the length of its destination: all that is left, if that is less */
    bool last;   /**< whether it is marked last if its piece reaches the end of the source */
} encoding_text_turn;

/** A malformed sequence that a run reports. */
typedef struct {
    size_t place;   /**< the number of elements that the run wrote before it */
    uint8_t length; /**< its length in bytes, 1 to 3 */
} encoding_text_report;

/** The result of a run of a decoder. `result` is that of its last call, ENCODING_TEXT_NO_CALL without turns, or
 * ENCODING_TEXT_INVALID_ARGUMENT_U8 if reports_length < turns_length. */
typedef struct {
    size_t read;              /**< bytes of the source */
    size_t written;           /**< elements of the destination */
    size_t reports;           /**< the number of malformed sequences reported */
    uint8_t result;           /**< what ended the last call */
    uint8_t malformed_length; /**< length in bytes of the malformed sequence that did, or 0 if none did */
} encoding_text_decode_run_result;

/** Decodes src with one call for each turn, regardless of the results. A call gets the next unread bytes and the rest
 * of dst, each limited by its turn. Characters are written to dst, and malformed sequences to `reports`, which has an
 * element for each turn; the elements past the last report are unchanged. How the turns split src and dst doesn't
 * matter: what is written and reported are the first characters and malformed sequences of the pending bytes and src
 * together.
 *
 * 2 * src_length + 2 turns reach the end of src if each takes at least one byte, has space for two code units (four
 * bytes in UTF-8) and has `last` set. For that, dst_length has to be what
 * encoding_text_utf8_decoder_max_utf16_buffer_length
 * (encoding_text_utf8_decoder_max_utf8_buffer_length_without_replacement) returns.
 * @param decoder the decoder, in the caller's storage.
 * @param src,src_length the source, in bytes.
 * @param turns,turns_length the turns.
 * @param dst,dst_length the destination, in code units.
 * @param reports,reports_length the array for reports.
 * @return how much was read, written and reported, and what ended the last call */
encoding_text_decode_run_result encoding_text_run_to_utf16(encoding_text_utf8_decoder *decoder, const uint8_t *src,
                                                           size_t src_length, const encoding_text_turn *turns,
                                                           size_t turns_length, uint16_t *dst, size_t dst_length,
                                                           encoding_text_report *reports, size_t reports_length);
/** @copydoc encoding_text_run_to_utf16 */
encoding_text_decode_run_result encoding_text_run_to_utf8(encoding_text_utf8_decoder *decoder, const uint8_t *src,
                                                          size_t src_length, const encoding_text_turn *turns,
                                                          size_t turns_length, uint8_t *dst, size_t dst_length,
                                                          encoding_text_report *reports, size_t reports_length);

/** Encodes src with one call for each turn, regardless of the results. A piece is counted in code units. However the
 * turns split src, what is written is the UTF-8 of the first characters of the pending surrogate and src together, with
 * U+FFFD for each unpaired surrogate.
 *
 * 2 * src_length + 2 turns reach the end of src if each takes at least one code unit, has space for four bytes and has
 * `last` set. For that, dst_length has to be what
 * encoding_text_utf8_encoder_max_buffer_length_from_utf16_without_replacement returns.
 * @param encoder the encoder, in the caller's storage.
 * @param src,src_length the source, in code units.
 * @param turns,turns_length the turns.
 * @param dst,dst_length the destination, in bytes.
 * @return how much was read and written, and what ended the last call: ENCODING_TEXT_NO_CALL without turns */
encoding_text_encode_result encoding_text_run_from_utf16(encoding_text_utf8_encoder *encoder, const uint16_t *src,
                                                         size_t src_length, const encoding_text_turn *turns,
                                                         size_t turns_length, uint8_t *dst, size_t dst_length);

/** @} */

/** @name Malformed sequences
 * @{ */

/** A malformed sequence. */
typedef struct {
    size_t place;  /**< its index in src */
    size_t length; /**< its length in bytes, 1 to 3 */
} encoding_text_malformed_sequence;

/** @param src,src_length the source, in bytes.
 * @return the first malformed sequence of src (Encoding Standard, UTF-8 decoder): all bytes before it are well-formed.
 * If src is well-formed, `length` is 0 and `place` is src_length. Called again with the bytes from `place` + `length`
 * on, it finds the next one. An incomplete sequence at the end of src is malformed. */
encoding_text_malformed_sequence encoding_text_next_malformed(const uint8_t *src, size_t src_length);

/* Why a sequence is malformed (Unicode Standard, Table 3-7). */
#define ENCODING_TEXT_WELL_FORMED 0             /**< no sequence is malformed */
#define ENCODING_TEXT_UNEXPECTED_CONTINUATION 1 /**< a continuation byte that continues no sequence */
#define ENCODING_TEXT_DISALLOWED_BYTE 2         /**< a byte that is in no well-formed sequence: C0, C1, or F5 to FF */
#define ENCODING_TEXT_OVERLONG 3                /**< the start of an overlong form of three or four bytes */
#define ENCODING_TEXT_SURROGATE 4               /**< the start of a surrogate */
#define ENCODING_TEXT_TOO_LARGE 5               /**< the start of a value above U+10FFFF */
#define ENCODING_TEXT_TRUNCATED 6               /**< an incomplete sequence before a byte that is no continuation byte */
#define ENCODING_TEXT_INCOMPLETE_AT_END 7       /**< an incomplete sequence at the end of src */

/** A malformed sequence, and why it is malformed. */
typedef struct {
    size_t place;  /**< its index in src */
    size_t length; /**< its length in bytes, 1 to 3 */
    uint8_t kind;  /**< ENCODING_TEXT_UNEXPECTED_CONTINUATION to ENCODING_TEXT_INCOMPLETE_AT_END */
} encoding_text_malformation;

/** @param src,src_length the source, in bytes.
 * @return the first malformed sequence of src, as encoding_text_next_malformed, and why it is malformed. If src is
 * well-formed, `length` is 0, `place` is src_length and `kind` is ENCODING_TEXT_WELL_FORMED */
encoding_text_malformation encoding_text_next_malformation(const uint8_t *src, size_t src_length);

/** @} */

/** @name Malformed sequences of a stream
 * @{ */

#define ENCODING_TEXT_MALFORMED_SEARCH_SIZE 16     /**< of encoding_text_malformed_search, in bytes */
#define ENCODING_TEXT_MALFORMED_SEARCH_ALIGNMENT 8 /**< of encoding_text_malformed_search, in bytes */

/** The state of a search between blocks, in the caller's storage. The first `count` bytes of `pending`, one to three, are
 * an incomplete sequence; the bytes after them don't matter. With any other `pending` and `count` (for example all zero)
 * nothing is pending. */
typedef struct {
    uint64_t start;     /**< the offset of the first pending byte, or of the next byte if nothing is pending */
    uint8_t pending[3]; /**< the start of a character */
    uint8_t count;      /**< its length in bytes */
} encoding_text_malformed_search;

/** A malformed sequence of a stream, and why it is malformed. */
typedef struct {
    uint64_t offset; /**< the offset of its first byte from the start of the stream */
    uint8_t length;  /**< its length in bytes, 1 to 3 */
    uint8_t kind;    /**< ENCODING_TEXT_UNEXPECTED_CONTINUATION to ENCODING_TEXT_INCOMPLETE_AT_END */
} encoding_text_stream_malformation;

/** The result of a search of a block. */
typedef struct {
    size_t read;   /**< bytes of the block */
    size_t found;  /**< the number of malformed sequences that are stored */
    bool finished; /**< whether the whole block was read and, if none follows it, nothing is pending */
} encoding_text_search_block_result;

/** Initialises a search, with nothing pending.
 * @param search storage with any contents.
 * @param offset the offset of the next byte: 0 at the start of a stream */
void encoding_text_malformed_search_new(encoding_text_malformed_search *search, uint64_t offset);

/** Stores the malformed sequences of the next block of a stream, in order. If the call isn't finished, `found` is full:
 * call again with the unread bytes. An array of one element is enough to make progress. However the stream is split into
 * blocks and arrays, all calls store exactly the malformed sequences of the whole stream.
 * @param search the search, in the caller's storage.
 * @param src,src_length the source, in bytes.
 * @param found,found_length the array for the malformed sequences, in elements.
 * @param last whether no more will follow. Then an incomplete sequence at the end is malformed.
 * @return how much was read and stored; ENCODING_TEXT_INVALID_ARGUMENT as both, and not finished, if the offset of the
 * byte after src is greater than UINT64_MAX */
encoding_text_search_block_result encoding_text_search_block(encoding_text_malformed_search *search, const uint8_t *src,
                                                             size_t src_length,
                                                             encoding_text_stream_malformation *found,
                                                             size_t found_length, bool last);

/** @} */

/** @name Repair
 * @{ */

/** The result of a repair. */
typedef struct {
    size_t written;    /**< bytes; ENCODING_TEXT_INVALID_ARGUMENT if dst_length < 3 * src_length */
    uint64_t replaced; /**< the number of malformed sequences */
} encoding_text_repair_result;

/** Writes src with U+FFFD for each malformed sequence.
 * @param src,src_length the source, in bytes.
 * @param dst,dst_length the destination, in bytes.
 * @return the number of bytes written, and the number of malformed sequences */
encoding_text_repair_result encoding_text_repair_slice(const uint8_t *src, size_t src_length, uint8_t *dst,
                                                       size_t dst_length);

/** The result of a call that reads as much as fits. */
typedef struct {
    size_t read;     /**< bytes of the source */
    size_t written;  /**< bytes of the destination */
    size_t replaced; /**< the number of malformed sequences that U+FFFD was written for */
    bool finished;   /**< whether all was read and, if nothing follows it, nothing is pending */
} encoding_text_repair_block_result;

/** Writes the longest prefix of whole characters that fits, with U+FFFD for each malformed sequence. A destination of
 * encoding_text_repaired_utf8_length bytes is large enough for all of src.
 * @param src,src_length the source, in bytes.
 * @param dst,dst_length the destination, in bytes.
 * @return how much was read, written and replaced; `finished` is false if and only if dst is too short */
encoding_text_repair_block_result encoding_text_repair_slice_partial(const uint8_t *src, size_t src_length,
                                                                     uint8_t *dst, size_t dst_length);

/** Writes the next block of a stream with U+FFFD for each malformed sequence. `last` says that no block follows. The
 * decoder is new before the first block, and keeps the pending bytes between blocks. If the call isn't finished, fewer
 * than four bytes are free: call again with the unread bytes and more space. Four bytes are enough to make progress.
 * However the stream is split into blocks and spaces, the output is the repaired stream.
 * @param decoder the decoder, in the caller's storage.
 * @param src,src_length the source, in bytes.
 * @param dst,dst_length the destination, in bytes.
 * @param last whether no more will follow.
 * @return how much was read and written */
encoding_text_repair_block_result encoding_text_repair_block(encoding_text_utf8_decoder *decoder, const uint8_t *src,
                                                             size_t src_length, uint8_t *dst, size_t dst_length,
                                                             bool last);

/** @} */

#ifdef __cplusplus
}
#endif

#endif
