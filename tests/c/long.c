/*
 * Calls each function that takes a length with lengths above 2^32 - 1, whose low 32 bits are another valid length: a
 * length or a count of 32 bits anywhere on the way changes the result. C99 and mmap of Linux.
 *
 * A source of that length costs neither memory nor time. It is mapped and never written but for its first elements, so
 * all its pages are the system's one page of zeros. Most calls end at an element near its start, or return an error for
 * the other length. Those that read all of it read the same page from the cache. The last line is 'N passed, M failed'.
 */
#include "calls.h"

#include <stdio.h>
#include <stdlib.h>
#include <string.h>
#include <sys/mman.h>

#define FOUR_GIB ((size_t)1 << 32)
#define LOW 8 /* the low 32 bits of LONG */
#define LONG (FOUR_GIB + LOW)
#define STOP 10  /* the index of the element that ends a call: at least LOW */
#define SHORT 12 /* a length above LOW of the other argument */

static uint8_t *bytes;      /* a source */
static uint16_t *units;     /* the same memory */
static uint8_t *to_bytes;   /* a destination of another memory */
static uint16_t *to_units;  /* the same memory */

static void *map(size_t length)
{
    void *memory = mmap(NULL, length, PROT_READ | PROT_WRITE, MAP_PRIVATE | MAP_ANONYMOUS | MAP_NORESERVE, -1, 0);
    if (memory == MAP_FAILED) {
        perror("mmap");
        exit(1);
    }
    return memory;
}

/* The source with these bytes at STOP. It is ASCII without them. */
static const uint8_t *stops_at(const char *stop)
{
    memset(bytes, 'a', 64);
    memcpy(bytes + STOP, stop, strlen(stop));
    return bytes;
}

static const uint16_t *stops_at_unit(uint16_t stop)
{
    for (int i = 0; i < 64; i++) {
        units[i] = 'a';
    }
    units[STOP] = stop;
    return units;
}

static const uint8_t *ascii(void)
{
    return stops_at("");
}

static const uint16_t *ascii_units(void)
{
    return stops_at_unit('a');
}

static void ascii_prefixes(void)
{
    CHECK(prefix_is(encoding_text_validate_ascii(stops_at("\xFF"), LONG), STOP, 0xFF));
    CHECK(encoding_text_ascii_valid_up_to(stops_at("\xFF"), LONG) == STOP);
    CHECK(encoding_text_iso_2022_jp_ascii_valid_up_to(stops_at("\x1B"), LONG) == STOP);
    CHECK(prefix_is(encoding_text_ascii_to_ascii(stops_at("\xFF"), LONG, to_bytes, LONG), STOP, 0xFF));
    CHECK(prefix_is(encoding_text_ascii_to_ascii(ascii(), SHORT, to_bytes, LONG), SHORT, 0));
    CHECK(prefix_is(encoding_text_ascii_to_basic_latin(stops_at("\xFF"), LONG, to_units, LONG), STOP, 0xFF));
    CHECK(prefix_is(encoding_text_ascii_to_basic_latin(ascii(), SHORT, to_units, LONG), SHORT, 0));
    CHECK(prefix_is(encoding_text_basic_latin_to_ascii(stops_at_unit(0x100), LONG, to_bytes, LONG), STOP, 0x100));
    CHECK(prefix_is(encoding_text_basic_latin_to_ascii(ascii_units(), SHORT, to_bytes, LONG), SHORT, 0));
    CHECK(encoding_text_mem_copy_ascii_to_ascii(stops_at("\xFF"), LONG, to_bytes, LONG) == STOP);
    CHECK(encoding_text_mem_copy_ascii_to_ascii(ascii(), LONG, to_bytes, SHORT) == ENCODING_TEXT_INVALID_ARGUMENT);
    CHECK(encoding_text_mem_copy_ascii_to_basic_latin(stops_at("\xFF"), LONG, to_units, LONG) == STOP);
    CHECK(encoding_text_mem_copy_ascii_to_basic_latin(ascii(), LONG, to_units, SHORT) == ENCODING_TEXT_INVALID_ARGUMENT);
    CHECK(encoding_text_mem_copy_basic_latin_to_ascii(stops_at_unit(0x100), LONG, to_bytes, LONG) == STOP);
    CHECK(encoding_text_mem_copy_basic_latin_to_ascii(ascii_units(), LONG, to_bytes, SHORT)
          == ENCODING_TEXT_INVALID_ARGUMENT);
}

static void checks_of_buffers(void)
{
    CHECK(!encoding_text_mem_is_ascii(stops_at("\xFF"), LONG));
    CHECK(!encoding_text_mem_is_basic_latin(stops_at_unit(0x80), LONG));
    CHECK(!encoding_text_mem_is_utf8_latin1(stops_at("\xFF"), LONG));
    CHECK(!encoding_text_mem_is_utf16_latin1(stops_at_unit(0x100), LONG));
    CHECK(encoding_text_mem_utf8_latin1_up_to(stops_at("\xC4\x80"), LONG) == STOP);
    CHECK(encoding_text_mem_str_latin1_up_to(stops_at("\xFF"), LONG) == ENCODING_TEXT_INVALID_ARGUMENT);
    CHECK(encoding_text_mem_utf16_valid_up_to(stops_at_unit(0xD800), LONG) == STOP);
    CHECK(encoding_text_mem_is_utf8_bidi(stops_at("\xD7\x90"), LONG));
    CHECK(encoding_text_mem_is_utf16_bidi(stops_at_unit(0x5D0), LONG));
    CHECK(encoding_text_mem_check_utf8_for_latin1_and_bidi(stops_at("\xD7\x90"), LONG) == ENCODING_TEXT_BIDI);
    CHECK(encoding_text_mem_check_str_for_latin1_and_bidi(stops_at("\xFF"), LONG) == ENCODING_TEXT_INVALID_ARGUMENT_U8);
    CHECK(encoding_text_mem_check_utf16_for_latin1_and_bidi(stops_at_unit(0x5D0), LONG) == ENCODING_TEXT_BIDI);
    CHECK(!encoding_text_mem_is_str_latin1_unchecked(stops_at("\xC4\x80"), LONG));
    CHECK(encoding_text_mem_str_latin1_up_to_unchecked(stops_at("\xC4\x80"), LONG) == STOP);
    CHECK(encoding_text_mem_is_str_bidi_unchecked(stops_at("\xD7\x90"), LONG));
    CHECK(encoding_text_mem_check_str_for_latin1_and_bidi_unchecked(stops_at("\xD7\x90"), LONG) == ENCODING_TEXT_BIDI);
    CHECK(encoding_text_utf8_valid_up_to(stops_at("\xFF"), LONG) == STOP);
    CHECK(malformed_is(encoding_text_next_malformed(stops_at("\xFF"), LONG), STOP, 1));
    CHECK(malformation_is(encoding_text_next_malformation(stops_at("\xFF"), LONG), STOP, 1, ENCODING_TEXT_DISALLOWED_BYTE));
}

/* A source that is too long for the destination, and a destination of more than 4 GiB. */
#define REFUSES_AND_WRITES(name, src, dst) \
    CHECK(name(src(), LONG, dst, 3 * SHORT) == ENCODING_TEXT_INVALID_ARGUMENT); \
    CHECK(name(src(), SHORT, dst, LONG) == SHORT)
#define FILLS(name, src, dst) \
    CHECK(counts_are(name(src(), LONG, dst, SHORT), SHORT, SHORT)); \
    CHECK(counts_are(name(src(), SHORT, dst, LONG), SHORT, SHORT))

static void conversions(void)
{
    REFUSES_AND_WRITES(encoding_text_mem_convert_latin1_to_utf16, ascii, to_units);
    REFUSES_AND_WRITES(encoding_text_mem_convert_latin1_to_utf8, ascii, to_bytes);
    REFUSES_AND_WRITES(encoding_text_mem_decode_latin1, ascii, to_bytes);
    REFUSES_AND_WRITES(encoding_text_mem_convert_utf8_to_latin1_lossy, ascii, to_bytes);
    REFUSES_AND_WRITES(encoding_text_mem_encode_latin1, ascii, to_bytes);
    REFUSES_AND_WRITES(encoding_text_mem_convert_utf16_to_latin1_lossy, ascii_units, to_bytes);
    REFUSES_AND_WRITES(encoding_text_mem_convert_utf8_to_utf16, ascii, to_units);
    REFUSES_AND_WRITES(encoding_text_mem_convert_str_to_utf16, ascii, to_units);
    REFUSES_AND_WRITES(encoding_text_mem_convert_str_to_utf16_unchecked, ascii, to_units);
    REFUSES_AND_WRITES(encoding_text_mem_convert_utf16_to_utf8, ascii_units, to_bytes);
    REFUSES_AND_WRITES(encoding_text_mem_convert_utf16_to_str, ascii_units, to_bytes);
    REFUSES_AND_WRITES(encoding_text_mem_convert_latin1_to_str, ascii, to_bytes);
    CHECK(are_invalid(encoding_text_mem_convert_utf8_to_utf16_without_replacement(ascii(), LONG, to_units, SHORT)));
    CHECK(counts_are(encoding_text_mem_convert_utf8_to_utf16_without_replacement(ascii(), SHORT, to_units, LONG), SHORT, SHORT));
    FILLS(encoding_text_mem_convert_latin1_to_utf8_partial, ascii, to_bytes);
    FILLS(encoding_text_mem_convert_utf8_to_utf16_partial, ascii, to_units);
    FILLS(encoding_text_mem_convert_utf16_to_utf8_partial, ascii_units, to_bytes);
    FILLS(encoding_text_mem_convert_utf16_to_str_partial, ascii_units, to_bytes);
    FILLS(encoding_text_mem_convert_latin1_to_str_partial, ascii, to_bytes);
    FILLS(encoding_text_convert_utf8_to_utf16_up_to_invalid, ascii, to_units);
    CHECK(encoding_text_convert_utf16_to_utf8_partial_inner(ascii_units(), LONG, to_bytes, SHORT).read > LOW);
    CHECK(counts_are(encoding_text_convert_utf16_to_utf8_partial_inner(ascii_units(), SHORT, to_bytes, LONG), SHORT, SHORT));
    CHECK(counts_are(encoding_text_convert_utf16_to_utf8_partial_tail(ascii_units(), FOUR_GIB, to_bytes, 3), 3, 3));
    CHECK(are_invalid(encoding_text_convert_utf16_to_utf8_partial_tail(ascii_units(), 1, to_bytes, FOUR_GIB + 1)));
    CHECK(counts_are(encoding_text_decode_utf16le(ascii(), LONG, to_units, SHORT / 2), SHORT, SHORT / 2));
    CHECK(counts_are(encoding_text_decode_utf16le(ascii(), 2 * SHORT, to_units, LONG), 2 * SHORT, SHORT));
    CHECK(counts_are(encoding_text_decode_utf16be(ascii(), LONG, to_units, SHORT / 2), SHORT, SHORT / 2));
    CHECK(counts_are(encoding_text_decode_utf16be(ascii(), 2 * SHORT, to_units, LONG), 2 * SHORT, SHORT));
    CHECK(counts_are(encoding_text_encode_utf16le(ascii_units(), LONG, to_bytes, 2 * SHORT), SHORT, 2 * SHORT));
    CHECK(counts_are(encoding_text_encode_utf16le(ascii_units(), SHORT, to_bytes, LONG), SHORT, 2 * SHORT));
    CHECK(counts_are(encoding_text_encode_utf16be(ascii_units(), LONG, to_bytes, 2 * SHORT), SHORT, 2 * SHORT));
    CHECK(counts_are(encoding_text_encode_utf16be(ascii_units(), SHORT, to_bytes, LONG), SHORT, 2 * SHORT));
}

static bool counted_is(encoding_text_counted_progress counted, size_t read, size_t written, size_t replaced)
{
    return counted.read == read && counted.written == written && counted.replaced == replaced;
}

/* The calls that count what they replace, of code units whose eleventh is an unpaired surrogate. */
static void counted_calls(void)
{
    encoding_text_utf8_encoder encoder = encoder_with(0);
    const uint16_t *src = stops_at_unit(0xDC00);
    CHECK(counted_is(encoding_text_mem_convert_utf16_to_utf8_partial_with_count(src, LONG, to_bytes, STOP + 3), STOP + 1, STOP + 3, 1));
    CHECK(counted_is(encoding_text_mem_convert_utf16_to_utf8_partial_with_count(src, SHORT, to_bytes, LONG), SHORT, SHORT + 2, 1));
    CHECK(counted_is(encoding_text_mem_convert_utf16_to_str_partial_with_count(src, LONG, to_bytes, STOP + 3), STOP + 1, STOP + 3, 1));
    CHECK(counted_is(encoding_text_mem_convert_utf16_to_str_partial_with_count(src, SHORT, to_bytes, LONG), SHORT, SHORT + 2, 1));
    CHECK(coded_is(encoding_text_utf8_encoder_encode_from_utf16_with_count(&encoder, src, LONG, to_bytes, STOP + 3, true), STOP + 1,
                   STOP + 3, 1, ENCODING_TEXT_OUTPUT_FULL));
    CHECK(coded_is(encoding_text_utf8_encoder_encode_from_utf16_with_count(&encoder, src, SHORT, to_bytes, LONG, true), SHORT,
                   SHORT + 2, 1, ENCODING_TEXT_INPUT_EMPTY));
    CHECK(coded_is(encoding_text_utf8_encoder_encode_from_utf8_with_count(&encoder, ascii(), LONG, to_bytes, SHORT, true), SHORT, SHORT,
                   0, ENCODING_TEXT_OUTPUT_FULL));
    CHECK(coded_is(encoding_text_utf8_encoder_encode_from_utf8_with_count(&encoder, ascii(), SHORT, to_bytes, LONG, true), SHORT, SHORT,
                   0, ENCODING_TEXT_INPUT_EMPTY));
}

/* A search of a stream from 2^32 on, whose array is full at the first of two malformed bytes, and a bounded repair. */
static void searches_and_repairs(void)
{
    encoding_text_malformed_search search;
    encoding_text_stream_malformation found[2];
    encoding_text_search_block_result done;
    encoding_text_malformed_search_new(&search, FOUR_GIB);
    done = encoding_text_search_block(&search, stops_at("\xFF\xFF"), LONG, found, 1, true);
    CHECK(done.found == 1 && !done.finished && found[0].offset == FOUR_GIB + STOP && found[0].length == 1);
    encoding_text_malformed_search_new(&search, FOUR_GIB);
    done = encoding_text_search_block(&search, stops_at("\xFF"), LONG, found, 2, true);
    CHECK(done.found == 1 && done.finished && done.read == LONG && found[0].offset == FOUR_GIB + STOP);
    CHECK(block_is(encoding_text_repair_slice_partial(ascii(), LONG, to_bytes, SHORT), SHORT, SHORT, 0, false));
    CHECK(block_is(encoding_text_repair_slice_partial(ascii(), SHORT, to_bytes, LONG), SHORT, SHORT, 0, true));
    CHECK(block_is(encoding_text_repair_slice_partial(stops_at("\xFF"), LONG, to_bytes, STOP + 3), STOP + 1, STOP + 3, 1, false));
}

static void streams(void)
{
    encoding_text_utf8_decoder decoder = decoder_with(0, 0, 0, 0);
    encoding_text_utf8_encoder encoder = encoder_with(0);
    CHECK(encoding_text_utf8_decoder_max_utf16_buffer_length(&decoder, LONG) - FOUR_GIB
          == encoding_text_utf8_decoder_max_utf16_buffer_length(&decoder, LOW));
    CHECK(encoding_text_utf8_decoder_max_utf8_buffer_length_without_replacement(&decoder, LONG) - FOUR_GIB
          == encoding_text_utf8_decoder_max_utf8_buffer_length_without_replacement(&decoder, LOW));
    CHECK(encoding_text_utf8_decoder_max_utf8_buffer_length(&decoder, LONG) - 3 * FOUR_GIB
          == encoding_text_utf8_decoder_max_utf8_buffer_length(&decoder, LOW));
    CHECK(encoding_text_utf8_encoder_max_buffer_length_from_utf16_without_replacement(&encoder, LONG) - 3 * FOUR_GIB
          == encoding_text_utf8_encoder_max_buffer_length_from_utf16_without_replacement(&encoder, LOW));
    CHECK(encoding_text_utf8_encoder_max_buffer_length_from_utf8_without_replacement(&encoder, LONG) - FOUR_GIB
          == encoding_text_utf8_encoder_max_buffer_length_from_utf8_without_replacement(&encoder, LOW));
    CHECK(decoded_is(encoding_text_utf8_decoder_decode_to_utf16(&decoder, stops_at("\xFF"), LONG, to_units, LONG, true),
                     STOP + 1, STOP, ENCODING_TEXT_MALFORMED, 1));
    CHECK(decoded_is(encoding_text_utf8_decoder_decode_to_utf16(&decoder, ascii(), SHORT, to_units, LONG, true),
                     SHORT, SHORT, ENCODING_TEXT_INPUT_EMPTY, 0));
    CHECK(decoded_is(encoding_text_utf8_decoder_decode_to_utf8(&decoder, stops_at("\xFF"), LONG, to_bytes, LONG, true),
                     STOP + 1, STOP, ENCODING_TEXT_MALFORMED, 1));
    CHECK(decoded_is(encoding_text_utf8_decoder_decode_to_utf8(&decoder, ascii(), SHORT, to_bytes, LONG, true),
                     SHORT, SHORT, ENCODING_TEXT_INPUT_EMPTY, 0));
    CHECK(piece_is(encoding_text_utf8_decoder_decode_borrowed(&decoder, stops_at("\xFF"), LONG, true), STOP, 0,
                   ENCODING_TEXT_PIECE_TEXT, 0));
    CHECK(encoding_text_utf8_encoder_encode_from_utf16(&encoder, ascii_units(), LONG, to_bytes, 3 * SHORT, true).read > LOW);
    CHECK(encoded_is(encoding_text_utf8_encoder_encode_from_utf16(&encoder, ascii_units(), SHORT, to_bytes, LONG, true),
                     SHORT, SHORT, ENCODING_TEXT_INPUT_EMPTY));
    CHECK(encoded_is(encoding_text_utf8_encoder_encode_from_utf8(&encoder, stops_at("\xFF"), LONG, to_bytes, LONG, true),
                     0, 0, ENCODING_TEXT_INVALID_ARGUMENT_U8));
    CHECK(encoded_is(encoding_text_utf8_encoder_encode_from_utf8(&encoder, ascii(), SHORT, to_bytes, LONG, true),
                     SHORT, SHORT, ENCODING_TEXT_INPUT_EMPTY));
    CHECK(are_invalid((encoding_text_progress){encoding_text_repair_slice(ascii(), LONG, to_bytes, 3 * SHORT).written,
                                               ENCODING_TEXT_INVALID_ARGUMENT}));
    CHECK(repaired_is(encoding_text_repair_slice(ascii(), SHORT, to_bytes, LONG), SHORT, 0));
    CHECK(encoding_text_repair_block(&decoder, ascii(), LONG, to_bytes, 3 * SHORT, true).read > LOW);
    CHECK(block_is(encoding_text_repair_block(&decoder, ascii(), SHORT, to_bytes, LONG, true), SHORT, SHORT, 0, true));
}

static void utf16_streams(void)
{
    encoding_text_utf16_decoder decoder = utf16_decoder_with(0, 0, 0, 0, 0);
    const uint8_t *src = (const uint8_t *)stops_at_unit(0xDC00);

    CHECK(encoding_text_utf16_decoder_max_utf16_buffer_length(&decoder, LONG) - FOUR_GIB / 2
          == encoding_text_utf16_decoder_max_utf16_buffer_length(&decoder, LOW));
    CHECK(encoding_text_utf16_decoder_max_utf8_buffer_length(&decoder, LONG) - FOUR_GIB / 2 * 3
          == encoding_text_utf16_decoder_max_utf8_buffer_length(&decoder, LOW));
    CHECK(encoding_text_utf16_decoder_max_utf8_buffer_length_without_replacement(&decoder, LONG) - FOUR_GIB / 2 * 3
          == encoding_text_utf16_decoder_max_utf8_buffer_length_without_replacement(&decoder, LOW));
    CHECK(utf16_decoded_is(encoding_text_utf16_decoder_decode_to_utf16(&decoder, src, LONG, to_units, LONG, true),
                           2 * STOP + 2, STOP, ENCODING_TEXT_MALFORMED, 2, 0));
    CHECK(utf16_decoded_is(encoding_text_utf16_decoder_decode_to_utf8(&decoder, src, LONG, to_bytes, LONG, true),
                           2 * STOP + 2, STOP, ENCODING_TEXT_MALFORMED, 2, 0));
    src = (const uint8_t *)ascii_units();
    CHECK(utf16_decoded_is(encoding_text_utf16_decoder_decode_to_utf16(&decoder, src, 2 * SHORT, to_units, LONG, true),
                           2 * SHORT, SHORT, ENCODING_TEXT_INPUT_EMPTY, 0, 0));
    CHECK(utf16_decoded_is(encoding_text_utf16_decoder_decode_to_utf8(&decoder, src, 2 * SHORT, to_bytes, LONG, true),
                           2 * SHORT, SHORT, ENCODING_TEXT_INPUT_EMPTY, 0, 0));
}

static void marked_streams(void)
{
    encoding_text_decoder decoder = stream_decoder_with("", 0, ENCODING_TEXT_UTF_8, ENCODING_TEXT_BOM_OFF);
    encoding_text_decoder sniff = stream_decoder_with("", 0, ENCODING_TEXT_UTF_8, ENCODING_TEXT_BOM_SNIFF);

    CHECK(encoding_text_for_bom(stops_at(""), LONG).length == 0);
    memcpy(bytes, "\xEF\xBB\xBF", 3);
    CHECK(encoding_text_for_bom(bytes, FOUR_GIB + 1).length == 3);
    CHECK(encoding_text_decoder_max_utf16_buffer_length(&decoder, LONG) - FOUR_GIB
          == encoding_text_decoder_max_utf16_buffer_length(&decoder, LOW));
    CHECK(encoding_text_decoder_max_utf8_buffer_length_without_replacement(&decoder, LONG) - FOUR_GIB
          == encoding_text_decoder_max_utf8_buffer_length_without_replacement(&decoder, LOW));
    CHECK(encoding_text_decoder_max_utf8_buffer_length(&sniff, LONG) - 3 * FOUR_GIB
          == encoding_text_decoder_max_utf8_buffer_length(&sniff, LOW));
    CHECK(encoding_text_decoder_latin1_byte_compatible_up_to(&decoder, stops_at("\xFF"), LONG) == STOP);
    CHECK(coded_is(encoding_text_decoder_decode_to_utf16(&decoder, ascii(), LONG, to_units, SHORT, true), SHORT, SHORT, 0,
                   ENCODING_TEXT_OUTPUT_FULL));
    CHECK(coded_is(encoding_text_decoder_decode_to_utf16(&decoder, ascii(), SHORT, to_units, LONG, true), SHORT, SHORT, 0,
                   ENCODING_TEXT_INPUT_EMPTY));
    CHECK(encoding_text_decoder_decode_to_utf8(&decoder, ascii(), LONG, to_bytes, 3 * SHORT, false).read > LOW);
    CHECK(coded_is(encoding_text_decoder_decode_to_utf8(&decoder, ascii(), SHORT, to_bytes, LONG, true), SHORT, SHORT, 0,
                   ENCODING_TEXT_INPUT_EMPTY));
    CHECK(utf16_decoded_is(encoding_text_decoder_decode_to_utf16_without_replacement(&decoder, stops_at("\xFF"), LONG,
                                                                                     to_units, LONG, true),
                           STOP + 1, STOP, ENCODING_TEXT_MALFORMED, 1, 0));
    CHECK(utf16_decoded_is(encoding_text_decoder_decode_to_utf8_without_replacement(&decoder, stops_at("\xFF"), LONG,
                                                                                    to_bytes, LONG, true),
                           STOP + 1, STOP, ENCODING_TEXT_MALFORMED, 1, 0));
}

static void runs(void)
{
    const encoding_text_turn turn[] = {{SHORT, 3 * SHORT, true}};
    const encoding_text_turn long_turn[] = {{LONG, LONG, true}};
    encoding_text_report reports[1];
    encoding_text_utf8_decoder decoder = decoder_with(0, 0, 0, 0);
    encoding_text_utf8_encoder encoder = encoder_with(0);
    encoding_text_turn *turns = (encoding_text_turn *)map((FOUR_GIB + 1) * sizeof *turns);
    CHECK(encoding_text_run_to_utf16(&decoder, ascii(), LONG, turn, 1, to_units, LONG, reports, 1).read == SHORT);
    CHECK(encoding_text_run_to_utf8(&decoder, ascii(), LONG, turn, 1, to_bytes, LONG, reports, 1).read == SHORT);
    CHECK(encoded_is(encoding_text_run_from_utf16(&encoder, ascii_units(), LONG, turn, 1, to_bytes, LONG), SHORT, SHORT,
                     ENCODING_TEXT_INPUT_EMPTY));
    CHECK(encoding_text_run_to_utf16(&decoder, ascii(), SHORT, long_turn, 1, to_units, LONG, reports, 1).written == SHORT);
    CHECK(encoding_text_run_to_utf8(&decoder, ascii(), SHORT, long_turn, 1, to_bytes, LONG, reports, 1).written == SHORT);
    CHECK(encoding_text_run_from_utf16(&encoder, ascii_units(), SHORT, long_turn, 1, to_bytes, LONG).written == SHORT);
    CHECK(encoding_text_run_to_utf16(&decoder, ascii(), SHORT, turns, FOUR_GIB + 1, to_units, LONG, reports, 1).result
          == ENCODING_TEXT_INVALID_ARGUMENT_U8);
    CHECK(encoding_text_run_to_utf8(&decoder, ascii(), SHORT, turns, FOUR_GIB + 1, to_bytes, LONG, reports, 1).result
          == ENCODING_TEXT_INVALID_ARGUMENT_U8);
    /* the memory of the turns is long enough for as many reports */
    CHECK(encoding_text_run_to_utf16(&decoder, ascii(), SHORT, turn, 1, to_units, LONG, (encoding_text_report *)turns, FOUR_GIB)
              .read == SHORT);
    CHECK(encoding_text_run_to_utf8(&decoder, ascii(), SHORT, turn, 1, to_bytes, LONG, (encoding_text_report *)turns, FOUR_GIB)
              .read == SHORT);
}

/* Results above 2^32 - 1, of functions that read all. What was written before is zero again. */
static void results(void)
{
    memset(bytes, 0, 128);
    CHECK(prefix_is(encoding_text_validate_ascii(bytes, LONG), LONG, 0));
    CHECK(encoding_text_ascii_valid_up_to(bytes, LONG) == LONG);
    CHECK(encoding_text_iso_2022_jp_ascii_valid_up_to(bytes, LONG) == LONG);
    CHECK(encoding_text_mem_utf8_latin1_up_to(bytes, LONG) == LONG);
    CHECK(encoding_text_mem_str_latin1_up_to(bytes, LONG) == LONG);
    CHECK(encoding_text_mem_str_latin1_up_to_unchecked(bytes, LONG) == LONG);
    CHECK(encoding_text_mem_utf16_valid_up_to(units, LONG) == LONG);
    CHECK(encoding_text_mem_utf16_length_from_utf8(bytes, LONG) == LONG);
    CHECK(encoding_text_mem_utf8_length_from_utf16(units, LONG) == LONG);
    CHECK(encoding_text_mem_utf8_length_from_latin1(bytes, LONG) == LONG);
    CHECK(encoding_text_mem_latin1_length_from_utf8(bytes, LONG) == LONG);
    CHECK(encoding_text_utf8_valid_up_to(bytes, LONG) == LONG);
    CHECK(encoding_text_mem_latin1_length_from_utf8_unchecked(bytes, LONG) == LONG);
    CHECK(encoding_text_mem_utf16_length_from_utf8_unchecked(bytes, LONG) == LONG);
    CHECK(encoding_text_utf8_count_unchecked(bytes, LONG) == LONG);
    CHECK(encoding_text_utf8_count(bytes, LONG) == LONG);
    CHECK(encoding_text_mem_latin1_length_from_utf8_unchecked(bytes, LONG) == LONG);
    CHECK(encoding_text_mem_utf16_length_from_utf8_unchecked(bytes, LONG) == LONG);
    CHECK(encoding_text_utf8_count_unchecked(bytes, LONG) == LONG);
    CHECK(encoding_text_utf16_count(units, LONG) == LONG);
    CHECK(encoding_text_repaired_utf8_length(bytes, LONG) == LONG);
    CHECK(malformed_is(encoding_text_next_malformed(bytes, LONG), LONG, 0));
    CHECK(malformation_is(encoding_text_next_malformation(bytes, LONG), LONG, 0, ENCODING_TEXT_WELL_FORMED));
    units[LONG - 1] = 0xD800;
    encoding_text_mem_ensure_utf16_validity(units, LONG);
    CHECK(units[LONG - 1] == 0xFFFD);
}

int main(void)
{
    bytes = (uint8_t *)map(2 * LONG);
    units = (uint16_t *)(void *)bytes;
    to_bytes = (uint8_t *)map(2 * LONG);
    to_units = (uint16_t *)(void *)to_bytes;
    ascii_prefixes();
    checks_of_buffers();
    conversions();
    counted_calls();
    searches_and_repairs();
    streams();
    utf16_streams();
    marked_streams();
    runs();
    results();
    return finish();
}
