/*
 * Calls each function with an empty source, an empty destination, or both, whose pointers may be NULL. C99 and C++17.
 */
#include "calls.h"

static void checks_of_no_elements(const uint8_t *bytes, const uint16_t *units)
{
    CHECK(prefix_is(encoding_text_validate_ascii(bytes, 0), 0, 0));
    CHECK(encoding_text_ascii_valid_up_to(bytes, 0) == 0 && encoding_text_iso_2022_jp_ascii_valid_up_to(bytes, 0) == 0);
    CHECK(encoding_text_mem_is_ascii(bytes, 0) && encoding_text_mem_is_basic_latin(units, 0));
    CHECK(encoding_text_mem_is_utf8_latin1(bytes, 0) && encoding_text_mem_is_utf16_latin1(units, 0));
    CHECK(encoding_text_mem_utf8_latin1_up_to(bytes, 0) == 0 && encoding_text_mem_str_latin1_up_to(bytes, 0) == 0);
    CHECK(encoding_text_mem_utf16_valid_up_to(units, 0) == 0 && encoding_text_utf8_valid_up_to(bytes, 0) == 0);
    CHECK(malformed_is(encoding_text_next_malformed(bytes, 0), 0, 0));
    CHECK(malformation_is(encoding_text_next_malformation(bytes, 0), 0, 0, ENCODING_TEXT_WELL_FORMED));
    CHECK(encoding_text_mem_utf16_length_from_utf8(bytes, 0) == 0);
    CHECK(encoding_text_mem_utf8_length_from_utf16(units, 0) == 0);
    CHECK(encoding_text_mem_utf8_length_from_latin1(bytes, 0) == 0);
    CHECK(encoding_text_mem_latin1_length_from_utf8(bytes, 0) == 0);
    CHECK(encoding_text_utf8_count(bytes, 0) == 0 && encoding_text_utf16_count(units, 0) == 0);
    CHECK(encoding_text_repaired_utf8_length(bytes, 0) == 0);
    CHECK(!encoding_text_mem_is_utf8_bidi(bytes, 0) && !encoding_text_mem_is_utf16_bidi(units, 0));
    CHECK(encoding_text_mem_check_utf8_for_latin1_and_bidi(bytes, 0) == ENCODING_TEXT_LATIN1);
    CHECK(encoding_text_mem_check_str_for_latin1_and_bidi(bytes, 0) == ENCODING_TEXT_LATIN1);
    CHECK(encoding_text_mem_check_utf16_for_latin1_and_bidi(units, 0) == ENCODING_TEXT_LATIN1);
    CHECK(encoding_text_mem_is_str_latin1_unchecked(bytes, 0) && !encoding_text_mem_is_str_bidi_unchecked(bytes, 0));
    CHECK(encoding_text_mem_str_latin1_up_to_unchecked(bytes, 0) == 0);
    CHECK(encoding_text_mem_latin1_length_from_utf8_unchecked(bytes, 0) == 0);
    CHECK(encoding_text_mem_utf16_length_from_utf8_unchecked(bytes, 0) == 0 && encoding_text_utf8_count_unchecked(bytes, 0) == 0);
    CHECK(encoding_text_mem_check_str_for_latin1_and_bidi_unchecked(bytes, 0) == ENCODING_TEXT_LATIN1);
}

/* With a destination of `room` elements, which may be 0. */
static void sources_of_no_elements(const uint8_t *bytes, const uint16_t *units, uint8_t *to_bytes, uint16_t *to_units,
                                   size_t room)
{
    CHECK(prefix_is(encoding_text_ascii_to_ascii(bytes, 0, to_bytes, room), 0, 0));
    CHECK(prefix_is(encoding_text_ascii_to_basic_latin(bytes, 0, to_units, room), 0, 0));
    CHECK(prefix_is(encoding_text_basic_latin_to_ascii(units, 0, to_bytes, room), 0, 0));
    CHECK(encoding_text_mem_copy_ascii_to_ascii(bytes, 0, to_bytes, room) == 0);
    CHECK(encoding_text_mem_copy_ascii_to_basic_latin(bytes, 0, to_units, room) == 0);
    CHECK(encoding_text_mem_copy_basic_latin_to_ascii(units, 0, to_bytes, room) == 0);
    CHECK(encoding_text_mem_convert_latin1_to_utf16(bytes, 0, to_units, room) == 0);
    CHECK(counts_are(encoding_text_mem_convert_latin1_to_utf8_partial(bytes, 0, to_bytes, room), 0, 0));
    CHECK(counts_are(encoding_text_decode_utf16le(bytes, 0, to_units, room), 0, 0));
    CHECK(counts_are(encoding_text_decode_utf16be(bytes, 0, to_units, room), 0, 0));
    CHECK(counts_are(encoding_text_encode_utf16le(units, 0, to_bytes, room), 0, 0));
    CHECK(counts_are(encoding_text_encode_utf16be(units, 0, to_bytes, room), 0, 0));
    CHECK(encoding_text_mem_convert_latin1_to_utf8(bytes, 0, to_bytes, room) == 0);
    CHECK(encoding_text_mem_decode_latin1(bytes, 0, to_bytes, room) == 0);
    CHECK(encoding_text_mem_encode_latin1(bytes, 0, to_bytes, room) == 0);
    CHECK(encoding_text_mem_convert_utf8_to_latin1_lossy(bytes, 0, to_bytes, room) == 0);
    CHECK(encoding_text_mem_convert_utf16_to_latin1_lossy(units, 0, to_bytes, room) == 0);
    CHECK(encoding_text_mem_convert_utf8_to_utf16(bytes, 0, to_units, room)
          == (room == 0 ? ENCODING_TEXT_INVALID_ARGUMENT : 0));
    CHECK(encoding_text_mem_convert_str_to_utf16(bytes, 0, to_units, room) == 0);
    CHECK(encoding_text_mem_convert_str_to_utf16_unchecked(bytes, 0, to_units, room) == 0);
    CHECK(counts_are(encoding_text_mem_convert_utf8_to_utf16_without_replacement(bytes, 0, to_units, room), 0, 0));
    CHECK(counts_are(encoding_text_mem_convert_utf16_to_utf8_partial(units, 0, to_bytes, room), 0, 0));
    CHECK(encoding_text_mem_convert_utf16_to_utf8(units, 0, to_bytes, room) == 0);
    CHECK(counts_are(encoding_text_mem_convert_utf16_to_str_partial(units, 0, to_bytes, room), 0, 0));
    CHECK(encoding_text_mem_convert_utf16_to_str(units, 0, to_bytes, room) == 0);
    CHECK(counts_are(encoding_text_convert_utf8_to_utf16_up_to_invalid(bytes, 0, to_units, room), 0, 0));
    CHECK(counts_are(encoding_text_convert_utf16_to_utf8_partial_inner(units, 0, to_bytes, room), 0, 0));
    CHECK(are_invalid(encoding_text_convert_utf16_to_utf8_partial_tail(units, 0, to_bytes, room)));
    CHECK(repaired_is(encoding_text_repair_slice(bytes, 0, to_bytes, room), 0, 0));
    CHECK(counts_are(encoding_text_mem_convert_utf8_to_utf16_partial(bytes, 0, to_units, room), 0, 0));
    CHECK(block_is(encoding_text_repair_slice_partial(bytes, 0, to_bytes, room), 0, 0, 0, true));
}

static void destinations_of_no_elements(uint8_t *to_bytes, uint16_t *to_units)
{
    const uint8_t bytes[] = {0x61, 0x62};
    const uint16_t units[] = {0x61, 0x62};

    encoding_text_mem_ensure_utf16_validity(to_units, 0);
    CHECK(prefix_is(encoding_text_ascii_to_ascii(ALL(bytes), to_bytes, 0), 0, 0));
    CHECK(prefix_is(encoding_text_ascii_to_basic_latin(ALL(bytes), to_units, 0), 0, 0));
    CHECK(prefix_is(encoding_text_basic_latin_to_ascii(ALL(units), to_bytes, 0), 0, 0));
    CHECK(encoding_text_mem_copy_ascii_to_ascii(ALL(bytes), to_bytes, 0) == ENCODING_TEXT_INVALID_ARGUMENT);
    CHECK(encoding_text_mem_copy_ascii_to_basic_latin(ALL(bytes), to_units, 0) == ENCODING_TEXT_INVALID_ARGUMENT);
    CHECK(encoding_text_mem_copy_basic_latin_to_ascii(ALL(units), to_bytes, 0) == ENCODING_TEXT_INVALID_ARGUMENT);
    CHECK(encoding_text_mem_convert_latin1_to_utf16(ALL(bytes), to_units, 0) == ENCODING_TEXT_INVALID_ARGUMENT);
    CHECK(counts_are(encoding_text_mem_convert_latin1_to_utf8_partial(ALL(bytes), to_bytes, 0), 0, 0));
    CHECK(encoding_text_mem_convert_latin1_to_utf8(ALL(bytes), to_bytes, 0) == ENCODING_TEXT_INVALID_ARGUMENT);
    CHECK(encoding_text_mem_decode_latin1(ALL(bytes), to_bytes, 0) == ENCODING_TEXT_INVALID_ARGUMENT);
    CHECK(encoding_text_mem_encode_latin1(ALL(bytes), to_bytes, 0) == ENCODING_TEXT_INVALID_ARGUMENT);
    CHECK(encoding_text_mem_convert_utf8_to_latin1_lossy(ALL(bytes), to_bytes, 0) == ENCODING_TEXT_INVALID_ARGUMENT);
    CHECK(encoding_text_mem_convert_utf16_to_latin1_lossy(ALL(units), to_bytes, 0) == ENCODING_TEXT_INVALID_ARGUMENT);
    CHECK(encoding_text_mem_convert_utf8_to_utf16(ALL(bytes), to_units, 0) == ENCODING_TEXT_INVALID_ARGUMENT);
    CHECK(encoding_text_mem_convert_str_to_utf16(ALL(bytes), to_units, 0) == ENCODING_TEXT_INVALID_ARGUMENT);
    CHECK(are_invalid(encoding_text_mem_convert_utf8_to_utf16_without_replacement(ALL(bytes), to_units, 0)));
    CHECK(counts_are(encoding_text_mem_convert_utf16_to_utf8_partial(ALL(units), to_bytes, 0), 0, 0));
    CHECK(encoding_text_mem_convert_utf16_to_utf8(ALL(units), to_bytes, 0) == ENCODING_TEXT_INVALID_ARGUMENT);
    CHECK(counts_are(encoding_text_mem_convert_utf16_to_str_partial(ALL(units), to_bytes, 0), 0, 0));
    CHECK(encoding_text_mem_convert_utf16_to_str(ALL(units), to_bytes, 0) == ENCODING_TEXT_INVALID_ARGUMENT);
    CHECK(counts_are(encoding_text_mem_convert_latin1_to_str_partial(ALL(bytes), to_bytes, 0), 0, 0));
    CHECK(encoding_text_mem_convert_latin1_to_str(ALL(bytes), to_bytes, 0) == ENCODING_TEXT_INVALID_ARGUMENT);
    CHECK(counts_are(encoding_text_convert_utf8_to_utf16_up_to_invalid(ALL(bytes), to_units, 0), 0, 0));
    CHECK(counts_are(encoding_text_convert_utf16_to_utf8_partial_inner(ALL(units), to_bytes, 0), 0, 0));
    CHECK(counts_are(encoding_text_convert_utf16_to_utf8_partial_tail(ALL(units), to_bytes, 0), 0, 0));
    CHECK(repaired_is(encoding_text_repair_slice(ALL(bytes), to_bytes, 0), ENCODING_TEXT_INVALID_ARGUMENT, 0));
    CHECK(counts_are(encoding_text_mem_convert_utf8_to_utf16_partial(ALL(bytes), to_units, 0), 0, 0));
    CHECK(block_is(encoding_text_repair_slice_partial(ALL(bytes), to_bytes, 0), 0, 0, 0, false));
}

/* The Latin1 calls into a text clear all of a short destination. */
static void texts_of_no_elements(const uint8_t *bytes, uint8_t *to_bytes)
{
    CHECK(counts_are(encoding_text_mem_convert_latin1_to_str_partial(bytes, 0, to_bytes, 0), 0, 0));
    CHECK(encoding_text_mem_convert_latin1_to_str(bytes, 0, to_bytes, 0) == 0);
    CHECK(counts_are(encoding_text_mem_convert_latin1_to_str_partial(bytes, 0, fresh_bytes(), 4), 0, 0)
          && bytes_are(BYTES("\0\0\0\0")));
    CHECK(encoding_text_mem_convert_latin1_to_str(bytes, 0, fresh_bytes(), 4) == 0 && bytes_are(BYTES("\0\0\0\0")));
}

static void decoder_calls_of_no_elements(const uint8_t *bytes, uint8_t *to_bytes, uint16_t *to_units)
{
    const uint8_t letters[] = {0x61, 0x62};
    encoding_text_utf8_decoder decoder = decoder_with(0xE2, 0x98, 0, 2);

    CHECK(decoded_is(encoding_text_utf8_decoder_decode_to_utf16(&decoder, bytes, 0, to_units, 0, false),
                     0, 0, ENCODING_TEXT_INPUT_EMPTY, 0));
    CHECK(decoded_is(encoding_text_utf8_decoder_decode_to_utf8(&decoder, bytes, 0, to_bytes, 0, false),
                     0, 0, ENCODING_TEXT_INPUT_EMPTY, 0));
    CHECK(piece_is(encoding_text_utf8_decoder_decode_borrowed(&decoder, bytes, 0, false), 0, 0,
                   ENCODING_TEXT_PIECE_INPUT_EMPTY, 0));
    CHECK(block_is(encoding_text_repair_block(&decoder, bytes, 0, to_bytes, 0, true), 0, 0, 0, false));
    CHECK(pending_are(&decoder, BYTES("\xE2\x98")));
    CHECK(decoded_is(encoding_text_utf8_decoder_decode_to_utf16(&decoder, bytes, 0, to_units, 0, true),
                     0, 0, ENCODING_TEXT_MALFORMED, 2));
    CHECK(pending_are(&decoder, "", 0));
    CHECK(decoded_is(encoding_text_utf8_decoder_decode_to_utf16(&decoder, ALL(letters), to_units, 0, true),
                     0, 0, ENCODING_TEXT_OUTPUT_FULL, 0));
    CHECK(decoded_is(encoding_text_utf8_decoder_decode_to_utf8(&decoder, ALL(letters), to_bytes, 0, true),
                     0, 0, ENCODING_TEXT_OUTPUT_FULL, 0));
    CHECK(decoded_is(encoding_text_utf8_decoder_decode_to_utf16(&decoder, bytes, 0, fresh_units(), 4, true),
                     0, 0, ENCODING_TEXT_INPUT_EMPTY, 0));
    CHECK(decoded_is(encoding_text_utf8_decoder_decode_to_utf8(&decoder, bytes, 0, fresh_bytes(), 4, true),
                     0, 0, ENCODING_TEXT_INPUT_EMPTY, 0));
    CHECK(no_bytes_written() && no_units_written() && pending_are(&decoder, "", 0));
}

static void encoder_calls_of_no_elements(const uint8_t *bytes, const uint16_t *units, uint8_t *to_bytes)
{
    const uint8_t letters[] = {0x61, 0x62};
    const uint16_t letter_units[] = {0x61, 0x62};
    encoding_text_utf8_encoder encoder = encoder_with(0);

    CHECK(encoded_is(encoding_text_utf8_encoder_encode_from_utf16(&encoder, units, 0, to_bytes, 0, true),
                     0, 0, ENCODING_TEXT_INPUT_EMPTY));
    CHECK(encoded_is(encoding_text_utf8_encoder_encode_from_utf8(&encoder, bytes, 0, to_bytes, 0, true),
                     0, 0, ENCODING_TEXT_INPUT_EMPTY));
    CHECK(encoded_is(encoding_text_utf8_encoder_encode_from_utf16(&encoder, ALL(letter_units), to_bytes, 0, true),
                     0, 0, ENCODING_TEXT_OUTPUT_FULL));
    CHECK(encoded_is(encoding_text_utf8_encoder_encode_from_utf8(&encoder, ALL(letters), to_bytes, 0, true),
                     0, 0, ENCODING_TEXT_OUTPUT_FULL));
    encoder.surrogate = 0xD83D;
    CHECK(encoded_is(encoding_text_utf8_encoder_encode_from_utf16(&encoder, units, 0, to_bytes, 0, true),
                     0, 0, ENCODING_TEXT_OUTPUT_FULL));
    CHECK(encoded_is(encoding_text_utf8_encoder_encode_from_utf16(&encoder, units, 0, fresh_bytes(), 4, false),
                     0, 0, ENCODING_TEXT_INPUT_EMPTY));
    CHECK(no_bytes_written() && encoder.surrogate == 0xD83D);
    CHECK(encoded_is(encoding_text_utf8_encoder_encode_from_utf8(&encoder, bytes, 0, fresh_bytes(), 4, false),
                     0, 3, ENCODING_TEXT_INPUT_EMPTY));
    CHECK(bytes_are(BYTES("\xEF\xBF\xBD")) && is_new_encoder(encoder));
}

static void runs_of_no_elements(const uint8_t *bytes, const uint16_t *units, uint8_t *to_bytes, uint16_t *to_units)
{
    const encoding_text_turn turn[] = {{9, 9, true}};
    encoding_text_utf8_decoder decoder = decoder_with(0xE2, 0x98, 0, 2);
    encoding_text_utf8_encoder encoder = encoder_with(0xD83D);

    CHECK(outcome_is(encoding_text_run_to_utf16(&decoder, bytes, 0, NULL, 0, to_units, 0, NULL, 0), 0, 0, 0,
                     ENCODING_TEXT_NO_CALL, 0));
    CHECK(outcome_is(encoding_text_run_to_utf8(&decoder, bytes, 0, NULL, 0, to_bytes, 0, NULL, 0), 0, 0, 0,
                     ENCODING_TEXT_NO_CALL, 0));
    CHECK(outcome_is(encoding_text_run_to_utf16(&decoder, bytes, 0, turn, 1, to_units, 0, NULL, 0), 0, 0, 0,
                     ENCODING_TEXT_INVALID_ARGUMENT_U8, 0));
    CHECK(outcome_is(encoding_text_run_to_utf8(&decoder, bytes, 0, turn, 1, to_bytes, 0, NULL, 0), 0, 0, 0,
                     ENCODING_TEXT_INVALID_ARGUMENT_U8, 0));
    CHECK(pending_are(&decoder, BYTES("\xE2\x98")));
    CHECK(outcome_is(encoding_text_run_to_utf16(&decoder, bytes, 0, turn, 1, to_units, 0, fresh_reports(), 1), 0, 0, 1,
                     ENCODING_TEXT_MALFORMED, 2));
    CHECK(reports_are(1, 0, 2) && pending_are(&decoder, "", 0));
    CHECK(outcome_is(encoding_text_run_to_utf8(&decoder, bytes, 0, turn, 1, to_bytes, 0, fresh_reports(), 1), 0, 0, 0,
                     ENCODING_TEXT_INPUT_EMPTY, 0));
    CHECK(encoded_is(encoding_text_run_from_utf16(&encoder, units, 0, NULL, 0, to_bytes, 0), 0, 0,
                     ENCODING_TEXT_NO_CALL));
    CHECK(encoded_is(encoding_text_run_from_utf16(&encoder, units, 0, turn, 1, to_bytes, 0), 0, 0,
                     ENCODING_TEXT_OUTPUT_FULL));
    CHECK(reports_are(0) && encoder.surrogate == 0xD83D);
}

void buffers_of_no_elements(const uint8_t *bytes, const uint16_t *units, uint8_t *to_bytes, uint16_t *to_units)
{
    checks_of_no_elements(bytes, units);
    sources_of_no_elements(bytes, units, to_bytes, to_units, 0);
    sources_of_no_elements(bytes, units, fresh_bytes(), fresh_units(), 3);
    CHECK(no_bytes_written() && no_units_written());
    destinations_of_no_elements(to_bytes, to_units);
    texts_of_no_elements(bytes, to_bytes);
    decoder_calls_of_no_elements(bytes, to_bytes, to_units);
    utf16_calls_of_no_elements(bytes, to_bytes, to_units);
    stream_calls_of_no_elements(bytes, to_bytes, to_units);
    encoder_calls_of_no_elements(bytes, units, to_bytes);
    runs_of_no_elements(bytes, units, to_bytes, to_units);
}
