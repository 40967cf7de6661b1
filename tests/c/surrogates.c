/*
 * The calls from UTF-16 that count the unpaired surrogates they replace: rows of text_vectors' counted_rows. C99 and
 * C++17.
 */
#include "calls.h"

static bool counted_is(encoding_text_counted_progress counted, size_t read, size_t written, size_t replaced)
{
    return counted.read == read && counted.written == written && counted.replaced == replaced;
}

static void conversions(void)
{
    const uint16_t units[] = {0x61, 0xD800, 0x62, 0xDFFF, 0x63}, pair[] = {0xD83D, 0xD83D, 0xDCA9};

    CHECK(counted_is(encoding_text_mem_convert_utf16_to_utf8_partial_with_count(ALL(units), fresh_bytes(), 9), 5, 9, 2));
    CHECK(bytes_are(BYTES("a\xEF\xBF\xBD" "b\xEF\xBF\xBD" "c")));
    CHECK(counted_is(encoding_text_mem_convert_utf16_to_utf8_partial_with_count(ALL(units), fresh_bytes(), 4), 2, 4, 1));
    CHECK(bytes_are(BYTES("a\xEF\xBF\xBD")));
    CHECK(counted_is(encoding_text_mem_convert_utf16_to_utf8_partial_with_count(ALL(pair), fresh_bytes(), 7), 3, 7, 1));
    CHECK(counted_is(encoding_text_mem_convert_utf16_to_utf8_partial_with_count(NULL, 0, NULL, 0), 0, 0, 0));
}

static void conversions_into_texts(void)
{
    const uint16_t units[] = {0xDCA9, 0x61};
    const size_t none = ENCODING_TEXT_INVALID_ARGUMENT;
    uint8_t *dst = bytes_with(0, BYTES("\xE2\x98\xBA\xE2\x98\xBA"));

    CHECK(counted_is(encoding_text_mem_convert_utf16_to_str_partial_with_count(ALL(units), dst, 6), 2, 4, 1));
    CHECK(bytes_are(BYTES("\xEF\xBF\xBD" "a\0\0")));
    dst = bytes_with(0, BYTES("\xE2\x98"));
    CHECK(counted_is(encoding_text_mem_convert_utf16_to_str_partial_with_count(ALL(units), dst, 2), none, none, 0));
    CHECK(bytes_are(BYTES("\xE2\x98")));
}

static void pieces(void)
{
    const uint16_t high[] = {0xD83D}, others[] = {0xDCA9, 0xDC00, 0xD83D};
    const uint8_t text[] = {0x62}, malformed[] = {0xFF};
    encoding_text_utf8_encoder encoder = encoder_with(0);

    CHECK(coded_is(encoding_text_utf8_encoder_encode_from_utf16_with_count(&encoder, ALL(high), fresh_bytes(), 9, false),
                   1, 0, 0, ENCODING_TEXT_INPUT_EMPTY));
    CHECK(encoder.surrogate == 0xD83D);
    CHECK(coded_is(encoding_text_utf8_encoder_encode_from_utf16_with_count(&encoder, ALL(others), fresh_bytes(), 9, false),
                   3, 7, 1, ENCODING_TEXT_INPUT_EMPTY));
    CHECK(bytes_are(BYTES("\xF0\x9F\x92\xA9\xEF\xBF\xBD")) && encoder.surrogate == 0xD83D);
    CHECK(coded_is(encoding_text_utf8_encoder_encode_from_utf16_with_count(&encoder, NULL, 0, fresh_bytes(), 2, true), 0,
                   0, 0, ENCODING_TEXT_OUTPUT_FULL));
    CHECK(coded_is(encoding_text_utf8_encoder_encode_from_utf8_with_count(&encoder, ALL(malformed), fresh_bytes(), 9, true),
                   0, 0, 0, ENCODING_TEXT_INVALID_ARGUMENT_U8));
    CHECK(no_bytes_written() && encoder.surrogate == 0xD83D);
    CHECK(coded_is(encoding_text_utf8_encoder_encode_from_utf8_with_count(&encoder, ALL(text), fresh_bytes(), 9, true), 1,
                   4, 1, ENCODING_TEXT_INPUT_EMPTY));
    CHECK(bytes_are(BYTES("\xEF\xBF\xBD" "b")) && is_new_encoder(encoder));
    CHECK(coded_is(encoding_text_utf8_encoder_encode_from_utf16_with_count(&encoder, ALL(high), fresh_bytes(), 3, true), 1,
                   3, 1, ENCODING_TEXT_INPUT_EMPTY));
}

void surrogate_counts(void)
{
    conversions();
    conversions_into_texts();
    pieces();
}
