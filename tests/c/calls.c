/*
 * Calls every function of encoding_text.h with its preconditions met, and with each one violated at its bounds.
 * Compares each result, and the memory in and around each destination. C99 and C++17. Prints each failure; the last
 * line is `N passed, M failed`.
 */
#include "calls.h"

#include <string.h>

static void ascii_prefixes(void)
{
    const uint8_t text[] = {0x61, 0x62, 0xE4, 0x63};
    const uint16_t units[] = {0x61, 0x62, 0x263A};
    const uint8_t escape[] = {0x61, 0x1B, 0x62};

    CHECK(prefix_is(encoding_text_validate_ascii(ALL(text)), 2, 0xE4));
    CHECK(prefix_is(encoding_text_validate_ascii(text, 2), 2, 0));
    CHECK(encoding_text_ascii_valid_up_to(ALL(text)) == 2);
    CHECK(encoding_text_iso_2022_jp_ascii_valid_up_to(ALL(escape)) == 1);
    CHECK(prefix_is(encoding_text_ascii_to_ascii(ALL(text), fresh_bytes(), 4), 2, 0xE4) && bytes_are(BYTES("ab")));
    CHECK(prefix_is(encoding_text_ascii_to_ascii(ALL(text), fresh_bytes(), 1), 1, 0) && bytes_are(BYTES("a")));
    CHECK(prefix_is(encoding_text_ascii_to_basic_latin(ALL(text), fresh_units(), 4), 2, 0xE4)
          && units_are(2, 0x61, 0x62));
    CHECK(prefix_is(encoding_text_ascii_to_basic_latin(ALL(text), fresh_units(), 1), 1, 0) && units_are(1, 0x61));
    CHECK(prefix_is(encoding_text_basic_latin_to_ascii(ALL(units), fresh_bytes(), 4), 2, 0x263A)
          && bytes_are(BYTES("ab")));
    CHECK(prefix_is(encoding_text_basic_latin_to_ascii(ALL(units), fresh_bytes(), 2), 2, 0) && bytes_are(BYTES("ab")));
}

static void latin1_checks(void)
{
    const uint8_t ascii[] = {0x61, 0x7F};
    const uint8_t latin1[] = {0x61, 0xC3, 0xA4};
    const uint8_t beyond[] = {0xC3, 0xA4, 0xC4, 0x80};
    const uint8_t malformed[] = {0x61, 0xC3};
    const uint16_t ascii_units[] = {0x61, 0x7F};
    const uint16_t latin1_units[] = {0x61, 0xFF};
    const uint16_t beyond_units[] = {0x61, 0x0100};

    CHECK(encoding_text_mem_is_ascii(ALL(ascii)) && !encoding_text_mem_is_ascii(ALL(latin1)));
    CHECK(encoding_text_mem_is_basic_latin(ALL(ascii_units)) && !encoding_text_mem_is_basic_latin(ALL(latin1_units)));
    CHECK(encoding_text_mem_is_utf8_latin1(ALL(latin1)) && !encoding_text_mem_is_utf8_latin1(ALL(beyond)));
    CHECK(!encoding_text_mem_is_utf8_latin1(ALL(malformed)));
    CHECK(encoding_text_mem_is_utf16_latin1(ALL(latin1_units))
          && !encoding_text_mem_is_utf16_latin1(ALL(beyond_units)));
    CHECK(encoding_text_mem_utf8_latin1_up_to(ALL(beyond)) == 2
          && encoding_text_mem_utf8_latin1_up_to(ALL(malformed)) == 1);
    CHECK(encoding_text_mem_str_latin1_up_to(ALL(beyond)) == 2 && encoding_text_mem_str_latin1_up_to(ALL(latin1)) == 3);
    CHECK(encoding_text_mem_str_latin1_up_to(ALL(malformed)) == ENCODING_TEXT_INVALID_ARGUMENT);
}

static void surrogates(void)
{
    const uint16_t unpaired[] = {0x61, 0xD83D, 0x62};
    const uint16_t pair[] = {0x61, 0xD83D, 0xDCA9};
    const uint16_t mixed[] = {0xD83D, 0xD83D, 0xDCA9, 0xDCA9};
    uint16_t *buffer = fresh_units();

    CHECK(encoding_text_mem_utf16_valid_up_to(ALL(unpaired)) == 1 && encoding_text_mem_utf16_valid_up_to(ALL(pair)) == 3);
    memcpy(buffer, mixed, sizeof mixed);
    encoding_text_mem_ensure_utf16_validity(buffer, 4);
    CHECK(units_are(4, 0xFFFD, 0xD83D, 0xDCA9, 0xFFFD));
}

static void right_to_left_checks(void)
{
    const uint8_t latin1[] = {0x61, 0xC3, 0xA4};
    const uint8_t beyond[] = {0xC4, 0x80};
    const uint8_t malformed[] = {0x61, 0xC3};
    const uint8_t hebrew[] = {0x61, 0xD7, 0x90};
    const uint8_t u_fefe[] = {0xEF, 0xBB, 0xBE};
    const uint8_t u_feff[] = {0xEF, 0xBB, 0xBF};
    const uint8_t u_1e800[] = {0xF0, 0x9E, 0xA0, 0x80};
    const uint8_t u_10ffff[] = {0xF4, 0x8F, 0xBF, 0xBF};
    const uint16_t latin1_units[] = {0x61, 0xFF};
    const uint16_t hebrew_units[] = {0x61, 0x05D0};
    const uint16_t unpaired[] = {0x61, 0xD83D, 0x62};

    CHECK(encoding_text_mem_is_utf8_bidi(ALL(u_fefe)) && encoding_text_mem_is_utf8_bidi(ALL(u_1e800)));
    CHECK(!encoding_text_mem_is_utf8_bidi(ALL(u_feff)) && !encoding_text_mem_is_utf8_bidi(ALL(u_10ffff)));
    CHECK(encoding_text_mem_is_utf16_code_unit_bidi(0xD802) && !encoding_text_mem_is_utf16_code_unit_bidi(0xD801));
    CHECK(encoding_text_mem_is_utf8_bidi(ALL(hebrew)) && encoding_text_mem_is_utf8_bidi(ALL(malformed)));
    CHECK(!encoding_text_mem_is_utf8_bidi(ALL(latin1)));
    CHECK(encoding_text_mem_is_utf16_bidi(ALL(hebrew_units)) && !encoding_text_mem_is_utf16_bidi(ALL(latin1_units)));
    CHECK(encoding_text_mem_check_utf8_for_latin1_and_bidi(ALL(latin1)) == ENCODING_TEXT_LATIN1);
    CHECK(encoding_text_mem_check_utf8_for_latin1_and_bidi(ALL(beyond)) == ENCODING_TEXT_LEFT_TO_RIGHT);
    CHECK(encoding_text_mem_check_utf8_for_latin1_and_bidi(ALL(malformed)) == ENCODING_TEXT_BIDI);
    CHECK(encoding_text_mem_check_str_for_latin1_and_bidi(ALL(latin1)) == ENCODING_TEXT_LATIN1);
    CHECK(encoding_text_mem_check_str_for_latin1_and_bidi(ALL(beyond)) == ENCODING_TEXT_LEFT_TO_RIGHT);
    CHECK(encoding_text_mem_check_str_for_latin1_and_bidi(ALL(hebrew)) == ENCODING_TEXT_BIDI);
    CHECK(encoding_text_mem_check_str_for_latin1_and_bidi(ALL(malformed)) == ENCODING_TEXT_INVALID_ARGUMENT_U8);
    CHECK(encoding_text_mem_check_utf16_for_latin1_and_bidi(ALL(latin1_units)) == ENCODING_TEXT_LATIN1);
    CHECK(encoding_text_mem_check_utf16_for_latin1_and_bidi(ALL(unpaired)) == ENCODING_TEXT_LEFT_TO_RIGHT);
    CHECK(encoding_text_mem_check_utf16_for_latin1_and_bidi(ALL(hebrew_units)) == ENCODING_TEXT_BIDI);
}

static void known_texts(void)
{
    const uint8_t latin1[] = {0x61, 0xC3, 0xA4};
    const uint8_t beyond[] = {0xC3, 0xA4, 0xC4, 0x80};
    const uint8_t hebrew[] = {0x61, 0xD7, 0x90};

    CHECK(encoding_text_mem_is_str_latin1_unchecked(ALL(latin1)) && !encoding_text_mem_is_str_latin1_unchecked(ALL(beyond)));
    CHECK(encoding_text_mem_str_latin1_up_to_unchecked(ALL(latin1)) == 3);
    CHECK(encoding_text_mem_str_latin1_up_to_unchecked(ALL(beyond)) == 2);
    CHECK(encoding_text_mem_is_str_bidi_unchecked(ALL(hebrew)) && !encoding_text_mem_is_str_bidi_unchecked(ALL(beyond)));
    CHECK(encoding_text_mem_check_str_for_latin1_and_bidi_unchecked(ALL(latin1)) == ENCODING_TEXT_LATIN1);
    CHECK(encoding_text_mem_check_str_for_latin1_and_bidi_unchecked(ALL(beyond)) == ENCODING_TEXT_LEFT_TO_RIGHT);
    CHECK(encoding_text_mem_check_str_for_latin1_and_bidi_unchecked(ALL(hebrew)) == ENCODING_TEXT_BIDI);
    CHECK(encoding_text_mem_convert_str_to_utf16_unchecked(ALL(latin1), fresh_units(), 2)
          == ENCODING_TEXT_INVALID_ARGUMENT && no_units_written());
    CHECK(encoding_text_mem_convert_str_to_utf16_unchecked(ALL(latin1), fresh_units(), 3) == 2
          && units_are(2, 0x61, 0xE4));
    CHECK(encoding_text_mem_latin1_length_from_utf8_unchecked(ALL(latin1)) == 2);
    CHECK(encoding_text_mem_utf16_length_from_utf8_unchecked(ALL(beyond)) == 2);
    CHECK(encoding_text_utf8_count_unchecked(ALL(hebrew)) == 2);
}

static void copies(void)
{
    const uint8_t text[] = {0x61, 0x62, 0xE4};
    const uint16_t units[] = {0x61, 0x62, 0xE4};

    CHECK(encoding_text_mem_copy_ascii_to_ascii(ALL(text), fresh_bytes(), 2) == ENCODING_TEXT_INVALID_ARGUMENT
          && no_bytes_written());
    CHECK(encoding_text_mem_copy_ascii_to_ascii(ALL(text), fresh_bytes(), 3) == 2 && bytes_are(BYTES("ab")));
    CHECK(encoding_text_mem_copy_ascii_to_basic_latin(ALL(text), fresh_units(), 2) == ENCODING_TEXT_INVALID_ARGUMENT
          && no_units_written());
    CHECK(encoding_text_mem_copy_ascii_to_basic_latin(ALL(text), fresh_units(), 3) == 2 && units_are(2, 0x61, 0x62));
    CHECK(encoding_text_mem_copy_basic_latin_to_ascii(ALL(units), fresh_bytes(), 2) == ENCODING_TEXT_INVALID_ARGUMENT
          && no_bytes_written());
    CHECK(encoding_text_mem_copy_basic_latin_to_ascii(ALL(units), fresh_bytes(), 3) == 2 && bytes_are(BYTES("ab")));
}

static void latin1_conversions(void)
{
    const uint8_t latin1[] = {0x61, 0xFF};
    const uint8_t text[] = {0x61, 0xC3, 0xA4};
    /* eight times U+00FF, a, U+0080, nine times U+00FF */
    const uint8_t long_text[] = {0xC3, 0xBF, 0xC3, 0xBF, 0xC3, 0xBF, 0xC3, 0xBF, 0xC3, 0xBF, 0xC3, 0xBF, 0xC3,
                                 0xBF, 0xC3, 0xBF, 0x61, 0xC2, 0x80, 0xC3, 0xBF, 0xC3, 0xBF, 0xC3, 0xBF, 0xC3,
                                 0xBF, 0xC3, 0xBF, 0xC3, 0xBF, 0xC3, 0xBF, 0xC3, 0xBF, 0xC3, 0xBF};
    const uint8_t beyond[] = {0xC4, 0x80};
    const uint8_t malformed[] = {0x61, 0xC3};
    const uint16_t units[] = {0x0100, 0x01E4};

    CHECK(encoding_text_mem_convert_latin1_to_utf16(ALL(latin1), fresh_units(), 1) == ENCODING_TEXT_INVALID_ARGUMENT
          && no_units_written());
    CHECK(encoding_text_mem_convert_latin1_to_utf16(ALL(latin1), fresh_units(), 2) == 2 && units_are(2, 0x61, 0xFF));
    CHECK(counts_are(encoding_text_mem_convert_latin1_to_utf8_partial(ALL(latin1), fresh_bytes(), 2), 1, 1)
          && bytes_are(BYTES("a")));
    CHECK(counts_are(encoding_text_mem_convert_latin1_to_utf8_partial(ALL(latin1), fresh_bytes(), 3), 2, 3));
    CHECK(bytes_are(BYTES("a\xC3\xBF")));
    CHECK(encoding_text_mem_convert_latin1_to_utf8(ALL(latin1), fresh_bytes(), 3) == ENCODING_TEXT_INVALID_ARGUMENT
          && no_bytes_written());
    CHECK(encoding_text_mem_convert_latin1_to_utf8(ALL(latin1), fresh_bytes(), 4) == 3
          && bytes_are(BYTES("a\xC3\xBF")));
    CHECK(encoding_text_mem_decode_latin1(ALL(latin1), fresh_bytes(), 2) == ENCODING_TEXT_INVALID_ARGUMENT
          && no_bytes_written());
    CHECK(encoding_text_mem_decode_latin1(ALL(latin1), fresh_bytes(), 3) == 3 && bytes_are(BYTES("a\xC3\xBF")));
    CHECK(encoding_text_mem_encode_latin1(ALL(text), fresh_bytes(), 1) == ENCODING_TEXT_INVALID_ARGUMENT
          && no_bytes_written());
    CHECK(encoding_text_mem_encode_latin1(ALL(text), fresh_bytes(), 2) == 2 && bytes_are(BYTES("a\xE4")));
    CHECK(encoding_text_mem_encode_latin1(ALL(long_text), fresh_bytes(), 18) == ENCODING_TEXT_INVALID_ARGUMENT
          && no_bytes_written());
    CHECK(encoding_text_mem_encode_latin1(ALL(long_text), fresh_bytes(), 19) == 19
          && bytes_are(BYTES("\xFF\xFF\xFF\xFF\xFF\xFF\xFF\xFF" "a\x80\xFF\xFF\xFF\xFF\xFF\xFF\xFF\xFF\xFF")));
    CHECK(encoding_text_mem_encode_latin1(ALL(beyond), fresh_bytes(), 9) == ENCODING_TEXT_INVALID_ARGUMENT
          && no_bytes_written());
    CHECK(encoding_text_mem_encode_latin1(ALL(malformed), fresh_bytes(), 9) == ENCODING_TEXT_INVALID_ARGUMENT
          && no_bytes_written());
    CHECK(encoding_text_mem_convert_utf8_to_latin1_lossy(ALL(text), fresh_bytes(), 2) == ENCODING_TEXT_INVALID_ARGUMENT
          && no_bytes_written());
    CHECK(encoding_text_mem_convert_utf8_to_latin1_lossy(ALL(beyond), fresh_bytes(), 9)
          == ENCODING_TEXT_INVALID_ARGUMENT && no_bytes_written());
    CHECK(encoding_text_mem_convert_utf8_to_latin1_lossy(ALL(malformed), fresh_bytes(), 9)
          == ENCODING_TEXT_INVALID_ARGUMENT && no_bytes_written());
    CHECK(encoding_text_mem_convert_utf8_to_latin1_lossy(ALL(text), fresh_bytes(), 3) == 2
          && bytes_are(BYTES("a\xE4")));
    CHECK(encoding_text_mem_convert_utf16_to_latin1_lossy(ALL(units), fresh_bytes(), 1)
          == ENCODING_TEXT_INVALID_ARGUMENT && no_bytes_written());
    CHECK(encoding_text_mem_convert_utf16_to_latin1_lossy(ALL(units), fresh_bytes(), 2) == 2
          && bytes_are(BYTES("\0\xE4")));
}

static void lengths(void)
{
    const uint8_t latin1[] = {0x61, 0x7F, 0x80, 0xFF};
    const uint8_t text[] = {0x61, 0xC3, 0xA4, 0xC2, 0x80};
    const uint8_t beyond[] = {0x61, 0xC4, 0x80};
    const uint8_t cut[] = {0x61, 0xC3};
    /* a, U+20AC, U+1F4A9, a truncated sequence of three bytes, an overlong form of two, a surrogate of three */
    const uint8_t bytes[] = {0x61, 0xE2, 0x82, 0xAC, 0xF0, 0x9F, 0x92, 0xA9, 0xF0, 0x9F, 0x92, 0xC0, 0x80, 0xED, 0xA0,
                             0x80};
    /* a, U+00E4, U+20AC, a pair, two unpaired surrogates */
    const uint16_t units[] = {0x61, 0xE4, 0x20AC, 0xD83D, 0xDCA9, 0xDCA9, 0xD83D};

    CHECK(encoding_text_mem_utf16_length_from_utf8(ALL(bytes)) == 10);
    CHECK(encoding_text_mem_utf16_length_from_utf8(ALL(cut)) == 2);
    CHECK(encoding_text_mem_utf8_length_from_utf16(ALL(units)) == 16);
    CHECK(encoding_text_mem_utf8_length_from_latin1(ALL(latin1)) == 6);
    CHECK(encoding_text_mem_latin1_length_from_utf8(ALL(text)) == 3);
    CHECK(encoding_text_mem_latin1_length_from_utf8(ALL(beyond)) == ENCODING_TEXT_INVALID_ARGUMENT);
    CHECK(encoding_text_mem_latin1_length_from_utf8(ALL(cut)) == ENCODING_TEXT_INVALID_ARGUMENT);
}

/* The Unicode Standard, Tables 3-8 and 3-11, and a surrogate pair between two unpaired surrogates. */
static void counts(void)
{
    const uint8_t overlong[] = {0xC0, 0xAF, 0xE0, 0x80, 0xBF, 0xF0, 0x81, 0x82, 0x41};
    const uint8_t truncated[] = {0xE1, 0x80, 0xE2, 0xF0, 0x91, 0x92, 0xF1, 0xBF, 0x41};
    const uint8_t text[] = {0x61, 0xC3, 0xA4, 0xF0, 0x9F, 0x92, 0xA9};
    const uint16_t units[] = {0xDCA9, 0xD83D, 0xDCA9, 0xD83D};

    CHECK(encoding_text_utf8_count(ALL(overlong)) == 9 && encoding_text_repaired_utf8_length(ALL(overlong)) == 25);
    CHECK(encoding_text_utf8_count(ALL(truncated)) == 5 && encoding_text_repaired_utf8_length(ALL(truncated)) == 13);
    CHECK(encoding_text_utf8_count(ALL(text)) == 3 && encoding_text_repaired_utf8_length(ALL(text)) == 7);
    CHECK(encoding_text_utf8_count_unchecked(ALL(text)) == 3);
    CHECK(encoding_text_mem_utf16_length_from_utf8_unchecked(ALL(text)) == 4);
    CHECK(encoding_text_utf16_count(ALL(units)) == 3);
}

/* The examples of UTF-16BE and UTF-16LE in the Unicode Standard, section 3.10, and a byte after one of them. */
static void utf_16_bytes(void)
{
    const uint16_t units[] = {0x004D, 0x0430, 0x4E8C, 0xD800, 0xDF02};
    const uint8_t big[] = {0x00, 0x4D, 0x04, 0x30, 0x4E, 0x8C, 0xD8, 0x00, 0xDF, 0x02};
    const uint8_t little[] = {0x4D, 0x00, 0x30, 0x04, 0x8C, 0x4E, 0x00, 0xD8, 0x02, 0xDF, 0x61};
    uint16_t to_units[6];
    uint8_t to_bytes[11];

    memset(to_units, 0xFF, sizeof to_units);
    CHECK(counts_are(encoding_text_decode_utf16le(ALL(little), ALL(to_units)), 10, 5));
    CHECK(memcmp(to_units, units, sizeof units) == 0 && to_units[5] == 0xFFFF);
    memset(to_units, 0xFF, sizeof to_units);
    CHECK(counts_are(encoding_text_decode_utf16be(ALL(big), to_units, 4), 8, 4));
    CHECK(memcmp(to_units, units, 4 * sizeof units[0]) == 0 && to_units[4] == 0xFFFF);
    memset(to_bytes, 0xFF, sizeof to_bytes);
    CHECK(counts_are(encoding_text_encode_utf16le(ALL(units), ALL(to_bytes)), 5, 10));
    CHECK(memcmp(to_bytes, little, 10) == 0 && to_bytes[10] == 0xFF);
    memset(to_bytes, 0xFF, sizeof to_bytes);
    CHECK(counts_are(encoding_text_encode_utf16be(ALL(units), to_bytes, 7), 3, 6));
    CHECK(memcmp(to_bytes, big, 6) == 0 && to_bytes[6] == 0xFF);
}

static void conversions_to_utf16(void)
{
    const uint8_t text[] = {0x61, 0xC3, 0xA4};
    const uint8_t malformed[] = {0x61, 0xC3, 0xA4, 0xFF};
    const uint8_t pair[] = {0x61, 0xF0, 0x9F, 0x92, 0xA9};

    CHECK(encoding_text_utf8_valid_up_to(ALL(malformed)) == 3 && encoding_text_utf8_valid_up_to(ALL(text)) == 3);
    CHECK(encoding_text_mem_convert_utf8_to_utf16(ALL(malformed), fresh_units(), 4) == ENCODING_TEXT_INVALID_ARGUMENT
          && no_units_written());
    CHECK(encoding_text_mem_convert_utf8_to_utf16(ALL(malformed), fresh_units(), 5) == 3
          && units_are(3, 0x61, 0xE4, 0xFFFD));
    CHECK(counts_are(encoding_text_mem_convert_utf8_to_utf16_partial(ALL(malformed), fresh_units(), 3), 4, 3)
          && units_are(3, 0x61, 0xE4, 0xFFFD));
    CHECK(counts_are(encoding_text_mem_convert_utf8_to_utf16_partial(ALL(malformed), fresh_units(), 2), 3, 2)
          && units_are(2, 0x61, 0xE4));
    CHECK(counts_are(encoding_text_mem_convert_utf8_to_utf16_partial(ALL(pair), fresh_units(), 2), 1, 1)
          && units_are(1, 0x61));
    CHECK(encoding_text_mem_convert_str_to_utf16(ALL(text), fresh_units(), 2) == ENCODING_TEXT_INVALID_ARGUMENT
          && no_units_written());
    CHECK(encoding_text_mem_convert_str_to_utf16(ALL(malformed), fresh_units(), 9) == ENCODING_TEXT_INVALID_ARGUMENT
          && no_units_written());
    CHECK(encoding_text_mem_convert_str_to_utf16(ALL(text), fresh_units(), 3) == 2 && units_are(2, 0x61, 0xE4));
    CHECK(are_invalid(encoding_text_mem_convert_utf8_to_utf16_without_replacement(ALL(text), fresh_units(), 2)));
    CHECK(no_units_written());
    CHECK(counts_are(encoding_text_mem_convert_utf8_to_utf16_without_replacement(ALL(malformed), fresh_units(), 4), 3, 2));
    CHECK(units_are(2, 0x61, 0xE4));
    CHECK(counts_are(encoding_text_convert_utf8_to_utf16_up_to_invalid(ALL(malformed), fresh_units(), 9), 3, 2));
    CHECK(units_are(2, 0x61, 0xE4));
    CHECK(counts_are(encoding_text_convert_utf8_to_utf16_up_to_invalid(ALL(text), fresh_units(), 1), 1, 1)
          && units_are(1, 0x61));
}

static void conversions_from_utf16(void)
{
    const uint16_t units[] = {0x63, 0xD83D, 0xDCA9};
    const uint16_t unpaired[] = {0x63, 0xD83D};

    CHECK(counts_are(encoding_text_mem_convert_utf16_to_utf8_partial(ALL(units), fresh_bytes(), 4), 1, 1)
          && bytes_are(BYTES("c")));
    CHECK(counts_are(encoding_text_mem_convert_utf16_to_utf8_partial(ALL(unpaired), fresh_bytes(), 4), 2, 4));
    CHECK(bytes_are(BYTES("c\xEF\xBF\xBD")));
    CHECK(encoding_text_mem_convert_utf16_to_utf8(ALL(units), fresh_bytes(), 8) == ENCODING_TEXT_INVALID_ARGUMENT
          && no_bytes_written());
    CHECK(encoding_text_mem_convert_utf16_to_utf8(ALL(units), fresh_bytes(), 9) == 5
          && bytes_are(BYTES("c\xF0\x9F\x92\xA9")));
    CHECK(counts_are(encoding_text_convert_utf16_to_utf8_partial_inner(ALL(units), fresh_bytes(), 9), 3, 5));
    CHECK(bytes_are(BYTES("c\xF0\x9F\x92\xA9")));
    CHECK(counts_are(encoding_text_convert_utf16_to_utf8_partial_tail(ALL(units), fresh_bytes(), 3), 1, 1)
          && bytes_are(BYTES("c")));
    CHECK(counts_are(encoding_text_convert_utf16_to_utf8_partial_tail(units + 1, 2, fresh_bytes(), 3), 0, 0)
          && no_bytes_written());
    CHECK(counts_are(encoding_text_convert_utf16_to_utf8_partial_tail(unpaired + 1, 1, fresh_bytes(), 3), 1, 3));
    CHECK(bytes_are(BYTES("\xEF\xBF\xBD")));
    CHECK(are_invalid(encoding_text_convert_utf16_to_utf8_partial_tail(ALL(units), fresh_bytes(), 4))
          && no_bytes_written());
    CHECK(are_invalid(encoding_text_convert_utf16_to_utf8_partial_tail(units, 0, fresh_bytes(), 3))
          && no_bytes_written());
}

static void utf16_into_texts(void)
{
    const uint16_t letter[] = {0x61};
    const uint16_t snowman[] = {0x2603};

    CHECK(counts_are(
        encoding_text_mem_convert_utf16_to_str_partial(ALL(letter), bytes_with(0, BYTES("\xC3\xA4")), 3), 1, 1));
    CHECK(bytes_are(BYTES("a\0")));
    CHECK(counts_are(encoding_text_mem_convert_utf16_to_str_partial(ALL(snowman), fresh_bytes(), 3), 1, 3));
    CHECK(bytes_are(BYTES("\xE2\x98\x83")));
    CHECK(counts_are(encoding_text_mem_convert_utf16_to_str_partial(ALL(snowman), fresh_bytes(), 2), 0, 0)
          && no_bytes_written());
    CHECK(are_invalid(encoding_text_mem_convert_utf16_to_str_partial(ALL(letter), bytes_with(0, BYTES("\xFF")), 3)));
    CHECK(bytes_are(BYTES("\xFF")));
    CHECK(encoding_text_mem_convert_utf16_to_str(ALL(letter), bytes_with(0, BYTES("\xFF")),
                                                 3) == ENCODING_TEXT_INVALID_ARGUMENT);
    CHECK(bytes_are(BYTES("\xFF")));
    CHECK(encoding_text_mem_convert_utf16_to_str(ALL(snowman), fresh_bytes(), 2) == ENCODING_TEXT_INVALID_ARGUMENT
          && no_bytes_written());
    CHECK(encoding_text_mem_convert_utf16_to_str(ALL(snowman), fresh_bytes(), 3) == 3
          && bytes_are(BYTES("\xE2\x98\x83")));
    CHECK(encoding_text_mem_convert_utf16_to_str(ALL(snowman), bytes_with(0, BYTES("\xF0\x9F\x92\xA9")), 9) == 3);
    CHECK(bytes_are(BYTES("\xE2\x98\x83\0")));
}

/* The sixteen bytes after the two that are written become zero, and then the two that are left of U+2603. */
#define CLEARED "\xC3\xA4\0\0\0\0\0\0\0\0\0\0\0\0\0\0\0\0\0\0"

static void latin1_into_texts(void)
{
    const uint8_t latin1[] = {0xE4};
    const uint8_t two[] = {0xE4, 0x61};

    CHECK(counts_are(encoding_text_mem_convert_latin1_to_str_partial(ALL(latin1), bytes_with(17, BYTES("\xE2\x98\x83")),
                                                                     30),
                     1, 2));
    CHECK(bytes_are(BYTES(CLEARED)));
    CHECK(counts_are(encoding_text_mem_convert_latin1_to_str_partial(ALL(two), fresh_bytes(), 2), 1, 2)
          && bytes_are(BYTES("\xC3\xA4")));
    CHECK(are_invalid(encoding_text_mem_convert_latin1_to_str_partial(ALL(latin1), bytes_with(19, BYTES("\xFF")), 20)));
    CHECK(bytes_are_at(19, BYTES("\xFF")));
    CHECK(encoding_text_mem_convert_latin1_to_str(ALL(latin1), bytes_with(17, BYTES("\xE2\x98\x83")), 30) == 2);
    CHECK(bytes_are(BYTES(CLEARED)));
    CHECK(encoding_text_mem_convert_latin1_to_str(ALL(latin1), fresh_bytes(), 2) == 2 && bytes_are(BYTES("\xC3\xA4")));
    CHECK(encoding_text_mem_convert_latin1_to_str(ALL(latin1), fresh_bytes(), 1) == ENCODING_TEXT_INVALID_ARGUMENT
          && no_bytes_written());
    CHECK(encoding_text_mem_convert_latin1_to_str(ALL(latin1), bytes_with(19, BYTES("\xFF")),
                                                  20) == ENCODING_TEXT_INVALID_ARGUMENT);
    CHECK(bytes_are_at(19, BYTES("\xFF")));
}

static void malformed_sequences(void)
{
    const uint8_t bytes[] = {0x61, 0xF0, 0x9F, 0x92, 0xFF, 0x62, 0xE2, 0x98};
    const uint8_t text[] = {0x61, 0xC3, 0xA4};

    CHECK(malformed_is(encoding_text_next_malformed(ALL(bytes)), 1, 3));
    CHECK(malformed_is(encoding_text_next_malformed(bytes + 4, 4), 0, 1));
    CHECK(malformed_is(encoding_text_next_malformed(bytes + 5, 3), 1, 2));
    CHECK(malformed_is(encoding_text_next_malformed(bytes, 1), 1, 0));
    CHECK(malformed_is(encoding_text_next_malformed(ALL(text)), 3, 0));
}

/* Sequences of the Unicode Standard's tables 3-8 to 3-11. */
static void malformations(void)
{
    const uint8_t overlong[] = {0x61, 0xE0, 0x80, 0xBF};
    const uint8_t surrogate[] = {0xED, 0xA0, 0x80};
    const uint8_t too_large[] = {0xF4, 0x91, 0x92, 0x93};
    const uint8_t truncated[] = {0xE1, 0x80, 0xE2};
    const uint8_t disallowed[] = {0xC0, 0xAF};
    const uint8_t text[] = {0x61, 0xC3, 0xA4};

    CHECK(malformation_is(encoding_text_next_malformation(ALL(overlong)), 1, 1, ENCODING_TEXT_OVERLONG));
    CHECK(malformation_is(encoding_text_next_malformation(overlong + 2, 2), 0, 1,
                          ENCODING_TEXT_UNEXPECTED_CONTINUATION));
    CHECK(malformation_is(encoding_text_next_malformation(ALL(surrogate)), 0, 1, ENCODING_TEXT_SURROGATE));
    CHECK(malformation_is(encoding_text_next_malformation(ALL(too_large)), 0, 1, ENCODING_TEXT_TOO_LARGE));
    CHECK(malformation_is(encoding_text_next_malformation(ALL(truncated)), 0, 2, ENCODING_TEXT_TRUNCATED));
    CHECK(malformation_is(encoding_text_next_malformation(truncated + 2, 1), 0, 1, ENCODING_TEXT_INCOMPLETE_AT_END));
    CHECK(malformation_is(encoding_text_next_malformation(ALL(disallowed)), 0, 1, ENCODING_TEXT_DISALLOWED_BYTE));
    CHECK(malformation_is(encoding_text_next_malformation(ALL(text)), 3, 0, ENCODING_TEXT_WELL_FORMED));
}

static void repair(void)
{
    const uint8_t bytes[] = {0x61, 0xF0, 0x9F, 0x92, 0xFF, 0x62};

    CHECK(repaired_is(encoding_text_repair_slice(ALL(bytes), fresh_bytes(), 17), ENCODING_TEXT_INVALID_ARGUMENT, 0)
          && no_bytes_written());
    CHECK(repaired_is(encoding_text_repair_slice(ALL(bytes), fresh_bytes(), 18), 8, 2));
    CHECK(bytes_are(BYTES("a\xEF\xBF\xBD\xEF\xBF\xBD" "b")));
    CHECK(block_is(encoding_text_repair_slice_partial(ALL(bytes), fresh_bytes(), 8), 6, 8, 2, true));
    CHECK(bytes_are(BYTES("a\xEF\xBF\xBD\xEF\xBF\xBD" "b")));
    CHECK(block_is(encoding_text_repair_slice_partial(ALL(bytes), fresh_bytes(), 7), 5, 7, 2, false));
    CHECK(bytes_are(BYTES("a\xEF\xBF\xBD\xEF\xBF\xBD")));
    CHECK(block_is(encoding_text_repair_slice_partial(ALL(bytes), fresh_bytes(), 6), 4, 4, 1, false));
    CHECK(bytes_are(BYTES("a\xEF\xBF\xBD")));
}

static void repair_by_blocks(void)
{
    /* a, U+1F4A9 without its fourth byte, a byte that begins nothing, b, a truncated sequence of three */
    const uint8_t first[] = {0x61, 0xF0, 0x9F};
    const uint8_t second[] = {0x92, 0xFF, 0x62, 0xE2, 0x98};
    encoding_text_utf8_decoder decoder;

    encoding_text_utf8_decoder_new(&decoder);
    CHECK(block_is(encoding_text_repair_block(&decoder, ALL(first), fresh_bytes(), 0, false), 0, 0, 0, false)
          && no_bytes_written());
    CHECK(block_is(encoding_text_repair_block(&decoder, ALL(first), fresh_bytes(), 2, false), 1, 1, 0, false));
    CHECK(bytes_are(BYTES("a")) && encoding_text_utf8_decoder_in_neutral_state(&decoder));
    CHECK(block_is(encoding_text_repair_block(&decoder, first + 1, 2, fresh_bytes(), 4, false), 2, 0, 0, true)
          && no_bytes_written());
    CHECK(!encoding_text_utf8_decoder_in_neutral_state(&decoder));
    CHECK(block_is(encoding_text_repair_block(&decoder, ALL(second), fresh_bytes(), 16, true), 5, 10, 3, true));
    CHECK(bytes_are(BYTES("\xEF\xBF\xBD\xEF\xBF\xBD" "b\xEF\xBF\xBD")));
    CHECK(encoding_text_utf8_decoder_in_neutral_state(&decoder));
}

static void version(void)
{
    CHECK(encoding_text_version() == ENCODING_TEXT_VERSION && ENCODING_TEXT_VERSION == 101);
    encoding_text_layout_0_1();
}

int main(void)
{
    version();
    layouts();
    ascii_prefixes();
    latin1_checks();
    surrogates();
    right_to_left_checks();
    known_texts();
    copies();
    latin1_conversions();
    lengths();
    counts();
    utf_16_bytes();
    conversions_to_utf16();
    conversions_from_utf16();
    utf16_into_texts();
    latin1_into_texts();
    malformed_sequences();
    malformations();
    searches();
    repair();
    repair_by_blocks();
    decoder_storage();
    decoder_lengths();
    decoder_calls();
    borrowed_calls();
    utf16_decoder_storage();
    utf16_decoder_lengths();
    utf16_decoder_calls();
    stream_decoders();
    encoder_storage();
    encoder_lengths();
    encoder_calls_from_utf16();
    encoder_calls_from_text();
    surrogate_counts();
    runs_to_the_end();
    runs_that_go_on();
    runs_from_utf16();
    buffers_of_no_elements(NULL, NULL, NULL, NULL);
    buffers_of_no_elements(byte_memory, unit_memory, byte_memory, unit_memory);
#ifdef __cplusplus
    vectors_of_no_elements();
#endif
    return finish();
}
