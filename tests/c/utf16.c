/*
 * Calls of the streaming decoder of UTF-16LE and UTF-16BE, and the layout of its state in the caller's storage. C99 and
 * C++17.
 */
#include "calls.h"

#include <string.h>

typedef struct {
    char first;
    encoding_text_utf16_decoder decoder;
} after_a_char_utf16_decoder;

encoding_text_utf16_decoder utf16_decoder_with(uint8_t first, uint8_t second, uint8_t third, uint8_t count,
                                               uint8_t big_endian)
{
    encoding_text_utf16_decoder decoder;
    decoder.pending[0] = first;
    decoder.pending[1] = second;
    decoder.pending[2] = third;
    decoder.count = count;
    decoder.big_endian = big_endian;
    return decoder;
}

bool utf16_decoded_is(encoding_text_decoder_result decoded, size_t read, size_t written, uint8_t result,
                      uint8_t malformed_length, uint8_t read_after)
{
    return decoded.read == read && decoded.written == written && decoded.result == result
        && decoded.malformed_length == malformed_length && decoded.read_after == read_after;
}

bool utf16_pending_are(const encoding_text_utf16_decoder *decoder, const char *wanted, size_t length)
{
    if (encoding_text_utf16_decoder_in_neutral_state(decoder)) {
        return length == 0;
    }
    return decoder->count == length && memcmp(decoder->pending, wanted, length) == 0;
}

/* Whether the storage acts as a new decoder of this byte order: a character is decoded as if nothing came before it. */
static bool is_new(encoding_text_utf16_decoder decoder, bool big_endian)
{
    const uint8_t snowman[] = {(uint8_t)(big_endian ? 0x26 : 0x03), (uint8_t)(big_endian ? 0x03 : 0x26)};

    return encoding_text_utf16_decoder_in_neutral_state(&decoder)
        && encoding_text_utf16_decoder_max_utf16_buffer_length(&decoder, 10) == 6
        && utf16_decoded_is(encoding_text_utf16_decoder_decode_to_utf16(&decoder, ALL(snowman), fresh_units(), 2, true), 2, 1,
                            ENCODING_TEXT_INPUT_EMPTY, 0, 0)
        && units_are(1, 0x2603) && utf16_pending_are(&decoder, "", 0);
}

void utf16_decoder_storage(void)
{
    encoding_text_utf16_decoder decoder;

    CHECK(sizeof decoder == ENCODING_TEXT_UTF16_DECODER_SIZE);
    CHECK(offsetof(after_a_char_utf16_decoder, decoder) == ENCODING_TEXT_UTF16_DECODER_ALIGNMENT);
    memset(&decoder, 0, sizeof decoder);
    CHECK(is_new(decoder, false));
    memset(&decoder, 0xFF, sizeof decoder);
    CHECK(is_new(decoder, true));
    encoding_text_utf16_decoder_new(&decoder, false);
    CHECK(is_new(decoder, false) && decoder.big_endian == 0);
    memset(&decoder, 0xFF, sizeof decoder);
    encoding_text_utf16_decoder_new(&decoder, true);
    CHECK(is_new(decoder, true) && decoder.big_endian != 0);
    CHECK(is_new(utf16_decoder_with(0x3D, 0xD8, 0, 0, 0), false) && is_new(utf16_decoder_with(0x3D, 0x26, 0, 2, 0), false));
    CHECK(is_new(utf16_decoder_with(0x3D, 0xD8, 0x61, 4, 0), false) && is_new(utf16_decoder_with(0x3D, 0xD8, 0x61, 255, 0), false));
    CHECK(is_new(utf16_decoder_with(0x3D, 0xD8, 0, 2, 1), true) && is_new(utf16_decoder_with(0x26, 0x03, 0xD8, 3, 200), true));
    /* a low surrogate is no start of a character */
    CHECK(is_new(utf16_decoder_with(0xA9, 0xDC, 0, 2, 0), false) && is_new(utf16_decoder_with(0xDC, 0xA9, 0x61, 3, 1), true));
}

void utf16_decoder_lengths(void)
{
    const size_t even = SIZE_MAX - 4, odd = SIZE_MAX - 3; /* three pending bytes and one more leave just this */
    encoding_text_utf16_decoder decoder = utf16_decoder_with(0x3D, 0xD8, 0xA9, 3, 0);

    CHECK(encoding_text_utf16_decoder_max_utf16_buffer_length(&decoder, 10) == 8);
    CHECK(encoding_text_utf16_decoder_max_utf16_buffer_length(&decoder, even) == SIZE_MAX / 2 + 1);
    CHECK(encoding_text_utf16_decoder_max_utf16_buffer_length(&decoder, odd) == SIZE_MAX);
    CHECK(encoding_text_utf16_decoder_max_utf16_buffer_length(&decoder, SIZE_MAX) == SIZE_MAX);
    CHECK(encoding_text_utf16_decoder_max_utf8_buffer_length_without_replacement(&decoder, 10) == 22);
    CHECK(encoding_text_utf16_decoder_max_utf8_buffer_length_without_replacement(&decoder, SIZE_MAX) == SIZE_MAX);
    CHECK(encoding_text_utf16_decoder_max_utf8_buffer_length_without_replacement(&decoder, SIZE_MAX / 3 * 2) == SIZE_MAX);
    CHECK(encoding_text_utf16_decoder_max_utf8_buffer_length(&decoder, 10) == 22);
    CHECK(encoding_text_utf16_decoder_max_utf8_buffer_length(&decoder, SIZE_MAX) == SIZE_MAX);
    CHECK(encoding_text_utf16_decoder_max_utf8_buffer_length(&decoder, SIZE_MAX / 3 * 2) == SIZE_MAX);
    CHECK(encoding_text_utf16_decoder_max_utf8_buffer_length(&decoder, SIZE_MAX / 3) == 3 * (SIZE_MAX / 6 + 2) + 1);
    decoder.count = 1;
    CHECK(encoding_text_utf16_decoder_max_utf16_buffer_length(&decoder, 10) == 7);
    CHECK(encoding_text_utf16_decoder_max_utf16_buffer_length(&decoder, 9) == 6);
    decoder.count = 2;
    CHECK(encoding_text_utf16_decoder_max_utf16_buffer_length(&decoder, 9) == 7);
    CHECK(encoding_text_utf16_decoder_max_utf8_buffer_length(&decoder, 9) == 19);
}

void utf16_decoder_calls(void)
{
    /* "a", U+1F4A9, an unpaired high surrogate, "b" */
    const uint8_t le[] = {0x61, 0x00, 0x3D, 0xD8, 0xA9, 0xDC, 0x3D, 0xD8, 0x62, 0x00};
    const uint8_t be[] = {0x00, 0x61, 0xD8, 0x3D, 0xDC, 0xA9, 0xD8, 0x3D, 0x00, 0x62};
    encoding_text_utf16_decoder decoder;

    encoding_text_utf16_decoder_new(&decoder, false);
    CHECK(utf16_decoded_is(encoding_text_utf16_decoder_decode_to_utf16(&decoder, ALL(le), fresh_units(), 9, true), 8, 3,
                           ENCODING_TEXT_MALFORMED, 2, 0));
    CHECK(units_are(3, 0x61, 0xD83D, 0xDCA9) && utf16_pending_are(&decoder, "", 0));
    CHECK(utf16_decoded_is(encoding_text_utf16_decoder_decode_to_utf8(&decoder, ALL(le), fresh_bytes(), 5, true), 6, 5,
                           ENCODING_TEXT_OUTPUT_FULL, 0, 0));
    CHECK(bytes_are(BYTES("a\xF0\x9F\x92\xA9")) && utf16_pending_are(&decoder, "", 0));
    CHECK(utf16_decoded_is(encoding_text_utf16_decoder_decode_to_utf16(&decoder, ALL(le), fresh_units(), 2, true), 2, 1,
                           ENCODING_TEXT_OUTPUT_FULL, 0, 0));
    CHECK(units_are(1, 0x61) && utf16_pending_are(&decoder, "", 0));
    /* the pieces: one byte, three, the rest */
    CHECK(utf16_decoded_is(encoding_text_utf16_decoder_decode_to_utf8(&decoder, le, 1, fresh_bytes(), 9, false), 1, 0,
                           ENCODING_TEXT_INPUT_EMPTY, 0, 0));
    CHECK(no_bytes_written() && utf16_pending_are(&decoder, BYTES("\x61")));
    decoder.pending[1] = 0x41;
    CHECK(utf16_decoded_is(encoding_text_utf16_decoder_decode_to_utf8(&decoder, le + 1, 4, fresh_bytes(), 9, false), 4, 1,
                           ENCODING_TEXT_INPUT_EMPTY, 0, 0));
    CHECK(bytes_are(BYTES("a")) && utf16_pending_are(&decoder, BYTES("\x3D\xD8\xA9")));
    CHECK(utf16_decoded_is(encoding_text_utf16_decoder_decode_to_utf8(&decoder, le + 5, 5, fresh_bytes(), 9, true), 3, 4,
                           ENCODING_TEXT_MALFORMED, 2, 0));
    CHECK(bytes_are(BYTES("\xF0\x9F\x92\xA9")) && utf16_pending_are(&decoder, "", 0));
    /* a high surrogate and one byte of the next code unit are pending: that byte stays */
    decoder = utf16_decoder_with(0x3D, 0xD8, 0x62, 3, 0);
    CHECK(utf16_decoded_is(encoding_text_utf16_decoder_decode_to_utf16(&decoder, le + 9, 1, fresh_units(), 9, true), 0, 0,
                           ENCODING_TEXT_MALFORMED, 2, 1));
    CHECK(no_units_written() && utf16_pending_are(&decoder, BYTES("\x62")));
    CHECK(utf16_decoded_is(encoding_text_utf16_decoder_decode_to_utf16(&decoder, le + 9, 1, fresh_units(), 9, true), 1, 1,
                           ENCODING_TEXT_INPUT_EMPTY, 0, 0));
    CHECK(units_are(1, 0x62) && utf16_pending_are(&decoder, "", 0));
    /* at the end, all that is pending is one malformed sequence */
    decoder = utf16_decoder_with(0x3D, 0xD8, 0x61, 3, 0);
    CHECK(utf16_decoded_is(encoding_text_utf16_decoder_decode_to_utf8(&decoder, le, 0, fresh_bytes(), 9, true), 0, 0,
                           ENCODING_TEXT_MALFORMED, 3, 0));
    CHECK(no_bytes_written() && utf16_pending_are(&decoder, "", 0));
    encoding_text_utf16_decoder_new(&decoder, true);
    CHECK(utf16_decoded_is(encoding_text_utf16_decoder_decode_to_utf16(&decoder, ALL(be), fresh_units(), 9, true), 8, 3,
                           ENCODING_TEXT_MALFORMED, 2, 0));
    CHECK(units_are(3, 0x61, 0xD83D, 0xDCA9) && utf16_pending_are(&decoder, "", 0) && decoder.big_endian != 0);
    CHECK(utf16_decoded_is(encoding_text_utf16_decoder_decode_to_utf8(&decoder, be, 4, fresh_bytes(), 9, false), 4, 1,
                           ENCODING_TEXT_INPUT_EMPTY, 0, 0));
    CHECK(bytes_are(BYTES("a")) && utf16_pending_are(&decoder, BYTES("\xD8\x3D")) && decoder.big_endian != 0);
    CHECK(utf16_decoded_is(encoding_text_utf16_decoder_decode_to_utf8(&decoder, be + 4, 2, fresh_bytes(), 9, true), 2, 4,
                           ENCODING_TEXT_INPUT_EMPTY, 0, 0));
    CHECK(bytes_are(BYTES("\xF0\x9F\x92\xA9")) && utf16_pending_are(&decoder, "", 0));
}

void utf16_calls_of_no_elements(const uint8_t *bytes, uint8_t *to_bytes, uint16_t *to_units)
{
    const uint8_t letters[] = {0x61, 0x00};
    encoding_text_utf16_decoder decoder = utf16_decoder_with(0x3D, 0xD8, 0, 2, 0);

    CHECK(utf16_decoded_is(encoding_text_utf16_decoder_decode_to_utf16(&decoder, bytes, 0, to_units, 0, false), 0, 0,
                           ENCODING_TEXT_INPUT_EMPTY, 0, 0));
    CHECK(utf16_decoded_is(encoding_text_utf16_decoder_decode_to_utf8(&decoder, bytes, 0, to_bytes, 0, false), 0, 0,
                           ENCODING_TEXT_INPUT_EMPTY, 0, 0));
    CHECK(utf16_pending_are(&decoder, BYTES("\x3D\xD8")));
    CHECK(utf16_decoded_is(encoding_text_utf16_decoder_decode_to_utf16(&decoder, bytes, 0, to_units, 0, true), 0, 0,
                           ENCODING_TEXT_MALFORMED, 2, 0));
    CHECK(utf16_decoded_is(encoding_text_utf16_decoder_decode_to_utf16(&decoder, ALL(letters), to_units, 0, true), 0, 0,
                           ENCODING_TEXT_OUTPUT_FULL, 0, 0));
    CHECK(utf16_decoded_is(encoding_text_utf16_decoder_decode_to_utf8(&decoder, ALL(letters), to_bytes, 0, true), 0, 0,
                           ENCODING_TEXT_OUTPUT_FULL, 0, 0));
    CHECK(utf16_decoded_is(encoding_text_utf16_decoder_decode_to_utf8(&decoder, bytes, 0, fresh_bytes(), 4, true), 0, 0,
                           ENCODING_TEXT_INPUT_EMPTY, 0, 0));
    CHECK(no_bytes_written() && utf16_pending_are(&decoder, "", 0));
}
