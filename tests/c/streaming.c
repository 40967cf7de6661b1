/*
 * Calls of the streaming decoder and encoder, and the layout of their states in the caller's storage. C99 and C++17.
 */
#include "calls.h"

#include <string.h>

typedef struct {
    char first;
    encoding_text_utf8_decoder decoder;
} after_a_char_decoder;

typedef struct {
    char first;
    encoding_text_utf8_encoder encoder;
} after_a_char_encoder;

encoding_text_utf8_decoder decoder_with(uint8_t first, uint8_t second, uint8_t third, uint8_t count)
{
    encoding_text_utf8_decoder decoder;
    decoder.pending[0] = first;
    decoder.pending[1] = second;
    decoder.pending[2] = third;
    decoder.count = count;
    return decoder;
}

bool pending_are(const encoding_text_utf8_decoder *decoder, const char *wanted, size_t length)
{
    if (encoding_text_utf8_decoder_in_neutral_state(decoder)) {
        return length == 0;
    }
    return decoder->count == length && memcmp(decoder->pending, wanted, length) == 0;
}

/* Whether the storage acts as a new decoder: a character is decoded as if nothing came before it. */
static bool is_new_decoder(encoding_text_utf8_decoder decoder)
{
    const uint8_t snowman[] = {0xE2, 0x98, 0x83};

    return encoding_text_utf8_decoder_in_neutral_state(&decoder)
        && encoding_text_utf8_decoder_max_utf16_buffer_length(&decoder, 10) == 11
        && decoded_is(encoding_text_utf8_decoder_decode_to_utf16(&decoder, ALL(snowman), fresh_units(), 2, true), 3, 1,
                      ENCODING_TEXT_INPUT_EMPTY, 0)
        && units_are(1, 0x2603) && pending_are(&decoder, "", 0);
}

void decoder_storage(void)
{
    const uint8_t bytes[] = {0x61, 0xF0, 0x9F, 0x92, 0xA9};
    encoding_text_utf8_decoder decoder;

    CHECK(sizeof decoder == ENCODING_TEXT_DECODER_SIZE);
    CHECK(offsetof(after_a_char_decoder, decoder) == ENCODING_TEXT_DECODER_ALIGNMENT);
    memset(&decoder, 0, sizeof decoder);
    CHECK(is_new_decoder(decoder));
    memset(&decoder, 0xFF, sizeof decoder);
    encoding_text_utf8_decoder_new(&decoder);
    CHECK(is_new_decoder(decoder));
    CHECK(is_new_decoder(decoder_with(0xE2, 0x98, 0, 0)) && is_new_decoder(decoder_with(0x41, 0, 0, 1)));
    CHECK(is_new_decoder(decoder_with(0xE2, 0x41, 0, 2)) && is_new_decoder(decoder_with(0xE2, 0x98, 0x83, 3)));
    CHECK(is_new_decoder(decoder_with(0xF0, 0x9F, 0x92, 4)) && is_new_decoder(decoder_with(0xF0, 0x9F, 0x92, 200)));
    encoding_text_utf8_decoder_new(&decoder);
    CHECK(decoded_is(encoding_text_utf8_decoder_decode_to_utf8(&decoder, bytes, 2, fresh_bytes(), 8, false), 2, 1,
                     ENCODING_TEXT_INPUT_EMPTY, 0));
    CHECK(bytes_are(BYTES("a")) && pending_are(&decoder, BYTES("\xF0")));
    CHECK(decoded_is(encoding_text_utf8_decoder_decode_to_utf8(&decoder, bytes + 2, 1, fresh_bytes(), 8, false), 1, 0,
                     ENCODING_TEXT_INPUT_EMPTY, 0));
    CHECK(no_bytes_written() && pending_are(&decoder, BYTES("\xF0\x9F")));
    decoder.pending[2] = 0x41;
    CHECK(decoded_is(encoding_text_utf8_decoder_decode_to_utf8(&decoder, bytes + 3, 1, fresh_bytes(), 8, false), 1, 0,
                     ENCODING_TEXT_INPUT_EMPTY, 0));
    CHECK(no_bytes_written() && pending_are(&decoder, BYTES("\xF0\x9F\x92")));
    CHECK(decoded_is(encoding_text_utf8_decoder_decode_to_utf8(&decoder, bytes + 4, 1, fresh_bytes(), 8, true), 1, 4,
                     ENCODING_TEXT_INPUT_EMPTY, 0));
    CHECK(bytes_are(BYTES("\xF0\x9F\x92\xA9")) && pending_are(&decoder, "", 0));
}

void decoder_lengths(void)
{
    const size_t large = SIZE_MAX - 5;
    encoding_text_utf8_decoder decoder = decoder_with(0xE2, 0x98, 0x83, 2);

    CHECK(encoding_text_utf8_decoder_max_utf16_buffer_length(&decoder, 10) == 13);
    CHECK(encoding_text_utf8_decoder_max_utf16_buffer_length(&decoder, large) == SIZE_MAX - 2);
    CHECK(encoding_text_utf8_decoder_max_utf16_buffer_length(&decoder, SIZE_MAX) == SIZE_MAX);
    CHECK(encoding_text_utf8_decoder_max_utf8_buffer_length_without_replacement(&decoder, 10) == 15);
    CHECK(encoding_text_utf8_decoder_max_utf8_buffer_length_without_replacement(&decoder, large) == SIZE_MAX);
    CHECK(encoding_text_utf8_decoder_max_utf8_buffer_length_without_replacement(&decoder, SIZE_MAX) == SIZE_MAX);
    CHECK(encoding_text_utf8_decoder_max_utf8_buffer_length(&decoder, 10) == 39);
    CHECK(encoding_text_utf8_decoder_max_utf8_buffer_length(&decoder, SIZE_MAX / 3 - 3) == SIZE_MAX);
    CHECK(encoding_text_utf8_decoder_max_utf8_buffer_length(&decoder, SIZE_MAX / 3 - 4) == SIZE_MAX - 3);
    CHECK(encoding_text_utf8_decoder_max_utf8_buffer_length(&decoder, SIZE_MAX) == SIZE_MAX);
}

void decoder_calls(void)
{
    const uint8_t bytes[] = {0x61, 0x62, 0xE2, 0x98, 0x83, 0xF0, 0x9F, 0x92, 0x63};
    encoding_text_utf8_decoder decoder;

    encoding_text_utf8_decoder_new(&decoder);
    CHECK(decoded_is(encoding_text_utf8_decoder_decode_to_utf16(&decoder, ALL(bytes), fresh_units(), 9, true), 8, 3,
                     ENCODING_TEXT_MALFORMED, 3));
    CHECK(units_are(3, 0x61, 0x62, 0x2603) && pending_are(&decoder, "", 0));
    CHECK(decoded_is(encoding_text_utf8_decoder_decode_to_utf16(&decoder, ALL(bytes), fresh_units(), 1, true), 1, 1,
                     ENCODING_TEXT_OUTPUT_FULL, 0));
    CHECK(units_are(1, 0x61) && pending_are(&decoder, "", 0));
    CHECK(decoded_is(encoding_text_utf8_decoder_decode_to_utf16(&decoder, bytes + 5, 2, fresh_units(), 9, false), 2, 0,
                     ENCODING_TEXT_INPUT_EMPTY, 0));
    CHECK(no_units_written() && pending_are(&decoder, BYTES("\xF0\x9F")));
    CHECK(decoded_is(encoding_text_utf8_decoder_decode_to_utf16(&decoder, bytes, 0, fresh_units(), 9, true), 0, 0,
                     ENCODING_TEXT_MALFORMED, 2));
    CHECK(no_units_written() && pending_are(&decoder, "", 0));
    CHECK(decoded_is(encoding_text_utf8_decoder_decode_to_utf8(&decoder, ALL(bytes), fresh_bytes(), 16, true), 8, 5,
                     ENCODING_TEXT_MALFORMED, 3));
    CHECK(bytes_are(BYTES("ab\xE2\x98\x83")) && pending_are(&decoder, "", 0));
    CHECK(decoded_is(encoding_text_utf8_decoder_decode_to_utf8(&decoder, ALL(bytes), fresh_bytes(), 4, true), 2, 2,
                     ENCODING_TEXT_OUTPUT_FULL, 0));
    CHECK(bytes_are(BYTES("ab")) && pending_are(&decoder, "", 0));
    CHECK(decoded_is(encoding_text_utf8_decoder_decode_to_utf8(&decoder, bytes + 5, 3, fresh_bytes(), 9, false), 3, 0,
                     ENCODING_TEXT_INPUT_EMPTY, 0));
    CHECK(no_bytes_written() && pending_are(&decoder, BYTES("\xF0\x9F\x92")));
    CHECK(decoded_is(encoding_text_utf8_decoder_decode_to_utf8(&decoder, bytes + 8, 1, fresh_bytes(), 9, false), 0, 0,
                     ENCODING_TEXT_MALFORMED, 3));
    CHECK(no_bytes_written() && pending_are(&decoder, "", 0));
}

void borrowed_calls(void)
{
    const uint8_t bytes[] = {0x61, 0xF0, 0x9F, 0x92, 0xA9, 0xF0, 0x9F, 0x92, 0x63};
    encoding_text_utf8_decoder decoder;

    encoding_text_utf8_decoder_new(&decoder);
    CHECK(piece_is(encoding_text_utf8_decoder_decode_borrowed(&decoder, ALL(bytes), true), 5, 0,
                   ENCODING_TEXT_PIECE_TEXT, 0));
    CHECK(pending_are(&decoder, "", 0));
    CHECK(piece_is(encoding_text_utf8_decoder_decode_borrowed(&decoder, bytes + 1, 1, false), 1, 0,
                   ENCODING_TEXT_PIECE_INPUT_EMPTY, 0));
    CHECK(pending_are(&decoder, BYTES("\xF0")));
    CHECK(piece_is(encoding_text_utf8_decoder_decode_borrowed(&decoder, bytes + 2, 4, false), 3, 0x1F4A9,
                   ENCODING_TEXT_PIECE_CHAR, 0));
    CHECK(pending_are(&decoder, "", 0));
    CHECK(piece_is(encoding_text_utf8_decoder_decode_borrowed(&decoder, bytes + 5, 2, false), 2, 0,
                   ENCODING_TEXT_PIECE_INPUT_EMPTY, 0));
    CHECK(pending_are(&decoder, BYTES("\xF0\x9F")));
    CHECK(piece_is(encoding_text_utf8_decoder_decode_borrowed(&decoder, bytes + 7, 2, false), 1, 0,
                   ENCODING_TEXT_PIECE_MALFORMED, 3));
    CHECK(pending_are(&decoder, "", 0));
    CHECK(piece_is(encoding_text_utf8_decoder_decode_borrowed(&decoder, bytes + 5, 2, true), 2, 0,
                   ENCODING_TEXT_PIECE_MALFORMED, 2));
    CHECK(pending_are(&decoder, "", 0));
}

bool is_new_encoder(encoding_text_utf8_encoder encoder)
{
    const uint16_t low[] = {0xDCA9};

    return encoding_text_utf8_encoder_max_buffer_length_from_utf16_without_replacement(&encoder, 4) == 12
        && encoded_is(encoding_text_utf8_encoder_encode_from_utf16(&encoder, ALL(low), fresh_bytes(), 9, true), 1, 3,
                      ENCODING_TEXT_INPUT_EMPTY)
        && bytes_are(BYTES("\xEF\xBF\xBD"));
}

encoding_text_utf8_encoder encoder_with(uint16_t surrogate)
{
    encoding_text_utf8_encoder encoder;
    encoder.surrogate = surrogate;
    return encoder;
}

void encoder_storage(void)
{
    const uint16_t units[] = {0xD83D, 0xDCA9};
    encoding_text_utf8_encoder encoder;

    CHECK(sizeof encoder == ENCODING_TEXT_ENCODER_SIZE);
    CHECK(offsetof(after_a_char_encoder, encoder) == ENCODING_TEXT_ENCODER_ALIGNMENT);
    memset(&encoder, 0, sizeof encoder);
    CHECK(is_new_encoder(encoder));
    encoder.surrogate = 0xD83D;
    encoding_text_utf8_encoder_new(&encoder);
    CHECK(is_new_encoder(encoder));
    CHECK(is_new_encoder(encoder_with(0x61)) && is_new_encoder(encoder_with(0xD7FF)));
    CHECK(is_new_encoder(encoder_with(0xDC00)) && is_new_encoder(encoder_with(0xFFFF)));
    encoding_text_utf8_encoder_new(&encoder);
    CHECK(encoded_is(encoding_text_utf8_encoder_encode_from_utf16(&encoder, units, 1, fresh_bytes(), 9, false), 1, 0,
                     ENCODING_TEXT_INPUT_EMPTY));
    CHECK(no_bytes_written() && encoder.surrogate == 0xD83D);
    CHECK(encoded_is(encoding_text_utf8_encoder_encode_from_utf16(&encoder, units + 1, 1, fresh_bytes(), 9, false), 1,
                     4,
                     ENCODING_TEXT_INPUT_EMPTY));
    CHECK(bytes_are(BYTES("\xF0\x9F\x92\xA9")) && is_new_encoder(encoder));
}

void encoder_lengths(void)
{
    const size_t large = SIZE_MAX - 5;
    encoding_text_utf8_encoder encoder = encoder_with(0xD83D);

    CHECK(encoding_text_utf8_encoder_max_buffer_length_from_utf16_without_replacement(&encoder, 4) == 15);
    CHECK(encoding_text_utf8_encoder_max_buffer_length_from_utf16_without_replacement(&encoder,
                                                                                 SIZE_MAX / 3 - 2) == SIZE_MAX - 3);
    CHECK(encoding_text_utf8_encoder_max_buffer_length_from_utf16_without_replacement(&encoder,
                                                                                      SIZE_MAX / 3) == SIZE_MAX);
    CHECK(encoding_text_utf8_encoder_max_buffer_length_from_utf16_without_replacement(&encoder, SIZE_MAX) == SIZE_MAX);
    CHECK(encoding_text_utf8_encoder_max_buffer_length_from_utf8_without_replacement(&encoder, 4) == 7);
    CHECK(encoding_text_utf8_encoder_max_buffer_length_from_utf8_without_replacement(&encoder, large) == SIZE_MAX - 2);
    CHECK(encoding_text_utf8_encoder_max_buffer_length_from_utf8_without_replacement(&encoder, SIZE_MAX) == SIZE_MAX);
}

void encoder_calls_from_utf16(void)
{
    const uint16_t units[] = {0xE4, 0x2603, 0x20AC};
    const uint16_t unpaired[] = {0x61, 0xD83D};
    encoding_text_utf8_encoder encoder;

    encoding_text_utf8_encoder_new(&encoder);
    CHECK(encoded_is(encoding_text_utf8_encoder_encode_from_utf16(&encoder, ALL(units), fresh_bytes(), 7, true), 2, 5,
                     ENCODING_TEXT_OUTPUT_FULL));
    CHECK(bytes_are(BYTES("\xC3\xA4\xE2\x98\x83")));
    CHECK(encoded_is(encoding_text_utf8_encoder_encode_from_utf16(&encoder, ALL(unpaired), fresh_bytes(), 4, true), 2, 4,
                     ENCODING_TEXT_INPUT_EMPTY));
    CHECK(bytes_are(BYTES("a\xEF\xBF\xBD")) && is_new_encoder(encoder));
    encoder.surrogate = 0xD83D;
    CHECK(encoded_is(encoding_text_utf8_encoder_encode_from_utf16(&encoder, ALL(units), fresh_bytes(), 2, true), 0, 0,
                     ENCODING_TEXT_OUTPUT_FULL));
    CHECK(no_bytes_written() && encoder.surrogate == 0xD83D);
    CHECK(encoded_is(encoding_text_utf8_encoder_encode_from_utf16(&encoder, units, 0, fresh_bytes(), 9, false), 0, 0,
                     ENCODING_TEXT_INPUT_EMPTY));
    CHECK(no_bytes_written() && encoder.surrogate == 0xD83D);
    CHECK(encoded_is(encoding_text_utf8_encoder_encode_from_utf16(&encoder, units, 0, fresh_bytes(), 9, true), 0, 3,
                     ENCODING_TEXT_INPUT_EMPTY));
    CHECK(bytes_are(BYTES("\xEF\xBF\xBD")) && is_new_encoder(encoder));
}

void encoder_calls_from_text(void)
{
    const uint8_t text[] = {0x61, 0xC3, 0xA4};
    const uint8_t malformed[] = {0x61, 0xC3};
    const bool marks[] = {false, true};

    /* `last` has no effect */
    for (size_t i = 0; i < 2; i++) {
        encoding_text_utf8_encoder encoder = encoder_with(0);
        CHECK(encoded_is(encoding_text_utf8_encoder_encode_from_utf8(&encoder, ALL(text), fresh_bytes(), 2, marks[i]),
                         1, 1,
                         ENCODING_TEXT_OUTPUT_FULL));
        CHECK(bytes_are(BYTES("a")));
        encoder.surrogate = 0xD83D;
        CHECK(encoded_is(encoding_text_utf8_encoder_encode_from_utf8(&encoder, ALL(malformed), fresh_bytes(), 9, marks[i]),
                         0, 0,
                         ENCODING_TEXT_INVALID_ARGUMENT_U8));
        CHECK(no_bytes_written() && encoder.surrogate == 0xD83D);
        CHECK(encoded_is(encoding_text_utf8_encoder_encode_from_utf8(&encoder, ALL(text), fresh_bytes(), 2, marks[i]),
                         0, 0,
                         ENCODING_TEXT_OUTPUT_FULL));
        CHECK(no_bytes_written() && encoder.surrogate == 0xD83D);
        CHECK(encoded_is(encoding_text_utf8_encoder_encode_from_utf8(&encoder, ALL(text), fresh_bytes(), 6, marks[i]),
                         3, 6,
                         ENCODING_TEXT_INPUT_EMPTY));
        CHECK(bytes_are(BYTES("\xEF\xBF\xBD" "a\xC3\xA4")) && is_new_encoder(encoder));
        encoder.surrogate = 0xD83D;
        CHECK(encoded_is(encoding_text_utf8_encoder_encode_from_utf8(&encoder, text, 0, fresh_bytes(), 9, marks[i]), 0,
                         3,
                         ENCODING_TEXT_INPUT_EMPTY));
        CHECK(bytes_are(BYTES("\xEF\xBF\xBD")) && is_new_encoder(encoder));
    }
}
