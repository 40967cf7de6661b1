/*
 * Calls of the decoder with byte order marks and replacement, and the layout of its state in the caller's storage. What a
 * mark decides is that of the Encoding Standard, "decode". C99 and C++17.
 */
#include "calls.h"

#include <string.h>

typedef struct {
    char first;
    encoding_text_decoder decoder;
} after_a_char_stream_decoder;

encoding_text_decoder stream_decoder_with(const char *pending, size_t length, uint8_t encoding, uint8_t bom)
{
    encoding_text_decoder decoder;
    memset(&decoder, 0xFF, sizeof decoder);
    encoding_text_decoder_new(&decoder, encoding, bom);
    memcpy(decoder.pending, pending, length < 3 ? length : 3);
    decoder.count = (uint8_t)length;
    return decoder;
}

bool coded_is(encoding_text_coder_result coded, size_t read, size_t written, size_t replaced, uint8_t result)
{
    return coded.read == read && coded.written == written && coded.replaced == replaced && coded.result == result;
}

bool stream_decoder_is(const encoding_text_decoder *decoder, const char *pending, size_t length, uint8_t encoding,
                       uint8_t bom)
{
    return decoder->count == length && memcmp(decoder->pending, pending, length) == 0 && decoder->encoding == encoding
        && decoder->bom == bom && encoding_text_decoder_encoding(decoder) == encoding
        && encoding_text_decoder_in_neutral_state(decoder) == (length == 0 && bom == ENCODING_TEXT_BOM_OFF);
}

static void byte_order_marks(void)
{
    const uint8_t utf8[] = {0xEF, 0xBB, 0xBF, 0x61}, le[] = {0xFF, 0xFE, 0x61}, be[] = {0xFE, 0xFF, 0x61};
    encoding_text_bom bom = encoding_text_for_bom(utf8, 4);

    CHECK(bom.length == 3 && bom.encoding == ENCODING_TEXT_UTF_8);
    bom = encoding_text_for_bom(utf8, 3);
    CHECK(bom.length == 3 && bom.encoding == ENCODING_TEXT_UTF_8);
    bom = encoding_text_for_bom(le, 2);
    CHECK(bom.length == 2 && bom.encoding == ENCODING_TEXT_UTF_16LE);
    bom = encoding_text_for_bom(be, 3);
    CHECK(bom.length == 2 && bom.encoding == ENCODING_TEXT_UTF_16BE);
    CHECK(encoding_text_for_bom(utf8, 2).length == 0 && encoding_text_for_bom(le, 1).length == 0);
    CHECK(encoding_text_for_bom(be, 1).length == 0 && encoding_text_for_bom(NULL, 0).length == 0);
    bom = encoding_text_for_bom(utf8 + 1, 3);
    CHECK(bom.length == 0 && bom.encoding == ENCODING_TEXT_UTF_8);
}

static void storage(void)
{
    const uint8_t letter[] = {0x61, 0x00};
    encoding_text_decoder decoder;

    CHECK(sizeof decoder == ENCODING_TEXT_STREAM_DECODER_SIZE);
    CHECK(offsetof(after_a_char_stream_decoder, decoder) == ENCODING_TEXT_STREAM_DECODER_ALIGNMENT);
    memset(&decoder, 0, sizeof decoder);
    CHECK(stream_decoder_is(&decoder, "", 0, ENCODING_TEXT_UTF_8, ENCODING_TEXT_BOM_OFF));
    memset(&decoder, 0xFF, sizeof decoder);
    encoding_text_decoder_new(&decoder, ENCODING_TEXT_UTF_16LE, ENCODING_TEXT_BOM_SNIFF);
    CHECK(stream_decoder_is(&decoder, "", 0, ENCODING_TEXT_UTF_16LE, ENCODING_TEXT_BOM_SNIFF));
    encoding_text_decoder_new(&decoder, ENCODING_TEXT_UTF_16BE, ENCODING_TEXT_BOM_REMOVE);
    CHECK(stream_decoder_is(&decoder, "", 0, ENCODING_TEXT_UTF_16BE, ENCODING_TEXT_BOM_REMOVE));
    /* any greater number, and a count above three */
    decoder = stream_decoder_with("abc", 4, 77, 99);
    CHECK(encoding_text_decoder_encoding(&decoder) == ENCODING_TEXT_UTF_16BE);
    CHECK(coded_is(encoding_text_decoder_decode_to_utf16(&decoder, letter, 2, fresh_units(), 4, true), 2, 1, 0,
                   ENCODING_TEXT_INPUT_EMPTY));
    CHECK(units_are(1, 0x6100) && stream_decoder_is(&decoder, "", 0, ENCODING_TEXT_UTF_16BE, ENCODING_TEXT_BOM_OFF));
    /* while a mark is looked for, bytes that start none aren't pending */
    decoder = stream_decoder_with("\x62", 1, ENCODING_TEXT_UTF_16LE, ENCODING_TEXT_BOM_SNIFF);
    CHECK(coded_is(encoding_text_decoder_decode_to_utf16(&decoder, letter, 2, fresh_units(), 4, false), 2, 1, 0,
                   ENCODING_TEXT_INPUT_EMPTY));
    CHECK(units_are(1, 0x61) && stream_decoder_is(&decoder, "", 0, ENCODING_TEXT_UTF_16LE, ENCODING_TEXT_BOM_OFF));
    /* if none is, a whole character isn't, nor a byte that is malformed */
    decoder = stream_decoder_with("\xEF\xBB", 2, ENCODING_TEXT_UTF_16LE, ENCODING_TEXT_BOM_OFF);
    CHECK(encoding_text_decoder_in_neutral_state(&decoder));
    decoder = stream_decoder_with("\xFE", 1, ENCODING_TEXT_UTF_8, ENCODING_TEXT_BOM_OFF);
    CHECK(encoding_text_decoder_in_neutral_state(&decoder));
}

static void lengths_of_streams(void)
{
    const uint8_t text[] = {0x61, 0x62, 0xC3, 0xA9};
    encoding_text_decoder off = stream_decoder_with("", 0, ENCODING_TEXT_UTF_8, ENCODING_TEXT_BOM_OFF);
    encoding_text_decoder sniff = stream_decoder_with("", 0, ENCODING_TEXT_UTF_8, ENCODING_TEXT_BOM_SNIFF);
    encoding_text_decoder le = stream_decoder_with("\x3D\xD8\xA9", 3, ENCODING_TEXT_UTF_16LE, ENCODING_TEXT_BOM_OFF);

    CHECK(encoding_text_decoder_max_utf16_buffer_length(&off, 10) == 11);
    CHECK(encoding_text_decoder_max_utf8_buffer_length_without_replacement(&off, 10) == 13);
    CHECK(encoding_text_decoder_max_utf8_buffer_length(&off, 10) == 33);
    CHECK(encoding_text_decoder_max_utf16_buffer_length(&le, 10) == 8);
    CHECK(encoding_text_decoder_max_utf8_buffer_length_without_replacement(&le, 10) == 22);
    CHECK(encoding_text_decoder_max_utf8_buffer_length(&le, 10) == 22);
    CHECK(encoding_text_decoder_max_utf16_buffer_length(&sniff, 10) >= 11);
    CHECK(encoding_text_decoder_max_utf8_buffer_length_without_replacement(&sniff, 10) >= 16);
    CHECK(encoding_text_decoder_max_utf8_buffer_length(&sniff, 10) >= 33);
    CHECK(encoding_text_decoder_max_utf16_buffer_length(&le, SIZE_MAX) == SIZE_MAX);
    CHECK(encoding_text_decoder_max_utf8_buffer_length_without_replacement(&off, SIZE_MAX) == SIZE_MAX);
    CHECK(encoding_text_decoder_max_utf8_buffer_length(&off, SIZE_MAX / 3) == SIZE_MAX);
    CHECK(encoding_text_decoder_latin1_byte_compatible_up_to(&off, ALL(text)) == 2);
    CHECK(encoding_text_decoder_latin1_byte_compatible_up_to(&off, text, 0) == 0);
    CHECK(encoding_text_decoder_latin1_byte_compatible_up_to(&sniff, ALL(text)) == ENCODING_TEXT_INVALID_ARGUMENT);
    CHECK(encoding_text_decoder_latin1_byte_compatible_up_to(&le, ALL(text)) == ENCODING_TEXT_INVALID_ARGUMENT);
    off = stream_decoder_with("\xE2", 1, ENCODING_TEXT_UTF_8, ENCODING_TEXT_BOM_OFF);
    CHECK(encoding_text_decoder_latin1_byte_compatible_up_to(&off, ALL(text)) == ENCODING_TEXT_INVALID_ARGUMENT);
}

static void marks_decide(void)
{
    const uint8_t le[] = {0xFF, 0xFE, 0x61, 0x00, 0x3D, 0xD8, 0x62}; /* a mark, "a", and a cut end */
    const uint8_t be[] = {0xFE, 0xFF, 0x00, 0x61, 0xDC, 0xA9, 0x00, 0x62};
    const uint8_t utf8[] = {0xEF, 0xBB, 0xBF, 0x61, 0xE2, 0x98, 0x5A};
    encoding_text_decoder decoder = stream_decoder_with("", 0, ENCODING_TEXT_UTF_8, ENCODING_TEXT_BOM_SNIFF);

    CHECK(coded_is(encoding_text_decoder_decode_to_utf8(&decoder, le, 1, fresh_bytes(), 9, false), 1, 0, 0,
                   ENCODING_TEXT_INPUT_EMPTY));
    CHECK(no_bytes_written() && stream_decoder_is(&decoder, "\xFF", 1, ENCODING_TEXT_UTF_8, ENCODING_TEXT_BOM_SNIFF));
    CHECK(coded_is(encoding_text_decoder_decode_to_utf8(&decoder, le + 1, 6, fresh_bytes(), 9, false), 6, 1, 0,
                   ENCODING_TEXT_INPUT_EMPTY));
    CHECK(bytes_are(BYTES("a"))
          && stream_decoder_is(&decoder, BYTES("\x3D\xD8\x62"), ENCODING_TEXT_UTF_16LE, ENCODING_TEXT_BOM_OFF));
    CHECK(coded_is(encoding_text_decoder_decode_to_utf16(&decoder, le, 0, fresh_units(), 9, true), 0, 1, 1,
                   ENCODING_TEXT_INPUT_EMPTY));
    CHECK(units_are(1, 0xFFFD) && stream_decoder_is(&decoder, "", 0, ENCODING_TEXT_UTF_16LE, ENCODING_TEXT_BOM_OFF));
    encoding_text_decoder_new(&decoder, ENCODING_TEXT_UTF_16LE, ENCODING_TEXT_BOM_SNIFF);
    CHECK(coded_is(encoding_text_decoder_decode_to_utf16(&decoder, ALL(be), fresh_units(), 9, true), 8, 3, 1,
                   ENCODING_TEXT_INPUT_EMPTY));
    CHECK(units_are(3, 0x61, 0xFFFD, 0x62)
          && stream_decoder_is(&decoder, "", 0, ENCODING_TEXT_UTF_16BE, ENCODING_TEXT_BOM_OFF));
    encoding_text_decoder_new(&decoder, ENCODING_TEXT_UTF_8, ENCODING_TEXT_BOM_REMOVE);
    CHECK(coded_is(encoding_text_decoder_decode_to_utf8(&decoder, ALL(utf8), fresh_bytes(), 9, true), 7, 5, 1,
                   ENCODING_TEXT_INPUT_EMPTY));
    CHECK(bytes_are(BYTES("a\xEF\xBF\xBDZ")) && encoding_text_decoder_in_neutral_state(&decoder));
    encoding_text_decoder_new(&decoder, ENCODING_TEXT_UTF_8, ENCODING_TEXT_BOM_OFF);
    CHECK(coded_is(encoding_text_decoder_decode_to_utf16(&decoder, utf8, 4, fresh_units(), 9, true), 4, 2, 0,
                   ENCODING_TEXT_INPUT_EMPTY));
    CHECK(units_are(2, 0xFEFF, 0x61));
    /* of another encoding, a mark isn't removed */
    encoding_text_decoder_new(&decoder, ENCODING_TEXT_UTF_16LE, ENCODING_TEXT_BOM_REMOVE);
    CHECK(coded_is(encoding_text_decoder_decode_to_utf16(&decoder, be, 2, fresh_units(), 9, true), 2, 1, 0,
                   ENCODING_TEXT_INPUT_EMPTY));
    CHECK(units_are(1, 0xFFFE));
}

static void spaces_and_reports(void)
{
    const uint8_t utf8[] = {0x61, 0xE2, 0x98, 0x5A, 0xF0, 0x9F, 0x92, 0xA9};
    const uint8_t le[] = {0x3D, 0xD8, 0x62, 0x00};
    encoding_text_decoder decoder = stream_decoder_with("", 0, ENCODING_TEXT_UTF_8, ENCODING_TEXT_BOM_OFF);

    CHECK(coded_is(encoding_text_decoder_decode_to_utf8(&decoder, ALL(utf8), fresh_bytes(), 8, true), 4, 5, 1,
                   ENCODING_TEXT_OUTPUT_FULL));
    CHECK(bytes_are(BYTES("a\xEF\xBF\xBDZ")));
    CHECK(coded_is(encoding_text_decoder_decode_to_utf8(&decoder, utf8 + 4, 4, fresh_bytes(), 4, true), 4, 4, 0,
                   ENCODING_TEXT_INPUT_EMPTY));
    CHECK(bytes_are(BYTES("\xF0\x9F\x92\xA9")));
    encoding_text_decoder_new(&decoder, ENCODING_TEXT_UTF_8, ENCODING_TEXT_BOM_SNIFF);
    CHECK(utf16_decoded_is(
        encoding_text_decoder_decode_to_utf16_without_replacement(&decoder, ALL(utf8), fresh_units(), 9, true), 3, 1,
        ENCODING_TEXT_MALFORMED, 2, 0));
    CHECK(units_are(1, 0x61) && encoding_text_decoder_in_neutral_state(&decoder));
    CHECK(utf16_decoded_is(
        encoding_text_decoder_decode_to_utf8_without_replacement(&decoder, utf8 + 3, 5, fresh_bytes(), 9, true), 5, 5,
        ENCODING_TEXT_INPUT_EMPTY, 0, 0));
    CHECK(bytes_are(BYTES("Z\xF0\x9F\x92\xA9")));
    /* the byte after an unpaired surrogate stays pending */
    encoding_text_decoder_new(&decoder, ENCODING_TEXT_UTF_16LE, ENCODING_TEXT_BOM_OFF);
    CHECK(utf16_decoded_is(
        encoding_text_decoder_decode_to_utf8_without_replacement(&decoder, le, 3, fresh_bytes(), 9, false), 3, 0,
        ENCODING_TEXT_INPUT_EMPTY, 0, 0));
    CHECK(utf16_decoded_is(
        encoding_text_decoder_decode_to_utf8_without_replacement(&decoder, le + 3, 1, fresh_bytes(), 9, true), 0, 0,
        ENCODING_TEXT_MALFORMED, 2, 1));
    CHECK(stream_decoder_is(&decoder, BYTES("\x62"), ENCODING_TEXT_UTF_16LE, ENCODING_TEXT_BOM_OFF));
    CHECK(utf16_decoded_is(
        encoding_text_decoder_decode_to_utf16_without_replacement(&decoder, le + 3, 1, fresh_units(), 9, true), 1, 1,
        ENCODING_TEXT_INPUT_EMPTY, 0, 0));
    CHECK(units_are(1, 0x62));
    CHECK(utf16_decoded_is(
        encoding_text_decoder_decode_to_utf16_without_replacement(&decoder, le, 4, fresh_units(), 1, false), 0, 0,
        ENCODING_TEXT_OUTPUT_FULL, 0, 0));
}

/* The characters of pending bytes may take the space, and then nothing of the source is read. */
static void pending_bytes_take_space(void)
{
    const uint8_t euro[] = {0xAC, 0x20};
    const uint8_t cat[] = {0x3D, 0xD8, 0xA9, 0xDC};
    encoding_text_decoder decoder = stream_decoder_with("\xEF\xBB", 2, ENCODING_TEXT_UTF_16LE, ENCODING_TEXT_BOM_SNIFF);

    CHECK(coded_is(encoding_text_decoder_decode_to_utf8(&decoder, ALL(euro), fresh_bytes(), 4, false), 0, 3, 0,
                   ENCODING_TEXT_OUTPUT_FULL));
    CHECK(bytes_are(BYTES("\xEB\xAF\xAF")));
    CHECK(coded_is(encoding_text_decoder_decode_to_utf8(&decoder, ALL(euro), fresh_bytes(), 3, false), 2, 3, 0,
                   ENCODING_TEXT_INPUT_EMPTY));
    CHECK(bytes_are(BYTES("\xE2\x82\xAC")));
    decoder = stream_decoder_with("\xEF\xBB", 2, ENCODING_TEXT_UTF_16LE, ENCODING_TEXT_BOM_SNIFF);
    CHECK(utf16_decoded_is(
        encoding_text_decoder_decode_to_utf16_without_replacement(&decoder, ALL(cat), fresh_units(), 2, false), 0, 1,
        ENCODING_TEXT_OUTPUT_FULL, 0, 0));
    CHECK(units_are(1, 0xBBEF));
}

/* A call that is full, and reads and writes nothing, leaves the decoder as it was. */
static void full_destinations_change_nothing(void)
{
    const uint8_t letter[] = {0x61, 0x00};
    encoding_text_decoder decoder = stream_decoder_with("\xEF\xBB", 2, ENCODING_TEXT_UTF_16LE, ENCODING_TEXT_BOM_SNIFF);

    CHECK(coded_is(encoding_text_decoder_decode_to_utf16(&decoder, ALL(letter), fresh_units(), 0, false), 0, 0, 0,
                   ENCODING_TEXT_OUTPUT_FULL));
    CHECK(stream_decoder_is(&decoder, BYTES("\xEF\xBB"), ENCODING_TEXT_UTF_16LE, ENCODING_TEXT_BOM_SNIFF));
    CHECK(coded_is(encoding_text_decoder_decode_to_utf16(&decoder, ALL(letter), fresh_units(), 2, true), 2, 2, 0,
                   ENCODING_TEXT_INPUT_EMPTY));
    CHECK(units_are(2, 0xBBEF, 0x61) && encoding_text_decoder_in_neutral_state(&decoder));
    decoder = stream_decoder_with("\xFE", 1, ENCODING_TEXT_UTF_8, ENCODING_TEXT_BOM_SNIFF);
    CHECK(utf16_decoded_is(
        encoding_text_decoder_decode_to_utf8_without_replacement(&decoder, letter, 1, fresh_bytes(), 3, false), 0, 0,
        ENCODING_TEXT_OUTPUT_FULL, 0, 0));
    CHECK(stream_decoder_is(&decoder, BYTES("\xFE"), ENCODING_TEXT_UTF_8, ENCODING_TEXT_BOM_SNIFF));
    CHECK(utf16_decoded_is(
        encoding_text_decoder_decode_to_utf8_without_replacement(&decoder, letter, 1, fresh_bytes(), 4, false), 0, 0,
        ENCODING_TEXT_MALFORMED, 1, 0));
    CHECK(encoding_text_decoder_in_neutral_state(&decoder));
}

void stream_decoders(void)
{
    byte_order_marks();
    storage();
    lengths_of_streams();
    marks_decide();
    spaces_and_reports();
    pending_bytes_take_space();
    full_destinations_change_nothing();
}

void stream_calls_of_no_elements(const uint8_t *bytes, uint8_t *to_bytes, uint16_t *to_units)
{
    const uint8_t letters[] = {0x61, 0x62};
    encoding_text_decoder decoder = stream_decoder_with("", 0, ENCODING_TEXT_UTF_8, ENCODING_TEXT_BOM_OFF);

    CHECK(encoding_text_for_bom(bytes, 0).length == 0);
    CHECK(encoding_text_decoder_latin1_byte_compatible_up_to(&decoder, bytes, 0) == 0);
    CHECK(coded_is(encoding_text_decoder_decode_to_utf16(&decoder, bytes, 0, to_units, 0, false), 0, 0, 0,
                   ENCODING_TEXT_INPUT_EMPTY));
    CHECK(coded_is(encoding_text_decoder_decode_to_utf8(&decoder, bytes, 0, to_bytes, 0, false), 0, 0, 0,
                   ENCODING_TEXT_INPUT_EMPTY));
    CHECK(stream_decoder_is(&decoder, "", 0, ENCODING_TEXT_UTF_8, ENCODING_TEXT_BOM_OFF));
    decoder = stream_decoder_with("\xE2\x98", 2, ENCODING_TEXT_UTF_8, ENCODING_TEXT_BOM_OFF);
    CHECK(coded_is(encoding_text_decoder_decode_to_utf8(&decoder, bytes, 0, fresh_bytes(), 4, true), 0, 3, 1,
                   ENCODING_TEXT_INPUT_EMPTY));
    CHECK(bytes_are(BYTES("\xEF\xBF\xBD")));
    CHECK(coded_is(encoding_text_decoder_decode_to_utf16(&decoder, ALL(letters), to_units, 0, true), 0, 0, 0,
                   ENCODING_TEXT_OUTPUT_FULL));
    CHECK(utf16_decoded_is(
        encoding_text_decoder_decode_to_utf8_without_replacement(&decoder, ALL(letters), to_bytes, 0, true), 0, 0,
        ENCODING_TEXT_OUTPUT_FULL, 0, 0));
    CHECK(utf16_decoded_is(
        encoding_text_decoder_decode_to_utf16_without_replacement(&decoder, bytes, 0, to_units, 0, true), 0, 0,
        ENCODING_TEXT_INPUT_EMPTY, 0, 0));
}
