/*
 * The layout of each struct of the header: C's rules for the platforms of the library, whose size_t has 64 bits. C99 and
 * C++17.
 */
#include "calls.h"

#include <string.h>

/* A struct, one of its fields, and where it is. */
typedef struct {
    const char *name;
    size_t offset;
    size_t size;
    size_t wanted_offset;
    size_t wanted_size;
} field;

#define MEMBER(type, name) (((type *)0)->name)
#define FIELD(type, name, offset, size) {#type "." #name, offsetof(type, name), sizeof MEMBER(type, name), offset, size}

static void fields(void)
{
    const field all[] = {
        FIELD(encoding_text_progress, read, 0, 8),
        FIELD(encoding_text_progress, written, 8, 8),
        FIELD(encoding_text_counted_progress, read, 0, 8),
        FIELD(encoding_text_counted_progress, written, 8, 8),
        FIELD(encoding_text_counted_progress, replaced, 16, 8),
        FIELD(encoding_text_prefix, length, 0, 8),
        FIELD(encoding_text_prefix, other, 8, 2),
        FIELD(encoding_text_utf8_decoder, pending, 0, 3),
        FIELD(encoding_text_utf8_decoder, count, 3, 1),
        FIELD(encoding_text_decode_result, read, 0, 8),
        FIELD(encoding_text_decode_result, written, 8, 8),
        FIELD(encoding_text_decode_result, result, 16, 1),
        FIELD(encoding_text_decode_result, malformed_length, 17, 1),
        FIELD(encoding_text_utf16_decoder, pending, 0, 3),
        FIELD(encoding_text_utf16_decoder, count, 3, 1),
        FIELD(encoding_text_utf16_decoder, big_endian, 4, 1),
        FIELD(encoding_text_decoder_result, read, 0, 8),
        FIELD(encoding_text_decoder_result, written, 8, 8),
        FIELD(encoding_text_decoder_result, result, 16, 1),
        FIELD(encoding_text_decoder_result, malformed_length, 17, 1),
        FIELD(encoding_text_decoder_result, read_after, 18, 1),
        FIELD(encoding_text_decoder, pending, 0, 3),
        FIELD(encoding_text_decoder, count, 3, 1),
        FIELD(encoding_text_decoder, encoding, 4, 1),
        FIELD(encoding_text_decoder, bom, 5, 1),
        FIELD(encoding_text_coder_result, read, 0, 8),
        FIELD(encoding_text_coder_result, written, 8, 8),
        FIELD(encoding_text_coder_result, replaced, 16, 8),
        FIELD(encoding_text_coder_result, result, 24, 1),
        FIELD(encoding_text_bom, length, 0, 8),
        FIELD(encoding_text_bom, encoding, 8, 1),
        FIELD(encoding_text_piece, read, 0, 8),
        FIELD(encoding_text_piece, character, 8, 4),
        FIELD(encoding_text_piece, kind, 12, 1),
        FIELD(encoding_text_piece, malformed_length, 13, 1),
        FIELD(encoding_text_utf8_encoder, surrogate, 0, 2),
        FIELD(encoding_text_encode_result, read, 0, 8),
        FIELD(encoding_text_encode_result, written, 8, 8),
        FIELD(encoding_text_encode_result, result, 16, 1),
        FIELD(encoding_text_turn, take, 0, 8),
        FIELD(encoding_text_turn, room, 8, 8),
        FIELD(encoding_text_turn, last, 16, 1),
        FIELD(encoding_text_report, place, 0, 8),
        FIELD(encoding_text_report, length, 8, 1),
        FIELD(encoding_text_decode_run_result, read, 0, 8),
        FIELD(encoding_text_decode_run_result, written, 8, 8),
        FIELD(encoding_text_decode_run_result, reports, 16, 8),
        FIELD(encoding_text_decode_run_result, result, 24, 1),
        FIELD(encoding_text_decode_run_result, malformed_length, 25, 1),
        FIELD(encoding_text_malformed_sequence, place, 0, 8),
        FIELD(encoding_text_malformed_sequence, length, 8, 8),
        FIELD(encoding_text_malformation, place, 0, 8),
        FIELD(encoding_text_malformation, length, 8, 8),
        FIELD(encoding_text_malformation, kind, 16, 1),
        FIELD(encoding_text_malformed_search, start, 0, 8),
        FIELD(encoding_text_malformed_search, pending, 8, 3),
        FIELD(encoding_text_malformed_search, count, 11, 1),
        FIELD(encoding_text_stream_malformation, offset, 0, 8),
        FIELD(encoding_text_stream_malformation, length, 8, 1),
        FIELD(encoding_text_stream_malformation, kind, 9, 1),
        FIELD(encoding_text_search_block_result, read, 0, 8),
        FIELD(encoding_text_search_block_result, found, 8, 8),
        FIELD(encoding_text_search_block_result, finished, 16, 1),
        FIELD(encoding_text_repair_result, written, 0, 8),
        FIELD(encoding_text_repair_result, replaced, 8, 8),
        FIELD(encoding_text_repair_block_result, read, 0, 8),
        FIELD(encoding_text_repair_block_result, written, 8, 8),
        FIELD(encoding_text_repair_block_result, replaced, 16, 8),
        FIELD(encoding_text_repair_block_result, finished, 24, 1),
    };
    for (size_t i = 0; i < sizeof all / sizeof all[0]; i++) {
        check(all[i].offset == all[i].wanted_offset && all[i].size == all[i].wanted_size, all[i].name, __FILE__,
              __LINE__);
    }
}

static void sizes(void)
{
    CHECK(sizeof(encoding_text_progress) == 16);
    CHECK(sizeof(encoding_text_counted_progress) == 24);
    CHECK(sizeof(encoding_text_prefix) == 16);
    CHECK(sizeof(encoding_text_utf8_decoder) == 4);
    CHECK(sizeof(encoding_text_decode_result) == 24);
    CHECK(sizeof(encoding_text_utf16_decoder) == 5);
    CHECK(sizeof(encoding_text_decoder_result) == 24);
    CHECK(sizeof(encoding_text_decoder) == 6);
    CHECK(sizeof(encoding_text_coder_result) == 32);
    CHECK(sizeof(encoding_text_bom) == 16);
    CHECK(sizeof(encoding_text_piece) == 16);
    CHECK(sizeof(encoding_text_utf8_encoder) == 2);
    CHECK(sizeof(encoding_text_encode_result) == 24);
    CHECK(sizeof(encoding_text_turn) == 24);
    CHECK(sizeof(encoding_text_report) == 16);
    CHECK(sizeof(encoding_text_decode_run_result) == 32);
    CHECK(sizeof(encoding_text_malformed_sequence) == 16);
    CHECK(sizeof(encoding_text_malformation) == 24);
    CHECK(sizeof(encoding_text_malformed_search) == ENCODING_TEXT_MALFORMED_SEARCH_SIZE);
    CHECK(sizeof(encoding_text_stream_malformation) == 16);
    CHECK(sizeof(encoding_text_search_block_result) == 24);
    CHECK(sizeof(encoding_text_repair_result) == 16);
    CHECK(sizeof(encoding_text_repair_block_result) == 32);
}

/* A result in memory whose bits were all set has no bit of them in a field. */
static void results_over_set_bits(void)
{
    const uint8_t malformed[] = {0x61, 0xE2, 0x98, 0x62};
    const uint16_t unit[] = {0x61};
    const encoding_text_turn turn = {4, 60, true};
    encoding_text_utf8_decoder decoder;
    encoding_text_utf8_encoder encoder;
    encoding_text_report report;
    encoding_text_decode_result decoded;
    encoding_text_piece piece;
    encoding_text_encode_result encoded;
    encoding_text_decode_run_result run;
    encoding_text_repair_block_result block;

    memset(&decoder, 0xFF, sizeof decoder);
    encoding_text_utf8_decoder_new(&decoder);
    CHECK(decoder.count == 0);
    memset(&decoded, 0xFF, sizeof decoded);
    decoded = encoding_text_utf8_decoder_decode_to_utf8(&decoder, ALL(malformed), fresh_bytes(), DST_LENGTH, true);
    CHECK(decoded_is(decoded, 3, 1, ENCODING_TEXT_MALFORMED, 2));
    memset(&piece, 0xFF, sizeof piece);
    piece = encoding_text_utf8_decoder_decode_borrowed(&decoder, malformed + 1, 3, true);
    CHECK(piece_is(piece, 2, 0, ENCODING_TEXT_PIECE_MALFORMED, 2));
    memset(&encoder, 0xFF, sizeof encoder);
    encoding_text_utf8_encoder_new(&encoder);
    CHECK(encoder.surrogate == 0);
    memset(&encoded, 0xFF, sizeof encoded);
    encoded = encoding_text_utf8_encoder_encode_from_utf16(&encoder, ALL(unit), fresh_bytes(), DST_LENGTH, true);
    CHECK(encoded_is(encoded, 1, 1, ENCODING_TEXT_INPUT_EMPTY));
    memset(&run, 0xFF, sizeof run);
    memset(&report, 0xFF, sizeof report);
    run = encoding_text_run_to_utf8(&decoder, ALL(malformed), &turn, 1, fresh_bytes(), DST_LENGTH, &report, 1);
    CHECK(outcome_is(run, 3, 1, 1, ENCODING_TEXT_MALFORMED, 2));
    CHECK(report.place == 1 && report.length == 2);
    memset(&block, 0xFF, sizeof block);
    block = encoding_text_repair_block(&decoder, ALL(malformed), fresh_bytes(), DST_LENGTH, true);
    CHECK(block_is(block, 4, 5, 1, true));
}

void layouts(void)
{
    fields();
    sizes();
    results_over_set_bits();
}
