/*
 * Calls each function that writes into a destination with one that is just long enough for a long text, and with one that is
 * an element shorter. C99.
 *
 * A text is one character again and again, longer than every block, so its lengths in each encoding are those of the character
 * times their number. The last line is 'N passed, M failed'.
 */
#include "calls.h"

#include <stdio.h>
#include <stdlib.h>
#include <string.h>

#define COUNT ((size_t)100003) /* characters */
#define ROOM (12 * COUNT + 64) /* bytes of a destination: three for each byte of a text, and some that no call may change */
#define UNITS (4 * COUNT + 64) /* code units of a destination */
#define INVALID ENCODING_TEXT_INVALID_ARGUMENT
#define UNWRITTEN 'Q'          /* each element of a destination before a call: it is a text */

/* A character: its UTF-8 and its UTF-16, and whether it is one of Latin1. */
typedef struct {
    const char *utf8;
    uint16_t utf16[2];
    size_t bytes; /* the length of the first */
    size_t units; /* the length of the second */
    bool is_latin1;
} character;

static const character CHARACTERS[] = {
    {"a", {0x61, 0}, 1, 1, true},
    {"\xC3\xA9", {0xE9, 0}, 2, 1, true},
    {"\xCE\xB1", {0x3B1, 0}, 2, 1, false},
    {"\xE4\xBD\xA0", {0x4F60, 0}, 3, 1, false},
    {"\xF0\x9F\x98\x80", {0xD83D, 0xDE00}, 4, 2, false},
};

static character one; /* of the text */
static uint8_t *utf8, *latin1, *little, *big;
static uint16_t *utf16;
static uint8_t *to_bytes;  /* a destination */
static uint16_t *to_units; /* another one */

static void *allocate(size_t length)
{
    void *memory = malloc(length);
    if (memory == NULL) {
        perror("malloc");
        exit(1);
    }
    return memory;
}

static void make_text(const character *each)
{
    one = *each;
    for (size_t i = 0; i < COUNT; i++) {
        memcpy(utf8 + i * one.bytes, one.utf8, one.bytes);
        memcpy(utf16 + i * one.units, one.utf16, one.units * sizeof *utf16);
        latin1[i] = (uint8_t)one.utf16[0];
    }
    for (size_t i = 0; i < COUNT * one.units; i++) {
        little[2 * i] = big[2 * i + 1] = (uint8_t)(utf16[i] & 0xFF);
        little[2 * i + 1] = big[2 * i] = (uint8_t)(utf16[i] >> 8);
    }
}

static void fresh(void)
{
    memset(to_bytes, UNWRITTEN, ROOM);
    for (size_t i = 0; i < UNITS; i++) {
        to_units[i] = UNWRITTEN;
    }
}

/* Whether the destination begins with these bytes, then has as many zeros, and is unchanged after them. */
static bool bytes_and_zeros_are(const uint8_t *wanted, size_t length, size_t zeros)
{
    bool are = memcmp(to_bytes, wanted, length) == 0;
    for (size_t i = length; i < ROOM; i++) {
        are = are && to_bytes[i] == (i < length + zeros ? 0 : UNWRITTEN);
    }
    fresh();
    return are;
}

static bool wrote_bytes(const uint8_t *wanted, size_t length)
{
    return bytes_and_zeros_are(wanted, length, 0);
}

static bool wrote_units(const uint16_t *wanted, size_t length)
{
    bool are = memcmp(to_units, wanted, length * sizeof *wanted) == 0;
    for (size_t i = length; i < UNITS; i++) {
        are = are && to_units[i] == UNWRITTEN;
    }
    fresh();
    return are;
}

/* A call that requires a destination of this length, and writes all of the text into it. */
#define NEEDS(call, src, src_length, dst, room, wrote, wanted, length) \
    CHECK(call(src, src_length, dst, room) == (length) && wrote(wanted, length)); \
    CHECK(call(src, src_length, dst, (room) - 1) == INVALID && wrote(wanted, 0))

/* A call that writes as many whole characters as fit, of so many elements each in the source and in the destination. */
#define FILLS(call, src, from, dst, to, wrote, wanted) \
    CHECK(counts_are(call(src, COUNT * (from), dst, COUNT * (to)), COUNT * (from), COUNT * (to)) && wrote(wanted, COUNT * (to))); \
    CHECK(counts_are(call(src, COUNT * (from), dst, COUNT * (to) - 1), (COUNT - 1) * (from), (COUNT - 1) * (to)) \
          && wrote(wanted, (COUNT - 1) * (to)))

/* A call that copies the ASCII prefix of as much as fits. */
#define COPIES(call, src, dst, wrote, wanted) \
    CHECK(prefix_is(call(src, COUNT, dst, COUNT), COUNT, 0) && wrote(wanted, COUNT)); \
    CHECK(prefix_is(call(src, COUNT, dst, COUNT - 1), COUNT - 1, 0) && wrote(wanted, COUNT - 1))

static void copies_of_ascii(void)
{
    COPIES(encoding_text_ascii_to_ascii, utf8, to_bytes, wrote_bytes, utf8);
    COPIES(encoding_text_ascii_to_basic_latin, utf8, to_units, wrote_units, utf16);
    COPIES(encoding_text_basic_latin_to_ascii, utf16, to_bytes, wrote_bytes, utf8);
    NEEDS(encoding_text_mem_copy_ascii_to_ascii, utf8, COUNT, to_bytes, COUNT, wrote_bytes, utf8, COUNT);
    NEEDS(encoding_text_mem_copy_ascii_to_basic_latin, utf8, COUNT, to_units, COUNT, wrote_units, utf16, COUNT);
    NEEDS(encoding_text_mem_copy_basic_latin_to_ascii, utf16, COUNT, to_bytes, COUNT, wrote_bytes, utf8, COUNT);
}

/* Into a text, whose next sixteen bytes are cleared. */
static void latin1_into_a_text(void)
{
    const size_t length = COUNT * one.bytes, shorter = length - one.bytes;
    CHECK(counts_are(encoding_text_mem_convert_latin1_to_str_partial(latin1, COUNT, to_bytes, length), COUNT, length)
          && wrote_bytes(utf8, length));
    CHECK(counts_are(encoding_text_mem_convert_latin1_to_str_partial(latin1, COUNT, to_bytes, length - 1), COUNT - 1, shorter)
          && bytes_and_zeros_are(utf8, shorter, one.bytes - 1));
    CHECK(encoding_text_mem_convert_latin1_to_str(latin1, COUNT, to_bytes, 2 * COUNT) == length
          && bytes_and_zeros_are(utf8, length, length == 2 * COUNT ? 0 : 16));
    CHECK(encoding_text_mem_convert_latin1_to_str(latin1, COUNT, to_bytes, 2 * COUNT - 1) == INVALID && wrote_bytes(utf8, 0));
}

static void latin1_calls(void)
{
    const size_t length = COUNT * one.bytes;
    NEEDS(encoding_text_mem_convert_latin1_to_utf16, latin1, COUNT, to_units, COUNT, wrote_units, utf16, COUNT);
    NEEDS(encoding_text_mem_convert_latin1_to_utf8, latin1, COUNT, to_bytes, 2 * COUNT, wrote_bytes, utf8, length);
    NEEDS(encoding_text_mem_decode_latin1, latin1, COUNT, to_bytes, length, wrote_bytes, utf8, length);
    NEEDS(encoding_text_mem_encode_latin1, utf8, length, to_bytes, COUNT, wrote_bytes, latin1, COUNT);
    NEEDS(encoding_text_mem_convert_utf8_to_latin1_lossy, utf8, length, to_bytes, length, wrote_bytes, latin1, COUNT);
    NEEDS(encoding_text_mem_convert_utf16_to_latin1_lossy, utf16, COUNT, to_bytes, COUNT, wrote_bytes, latin1, COUNT);
    FILLS(encoding_text_mem_convert_latin1_to_utf8_partial, latin1, 1, to_bytes, one.bytes, wrote_bytes, utf8);
    latin1_into_a_text();
}

static void conversions_to_utf16(void)
{
    const size_t length = COUNT * one.bytes, units = COUNT * one.units;
    NEEDS(encoding_text_mem_convert_utf8_to_utf16, utf8, length, to_units, length + 1, wrote_units, utf16, units);
    NEEDS(encoding_text_mem_convert_str_to_utf16, utf8, length, to_units, length, wrote_units, utf16, units);
    /* the caller of this one promises that the source is a text, and it checks the length of the destination */
    NEEDS(encoding_text_mem_convert_str_to_utf16_unchecked, utf8, length, to_units, length, wrote_units, utf16, units);
    FILLS(encoding_text_mem_convert_utf8_to_utf16_partial, utf8, one.bytes, to_units, one.units, wrote_units, utf16);
    FILLS(encoding_text_convert_utf8_to_utf16_up_to_invalid, utf8, one.bytes, to_units, one.units, wrote_units, utf16);
    CHECK(counts_are(encoding_text_mem_convert_utf8_to_utf16_without_replacement(utf8, length, to_units, length), length, units)
          && wrote_units(utf16, units));
    CHECK(are_invalid(encoding_text_mem_convert_utf8_to_utf16_without_replacement(utf8, length, to_units, length - 1))
          && wrote_units(utf16, 0));
}

static bool counted_is(encoding_text_counted_progress counted, size_t read, size_t written)
{
    return counted.read == read && counted.written == written && counted.replaced == 0;
}

static void conversions_from_utf16(void)
{
    const size_t length = COUNT * one.bytes, units = COUNT * one.units;
    const size_t fewer = units - one.units, shorter = length - one.bytes;
    NEEDS(encoding_text_mem_convert_utf16_to_utf8, utf16, units, to_bytes, 3 * units, wrote_bytes, utf8, length);
    NEEDS(encoding_text_mem_convert_utf16_to_str, utf16, units, to_bytes, 3 * units, wrote_bytes, utf8, length);
    FILLS(encoding_text_mem_convert_utf16_to_utf8_partial, utf16, one.units, to_bytes, one.bytes, wrote_bytes, utf8);
    FILLS(encoding_text_mem_convert_utf16_to_str_partial, utf16, one.units, to_bytes, one.bytes, wrote_bytes, utf8);
    CHECK(counted_is(encoding_text_mem_convert_utf16_to_utf8_partial_with_count(utf16, units, to_bytes, length), units, length)
          && wrote_bytes(utf8, length));
    CHECK(counted_is(encoding_text_mem_convert_utf16_to_utf8_partial_with_count(utf16, units, to_bytes, length - 1), fewer, shorter)
          && wrote_bytes(utf8, shorter));
    CHECK(counted_is(encoding_text_mem_convert_utf16_to_str_partial_with_count(utf16, units, to_bytes, length), units, length)
          && wrote_bytes(utf8, length));
    CHECK(counted_is(encoding_text_mem_convert_utf16_to_str_partial_with_count(utf16, units, to_bytes, length - 1), fewer, shorter)
          && wrote_bytes(utf8, shorter));
}

/* The two calls that a conversion is made of: one leaves at most three bytes free, the other one fills at most three. */
static void parts_of_a_conversion(void)
{
    const size_t length = COUNT * one.bytes, units = COUNT * one.units, in_three = 3 / one.bytes, in_two = 2 / one.bytes;
    encoding_text_progress done = encoding_text_convert_utf16_to_utf8_partial_inner(utf16, units, to_bytes, length + 3);
    CHECK(counts_are(done, units, length) && wrote_bytes(utf8, length));
    for (size_t room = length - 1; room <= length; room++) {
        done = encoding_text_convert_utf16_to_utf8_partial_inner(utf16, units, to_bytes, room);
        CHECK(done.written <= room && room - done.written <= 3 && done.written == done.read / one.units * one.bytes);
        CHECK(wrote_bytes(utf8, done.written));
    }
    CHECK(counts_are(encoding_text_convert_utf16_to_utf8_partial_tail(utf16, units, to_bytes, 3), in_three * one.units, in_three * one.bytes));
    CHECK(wrote_bytes(utf8, in_three * one.bytes));
    CHECK(counts_are(encoding_text_convert_utf16_to_utf8_partial_tail(utf16, units, to_bytes, 2), in_two * one.units, in_two * one.bytes));
    CHECK(wrote_bytes(utf8, in_two * one.bytes));
    CHECK(are_invalid(encoding_text_convert_utf16_to_utf8_partial_tail(utf16, units, to_bytes, 4)) && wrote_bytes(utf8, 0));
}

/* Code units are cut anywhere. */
static void bytes_of_units(void)
{
    const size_t units = COUNT * one.units, length = 2 * units;
    CHECK(counts_are(encoding_text_decode_utf16le(little, length, to_units, units), length, units) && wrote_units(utf16, units));
    CHECK(counts_are(encoding_text_decode_utf16le(little, length, to_units, units - 1), length - 2, units - 1) && wrote_units(utf16, units - 1));
    CHECK(counts_are(encoding_text_decode_utf16be(big, length, to_units, units), length, units) && wrote_units(utf16, units));
    CHECK(counts_are(encoding_text_decode_utf16be(big, length, to_units, units - 1), length - 2, units - 1) && wrote_units(utf16, units - 1));
    CHECK(counts_are(encoding_text_encode_utf16le(utf16, units, to_bytes, length), units, length) && wrote_bytes(little, length));
    CHECK(counts_are(encoding_text_encode_utf16le(utf16, units, to_bytes, length - 1), units - 1, length - 2) && wrote_bytes(little, length - 2));
    CHECK(counts_are(encoding_text_encode_utf16be(utf16, units, to_bytes, length), units, length) && wrote_bytes(big, length));
    CHECK(counts_are(encoding_text_encode_utf16be(utf16, units, to_bytes, length - 1), units - 1, length - 2) && wrote_bytes(big, length - 2));
}

/* Whether a call read and wrote so much of the text: `missing` characters less than all. */
#define ENDS(done, from, to, missing) \
    ((done).read == (COUNT - (missing)) * (from) && (done).written == (COUNT - (missing)) * (to) \
     && (done).result == ((missing) != 0 ? ENCODING_TEXT_OUTPUT_FULL : ENCODING_TEXT_INPUT_EMPTY))

/* A call marked last over the whole text, by a new decoder or encoder, into each of the two destinations. */
#define STREAMS(type, start, call, src, from, dst, to, wrote, wanted) \
    for (size_t missing = 0; missing < 2; missing++) { \
        type state = start; \
        CHECK(ENDS(call(&state, src, COUNT * (from), dst, COUNT * (to) - missing, true), from, to, missing) \
              && wrote(wanted, (COUNT - missing) * (to))); \
    }

static void streams_of_utf8(void)
{
    STREAMS(encoding_text_utf8_decoder, decoder_with(0, 0, 0, 0), encoding_text_utf8_decoder_decode_to_utf16, utf8, one.bytes,
            to_units, one.units, wrote_units, utf16)
    STREAMS(encoding_text_utf8_decoder, decoder_with(0, 0, 0, 0), encoding_text_utf8_decoder_decode_to_utf8, utf8, one.bytes,
            to_bytes, one.bytes, wrote_bytes, utf8)
    STREAMS(encoding_text_utf8_encoder, encoder_with(0), encoding_text_utf8_encoder_encode_from_utf16, utf16, one.units, to_bytes,
            one.bytes, wrote_bytes, utf8)
    STREAMS(encoding_text_utf8_encoder, encoder_with(0), encoding_text_utf8_encoder_encode_from_utf8, utf8, one.bytes, to_bytes,
            one.bytes, wrote_bytes, utf8)
    STREAMS(encoding_text_utf8_encoder, encoder_with(0), encoding_text_utf8_encoder_encode_from_utf16_with_count, utf16, one.units,
            to_bytes, one.bytes, wrote_bytes, utf8)
    STREAMS(encoding_text_utf8_encoder, encoder_with(0), encoding_text_utf8_encoder_encode_from_utf8_with_count, utf8, one.bytes,
            to_bytes, one.bytes, wrote_bytes, utf8)
}

static void streams_of_utf16(void)
{
    for (uint8_t order = 0; order < 2; order++) {
        const uint8_t *bytes = order ? big : little;
        STREAMS(encoding_text_utf16_decoder, utf16_decoder_with(0, 0, 0, 0, order), encoding_text_utf16_decoder_decode_to_utf16,
                bytes, 2 * one.units, to_units, one.units, wrote_units, utf16)
        STREAMS(encoding_text_utf16_decoder, utf16_decoder_with(0, 0, 0, 0, order), encoding_text_utf16_decoder_decode_to_utf8,
                bytes, 2 * one.units, to_bytes, one.bytes, wrote_bytes, utf8)
    }
}

static void streams_of_each_encoding(void)
{
    const uint8_t *sources[] = {utf8, little, big};
    for (uint8_t encoding = ENCODING_TEXT_UTF_8; encoding <= ENCODING_TEXT_UTF_16BE; encoding++) {
        const uint8_t *bytes = sources[encoding];
        const size_t from = encoding == ENCODING_TEXT_UTF_8 ? one.bytes : 2 * one.units;
        const encoding_text_decoder decoder = stream_decoder_with("", 0, encoding, ENCODING_TEXT_BOM_OFF);
        STREAMS(encoding_text_decoder, decoder, encoding_text_decoder_decode_to_utf16, bytes, from, to_units, one.units, wrote_units, utf16)
        STREAMS(encoding_text_decoder, decoder, encoding_text_decoder_decode_to_utf8, bytes, from, to_bytes, one.bytes, wrote_bytes, utf8)
        STREAMS(encoding_text_decoder, decoder, encoding_text_decoder_decode_to_utf16_without_replacement, bytes, from, to_units,
                one.units, wrote_units, utf16)
        STREAMS(encoding_text_decoder, decoder, encoding_text_decoder_decode_to_utf8_without_replacement, bytes, from, to_bytes,
                one.bytes, wrote_bytes, utf8)
    }
}

/* Runs of one turn. The array for reports has an element for each turn, or one less. */
static void runs_of_a_turn(void)
{
    const size_t length = COUNT * one.bytes, units = COUNT * one.units;
    const encoding_text_turn all[] = {{4 * COUNT, 4 * COUNT, true}};
    encoding_text_report reports[1];
    for (size_t missing = 0; missing < 2; missing++) {
        encoding_text_utf8_decoder to_utf16 = decoder_with(0, 0, 0, 0), to_utf8 = to_utf16;
        encoding_text_utf8_encoder from_utf16 = encoder_with(0);
        CHECK(ENDS(encoding_text_run_to_utf16(&to_utf16, utf8, length, all, 1, to_units, units - missing, reports, 1), one.bytes, one.units, missing)
              && wrote_units(utf16, (COUNT - missing) * one.units));
        CHECK(ENDS(encoding_text_run_to_utf8(&to_utf8, utf8, length, all, 1, to_bytes, length - missing, reports, 1), one.bytes, one.bytes, missing)
              && wrote_bytes(utf8, (COUNT - missing) * one.bytes));
        CHECK(ENDS(encoding_text_run_from_utf16(&from_utf16, utf16, units, all, 1, to_bytes, length - missing), one.units, one.bytes, missing)
              && wrote_bytes(utf8, (COUNT - missing) * one.bytes));
    }
    encoding_text_utf8_decoder decoder = decoder_with(0, 0, 0, 0);
    CHECK(encoding_text_run_to_utf16(&decoder, utf8, length, all, 1, to_units, units, reports, 0).result == ENCODING_TEXT_INVALID_ARGUMENT_U8);
    CHECK(encoding_text_run_to_utf8(&decoder, utf8, length, all, 1, to_bytes, length, reports, 0).result == ENCODING_TEXT_INVALID_ARGUMENT_U8);
    CHECK(wrote_bytes(utf8, 0));
}

static void repairs(void)
{
    const size_t length = COUNT * one.bytes;
    CHECK(repaired_is(encoding_text_repair_slice(utf8, length, to_bytes, 3 * length), length, 0) && wrote_bytes(utf8, length));
    CHECK(repaired_is(encoding_text_repair_slice(utf8, length, to_bytes, 3 * length - 1), INVALID, 0) && wrote_bytes(utf8, 0));
    CHECK(block_is(encoding_text_repair_slice_partial(utf8, length, to_bytes, length), length, length, 0, true) && wrote_bytes(utf8, length));
    CHECK(block_is(encoding_text_repair_slice_partial(utf8, length, to_bytes, length - 1), length - one.bytes, length - one.bytes, 0, false)
          && wrote_bytes(utf8, length - one.bytes));
    /* a call by blocks may stop once fewer than four bytes are free */
    for (size_t room = length - 1; room <= length + 3; room++) {
        encoding_text_utf8_decoder decoder = decoder_with(0, 0, 0, 0);
        const encoding_text_repair_block_result done = encoding_text_repair_block(&decoder, utf8, length, to_bytes, room, true);
        CHECK(done.read == done.written && done.written <= room && done.finished == (done.read == length) && done.replaced == 0);
        CHECK((done.finished ? room >= length : room - done.written < 4) && wrote_bytes(utf8, done.written));
    }
}

/* Malformed bytes: three are written for each, or one is found. */
static void malformed_bytes(void)
{
    static encoding_text_stream_malformation found[COUNT];
    encoding_text_malformed_search search, shorter;
    encoding_text_search_block_result done;
    memset(latin1, 0xFF, COUNT);
    for (size_t i = 0; i < COUNT; i++) {
        memcpy(utf8 + 3 * i, "\xEF\xBF\xBD", 3);
    }
    fresh();
    CHECK(repaired_is(encoding_text_repair_slice(latin1, COUNT, to_bytes, 3 * COUNT), 3 * COUNT, COUNT) && wrote_bytes(utf8, 3 * COUNT));
    CHECK(repaired_is(encoding_text_repair_slice(latin1, COUNT, to_bytes, 3 * COUNT - 1), INVALID, 0) && wrote_bytes(utf8, 0));
    CHECK(block_is(encoding_text_repair_slice_partial(latin1, COUNT, to_bytes, 3 * COUNT), COUNT, 3 * COUNT, COUNT, true)
          && wrote_bytes(utf8, 3 * COUNT));
    CHECK(block_is(encoding_text_repair_slice_partial(latin1, COUNT, to_bytes, 3 * COUNT - 1), COUNT - 1, 3 * COUNT - 3, COUNT - 1, false)
          && wrote_bytes(utf8, 3 * COUNT - 3));
    encoding_text_malformed_search_new(&search, 0);
    encoding_text_malformed_search_new(&shorter, 0);
    done = encoding_text_search_block(&search, latin1, COUNT, found, COUNT, true);
    CHECK(done.read == COUNT && done.found == COUNT && done.finished && found[COUNT - 1].offset == COUNT - 1);
    memset(found, 0x55, sizeof found);
    done = encoding_text_search_block(&shorter, latin1, COUNT, found, COUNT - 1, true);
    CHECK(done.read == COUNT - 1 && done.found == COUNT - 1 && !done.finished && found[COUNT - 2].offset == COUNT - 2);
    CHECK(found[COUNT - 1].length == 0x55 && found[COUNT - 1].kind == 0x55);
}

int main(void)
{
    utf8 = (uint8_t *)allocate(4 * COUNT);
    latin1 = (uint8_t *)allocate(COUNT);
    little = (uint8_t *)allocate(4 * COUNT);
    big = (uint8_t *)allocate(4 * COUNT);
    utf16 = (uint16_t *)allocate(2 * COUNT * sizeof *utf16);
    to_bytes = (uint8_t *)allocate(ROOM);
    to_units = (uint16_t *)allocate(UNITS * sizeof *to_units);
    for (size_t i = 0; i < sizeof CHARACTERS / sizeof *CHARACTERS; i++) {
        make_text(&CHARACTERS[i]);
        fresh();
        if (one.bytes == 1) {
            copies_of_ascii();
        }
        if (one.is_latin1) {
            latin1_calls();
        }
        conversions_to_utf16();
        conversions_from_utf16();
        parts_of_a_conversion();
        bytes_of_units();
        streams_of_utf8();
        streams_of_utf16();
        streams_of_each_encoding();
        runs_of_a_turn();
        repairs();
    }
    malformed_bytes();
    return finish();
}
