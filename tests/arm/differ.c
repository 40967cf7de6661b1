/*
 * Calls each function of encoding_text.h with random arguments, and prints a line for each with a sum of all its results and
 * of what it wrote, the bytes after that included. Two builds of the library agree if they print the same lines:
 *
 *   differ SEED ROUNDS LONGEST
 *
 * A round calls each function once, or a stream's until its end. LONGEST is the greatest length of a source in bytes.
 */
#include "texts.h"

#include <encoding_text.h>

#include <stdio.h>
#include <stdlib.h>
#include <string.h>

enum { ROWS = 128, CALLS = 4000 };

static struct {
    const char *name;
    uint64_t sum;
} rows[ROWS];
static size_t row, row_count;

/* The next calls are of this function. Each round has the same rows in the same order. */
static void begin(const char *name)
{
    row = row_count++;
    if (row == ROWS) {
        fputs("differ: more rows than ROWS\n", stderr);
        exit(3);
    }
    rows[row].name = name;
}

static void add(uint64_t value)
{
    rows[row].sum = (rows[row].sum ^ value) * 0x100000001B3;
    rows[row].sum ^= rows[row].sum >> 29;
}

static void add_bytes(const void *start, size_t length)
{
    const uint8_t *at = start;

    for (; length > 0; at++, length--) {
        rows[row].sum = (rows[row].sum ^ *at) * 0x100000001B3;
    }
    add(length);
}

/* A destination's length: just enough, more, less, or about that of the source. */
static size_t room(size_t length, size_t factor)
{
    switch (below(4)) {
    case 0: return length * factor;
    case 1: return length * factor + below(40);
    case 2: return below(length * factor + 2);
    default: return length + below(20);
    }
}

/* Each macro is a row: the function, its source (any_bytes, sound_bytes, latin1_bytes, any_units), and for a conversion the
 * element of its destination and how many of these one element of the source may need. */
#define SCAN(name, source) \
    do { \
        begin(#name); \
        __typeof__(source()) src = source(); \
        add(encoding_text_##name(src.start, src.length)); \
    } while (0)

#define PLACE(name) \
    do { \
        begin(#name); \
        bytes src = any_bytes(); \
        __typeof__(encoding_text_##name(NULL, 0)) found = encoding_text_##name(src.start, src.length); \
        add(found.place); \
        add(found.length); \
    } while (0)

#define CONVERT(name, source, element, factor, results) \
    do { \
        begin(#name); \
        __typeof__(source()) src = source(); \
        size_t length = room(src.length, factor); \
        element *dst = destination(length, sizeof *dst); \
        __typeof__(encoding_text_##name(NULL, 0, NULL, 0)) got = encoding_text_##name(src.start, src.length, dst, length); \
        results; \
        add_bytes(dst, length * sizeof *dst); \
    } while (0)

#define LENGTH(name, source, element, factor) CONVERT(name, source, element, factor, add(got))
#define PREFIX(name, source, element) CONVERT(name, source, element, 1, (add(got.length), add(got.other)))
#define PROGRESS(name, source, element, factor) CONVERT(name, source, element, factor, (add(got.read), add(got.written)))
#define COUNTED(name, source, element, factor) \
    CONVERT(name, source, element, factor, (add(got.read), add(got.written), add(got.replaced)))

/* A text whose characters are up to U+00FF. */
static bytes latin1_bytes(void)
{
    bytes text = sound_bytes();
    text.length = encoding_text_mem_utf8_latin1_up_to(text.start, text.length);
    return text;
}

static void scan_bytes(void)
{
    SCAN(ascii_valid_up_to, any_bytes);
    SCAN(iso_2022_jp_ascii_valid_up_to, any_bytes);
    SCAN(mem_is_ascii, any_bytes);
    SCAN(mem_is_utf8_latin1, any_bytes);
    SCAN(mem_utf8_latin1_up_to, any_bytes);
    SCAN(mem_str_latin1_up_to, any_bytes);
    SCAN(mem_is_utf8_bidi, any_bytes);
    SCAN(mem_check_utf8_for_latin1_and_bidi, any_bytes);
    SCAN(mem_check_str_for_latin1_and_bidi, any_bytes);
    SCAN(mem_is_str_latin1_unchecked, sound_bytes);
    SCAN(mem_str_latin1_up_to_unchecked, sound_bytes);
    SCAN(mem_is_str_bidi_unchecked, sound_bytes);
    SCAN(mem_check_str_for_latin1_and_bidi_unchecked, sound_bytes);
    SCAN(mem_latin1_length_from_utf8_unchecked, latin1_bytes);
    SCAN(mem_utf16_length_from_utf8_unchecked, sound_bytes);
    SCAN(utf8_count_unchecked, sound_bytes);
    SCAN(mem_utf16_length_from_utf8, any_bytes);
    SCAN(mem_utf8_length_from_latin1, any_bytes);
    SCAN(mem_latin1_length_from_utf8, any_bytes);
    SCAN(utf8_count, any_bytes);
    SCAN(repaired_utf8_length, any_bytes);
    SCAN(utf8_valid_up_to, any_bytes);
    PLACE(next_malformed);
    PLACE(next_malformation);

    begin("validate_ascii");
    bytes src = any_bytes();
    encoding_text_prefix found = encoding_text_validate_ascii(src.start, src.length);
    add(found.length);
    add(found.other);
}

static void scan_units(void)
{
    SCAN(mem_is_basic_latin, any_units);
    SCAN(mem_is_utf16_latin1, any_units);
    SCAN(mem_utf16_valid_up_to, any_units);
    SCAN(mem_is_utf16_bidi, any_units);
    SCAN(mem_check_utf16_for_latin1_and_bidi, any_units);
    SCAN(mem_utf8_length_from_utf16, any_units);
    SCAN(utf16_count, any_units);

    begin("mem_is_utf16_code_unit_bidi");
    add(encoding_text_mem_is_utf16_code_unit_bidi((uint16_t)below(0x10000)));
    begin("mem_ensure_utf16_validity");
    units src = any_units();
    encoding_text_mem_ensure_utf16_validity(src.start, src.length);
    add_bytes(src.start, 2 * src.length);
}

static void convert_bytes(void)
{
    PREFIX(ascii_to_ascii, any_bytes, uint8_t);
    PREFIX(ascii_to_basic_latin, any_bytes, uint16_t);
    LENGTH(mem_copy_ascii_to_ascii, any_bytes, uint8_t, 1);
    LENGTH(mem_copy_ascii_to_basic_latin, any_bytes, uint16_t, 1);
    LENGTH(mem_convert_latin1_to_utf16, any_bytes, uint16_t, 1);
    PROGRESS(mem_convert_latin1_to_utf8_partial, any_bytes, uint8_t, 2);
    LENGTH(mem_convert_latin1_to_utf8, any_bytes, uint8_t, 2);
    PROGRESS(mem_convert_latin1_to_str_partial, any_bytes, uint8_t, 2);
    LENGTH(mem_convert_latin1_to_str, any_bytes, uint8_t, 2);
    LENGTH(mem_decode_latin1, any_bytes, uint8_t, 2);
    LENGTH(mem_convert_utf8_to_latin1_lossy, any_bytes, uint8_t, 1);
    LENGTH(mem_encode_latin1, any_bytes, uint8_t, 1);
    LENGTH(mem_convert_utf8_to_utf16, any_bytes, uint16_t, 1);
    LENGTH(mem_convert_str_to_utf16, any_bytes, uint16_t, 1);
    LENGTH(mem_convert_str_to_utf16_unchecked, sound_bytes, uint16_t, 1);
    PROGRESS(mem_convert_utf8_to_utf16_without_replacement, any_bytes, uint16_t, 1);
    PROGRESS(mem_convert_utf8_to_utf16_partial, any_bytes, uint16_t, 1);
    PROGRESS(convert_utf8_to_utf16_up_to_invalid, any_bytes, uint16_t, 1);
    PROGRESS(decode_utf16le, any_bytes, uint16_t, 1);
    PROGRESS(decode_utf16be, any_bytes, uint16_t, 1);
    CONVERT(repair_slice, any_bytes, uint8_t, 3, (add(got.written), add(got.replaced)));
    CONVERT(repair_slice_partial, any_bytes, uint8_t, 3,
            (add(got.read), add(got.written), add(got.replaced), add(got.finished)));
}

static void convert_units(void)
{
    PREFIX(basic_latin_to_ascii, any_units, uint8_t);
    LENGTH(mem_copy_basic_latin_to_ascii, any_units, uint8_t, 1);
    LENGTH(mem_convert_utf16_to_latin1_lossy, any_units, uint8_t, 1);
    PROGRESS(mem_convert_utf16_to_utf8_partial, any_units, uint8_t, 3);
    COUNTED(mem_convert_utf16_to_utf8_partial_with_count, any_units, uint8_t, 3);
    LENGTH(mem_convert_utf16_to_utf8, any_units, uint8_t, 3);
    PROGRESS(mem_convert_utf16_to_str_partial, any_units, uint8_t, 3);
    COUNTED(mem_convert_utf16_to_str_partial_with_count, any_units, uint8_t, 3);
    LENGTH(mem_convert_utf16_to_str, any_units, uint8_t, 3);
    PROGRESS(convert_utf16_to_utf8_partial_inner, any_units, uint8_t, 3);
    PROGRESS(convert_utf16_to_utf8_partial_tail, any_units, uint8_t, 3);
    PROGRESS(encode_utf16le, any_units, uint8_t, 2);
    PROGRESS(encode_utf16be, any_units, uint8_t, 2);
}

/* How much of what is left a call gets, and whether it is the last one. */
static size_t take(size_t left, bool *last)
{
    size_t length = below(3) != 0 ? left : below(left + 1);

    *last = length == left;
    return length;
}

/* What a call gets as its destination. After many calls it is long enough, so that the stream ends. */
static size_t stream_room(size_t taken, size_t calls)
{
    return calls > 40 ? 3 * taken + 16 : room(taken, 3);
}

#define DECODE(name, element) \
    do { \
        begin(#name); \
        encoding_text_utf8_decoder decoder; \
        encoding_text_utf8_decoder_new(&decoder); \
        bytes src = any_bytes(); \
        size_t at = 0, calls = 0; \
        bool last, ended = false; \
        for (; !ended && calls < CALLS; calls++) { \
            size_t taken = take(src.length - at, &last), length = stream_room(taken, calls); \
            element *dst = destination(length, sizeof *dst); \
            encoding_text_decode_result got = encoding_text_##name(&decoder, src.start + at, taken, dst, length, last); \
            add(got.read); \
            add(got.written); \
            add(got.result); \
            add(got.malformed_length); \
            add_bytes(dst, length * sizeof *dst); \
            add_bytes(&decoder, sizeof decoder); \
            at += got.read; \
            ended = last && got.result == ENCODING_TEXT_INPUT_EMPTY; \
        } \
    } while (0)

/* The bytes of code units in one of the byte orders, in half of the cases without the last byte. */
static bytes utf16_bytes(bool big_endian)
{
    units src = any_units();
    bytes result = {(const uint8_t *)src.start, 2 * src.length};

    for (size_t i = 0; big_endian && i < src.length; i++) {
        src.start[i] = (uint16_t)(src.start[i] << 8 | src.start[i] >> 8);
    }
    result.length -= src.length > 0 ? below(2) : 0;
    return result;
}

#define DECODE_UTF16(name, element) \
    do { \
        begin(#name); \
        encoding_text_utf16_decoder decoder; \
        encoding_text_utf16_decoder_new(&decoder, below(2) != 0); \
        bytes src = below(3) != 0 ? utf16_bytes(decoder.big_endian != 0) : any_bytes(); \
        size_t at = 0, calls = 0; \
        bool last, ended = false; \
        for (; !ended && calls < CALLS; calls++) { \
            size_t taken = take(src.length - at, &last), length = stream_room(taken, calls); \
            element *dst = destination(length, sizeof *dst); \
            encoding_text_decoder_result got = encoding_text_##name(&decoder, src.start + at, taken, dst, length, last); \
            add(got.read); \
            add(got.written); \
            add(got.result); \
            add(got.malformed_length); \
            add(got.read_after); \
            add_bytes(dst, length * sizeof *dst); \
            add_bytes(&decoder, sizeof decoder); \
            at += got.read; \
            ended = last && got.result == ENCODING_TEXT_INPUT_EMPTY; \
        } \
    } while (0)

#define ENCODE_TO(name, source, result_type, more) \
    do { \
        begin(#name); \
        encoding_text_utf8_encoder encoder; \
        encoding_text_utf8_encoder_new(&encoder); \
        __typeof__(source()) src = source(); \
        size_t at = 0, calls = 0; \
        bool last, ended = false; \
        for (; !ended && calls < CALLS; calls++) { \
            size_t taken = take(src.length - at, &last), length = stream_room(taken, calls); \
            uint8_t *dst = destination(length, 1); \
            result_type got = encoding_text_##name(&encoder, src.start + at, taken, dst, length, last); \
            add(got.read); \
            add(got.written); \
            add(got.result); \
            more; \
            add_bytes(dst, length); \
            add(encoder.surrogate); \
            at += got.read; \
            ended = last && got.result == ENCODING_TEXT_INPUT_EMPTY; \
        } \
    } while (0)

#define ENCODE(name, source) ENCODE_TO(name, source, encoding_text_encode_result, (void)0)
#define ENCODE_COUNTED(name, source) ENCODE_TO(name, source, encoding_text_coder_result, add(got.replaced))

static void borrow(void)
{
    encoding_text_utf8_decoder decoder;
    bytes src = any_bytes();
    size_t at = 0, calls = 0;
    bool last, ended = false;

    begin("utf8_decoder_decode_borrowed");
    encoding_text_utf8_decoder_new(&decoder);
    for (; !ended && calls < CALLS; calls++) {
        size_t taken = take(src.length - at, &last);
        encoding_text_piece got = encoding_text_utf8_decoder_decode_borrowed(&decoder, src.start + at, taken, last);
        add(got.read);
        add(got.character);
        add(got.kind);
        add(got.malformed_length);
        add_bytes(&decoder, sizeof decoder);
        at += got.read;
        ended = last && got.kind == ENCODING_TEXT_PIECE_INPUT_EMPTY;
    }
}

static void repair_blocks(void)
{
    encoding_text_utf8_decoder decoder;
    bytes src = any_bytes();
    size_t at = 0, calls = 0;
    bool last, ended = false;

    begin("repair_block");
    encoding_text_utf8_decoder_new(&decoder);
    for (; !ended && calls < CALLS; calls++) {
        size_t taken = take(src.length - at, &last), length = stream_room(taken, calls);
        uint8_t *dst = destination(length, 1);
        encoding_text_repair_block_result got = encoding_text_repair_block(&decoder, src.start + at, taken, dst, length, last);
        add(got.read);
        add(got.written);
        add(got.replaced);
        add(got.finished);
        add_bytes(dst, length);
        add_bytes(&decoder, sizeof decoder);
        at += got.read;
        ended = last && got.finished;
    }
}

static void search_blocks(void)
{
    encoding_text_malformed_search search;
    encoding_text_stream_malformation found[8];
    bytes src = any_bytes();
    size_t at = 0, calls = 0;
    bool last, ended = false;

    begin("search_block");
    encoding_text_malformed_search_new(&search, below(100000));
    for (; !ended && calls < CALLS; calls++) {
        size_t taken = take(src.length - at, &last), length = 1 + below(8);
        encoding_text_search_block_result got =
            encoding_text_search_block(&search, src.start + at, taken, found, length, last);
        add(got.read);
        add(got.found);
        add(got.finished);
        for (size_t i = 0; i < got.found; i++) {
            add(found[i].offset);
            add(found[i].length);
            add(found[i].kind);
        }
        add(search.start);
        add_bytes(search.pending, search.count);
        at += got.read;
        ended = last && got.finished;
    }
}

/* The states before and after a call on a few bytes, and what each one asks for. */
static void lengths(void)
{
    encoding_text_utf8_decoder decoder;
    encoding_text_utf8_encoder encoder;
    bytes src = any_bytes();
    units pair = any_units();
    size_t n = below(100000);
    uint8_t dst[64];

    encoding_text_utf8_decoder_new(&decoder);
    encoding_text_utf8_decoder_decode_to_utf8(&decoder, src.start, src.length < 7 ? src.length : 7, dst, sizeof dst, false);
    begin("utf8_decoder_in_neutral_state");
    add(encoding_text_utf8_decoder_in_neutral_state(&decoder));
    begin("utf8_decoder_max_utf16_buffer_length");
    add(encoding_text_utf8_decoder_max_utf16_buffer_length(&decoder, n));
    begin("utf8_decoder_max_utf8_buffer_length");
    add(encoding_text_utf8_decoder_max_utf8_buffer_length(&decoder, n));
    begin("utf8_decoder_max_utf8_buffer_length_without_replacement");
    add(encoding_text_utf8_decoder_max_utf8_buffer_length_without_replacement(&decoder, n));
    encoding_text_utf8_encoder_new(&encoder);
    encoding_text_utf8_encoder_encode_from_utf16(&encoder, pair.start, pair.length < 7 ? pair.length : 7, dst, sizeof dst, false);
    begin("utf8_encoder_max_buffer_length_from_utf16_without_replacement");
    add(encoding_text_utf8_encoder_max_buffer_length_from_utf16_without_replacement(&encoder, n));
    begin("utf8_encoder_max_buffer_length_from_utf8_without_replacement");
    add(encoding_text_utf8_encoder_max_buffer_length_from_utf8_without_replacement(&encoder, n));
}

#define DECODE_MARKED(name, element, result_type, more) \
    do { \
        begin(#name); \
        encoding_text_decoder decoder; \
        uint8_t encoding = (uint8_t)below(3), bom = (uint8_t)below(3); \
        encoding_text_decoder_new(&decoder, encoding, bom); \
        bytes src = below(2) != 0 ? utf16_bytes(below(2) != 0) : any_bytes(); \
        size_t at = 0, calls = 0; \
        bool last, ended = false; \
        for (; !ended && calls < CALLS; calls++) { \
            size_t taken = take(src.length - at, &last), length = stream_room(taken, calls); \
            element *dst = destination(length, sizeof *dst); \
            result_type got = encoding_text_##name(&decoder, src.start + at, taken, dst, length, last); \
            add(got.read); \
            add(got.written); \
            add(got.result); \
            more; \
            add_bytes(dst, length * sizeof *dst); \
            add_bytes(decoder.pending, decoder.count); \
            add(decoder.encoding); \
            add(decoder.bom); \
            at += got.read; \
            ended = last && got.result == ENCODING_TEXT_INPUT_EMPTY; \
        } \
    } while (0)
#define REPLACE_MARKED(name, element) DECODE_MARKED(name, element, encoding_text_coder_result, add(got.replaced))
#define REPORT_MARKED(name, element) \
    DECODE_MARKED(name, element, encoding_text_decoder_result, (add(got.malformed_length), add(got.read_after)))

static void marked_lengths(void)
{
    encoding_text_decoder decoder;
    bytes src = any_bytes();
    size_t n = below(100000);
    uint8_t dst[64];
    encoding_text_bom bom = encoding_text_for_bom(src.start, src.length);

    begin("for_bom");
    add(bom.length);
    add(bom.encoding);
    /* drawn one after the other, since compilers differ in the order of arguments */
    uint8_t encoding = (uint8_t)below(3), marks = (uint8_t)below(3);
    encoding_text_decoder_new(&decoder, encoding, marks);
    encoding_text_decoder_decode_to_utf8(&decoder, src.start, src.length < 7 ? src.length : 7, dst, sizeof dst, false);
    begin("decoder_encoding");
    add(encoding_text_decoder_encoding(&decoder));
    begin("decoder_in_neutral_state");
    add(encoding_text_decoder_in_neutral_state(&decoder));
    begin("decoder_max_utf16_buffer_length");
    add(encoding_text_decoder_max_utf16_buffer_length(&decoder, n));
    begin("decoder_max_utf8_buffer_length");
    add(encoding_text_decoder_max_utf8_buffer_length(&decoder, n));
    begin("decoder_max_utf8_buffer_length_without_replacement");
    add(encoding_text_decoder_max_utf8_buffer_length_without_replacement(&decoder, n));
    begin("decoder_latin1_byte_compatible_up_to");
    add(encoding_text_decoder_latin1_byte_compatible_up_to(&decoder, src.start, src.length));
}

static void utf16_lengths(void)
{
    encoding_text_utf16_decoder decoder;
    bytes src = any_bytes();
    size_t n = below(100000);
    uint8_t dst[64];

    encoding_text_utf16_decoder_new(&decoder, below(2) != 0);
    encoding_text_utf16_decoder_decode_to_utf8(&decoder, src.start, src.length < 7 ? src.length : 7, dst, sizeof dst, false);
    begin("utf16_decoder_in_neutral_state");
    add(encoding_text_utf16_decoder_in_neutral_state(&decoder));
    begin("utf16_decoder_max_utf16_buffer_length");
    add(encoding_text_utf16_decoder_max_utf16_buffer_length(&decoder, n));
    begin("utf16_decoder_max_utf8_buffer_length");
    add(encoding_text_utf16_decoder_max_utf8_buffer_length(&decoder, n));
    begin("utf16_decoder_max_utf8_buffer_length_without_replacement");
    add(encoding_text_utf16_decoder_max_utf8_buffer_length_without_replacement(&decoder, n));
}

static void streams(void)
{
    lengths();
    marked_lengths();
    REPLACE_MARKED(decoder_decode_to_utf16, uint16_t);
    REPLACE_MARKED(decoder_decode_to_utf8, uint8_t);
    REPORT_MARKED(decoder_decode_to_utf16_without_replacement, uint16_t);
    REPORT_MARKED(decoder_decode_to_utf8_without_replacement, uint8_t);
    utf16_lengths();
    DECODE_UTF16(utf16_decoder_decode_to_utf16, uint16_t);
    DECODE_UTF16(utf16_decoder_decode_to_utf8, uint8_t);
    DECODE(utf8_decoder_decode_to_utf16, uint16_t);
    DECODE(utf8_decoder_decode_to_utf8, uint8_t);
    ENCODE(utf8_encoder_encode_from_utf16, any_units);
    ENCODE_COUNTED(utf8_encoder_encode_from_utf16_with_count, any_units);
    ENCODE(utf8_encoder_encode_from_utf8, sound_bytes);
    ENCODE_COUNTED(utf8_encoder_encode_from_utf8_with_count, sound_bytes);
    borrow();
    repair_blocks();
    search_blocks();
}

enum { TURNS = 40, REPORTS = 30 };

static size_t any_turns(encoding_text_turn *turns, size_t length)
{
    size_t count = below(TURNS), i;

    for (i = 0; i < count; i++) {
        turns[i].take = below(3) != 0 ? below(length + 1) : below(12);
        turns[i].room = below(3) != 0 ? below(3 * length + 8) : below(12);
        turns[i].last = below(2) != 0;
    }
    return count;
}

#define RUN(name, element) \
    do { \
        begin(#name); \
        encoding_text_turn turns[TURNS]; \
        encoding_text_report reports[REPORTS]; \
        encoding_text_utf8_decoder decoder; \
        encoding_text_utf8_decoder_new(&decoder); \
        bytes src = any_bytes(); \
        size_t count = any_turns(turns, src.length), length = room(src.length, 3), reported = below(REPORTS), i; \
        element *dst = destination(length, sizeof *dst); \
        encoding_text_decode_run_result got = \
            encoding_text_##name(&decoder, src.start, src.length, turns, count, dst, length, reports, reported); \
        add(got.read); \
        add(got.written); \
        add(got.reports); \
        add(got.result); \
        add(got.malformed_length); \
        add_bytes(dst, length * sizeof *dst); \
        add_bytes(&decoder, sizeof decoder); \
        for (i = 0; i < got.reports && i < reported; i++) { \
            add(reports[i].place); \
            add(reports[i].length); \
        } \
    } while (0)

static void runs(void)
{
    RUN(run_to_utf16, uint16_t);
    RUN(run_to_utf8, uint8_t);

    begin("run_from_utf16");
    encoding_text_turn turns[TURNS];
    encoding_text_utf8_encoder encoder;
    encoding_text_utf8_encoder_new(&encoder);
    units src = any_units();
    size_t count = any_turns(turns, src.length), length = room(src.length, 3);
    uint8_t *dst = destination(length, 1);
    encoding_text_encode_result got = encoding_text_run_from_utf16(&encoder, src.start, src.length, turns, count, dst, length);
    add(got.read);
    add(got.written);
    add(got.result);
    add_bytes(dst, length);
    add(encoder.surrogate);
}

int main(int argc, char **argv)
{
    if (argc != 4) {
        fputs("usage: differ SEED ROUNDS LONGEST\n", stderr);
        return 2;
    }
    begin_texts(strtoull(argv[1], NULL, 10), strtoull(argv[3], NULL, 10));
    size_t rounds = strtoull(argv[2], NULL, 10), i;
    for (i = 0; i < rounds; i++) {
        row_count = 0;
        begin("version");
        add(encoding_text_version());
        scan_bytes();
        scan_units();
        convert_bytes();
        convert_units();
        streams();
        runs();
    }
    for (i = 0; i < row_count; i++) {
        printf("%s %016llx\n", rows[i].name, (unsigned long long)rows[i].sum);
    }
    return 0;
}
