/*
 * Calls one function of encoding_text.h on the text of standard input some times, for counts of its instructions:
 *
 *   calls ROW TIMES     prints the length of the source in bytes, and a sum of the results
 *   calls               prints the rows
 */
#include <encoding_text.h>

#include <stdio.h>
#include <stdlib.h>
#include <string.h>

enum { MOST = 1 << 20 };

static uint8_t text[MOST], bytes[3 * MOST];
static uint16_t units[MOST], to_units[MOST + 1];
static size_t length, unit_length;

#define EACH_ROW(BYTES, UNITS) \
    BYTES("ascii_valid_up_to", encoding_text_ascii_valid_up_to(text, length)) \
    BYTES("is_ascii", encoding_text_mem_is_ascii(text, length)) \
    BYTES("utf8_valid_up_to", encoding_text_utf8_valid_up_to(text, length)) \
    BYTES("is_utf8_latin1", encoding_text_mem_is_utf8_latin1(text, length)) \
    BYTES("is_utf8_bidi", encoding_text_mem_is_utf8_bidi(text, length)) \
    BYTES("copy_ascii_to_ascii", encoding_text_mem_copy_ascii_to_ascii(text, length, bytes, length)) \
    BYTES("copy_ascii_to_basic_latin", encoding_text_mem_copy_ascii_to_basic_latin(text, length, to_units, length)) \
    BYTES("convert_utf8_to_utf16", encoding_text_mem_convert_utf8_to_utf16(text, length, to_units, length + 1)) \
    BYTES("convert_str_to_utf16", encoding_text_mem_convert_str_to_utf16_unchecked(text, length, to_units, length)) \
    BYTES("convert_latin1_to_utf16", encoding_text_mem_convert_latin1_to_utf16(text, length, to_units, length)) \
    BYTES("convert_latin1_to_utf8", encoding_text_mem_convert_latin1_to_utf8(text, length, bytes, 2 * length)) \
    BYTES("repair_slice", encoding_text_repair_slice(text, length, bytes, 3 * length).written) \
    BYTES("utf16_length_from_utf8", encoding_text_mem_utf16_length_from_utf8(text, length)) \
    BYTES("utf8_count", encoding_text_utf8_count(text, length)) \
    UNITS("is_basic_latin", encoding_text_mem_is_basic_latin(units, unit_length)) \
    UNITS("utf16_valid_up_to", encoding_text_mem_utf16_valid_up_to(units, unit_length)) \
    UNITS("is_utf16_bidi", encoding_text_mem_is_utf16_bidi(units, unit_length)) \
    UNITS("convert_utf16_to_utf8", encoding_text_mem_convert_utf16_to_utf8(units, unit_length, bytes, 3 * unit_length)) \
    UNITS("utf8_length_from_utf16", encoding_text_mem_utf8_length_from_utf16(units, unit_length))

#define NAME(name, call) puts(name);
#define RUN_BYTES(name, call) RUN(name, call, length)
#define RUN_UNITS(name, call) RUN(name, call, 2 * unit_length)
#define RUN(name, call, source_length) \
    if (strcmp(argv[1], name) == 0) { \
        for (i = 0; i < times; i++) { \
            sum += (size_t)(call); \
        } \
        printf("%zu %zu\n", (size_t)(source_length), sum); \
        return 0; \
    }

int main(int argc, char **argv)
{
    size_t i, times, sum = 0;

    if (argc != 3) {
        EACH_ROW(NAME, NAME)
        return argc != 1;
    }
    length = fread(text, 1, MOST, stdin);
    unit_length = encoding_text_mem_convert_utf8_to_utf16(text, length, units, MOST);
    times = strtoull(argv[2], NULL, 10);
    EACH_ROW(RUN_BYTES, RUN_UNITS)
    fprintf(stderr, "calls: no row %s\n", argv[1]);
    return 2;
}
