/* What check.h declares. C99 and C++17. */
#include "check.h"

#include <stdarg.h>
#include <stdio.h>
#include <string.h>

int passed;
int failed;

void check(bool holds, const char *what, const char *file, int line)
{
    if (holds) {
        passed++;
    } else {
        failed++;
        printf("%s, line %d: %s\n", file, line, what);
    }
}

int finish(void)
{
    CHECK(passed + failed > 0);
    printf("%d passed, %d failed\n", passed, failed);
    return failed != 0;
}

uint8_t byte_memory[BEFORE + DST_LENGTH + AFTER];
uint16_t unit_memory[BEFORE + DST_LENGTH + AFTER];

/* The element at an index before a call. A byte is ASCII, so that a destination of bytes is well-formed. Elements near
 * one another differ. */
static uint8_t byte_before(size_t place)
{
    return (uint8_t)('A' + place % 26);
}

static uint16_t unit_before(size_t place)
{
    return (uint16_t)(0x4100 + place);
}

uint8_t *fresh_bytes(void)
{
    for (size_t i = 0; i < sizeof byte_memory; i++) {
        byte_memory[i] = byte_before(i);
    }
    return byte_memory + BEFORE;
}

uint16_t *fresh_units(void)
{
    for (size_t i = 0; i < BEFORE + DST_LENGTH + AFTER; i++) {
        unit_memory[i] = unit_before(i);
    }
    return unit_memory + BEFORE;
}

uint8_t *bytes_with(size_t place, const char *bytes, size_t length)
{
    uint8_t *destination = fresh_bytes();
    memcpy(destination + place, bytes, length);
    return destination;
}

bool bytes_are_at(size_t place, const char *wanted, size_t length)
{
    size_t begin = BEFORE + place;
    for (size_t i = 0; i < sizeof byte_memory; i++) {
        bool inside = i >= begin && i - begin < length;
        if (byte_memory[i] != (inside ? (uint8_t)wanted[i - begin] : byte_before(i))) {
            return false;
        }
    }
    return true;
}

bool bytes_are(const char *wanted, size_t length)
{
    return bytes_are_at(0, wanted, length);
}

bool units_are(size_t length, ...)
{
    va_list wanted;
    bool are = true;
    va_start(wanted, length);
    for (size_t i = 0; i < BEFORE + DST_LENGTH + AFTER; i++) {
        bool inside = i >= BEFORE && i - BEFORE < length;
        int unit = inside ? va_arg(wanted, int) : unit_before(i);
        are = are && unit_memory[i] == unit;
    }
    va_end(wanted);
    return are;
}

bool no_bytes_written(void)
{
    return bytes_are("", 0);
}

bool no_units_written(void)
{
    return units_are(0);
}

bool prefix_is(encoding_text_prefix prefix, size_t length, uint16_t other)
{
    return prefix.length == length && prefix.other == other;
}

bool counts_are(encoding_text_progress progress, size_t read, size_t written)
{
    return progress.read == read && progress.written == written;
}

bool are_invalid(encoding_text_progress progress)
{
    return counts_are(progress, ENCODING_TEXT_INVALID_ARGUMENT, ENCODING_TEXT_INVALID_ARGUMENT);
}

bool decoded_is(encoding_text_decode_result decoded, size_t read, size_t written, uint8_t result,
                uint8_t malformed_length)
{
    return decoded.read == read && decoded.written == written && decoded.result == result
        && decoded.malformed_length == malformed_length;
}

bool piece_is(encoding_text_piece piece, size_t read, uint32_t character, uint8_t kind,
              uint8_t malformed_length)
{
    return piece.read == read && piece.character == character && piece.kind == kind
        && piece.malformed_length == malformed_length;
}

bool encoded_is(encoding_text_encode_result encoded, size_t read, size_t written, uint8_t result)
{
    return encoded.read == read && encoded.written == written && encoded.result == result;
}

bool outcome_is(encoding_text_decode_run_result outcome, size_t read, size_t written, size_t reports,
                uint8_t result, uint8_t malformed_length)
{
    return outcome.read == read && outcome.written == written && outcome.reports == reports && outcome.result == result
        && outcome.malformed_length == malformed_length;
}

bool malformed_is(encoding_text_malformed_sequence malformed, size_t place, size_t length)
{
    return malformed.place == place && malformed.length == length;
}

bool malformation_is(encoding_text_malformation malformed, size_t place, size_t length, uint8_t kind)
{
    return malformed.place == place && malformed.length == length && malformed.kind == kind;
}

bool repaired_is(encoding_text_repair_result repaired, size_t written, uint64_t replaced)
{
    return repaired.written == written && repaired.replaced == replaced;
}

bool block_is(encoding_text_repair_block_result block, size_t read, size_t written, size_t replaced,
              bool finished)
{
    return block.read == read && block.written == written && block.replaced == replaced && block.finished == finished;
}
