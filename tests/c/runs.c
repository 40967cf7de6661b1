/*
 * Runs of the decoder and of the encoder, whose results don't depend on the turns. C99 and C++17.
 */
#include "calls.h"

#include <stdarg.h>

/* An array for reports, and one of equal turns. */
#define MOST_TURNS 24
static encoding_text_report report_memory[MOST_TURNS];
static encoding_text_turn turn_memory[MOST_TURNS];

encoding_text_report *fresh_reports(void)
{
    for (size_t i = 0; i < MOST_TURNS; i++) {
        report_memory[i].place = 0x7100 + i;
        report_memory[i].length = 0x71;
    }
    return report_memory;
}

bool reports_are(size_t count, ...)
{
    va_list wanted;
    bool are = true;
    va_start(wanted, count);
    for (size_t i = 0; i < MOST_TURNS; i++) {
        size_t place = i < count ? (size_t)va_arg(wanted, int) : 0x7100 + i;
        int length = i < count ? va_arg(wanted, int) : 0x71;
        are = are && report_memory[i].place == place && report_memory[i].length == length;
    }
    va_end(wanted);
    return are;
}

static const encoding_text_turn *turns_of(size_t take, size_t room)
{
    for (size_t i = 0; i < MOST_TURNS; i++) {
        turn_memory[i].take = take;
        turn_memory[i].room = room;
        turn_memory[i].last = true;
    }
    return turn_memory;
}

void runs_to_the_end(void)
{
    /* a, U+1F4A9, a truncated sequence of three bytes, Z, an overlong form of two */
    const uint8_t bytes[] = {0x61, 0xF0, 0x9F, 0x92, 0xA9, 0xE2, 0x98, 0x5A, 0xC0, 0x80};
    encoding_text_utf8_decoder decoder;

    encoding_text_utf8_decoder_new(&decoder);
    for (size_t take = 1; take < 12; take++) {
        CHECK(outcome_is(encoding_text_run_to_utf16(&decoder, ALL(bytes), turns_of(take, 2), 22, fresh_units(), 11,
                                                    fresh_reports(), 22),
                         10, 4, 3, ENCODING_TEXT_INPUT_EMPTY, 0));
        CHECK(units_are(4, 0x61, 0xD83D, 0xDCA9, 0x5A) && reports_are(3, 3, 2, 4, 1, 4, 1));
        CHECK(outcome_is(encoding_text_run_to_utf8(&decoder, ALL(bytes), turns_of(take, 4), 22, fresh_bytes(), 13,
                                                   fresh_reports(), 22),
                         10, 6, 3, ENCODING_TEXT_INPUT_EMPTY, 0));
        CHECK(bytes_are(BYTES("a\xF0\x9F\x92\xA9Z")) && reports_are(3, 5, 2, 6, 1, 6, 1));
        CHECK(pending_are(&decoder, "", 0));
    }
}

void runs_that_go_on(void)
{
    const uint8_t first[] = {0x61, 0xE2};
    const uint8_t second[] = {0x98, 0x83, 0x62};
    const uint8_t malformed[] = {0x61, 0xFF, 0x62};
    const encoding_text_turn turns[] = {{1, 9, false}, {2, 9, false}, {9, 0, true}};
    encoding_text_utf8_decoder decoder;

    encoding_text_utf8_decoder_new(&decoder);
    CHECK(outcome_is(encoding_text_run_to_utf16(&decoder, ALL(first), turns, 2, fresh_units(), 9, fresh_reports(), 2),
                     2, 1, 0, ENCODING_TEXT_INPUT_EMPTY, 0));
    CHECK(units_are(1, 0x61) && reports_are(0) && pending_are(&decoder, BYTES("\xE2")));
    CHECK(outcome_is(encoding_text_run_to_utf16(&decoder, ALL(second), NULL, 0, fresh_units(), 9, NULL, 0), 0, 0, 0,
                     ENCODING_TEXT_NO_CALL, 0));
    CHECK(no_units_written() && pending_are(&decoder, BYTES("\xE2")));
    CHECK(outcome_is(encoding_text_run_to_utf16(&decoder, ALL(second), turns, 3, fresh_units(), 9, fresh_reports(), 2),
                     0, 0, 0, ENCODING_TEXT_INVALID_ARGUMENT_U8, 0));
    CHECK(no_units_written() && reports_are(0) && pending_are(&decoder, BYTES("\xE2")));
    CHECK(outcome_is(encoding_text_run_to_utf8(&decoder, ALL(second), turns, 3, fresh_bytes(), 9, fresh_reports(), 2),
                     0, 0, 0, ENCODING_TEXT_INVALID_ARGUMENT_U8, 0));
    CHECK(no_bytes_written() && reports_are(0) && pending_are(&decoder, BYTES("\xE2")));
    CHECK(outcome_is(encoding_text_run_to_utf8(&decoder, ALL(second), turns, 2, fresh_bytes(), 9, fresh_reports(), 2),
                     3, 4, 0, ENCODING_TEXT_INPUT_EMPTY, 0));
    CHECK(bytes_are(BYTES("\xE2\x98\x83" "b")) && reports_are(0) && pending_are(&decoder, "", 0));
    CHECK(outcome_is(encoding_text_run_to_utf8(&decoder, ALL(second), NULL, 0, fresh_bytes(), 9, NULL, 0), 0, 0, 0,
                     ENCODING_TEXT_NO_CALL, 0));
    CHECK(outcome_is(encoding_text_run_to_utf16(&decoder, ALL(malformed), turns, 2, fresh_units(), 9, fresh_reports(), 9),
                     2, 1, 1, ENCODING_TEXT_MALFORMED, 1));
    CHECK(units_are(1, 0x61) && reports_are(1, 1, 1));
    CHECK(outcome_is(encoding_text_run_to_utf8(&decoder, ALL(malformed), turns, 3, fresh_bytes(), 9, fresh_reports(), 9),
                     2, 1, 1, ENCODING_TEXT_OUTPUT_FULL, 0));
    CHECK(bytes_are(BYTES("a")) && reports_are(1, 1, 1) && pending_are(&decoder, "", 0));
}

void runs_from_utf16(void)
{
    /* a, U+1F4A9, an unpaired low surrogate, b, an unpaired high one */
    const uint16_t units[] = {0x61, 0xD83D, 0xDCA9, 0xDCA9, 0x62, 0xD83D};
    const encoding_text_turn turns[] = {{1, 9, false}, {1, 9, false}, {9, 0, true}};
    encoding_text_utf8_encoder encoder;

    encoding_text_utf8_encoder_new(&encoder);
    for (size_t take = 1; take < 8; take++) {
        CHECK(encoded_is(encoding_text_run_from_utf16(&encoder, ALL(units), turns_of(take, 4), 14, fresh_bytes(), 18),
                         6, 12, ENCODING_TEXT_INPUT_EMPTY));
        CHECK(bytes_are(BYTES("a\xF0\x9F\x92\xA9\xEF\xBF\xBD" "b\xEF\xBF\xBD")) && is_new_encoder(encoder));
    }
    encoding_text_utf8_encoder_new(&encoder);
    CHECK(encoded_is(encoding_text_run_from_utf16(&encoder, ALL(units), turns, 2, fresh_bytes(), 9), 2, 1,
                     ENCODING_TEXT_INPUT_EMPTY));
    CHECK(bytes_are(BYTES("a")) && encoder.surrogate == 0xD83D);
    CHECK(encoded_is(encoding_text_run_from_utf16(&encoder, ALL(units), NULL, 0, fresh_bytes(), 9), 0, 0,
                     ENCODING_TEXT_NO_CALL));
    CHECK(no_bytes_written() && encoder.surrogate == 0xD83D);
    CHECK(encoded_is(encoding_text_run_from_utf16(&encoder, units + 2, 3, turns, 3, fresh_bytes(), 9), 2, 7,
                     ENCODING_TEXT_OUTPUT_FULL));
    CHECK(bytes_are(BYTES("\xF0\x9F\x92\xA9\xEF\xBF\xBD")) && is_new_encoder(encoder));
}
