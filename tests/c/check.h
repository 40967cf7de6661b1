/*
 * Counts the checks of the C library, and compares results and the memory in and around a destination. C99 and C++17.
 */
#ifndef CHECK_H
#define CHECK_H

#include <stddef.h>
#include <stdint.h>

#include "encoding_text.h"

/* Counts a condition, and prints it if it doesn't hold. */
#define CHECK(condition) check(condition, #condition, __FILE__, __LINE__)

/* An array and its length; the bytes of a string and their number. */
#define ALL(array) (array), sizeof(array) / sizeof((array)[0])
#define BYTES(string) (string), sizeof(string) - 1

/* Each destination is surrounded by memory that no call may change. */
#define BEFORE 16
#define DST_LENGTH 64
#define AFTER 16
extern uint8_t byte_memory[BEFORE + DST_LENGTH + AFTER];
extern uint16_t unit_memory[BEFORE + DST_LENGTH + AFTER];

/* The numbers of checks. */
extern int passed;
extern int failed;

void check(bool holds, const char *what, const char *file, int line);

/* Prints the numbers. Returns the status of the program: 1 if a check failed, or if there was none. */
int finish(void);

/* The destinations with their contents before a call. */
uint8_t *fresh_bytes(void);
uint16_t *fresh_units(void);

/* The destination with these bytes at that index. */
uint8_t *bytes_with(size_t place, const char *bytes, size_t length);

/* Whether the destination has these bytes at that index, and all bytes around them are unchanged. */
bool bytes_are_at(size_t place, const char *wanted, size_t length);

/* Whether the destination begins with these bytes, and all bytes around them are unchanged. */
bool bytes_are(const char *wanted, size_t length);

/* Whether the destination begins with these `length` code units, and all around them are unchanged. */
bool units_are(size_t length, ...);

bool no_bytes_written(void);
bool no_units_written(void);
bool prefix_is(encoding_text_prefix prefix, size_t length, uint16_t other);
bool counts_are(encoding_text_progress progress, size_t read, size_t written);
bool are_invalid(encoding_text_progress progress);
bool decoded_is(encoding_text_decode_result decoded, size_t read, size_t written, uint8_t result,
                uint8_t malformed_length);
bool piece_is(encoding_text_piece piece, size_t read, uint32_t character, uint8_t kind,
              uint8_t malformed_length);
bool encoded_is(encoding_text_encode_result encoded, size_t read, size_t written, uint8_t result);
bool outcome_is(encoding_text_decode_run_result outcome, size_t read, size_t written, size_t reports,
                uint8_t result, uint8_t malformed_length);
bool malformed_is(encoding_text_malformed_sequence malformed, size_t place, size_t length);
bool malformation_is(encoding_text_malformation malformed, size_t place, size_t length, uint8_t kind);
bool repaired_is(encoding_text_repair_result repaired, size_t written, uint64_t replaced);
bool block_is(encoding_text_repair_block_result block, size_t read, size_t written, size_t replaced,
              bool finished);

#endif
