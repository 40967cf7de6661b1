// Times nine calls of several builds of the C library next to one another, on pieces of a text:
//     cells TEXT LEAST MOST ROUNDS LIBRARY..
// The pieces have LEAST to MOST bytes and begin and end with whole characters. Short ones are 60,000, since the processor learns
// the order of the lengths of a few thousand. They are timed in parts, each by all libraries by turns. Of each part the shortest
// time of all rounds counts, so other work on the machine hardly shows. Prints for each call its name and for each library the
// nanoseconds of a call. UTF-8 to Latin1 is left out if the text isn't Latin1.
#define _POSIX_C_SOURCE 200809L
#include <dlfcn.h>
#include <stdio.h>
#include <stdlib.h>
#include <time.h>

#include "encoding_text.h"

enum { MOST_PIECES = 60000, PARTS = 40, MOST_LIBRARIES = 64, TEXT = 1 << 20 };

static uint8_t text[TEXT], latin1[TEXT], bytes[1 << 18];
static uint16_t units[TEXT], written[1 << 18];
static uint32_t unit_at[TEXT + 1];
static bool is_latin1 = true;
static struct {
    uint32_t at, length, unit_at, units;
} pieces[MOST_PIECES];
static volatile size_t sink;

enum {
    VALID_UP_TO,
    REPAIR_SLICE,
    LATIN1_TO_UTF8,
    UTF8_TO_UTF16,
    STR_TO_UTF16,
    UTF16_TO_UTF8,
    DECODE_TO_UTF16,
    UTF8_TO_LATIN1,
    IS_UTF16_BIDI,
    CALLS
};

static const char *const names[CALLS] = {
    [VALID_UP_TO] = "encoding_text_utf8_valid_up_to",
    [REPAIR_SLICE] = "encoding_text_repair_slice",
    [LATIN1_TO_UTF8] = "encoding_text_mem_convert_latin1_to_utf8",
    [UTF8_TO_UTF16] = "encoding_text_mem_convert_utf8_to_utf16",
    [STR_TO_UTF16] = "encoding_text_mem_convert_str_to_utf16",
    [UTF16_TO_UTF8] = "encoding_text_mem_convert_utf16_to_utf8",
    [DECODE_TO_UTF16] = "encoding_text_utf8_decoder_decode_to_utf16",
    [UTF8_TO_LATIN1] = "encoding_text_mem_convert_utf8_to_latin1_lossy",
    [IS_UTF16_BIDI] = "encoding_text_mem_is_utf16_bidi",
};

static void ends(const char *why, const char *what) {
    fprintf(stderr, "cells: %s: %s\n", what, why);
    exit(1);
}

static double now(void) {
    struct timespec time;
    clock_gettime(CLOCK_MONOTONIC, &time);
    return (double)time.tv_sec * 1e9 + (double)time.tv_nsec;
}

static bool continues(uint8_t byte) {
    return (byte & 0xC0) == 0x80;
}

typedef size_t measures(const uint8_t *, size_t);
typedef encoding_text_repair_result repairs(const uint8_t *, size_t, uint8_t *, size_t);
typedef size_t to_bytes(const uint8_t *, size_t, uint8_t *, size_t);
typedef size_t to_units(const uint8_t *, size_t, uint16_t *, size_t);
typedef size_t from_units(const uint16_t *, size_t, uint8_t *, size_t);
typedef encoding_text_decode_result decodes(encoding_text_utf8_decoder *, const uint8_t *, size_t, uint16_t *, size_t, bool);
typedef bool answers(const uint16_t *, size_t);

// Runs a call on a piece, and returns its result.
static inline size_t run_one(int call, void *function, size_t i) {
    const uint8_t *src = text + pieces[i].at;
    size_t length = pieces[i].length, at = pieces[i].unit_at, count = pieces[i].units;
    switch (call) {
    case VALID_UP_TO: return ((measures *)function)(src, length);
    case REPAIR_SLICE: return ((repairs *)function)(src, length, bytes, 3 * length).written;
    case LATIN1_TO_UTF8: return ((to_bytes *)function)(latin1 + at, count, bytes, 2 * count);
    case UTF8_TO_UTF16: return ((to_units *)function)(src, length, written, length + 1);
    case STR_TO_UTF16: return ((to_units *)function)(src, length, written, length);
    case UTF16_TO_UTF8: return ((from_units *)function)(units + at, count, bytes, 3 * count);
    case DECODE_TO_UTF16:
        return ((decodes *)function)(&(encoding_text_utf8_decoder){0}, src, length, written, length + 1, true).written;
    case UTF8_TO_LATIN1: return ((to_bytes *)function)(src, length, bytes, length);
    default: return ((answers *)function)(units + at, count);
    }
}

// Runs a call on the pieces from `from` up to `to`, and returns a sum of its results.
static size_t run(int call, void *function, size_t from, size_t to) {
    size_t sum = 0;
    for (size_t i = from; i < to; i++) sum += run_one(call, function, i);
    return sum;
}

// Reads the text, and makes its code units and the index of the code unit of each byte. Returns its length.
static size_t read_text(const char *path, void *library) {
    FILE *file = fopen(path, "rb");
    if (file == NULL) ends("cannot be opened", path);
    size_t length = fread(text, 1, TEXT - 1, file);
    fclose(file);
    while (length > 0 && continues(text[length - 1])) length--;
    if (length > 0) length--;
    to_units *convert = (to_units *)dlsym(library, "encoding_text_mem_convert_utf8_to_utf16");
    if (convert == NULL || convert(text, length, units, length + 1) > length) ends("cannot be converted", path);
    uint32_t count = 0;
    for (size_t i = 0; i < length; i++) {
        unit_at[i] = count;
        if (!continues(text[i])) count += text[i] < 0xF0 ? 1 : 2;
    }
    unit_at[length] = count;
    for (uint32_t i = 0; i < count; i++) {
        latin1[i] = (uint8_t)units[i];
        is_latin1 = is_latin1 && units[i] < 0x100;
    }
    return length;
}

static uint64_t state = 88172645463325252u;

static size_t below(size_t bound) {
    state ^= state << 13;
    state ^= state >> 7;
    state ^= state << 17;
    return (size_t)(state >> 20) % bound;
}

// Chooses the pieces, and returns their number.
static size_t choose(size_t length, size_t least, size_t most) {
    size_t count = most > 1000 ? 4000 : most > 300 ? 20000 : MOST_PIECES;
    for (size_t i = 0; i < count; i++) {
        size_t at = below(length - most - 8), end = at + least + below(most - least + 1);
        while (continues(text[at])) at++;
        while (continues(text[end])) end--;
        if (end < at) end = at;
        pieces[i].at = (uint32_t)at;
        pieces[i].length = (uint32_t)(end - at);
        pieces[i].unit_at = unit_at[at];
        pieces[i].units = unit_at[end] - unit_at[at];
    }
    return count;
}

// Prints the nanoseconds of a call for each library.
static void time_call(int call, void **libraries, int many, size_t count, int rounds) {
    static double best[MOST_LIBRARIES][PARTS];
    for (int k = 0; k < many; k++)
        for (int part = 0; part < PARTS; part++) best[k][part] = 1e18;
    for (int round = 0; round < rounds; round++)
        for (int part = 0; part < PARTS; part++)
            for (int turn = 0; turn < many; turn++) {
                int k = (turn + round) % many;
                void *function = dlsym(libraries[k], names[call]);
                if (function == NULL) ends("is in no library", names[call]);
                double begin = now();
                sink = run(call, function, count * (size_t)part / PARTS, count * (size_t)(part + 1) / PARTS);
                double took = now() - begin;
                if (took < best[k][part]) best[k][part] = took;
            }
    printf("%s", names[call]);
    for (int k = 0; k < many; k++) {
        double sum = 0;
        for (int part = 0; part < PARTS; part++) sum += best[k][part];
        printf(" %.3f", sum / (double)count);
    }
    printf("\n");
}

int main(int count, char **words) {
    if (count < 6 || count > 5 + MOST_LIBRARIES) ends("TEXT LEAST MOST ROUNDS LIBRARY..", "usage");
    size_t least = (size_t)atol(words[2]), most = (size_t)atol(words[3]);
    int rounds = atoi(words[4]), many = count - 5;
    if (least > most || most > 60000 || rounds < 1) ends("a length or the number of rounds is out of range", "usage");
    void *libraries[MOST_LIBRARIES];
    for (int k = 0; k < many; k++) {
        libraries[k] = dlopen(words[5 + k], RTLD_NOW | RTLD_LOCAL);
        if (libraries[k] == NULL) ends(dlerror(), words[5 + k]);
    }
    size_t length = read_text(words[1], libraries[0]);
    if (length < 2 * most + 16) ends("is too short", words[1]);
    size_t pieces_of_text = choose(length, least, most);
    for (int call = 0; call < CALLS; call++)
        if (call != UTF8_TO_LATIN1 || is_latin1) time_call(call, libraries, many, pieces_of_text, rounds);
    return 0;
}
