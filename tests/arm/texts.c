#define _DEFAULT_SOURCE
#include "texts.h"

#include <stdio.h>
#include <stdlib.h>
#include <string.h>
#include <sys/mman.h>

enum { AREA = 1 << 19, FENCE = 1 << 16 };

static uint64_t state;
static size_t most;
static uint8_t *sources, *destinations;

/* Memory between two fences, which no access may touch. */
static uint8_t *fenced(void)
{
    uint8_t *area = mmap(NULL, AREA + 2 * FENCE, PROT_READ | PROT_WRITE, MAP_PRIVATE | MAP_ANONYMOUS, -1, 0);

    if (area == MAP_FAILED || mprotect(area, FENCE, PROT_NONE) != 0 || mprotect(area + FENCE + AREA, FENCE, PROT_NONE) != 0) {
        perror("no memory between fences");
        exit(3);
    }
    return area + FENCE;
}

void begin_texts(uint64_t seed, size_t longest)
{
    state = seed * 0x9E3779B97F4A7C15 + 1;
    most = longest;
    sources = fenced();
    destinations = fenced();
}

/* xorshift64* */
static uint64_t next(void)
{
    state ^= state << 13;
    state ^= state >> 7;
    state ^= state << 17;
    return state * 0x2545F4914F6CDD1D;
}

size_t below(size_t n)
{
    return (size_t)((next() >> 20) % n);
}

/* Memory for this many bytes: in a third of the cases it ends at the fence, in a third it begins near the other one. */
static uint8_t *part_of(uint8_t *area, size_t length, size_t alignment)
{
    size_t last = AREA - length, offset;

    switch (below(3)) {
    case 0: offset = last; break;
    case 1: offset = below(64); break;
    default: offset = last - below(64); break;
    }
    return area + offset - offset % alignment;
}

static size_t any_length(void)
{
    switch (below(8)) {
    case 0: return below(20);
    case 1: return below(most);
    case 2: return 60 + below(10);
    case 3: return 16 * below(20);
    default: return below(300);
    }
}

/* The first and the last scalar value of each length and each range that a function distinguishes. */
static const uint32_t edges[] = {
    0,      0x7F,   0x80,   0xFF,   0x100,  0x590,  0x7FF,   0x800,   0x8FF,   0xFFF,   0x1000,  0x200F,  0x202E,  0x2067,
    0xD7FF, 0xE000, 0xFB1D, 0xFDFF, 0xFE70, 0xFEFF, 0xFFFD,  0xFFFF,  0x10000, 0x10800, 0x10FFF, 0x1E800, 0x1EFFF, 0x3FFFF,
    0x40000, 0x10FFFF};

enum { KINDS = 10 };

static uint32_t range(uint32_t first, size_t count)
{
    return first + (uint32_t)below(count);
}

/* A scalar value of a text of one kind. */
static uint32_t scalar_value(size_t kind)
{
    uint32_t c;

    switch (kind) {
    case 0: return range(0, 128);
    case 1: return below(8) != 0 ? range(0, 128) : range(0x80, 128);
    case 2: return below(6) != 0 ? range(0x400, 256) : ' ';
    case 3: return below(20) != 0 ? range(0x4E00, 0x5000) : range(0, 128);
    case 4: return below(2) != 0 ? range(0x1F300, 0x400) : range(0, 128);
    case 5: return below(3) != 0 ? range(0x590, 0x370) : ' ';
    case 6: return below(3) != 0 ? range(0xFB00, 0x500) : range(0x10800, 0x500);
    case 7: return edges[below(sizeof edges / sizeof *edges)];
    case 8: return range(0x80, 128);
    default:
        do {
            c = range(0, 0x110000);
        } while (c >= 0xD800 && c < 0xE000);
        return c;
    }
}

/* The kind of the next scalar value: the last one, or seldom another in a text that is mixed. */
static size_t next_kind(size_t kind, int mixed)
{
    return mixed && below(24) == 0 ? below(KINDS) : kind;
}

static size_t encode(uint32_t c, uint8_t *to)
{
    size_t length = c < 0x80 ? 1 : c < 0x800 ? 2 : c < 0x10000 ? 3 : 4, i;
    static const uint8_t leads[] = {0, 0, 0xC0, 0xE0, 0xF0};

    for (i = length - 1; i > 0; i--) {
        to[i] = (uint8_t)(0x80 | (c & 0x3F));
        c >>= 6;
    }
    to[0] = (uint8_t)(leads[length] | c);
    return length;
}

static uint8_t *sound_text(size_t length)
{
    uint8_t *start = part_of(sources, length, 1);
    size_t kind = below(KINDS), i = 0;
    int mixed = below(3) == 0;

    while (i + 4 <= length) {
        kind = next_kind(kind, mixed);
        i += encode(scalar_value(kind), start + i);
    }
    while (i < length) {
        start[i++] = (uint8_t)below(128);
    }
    return start;
}

/* Replaces up to all bytes, most often few, by those that begin or end malformed sequences. */
static void damage(uint8_t *start, size_t length)
{
    static const uint8_t bad[] = {0x0E, 0x1B, 0x41, 0x80, 0x8F, 0x90, 0x9F, 0xA0, 0xBF, 0xC0,
                                  0xC1, 0xC2, 0xDF, 0xE0, 0xED, 0xEF, 0xF0, 0xF4, 0xF5, 0xFF};
    size_t times = below(3) != 0 ? 1 + below(3) : 1 + below(length), at;

    while (times-- > 0) {
        at = below(4) != 0 ? below(length) : length - 1 - below(length < 8 ? length : 8);
        start[at] = below(3) != 0 ? bad[below(sizeof bad)] : (uint8_t)below(256);
    }
}

bytes sound_bytes(void)
{
    size_t length = any_length();
    bytes made = {sound_text(length), length};

    return made;
}

bytes any_bytes(void)
{
    size_t length = any_length(), i;
    uint8_t *start = sound_text(length);
    bytes made = {start, length};

    if (below(12) == 0) {
        for (i = 0; i < length; i++) {
            start[i] = (uint8_t)below(256);
        }
    } else if (length > 0 && below(2) != 0) {
        damage(start, length);
    }
    return made;
}

units any_units(void)
{
    size_t length = any_length() / 2, kind = below(KINDS), i = 0, times;
    int mixed = below(3) == 0;
    uint16_t *start = (uint16_t *)(void *)part_of(sources, 2 * length, 2);
    units made = {start, length};
    uint32_t c;

    while (i < length) {
        kind = next_kind(kind, mixed);
        c = scalar_value(kind);
        if (c < 0x10000) {
            start[i++] = (uint16_t)c;
        } else {
            start[i++] = (uint16_t)(0xD7C0 + (c >> 10));
            if (i < length) {
                start[i++] = (uint16_t)(0xDC00 + (c & 0x3FF));
            }
        }
    }
    if (length > 0 && below(2) != 0) {
        for (times = 1 + below(3); times > 0; times--) {
            start[below(length)] = (uint16_t)(below(3) != 0 ? range(0xD800, 0x800) : range(0, 0x10000));
        }
    }
    return made;
}

void *destination(size_t length, size_t size)
{
    uint8_t *start = part_of(destinations, length * size, size);

    memset(start, 0x2A, length * size);
    return start;
}
