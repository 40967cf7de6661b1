/* Random sources and destinations at the edges of pages that may not be touched. */
#ifndef TEXTS_H
#define TEXTS_H

#include <stddef.h>
#include <stdint.h>

typedef struct {
    const uint8_t *start;
    size_t length;
} bytes;

typedef struct {
    uint16_t *start;
    size_t length;
} units;

/* Begins the sequence of random numbers, and says how many bytes a source has at most. */
void begin_texts(uint64_t seed, size_t longest);

/* A random number less than `n`. */
size_t below(size_t n);

/* Well-formed UTF-8; the same, damaged in half of the cases; code units, with unpaired surrogates in half of the cases. */
bytes sound_bytes(void);
bytes any_bytes(void);
units any_units(void);

/* A destination of `length` elements of `size` bytes, all of them 0x2A. */
void *destination(size_t length, size_t size);

#endif
