/* A result that grows, and the `bytes` object that it becomes. In the limited API a `bytes` object can't grow. And
 * tuples of an object and a number. */
#ifndef OUTPUT_H
#define OUTPUT_H

#include "source.h"

#define STACK_SPACE 1024 /* bytes: a short result needs no other memory */

typedef struct {
    uint8_t *text;
    size_t written;
    size_t space;
    uint8_t *heap; /* the memory to free, or NULL */
    uint8_t stack[STACK_SPACE];
} encoding_output;

void output_begin(encoding_output *out);

/* Reserves space for some more bytes. If that takes memory, takes enough for the rest too, and half of what is written.
 * Returns false, without an exception, if there is none. */
bool output_reserve(encoding_output *out, size_t more, size_t rest);

void output_free(encoding_output *out);

/* Returns a `bytes` object: the first `prefix` bytes of the source, and what was written. Frees the memory in any
 * case. */
PyObject *output_end(encoding_output *out, const encoding_source *source, size_t prefix);

/* Returns the bytes of the source: the object itself, if its type is `bytes`. */
PyObject *output_unchanged(const encoding_source *source);

/* Returns a tuple, and takes the reference to the object, which is NULL if there is an exception. */
PyObject *tuple_of(PyObject *object, size_t number);

#endif
