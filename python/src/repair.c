/* repair(): bytes with U+FFFD for each malformed sequence. */
#include "module.h"

#include "encoding_text.h"
#include "output.h"
#include "source.h"

#define MOST_GROWTH 3      /* bytes of U+FFFD for a malformed sequence of one byte */
#define LONGEST_PART 16384 /* bytes: the space for its result stays in the processor's caches */

static bool is_continuation(uint8_t byte)
{
    return (byte & 0xC0) == 0x80;
}

/* Returns the length of a first part at whose end no sequence is split: the next byte begins one, or the last three
 * bytes and the next one are continuation bytes, of which a sequence has at most three. */
static size_t part_of(const uint8_t *bytes, size_t length)
{
    if (length <= LONGEST_PART) {
        return length;
    }
    for (size_t end = LONGEST_PART; end > LONGEST_PART - 4; end--) {
        if (!is_continuation(bytes[end])) {
            return end;
        }
    }
    return LONGEST_PART;
}

/* Repairs bytes in parts, since the library requires three times as much space as it reads. Calls nothing of Python.
 * Returns false if there is no memory. */
static bool repair_bytes(const uint8_t *bytes, size_t length, encoding_output *out, size_t *replaced)
{
    size_t part;
    for (size_t offset = 0; offset < length; offset += part) {
        part = part_of(bytes + offset, length - offset);
        if (!output_reserve(out, MOST_GROWTH * part, length - offset - part)) {
            return false;
        }
        const encoding_text_repair_result done =
            encoding_text_repair_slice(bytes + offset, part, out->text + out->written, out->space - out->written);
        out->written += done.written;
        *replaced += done.replaced;
    }
    return true;
}

/* Returns the well-formed prefix and the repaired rest. */
static PyObject *repaired(const encoding_source *source, size_t valid)
{
    encoding_output out;
    size_t replaced = 0;
    output_begin(&out);
    PyThreadState *paused = source_pause(source, source->length - valid);
    const bool is_done = repair_bytes(source->bytes + valid, source->length - valid, &out, &replaced);
    source_resume(paused);
    if (!is_done) {
        output_free(&out);
        return PyErr_NoMemory();
    }
    return tuple_of(output_end(&out, source, valid), replaced);
}

PyObject *repair(PyObject *module, PyObject *argument)
{
    (void)module;
    encoding_source source;
    if (!source_take(&source, argument)) {
        return NULL;
    }
    const size_t valid = source_valid(&source);
    PyObject *result = valid == source.length ? tuple_of(output_unchanged(&source), 0) : repaired(&source, valid);
    source_release(&source);
    return result;
}
