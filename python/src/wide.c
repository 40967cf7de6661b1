/* What wide.h declares. CPython's decoder with surrogatepass would call that handler for each surrogate. */
#include "wide.h"

#include <wchar.h>

_Static_assert(sizeof(wchar_t) == 4, "a wchar_t has to hold any code point");

static size_t count_of(const uint8_t *bytes, size_t length)
{
    size_t count = 0;
    for (size_t i = 0; i < length; i++) {
        count += (bytes[i] & 0xC0) != 0x80;
    }
    return count;
}

/* Returns how many bytes a code point has, by the first one. */
static size_t length_of(uint8_t first)
{
    return first < 0x80 ? 1 : first < 0xE0 ? 2 : first < 0xF0 ? 3 : 4;
}

PyObject *wide_text(const uint8_t *bytes, size_t length)
{
    const size_t count = count_of(bytes, length);
    wchar_t *wide = PyMem_Malloc(count * sizeof *wide);
    if (wide == NULL) {
        return PyErr_NoMemory();
    }
    for (size_t i = 0; i < count; i++) {
        const size_t each = length_of(bytes[0]);
        uint32_t point = each == 1 ? bytes[0] : bytes[0] & (0x7F >> each);
        for (size_t k = 1; k < each; k++) {
            point = point << 6 | (bytes[k] & 0x3F);
        }
        wide[i] = (wchar_t)point;
        bytes += each;
    }
    PyObject *text = PyUnicode_FromWideChar(wide, (Py_ssize_t)count);
    PyMem_Free(wide);
    return text;
}
