/* What output.h declares. */
#include "output.h"

#include <stdlib.h>
#include <string.h>

void output_begin(encoding_output *out)
{
    out->text = out->stack;
    out->written = 0;
    out->space = sizeof out->stack;
    out->heap = NULL;
}

bool output_reserve(encoding_output *out, size_t more, size_t rest)
{
    if (out->space - out->written >= more) {
        return true;
    }
    const size_t space = out->written + out->written / 2 + more + rest;
    uint8_t *heap = realloc(out->heap, space);
    if (heap == NULL) {
        return false;
    }
    if (out->heap == NULL) {
        memcpy(heap, out->text, out->written);
    }
    out->text = out->heap = heap;
    out->space = space;
    return true;
}

void output_free(encoding_output *out)
{
    free(out->heap);
}

PyObject *output_end(encoding_output *out, const encoding_source *source, size_t prefix)
{
    PyObject *result = PyBytes_FromStringAndSize(NULL, (Py_ssize_t)(prefix + out->written));
    if (result != NULL) {
        char *text = PyBytes_AsString(result);
        memcpy(text, source->bytes, prefix);
        memcpy(text + prefix, out->text, out->written);
    }
    output_free(out);
    return result;
}

PyObject *output_unchanged(const encoding_source *source)
{
    if (source->object != NULL && PyBytes_CheckExact(source->object)) {
        Py_INCREF(source->object);
        return source->object;
    }
    return PyBytes_FromStringAndSize((const char *)source->bytes, (Py_ssize_t)source->length);
}

PyObject *tuple_of(PyObject *object, size_t number)
{
    PyObject *second = object == NULL ? NULL : PyLong_FromSize_t(number);
    PyObject *tuple = second == NULL ? NULL : PyTuple_Pack(2, object, second);
    Py_XDECREF(object);
    Py_XDECREF(second);
    return tuple;
}
