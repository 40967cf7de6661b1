/* encode(): the UTF-8 of a text, with U+FFFD for each unpaired surrogate. */
#include "module.h"

#include "encoding_text.h"
#include "output.h"

/* Returns the UTF-8 of code units in a `bytes` object, and how many unpaired surrogates were replaced. */
static PyObject *encoded(PyObject *units)
{
    /* The bytes of the object are after four words, so they are aligned as code units have to be. */
    const uint16_t *src = (const uint16_t *)(const void *)PyBytes_AsString(units);
    const size_t length = (size_t)PyBytes_Size(units) / sizeof *src;
    const size_t space = encoding_text_mem_utf8_length_from_utf16(src, length);
    PyObject *result = PyBytes_FromStringAndSize(NULL, (Py_ssize_t)space);
    size_t replaced = 0;
    if (result != NULL) {
        uint8_t *dst = (uint8_t *)PyBytes_AsString(result);
        replaced = encoding_text_mem_convert_utf16_to_utf8_partial_with_count(src, length, dst, space).replaced;
    }
    return tuple_of(result, replaced);
}

PyObject *encode(PyObject *module, PyObject *argument)
{
    (void)module;
    if (!PyUnicode_Check(argument)) {
        return PyErr_Format(PyExc_TypeError, "a str is required, not %R", (PyObject *)Py_TYPE(argument));
    }
    PyObject *text = PyUnicode_AsUTF8String(argument);
    if (text != NULL || !PyErr_ExceptionMatches(PyExc_UnicodeEncodeError)) {
        return tuple_of(text, 0);
    }
    PyErr_Clear();
    PyObject *units = PyUnicode_AsEncodedString(argument, "utf-16-le", "surrogatepass");
    if (units == NULL) {
        return NULL;
    }
    PyObject *result = encoded(units);
    Py_DECREF(units);
    return result;
}
