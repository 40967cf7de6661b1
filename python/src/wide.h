/* Text that may have surrogates. */
#ifndef WIDE_H
#define WIDE_H

#define PY_SSIZE_T_CLEAN
#include <Python.h>
#include <stdint.h>

/* Returns the text of bytes that are UTF-8, except that they may have surrogates, each as three bytes. */
PyObject *wide_text(const uint8_t *bytes, size_t length);

#endif
