/* What module.c takes from the other files: repair(), encode(), and the types. */
#ifndef MODULE_H
#define MODULE_H

#define PY_SSIZE_T_CLEAN
#include <Python.h>

extern PyType_Spec decoder_spec;     /* Decoder, for the codecs */
extern PyType_Spec incremental_spec; /* IncrementalRepair */
extern PyType_Spec malformed_spec;   /* the iterator over malformed sequences */

/* Returns an iterator of this type, made by malformed_spec, over the bytes of the object. */
PyObject *malformed_iterator(PyObject *type, PyObject *object);

/* Returns the bytes of the argument with U+FFFD for each malformed sequence, and the number of these, as a tuple. */
PyObject *repair(PyObject *module, PyObject *argument);

/* Returns the UTF-8 of the argument, a text, with U+FFFD for each unpaired surrogate, and the number of these, as a tuple. */
PyObject *encode(PyObject *module, PyObject *argument);

#endif
