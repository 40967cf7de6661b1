/* What decoder.c takes from decoding.c: text from bytes, with the handlers of codecs.register_error. */
#ifndef DECODING_H
#define DECODING_H

#define PY_SSIZE_T_CLEAN
#include <Python.h>
#include <stdbool.h>

#include "encoding_text.h"

/* Returns the text of the next bytes of an object, by a decoder and the handler with this name. If that fails, returns
 * NULL with an exception, and the decoder is unchanged. */
PyObject *decode_text(encoding_text_decoder *decoder, PyObject *input, bool last, const char *errors);

#endif
