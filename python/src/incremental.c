/* IncrementalRepair: the repair of bytes in pieces, with the calls of codecs.IncrementalDecoder. */
#include "module.h"

#include "encoding_text.h"
#include "output.h"
#include "source.h"

#include <string.h>

#define FOR_PENDING 16 /* bytes: a call of the library needs four, and writes at most six for pending bytes */
#define REPLACEMENT_LENGTH 3 /* bytes of U+FFFD */

typedef struct {
    PyObject_HEAD
    encoding_text_utf8_decoder decoder;
    unsigned long long replaced;
    unsigned long long offset; /* how many bytes of the stream were read */
} incremental;

/* Repairs bytes without a call of Python. Returns false if there is no memory. */
static bool repair_piece(encoding_text_utf8_decoder *decoder, const uint8_t *bytes, size_t length, bool last,
                         encoding_output *out, size_t *replaced)
{
    encoding_text_repair_block_result done;
    do {
        if (!output_reserve(out, length + length / 16 + FOR_PENDING, 0)) {
            return false;
        }
        done = encoding_text_repair_block(decoder, bytes, length, out->text + out->written, out->space - out->written,
                                          last);
        bytes += done.read;
        length -= done.read;
        out->written += done.written;
        *replaced += done.replaced;
    } while (!done.finished);
    return true;
}

/* Counts the bytes of a piece. What follows the last one is another stream. */
static void count_read(incremental *self, const encoding_source *source, bool last)
{
    self->offset = last ? 0 : self->offset + source->length;
}

/* Repairs the next piece. If it fails, the object is unchanged. */
static PyObject *repair_source(incremental *self, const encoding_source *source, bool last)
{
    encoding_text_utf8_decoder decoder = self->decoder;
    encoding_output out;
    size_t valid = encoding_text_utf8_decoder_in_neutral_state(&decoder) ? source_valid(source) : 0;
    size_t replaced = 0;
    if (valid == source->length && encoding_text_utf8_decoder_in_neutral_state(&decoder)) {
        PyObject *unchanged = output_unchanged(source);
        if (unchanged != NULL) {
            count_read(self, source, last);
        }
        return unchanged;
    }
    output_begin(&out);
    PyThreadState *paused = source_pause(source, source->length - valid);
    const bool is_done =
        repair_piece(&decoder, source->bytes + valid, source->length - valid, last, &out, &replaced);
    source_resume(paused);
    if (!is_done) {
        output_free(&out);
        return PyErr_NoMemory();
    }
    PyObject *result = output_end(&out, source, valid);
    if (result != NULL) {
        self->decoder = decoder;
        self->replaced += replaced;
        count_read(self, source, last);
    }
    return result;
}

/* Appends the offset and the length of a malformed sequence to a list. Returns false with an exception if it fails. */
static bool append_place(PyObject *places, unsigned long long offset, uint8_t length)
{
    PyObject *place = tuple_of(PyLong_FromUnsignedLongLong(offset), length);
    const bool is_done = place != NULL && PyList_Append(places, place) == 0;
    Py_XDECREF(place);
    return is_done;
}

/* Repairs bytes, and appends the place of each malformed sequence to a list. Returns false with an exception if it fails. */
static bool report_piece(encoding_text_utf8_decoder *decoder, const encoding_source *source, bool last,
                         unsigned long long offset, encoding_output *out, PyObject *places)
{
    const uint8_t *bytes = source->bytes;
    size_t length = source->length;
    encoding_text_decode_result done;
    do {
        if (!output_reserve(out, length + length / 16 + FOR_PENDING, 0)) {
            PyErr_NoMemory();
            return false;
        }
        done = encoding_text_utf8_decoder_decode_to_utf8(decoder, bytes, length, out->text + out->written,
                                                         out->space - out->written - REPLACEMENT_LENGTH, last);
        bytes += done.read;
        length -= done.read;
        offset += done.read;
        out->written += done.written;
        if (done.result == ENCODING_TEXT_MALFORMED) {
            memcpy(out->text + out->written, "\xEF\xBF\xBD", REPLACEMENT_LENGTH);
            out->written += REPLACEMENT_LENGTH;
            if (!append_place(places, offset - done.malformed_length, done.malformed_length)) {
                return false;
            }
        }
    } while (done.result != ENCODING_TEXT_INPUT_EMPTY);
    return true;
}

/* Repairs the next piece, and returns its bytes and the places. If it fails, the object is unchanged. */
static PyObject *report_source(incremental *self, const encoding_source *source, bool last)
{
    encoding_text_utf8_decoder decoder = self->decoder;
    encoding_output out;
    PyObject *places = PyList_New(0);
    if (places == NULL) {
        return NULL;
    }
    output_begin(&out);
    if (!report_piece(&decoder, source, last, self->offset, &out, places)) {
        output_free(&out);
        Py_DECREF(places);
        return NULL;
    }
    PyObject *bytes = output_end(&out, source, 0);
    const Py_ssize_t count = PyList_Size(places);
    PyObject *result = bytes == NULL ? NULL : Py_BuildValue("(NO)", bytes, places);
    Py_DECREF(places);
    if (result != NULL) {
        self->decoder = decoder;
        self->replaced += (unsigned long long)count;
        count_read(self, source, last);
    }
    return result;
}

/* Parses the arguments of a call, and calls one of the two functions above. */
static PyObject *incremental_call(PyObject *self, PyObject *arguments, PyObject *names, const char *format,
                                  PyObject *(*call)(incremental *, const encoding_source *, bool))
{
    static char *keywords[] = {"input", "final", NULL};
    PyObject *input;
    int final = 0;
    encoding_source source;
    if (!PyArg_ParseTupleAndKeywords(arguments, names, format, keywords, &input, &final)
        || !source_take(&source, input)) {
        return NULL;
    }
    PyObject *result = call((incremental *)self, &source, final != 0);
    source_release(&source);
    return result;
}

static PyObject *incremental_report(PyObject *self, PyObject *arguments, PyObject *names)
{
    return incremental_call(self, arguments, names, "O|p:report", report_source);
}

static PyObject *incremental_decode(PyObject *self, PyObject *arguments, PyObject *names)
{
    return incremental_call(self, arguments, names, "O|p:decode", repair_source);
}

static PyObject *incremental_reset(PyObject *self, PyObject *none)
{
    (void)none;
    encoding_text_utf8_decoder_new(&((incremental *)self)->decoder);
    ((incremental *)self)->replaced = 0;
    ((incremental *)self)->offset = 0;
    Py_RETURN_NONE;
}

static PyObject *incremental_getstate(PyObject *self, PyObject *none)
{
    (void)none;
    const encoding_text_utf8_decoder *decoder = &((incremental *)self)->decoder;
    const Py_ssize_t count = encoding_text_utf8_decoder_in_neutral_state(decoder) ? 0 : decoder->count;
    return Py_BuildValue("(y#i)", (const char *)decoder->pending, count, 0);
}

/* Whether a decoder holds all bytes as an incomplete sequence, which it then does. */
static bool is_incomplete(encoding_text_utf8_decoder *decoder, const char *bytes, Py_ssize_t length)
{
    uint8_t text[FOR_PENDING];
    encoding_text_utf8_decoder_new(decoder);
    return length <= (Py_ssize_t)sizeof decoder->pending
           && encoding_text_repair_block(decoder, (const uint8_t *)bytes, (size_t)length, text, sizeof text, false)
                      .written == 0;
}

static PyObject *incremental_setstate(PyObject *self, PyObject *state)
{
    const char *bytes;
    Py_ssize_t length;
    int flag;
    encoding_text_utf8_decoder decoder;
    if (!PyTuple_Check(state)) {
        PyErr_SetString(PyExc_TypeError, "the state has to be a tuple");
        return NULL;
    }
    if (!PyArg_ParseTuple(state, "y#i:setstate", &bytes, &length, &flag)) {
        return NULL;
    }
    if (!is_incomplete(&decoder, bytes, length)) {
        PyErr_SetString(PyExc_ValueError, "the state has to be one that getstate() returned");
        return NULL;
    }
    ((incremental *)self)->decoder = decoder;
    Py_RETURN_NONE;
}

static PyObject *incremental_replaced(PyObject *self, void *none)
{
    (void)none;
    return PyLong_FromUnsignedLongLong(((incremental *)self)->replaced);
}

static void incremental_dealloc(PyObject *self)
{
    PyTypeObject *type = Py_TYPE(self);
    PyObject_Free(self);
    Py_DECREF(type);
}

PyDoc_STRVAR(type_doc,
             "IncrementalRepair()\n--\n\n"
             "Repairs bytes in pieces, which may end at any byte.\n\n"
             "It has the methods of codecs.IncrementalDecoder, but returns bytes. Between calls it\n"
             "keeps up to three bytes of an incomplete sequence. However the bytes are split, the\n"
             "results together are what repair() returns for the whole.");
PyDoc_STRVAR(decode_doc,
             "decode($self, /, input, final=False)\n--\n\n"
             "Return the next bytes, with U+FFFD for each malformed sequence.\n\n"
             "If final is true, an incomplete sequence at the end is malformed, and the next call begins\n"
             "another stream. If the call fails, the object is unchanged.");
PyDoc_STRVAR(report_doc,
             "report($self, /, input, final=False)\n--\n\n"
             "Return what decode() returns, and a list of the malformed sequences that it replaced, as\n"
             "(offset, length).\n\n"
             "Offsets count the bytes of the stream: all since the last call with final=True or reset(), or\n"
             "since the object was made. If the call fails, the object is unchanged. Other threads wait for\n"
             "it.");
PyDoc_STRVAR(reset_doc,
             "reset($self, /)\n--\n\n"
             "Forget an incomplete sequence, and set replaced and the offset to 0.");
PyDoc_STRVAR(getstate_doc,
             "getstate($self, /)\n--\n\n"
             "Return the incomplete sequence and 0.");
PyDoc_STRVAR(setstate_doc,
             "setstate($self, state, /)\n--\n\n"
             "Set the incomplete sequence to that of a state. ValueError if it isn't one.");

static PyMethodDef methods[] = {
    {"decode", (PyCFunction)(void (*)(void))incremental_decode, METH_VARARGS | METH_KEYWORDS, decode_doc},
    {"report", (PyCFunction)(void (*)(void))incremental_report, METH_VARARGS | METH_KEYWORDS, report_doc},
    {"reset", incremental_reset, METH_NOARGS, reset_doc},
    {"getstate", incremental_getstate, METH_NOARGS, getstate_doc},
    {"setstate", incremental_setstate, METH_O, setstate_doc},
    {NULL, NULL, 0, NULL},
};

static PyGetSetDef attributes[] = {
    {"replaced", incremental_replaced, NULL,
     "How many malformed sequences were replaced since the last reset().", NULL},
    {NULL, NULL, NULL, NULL, NULL},
};

static PyType_Slot slots[] = {
    {Py_tp_doc, (void *)type_doc},
    {Py_tp_methods, methods},
    {Py_tp_getset, attributes},
    {Py_tp_dealloc, incremental_dealloc},
    {0, NULL},
};

PyType_Spec incremental_spec = {
    .name = "encoding_text.IncrementalRepair",
    .basicsize = sizeof(incremental),
    .flags = Py_TPFLAGS_DEFAULT,
    .slots = slots,
};
