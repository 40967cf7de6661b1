/* Decoder: the state of the library's decoder with byte order marks, and the calls that codec.py makes. */
#include "module.h"

#include "decoding.h"
#include "encoding_text.h"

typedef struct {
    PyObject_HEAD
    encoding_text_decoder decoder;
} decoding_object;

static PyObject *decoder_decode(PyObject *self, PyObject *arguments)
{
    PyObject *input;
    const char *errors;
    int final;
    if (!PyArg_ParseTuple(arguments, "Opz:decode", &input, &final, &errors)) {
        return NULL;
    }
    return decode_text(&((decoding_object *)self)->decoder, input, final != 0, errors != NULL ? errors : "strict");
}

static PyObject *decoder_getstate(PyObject *self, PyObject *none)
{
    (void)none;
    const encoding_text_decoder *decoder = &((decoding_object *)self)->decoder;
    return Py_BuildValue("(y#ii)", (const char *)decoder->pending, (Py_ssize_t)decoder->count, (int)decoder->encoding,
                         (int)decoder->bom);
}

static PyObject *decoder_setstate(PyObject *self, PyObject *arguments)
{
    const char *bytes;
    Py_ssize_t length;
    unsigned char encoding, bom;
    encoding_text_decoder decoder;
    if (!PyArg_ParseTuple(arguments, "y#bb:setstate", &bytes, &length, &encoding, &bom)) {
        return NULL;
    }
    encoding_text_decoder_new(&decoder, encoding, bom);
    if (length > (Py_ssize_t)sizeof decoder.pending) {
        PyErr_SetString(PyExc_ValueError, "the state has to be one that getstate() returned");
        return NULL;
    }
    for (Py_ssize_t i = 0; i < length; i++) {
        decoder.pending[i] = (uint8_t)bytes[i];
    }
    decoder.count = (uint8_t)length;
    ((decoding_object *)self)->decoder = decoder;
    Py_RETURN_NONE;
}

static void decoder_dealloc(PyObject *self)
{
    PyTypeObject *type = Py_TYPE(self);
    PyObject_Free(self);
    Py_DECREF(type);
}

static PyMethodDef methods[] = {
    {"decode", decoder_decode, METH_VARARGS,
     "decode($self, input, final, errors, /)\n--\n\n"
     "Return the text of the next bytes. If the call fails, the object is unchanged."},
    {"getstate", decoder_getstate, METH_NOARGS,
     "getstate($self, /)\n--\n\nReturn the pending bytes, and the numbers of the encoding and of the marks."},
    {"setstate", decoder_setstate, METH_VARARGS,
     "setstate($self, pending, encoding, bom, /)\n--\n\nSet what getstate() returns."},
    {NULL, NULL, 0, NULL},
};

static PyType_Slot slots[] = {
    {Py_tp_doc, "A decoder of UTF-8, UTF-16LE or UTF-16BE, for encoding_text.codec."},
    {Py_tp_methods, methods},
    {Py_tp_dealloc, decoder_dealloc},
    {0, NULL},
};

PyType_Spec decoder_spec = {
    .name = "encoding_text._native.Decoder",
    .basicsize = sizeof(decoding_object),
    .flags = Py_TPFLAGS_DEFAULT,
    .slots = slots,
};
