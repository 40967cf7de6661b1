/* The iterator that malformed() returns. */
#include "module.h"

#include "encoding_text.h"
#include "output.h"
#include "source.h"

typedef struct {
    PyObject_HEAD
    encoding_source source;
    size_t offset; /* of the bytes after the last malformed sequence */
} iterator;

/* Finds the next malformed sequence. The bytes aren't freed, even if another thread ends the iteration meanwhile. */
static encoding_text_malformed_sequence find(const encoding_source *source, size_t offset)
{
    PyObject *object = source->object;
    Py_XINCREF(object);
    size_t length = source->length - offset;
    const uint8_t *bytes = source->bytes + offset;
    PyThreadState *paused = source_pause(source, length);
    encoding_text_malformed_sequence found = encoding_text_next_malformed(bytes, length);
    source_resume(paused);
    Py_XDECREF(object);
    return found;
}

static PyObject *iterator_next(PyObject *self)
{
    iterator *it = (iterator *)self;
    if (it->source.bytes == NULL) {
        return NULL;
    }
    size_t offset = it->offset;
    encoding_text_malformed_sequence found = find(&it->source, offset);
    if (found.length == 0) {
        source_release(&it->source);
        return NULL;
    }
    offset += found.place;
    it->offset = offset + found.length;
    return tuple_of(PyLong_FromSize_t(offset), found.length);
}

static int iterator_traverse(PyObject *self, visitproc visit, void *arg)
{
    Py_VISIT(Py_TYPE(self));
    return source_visit(&((iterator *)self)->source, visit, arg);
}

static int iterator_clear(PyObject *self)
{
    source_release(&((iterator *)self)->source);
    return 0;
}

static void iterator_dealloc(PyObject *self)
{
    PyTypeObject *type = Py_TYPE(self);
    PyObject_GC_UnTrack(self);
    iterator_clear(self);
    PyObject_GC_Del(self);
    Py_DECREF(type);
}

static PyType_Slot slots[] = {
    {Py_tp_doc, "An iterator over malformed sequences, as (offset, length)."},
    {Py_tp_iter, PyObject_SelfIter},
    {Py_tp_iternext, iterator_next},
    {Py_tp_traverse, iterator_traverse},
    {Py_tp_clear, iterator_clear},
    {Py_tp_dealloc, iterator_dealloc},
    {0, NULL},
};

PyObject *malformed_iterator(PyObject *type, PyObject *object)
{
    iterator *it = (iterator *)PyType_GenericAlloc((PyTypeObject *)type, 0);
    if (it != NULL && !source_take(&it->source, object)) {
        Py_DECREF(it);
        return NULL;
    }
    return (PyObject *)it;
}

PyType_Spec malformed_spec = {
    .name = "encoding_text.MalformedSequences",
    .basicsize = sizeof(iterator),
    .flags = Py_TPFLAGS_DEFAULT | Py_TPFLAGS_HAVE_GC,
    .slots = slots,
};
