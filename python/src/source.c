/* What source.h declares. */
#include "source.h"

#include "encoding_text.h"

/* Reading fewer bytes takes about as long as a change of threads. */
#define LONG_SOURCE 65536

bool source_take(encoding_source *source, PyObject *object)
{
    if (PyBytes_CheckExact(object) || PyBytes_Check(object)) { /* the first is faster */
        char *bytes;
        Py_ssize_t length;
        PyBytes_AsStringAndSize(object, &bytes, &length);
        source->bytes = (const uint8_t *)bytes;
        source->length = (size_t)length;
        source->object = object;
        source->view.obj = NULL;
        Py_INCREF(object);
        return true;
    }
    const int status = PyObject_GetBuffer(object, &source->view, PyBUF_SIMPLE);
    source->bytes = status == 0 ? source->view.buf : NULL;
    source->length = status == 0 ? (size_t)source->view.len : 0;
    source->object = NULL;
    return status == 0;
}

void source_release(encoding_source *source)
{
    source->bytes = NULL;
    source->length = 0;
    Py_CLEAR(source->object);
    if (source->view.obj != NULL) {
        PyBuffer_Release(&source->view);
    }
}

int source_visit(const encoding_source *source, visitproc visit, void *arg)
{
    Py_VISIT(source->object);
    Py_VISIT(source->view.obj);
    return 0;
}

PyThreadState *source_pause(const encoding_source *source, size_t length)
{
    /* Another thread could write to any object but `bytes`, even through a view that is read-only. */
    return source->object != NULL && length >= LONG_SOURCE ? PyEval_SaveThread() : NULL;
}

void source_resume(PyThreadState *paused)
{
    if (paused != NULL) {
        PyEval_RestoreThread(paused);
    }
}

size_t source_valid(const encoding_source *source)
{
    PyThreadState *paused = source_pause(source, source->length);
    const size_t valid = encoding_text_utf8_valid_up_to(source->bytes, source->length);
    source_resume(paused);
    return valid;
}
