/* The bytes of an argument, which nobody can move or free while they are read. */
#ifndef SOURCE_H
#define SOURCE_H

#define PY_SSIZE_T_CLEAN
#include <Python.h>
#include <stdbool.h>
#include <stdint.h>

/* Py_buffer, which the limited API declares only since 3.11. In each version from 3.3 on it is this structure;
 * layout.c compares it with that of the headers at hand. */
struct buffer_view {
    void *buf;
    PyObject *obj;
    Py_ssize_t len;
    Py_ssize_t itemsize;
    int readonly;
    int ndim;
    char *format;
    Py_ssize_t *shape;
    Py_ssize_t *strides;
    Py_ssize_t *suboffsets;
    void *internal;
};

#ifdef Py_LIMITED_API
#if Py_LIMITED_API + 0 >= 0x030B0000
#error "the limited API has Py_buffer: use that"
#endif
typedef struct buffer_view Py_buffer;
PyAPI_FUNC(int) PyObject_GetBuffer(PyObject *object, Py_buffer *view, int flags);
PyAPI_FUNC(void) PyBuffer_Release(Py_buffer *view);
#define PyBUF_SIMPLE 0
#endif

/* The bytes of an object, which can't be moved or freed until they are released. All zero if there is no object. */
typedef struct {
    const uint8_t *bytes;
    size_t length;
    PyObject *object; /* the `bytes` object, or NULL */
    Py_buffer view;   /* of any other object */
} encoding_source;

/* Takes the bytes of an object. Returns false, with a TypeError or a BufferError, if it has none in one piece. */
bool source_take(encoding_source *source, PyObject *object);

/* Lets go of the object. May be called again. */
void source_release(encoding_source *source);

/* For tp_traverse: visits the object. */
int source_visit(const encoding_source *source, visitproc visit, void *arg);

/* Returns the length of the longest well-formed prefix. */
size_t source_valid(const encoding_source *source);

/* Lets other threads run while `length` bytes of the source are read, if that takes long and nobody can change them.
 * Nothing of Python may be called until source_resume. */
PyThreadState *source_pause(const encoding_source *source, size_t length);
void source_resume(PyThreadState *paused);

#endif
