/* Compiles only if the structure of source.h is Py_buffer, with the whole API at hand. */
#include "source.h"

#include <stddef.h>

#define SAME(member) \
    _Static_assert(offsetof(struct buffer_view, member) == offsetof(Py_buffer, member) \
                       && sizeof(((struct buffer_view *)0)->member) == sizeof(((Py_buffer *)0)->member), #member)

SAME(buf);
SAME(obj);
SAME(len);
SAME(itemsize);
SAME(readonly);
SAME(ndim);
SAME(format);
SAME(shape);
SAME(strides);
SAME(suboffsets);
SAME(internal);
_Static_assert(sizeof(struct buffer_view) == sizeof(Py_buffer), "Py_buffer");
_Static_assert(PyBUF_SIMPLE == 0, "PyBUF_SIMPLE");
