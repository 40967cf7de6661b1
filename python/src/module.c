/* The module encoding_text._native: what the package encoding_text offers, over the library for C. */
#include "module.h"

#include "encoding_text.h"
#include "source.h"

#define TEXT_OF(number) #number
#define VERSION_OF(major, minor, patch) TEXT_OF(major) "." TEXT_OF(minor) "." TEXT_OF(patch)
#define VERSION VERSION_OF(ENCODING_TEXT_VERSION_MAJOR, ENCODING_TEXT_VERSION_MINOR, ENCODING_TEXT_VERSION_PATCH)

/* The types of the module, for their functions. */
typedef struct {
    PyObject *malformed;
    PyObject *incremental;
    PyObject *decoder;
} module_state;

/* Returns the length of the longest well-formed prefix, and stores that of all bytes. Returns -1 with an exception if
 * the object has no bytes. */
static Py_ssize_t prefix(PyObject *object, Py_ssize_t *length)
{
    encoding_source source;
    if (!source_take(&source, object)) {
        return -1;
    }
    const size_t valid = source_valid(&source);
    *length = (Py_ssize_t)source.length;
    source_release(&source);
    return (Py_ssize_t)valid;
}

static PyObject *is_utf8(PyObject *module, PyObject *argument)
{
    (void)module;
    Py_ssize_t length;
    const Py_ssize_t valid = prefix(argument, &length);
    return valid < 0 ? NULL : PyBool_FromLong(valid == length);
}

static PyObject *valid_up_to(PyObject *module, PyObject *argument)
{
    (void)module;
    Py_ssize_t length;
    const Py_ssize_t valid = prefix(argument, &length);
    return valid < 0 ? NULL : PyLong_FromSsize_t(valid);
}

static PyObject *malformed(PyObject *module, PyObject *argument)
{
    const module_state *state = PyModule_GetState(module);
    return malformed_iterator(state->malformed, argument);
}

PyDoc_STRVAR(repair_doc,
             "repair(data, /)\n--\n\n"
             "Return the bytes with U+FFFD for each malformed sequence, and the number of these.\n\n"
             "The bytes are those of data.decode('utf-8', 'replace').encode(). If data is a bytes\n"
             "object and well-formed, it is returned itself.");
PyDoc_STRVAR(encode_doc,
             "encode(text, /)\n--\n\n"
             "Return the UTF-8 of a str with U+FFFD for each unpaired surrogate, and the number of these.\n\n"
             "A high surrogate and a low one after it are a pair, as in UTF-16: they become the\n"
             "character that they stand for.");
PyDoc_STRVAR(is_utf8_doc,
             "is_utf8(data, /)\n--\n\n"
             "Return whether the bytes are well-formed UTF-8.");
PyDoc_STRVAR(valid_up_to_doc,
             "valid_up_to(data, /)\n--\n\n"
             "Return the length in bytes of the longest well-formed prefix.");
PyDoc_STRVAR(malformed_doc,
             "malformed(data, /)\n--\n\n"
             "Return an iterator over the malformed sequences, in order, as (offset, length).\n\n"
             "Both are in bytes; a length is 1 to 3. Each sequence is what a decoder replaces by one\n"
             "U+FFFD. The iterator holds the buffer of data until it is exhausted or deleted.");

static PyMethodDef functions[] = {
    {"encode", encode, METH_O, encode_doc},
    {"repair", repair, METH_O, repair_doc},
    {"is_utf8", is_utf8, METH_O, is_utf8_doc},
    {"valid_up_to", valid_up_to, METH_O, valid_up_to_doc},
    {"malformed", malformed, METH_O, malformed_doc},
    {NULL, NULL, 0, NULL},
};

static int module_exec(PyObject *module)
{
    module_state *state = PyModule_GetState(module);
    if ((state->malformed = PyType_FromSpec(&malformed_spec)) == NULL
        || (state->incremental = PyType_FromSpec(&incremental_spec)) == NULL
        || (state->decoder = PyType_FromSpec(&decoder_spec)) == NULL
        || PyObject_SetAttrString(module, "IncrementalRepair", state->incremental) != 0
        || PyObject_SetAttrString(module, "Decoder", state->decoder) != 0) {
        return -1;
    }
    return PyModule_AddStringConstant(module, "__version__", VERSION);
}

static int module_traverse(PyObject *module, visitproc visit, void *arg)
{
    const module_state *state = PyModule_GetState(module);
    if (state != NULL) { /* before 3.9 the call may come earlier */
        Py_VISIT(state->malformed);
        Py_VISIT(state->incremental);
        Py_VISIT(state->decoder);
    }
    return 0;
}

static int module_clear(PyObject *module)
{
    module_state *state = PyModule_GetState(module);
    if (state != NULL) {
        Py_CLEAR(state->malformed);
        Py_CLEAR(state->incremental);
        Py_CLEAR(state->decoder);
    }
    return 0;
}

static void module_free(void *module)
{
    module_clear(module);
}

static PyModuleDef_Slot slots[] = {
    {Py_mod_exec, module_exec},
    {0, NULL},
};

static struct PyModuleDef definition = {
    PyModuleDef_HEAD_INIT,
    .m_name = "encoding_text._native",
    .m_size = sizeof(module_state),
    .m_methods = functions,
    .m_slots = slots,
    .m_traverse = module_traverse,
    .m_clear = module_clear,
    .m_free = module_free,
};

PyMODINIT_FUNC PyInit__native(void)
{
    return PyModuleDef_Init(&definition);
}
