/* What decoding.h declares. The handlers replace, ignore and surrogateescape need no call of Python. Any other one is
 * called as CPython's own codecs call it, with one exception for all malformed sequences of a call. */
#include "decoding.h"

#include "output.h"
#include "source.h"
#include "wide.h"

#include <string.h>

#define FOR_PENDING 16 /* bytes: a call of the library needs four, and writes at most six for pending bytes */
#define MOST_ESCAPED 9 /* bytes for the surrogates that stand for a malformed sequence */
#define NEAR 65536     /* bytes: other threads don't run for a malformed sequence after fewer */
#define WRONG_RESULT "decoding error handler must return (str, int) tuple"

static const char *const names[] = {"utf-8", "utf-16-le", "utf-16-be"};

typedef enum { REPLACE, IGNORE, ESCAPE, CALL } on_malformed;

typedef struct {
    encoding_text_decoder decoder;
    encoding_text_decoder before; /* the decoder before the call, whose pending bytes come first */
    encoding_source source;       /* the input. After the first call of a handler, the pending bytes are in front of it */
    size_t offset;                /* of the bytes to decode next */
    bool last;
    on_malformed policy;
    const char *errors;
    uint8_t malformed_length; /* of a malformed sequence that the handler has to see, or 0 */
    uint8_t read_after;
    bool has_surrogates;
    PyObject *handler;
    PyObject *error;
    encoding_output out; /* UTF-8, and three bytes for a surrogate */
} decoding;

static on_malformed policy_of(const char *errors)
{
    static const char *const without_call[] = {[REPLACE] = "replace", [IGNORE] = "ignore", [ESCAPE] = "surrogateescape"};
    for (int policy = REPLACE; policy < CALL; policy++) {
        if (strcmp(errors, without_call[policy]) == 0) {
            return (on_malformed)policy;
        }
    }
    return CALL;
}

/* Writes a surrogate for each byte of the malformed sequence. Returns false if the handler would escape fewer bytes, or if
 * the first ones are pending. */
static bool escape(decoding *d)
{
    const size_t length = d->malformed_length;
    if (d->offset < length + d->read_after) {
        return false;
    }
    const uint8_t *bytes = d->source.bytes + d->offset - d->read_after - length;
    for (size_t i = 0; i < length; i++) {
        if (bytes[i] < 0x80) {
            return false;
        }
    }
    for (size_t i = 0; i < length; i++) {
        uint8_t *dst = d->out.text + d->out.written;
        dst[0] = 0xED;
        dst[1] = (uint8_t)(0xB0 | bytes[i] >> 6);
        dst[2] = (uint8_t)(0x80 | (bytes[i] & 0x3F));
        d->out.written += 3;
    }
    d->has_surrogates = true;
    return true;
}

static uint8_t decode_replacing(decoding *d, size_t length, bool last)
{
    const encoding_text_coder_result done = encoding_text_decoder_decode_to_utf8(
        &d->decoder, d->source.bytes + d->offset, length, d->out.text + d->out.written,
        d->out.space - d->out.written, last);
    d->offset += done.read;
    d->out.written += done.written;
    return done.result;
}

static uint8_t decode_reporting(decoding *d, size_t length, bool last)
{
    const encoding_text_decoder_result done = encoding_text_decoder_decode_to_utf8_without_replacement(
        &d->decoder, d->source.bytes + d->offset, length, d->out.text + d->out.written,
        d->out.space - d->out.written - MOST_ESCAPED, last);
    d->offset += done.read;
    d->out.written += done.written;
    d->malformed_length = done.malformed_length;
    d->read_after = done.read_after;
    return done.result;
}

/* Decodes up to an end, or up to the first malformed sequence that the handler has to see, without a call of Python.
 * Returns false if there is no memory. */
static bool decode_up_to(decoding *d, size_t end)
{
    const bool last = d->last && end == d->source.length;
    uint8_t result;
    bool needs_no_call;
    do {
        const size_t rest = end - d->offset;
        if (!output_reserve(&d->out, rest + rest / 2 + FOR_PENDING + MOST_ESCAPED, 0)) {
            return false;
        }
        result = d->policy == REPLACE ? decode_replacing(d, rest, last) : decode_reporting(d, rest, last);
        needs_no_call = result == ENCODING_TEXT_MALFORMED && (d->policy == IGNORE || (d->policy == ESCAPE && escape(d)));
    } while (needs_no_call || result == ENCODING_TEXT_OUTPUT_FULL);
    return true;
}

/* Decodes the rest, or up to the next malformed sequence that the handler has to see. Malformed sequences are often close
 * together, so after one of them other threads run only once many bytes were without another. */
static bool decode_rest(decoding *d)
{
    if (d->error != NULL && d->source.length - d->offset > NEAR) {
        const bool is_done = decode_up_to(d, d->offset + NEAR);
        if (!is_done || d->malformed_length != 0) {
            return is_done;
        }
    }
    PyThreadState *paused = source_pause(&d->source, d->source.length - d->offset);
    const bool is_done = decode_up_to(d, d->source.length);
    source_resume(paused);
    return is_done;
}

/* Makes the bytes of another object the source. */
static void read_from(decoding *d, PyObject *bytes)
{
    if (bytes != d->source.object) {
        source_release(&d->source);
        source_take(&d->source, bytes); /* it is of the type `bytes`, so that can't fail */
    }
    Py_DECREF(bytes);
}

/* Makes a `bytes` object of the pending bytes and the input the source, which the handlers see. */
static bool join_pending(decoding *d)
{
    const size_t count = d->before.count;
    if (d->error != NULL || (count == 0 && d->source.object != NULL && PyBytes_CheckExact(d->source.object))) {
        return true;
    }
    PyObject *joined = PyBytes_FromStringAndSize(NULL, (Py_ssize_t)(count + d->source.length));
    if (joined == NULL) {
        return false;
    }
    char *bytes = PyBytes_AsString(joined);
    memcpy(bytes, d->before.pending, count);
    if (d->source.length != 0) {
        memcpy(bytes + count, d->source.bytes, d->source.length);
    }
    read_from(d, joined);
    d->offset += count;
    d->before.count = 0;
    return true;
}

/* Whether the source ends with two of the three bytes that a surrogate would have in UTF-8. Handlers decode those. */
static bool ends_in_surrogate(const decoding *d, size_t start)
{
    const uint8_t *bytes = d->source.bytes + start;
    return !d->last && d->source.length - start == 2 && bytes[0] == 0xED && (bytes[1] & 0xE0) == 0xA0
           && encoding_text_decoder_encoding(&d->decoder) == ENCODING_TEXT_UTF_8;
}

/* Whether two of the three bytes that a surrogate would have are pending. `keep` leaves them there, but the library's decoder
 * takes none that aren't the start of a character. */
static bool has_surrogate(const encoding_text_decoder *decoder)
{
    return decoder->count == 2 && decoder->pending[0] == 0xED && (decoder->pending[1] & 0xE0) == 0xA0
           && decoder->bom == ENCODING_TEXT_BOM_OFF && decoder->encoding == ENCODING_TEXT_UTF_8;
}

/* Decodes the pending bytes as the start of the input. */
static bool begin_with_pending(decoding *d)
{
    if (!join_pending(d)) {
        return false;
    }
    d->offset = 0;
    encoding_text_decoder_new(&d->decoder, ENCODING_TEXT_UTF_8, ENCODING_TEXT_BOM_OFF);
    return true;
}

/* Keeps the bytes from an offset on as pending. */
static void keep(decoding *d, size_t start)
{
    const size_t count = d->source.length - start;
    encoding_text_decoder_new(&d->decoder, encoding_text_decoder_encoding(&d->decoder), ENCODING_TEXT_BOM_OFF);
    memcpy(d->decoder.pending, d->source.bytes + start, count);
    d->decoder.count = (uint8_t)count;
    d->malformed_length = 0;
}

/* Makes the exception for the handler, or changes the one that there is. */
static bool set_error(decoding *d, Py_ssize_t start, Py_ssize_t end)
{
    static const char reason[] = "malformed sequence";
    if (d->error != NULL) {
        return PyUnicodeDecodeError_SetStart(d->error, start) == 0 && PyUnicodeDecodeError_SetEnd(d->error, end) == 0
               && PyUnicodeDecodeError_SetReason(d->error, reason) == 0;
    }
    d->handler = PyCodec_LookupError(d->errors);
    if (d->handler != NULL) {
        d->error = PyObject_CallFunction(PyExc_UnicodeDecodeError, "sOnns",
                                         names[encoding_text_decoder_encoding(&d->decoder)], d->source.object, start,
                                         end, reason);
    }
    return d->error != NULL;
}

static bool write_text(decoding *d, PyObject *text)
{
    PyObject *encoded = PyUnicode_AsEncodedString(text, "utf-8", "surrogatepass");
    if (encoded == NULL) {
        return false;
    }
    const uint8_t *bytes = (const uint8_t *)PyBytes_AsString(encoded);
    const size_t length = (size_t)PyBytes_Size(encoded);
    const bool is_done = output_reserve(&d->out, length, 0);
    if (is_done) {
        memcpy(d->out.text + d->out.written, bytes, length);
        d->out.written += length;
        d->has_surrogates = d->has_surrogates || encoding_text_utf8_valid_up_to(bytes, length) != length;
    } else {
        PyErr_NoMemory();
    }
    Py_DECREF(encoded);
    return is_done;
}

/* Continues at the position that a handler returned, in the bytes of the exception, which it may have changed. */
static bool continue_at(decoding *d, Py_ssize_t position)
{
    PyObject *bytes = PyUnicodeDecodeError_GetObject(d->error);
    if (bytes == NULL) {
        return false;
    }
    read_from(d, bytes);
    const Py_ssize_t length = (Py_ssize_t)d->source.length;
    const Py_ssize_t offset = position < 0 ? length + position : position;
    if (offset < 0 || offset > length) {
        PyErr_Format(PyExc_IndexError, "position %zd from error handler out of bounds", position);
        return false;
    }
    d->offset = (size_t)offset;
    encoding_text_decoder_new(&d->decoder, encoding_text_decoder_encoding(&d->decoder), ENCODING_TEXT_BOM_OFF);
    return true;
}

/* Calls the handler for the exception, and writes its text. */
static bool call_handler(decoding *d)
{
    PyObject *text;
    Py_ssize_t position;
    PyObject *result = PyObject_CallFunctionObjArgs(d->handler, d->error, NULL);
    if (result == NULL) {
        return false;
    }
    bool is_done = PyTuple_Check(result) != 0;
    if (!is_done) {
        PyErr_SetString(PyExc_TypeError, WRONG_RESULT);
    }
    is_done = is_done && PyArg_ParseTuple(result, "Un;" WRONG_RESULT, &text, &position) && continue_at(d, position)
              && write_text(d, text);
    Py_DECREF(result);
    return is_done;
}

/* Decodes all. Returns false with an exception if that fails. */
static bool decode_all(decoding *d)
{
    while (decode_rest(d)) {
        if (d->malformed_length == 0) {
            return true;
        }
        if (!join_pending(d)) {
            return false;
        }
        const size_t end = d->offset - d->read_after;
        const size_t start = end - d->malformed_length;
        if (ends_in_surrogate(d, start)) {
            keep(d, start);
            return true;
        }
        if (!set_error(d, (Py_ssize_t)start, (Py_ssize_t)end) || !call_handler(d)) {
            return false;
        }
    }
    PyErr_NoMemory();
    return false;
}

PyObject *decode_text(encoding_text_decoder *decoder, PyObject *input, bool last, const char *errors)
{
    decoding d;
    if (!source_take(&d.source, input)) {
        return NULL;
    }
    d.decoder = d.before = *decoder;
    d.offset = 0;
    d.last = last;
    d.policy = policy_of(errors);
    d.errors = errors;
    d.malformed_length = d.read_after = 0;
    d.has_surrogates = false;
    d.handler = d.error = NULL;
    output_begin(&d.out);
    PyObject *text = NULL;
    if ((!has_surrogate(&d.before) || begin_with_pending(&d)) && decode_all(&d)) {
        text = d.has_surrogates ? wide_text(d.out.text, d.out.written)
                                : PyUnicode_DecodeUTF8((const char *)d.out.text, (Py_ssize_t)d.out.written, NULL);
    }
    if (text != NULL) {
        *decoder = d.decoder;
    }
    output_free(&d.out);
    source_release(&d.source);
    Py_XDECREF(d.handler);
    Py_XDECREF(d.error);
    return text;
}
