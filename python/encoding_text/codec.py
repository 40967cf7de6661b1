"""Codecs of UTF-8, UTF-16LE and UTF-16BE for Python's codecs and open(), whose streams may start with a byte order mark.

    >>> import codecs, encoding_text.codec
    >>> codecs.register(encoding_text.codec.search)
    >>> b'\\xff\\xfea\\x00'.decode('encoding_text_utf_8')
    'a'
    >>> b'a\\xe2\\x98Z'.decode('encoding_text_utf_8', 'replace') == 'a\\ufffdZ'
    True

The names are encoding_text_utf_8, encoding_text_utf_16_le and encoding_text_utf_16_be. A mark of any of the three at the
start decides the encoding, and is removed; without one, it is that of the name (Encoding Standard, "decode"). Each
malformed sequence is one UnicodeDecodeError for the handler that `errors` names. Handlers are those of
codecs.register_error, and are called as by CPython's own codecs. What is written has no mark, and is CPython's own.
"""
import codecs
from typing import Optional

from encoding_text import _native

__all__ = ['IncrementalDecoder', 'StreamReader', 'search']

_PREFIX = 'encoding_text_'
_NAMES = ('utf-8', 'utf-16-le', 'utf-16-be')
_SNIFF = 2


class IncrementalDecoder(codecs.IncrementalDecoder):
    """Decodes bytes in pieces, which may end at any byte. `errors` is the name of a handler of codecs.register_error. A
    copy, by copy or pickle, has the same state and shares nothing with the original."""

    _number = 0

    def __init__(self, errors='strict'):
        super().__init__(errors)
        self._native = _native.Decoder()
        self.reset()

    @property
    def encoding(self) -> str:
        """The name of the encoding: that of a byte order mark, once one is read."""
        return _NAMES[self._native.getstate()[1]]

    def decode(self, input, final=False):
        """Returns the text of the next bytes. If the call fails, the decoder is unchanged."""
        return self._native.decode(input, final, self.errors)

    def reset(self):
        """Forgets all that was read."""
        self._native.setstate(b'', self._number, _SNIFF)

    def getstate(self):
        """Returns the pending bytes, and a number for the rest of the state."""
        pending, encoding, bom = self._native.getstate()
        return pending, encoding + len(_NAMES) * (_SNIFF - bom)

    def setstate(self, state):
        """Sets what getstate() returned."""
        pending, number = state
        self._native.setstate(pending, number % len(_NAMES), _SNIFF - number // len(_NAMES))

    def __getstate__(self):
        return {**self.__dict__, '_native': self._native.getstate()}

    def __setstate__(self, state):
        self.__dict__.update(state)
        self._native = _native.Decoder()
        self._native.setstate(*state['_native'])


class _Utf16LeDecoder(IncrementalDecoder):
    """IncrementalDecoder of UTF-16LE unless a mark decides."""
    _number = 1


class _Utf16BeDecoder(IncrementalDecoder):
    """IncrementalDecoder of UTF-16BE unless a mark decides."""
    _number = 2


class StreamReader(codecs.StreamReader):
    """Reads text from a stream of bytes. An incomplete sequence at the end of the stream is malformed, and is reported
    after the text before it. Until reset(), each further call at the end reports it again."""

    _decoder = IncrementalDecoder

    def __init__(self, stream, errors='strict'):
        super().__init__(stream, errors)
        self._bytes = self._decoder(errors)
        self._is_in_line = self._has_text = False

    def decode(self, input, errors='strict'):
        """Returns the text of the next bytes, and the number of bytes before an incomplete sequence at their end, which
        the next call has to begin with."""
        return self._decode(input, errors, False)

    def _decode(self, input, errors, final):
        self._bytes.errors = errors
        text = self._bytes.decode(input, final)
        pending, number = self._bytes.getstate()
        self._bytes.setstate((b'', number))
        return text, len(input) - len(pending)

    def read(self, size=-1, chars=-1, firstline=False):
        """Reads as codecs.StreamReader.read does."""
        text = super().read(size, chars, firstline)
        is_whole = size < 0 and chars < 0
        if self.bytebuffer and (is_whole or size != 0 and chars != 0 and not text):
            text = self._read_end(text, -1 if is_whole else chars if chars >= 0 else size)
        self._has_text = self._has_text or text != ''
        return text

    def _read_end(self, text, chars):
        """Returns a text and that of the incomplete sequence at the end of the stream, of which at most `chars` characters
        unless that is negative."""
        try:
            end, _ = self._decode(self.bytebuffer, self.errors, True)
        except UnicodeDecodeError:
            if self._is_in_line and self._has_text:
                return text  # the line comes first, and this with the next call
            self.charbuffer = text
            raise
        self.bytebuffer = b''
        if chars >= 0:
            self.charbuffer = end[chars:]
            end = end[:chars]
        return text + end

    def readline(self, size=None, keepends=True):
        """Reads a line as codecs.StreamReader.readline does."""
        self._is_in_line, self._has_text = True, False
        try:
            return super().readline(size, keepends)
        finally:
            self._is_in_line = False

    def reset(self):
        """Forgets all that was read."""
        super().reset()
        self._bytes.reset()


class _Utf16LeReader(StreamReader):
    """StreamReader of UTF-16LE unless a mark decides."""
    _decoder = _Utf16LeDecoder


class _Utf16BeReader(StreamReader):
    """StreamReader of UTF-16BE unless a mark decides."""
    _decoder = _Utf16BeDecoder


def _info(own, reader):
    """Returns the codec that decodes as a StreamReader does, and encodes as CPython's own codec of this name."""
    encoder = codecs.lookup(own)

    def decode(input, errors='strict'):
        return reader._decoder(errors).decode(input, True), memoryview(input).nbytes

    return codecs.CodecInfo(encoder.encode, decode, reader, encoder.streamwriter, encoder.incrementalencoder,
                            reader._decoder, name=_PREFIX + own.replace('-', '_'))


_INFOS = {info.name: info for info in map(_info, _NAMES, (StreamReader, _Utf16LeReader, _Utf16BeReader))}


def search(name: str) -> Optional[codecs.CodecInfo]:
    """Returns the codec of a name, for codecs.register."""
    return _INFOS.get(name.replace('-', '_'))
