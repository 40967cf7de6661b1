r"""UTF-8 repair and validation, over a library whose functions are proved to do what the Unicode Standard and the
Encoding Standard say.

    >>> import encoding_text
    >>> encoding_text.repair(b'a\xe2\x98Z')
    (b'a\xef\xbf\xbdZ', 1)
    >>> list(encoding_text.malformed(b'a\xe2\x98Z'))
    [(1, 2)]
    >>> encoding_text.encode('a\ud800Z')
    (b'a\xef\xbf\xbdZ', 1)

A "malformed sequence" is what a UTF-8 decoder replaces by one U+FFFD. encode() takes a str. Each other function takes any
object that has its bytes in one piece: bytes, bytearray, memoryview, array, mmap. It raises TypeError if the object has no
bytes, BufferError if they aren't in one piece, and MemoryError.

Other threads run while a function reads 64 KiB or more of a bytes object. Another thread could change any other object,
so the functions don't let others run while they read it.

The module encoding_text.codec has codecs of UTF-8, UTF-16LE and UTF-16BE, with byte order marks, for Python's codecs.
"""
from encoding_text import _native
from encoding_text._native import IncrementalRepair, encode, is_utf8, malformed, repair, valid_up_to

__all__ = ['IncrementalRepair', 'encode', 'is_utf8', 'malformed', 'repair', 'valid_up_to']
__version__ = _native.__version__
