"""A program that mypy has to accept. A type that is asserted is exactly that one: a bool, which is an int too, is no int."""
import codecs
import io
import mmap
from typing import Iterator, List, Optional, Tuple

import encoding_text
import encoding_text.codec
from encoding_text import codec
from typing_extensions import assert_type

assert_type(encoding_text.__version__, str)
assert_type(encoding_text.repair(b''), Tuple[bytes, int])
assert_type(encoding_text.repair(bytearray()), Tuple[bytes, int])
assert_type(encoding_text.repair(memoryview(b'')), Tuple[bytes, int])
assert_type(encoding_text.encode(''), Tuple[bytes, int])
assert_type(encoding_text.is_utf8(b''), bool)
assert_type(encoding_text.valid_up_to(b''), int)
assert_type(encoding_text.malformed(b''), Iterator[Tuple[int, int]])

repair = encoding_text.IncrementalRepair()
assert_type(repair.decode(b'', final=True), bytes)
assert_type(repair.report(b'', final=True), Tuple[bytes, List[Tuple[int, int]]])
assert_type(repair.getstate(), Tuple[bytes, int])
assert_type(repair.replaced, int)
repair.setstate(repair.getstate())
repair.reset()

codecs.register(codec.search)
assert_type(codec.search(''), Optional[codecs.CodecInfo])
decoder = codec.IncrementalDecoder('replace')
assert_type(decoder.decode(memoryview(b''), final=True), str)
assert_type(decoder.encoding, str)
assert_type(decoder.errors, str)
assert_type(decoder.getstate(), Tuple[bytes, int])
decoder.setstate(decoder.getstate())
decoder.reset()
reader = codec.StreamReader(io.BytesIO(b''), errors='replace')
assert_type(reader.decode(b''), Tuple[str, int])
assert_type(reader.read(1, 2), str)
assert_type(reader.readline(), str)
assert_type(reader.readlines(), List[str])
reader.reset()


def mapped(file: mmap.mmap) -> bool:
    return encoding_text.is_utf8(file)


def decoded(data: bytes) -> str:
    return codecs.decode(encoding_text.repair(data)[0], 'utf-8')
