"""Repairs UTF-8 with the shared library: python3 repair.py < damaged > repaired

The package in python/ is faster, and needs no shared library.
"""

import ctypes
import sys


class RepairResult(ctypes.Structure):
    _fields_ = [("written", ctypes.c_size_t), ("replaced", ctypes.c_uint64)]


library = ctypes.CDLL("libencoding_text.so.0")
library.encoding_text_repair_slice.restype = RepairResult
library.encoding_text_repair_slice.argtypes = [
    ctypes.c_char_p,
    ctypes.c_size_t,
    ctypes.c_char_p,
    ctypes.c_size_t,
]


def repair(source):
    """Returns the bytes with U+FFFD for each malformed sequence, and the number of these."""
    room = ctypes.create_string_buffer(3 * len(source))
    done = library.encoding_text_repair_slice(source, len(source), room, len(room))
    return ctypes.string_at(room, done.written), done.replaced


if __name__ == "__main__":
    repaired, replaced = repair(sys.stdin.buffer.read())
    sys.stdout.buffer.write(repaired)
    print(f"{replaced} malformed sequences", file=sys.stderr)
