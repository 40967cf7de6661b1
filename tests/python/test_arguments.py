"""Arguments of each kind: buffers, and objects that have none."""
import array
import ctypes
import mmap
import sys
import tempfile
import unittest

import encoding_text

FUNCTIONS = [encoding_text.repair, encoding_text.is_utf8, encoding_text.valid_up_to, encoding_text.malformed]
DATA = b'a\xe2\x98Z\xff'
REPAIRED = DATA.decode('utf-8', 'replace').encode()


class OfBytes(bytes):
    pass


def results(data):
    found = list(encoding_text.malformed(data))
    return encoding_text.repair(data), encoding_text.is_utf8(data), encoding_text.valid_up_to(data), found


class Arguments(unittest.TestCase):
    def check(self, data):
        self.assertEqual(results(data), ((REPAIRED, 2), False, 1, [(1, 2), (4, 1)]))

    def test_buffers(self):
        self.check(DATA)
        self.check(OfBytes(DATA))
        self.check(bytearray(DATA))
        self.check(memoryview(DATA))
        self.check(memoryview(b'..' + DATA + b'..')[2:-2])
        self.check(memoryview(bytearray(DATA)).toreadonly())
        self.check(array.array('B', DATA))
        self.check((ctypes.c_ubyte * len(DATA))(*DATA))

    def test_items_of_four_bytes(self):
        self.assertEqual(encoding_text.repair(array.array('I', [0x41424344])), (array.array('I', [0x41424344]).tobytes(), 0))

    def test_mapped_file(self):
        with tempfile.TemporaryFile() as file:
            file.write(DATA)
            file.flush()
            with mmap.mmap(file.fileno(), 0) as mapped:
                self.check(mapped)

    def test_empty(self):
        for data in (b'', OfBytes(), bytearray(), memoryview(b''), array.array('I'), (ctypes.c_ubyte * 0)()):
            self.assertEqual(results(data), ((b'', 0), True, 0, []))

    def test_no_buffer(self):
        for function in FUNCTIONS:
            for wrong in ('text', 1, None, [1, 2], object()):
                with self.assertRaises(TypeError):
                    function(wrong)
            with self.assertRaises(BufferError):
                function(memoryview(DATA)[::2])
            for arguments in ((), (DATA, DATA)):
                with self.assertRaises(TypeError):
                    function(*arguments)
            with self.assertRaises(TypeError):
                function(data=DATA)

    def test_closed_buffer(self):
        view = memoryview(DATA)
        view.release()
        for function in FUNCTIONS:
            with self.assertRaises(ValueError):
                function(view)

    def test_buffer_is_held(self):
        data = bytearray(DATA)
        found = encoding_text.malformed(data)
        next(found)
        with self.assertRaises(BufferError):
            data.append(0)
        del found
        data.append(0)
        for _ in encoding_text.malformed(data):
            pass
        encoding_text.repair(data)
        data.append(0)

    def test_exhausted_iterator_lets_go(self):
        data = bytearray(DATA)
        found = encoding_text.malformed(data)
        self.assertEqual(len(list(found)), 2)
        data.append(0)
        self.assertEqual(list(found), [])

    def test_references(self):
        for data in (bytes(bytearray(DATA)), bytearray(DATA)):
            before = sys.getrefcount(data)
            for _ in range(100):
                results(data)
            self.assertEqual(sys.getrefcount(data), before)

    def test_type_of_the_iterator(self):
        self.assertEqual(list(type(encoding_text.malformed(b''))()), [])


if __name__ == '__main__':
    unittest.main()
