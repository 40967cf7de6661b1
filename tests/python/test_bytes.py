"""repair(), is_utf8(), valid_up_to() and malformed(), compared with CPython's own decoder."""
import unittest

import encoding_text
import texts


class Bytes(unittest.TestCase):
    def check(self, data):
        found = texts.sequences(data)
        message = data if len(data) < 100 else len(data)
        self.assertEqual(encoding_text.repair(data), (texts.text(data).encode(), len(found)), message)
        self.assertEqual(list(encoding_text.malformed(data)), found, message)
        self.assertEqual(encoding_text.valid_up_to(data), found[0][0] if found else len(data), message)
        self.assertIs(encoding_text.is_utf8(data), not found, message)

    def check_each(self, data):
        count = 0
        for each in data:
            self.check(each)
            count += 1
        return count

    def test_short(self):
        self.assertEqual(self.check_each(texts.short()), 1 + 256 + 256**2 + 25**3 + 16**4)

    def test_cut(self):
        self.assertEqual(self.check_each(texts.cut()), 2 * (len(''.join(texts.TEXTS).encode()) + 1))

    def test_random(self):
        self.assertEqual(self.check_each(texts.some(1)), 4 * 207)

    def test_long(self):
        self.assertEqual(self.check_each(texts.long()), 3 * 6 + 1)

    def test_sound_bytes_are_returned_themselves(self):
        data = '\u4f60\u597d'.encode()
        self.assertIs(encoding_text.repair(data)[0], data)

    def test_results_are_bytes(self):
        for data in (bytearray(b'ab'), bytearray(b'a\xff'), memoryview(b'ab')):
            self.assertIs(type(encoding_text.repair(data)[0]), bytes)

    def test_iterator(self):
        found = encoding_text.malformed(b'\xff.\xff')
        self.assertIs(iter(found), found)
        self.assertEqual(next(found), (0, 1))
        self.assertEqual(list(found), [(2, 1)])
        self.assertEqual(list(found), [])
        with self.assertRaises(StopIteration):
            next(found)

    def test_version(self):
        self.assertRegex(encoding_text.__version__, r'^\d+\.\d+\.\d+$')


if __name__ == '__main__':
    unittest.main()
