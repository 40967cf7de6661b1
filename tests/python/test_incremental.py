"""IncrementalRepair, compared with CPython's own incremental decoder."""
import codecs
import random
import re
import unittest

import encoding_text
import texts

DECODER = codecs.getincrementaldecoder('utf-8')
SURROGATE = re.compile(rb'\xed[\xa0-\xbf]')


def pieces(data, generator, longest):
    """Yields the data in pieces of random lengths, some of them empty."""
    offset = 0
    while offset < len(data):
        end = offset + generator.randrange(longest + 1)
        yield data[offset:end]
        offset = end


class Incremental(unittest.TestCase):
    def check(self, data, parts):
        """Each piece has the text and the state of CPython's decoder. That one keeps half of an encoded surrogate, which
        is malformed: in such data only the text of the whole is compared."""
        repair, decoder = encoding_text.IncrementalRepair(), DECODER('replace')
        keeps = SURROGATE.search(data) is not None
        repaired = []
        for part in parts:
            repaired.append(repair.decode(part))
            if not keeps:
                self.assertEqual(repaired[-1], decoder.decode(part).encode())
                self.assertEqual(repair.getstate(), decoder.getstate())
        repaired.append(repair.decode(b'', final=True))
        self.assertEqual(b''.join(repaired), texts.text(data).encode())
        self.assertEqual(repair.getstate(), (b'', 0))
        self.assertEqual(repair.replaced, len(texts.sequences(data)))

    def test_short(self):
        for data in texts.short():
            if len(data) < 4:
                self.check(data, [data[:1], data[1:2], data[2:]])

    def test_each_split(self):
        for end in (b'\xe2\x98\xf0\x9f\x98\xff.', b'\xed\xa0\x80'):
            data = ''.join(texts.TEXTS).encode() + end
            for cut in range(len(data) + 1):
                self.check(data, [data[:cut], data[cut:]])
            self.check(data, [data[i:i + 1] for i in range(len(data))])

    def test_random(self):
        generator = random.Random(2)
        for data in texts.some(3):
            for longest in (1, 7, 1000, 100000):
                if len(data) < 1000 * longest:
                    self.check(data, pieces(data, generator, longest))

    def test_long(self):
        generator = random.Random(4)
        for data in texts.long():
            self.check(data, pieces(data, generator, 300000))

    def test_long_report(self):
        for data in texts.long():
            found = encoding_text.IncrementalRepair().report(data, True)
            self.assertEqual(found, (texts.text(data).encode(), texts.sequences(data)), len(data))

    def test_places(self):
        generator = random.Random(6)
        for data in texts.some(5):
            if len(data) > 20000:
                continue
            repair, repaired, places = encoding_text.IncrementalRepair(), [], []
            for part in pieces(data, generator, 7):
                if generator.randrange(4) == 0:
                    before = repair.replaced
                    repaired.append(repair.decode(part))
                    places += [None] * (repair.replaced - before)
                else:
                    text, found = repair.report(part)
                    repaired.append(text)
                    places += found
            text, found = repair.report(b'', final=True)
            self.assertEqual(b''.join(repaired + [text]), texts.text(data).encode())
            wanted = list(encoding_text.malformed(data))
            places += found
            self.assertEqual(len(places), len(wanted))
            self.assertEqual([place or one for place, one in zip(places, wanted)], wanted)
            self.assertEqual((repair.replaced, repair.getstate()), (len(wanted), (b'', 0)))

    def test_places_after_a_reset(self):
        repair = encoding_text.IncrementalRepair()
        self.assertEqual(repair.report(b'abc\xff\xe2'), (b'abc\xef\xbf\xbd', [(3, 1)]))
        self.assertEqual(repair.report(b'\x98Z'), (b'\xef\xbf\xbdZ', [(4, 2)]))
        repair.reset()
        self.assertEqual(repair.report(bytearray(b'\xff'), True), (b'\xef\xbf\xbd', [(0, 1)]))
        self.assertEqual(repair.report(input=b'', final=True), (b'', []))
        self.assertRaises(TypeError, repair.report, 'text')

    def test_places_after_a_last_call(self):
        """A call with final=True ends the stream, and offsets of the next one begin at 0. `replaced` counts on."""
        rows = ((b'abc', []), (b'ab\xff', [(2, 1)]), (b'ab\xe2', [(2, 1)]), (b'', []), (b'\xff' * 70000, None))
        for data, places in rows:
            for first in ('decode', 'report'):
                for last in ('decode', 'report'):
                    repair = encoding_text.IncrementalRepair()
                    getattr(repair, first)(b'xy')
                    ended = getattr(repair, last)(data, True)
                    if last == 'report' and places is not None:
                        self.assertEqual(ended[1], [(2 + offset, length) for offset, length in places])
                    replaced = repair.replaced
                    self.assertEqual(repair.report(b'z\xff')[1], [(1, 1)])
                    self.assertEqual(repair.report(b'\xff')[1], [(2, 1)])
                    self.assertEqual(repair.replaced, replaced + 2)

    def test_final_with_bytes(self):
        repair = encoding_text.IncrementalRepair()
        self.assertEqual(repair.decode(b'a\xe2', True), b'a\xef\xbf\xbd')
        self.assertEqual(repair.decode(input=b'\x98', final=True), b'\xef\xbf\xbd')
        self.assertEqual(repair.replaced, 2)

    def test_sound_bytes_are_returned_themselves(self):
        data = '\u4f60\u597d'.encode()
        self.assertIs(encoding_text.IncrementalRepair().decode(data), data)

    def test_state(self):
        repair = encoding_text.IncrementalRepair()
        for state in (b'\xe2\x98', b'\xf0\x9f\x98', b'\xc3', b''):
            repair.setstate((state, 0))
            self.assertEqual(repair.getstate(), (state, 0))
        repair.setstate((b'\xe2\x98', 0))
        self.assertEqual(repair.decode(b'\x83'), b'\xe2\x98\x83')

    def test_wrong_state(self):
        repair = encoding_text.IncrementalRepair()
        repair.setstate((b'\xe2', 0))
        for state in (b'a', b'\xff', b'\xe2\x98\x83', b'\xf0\x9f\x98\x80', b'\xe2\xe2', b'\xed\xa0'):
            with self.assertRaises(ValueError):
                repair.setstate((state, 0))
        for state in (b'', None, (), (b'',), ('', 0), (b'', 0, 0), [b'', 0], (b'', 'x')):
            with self.assertRaises(TypeError):
                repair.setstate(state)
        self.assertEqual(repair.getstate(), (b'\xe2', 0))

    def test_reset(self):
        repair = encoding_text.IncrementalRepair()
        repair.decode(b'\xff\xe2')
        self.assertEqual(repair.replaced, 1)
        repair.reset()
        self.assertEqual((repair.replaced, repair.getstate()), (0, (b'', 0)))
        self.assertEqual(repair.decode(b'Z', True), b'Z')

    def test_wrong_arguments(self):
        repair = encoding_text.IncrementalRepair()
        repair.decode(b'\xe2')
        for wrong in ('text', 1, None):
            with self.assertRaises(TypeError):
                repair.decode(wrong)
        with self.assertRaises(BufferError):
            repair.decode(memoryview(b'abcd')[::2])
        with self.assertRaises(TypeError):
            repair.decode()
        with self.assertRaises(TypeError):
            encoding_text.IncrementalRepair('replace')
        with self.assertRaises(AttributeError):
            repair.replaced = 1
        self.assertEqual(repair.getstate(), (b'\xe2', 0))


if __name__ == '__main__':
    unittest.main()
