"""The StreamReaders of encoding_text.codec, compared with CPython's own."""
import codecs
import io
import random
import shutil
import unittest

from encoding_text import codec

import texts

OWN = ('utf-8', 'utf-16-le', 'utf-16-be')
NAMES = [f'encoding_text_{name}'.replace('-', '_') for name in OWN]
LINES = ('one', '', 'na\xefve', '\u4f60\u597d', '\U0001f600' * 30, 'long ' * 40)
ENDS = ('\n', '\r\n', '\r', '\u2028', '\n\n')
ERRORS = ('replace', 'ignore', 'backslashreplace', 'surrogateescape')
ROUNDS = 300


def setUpModule():
    codecs.register(codec.search)


def text(generator):
    return 'a' + ''.join(generator.choice(LINES) + generator.choice(ENDS) for _ in range(generator.randrange(12)))


def damaged(generator, own):
    """Returns bytes of text that begin with a letter, a few of them replaced, and in half of the cases with some of the last
    ones missing."""
    data = bytearray(text(generator).encode(own))
    for _ in range(generator.choice((0, 1, 3))):
        data[generator.randrange(1, len(data) + 1) - 1] = generator.choice((0xFF, 0xE2, 0xD8, 0x3D, 0x0A))
    data[:1] = 'a'.encode(own)[:1]
    return bytes(data[:max(2, len(data) - generator.randrange(4))])


def outcome(call):
    try:
        return call()
    except UnicodeDecodeError as error:
        return error.object, error.start, error.end
    except StopIteration:
        return None


def steps(generator):
    """Returns calls of a reader."""
    size, chars = generator.choice((1, 2, 3, 10, 100)), generator.choice((1, 2, 5, 50))
    return [generator.choice((
        lambda reader: reader.read(size), lambda reader: reader.read(size, chars), lambda reader: reader.read(-1, chars),
        lambda reader: reader.readline(), lambda reader: reader.readline(size), lambda reader: reader.readline(None, False),
        lambda reader: next(reader), lambda reader: reader.read(0), lambda reader: reader.seek(0),
    )) for _ in range(12)]


class Readers(unittest.TestCase):
    def test_calls(self):
        """Each call returns or raises what CPython's does, unless the stream ends in an incomplete sequence."""
        generator = random.Random(1)
        for number in range(6 * ROUNDS):
            name, own = NAMES[number % 3], OWN[number % 3]
            data = text(generator).encode(own)
            if generator.randrange(2) and len(data) > 2:
                middle = generator.randrange(2, len(data), 2)
                data = data[:middle] + '\udc80'.encode(own, 'surrogatepass')[:2] + data[middle:]
            if len(data) % 2 and own != 'utf-8':
                continue
            for errors in ('strict', *ERRORS):
                if errors == 'surrogateescape' and own != 'utf-8':
                    continue  # it goes on in the middle of a code unit, so the stream ends in an incomplete one
                readers = [codecs.getreader(each)(io.BytesIO(data), errors) for each in (name, own)]
                for step in steps(generator):
                    found, wanted = (outcome(lambda: step(reader)) for reader in readers)
                    self.assertEqual(found, wanted, (data.hex(), errors))
                    if isinstance(wanted, tuple):
                        break  # the bytes that it read are lost, so the others may end in an incomplete sequence
                else:
                    self.assertEqual(*(outcome(reader.readlines) for reader in readers))

    def ways(self, name, data, errors):
        """Yields the text of a stream, read in many ways."""
        def made():
            return codecs.getreader(name)(io.BytesIO(data), errors)

        yield ''.join(made())
        yield made().read()
        yield ''.join(made().readlines())
        yield ''.join(iter(made().readline, ''))
        for size in (1, 2, 7, 72, 100_000):
            reader = made()
            yield ''.join(iter(lambda: reader.read(size), ''))
            reader.seek(0)
            parts = list(iter(lambda: reader.read(size, 3), ''))
            self.assertTrue(all(len(part) <= 3 for part in parts))
            yield ''.join(parts)
            reader.stream.seek(0)
            reader.reset()
            yield reader.read(-1, 2) + reader.readline() + reader.readline(size) + reader.read()
            copied = io.StringIO()
            shutil.copyfileobj(made(), copied, size)
            yield copied.getvalue()
        yield codecs.StreamReaderWriter(io.BytesIO(data), *codecs.lookup(name)[2:], errors).read()

    def test_each_way_reads_all(self):
        generator = random.Random(2)
        for number in range(ROUNDS):
            name, own = NAMES[number % 3], OWN[number % 3]
            data = damaged(generator, own)
            for errors in ERRORS:
                try:
                    wanted = data.decode(own, errors)
                except UnicodeDecodeError:
                    continue  # surrogateescape escapes no ASCII byte of UTF-16
                for found in self.ways(name, data, errors):
                    self.assertEqual(found, wanted, (data.hex(), errors))

    def test_long(self):
        for data in texts.long():
            data += b'.'  # so that nothing is incomplete
            reader = codec.StreamReader(io.BytesIO(data), 'replace')
            self.assertEqual(reader.decode(data, 'replace'), (texts.text(data), len(data)))
            self.assertEqual(reader.read(), texts.text(data))

    def test_incomplete_ends(self):
        rows = ((b'\xe2\x98', 0, '\ufffd'), (b'a\xe2\x98', 0, 'a\ufffd'), (b'\xef\xbb', 1, '\ubbef'), (b'\xef\xbb', 0, '\ufffd'),
                (b'\xff', 0, '\ufffd'), (b'\xfe', 2, '\ufffd'), (b'a\0\x3d\xd8', 1, 'a\ufffd'), (b'a\0\x3d\xd8b', 1, 'a\ufffd'),
                (b'one\ntwo\xf0\x9f\x98', 0, 'one\ntwo\ufffd'), (b'one\r\xe2', 0, 'one\r\ufffd'), (b'\xed\xa0', 0, '\ufffd\ufffd'))
        for data, name, wanted in rows:
            for found in self.ways(NAMES[name], data, 'replace'):
                self.assertEqual(found, wanted, data)
        self.assertEqual(list(codecs.getreader(NAMES[1])(io.BytesIO(b'\xef\xbb'), 'strict')), ['\ubbef'])

    def test_strict(self):
        """An incomplete end is an error of each way to read, after the text before it, and stays until reset()."""
        for before in ('', 'a', 'one\ntwo', 'one\r', 'one\n', 'long ' * 100):
            for pending in (b'\xe2\x98', b'\xf0', b'\xed\xa0'):
                data = before.encode() + pending
                for way in (list, lambda reader: reader.read(), lambda reader: reader.readlines(), self.copied):
                    with self.assertRaises(UnicodeDecodeError) as caught:
                        way(codecs.getreader(NAMES[0])(io.BytesIO(data)))
                    self.assertEqual(caught.exception.object, pending)
                for read in (lambda reader: reader.readline(), lambda reader: reader.read(5), lambda reader: reader.read(9, 2)):
                    reader = codecs.getreader(NAMES[0])(io.BytesIO(data))
                    self.assertEqual(self.text_before_error(reader, read), before)
                    self.assertRaises(UnicodeDecodeError, read, reader)
                    self.assertRaises(UnicodeDecodeError, reader.read)
                    reader.reset()
                    self.assertEqual((read(reader), reader.read()), ('', ''))
                reader = codecs.getreader(NAMES[0])(io.BytesIO(data))
                self.assertRaises(UnicodeDecodeError, reader.read)
                self.assertEqual(self.text_before_error(reader, lambda reader: reader.read(7)), before)

    def copied(self, reader):
        shutil.copyfileobj(reader, io.StringIO())

    def text_before_error(self, reader, read):
        found = []
        with self.assertRaises(UnicodeDecodeError):
            for _ in range(1000):
                found.append(read(reader))
        self.assertNotIn('', found)
        return ''.join(found)

    def test_handler_can_be_changed(self):
        reader = codecs.getreader(NAMES[0])(io.BytesIO(b'a\xffb\xff'), 'strict')
        reader.errors = 'ignore'
        self.assertEqual(reader.read(), 'ab')

    def test_marks(self):
        for mark, own in zip((b'\xef\xbb\xbf', b'\xff\xfe', b'\xfe\xff'), OWN):
            data = mark + 'first\nna\xefve \U0001f600\nlast'.encode(own)
            for name in NAMES:
                for found in self.ways(name, data, 'strict'):
                    self.assertEqual(found, data[len(mark):].decode(own))


if __name__ == '__main__':
    unittest.main()
