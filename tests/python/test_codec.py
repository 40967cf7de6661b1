"""The codecs of encoding_text.codec, compared with CPython's own."""
import codecs
import copy
import io
import os
import pickle
import random
import tempfile
import unittest

from encoding_text import codec

import texts

MARKS = (b'', b'\xef\xbb\xbf', b'\xff\xfe', b'\xfe\xff')
OWN = ('utf-8', 'utf-16-le', 'utf-16-be')
NAMES = [f'encoding_text_{name}'.replace('-', '_') for name in OWN]
STREAMS = 10000


def setUpModule():
    codecs.register(codec.search)


def wanted(data, name, errors='replace'):
    """The text by CPython's codecs: a mark decides, and is removed."""
    for mark, own in zip(MARKS[1:], OWN):
        if data.startswith(mark):
            return data[len(mark):].decode(own, errors)
    return data.decode(name, errors)


def pieces(data, generator):
    """Yields the data in pieces of random lengths, some of them empty."""
    longest = generator.choice((1, 2, 5, 60))
    offset = 0
    while offset < len(data):
        end = offset + generator.randrange(longest + 1)
        yield data[offset:end]
        offset = end


def stream(generator, order):
    """Code units as bytes, with unpaired surrogates, in half of the cases without the last byte."""
    units = []
    for _ in range(generator.choice((0, 3, 12, 40))):
        kind = generator.randrange(8)
        units.append(0xD800 + generator.randrange(0x400) if kind == 0 else
                     0xDC00 + generator.randrange(0x400) if kind == 1 else
                     generator.randrange(0x10000) if kind == 2 else
                     generator.choice((0x61, 0xE9, 0x4F60, 0x20)))
    data = b''.join(unit.to_bytes(2, order) for unit in units)
    return data[:len(data) - generator.randrange(2)]


def decoded(name, parts, errors='replace'):
    decoder = codecs.getincrementaldecoder(name)(errors)
    return ''.join([decoder.decode(part) for part in parts] + [decoder.decode(b'', True)])


class Streams(unittest.TestCase):
    def test_random_utf_16(self):
        generator = random.Random(1)
        for number in range(STREAMS):
            order = ('little', 'big')[number % 2]
            data = stream(generator, order)
            name = 1 + number % 2
            self.assertEqual(decoded(NAMES[name], pieces(data, generator)), wanted(data, OWN[name]), data.hex())

    def test_marks(self):
        generator = random.Random(2)
        for number in range(STREAMS // 4):
            data = generator.choice(MARKS) + stream(generator, ('little', 'big')[number % 2])
            for name, own in zip(NAMES, OWN):
                text = wanted(data, own)
                self.assertEqual(decoded(name, pieces(data, generator)), text, data.hex())
                self.assertEqual(data.decode(name, 'replace'), text)

    def test_long(self):
        text = 'na\u00efve \u4f60\u597d \U0001f600, ' * 20000
        for mark, name, own in zip(MARKS[1:], NAMES, OWN):
            data = mark + text.encode(own)
            self.assertEqual(data.decode(name), text)
            self.assertEqual(decoded(name, [data[:100001], data[100001:]], 'strict'), text)

    def test_long_utf_8(self):
        for data in texts.long():
            self.assertEqual(codec.IncrementalDecoder('replace').decode(data, True), wanted(data, 'utf-8'), len(data))


class Errors(unittest.TestCase):
    def test_strict(self):
        rows = ((b'a\xe2\x98Z', NAMES[0], 1, 3), (b'\xff\xfea\0\x3d\xd8', NAMES[0], 4, 6), (b'\x3d\xd8a', NAMES[1], 0, 3),
                (b'a\0\xa9\xdc', NAMES[1], 2, 4), (b'\0a\xd8\x3d\0b', NAMES[2], 2, 4))
        for data, name, start, end in rows:
            with self.assertRaises(UnicodeDecodeError) as caught:
                data.decode(name)
            self.assertEqual((caught.exception.start, caught.exception.end), (start, end), data.hex())
            self.assertEqual(caught.exception.object, data)

    def test_failure_changes_nothing(self):
        decoder = codecs.getincrementaldecoder(NAMES[0])()
        self.assertEqual(decoder.decode(b'\xff\xfea\0\x3d'), 'a')
        with self.assertRaises(UnicodeDecodeError) as caught:
            decoder.decode(b'\xd8b\0')
        self.assertEqual((caught.exception.object, caught.exception.start, caught.exception.end), (b'\x3d\xd8b\0', 0, 2))
        self.assertEqual(decoder.decode(b'\xd8\xa9\xdc', True), '\U0001f4a9')
        # what a call read after the malformed sequence is no part of it
        decoder = codecs.getincrementaldecoder(NAMES[1])()
        self.assertEqual(decoder.decode(b'\x3d\xd8b'), '')
        with self.assertRaises(UnicodeDecodeError) as caught:
            decoder.decode(b'\0')
        self.assertEqual((caught.exception.object, caught.exception.start, caught.exception.end), (b'\x3d\xd8b\0', 0, 2))
        self.assertRaises(TypeError, decoder.decode, 'text')
        self.assertRaises(LookupError, codecs.getincrementaldecoder(NAMES[0])('no such handler').decode, b'\xff', True)

    def test_handlers(self):
        data = 'a'.encode() + b'\xff\xc3' + 'b'.encode()
        self.assertEqual(data.decode(NAMES[0], 'ignore'), data.decode('utf-8', 'ignore'))
        self.assertEqual(data.decode(NAMES[0], 'backslashreplace'), data.decode('utf-8', 'backslashreplace'))
        self.assertEqual(data.decode(NAMES[0], 'surrogateescape'), data.decode('utf-8', 'surrogateescape'))
        parts = (b'\x3d\xd8b', b'\0\x3d\xd8')
        self.assertEqual(decoded(NAMES[1], parts, 'backslashreplace'), '\\x3d\\xd8b\\x3d\\xd8')


class Interfaces(unittest.TestCase):
    TEXT = 'first\nna\u00efve \U0001f600\nlast'

    def test_names(self):
        self.assertEqual([codecs.lookup(name).name for name in NAMES], NAMES)
        self.assertEqual(codecs.lookup('encoding_text-utf-16-le').name, NAMES[1])
        # until 3.8, CPython searches the name with its hyphens
        self.assertEqual(codec.search('encoding_text-utf-8').name, NAMES[0])
        self.assertIsNone(codec.search('utf_8'))

    def test_encode(self):
        for name, own in zip(NAMES, OWN):
            self.assertEqual(self.TEXT.encode(name), self.TEXT.encode(own))
            self.assertEqual(b''.join(codecs.iterencode(self.TEXT, name)), self.TEXT.encode(own))
            encoder = codecs.getincrementalencoder(name)
            self.assertEqual(encoder('surrogatepass').encode('\ud800'), '\ud800'.encode(own, 'surrogatepass'))
            self.assertRaises(UnicodeEncodeError, encoder().encode, '\ud800')

    def test_files(self):
        with tempfile.TemporaryDirectory() as folder:
            path = os.path.join(folder, 'text')
            for mark, own in zip(MARKS[1:], OWN):
                with open(path, 'wb') as file:
                    file.write(mark + self.TEXT.encode(own))
                with open(path, encoding=NAMES[0]) as file:
                    self.assertEqual(file.readline(), 'first\n')
                    place = file.tell()
                    self.assertEqual(file.read(), self.TEXT[6:])
                    file.seek(place)
                    self.assertEqual(file.readlines(), ['na\u00efve \U0001f600\n', 'last'])

    def test_readers(self):
        for mark, own in zip(MARKS[1:], OWN):
            data = mark + self.TEXT.encode(own) + b'\xd8'
            text = self.TEXT + '\ufffd'
            for name in NAMES:
                self.assertEqual(codecs.getreader(name)(io.BytesIO(data), 'replace').read(), text)
                reader = codecs.getreader(name)(io.BytesIO(data), 'replace')
                self.assertEqual(''.join(iter(lambda: reader.read(5), '')), text)
                reader.reset()
                reader.stream.seek(0)
                self.assertEqual(reader.readlines(), text.splitlines(True))
        written = io.BytesIO()
        codecs.getwriter(NAMES[2])(written).write(self.TEXT)
        self.assertEqual(written.getvalue(), self.TEXT.encode('utf-16-be'))

    def test_state(self):
        decoder = codecs.getincrementaldecoder(NAMES[2])('replace')
        self.assertEqual(decoder.getstate(), (b'', 2))
        self.assertEqual((decoder.decode(b'\xef\xbb'), decoder.getstate()[0]), ('', b'\xef\xbb'))
        before = decoder.getstate()
        self.assertEqual((decoder.decode(b'\xbfa\xe2'), decoder.encoding), ('a', 'utf-8'))
        after = decoder.getstate()
        decoder.setstate(before)
        self.assertEqual(decoder.decode(b'a\0', True), '\uefbb\u6100')
        decoder.setstate(after)
        self.assertEqual((decoder.encoding, decoder.decode(b'\x98\x83', True)), ('utf-8', '\u2603'))
        decoder.reset()
        self.assertEqual((decoder.encoding, decoder.getstate()), ('utf-16-be', (b'', 2)))
        self.assertRaises(ValueError, decoder.setstate, (b'abcd', 0))


class Labelled(codec.IncrementalDecoder):
    """A decoder with an attribute of its own."""
    label = None


class Copies(unittest.TestCase):
    """Copies of incremental decoders, which CPython's own can be, too."""
    WAYS = [copy.copy, copy.deepcopy] + [
        lambda decoder, protocol=protocol: pickle.loads(pickle.dumps(decoder, protocol))
        for protocol in range(pickle.HIGHEST_PROTOCOL + 1)]

    def test_at_each_place(self):
        """The copy and the original go on by themselves, with the same text as CPython's decoder."""
        text = 'a\xe9\u4f60\U0001f600\ufffd'
        for name, own in zip(NAMES, OWN):
            for mark in (b'', '\ufeff'.encode(own)):
                data = mark + text.encode(own)
                for place in range(len(data) + 1):
                    for way in self.WAYS:
                        decoder = codecs.getincrementaldecoder(name)('replace')
                        before = decoder.decode(data[:place])
                        copied = way(decoder)
                        self.assertEqual((copied.getstate(), copied.errors), (decoder.getstate(), 'replace'))
                        self.assertEqual(before + decoder.decode(data[place:]) + decoder.decode(b'', True), text)
                        self.assertEqual(before + copied.decode(data[place:]) + copied.decode(b'', True), text)

    def test_a_copy_does_not_change_the_original(self):
        for way in self.WAYS:
            decoder = codecs.getincrementaldecoder(NAMES[0])()
            self.assertEqual(decoder.decode(b'\xe2'), '')
            copied = way(decoder)
            self.assertIs(type(copied), type(decoder))
            self.assertEqual(copied.decode(b'\x98\x83'), '\u2603')
            self.assertEqual((decoder.getstate()[0], copied.getstate()[0]), (b'\xe2', b''))
            other = way(decoder)
            copied.reset()
            self.assertEqual(decoder.decode(b'\x98\x83', True), '\u2603')
            self.assertEqual(other.decode(b'\x98\x83', True), '\u2603')

    def test_encoding_and_attributes(self):
        decoder = Labelled('ignore')
        decoder.label = ['any']
        decoder.decode(b'\xfe\xff\0')
        for way in self.WAYS:
            copied = way(decoder)
            self.assertEqual((copied.encoding, copied.label, copied.errors), ('utf-16-be', ['any'], 'ignore'))
            self.assertEqual(copied.decode(b'a\xd8', True), 'a')
        self.assertIs(copy.copy(decoder).label, decoder.label)
        self.assertIsNot(copy.deepcopy(decoder).label, decoder.label)

    def test_incremental_encoders(self):
        for name in NAMES:
            for way in self.WAYS:
                encoder = way(codecs.getincrementalencoder(name)('ignore'))
                self.assertEqual(encoder.encode('a\ud800'), 'a'.encode(name))


if __name__ == '__main__':
    unittest.main()
