"""Handlers of codecs.register_error with the codecs of encoding_text.codec, compared with CPython's own codecs."""
import array
import codecs
import os
import random
import sys
import time
import unittest

from encoding_text import codec
import texts

OWN = ('utf-8', 'utf-16-le', 'utf-16-be')
NAMES = [f'encoding_text_{name}'.replace('-', '_') for name in OWN]
BUILT_IN = ('strict', 'replace', 'ignore', 'surrogateescape', 'surrogatepass', 'backslashreplace')
REPLACEMENTS = ('', '?', '\xe9\u4f60', '\U0001f600', '\ud800', '\udcff', 'long ' * 1000)
ROUNDS = 5000
LENGTHS = (320_000, 1_300_000) if 'PYTHON' not in os.environ else (32_000, 130_000)  # an emulator is slow


def setUpModule():
    codecs.register(codec.search)
    codecs.register_error('encoding_text.question', lambda error: ('?', error.end))


def outcome(call):
    """Returns what a call returns, or what tells about its exception."""
    try:
        return call()
    except UnicodeDecodeError as error:
        return error.encoding, error.object, error.start, error.end
    except Exception as error:
        return type(error)


def utf_8(generator):
    """Returns damaged UTF-8 that begins with a letter, with encoded surrogates."""
    data = bytearray(b'a' + texts.damaged(generator, generator.choice((0, 3, 40, 400)), generator.choice((2, 5, 20))))
    for _ in range(generator.randrange(4)):
        at = 1 + generator.randrange(len(data))
        data[at:at] = generator.choice((b'\xed\xa0\x80', b'\xed\xbf\xbf', b'\xed\xb2', b'\xed', b'\xf0\x9f\x98'))
    return bytes(data)


def utf_16(generator, order):
    """Returns code units as bytes that begin with a letter, with unpaired surrogates, half of them without the last byte."""
    units = [0x61] + [generator.choice((0x61, 0x4F60, 0xD83D, 0xDE00, 0xDCDC, 0xD8D8, generator.randrange(0x10000)))
                      for _ in range(generator.choice((0, 3, 12, 40)))]
    data = b''.join(unit.to_bytes(2, order) for unit in units)
    return data[:len(data) - generator.randrange(2)]


def inputs(seed):
    """Yields a number, a codec's name, the name of CPython's, and bytes for them."""
    generator = random.Random(seed)
    for number in range(ROUNDS):
        kind = generator.randrange(3)
        data = utf_8(generator) if kind == 0 else utf_16(generator, ('little', 'big')[kind - 1])
        yield number, NAMES[kind], OWN[kind], data


def pieces(data, generator):
    """Returns the data in pieces of random lengths, some of them empty."""
    longest, found = generator.choice((1, 2, 5, 60)), []
    while data:
        length = generator.randrange(longest + 1)
        found.append(data[:length])
        data = data[length:]
    return found


class Handler:
    """A handler that returns texts and positions by chance, and wrong results, until it was called ten times."""

    def __init__(self, seed):
        self.generator = random.Random(seed)
        self.seen = []

    def __call__(self, error):
        data, choose = error.object, self.generator.choice
        self.seen.append((error.encoding, data, error.start, error.end))
        text, length = choose(REPLACEMENTS), len(data)
        if len(self.seen) > 10:
            return text, error.end
        if choose(range(12)) == 0:
            error.object = data[:error.start] + bytes(reversed(data[error.start:])) + b'a\0'
            return text, error.end
        if choose(range(30)) == 0:
            return choose((None, text, (text,), [text, error.end], (text, error.end, 1), (b'a', error.end), (1, 2),
                           (text, 'a'), (text, 1.5), (text, length + 1), (text, -length - 1), (text, 1 << 80)))
        return text, choose((error.end, error.end, error.end - length or error.end, error.start, 0, -1, -length, length,
                             choose(range(length + 1)), choose(range(-length, 0))))


class Handlers(unittest.TestCase):
    def test_each_one_of_cpython(self):
        failures = 0
        for number, name, own, data in inputs(1):
            for errors in (*BUILT_IN, 'xmlcharrefreplace', 'encoding_text.question', 'no such handler'):
                wanted = outcome(lambda: data.decode(own, errors))
                self.assertEqual(outcome(lambda: data.decode(name, errors)), wanted, (data.hex(), errors))
                failures += not isinstance(wanted, str)
        self.assertGreater(failures, ROUNDS)

    def test_positions_and_wrong_results(self):
        kinds = set()
        for number, name, own, data in inputs(2):
            ours, theirs = Handler(number), Handler(number)
            codecs.register_error('encoding_text.ours', ours)
            codecs.register_error('encoding_text.theirs', theirs)
            wanted = outcome(lambda: data.decode(own, 'encoding_text.theirs'))
            self.assertEqual(outcome(lambda: data.decode(name, 'encoding_text.ours')), wanted, (number, data.hex()))
            self.assertEqual(ours.seen, theirs.seen, number)
            kinds.add(wanted if isinstance(wanted, type) else type(wanted))
        self.assertEqual(kinds, {str, TypeError, IndexError, OverflowError})

    def test_pieces(self):
        """Each piece has CPython's text, exception and state, also after an exception. Those that need no call of a handler
        don't wait for the third byte of an encoded surrogate."""
        generator = random.Random(3)
        for number, name, own, data in inputs(3):
            if number % 10:
                continue
            for errors in (*BUILT_IN, 'encoding_text.question'):
                parts = pieces(data, generator)
                ours, theirs = codecs.getincrementaldecoder(name)(errors), codecs.getincrementaldecoder(own)(errors)
                found = [self.step(ours, part) for part in parts]
                wanted = [self.step(theirs, part) for part in parts]
                if b'\xed' not in data or errors not in ('replace', 'ignore', 'surrogateescape'):
                    self.assertEqual(found, wanted, (data.hex(), errors))
                if all(isinstance(step[0], str) for step in wanted):
                    whole = ''.join(step[0] for step in found)
                    end = outcome(lambda: whole + ours.decode(b'', True))
                    self.assertEqual(end, outcome(lambda: data.decode(own, errors)) if isinstance(end, str) else
                                     outcome(lambda: theirs.decode(b'', True)), (data.hex(), errors))

    def step(self, decoder, part):
        return outcome(lambda: decoder.decode(part)), decoder.getstate()[0]

    def test_kinds_of_input(self):
        for number, name, own, data in inputs(4):
            if number % 20 == 0:
                for errors in BUILT_IN:
                    wanted = outcome(lambda: data.decode(own, errors))
                    for each in (bytearray(data), memoryview(data), memoryview(bytearray(data)), array.array('B', data)):
                        self.assertEqual(outcome(lambda: codecs.decode(each, name, errors)), wanted)

    def test_long(self):
        """Malformed sequences before and after each length from which on other threads run."""
        for length in (1000, 65535, 65536, 65537, 200_000):
            for data in (b'a' * length + b'\xff' + b'\xed\xa0\x80' + b'b' * length + b'\xe2\x98',
                         b'\xff' + 70_000 * b'\xe2\x98\x83' + b'\xff', b'\xff' * (length // 20)):
                for errors in (*BUILT_IN, 'encoding_text.question'):
                    self.assertEqual(outcome(lambda: data.decode(NAMES[0], errors)),
                                     outcome(lambda: data.decode(OWN[0], errors)), (length, errors))

    def test_references(self):
        """A handler, its text and its exception are let go of, also if the call fails."""
        text, position = 'text' * 10, None

        def handler(error):
            return text, position

        codecs.register_error('encoding_text.counted', handler)
        before = sys.getrefcount(handler), sys.getrefcount(text)
        for position in [-1] * 100 + [7] * 100:
            outcome(lambda: b'\xffa\xffb'.decode(NAMES[0], 'encoding_text.counted'))
        self.assertEqual((sys.getrefcount(handler), sys.getrefcount(text)), before)

    def test_what_a_handler_sees(self):
        seen = []

        def note(error):
            seen.append((type(error), error.encoding, error.object, error.start, error.end, error.reason))
            return '', error.end

        codecs.register_error('encoding_text.note', note)
        b'\xff\xfea\0\x3d\xd8'.decode(NAMES[0], 'encoding_text.note')
        decoder = codecs.getincrementaldecoder(NAMES[0])('encoding_text.note')
        self.assertEqual(decoder.decode(bytearray(b'a\xe2')) + decoder.decode(bytearray(b'\x98b\xff')), 'ab')
        reason = 'malformed sequence'
        self.assertEqual(seen, [(UnicodeDecodeError, 'utf-16-le', b'\xff\xfea\0\x3d\xd8', 4, 6, reason),
                                (UnicodeDecodeError, 'utf-8', b'\xe2\x98b\xff', 0, 2, reason),
                                (UnicodeDecodeError, 'utf-8', b'\xe2\x98b\xff', 3, 4, reason)])
        self.assertTrue(all(type(each[2]) is bytes for each in seen))

    def test_encoding_that_a_mark_decided(self):
        for mark, own in ((b'\xef\xbb\xbf', 'utf-8'), (b'\xff\xfe', 'utf-16-le'), (b'\xfe\xff', 'utf-16-be')):
            for name in NAMES:
                with self.assertRaises(UnicodeDecodeError) as caught:
                    (mark + b'\xdc').decode(name)
                self.assertEqual(caught.exception.encoding, own)

    def test_surrogates_in_any_pieces(self):
        """Also for a handler under another name, which the codec doesn't know."""
        codecs.register_error('encoding_text.pass', codecs.lookup_error('surrogatepass'))
        text = 'a\ud800\udfff\u4f60\udc80'
        data = text.encode('utf-8', 'surrogatepass')
        for errors in ('surrogatepass', 'encoding_text.pass'):
            for first in range(len(data) + 1):
                for second in range(first, len(data) + 1):
                    decoder = codecs.getincrementaldecoder(NAMES[0])(errors)
                    parts = data[:first], data[first:second], data[second:]
                    self.assertEqual(''.join(map(decoder.decode, parts)) + decoder.decode(b'', True), text)

    def test_encode(self):
        codecs.register_error('encoding_text.bytes', lambda error: (b'\0?', error.end))
        codecs.register_error('encoding_text.text', lambda error: ('?', error.end - len(error.object) or error.end))
        for text in ('a\ud800b\udc80', '\U0001f600\udcff', 'sound'):
            for name, own in zip(NAMES, OWN):
                for errors in (*BUILT_IN, 'xmlcharrefreplace', 'namereplace', 'encoding_text.bytes', 'encoding_text.text'):
                    def coded(codec_name):
                        try:
                            return text.encode(codec_name, errors)
                        except UnicodeEncodeError as error:
                            return error.start, error.end
                    self.assertEqual(coded(name), coded(own), (text, errors))

    def test_lengths(self):
        """The second item that codecs return is the number of bytes or of characters."""
        for name in NAMES:
            self.assertEqual(codecs.lookup(name).decode(array.array('I', [0x00610061, 0x00610061]), 'ignore')[1], 8)
            self.assertEqual(codecs.lookup(name).decode(b'abc', None)[1] if name == NAMES[0] else 3, 3)
            self.assertEqual(codecs.lookup(name).encode('abc')[1], 3)


class Speed(unittest.TestCase):
    """The time is near CPython's, so it doesn't grow with the square of the length: for 320 KB that took 1,800 times as long."""

    def seconds(self, call):
        begin = time.process_time()
        call()
        return time.process_time() - begin

    def is_near(self, data, name, own, errors):
        theirs = self.seconds(lambda: bytes(data).decode(own, errors))
        return self.seconds(lambda: codecs.decode(data, name, errors)) < 30 * theirs + 0.005

    def check(self, data, name, own, handlers, kinds):
        for errors in handlers:
            for kind in kinds:
                each = kind(data)
                self.assertTrue(any(self.is_near(each, name, own, errors) for _ in range(5)), (errors, kind, len(data)))

    def test_utf_8(self):
        handlers = ('ignore', 'surrogateescape', 'backslashreplace', 'encoding_text.question')
        for length, kinds in ((LENGTHS[0], (bytes, bytearray, memoryview)), (LENGTHS[1], (bytes,))):
            for data in (b'\xff' * length, (b'a' * 22 + b'\xff') * (length // 23)):
                self.check(data, NAMES[0], OWN[0], handlers, kinds)
            self.check(b'\xed\xa0\x80' * (length // 3), NAMES[0], OWN[0], ('surrogatepass',), (bytes,))

    def test_utf_16(self):
        for length in LENGTHS:
            for name, own, order in zip(NAMES[1:], OWN[1:], ('little', 'big')):
                data = ('a' * 7).encode(own) + 0xD83D.to_bytes(2, order)
                self.check(data * (length // 16), name, own, ('backslashreplace', 'surrogatepass'), (bytes,))


if __name__ == '__main__':
    unittest.main()
