"""Bytes to test with, and what CPython's own decoder makes of them."""
import codecs
import itertools
import random

# The first and the last byte of each range of Table 3-7 of the Unicode Standard, and those next to them.
EDGES = bytes.fromhex('00 41 7f 80 8f 90 9f a0 bf c0 c1 c2 df e0 e1 ec ed ee ef f0 f1 f3 f4 f5 ff')
FEWER_EDGES = bytes.fromhex('41 80 8f 90 9f a0 bf c1 c2 e0 e1 ed f0 f1 f4 f5')
TEXTS = [
    '',
    'The quick brown fox jumps over the lazy dog. ',
    'na\u00efve, se\u00f1or, \u00fcber, \u00ff\u0080 ',
    '\u0421\u044a\u0435\u0448\u044c \u0435\u0449\u0451 ',
    '\u4f60\u597d\u4e16\u754c\ufffd\uffff\ue000\ud7ff\u0800',
    '\U0001f600 and \U0010ffff and \U00010000',
    '\u05e9\u05dc\u05d5\u05dd \u0645\u0631\u062d\u0628\u0627',
]
LONG = 1_000_003  # longer than each block and threshold of the library and of the extension


def text(data):
    return data.decode('utf-8', 'replace')


def sequences(data):
    """Returns the offset and length of each malformed sequence."""
    found = []

    def note(error):
        found.append((error.start, error.end - error.start))
        return '\ufffd', error.end

    codecs.register_error('note', note)
    data.decode('utf-8', 'note')
    return found


def short():
    """Yields all bytes of lengths up to 2, and longer ones of bytes at edges."""
    for length in range(3):
        for values in itertools.product(range(256), repeat=length):
            yield bytes(values)
    for edges, length in ((EDGES, 3), (FEWER_EDGES, 4)):
        for values in itertools.product(edges, repeat=length):
            yield bytes(values)


def damaged(generator, length, one_in):
    """Returns about as many bytes of text, one in `one_in` of which is replaced by any byte."""
    words = [generator.choice(TEXTS).encode() for _ in range(length // 20 + 1)]
    data = bytearray(b''.join(words)[:length])
    for _ in range(len(data) // one_in):
        data[generator.randrange(len(data))] = generator.randrange(256)
    return bytes(data)


def cut():
    """Yields each prefix and each suffix of a text of all kinds of characters."""
    data = ''.join(TEXTS).encode()
    for offset in range(len(data) + 1):
        yield data[:offset]
        yield data[offset:]


def some(seed):
    """Yields random bytes and damaged texts of many lengths."""
    generator = random.Random(seed)
    for length in itertools.chain(range(200), (1000, 4095, 4096, 4097, 65535, 65536, 65537)):
        yield bytes(generator.randrange(256) for _ in range(length))
        for one_in in (2, 20, 200):
            yield damaged(generator, length, one_in)


def long():
    """Yields long texts of one kind each, then with one damaged byte in a hundred, then random bytes."""
    generator = random.Random(48)
    for words in TEXTS[1:]:
        data = words.encode() * (LONG // len(words.encode()))
        yield data
        yield data + b'\xf0\x9f\x98'
        worse = bytearray(data)
        for _ in range(len(data) // 100):
            worse[generator.randrange(len(data))] = generator.randrange(256)
        yield bytes(worse)
    yield bytes(generator.getrandbits(8) for _ in range(LONG))
