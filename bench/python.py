#!/usr/bin/env python3
"""Compares the Python package with CPython's decoders: bench/python.py [LENGTH..]

For each length in bytes and each text it prints nanoseconds of bytes.decode('utf-8', 'replace') and of repair(), and
how many times as fast the latter is. Then it prints the same of CPython's incremental decoder, with 'replace', and of
IncrementalRepair, for a whole text as one piece. CPython's decoders return str, ours return bytes. Times are of the
processor, the least of several rounds in which the calls take turns. The package has to be on the PYTHONPATH.
"""
import codecs
import random
import sys
import time

import encoding_text

LENGTHS = 16, 64, 1024, 65536, 1 << 20
ROUNDS = 9
WORDS = {
    'ASCII': 'The quick brown fox jumps over the lazy dog. ',
    'Latin': 'Gr\u00f6\u00dfe, na\u00efve, se\u00f1or, \u00e0 la carte, \u00fcberm\u00e4\u00dfig, fa\u00e7ade ',
    'Cyrillic': '\u0421\u044a\u0435\u0448\u044c \u0435\u0449\u0451 \u044d\u0442\u0438\u0445 \u0431\u0443\u043b\u043e\u043a ',
    'CJK': '\u4f60\u597d\u4e16\u754c\u9019\u662f\u4e00\u500b\u6e2c\u8a66\u6587\u672c\u6f22\u5b57',
    'emoji': '\U0001f600\U0001f601\U0001f602\U0001f923',
}


def damaged(data, generator):
    """Returns the bytes with 0xFF for one in a hundred, and at least for one."""
    changed = bytearray(data)
    for offset in generator.sample(range(len(data)), max(1, len(data) // 100)):
        changed[offset] = 0xFF
    return bytes(changed)


def texts(length):
    """Yields the name and the bytes of each kind of text: sound, damaged and random. There are many short texts of a
    kind, which are taken in turn: if one were repeated, the processor would learn its branches."""
    generator = random.Random(1)
    numbers = range(max(1, min(1000, 100_000 // length)))
    for name, words in WORDS.items():
        data = words.encode() * (2 + length // len(words.encode()))
        starts = [generator.randrange(len(words.encode())) for _ in numbers]
        sound = [data[start:start + length].decode('utf-8', 'ignore').encode() for start in starts]
        yield name, sound
        yield f'{name}, 1 % malformed', [damaged(each, generator) for each in sound]
    yield 'random', [bytes(generator.getrandbits(8) for _ in range(length)) for _ in numbers]


def seconds(call, data, count):
    begun = time.thread_time()
    for _ in range(count):
        for each in data:
            call(each)
    return (time.thread_time() - begun) / count / len(data)


def compare(data):
    """Returns the seconds of each call."""
    decoder, incremental = codecs.getincrementaldecoder('utf-8')('replace'), encoding_text.IncrementalRepair()
    calls = [lambda data: data.decode('utf-8', 'replace'), lambda data: encoding_text.repair(data),
             lambda data: decoder.decode(data, True), lambda data: incremental.decode(data, True)]
    count = max(1, 1_000_000 // sum(3 * len(each) + 100 for each in data))
    best = [float('inf')] * len(calls)
    for _ in range(ROUNDS):
        for i, call in enumerate(calls):
            best[i] = min(best[i], seconds(call, data, count))
    return best


def main():
    for length in map(int, sys.argv[1:] or LENGTHS):
        for name, data in texts(length):
            line = f'{length:8} {name:24}'
            times = compare(data)
            for theirs, ours in zip(times[::2], times[1::2]):
                line += f'{theirs * 1e9:11.0f} {ours * 1e9:11.0f} {theirs / ours:6.2f}'
            print(line)


if __name__ == '__main__':
    main()
