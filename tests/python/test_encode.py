"""encode(), compared with CPython's own codecs of UTF-16."""
import itertools
import random
import sys
import unittest

import encoding_text

# characters of each length in UTF-8, U+FFFD, and the first and last surrogates of each kind
CHARACTERS = 'a\xe9\u4f60\U0001f600\ufffd\ud800\ud83d\udbff\udc00\udc80\ude00\udfff'


class OfText(str):
    pass


def wanted(text):
    """Returns the UTF-8 of a text by way of its UTF-16, and how many surrogates CPython's decoder replaces in that."""
    decoded = text.encode('utf-16-le', 'surrogatepass').decode('utf-16-le', 'replace')
    return decoded.encode(), decoded.count('\ufffd') - text.count('\ufffd')


class Encode(unittest.TestCase):
    def check(self, text):
        self.assertEqual(encoding_text.encode(text), wanted(text), text if len(text) < 100 else len(text))

    def test_rows(self):
        rows = [
            ('', b'', 0),
            ('na\xefve', b'na\xc3\xafve', 0),
            ('\ufffd', b'\xef\xbf\xbd', 0),
            ('a\ud83dz', b'a\xef\xbf\xbdz', 1),
            ('\ude00\ud83d', b'\xef\xbf\xbd\xef\xbf\xbd', 2),
            ('\ud83d\ude00', b'\xf0\x9f\x98\x80', 0),
            ('\ud83d\ud83d\ude00\U0001f600', b'\xef\xbf\xbd\xf0\x9f\x98\x80\xf0\x9f\x98\x80', 1),
        ]
        for text, data, replaced in rows:
            self.assertEqual(encoding_text.encode(text), (data, replaced))
            self.check(text)

    def test_short(self):
        count = 0
        for length in range(5):
            for characters in itertools.product(CHARACTERS, repeat=length):
                self.check(''.join(characters))
                count += 1
        self.assertEqual(count, sum(12**length for length in range(5)))

    def test_long(self):
        source = random.Random(7)
        for surrogates in (0, 1, 100):
            for kind in ('a', '\xe9', '\u4f60', '\U0001f600', CHARACTERS[:5]):
                text = source.choices(kind, k=100_003)
                for _ in range(surrogates):
                    text[source.randrange(len(text))] = source.choice(CHARACTERS[5:])
                self.check(''.join(text))
        for surrogate in CHARACTERS[5:]:
            self.check(surrogate * 70_000)
            self.check('a' * 70_000 + surrogate)
            self.check(surrogate + 'a' * 70_000)

    def test_well_formed_text_is_what_its_encode_returns(self):
        for text in ('', 'a', '\u4f60\u597d', '\U0001f600' * 1000):
            self.assertEqual(encoding_text.encode(text), (text.encode(), 0))

    def test_subclass(self):
        self.assertEqual(encoding_text.encode(OfText('a\ud800')), (b'a\xef\xbf\xbd', 1))

    def test_surrogates_of_a_file_name(self):
        self.assertEqual(encoding_text.encode(b'\xff.txt'.decode('utf-8', 'surrogateescape')), (b'\xef\xbf\xbd.txt', 1))

    def test_no_text(self):
        for wrong in (b'text', bytearray(), 1, None, ['a']):
            with self.assertRaisesRegex(TypeError, 'a str is required, not <class'):
                encoding_text.encode(wrong)
        for arguments in ((), ('a', 'b')):
            with self.assertRaises(TypeError):
                encoding_text.encode(*arguments)
        with self.assertRaises(TypeError):
            encoding_text.encode(text='a')

    def test_references(self):
        for text in ('a' * 1000, 'a\ud800' * 1000):
            before = sys.getrefcount(text)
            for _ in range(100):
                encoding_text.encode(text)
            self.assertEqual(sys.getrefcount(text), before)


if __name__ == '__main__':
    unittest.main()
