"""Each call, 10,000 times: the memory of the process stays as it is. CALLS in the environment is another number. And each
call while one of its allocations fails."""
import ast
import codecs
import copy
import gc
import io
import itertools
import os
import pickle
import sys
import unittest

import encoding_text
from encoding_text import _native, codec

try:
    import _testcapi
except ImportError:  # not a part of each CPython
    _testcapi = None

CALLS = int(os.environ.get('CALLS', 10_000))
PLACES = 30  # more than a call has allocations before it gets to its own
PAGE = os.sysconf('SC_PAGE_SIZE')
MOST_BLOCKS = 200  # of Python's small objects: caches may grow, and one that leaks with each call is CALLS of them
MOST_BYTES = 4 << 20  # a buffer, a text or a list that leaks with each call is more than ten times as much
SOUND = 'na\xefve \u4f60\u597d '.encode() * 300
DAMAGED = (b'sound ' * 80 + b'\xff\xe2\x98Z\xed\xa0\x80') * 9  # more than a result that needs no memory of its own
LONE = 'na\xefve \ud800' * 600
NAME = 'encoding_text_utf_8'
# What CPython 3.11 says if it has no memory for a frame.
NO_FRAME = '^error return without exception set$|returned NULL without setting an exception$'


def question(error):
    return '?', error.end


def wrong(error):
    return None


def out_of_bounds(error):
    return 'text' * 500, len(error.object) + 1


def raising(error):
    raise KeyError(error.start)


def setUpModule():
    codecs.register(codec.search)
    for handler in (question, wrong, out_of_bounds, raising):
        codecs.register_error(f'encoding_text.{handler.__name__}', handler)


def fails(call, *arguments):
    try:
        call(*arguments)
    except (TypeError, ValueError, BufferError, LookupError, StopIteration):  # UnicodeDecodeError is a ValueError
        return
    raise AssertionError('it has to fail')


def repair():
    made = encoding_text.IncrementalRepair()
    made.decode(b'\xe2')
    return made


def decoder(errors='strict'):
    made = codec.IncrementalDecoder(errors)
    made.decode(b'a\xe2')
    return made


def reader(data=DAMAGED, errors='replace'):
    return codec.StreamReader(io.BytesIO(data), errors)


def native(data, errors):
    return _native.Decoder().decode(data, True, errors)


ODD = memoryview(DAMAGED)[::2]
BUFFERS = (SOUND, DAMAGED, bytearray(DAMAGED), memoryview(DAMAGED))
ERRORS = ('replace', 'ignore', 'surrogateescape', 'backslashreplace', 'encoding_text.question')
FAILING = ('strict', 'no such handler', 'encoding_text.wrong', 'encoding_text.out_of_bounds', 'encoding_text.raising')


def of_bytes(call):
    """The ways to call a function of bytes."""
    return [lambda data=data: call(data) for data in BUFFERS] + [lambda: fails(call, 'text'), lambda: fails(call, ODD)]


def of_pieces(call):
    """The ways to call a method of IncrementalRepair that takes bytes."""
    return of_bytes(lambda data: call(repair(), data)) + [lambda: call(repair(), DAMAGED, True), lambda: fails(call, repair())]


def of_errors(call):
    """The ways to call a function of bytes and a handler."""
    return [lambda data=data, errors=errors: call(data, errors) for data in BUFFERS[1:3] for errors in ERRORS] + \
        [lambda errors=errors: fails(call, DAMAGED, errors) for errors in FAILING] + [lambda: fails(call, 'text', 'strict')]


EACH = {
    'encode': [lambda: encoding_text.encode('text' * 1000), lambda: encoding_text.encode(LONE),
               lambda: fails(encoding_text.encode, b'')],
    'repair': of_bytes(encoding_text.repair),
    'is_utf8': of_bytes(encoding_text.is_utf8),
    'valid_up_to': of_bytes(encoding_text.valid_up_to),
    'malformed': of_bytes(lambda data: list(encoding_text.malformed(data))) + [lambda: next(encoding_text.malformed(DAMAGED))],
    'IncrementalRepair': [repair, lambda: fails(encoding_text.IncrementalRepair, 1)],
    'IncrementalRepair.decode': of_pieces(encoding_text.IncrementalRepair.decode),
    'IncrementalRepair.report': of_pieces(encoding_text.IncrementalRepair.report),
    'IncrementalRepair.reset': [lambda: repair().reset()],
    'IncrementalRepair.replaced': [lambda: repair().replaced],
    'IncrementalRepair.getstate': [lambda: repair().getstate()],
    'IncrementalRepair.setstate': [lambda: repair().setstate((b'\xe2\x98', 0))] + [
        lambda state=state: fails(repair().setstate, state) for state in (None, (), (b'a', 0), (b'\xe2', 'x'))],
    'Decoder.decode': of_errors(native) + [lambda: fails(_native.Decoder().decode)],
    'Decoder.getstate': [lambda: _native.Decoder().getstate()],
    'Decoder.setstate': [lambda: _native.Decoder().setstate(b'\xe2', 0, 0),
                         lambda: fails(_native.Decoder().setstate, b'\xe2' * 4, 0, 0)],
    'codec.search': [lambda: codec.search(NAME), lambda: codec.search('none'), lambda: DAMAGED.decode(NAME, 'replace'),
                     lambda: SOUND.decode(NAME).encode(NAME), lambda: fails(LONE.encode, NAME)],
    'codec.IncrementalDecoder': [decoder, lambda: copy.copy(decoder()), lambda: copy.deepcopy(decoder()),
                                 lambda: pickle.loads(pickle.dumps(decoder()))],
    'codec.IncrementalDecoder.decode': [lambda: decoder('ignore').decode(DAMAGED), lambda: decoder('replace').decode(SOUND, True),
                                        lambda: fails(decoder().decode, DAMAGED), lambda: fails(decoder().decode, 'text')],
    'codec.IncrementalDecoder.encoding': [lambda: decoder().encoding],
    'codec.IncrementalDecoder.reset': [lambda: decoder().reset()],
    'codec.IncrementalDecoder.getstate': [lambda: decoder().getstate()],
    'codec.IncrementalDecoder.setstate': [lambda: decoder().setstate((b'\xe2', 0)), lambda: fails(decoder().setstate, (b'1234', 0))],
    'codec.StreamReader': [reader],
    'codec.StreamReader.decode': [lambda: reader().decode(DAMAGED, 'replace'), lambda: fails(reader().decode, DAMAGED)],
    'codec.StreamReader.read': [lambda: reader().read(), lambda: reader().read(100, 5), lambda: fails(reader(b'\xe2', 'strict').read)],
    'codec.StreamReader.readline': [lambda: reader().readline(), lambda: fails(reader(b'\xe2', 'strict').readline)],
    'codec.StreamReader.reset': [lambda: reader().reset()],
}


def names_of(kind, prefix):
    return {f'{prefix}.{name}' for name in vars(kind) if not name.startswith('_')}


def stubs():
    """Yields the names of the functions, classes and methods of the stubs."""
    for module in (encoding_text, codec):
        path = os.path.splitext(module.__file__)[0] + '.pyi'
        prefix = module.__name__.replace('encoding_text', '', 1).lstrip('.')
        with open(path, encoding='utf-8') as file:
            for node in ast.parse(file.read()).body:
                inner = node.body if isinstance(node, ast.ClassDef) else ()
                if isinstance(node, (ast.ClassDef, ast.FunctionDef)):
                    yield '.'.join(filter(None, (prefix, node.name)))
                for method in inner:
                    if isinstance(method, ast.FunctionDef) and method.name != '__init__':
                        yield '.'.join(filter(None, (prefix, node.name, method.name)))


class Leaks(unittest.TestCase):
    def test_list_has_each_call(self):
        wanted = set(encoding_text.__all__) | {f'codec.{name}' for name in codec.__all__}
        for kind, prefix in ((encoding_text.IncrementalRepair, 'IncrementalRepair'), (_native.Decoder, 'Decoder'),
                             (codec.IncrementalDecoder, 'codec.IncrementalDecoder'), (codec.StreamReader, 'codec.StreamReader')):
            wanted |= names_of(kind, prefix)
        self.assertEqual(set(EACH), wanted)
        self.assertLessEqual(set(stubs()), set(EACH))
        self.assertGreater(len(set(stubs())), 15)

    def grows(self, call):
        """Returns by how many blocks and bytes the process grows."""
        for _ in range(100):
            call()
        gc.collect()
        blocks, size = sys.getallocatedblocks(), self.size()
        for _ in range(CALLS):
            call()
        gc.collect()
        return sys.getallocatedblocks() - blocks, self.size() - size

    def size(self):
        with open('/proc/self/statm') as file:
            return int(file.read().split()[1]) * PAGE

    def check(self, call, message):
        blocks, size = self.grows(call)
        self.assertLess(blocks, MOST_BLOCKS, message)
        self.assertLess(size, MOST_BYTES, message)

    def test_each_call(self):
        for name, calls in EACH.items():
            for number, call in enumerate(calls):
                self.check(call, (name, number))

    @unittest.skipIf(_testcapi is None, 'this CPython has no _testcapi')
    def test_each_call_without_memory(self):
        for name, calls in EACH.items():
            failures = [self.failures(call) for call in calls]
            self.assertGreater(sum(failures), 0, name)

    def failures(self, call):
        """Lets one of the first allocations of a call fail, each in turn. Returns how many calls failed for that."""
        count = 0
        for place in range(PLACES):
            _testcapi.set_nomemory(place, place + 1)
            try:
                call()
            except MemoryError:
                count += 1
            except pickle.PicklingError:  # what CPython makes of it
                pass
            except SystemError as error:
                self.assertRegex(str(error), NO_FRAME)
            finally:
                _testcapi.remove_mem_hooks()
        return count

    @unittest.skipIf(_testcapi is None, 'this CPython has no _testcapi')
    def test_failing_memory(self):
        for call in (encoding_text.repair, lambda data: list(encoding_text.malformed(data)), lambda data: repair().decode(data),
                     lambda data: repair().report(data), lambda data: encoding_text.encode(LONE),
                     *(lambda data, errors=errors: native(data, errors) for errors in ('strict', *ERRORS))):
            places = itertools.cycle(range(12))
            failures = []

            def failing():
                place = next(places)
                _testcapi.set_nomemory(place, place + 1)
                try:
                    call(DAMAGED)
                except MemoryError:
                    failures.append(None)
                except UnicodeDecodeError:
                    pass
                except SystemError as error:
                    self.assertRegex(str(error), NO_FRAME)
                finally:
                    _testcapi.remove_mem_hooks()
                if len(failures) > 100:
                    failures.clear()
                    failing.some = True

            self.check(failing, call)
            self.assertTrue(failing.some)


if __name__ == '__main__':
    unittest.main()
