"""Memory that fails, memory that is freed, and threads. PYTHON in the environment is the command of this interpreter, if
it can't be run by its name."""
import gc
import importlib.util
import os
import resource
import shlex
import subprocess
import sys
import threading
import time
import tracemalloc
import unittest

import encoding_text
import encoding_text.codec

try:
    import _testcapi
except ImportError:  # not a part of each CPython
    _testcapi = None

SHORT = b'a\xe2\x98Z\xff'
LONG = SHORT * 100_000
REPAIRED = LONG.decode('utf-8', 'replace').encode()


def incremental(data):
    repair = encoding_text.IncrementalRepair()
    return repair.decode(data[:-2]) + repair.decode(data[-2:], True), repair.replaced, repair.getstate()


def iterate(data):
    return list(encoding_text.malformed(data))


def decode(data):
    return encoding_text.codec.IncrementalDecoder('replace').decode(data, True)


def decode_strictly(data):
    try:
        return encoding_text.codec.IncrementalDecoder().decode(data, True)
    except UnicodeDecodeError as error:
        return error.start


def decode_by_handler(data):
    return encoding_text.codec.IncrementalDecoder('backslashreplace').decode(data, True)


CALLS = [encoding_text.repair, encoding_text.is_utf8, encoding_text.valid_up_to, iterate, incremental]

# leave() limits the memory of the process to what it has and some more. An emulator may ignore that limit and have one of its
# own, which is reached by mappings that stay.
LEAVE = '''
import mmap, resource
def leave(space):
    pages = int(open('/proc/self/statm').read().split()[0])
    resource.setrlimit(resource.RLIMIT_AS, ((pages << 12) + space,) * 2)
    kept = []
    try:
        spare = [mmap.mmap(-1, space)]
        mmap.mmap(-1, space)
    except OSError:
        return
    length = 1 << 30
    while length >= 1 << 20:
        try:
            kept.append(mmap.mmap(-1, length))
        except OSError:
            length >>= 1
    spare.clear()
    return kept
'''

# Leaves a little memory, and repairs more than that.
LIMITED = LEAVE + '''
import encoding_text
data = b'a\\xff' * (8 << 20)
repair = encoding_text.IncrementalRepair()
repair.decode(b'\\xe2')
kept = leave(4 << 20)
for call in (encoding_text.repair, repair.decode):
    try:
        call(data)
    except MemoryError:
        print('MemoryError', repair.getstate(), repair.replaced)
'''

# The same with memory for the first buffer of a result, and not for the longer one that malformed bytes need. Each call frees
# its buffer, also if it fails.
HALF = LEAVE + '''
import codecs, encoding_text.codec
codecs.register(encoding_text.codec.search)
text = 'long' * (1 << 20)
codecs.register_error('long', lambda error: (text, error.end))
data = b'\\xff' * (8 << 20)
repair = encoding_text.IncrementalRepair()
texts = [codecs.getincrementaldecoder('encoding_text_utf_8')(errors) for errors in ('replace', 'surrogateescape', 'long')]
for each in (repair, *texts):
    each.decode(b'a\\xe2')
kept = leave(16 << 20)
for each, call in [(repair, repair.decode), (repair, repair.report)] + [(text, text.decode) for text in texts]:
    for _ in range(3):
        try:
            call(data)
        except MemoryError:
            print('MemoryError', each.getstate()[0], repair.replaced)
        bytearray(4 << 20)
'''


class Memory(unittest.TestCase):
    @unittest.skipIf(_testcapi is None, 'this CPython has no _testcapi')
    def test_each_allocation_fails(self):
        for data in (SHORT, 100 * SHORT, memoryview(100 * SHORT)):
            for call in CALLS:
                wanted = call(data)
                self.assertGreaterEqual(self.failures(call, data, wanted), call in (encoding_text.repair, incremental))
        for call in (encoding_text.repair, incremental):
            self.assertGreaterEqual(self.failures(call, LONG, call(LONG)), 1)
        for text in ('a' * 1000, '\ud800', 'a\ud800' * 5, '\ud83d\ude00' * 5):
            self.assertGreaterEqual(self.failures(encoding_text.encode, text, encoding_text.encode(text)), 1)

    def failures(self, call, data, wanted):
        """Lets the first allocation fail, then the second, until the call succeeds. Returns how often it failed."""
        for count in range(1_000_000):
            _testcapi.set_nomemory(count, count + 1)
            try:
                found = call(data)
            except MemoryError:
                continue
            finally:
                _testcapi.remove_mem_hooks()
            self.assertEqual(found, wanted)
            return count
        return self.fail('it never succeeds')

    @unittest.skipIf(_testcapi is None, 'this CPython has no _testcapi')
    def test_a_decode_that_fails_changes_nothing(self):
        for data in (b'\x98' + SHORT, 100 * SHORT, memoryview(100 * SHORT), LONG):
            for final, name in ((False, 'decode'), (True, 'decode'), (False, 'report'), (True, 'report')):
                if name == 'report' and len(data) > 1000:
                    continue  # it has an allocation for each place
                repair = encoding_text.IncrementalRepair()
                begin = repair.decode(b'\xff\xe2')
                self.assertEqual((repair.getstate(), repair.replaced), ((b'\xe2', 0), 1))
                call = repair.decode if name == 'decode' else lambda *arguments: repair.report(*arguments)[0]
                rest = self.unchanged_until_it_succeeds(repair, call, data, final)
                rest += repair.decode(b'', True)
                wanted = (b'\xff\xe2' + bytes(data)).decode('utf-8', 'replace')
                self.assertEqual((begin + rest, repair.replaced), (wanted.encode(), wanted.count('\ufffd')))

    def unchanged_until_it_succeeds(self, repair, call, data, final):
        """Lets the first allocation fail, then the second, until a call succeeds. Returns its result."""
        before = repair.getstate(), repair.replaced
        for count in range(1_000_000):
            _testcapi.set_nomemory(count, count + 1)
            try:
                found = call(data, final)
            except MemoryError:
                found = None
            finally:
                _testcapi.remove_mem_hooks()
            if found is not None:
                self.assertGreater(count, 0)
                return found
            self.assertEqual((repair.getstate(), repair.replaced), before)
        return self.fail('it never succeeds')

    def test_limit(self):
        self.assertEqual(self.written_by(LIMITED), "MemoryError (b'\\xe2', 0) 0\n" * 2)
        self.assertEqual(self.written_by(HALF), "MemoryError b'\\xe2' 0\n" * 15)

    def written_by(self, program):
        command = shlex.split(os.environ.get('PYTHON', '')) or [sys.executable]
        return subprocess.run([*command, '-c', program], stdout=subprocess.PIPE, check=True, text=True).stdout

    def test_all_memory_is_freed(self):
        def many():
            for data in (SHORT, 1000 * SHORT, memoryview(1000 * SHORT), b'sound' * 1000):
                for call in CALLS:
                    call(data)
                for wrong in ('text', memoryview(data)[::2]):
                    for call in CALLS:
                        with self.assertRaises((TypeError, BufferError)):
                            call(wrong)
            for text in ('sound' * 1000, 'a\ud800' * 1000):
                encoding_text.encode(text)
            with self.assertRaises(TypeError):
                encoding_text.encode(SHORT)

        many()
        gc.collect()
        tracemalloc.start()
        many()
        gc.collect()
        before = tracemalloc.get_traced_memory()[0]
        peak = resource.getrusage(resource.RUSAGE_SELF).ru_maxrss
        for _ in range(20):
            many()
        gc.collect()
        after = tracemalloc.get_traced_memory()[0]
        tracemalloc.stop()
        self.assertLess(after - before, 5000)
        self.assertLess(resource.getrusage(resource.RUSAGE_SELF).ru_maxrss - peak, 20_000)

    def test_objects_let_go_of_their_types(self):
        for make in (encoding_text.IncrementalRepair, encoding_text._native.Decoder, lambda: encoding_text.malformed(SHORT)):
            kind = type(make())
            before = sys.getrefcount(kind)
            for _ in range(100):
                make()
            self.assertEqual(sys.getrefcount(kind), before, kind)

    def test_iterator_in_a_cycle(self):
        class Holder(bytes):
            pass

        holder = Holder(SHORT)
        holder.iterator = encoding_text.malformed(holder)
        freed = []
        holder.note = type('Note', (), {'__del__': lambda self: freed.append(True)})()
        del holder
        gc.collect()
        self.assertEqual(freed, [True])


class Module(unittest.TestCase):
    """The types of the extension, which the module and its iterators refer to."""

    def types_of(self, module):
        return [module.IncrementalRepair, module.Decoder, type(module.malformed(b''))]

    def test_module_visits_its_types(self):
        for kind in self.types_of(encoding_text._native):
            self.assertIn(kind, gc.get_referents(encoding_text._native))

    def test_module_frees_its_types(self):
        before = self.number_of_types()
        self.assertGreaterEqual(before, 3)
        spec = importlib.util.spec_from_file_location('encoding_text._native', encoding_text._native.__file__)
        module = importlib.util.module_from_spec(spec)
        spec.loader.exec_module(module)
        self.assertEqual(self.number_of_types(), before + 3)
        del module, spec
        gc.collect()
        self.assertEqual(self.number_of_types(), before)

    def number_of_types(self):
        """Returns how many types have a name of one of the module's. The collector lists also what it can't free."""
        names = {kind.__name__ for kind in self.types_of(encoding_text._native)}
        return sum(type(each) is type and each.__name__ in names for each in gc.get_objects())

    def test_iterator_visits_what_it_refers_to(self):
        for data in (SHORT[:] + b'.', bytearray(SHORT)):
            iterator = encoding_text.malformed(data)
            found = gc.get_referents(iterator)
            self.assertTrue(any(each is data for each in found), data)
            if sys.version_info >= (3, 9):  # until then the types of iterators aren't visited
                self.assertIn(type(iterator), found)


class Threads(unittest.TestCase):
    def in_threads(self, call):
        results = []
        threads = [threading.Thread(target=lambda: results.append(call())) for _ in range(8)]
        for thread in threads:
            thread.start()
        for thread in threads:
            thread.join()
        self.assertEqual(len(results), len(threads))
        return results

    def test_repair(self):
        for result in self.in_threads(lambda: encoding_text.repair(LONG)):
            self.assertEqual(result[0], REPAIRED)

    def test_one_iterator(self):
        data = (b'a' * 100_000 + b'\xff') * 20
        iterator = encoding_text.malformed(data)
        found = [each for results in self.in_threads(lambda: list(iterator)) for each in results]
        self.assertEqual(set(found), {(100_001 * i + 100_000, 1) for i in range(20)})

    def test_other_threads_run(self):
        """This thread sees another one at work on long bytes, though Python changes threads only each minute."""
        data = '\u4f60'.encode() * (8 << 20) + b'\xff'
        interval = sys.getswitchinterval()
        sys.setswitchinterval(60)
        try:
            seen = any(self.at_work(data) for _ in range(20))
        finally:
            sys.setswitchinterval(interval)
        self.assertTrue(seen)

    def test_other_threads_run_from_64_kib_on(self):
        """Another thread runs while a call reads 64 KiB of bytes, and not while it reads one byte less."""
        for call in (encoding_text.repair, encoding_text.is_utf8, encoding_text.valid_up_to, iterate, incremental, decode):
            for letters in (b'a', b'\xff'):
                if call is incremental or letters == b'a':
                    name = getattr(call, '__name__', call)
                    self.assertTrue(self.lets_run(call, letters * (65536 + 2), 30), name)
                    self.assertFalse(self.lets_run(call, letters * 65535, 0.1), name)

    def test_other_threads_run_in_each_mode(self):
        for call in (decode_strictly, decode_by_handler):
            self.assertTrue(self.lets_run(call, b'a' * (65536 + 2), 30), call.__name__)
        # after a malformed sequence, once many bytes were without another
        self.assertTrue(self.lets_run(decode_by_handler, bytearray(b'\xff' + b'a' * 200_000), 30))

    def test_other_threads_wait_while_bytes_can_change(self):
        """Another thread could write to any object but `bytes`."""
        for call in (encoding_text.repair, encoding_text.is_utf8, encoding_text.valid_up_to, iterate, incremental, decode,
                     decode_strictly, decode_by_handler):
            for kind in (bytearray, memoryview, lambda data: memoryview(bytearray(data)).toreadonly()):
                self.assertFalse(self.lets_run(call, kind(b'a' * (65536 + 2)), 0.05), (call.__name__, kind))

    def test_bytes_are_held_while_they_are_read(self):
        """A call that reads holds the bytes itself, since another one may end the iteration and let go of them."""
        data = b'a' * (64 << 20)
        seen = 0
        for _ in range(100):
            iterator = encoding_text.malformed(data)
            before = sys.getrefcount(data)
            thread = threading.Thread(target=next, args=(iterator, None))
            thread.start()
            while thread.is_alive() and seen <= before:
                seen = max(seen, sys.getrefcount(data))
            thread.join()
            if seen > before:
                break
        self.assertEqual(seen, before + 1)

    def lets_run(self, call, data, seconds):
        """Returns whether another thread ran that waits while this one calls, though Python changes threads only each hour."""
        ran, started, lock = [], threading.Event(), threading.Lock()

        def run():
            started.set()
            with lock:
                ran.append(True)

        interval = sys.getswitchinterval()
        sys.setswitchinterval(3600)
        thread = threading.Thread(target=run)
        try:
            with lock:
                thread.start()
                started.wait()
            end = time.monotonic() + seconds
            while not ran and time.monotonic() < end:
                call(data)
            return bool(ran)
        finally:
            sys.setswitchinterval(interval)
            thread.join()

    def at_work(self, data):
        thread = threading.Thread(target=encoding_text.repair, args=(data,))
        thread.start()
        is_alive = thread.is_alive()
        thread.join()
        return is_alive


if __name__ == '__main__':
    unittest.main()
