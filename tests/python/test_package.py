"""The wheel's files, its type stubs and the examples of its pages. WHEEL in the environment is its path."""
import ast
import base64
import doctest
import email
import hashlib
import os
import unittest
import zipfile
from pathlib import Path

import encoding_text

FOLDER = Path(encoding_text.__file__).parent
WHEEL = Path(os.environ['WHEEL'])
INFO = f'encoding_text-{encoding_text.__version__}.dist-info'


class Wheel(unittest.TestCase):
    def setUp(self):
        with zipfile.ZipFile(WHEEL) as wheel:
            self.files = {entry.filename: wheel.read(entry) for entry in wheel.infolist()}
            self.entries = wheel.infolist()

    def test_record(self):
        lines = [line.split(',') for line in self.files[f'{INFO}/RECORD'].decode().splitlines()]
        self.assertEqual([line[0] for line in lines], list(self.files))
        self.assertEqual(lines.pop(), [f'{INFO}/RECORD', '', ''])
        for name, checksum, length in lines:
            kind, digest = checksum.split('=')
            self.assertEqual((kind, int(length)), ('sha256', len(self.files[name])))
            wanted = base64.urlsafe_b64encode(hashlib.sha256(self.files[name]).digest()).decode().rstrip('=')
            self.assertEqual(digest, wanted)

    def test_metadata(self):
        metadata = email.message_from_bytes(self.files[f'{INFO}/METADATA'])
        self.assertEqual(metadata['Name'], 'encoding-text')
        self.assertEqual(metadata['Version'], encoding_text.__version__)
        self.assertEqual(metadata['Requires-Python'], '>=3.8')
        self.assertIn('repair(data)', metadata.get_payload())
        tags = email.message_from_bytes(self.files[f'{INFO}/WHEEL'])
        self.assertEqual(WHEEL.name, f'encoding_text-{encoding_text.__version__}-{tags["Tag"]}.whl')

    def test_files(self):
        self.assertIn(f'{INFO}/COPYRIGHT', self.files)
        self.assertIn('encoding_text/py.typed', self.files)
        self.assertEqual({entry.date_time for entry in self.entries}, {(2001, 9, 9, 1, 46, 40)})
        self.assertFalse([name for name in self.files if name.startswith('/') or '..' in name])
        extension = self.files['encoding_text/_native.abi3.so']
        self.assertEqual(extension[:4], b'\x7fELF')
        self.assertNotIn(os.getcwd().encode(), extension)


class Pages(unittest.TestCase):
    def check(self, results):
        self.assertEqual(results.failed, 0)
        self.assertGreater(results.attempted, 1)

    def test_module(self):
        self.check(doctest.testmod(encoding_text))

    def test_readme(self):
        self.check(doctest.testfile(str(Path(os.environ['README']).resolve()), module_relative=False))

    def test_each_public_name_is_documented(self):
        for name in encoding_text.__all__:
            self.assertGreater(len(getattr(encoding_text, name).__doc__), 20)


class Stubs(unittest.TestCase):
    def test_names(self):
        """The stubs have the names of the package, and its class those of the methods."""
        tree = ast.parse((FOLDER / '__init__.pyi').read_text(), feature_version=(3, 8))
        defined = {node.name: node for node in tree.body if isinstance(node, (ast.FunctionDef, ast.ClassDef))}
        self.assertEqual(sorted(defined), sorted(encoding_text.__all__))
        methods = {node.name for node in defined['IncrementalRepair'].body}
        self.assertEqual(methods, {name for name in dir(encoding_text.IncrementalRepair) if not name.startswith('_')})


if __name__ == '__main__':
    unittest.main()
