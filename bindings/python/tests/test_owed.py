"""That the package calls the library as its header asks: no null pointers, structs that begin as they should, nothing
that overlaps, and one call at a time of each handle."""
import os
import re
import shutil
import subprocess
import sys
import tempfile
import unittest

from sourcemap import _library

from . import owed
from .test_library import FOLDER

TESTS = ['map', 'lookups', 'compiled', 'checks', 'index', 'objects', 'texts', 'rows', 'errors']
BEGIN = '''
import ctypes, sourcemap, threading
from sourcemap import _library as library
map = sourcemap.Map.loads('{"version":3,"sources":["a.js"],"names":[],"mappings":"' + ',CAAC' * 1_000_000 + '"}')
text, error = library.Text(ctypes.addressof(library.Handle()), 0), library.Error()
def meanwhile(call):
    thread = threading.Thread(target=map.dumps)
    thread.start()
    while thread.is_alive():
        call()
'''
BROKEN = {
    'sm_file: text is null': 'library.file(map._at, None)',
    'sm_file: text does not begin empty': 'text.length = 1; library.file(map._at, ctypes.byref(text))',
    'sm_flatten: error does not begin as zeros': 'error.code = 1; library.flatten(map._at, ctypes.byref(error))',
    'sm_compose: map and adjustment overlap': 'library.compose(map._at, map._at, ctypes.byref(error))',
    'sm_tokens: tokens is not aligned': 'library.tokens(map._at, 0, ctypes.byref(ctypes.create_string_buffer(64), 1), 1)',
    # either of the two threads may report it
    'sm_(kind|write): the handle is in use': 'meanwhile(lambda: library.kind(map._at))',
}


@unittest.skipUnless(shutil.which('cc'), 'there is no C compiler')
class Owed(unittest.TestCase):
    @classmethod
    def setUpClass(cls):
        folder = tempfile.TemporaryDirectory()
        cls.addClassCleanup(folder.cleanup)
        owed.build(folder.name)
        cls.environment = {**os.environ, _library.VARIABLE: folder.name, 'OWED_TO': _library._path}

    def run_python(self, *words):
        return subprocess.run([sys.executable, *words], env=self.environment, cwd=FOLDER, capture_output=True,
                              text=True)

    def test_calls_of_all_tests(self):
        run = self.run_python('-m', 'unittest', *(f'tests.test_{each}' for each in TESTS))
        self.assertGreaterEqual(run.returncode, 0, run.stderr[-500:])
        self.assertRegex(run.stderr, r'\nRan \d+ tests')
        checked, = re.findall(r'^(\d+) uses of handles were checked$', run.stderr, flags=re.MULTILINE)[-1:]
        self.assertGreater(int(checked), 10_000)

    def test_broken_rules_are_found(self):
        for message, code in BROKEN.items():
            with self.subTest(message):
                run = self.run_python('-c', BEGIN + code)
                self.assertEqual(run.returncode, -6)
                self.assertRegex(run.stderr, f'\\A{message}\n\\Z')
