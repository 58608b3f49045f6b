"""How the shared library is found, and that the package declares its functions as the header does."""
import ctypes
import os
import re
import shutil
import subprocess
import sys
import tempfile
import unittest
from importlib.util import find_spec
from pathlib import Path

from sourcemap import _library, _tokens

from .header import HEADER, declared_functions

FOLDER = Path(__file__).resolve().parents[1]
LIBRARIES = os.path.realpath(Path(_library._path).parent)
TYPES = {'bool': ctypes.c_bool, 'size_t': ctypes.c_size_t, 'uint32_t': ctypes.c_uint32, 'sm_code': ctypes.c_uint32,
         'void': None}
STRUCTS = {'sm_handle': _library.Handle, 'sm_text': _library.Text, 'sm_error': _library.Error,
           'sm_token': _library.Token, 'sm_found': _library.Found, 'sm_counts': _library.Counts,
           'sm_debug_id': _library.DebugId, 'sm_section_start': _library.SectionStart, 'sm_finding': _library.Finding,
           'sm_report_counts': _library.ReportCounts}


def header_functions():
    """The functions of the header: their names, with the type that they return and those of their arguments."""
    return {name: (TYPES[result], [ctypes.c_void_p if '*' in kind else TYPES[kind.strip()] for kind, _ in parameters])
            for name, result, parameters in declared_functions()}


def functions():
    """The functions of the library that this package declares, by name."""
    for value in vars(_library).values():
        if isinstance(value, ctypes._CFuncPtr) and value.argtypes is not None:
            yield value.__name__, (value.restype, list(value.argtypes))


class Declared(unittest.TestCase):
    def test_functions(self):
        header = header_functions()
        # the package does not use these: one position is looked up by sm_lookup_many or sm_compiled_lookup_many, and
        # sm_check_files also checks without files
        unused = {'sm_lookup', 'sm_compiled_lookup', 'sm_compiled_token', 'sm_check'}
        self.assertEqual(set(header) - unused, {name for name, _ in functions()})
        for name, types in functions():
            with self.subTest(name):
                self.assertEqual(types, header[name])

    def test_structs(self):
        lines = [f'printf("%zu %zu\\n", sizeof({name}), _Alignof({name}));' for name in STRUCTS]
        fields = [(name, field) for name, struct in STRUCTS.items() for field, *_ in struct._fields_]
        lines += [f'printf("%zu %zu\\n", offsetof({name}, {field}), sizeof((({name} *)0)->{field}));'
                  for name, field in fields]
        expected = [(ctypes.sizeof(struct), ctypes.alignment(struct)) for struct in STRUCTS.values()]
        expected += [(getattr(STRUCTS[name], field).offset, getattr(STRUCTS[name], field).size)
                     for name, field in fields]
        with tempfile.TemporaryDirectory() as folder:
            source = Path(folder, 'sizes.c')
            source.write_text('#include <stdio.h>\n#include "sourcemap.h"\nint main(void) {' + '\n'.join(lines) + '}')
            built = ['cc', '-I', str(HEADER.parent), '-o', f'{folder}/sizes', str(source)]
            subprocess.run(built, check=True, capture_output=True)
            printed = subprocess.run([f'{folder}/sizes'], check=True, capture_output=True, text=True).stdout
        self.assertEqual([tuple(map(int, line.split())) for line in printed.splitlines()], expected)

    def test_packed_structs(self):
        self.assertEqual((_tokens.TOKEN.size, _tokens.FOUND.size),
                         (ctypes.sizeof(_library.Token), ctypes.sizeof(_library.Found)))

    def test_codes_and_kinds(self):
        text = HEADER.read_text()
        for name in 'OK', 'OUT_OF_MEMORY', 'ABSENT', 'WRONG_KIND', 'KIND_EMPTY', 'KIND_REGULAR', 'KIND_INDEX', \
                'KIND_HERMES', 'INTERFACE', 'INVALID', 'SUSPICIOUS', 'PLACE_KEY', 'PLACE_SEGMENT', 'PLACE_TOKEN', \
                'PLACE_SHIFT':
            value, = re.findall(rf'#define SM_{name} (\d+)u', text)
            self.assertEqual(getattr(_library, name), int(value))


class Found(unittest.TestCase):
    """These tests use a copy of the package, which has no library beside it."""

    def setUp(self):
        folder = tempfile.TemporaryDirectory()
        self.addCleanup(folder.cleanup)
        self.folder = os.path.realpath(folder.name)
        shutil.copytree(FOLDER / 'sourcemap', f'{self.folder}/python/sourcemap')

    def import_with(self, **variables):
        kept = {name: value for name, value in os.environ.items() if name not in (_library.VARIABLE, 'LD_LIBRARY_PATH')}
        return subprocess.run([sys.executable, '-c', 'import sourcemap; print(sourcemap._library._path)'],
                              env={**kept, 'PYTHONPATH': f'{self.folder}/python', **variables}, cwd=LIBRARIES,
                              capture_output=True, text=True)

    def check_found(self, run, path):
        self.assertEqual((run.stdout, run.returncode), (f'{path}\n', 0), run.stderr)

    def test_named_folder(self):
        for name in LIBRARIES, '.':
            self.check_found(self.import_with(SOURCEMAP_LIBRARY_DIR=name), f'{LIBRARIES}/libsourcemap.so')

    def test_named_folder_without_it(self):
        run = self.import_with(SOURCEMAP_LIBRARY_DIR=self.folder)
        self.assertEqual(run.returncode, 1)
        self.assertIn(f'ImportError: SOURCEMAP_LIBRARY_DIR is {self.folder}, which has no libsourcemap.so', run.stderr)

    def test_beside_the_package(self):
        os.makedirs(f'{self.folder}/c/out')
        shutil.copy(f'{LIBRARIES}/libsourcemap.so', f'{self.folder}/c/out/')
        self.check_found(self.import_with(), f'{self.folder}/c/out/libsourcemap.so')

    @unittest.skipUnless(sys.platform == 'linux' and shutil.which('ld'), 'the system finds libraries by ld')
    def test_where_the_system_looks(self):
        run = self.import_with(LD_LIBRARY_PATH=LIBRARIES)
        self.assertEqual(run.returncode, 0, run.stderr)
        self.assertRegex(run.stdout, r'\Alibsourcemap\.so[.0-9]*\n\Z')

    def test_nowhere(self):
        run = self.import_with()
        if run.returncode == 0:
            self.skipTest('the library is installed on this system')
        self.assertIn('ImportError: libsourcemap.so was not found', run.stderr)



class Installed(unittest.TestCase):
    def check_installed(self, folder):
        run = subprocess.run([sys.executable, '-c', 'import sourcemap; print(sourcemap.__file__, sourcemap.Map("{}"))'],
                             env={**os.environ, _library.VARIABLE: LIBRARIES},
                             cwd=folder, capture_output=True, text=True)
        self.assertEqual((run.stdout, run.returncode),
                         (f'{folder}/sourcemap/__init__.py <sourcemap.Map: regular, 0 tokens, 0 sources>\n', 0),
                         run.stderr)

    def setUp(self):
        folder = tempfile.TemporaryDirectory()
        self.addCleanup(folder.cleanup)
        self.folder = os.path.realpath(folder.name)

    def test_by_copy(self):
        shutil.copytree(FOLDER / 'sourcemap', f'{self.folder}/sourcemap')
        self.check_installed(self.folder)

    @unittest.skipUnless(find_spec('pip') and find_spec('setuptools') and find_spec('wheel'),
                         'pip, setuptools or wheel is not installed')
    def test_by_pip_without_network(self):
        """Installs a copy, since pip builds in the folder of the package."""
        shutil.copytree(FOLDER, f'{self.folder}/from', ignore=shutil.ignore_patterns('tests', '__pycache__'))
        run = subprocess.run([sys.executable, '-m', 'pip', 'install', '--no-build-isolation', '--no-index', '--no-deps',
                              '--disable-pip-version-check', '--target', f'{self.folder}/to', f'{self.folder}/from'],
                             capture_output=True, text=True)
        self.assertEqual(run.returncode, 0, run.stderr)
        self.assertTrue(Path(self.folder, 'to/sourcemap/py.typed').is_file())
        self.check_installed(f'{self.folder}/to')
