"""Examples of the docstrings and of README.md, docstrings of all public items, and types."""
import contextlib
import doctest
import importlib
import inspect
import io
import os
import pkgutil
import re
import shutil
import subprocess
import tempfile
import unittest
from importlib.util import find_spec
from pathlib import Path

import sourcemap

from .maps import EXAMPLES

FOLDER = Path(__file__).resolve().parents[1]
MODULES = [sourcemap] + [importlib.import_module(f'sourcemap.{each.name}')
                         for each in pkgutil.iter_modules(sourcemap.__path__) if each.name != '__main__']

# what the examples of some modules need
NEEDED = {'sourcemap.batch': 'pandas', 'sourcemap.dask': 'dask'}

SAMPLE = '''\
import uuid
from typing import Iterator, List, Optional, Tuple

import sourcemap
from sourcemap import Answers, Builder, Bundle, CompiledMap, Finding, Map, Module, Reference, Report, Section
from sourcemap import SegmentPosition, SourceMapError, Token, View, errors

def frames(path: str) -> Iterator[Tuple[Optional[str], Optional[int]]]:
    with Map.load(path) as map:
        found: Optional[Token] = map.lookup(0, 5)
        if found is not None and found.source_id is not None and found.line is not None:
            yield found.source, found.line + found.source_id
        answers: Answers = map.lookup_many([(0, 5), (1, 0)])
        texts: List[str] = [str(answer) for answer in answers]
        names: Tuple[str, ...] = tuple(map.names)
        contents: List[Optional[str]] = list(map.contents)
        sections: Tuple[Section, ...] = map.sections
        paths: Optional[Tuple[str, ...]] = map.module_paths
        id: Optional[uuid.UUID] = map.debug_id
        map.file = None
        yield map.scope_for(0, 1, 2), len(texts) + len(names) + len(contents) + len(sections) + len(paths or ())

def compiled(path: str) -> List[Optional[str]]:
    with CompiledMap(path) as map:
        map.verify()
        found: Optional[Token] = map.lookup(0, 5)
        answers: Answers = map.lookup_many([(0, 5)])
        id: Optional[uuid.UUID] = map.debug_id
        return [map.file, map.scope_at(0, 5), *map.sources, *map.names, *map.contents]

def build() -> bytes:
    with Builder() as builder:
        builder.add(0, 0, source='a.js', line=1, column=2)
        return builder.finish().dumps()

def modules(bundle: Bundle, index: Map) -> List[str]:
    found: List[Optional[Module]] = list(bundle.split(index))
    return [module.name + module.text for module in found if module is not None]

def findings(data: bytes, text: str) -> List[int]:
    report: Report = sourcemap.check(data, text, name='a.map', most=3)
    found: Tuple[Finding, ...] = report.findings
    return [each.position.line for each in found if isinstance(each.position, SegmentPosition)]

view: View = View('a')
reference: Optional[Reference] = sourcemap.locate_reference(b'')
try:
    Map.loads(b'')
except errors.BadJson as error:
    kind: SourceMapError = error
'''

WRONG = '''\
import sourcemap
map = sourcemap.Map.loads(b'')
map.lookup('0', 5)
number: int = map.lookup(0, 5)
map.lookup(0, 5).line
map.file = 1
map.split()
map.scope_for(0, 1)
sourcemap.Bundle(b'').split('x')
sourcemap.CompiledMap(b'').lookup('0', 5)
sourcemap.CompiledMap.from_bytes('text')
sourcemap.check(1)
sourcemap.check(b'', b'', 3)
sourcemap.check(b'', name=b'a.map')
'''


class Examples(unittest.TestCase):
    def test_docstrings(self):
        """They read `bundle.js.map`, a copy of `examples/readme.map`."""
        folder = tempfile.TemporaryDirectory()
        self.addCleanup(folder.cleanup)
        shutil.copy(EXAMPLES / 'readme.map', Path(folder.name, 'bundle.js.map'))
        self.addCleanup(os.chdir, os.getcwd())
        os.chdir(folder.name)
        attempted = 0
        for module in MODULES:
            if find_spec(NEEDED.get(module.__name__, 'os')) is None:
                continue
            with self.subTest(module.__name__):
                failed, count = doctest.testmod(module)
                self.assertEqual(failed, 0)
                attempted += count
        self.assertGreater(attempted, 50)

    def test_readme(self):
        code, printed = re.search(r'```python\n(.*?)```\n.*?```\n(.*?)```', (FOLDER / 'README.md').read_text(),
                                  flags=re.DOTALL).groups()
        self.addCleanup(os.chdir, os.getcwd())
        os.chdir(EXAMPLES.parent)
        output = io.StringIO()
        with contextlib.redirect_stdout(output):
            exec(code, {})
        self.assertEqual(output.getvalue(), printed)


class Documented(unittest.TestCase):
    def test_public_items(self):
        items = [sourcemap] + [getattr(sourcemap, name) for name in sourcemap.__all__ if name != 'NONE']
        items += [getattr(sourcemap.errors, name) for name in sourcemap.errors.__all__]
        for each in items:
            self.assertTrue(inspect.getdoc(each), each)
            if inspect.isclass(each):
                for name, value in vars(each).items():
                    if not name.startswith('_') and (callable(value) or isinstance(value, (property, classmethod))):
                        self.assertTrue(inspect.getdoc(value), f'{each.__name__}.{name}')


@unittest.skipUnless(shutil.which('mypy'), 'mypy is not installed')
class Types(unittest.TestCase):
    def setUp(self):
        folder = tempfile.TemporaryDirectory()
        self.addCleanup(folder.cleanup)
        self.folder = Path(folder.name)

    def check(self, path):
        """Checks types. Runs of one test share what mypy found in NumPy and in the package."""
        return subprocess.run(['mypy', '--strict', '--cache-dir', self.folder / 'cache', path], cwd=FOLDER,
                              capture_output=True, text=True)

    def test_package(self):
        """The package, and then a program of a user, which is checked beside it; each line of `WRONG` is an error."""
        for name, lines, status in ('sourcemap', None, 0), ('right.py', SAMPLE, 0), ('wrong.py', WRONG, 1):
            path = name
            if lines is not None:
                path = self.folder / name
                path.write_text(lines)
            run = self.check(path)
            self.assertEqual(run.returncode, status, run.stdout)
        errors = {int(line) for line in re.findall(r'wrong\.py:(\d+): error', run.stdout)}
        self.assertEqual(errors, set(range(3, WRONG.count('\n') + 1)))
