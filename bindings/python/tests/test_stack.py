"""Stack traces of three engines: how lines are read, how files and maps are found, and what is printed."""

from __future__ import annotations

import base64
import contextlib
import errno
import io
import json
import os
import shutil
import subprocess
import sys
import tempfile
import unittest
from pathlib import Path
from typing import List, Optional, Tuple
from unittest import mock

from sourcemap import Map, stack
from sourcemap.__main__ import main
from sourcemap._frames import parse_frame
from sourcemap._generated import Finder, Found, path_parts

from . import example

FOLDER = Path(__file__).resolve().parents[1]

Read = Tuple[Optional[str], str, int, Optional[int]]

# A line, and what is read from it: the function, the file, the line and the column; None if the line is no frame.
LINES: List[Tuple[str, Optional[Read]]] = [
    # V8
    ('    at fn (/srv/a.js:1:21)', ('fn', '/srv/a.js', 1, 21)),
    ('    at /srv/a.js:13:6', (None, '/srv/a.js', 13, 6)),
    ('    at async load (/srv/a.js:9:57)', ('load', '/srv/a.js', 9, 57)),
    ('    at async file:///srv/a.mjs:3:1', (None, 'file:///srv/a.mjs', 3, 1)),
    ('    at new Reader (/srv/a.js:3:26)', ('Reader', '/srv/a.js', 3, 26)),
    ('    at async Promise.all (index 0)', None),
    ('    at Object.f (/srv/a.js:4:20)', ('f', '/srv/a.js', 4, 20)),
    ('    at Object.<anonymous> (/srv/a.js:6:1)', (None, '/srv/a.js', 6, 1)),
    ('    at Function.start [as runMain] (/srv/a.js:12:5)', ('start', '/srv/a.js', 12, 5)),
    ('    at get size [as size] (/srv/a.js:1:2)', ('size', '/srv/a.js', 1, 2)),
    ('    at x y (/srv/a.js:4:85)', (None, '/srv/a.js', 4, 85)),
    ('    at Array.map (<anonymous>)', None),
    ('    at native', None),
    ('    at fn (native)', None),
    ('    at fn (unknown location)', None),
    ('    at node:internal/main/run_main_module:28:49', None),
    ('    at Module.load (node:internal/modules/cjs/loader:1266:32)', None),
    ('    at w (wasm://wasm/8c5a:wasm-function[3]:0x12)', None),
    ('    at eval (eval at f (http://h:1/a.js:3:4), <anonymous>:1:1)', ('f', 'http://h:1/a.js', 3, 4)),
    ('    at eval (eval at g (eval at f (/srv/a.js:7:18)), <anonymous>:1:1)', ('f', '/srv/a.js', 7, 18)),
    ('    at run (eval at f (/srv/a.js:7:18), named.js:2:3)', ('run', 'named.js', 2, 3)),
    ('    at fn (http://localhost:8080/a.js:12:5)', ('fn', 'http://localhost:8080/a.js', 12, 5)),
    ('    at fn (http://localhost:8080/a.js:12)', ('fn', 'http://localhost:8080/a.js', 12, None)),
    ('    at fn (https://h/a.js?v=1:12:5)', ('fn', 'https://h/a.js?v=1', 12, 5)),
    ('    at fn (C:\\Program Files (x86)\\a.js:1:2)', ('fn', 'C:\\Program Files (x86)\\a.js', 1, 2)),
    ('    at C:\\Program Files (x86)\\a.js:1:2', (None, 'C:\\Program Files (x86)\\a.js', 1, 2)),
    ('    at fn (/srv/a.js:1:21) {', ('fn', '/srv/a.js', 1, 21)),
    ('    at file:///srv/a.mjs?v=1:3:1', (None, 'file:///srv/a.mjs?v=1', 3, 1)),
    # what other programs add
    ('web-1  |     at fn (/srv/a.js:1:21)', ('fn', '/srv/a.js', 1, 21)),
    ('api-2 | fn@http://h/a.js:1:21', ('fn', 'http://h/a.js', 1, 21)),
    ('[server] at /srv/a.js:13:6', (None, '/srv/a.js', 13, 6)),
    ('[server] Error: boom', None),
    ('\x1b[90m    at fn (/srv/a.js:1:21)\x1b[39m', ('fn', '/srv/a.js', 1, 21)),
    ('    at \x1b[36mfn\x1b[39m (/srv/\x1b[4ma\x1b[24m.js:1:21)', ('fn', '/srv/a.js', 1, 21)),
    ('\x1b[33mweb-1  |\x1b[0m     at fn (/srv/a.js:1:21)', ('fn', '/srv/a.js', 1, 21)),
    # SpiderMonkey
    ('fn@http://localhost:8080/a.js:1:21', ('fn', 'http://localhost:8080/a.js', 1, 21)),
    ('@/srv/a.js:6:5', (None, '/srv/a.js', 6, 5)),
    ('outer/<@/srv/a.js:4:36', (None, '/srv/a.js', 4, 36)),
    ('outer/inner@/srv/a.js:4:36', ('inner', '/srv/a.js', 4, 36)),
    ('async*load@/srv/a.js:9:63', ('load', '/srv/a.js', 9, 63)),
    ('setTimeout handler*later@/srv/a.js:9:63', ('later', '/srv/a.js', 9, 63)),
    ('@/srv/a.js line 6 > eval:1:1', (None, '/srv/a.js', 6, None)),
    ('@/srv/a.js line 7 > eval line 1 > eval:1:1', (None, '/srv/a.js', 7, None)),
    ('anonymous@/srv/a.js line 6 > Function:3:1', (None, '/srv/a.js', 6, None)),
    ('fn@/srv/a.js:12', ('fn', '/srv/a.js', 12, None)),
    ('forEach@self-hosted:203:13', None),
    ('fn@https://h/react@18/a.js:1:2', ('fn', 'https://h/react@18/a.js', 1, 2)),
    # JavaScriptCore
    ('global code@/srv/a.js:11:14', (None, '/srv/a.js', 11, 14)),
    ('map@[native code]', None),
    ('[native code]', None),
    ('eval code@', None),
    ('http://localhost:8080/a.js:4:36', (None, 'http://localhost:8080/a.js', 4, 36)),
    ('https://h/react@18/a.js:1:2', (None, 'https://h/react@18/a.js', 1, 2)),
    ('$run@/srv/a.js:5:26', ('$run', '/srv/a.js', 5, 26)),
    # Messages
    ('Error: boom', None),
    ('Error: mail me@example.org', None),
    ('', None),
    ('/srv/a.js:13', None),
    ('    at ' + ' (' * 5000 + ':1:1)', None),
]

PATHS = [
    ('/srv/dist/a.js', ('srv', 'dist', 'a.js')),
    ('dist/./a.js', ('dist', 'a.js')),
    ('../../etc/a.js', ('etc', 'a.js')),
    ('http://localhost:8080/static/a%20b.js?v=1#x', ('static', 'a b.js')),
    ('file:///srv/a.js', ('srv', 'a.js')),
    ('file:///srv/%2e%2e/a.js', ('srv', 'a.js')),
    ('https://h/..%2f..%2fetc/a.js', ('etc', 'a.js')),
    ('C:\\build\\..\\dist\\a.js', ('build', 'dist', 'a.js')),
    ('C:/dist/a.js', ('dist', 'a.js')),
    ('\\\\server\\share\\dist\\a.js', ('server', 'share', 'dist', 'a.js')),
    ('https://h//srv//a.js', ('srv', 'a.js')),
    ('blob:http://localhost/7f3a', ()),
    ('http://[', ()),
]

V8_TRACE = """\
Uncaught Error: cannot read data.txt
    at a (https://localhost:8443/static/dist/app.min.js?v=3:1:21)
    at n (https://localhost:8443/static/dist/app.min.js?v=3:1:62)
    at Array.forEach (<anonymous>)
    at https://localhost:8443/static/dist/app.min.js?v=3:1:76
    at https://localhost:8443/static/other.js:1:1
"""

V8_ORIGINAL = """\
Uncaught Error: cannot read data.txt
    at readAll (../src/app.js:2:9)
          1 | function readAll(path) {
        > 2 |   throw new Error('cannot read ' + path);
            |         ^
          3 | }
    at main (../src/app.js:6:3)
          5 | function main() {
        > 6 |   readAll('data.txt');
            |   ^
          7 | }
    at Array.forEach (<anonymous>)
    at ../src/app.js:9:1
           8 |
        >  9 | main();
             | ^
          10 |
    at https://localhost:8443/static/other.js:1:1
"""

# What SpiderMonkey 102 (gjs 1.74) and JavaScriptCore (WebKitGTK 2.50) print of the example. SpiderMonkey points to the
# parenthesis of the call in `main`, JavaScriptCore to that of each call.
SPIDERMONKEY_TRACE = """\
a@dist/app.min.js:1:21
n@dist/app.min.js:1:63
@dist/app.min.js:1:76
"""

SPIDERMONKEY_ORIGINAL = """\
readAll@../src/app.js:2:9
main@../src/app.js:6:3
@../src/app.js:9:1
"""

JAVASCRIPTCORE_TRACE = """\
a@dist/app.min.js:1:30
n@dist/app.min.js:1:63
global code@dist/app.min.js:1:77
"""

JAVASCRIPTCORE_ORIGINAL = """\
readAll@../src/app.js:2:13
main@../src/app.js:6:3
global code@../src/app.js:9:1
"""


class Lines(unittest.TestCase):
    """What is read from a line."""

    def test_lines(self) -> None:
        for line, expected in LINES:
            with self.subTest(line[:100]):
                frame = parse_frame(line)
                read = None if frame is None else (frame.function(), frame.file, frame.line, frame.column)
                self.assertEqual(read, expected)

    def test_rewritten(self) -> None:
        rows = [
            ('    at async Object.a [as b] (x.js:1:2) {', '    at async Object.read [as b] (src/x.js:5:6) {'),
            ('at eval (eval at a (x.js:1:2), <anonymous>:1:1)',
             'at eval (eval at read (src/x.js:5:6), <anonymous>:1:1)'),
            ('a@x.js:1:2', 'read@src/x.js:5:6'),
            ('@x.js line 1 > eval:3:4', '@src/x.js:5:6 > eval:3:4'),
            ('x.js:1:2', 'src/x.js:5:6'),
            ('web-1  |     at a (x.js:1:2)', 'web-1  |     at read (src/x.js:5:6)'),
            ('\x1b[90m at \x1b[1ma\x1b[0m (\x1b[4mx\x1b[24m.js:1:2)\x1b[39m',
             '\x1b[90m at \x1b[1mread\x1b[0m (\x1b[4msrc/x.js:5:6)\x1b[39m'),
        ]
        for line, expected in rows:
            with self.subTest(line):
                frame = parse_frame(line)
                assert frame is not None
                self.assertEqual(frame.rewrite('src/x.js:5:6', 'read'), expected)

    def test_path_parts(self) -> None:
        for file, expected in PATHS:
            with self.subTest(file):
                self.assertEqual(path_parts(file), expected)


class Traces(unittest.TestCase):
    """Whole traces, with files in a temporary folder."""

    def setUp(self) -> None:
        folder = tempfile.TemporaryDirectory()
        self.addCleanup(folder.cleanup)
        self.root = Path(folder.name)
        self.generated = example.write(self.root)
        self.map = self.generated.with_name('app.min.js.map')

    def translate(self, trace: str, *, map: Optional[Map] = None, columns_from: int = 1, context: int = 0) -> str:
        """The trace with original positions; without context it has no lines of the sources."""
        found = None if map is None else Found(map, self.map)
        translator = stack.Translator(Finder(self.root, found), columns_from, context)
        lines = ''.join(stack.translate_lines(trace.splitlines(keepends=True), translator))
        return lines if context else ''.join(line for line in lines.splitlines(keepends=True) if ' | ' not in line)

    def test_v8(self) -> None:
        self.assertEqual(self.translate(V8_TRACE, context=1), V8_ORIGINAL)

    def test_spidermonkey(self) -> None:
        self.assertEqual(self.translate(SPIDERMONKEY_TRACE), SPIDERMONKEY_ORIGINAL)

    def test_javascriptcore(self) -> None:
        self.assertEqual(self.translate(JAVASCRIPTCORE_TRACE), JAVASCRIPTCORE_ORIGINAL)

    def test_columns_from_0(self) -> None:
        rows = [(0, 20, '2:9'), (1, 20, '2:3'), (0, 0, '1:1'), (1, 1, '1:1')]
        for columns_from, column, expected in rows:
            with self.subTest(columns_from=columns_from, column=column):
                trace = f'@dist/app.min.js:1:{column}\n'
                self.assertEqual(self.translate(trace, columns_from=columns_from), f'@../src/app.js:{expected}\n')

    def test_positions_that_are_not_there(self) -> None:
        for position in ('1:0', '0:1', '2:1', '9999999999:1', '1:9999999999', '3'):
            with self.subTest(position):
                trace = f'a@dist/app.min.js:{position}\n'
                self.assertEqual(self.translate(trace), trace)

    def test_eval(self) -> None:
        trace = '    at eval (eval at n (/srv/dist/app.min.js:1:62), <anonymous>:1:1)\n'
        expected = '    at eval (eval at main (../src/app.js:6:3), <anonymous>:1:1)\n'
        self.assertEqual(self.translate(trace), expected)

    def test_crlf_and_no_end(self) -> None:
        trace = 'Error: boom\r\n    at a (dist/app.min.js:1:21)\r\n    at n (dist/app.min.js:1:62)'
        expected = 'Error: boom\r\n    at readAll (../src/app.js:2:9)\r\n    at main (../src/app.js:6:3)'
        self.assertEqual(self.translate(trace).rstrip('\n'), expected)
        added = self.translate(trace, context=1).split('\r\n')
        self.assertEqual(added[3], "        > 2 |   throw new Error('cannot read ' + path);")

    def test_names_need_the_generated_text(self) -> None:
        self.generated.unlink()
        trace = '    at a (dist/app.min.js:1:21)\n    at n (dist/app.min.js:1:62)\n'
        expected = '    at a (../src/app.js:2:9)\n    at n (../src/app.js:6:3)\n'
        self.assertEqual(self.translate(trace), expected)

    def test_one_map_for_all_frames(self) -> None:
        map = Map.load(self.map)
        trace = 'a@elsewhere.js:1:21\n    at Module.load (node:internal/modules/cjs/loader:1:21)\nb@[native code]\n'
        expected = trace.replace('elsewhere.js:1:21', '../src/app.js:2:9')
        self.assertEqual(self.translate(trace, map=map), expected)

    def test_without_a_column(self) -> None:
        """The line alone determines the original line only if all of its tokens agree."""
        lines = self.root / 'dist' / 'lines.js'
        lines.write_text('a();b();\nc();\nd();\n', 'utf-8')
        # 0:0 and 0:4 -> 7:0 and 7:9; 1:0 -> 8:0; 1:2 -> 9:0; 2:0 has no source
        text = '{"version":3,"sources":["x.js"],"names":[],"mappings":"AAOA,IAAS;AACT,EACA;A"}'
        lines.with_name('lines.js.map').write_text(text, 'utf-8')
        rows = [('1', 'x.js:8'), ('2', 'dist/lines.js:2'), ('3', 'dist/lines.js:3'), ('1:5', 'x.js:8:10')]
        for position, expected in rows:
            with self.subTest(position):
                self.assertEqual(self.translate(f'f@dist/lines.js:{position}\n'), f'f@{expected}\n')
        self.assertEqual(self.translate('@dist/lines.js line 1 > eval:1:1\n'), '@x.js:8 > eval:1:1\n')

    def test_references(self) -> None:
        """A reference as a path, a path on a server, a `data:` URL, a URL, and two that lead nowhere."""
        inline = 'data:application/json;base64,' + base64.b64encode(example.MAP.encode()).decode()
        moved = self.root / 'maps' / 'moved.map'
        moved.parent.mkdir()
        self.map.rename(moved)
        rows = [
            ('../maps/moved.map', True),
            ('/static/maps/moved.map', True),
            (inline, True),
            ('https://localhost/static/maps/moved.map?v=3', True),
            ('https://localhost/other.map', False),
            ('missing.map', False),
        ]
        for reference, is_found in rows:
            with self.subTest(reference[:40]):
                self.refer(reference)
                expected = 'readAll@../src/app.js:2:9\n' if is_found else 'a@dist/app.min.js:1:21\n'
                self.assertEqual(self.translate('a@dist/app.min.js:1:21\n'), expected)

    def refer(self, reference: str) -> None:
        code = example.GENERATED.partition('\n')[0]
        self.generated.write_text(f'{code}\n//# sourceMappingURL={reference}\n', 'utf-8')

    def test_reference_out_of_the_root(self) -> None:
        self.refer('../app.min.js.map')
        shutil.move(str(self.map), self.root / 'app.min.js.map')
        translator = stack.Translator(Finder(self.root / 'dist'))
        self.assertEqual(translator.translate('a@app.min.js:1:21'), ['a@app.min.js:1:21'])
        translator = stack.Translator(Finder(self.root))
        self.assertEqual(translator.translate('a@dist/app.min.js:1:21')[0], 'readAll@../src/app.js:2:9')

    def test_without_a_root(self) -> None:
        """A path is tried unchanged first, and then by its ends below the current folder."""
        rows = [
            f'@{self.generated}:1:21',
            f'@{self.generated.as_uri()}:1:21',
            f'@file://{self.root}/maps/%2e%2e/dis%74/app.min.js?v=1:1:21',
            '@https://localhost/static/dist/app.min.js:1:21',
            '@../elsewhere/dist/app.min.js:1:21',
        ]
        self.addCleanup(os.chdir, os.getcwd())
        os.chdir(self.root)
        for line in rows:
            with self.subTest(line):
                translator = stack.Translator(Finder())
                self.assertEqual(translator.translate(line)[0], '@../src/app.js:2:9')

    def test_names_of_no_file(self) -> None:
        for line in ('@/:1:1', '@.:1:1', '@..:1:1', '@a\0b:1:1', '@' + 'a' * 5000 + ':1:1', '@https://h:1:1',
                     '@file://host/a.js:1:1', '@file:///\udcff.js:1:1', '@file:///%00.js:1:1'):
            with self.subTest(line[:20]):
                self.assertEqual(stack.Translator(Finder()).translate(line), [line])
                self.assertEqual(stack.Translator(Finder(self.root)).translate(line), [line])

    def test_file_out_of_the_root(self) -> None:
        empty = self.root / 'empty'
        empty.mkdir()
        above = ['../dist/app.min.js', '%2e%2e/dist/app.min.js', 'https://h/..%2fdist/app.min.js']
        for file in (str(self.generated), f'https://h/{self.generated}', *above):
            with self.subTest(file):
                self.assertEqual(stack.Translator(Finder(empty)).translate(f'@{file}:1:21'), [f'@{file}:1:21'])

    def test_map_beside_a_text_without_reference(self) -> None:
        self.generated.write_text(example.GENERATED.partition('\n')[0], 'utf-8')
        self.assertEqual(self.translate('n@app.min.js:1:62\n'), 'n@app.min.js:1:62\n')
        self.assertEqual(self.translate('n@dist/app.min.js:1:62\n'), 'main@../src/app.js:6:3\n')

    def test_faulty_map(self) -> None:
        """It is reported once, and the frames are printed unchanged."""
        self.map.write_text('{"version":3', 'utf-8')
        errors = io.StringIO()
        with contextlib.redirect_stderr(errors):
            trace = self.translate(SPIDERMONKEY_TRACE)
        self.assertEqual(trace, SPIDERMONKEY_TRACE)
        self.assertEqual(errors.getvalue().count('bad json'), 1)

    def test_map_that_cannot_be_read(self) -> None:
        refused = PermissionError(errno.EACCES, 'Permission denied', str(self.map))
        errors = io.StringIO()
        with contextlib.redirect_stderr(errors), mock.patch('sourcemap._generated.open_map', side_effect=refused):
            trace = self.translate(SPIDERMONKEY_TRACE)
        self.assertEqual(trace, SPIDERMONKEY_TRACE)
        self.assertEqual(errors.getvalue(), f'sourcemap: the map of {self.generated}: {self.map}: Permission denied\n')

    def test_generated_file_whose_path_is_not_utf_8(self) -> None:
        """Its reference can't be resolved. That is reported, and the frames are printed unchanged."""
        folder = self.root / os.fsdecode(b'\xff')
        folder.mkdir()
        example.write(folder)
        errors = io.StringIO()
        with contextlib.redirect_stderr(errors):
            lines = stack.translate_lines(
                SPIDERMONKEY_TRACE.splitlines(keepends=True), stack.Translator(Finder(folder))
            )
            self.assertEqual(''.join(lines), SPIDERMONKEY_TRACE)
        self.assertEqual(errors.getvalue().count('sourcemap: the map of '), 1)

    def test_index_map(self) -> None:
        section = {'offset': {'line': 0, 'column': 0}, 'map': json.loads(example.MAP)}
        self.map.write_text(json.dumps({'version': 3, 'sections': [section]}), 'utf-8')
        self.assertEqual(self.translate(V8_TRACE, context=1), V8_ORIGINAL)

    def test_excerpt_of_a_long_line(self) -> None:
        """The column stays in view, tabs become spaces, and characters that may command a terminal are replaced."""
        contents = '\t\U0001f600 \x1b[31m' + 'x' * 500
        # 0:0 -> 0:4, the escape; 0:1 -> 0:409, the 401st x
        fields = {'sources': ['x.js'], 'sourcesContent': [contents], 'names': [], 'mappings': 'AAAI,CAAqZ'}
        map = Map.loads(json.dumps({'version': 3, **fields}))
        self.assertEqual(map.lookup(0, 1)[:3], ('x.js', 0, 409))  # type: ignore[index]
        translator = stack.Translator(Finder(self.root, Found(map, self.map)))
        _, line, mark = translator.translate('@y.js:1:1')
        self.assertTrue(line.startswith('    > 1 |     \U0001f600 \ufffd[31mxx'), line)
        self.assertEqual(line[mark.index('^')], '\ufffd')
        _, line, mark = translator.translate('@y.js:1:2')
        self.assertEqual(line, '    > 1 | ' + 'x' * 100)
        self.assertEqual(mark.index('^'), len('    > 1 | ') + 66)

    def test_program(self) -> None:
        """The command, with its options."""
        command = [sys.executable, '-m', 'sourcemap', 'stack', '--root', str(self.root), '--context', '0',
                   '--sources-as-in-map']
        trace = b'\xff message\n' + JAVASCRIPTCORE_TRACE.encode()
        done = subprocess.run(command, input=trace, stdout=subprocess.PIPE, check=True, cwd=FOLDER)
        lines = done.stdout.split(b'\n')
        self.assertEqual(lines[0], b'\xff message')
        self.assertEqual(lines[1], b'readAll@../src/app.js:2:13')
        self.assertEqual(lines[2], b"    > 2 |   throw new Error('cannot read ' + path);")

    def test_paths_of_sources(self) -> None:
        """A source that leads to a file is printed as its path; others as the map has them."""
        map = json.loads(example.MAP)
        rows = [('../src/app.js', f'{self.root}/src/app.js'), ('x.js', f'{self.root}/dist/x.js'),
                ('/srv/a b.js', '/srv/a b.js'), ('file:///srv/a%20b.js', '/srv/a b.js'), ('webpack:///./x.js', 'webpack:///./x.js'),
                ('https://h/x.js', 'https://h/x.js'), ('', ''), ('#x', '#x')]
        for source, printed in rows:
            with self.subTest(source):
                self.map.write_text(json.dumps({**map, 'sources': [source]}), 'utf-8')
                translator = stack.Translator(Finder(self.root), with_paths=True)
                self.assertEqual(translator.translate('a@dist/app.min.js:1:21')[0], f'readAll@{printed}:2:9')
        command = [sys.executable, '-m', 'sourcemap', 'stack', '--root', str(self.root)]
        self.map.write_text(example.MAP, 'utf-8')
        done = subprocess.run(command, input=SPIDERMONKEY_TRACE, stdout=subprocess.PIPE, check=True, cwd=FOLDER,
                              text=True)
        self.assertEqual(done.stdout.partition('\n')[0], f'readAll@{self.root}/src/app.js:2:9')

    def test_paths_with_a_query(self) -> None:
        for file in (f'{self.generated}?v=1', f'{self.generated.as_uri()}?v=1', 'dist/app.min.js?v=1&x'):
            with self.subTest(file):
                self.assertEqual(self.translate(f'a@{file}:1:21\n'), 'readAll@../src/app.js:2:9\n')
        odd = self.generated.with_name('app.min.js?v=2')
        odd.write_text(example.GENERATED, 'utf-8')
        self.assertEqual(self.translate('a@dist/app.min.js?v=2:1:21\n'), 'readAll@../src/app.js:2:9\n')

    def test_map_beside_without_the_suffix(self) -> None:
        self.generated.write_text(example.GENERATED.partition('\n')[0], 'utf-8')
        self.map.rename(self.map.with_name('app.min.map'))
        self.assertEqual(self.translate('a@dist/app.min.js:1:21\n'), 'readAll@../src/app.js:2:9\n')

    def test_why_there_is_no_map(self) -> None:
        bare = self.root / 'bare.js'
        bare.write_text('a()\n', 'utf-8')
        lost = self.root / 'lost.js'
        lost.write_text('a()\n//# sourceMappingURL=none.map\n', 'utf-8')
        rows = [
            ('gone.js', f'the map of gone.js: neither the file nor a map beside it is there, or below {self.root}'),
            ('bare.js', f'the map of {bare}: {bare} refers to no map, and there is no bare.js.map'),
            ('lost.js', f"the map of {lost}: {lost} refers to 'none.map', which is not there, "
                        'and there is no lost.js.map'),
        ]
        trace = ''.join(f'a@{file}:1:1\nb@{file}:1:2\n' for file, _ in rows)
        errors = io.StringIO()
        with contextlib.redirect_stderr(errors):
            self.assertEqual(self.translate(trace), trace)
        self.assertEqual(errors.getvalue().splitlines(), [f'sourcemap: {reason}' for _, reason in rows])

    def test_long_line_above_a_trace(self) -> None:
        """A line of 90 kB is cut around the marks below it."""
        line = 'x' * 45000 + 'HERE' + 'x' * 45000
        head = f'/srv/dist/app.min.js:1\n{line}\n{" " * 45000}^^^^\n\nError: boom\n'
        printed = self.translate(head).splitlines()
        self.assertEqual(printed[0], '/srv/dist/app.min.js:1')
        self.assertEqual(printed[1], 'x' * 66 + 'HERE' + 'x' * 30)
        self.assertEqual(printed[2:], [' ' * 66 + '^^^^', '', 'Error: boom'])
        self.assertEqual(self.translate(f'/srv/a.js:1\n{line}\nError: boom\n'),
                         f'/srv/a.js:1\n{"x" * 100}\nError: boom\n')
        self.assertEqual(self.translate(f'/srv/a.js:1\n{line}'), f'/srv/a.js:1\n{"x" * 100}')
        # other long lines, and short ones, stay
        for text in (f'Error: {line}\n', '/srv/a.js:1\nthrow x\n      ^\n'):
            self.assertEqual(self.translate(text), text)

    def test_constructors(self) -> None:
        """`new C` is named by the class that the position is in."""
        # 0:6 -> 0:6 `Reader`, 0:23 -> 1:1, 1:11 -> 3:4 `Writer`, 1:34 -> 4:4
        code = 'class t{constructor(){ f() }}\nvar q = 1, e=class{constructor(){ f() }}\n'
        file = self.root / 'dist' / 'classes.js'
        file.write_text(code, 'utf-8')
        fields = {'sources': ['c.js'], 'names': ['Reader', 'Writer'], 'mappings': 'MAAMA,iBACL;WAEGC,uBACA'}
        file.with_name('classes.js.map').write_text(json.dumps({'version': 3, **fields}), 'utf-8')
        rows = [('new t (dist/classes.js:1:24)', 'new Reader (c.js:2:2)'),
                ('new e (dist/classes.js:2:35)', 'new Writer (c.js:5:5)'),
                ('new z (dist/classes.js:2:35)', 'new z (c.js:5:5)'),
                ('t.t (dist/classes.js:1:24)', 't.t (c.js:2:2)')]
        for line, expected in rows:
            with self.subTest(line):
                self.assertEqual(self.translate(f'    at {line}\n'), f'    at {expected}\n')

    def test_map_that_is_not_there(self) -> None:
        errors = io.StringIO()
        with contextlib.redirect_stderr(errors):
            status = main(['stack', '--map', str(self.root / 'none.map')])
        self.assertEqual(status, 1)
        self.assertEqual(errors.getvalue(), f'sourcemap: {self.root}/none.map: No such file or directory\n')

    @unittest.skipIf(shutil.which('node') is None, 'no Node')
    def test_node(self) -> None:
        """A trace that the installed Node prints."""
        done = subprocess.run(['node', str(self.generated)], stderr=subprocess.PIPE, text=True, check=False)
        self.assertIn('app.min.js:1:21)', done.stderr)
        lines = self.translate(done.stderr).splitlines()
        first = lines.index('Error: cannot read data.txt') + 1
        self.assertEqual(lines[first : first + 3], [
            '    at readAll (../src/app.js:2:9)',
            '    at main (../src/app.js:6:3)',
            '    at Object.<anonymous> (../src/app.js:9:1)',
        ])


if __name__ == '__main__':
    unittest.main()
