"""Compiled maps: answers beside those of the map, errors of damaged files, buffers, threads."""
import struct
import tempfile
import unittest
import uuid
from array import array
from concurrent.futures import ThreadPoolExecutor
from pathlib import Path

from sourcemap import NONE, CompiledMap, Map, errors

from .maps import EXAMPLES, HERMES, OF_A_BLOCK, README, TABLES, TWO_SECTIONS, index, regular

MAPS = sorted([*EXAMPLES.glob('*.map'), *(EXAMPLES.parent / 'bindings' / 'test-maps').glob('*.map')])
ID = uuid.UUID('c56ee0c5-0b5b-4c11-9ad0-1e0e7b7c2a33')
FULL = regular('AAAAA,CCAAC', ['a.js', 'b.js'], names=['x', 'y'], file='out.js', sourceRoot='/src',
               sourcesContent=['var x', None], debugId=str(ID))


def flat(map):
    """The regular map that an index map is compiled as, or the map itself."""
    if map.kind == 'index':
        map.flatten()
    return map


def positions_near(map):
    """Each token's position, one column before it and one after it, and the end of each line."""
    for token in map:
        line, column = token.generated_line, token.generated_column
        yield from [(line, max(column - 1, 0)), (line, column), (line, min(column + 1, NONE)), (line, NONE)]
    yield from [(0, 0), (NONE, NONE)]


def compiled(json, **options):
    return CompiledMap.from_bytes(Map.loads(json).compile(**options))


class InFolder(unittest.TestCase):
    def setUp(self):
        folder = tempfile.TemporaryDirectory()
        self.addCleanup(folder.cleanup)
        self.path = Path(folder.name, 'map.compiled')

    def written(self, data):
        self.path.write_bytes(data)
        return self.path


class Answers(InFolder):
    def test_real_files(self):
        self.assertGreater(len(MAPS), 5)
        for path in MAPS:
            with self.subTest(path.name):
                map = flat(Map.load(path))
                positions = list(positions_near(map))
                with CompiledMap(self.written(map.compile())) as opened:
                    self.assertEqual(len(opened), len(map))
                    self.assertEqual([opened.lookup(*position) for position in positions],
                                     [map.lookup(*position) for position in positions])
                    self.assertEqual(list(opened.lookup_many(positions)), list(map.lookup_many(positions)))
                    self.assertEqual((opened.sources, opened.names, opened.contents),
                                     (map.sources, map.names, map.contents))
                    self.assertEqual((opened.file, opened.debug_id), (map.file, map.debug_id))
                    opened.verify()

    def test_parts(self):
        map = compiled(FULL)
        self.assertEqual((map.file, map.debug_id, len(map)), ('out.js', ID, 2))
        self.assertEqual((map.sources, map.names, map.contents),
                         (['/src/a.js', '/src/b.js'], ['x', 'y'], ['var x', None]))
        self.assertEqual(map.sources[-1], '/src/b.js')
        self.assertEqual(str(map.lookup(0, 1)), '/src/b.js:0:0 name=y')
        self.assertEqual(repr(map), '<sourcemap.CompiledMap: 2 tokens, 2 sources>')
        self.assertEqual(list(compiled(FULL, contents=False).contents), [None, None])

    def test_no_token(self):
        map = compiled(regular(';EAAA'))
        self.assertIsNone(map.lookup(0, 7))
        self.assertEqual(map.lookup_many([(0, 7), (1, 2)]).found.tolist(), [False, True])
        empty = compiled(regular(''))
        self.assertEqual((len(empty), bool(empty), empty.lookup(0, 0)), (0, True, None))

    def test_index_maps(self):
        self.assertEqual(Map.loads(TWO_SECTIONS).compile(), flat(Map.loads(TWO_SECTIONS)).compile())
        with self.assertRaisesRegex(errors.CannotFlatten, 'Section has an unresolved sourcemap: u'):
            Map.loads(index({'offset': {'line': 0, 'column': 0}, 'url': 'u'})).compile()

    def test_scopes(self):
        map = compiled(HERMES)
        self.assertEqual([map.scope_at(0, column) for column in (0, 4, 5, 9)], ['<global>', '<global>', 'foo', 'foo'])
        self.assertIsNone(compiled(README).scope_at(0, 0))

    def test_many_positions(self):
        map = compiled(README)
        for form in [[(0, 5), (0, 18)], array('I', [0, 5, 0, 18]), memoryview(array('I', [0, 5, 0, 18]))]:
            answers = map.lookup_many(form)
            self.assertEqual([str(token) for token in answers], ['coolstuff.js:0:4 name=x', 'coolstuff.js:2:2 name=alert'])
            self.assertEqual(answers.lines.tolist(), [0, 2])
        self.assertEqual(list(map.lookup_many([])), [])

    def test_wrong_numbers(self):
        map = compiled(README)
        for wrong in (-1, 0), (0, -1), (NONE + 1, 0), (0, 2**64):
            with self.assertRaisesRegex(ValueError, 'must be from 0 to 4294967295, not -?[0-9]'):
                map.lookup(*wrong)
            with self.assertRaises(ValueError):
                map.lookup_many([wrong])
            with self.assertRaises(ValueError):
                map.scope_at(*wrong)
        for wrong in (0.0, 0), (0, '0'):
            with self.assertRaises(TypeError):
                map.lookup(*wrong)


class Files(InFolder):
    def test_closed(self):
        with CompiledMap(self.written(Map.loads(README).compile())) as map:
            answers = map.lookup_many([(0, 5)])
        map.close()
        self.assertTrue(map.closed)
        self.assertEqual(repr(map), '<sourcemap.CompiledMap: closed>')
        for call in [lambda: map.lookup(0, 0), lambda: map.lookup_many([(0, 0)]), map.verify, lambda: len(map),
                     lambda: map.file, lambda: list(map.sources)]:
            with self.assertRaisesRegex(ValueError, 'this CompiledMap is closed'):
                call()
        # answers keep the file
        self.assertEqual(str(answers[0]), 'coolstuff.js:0:4 name=x')

    def test_paths(self):
        path = self.written(Map.loads(README).compile())
        for each in path, str(path):
            with CompiledMap(each) as map:
                self.assertEqual(len(map), 9)
        with self.assertRaises(FileNotFoundError):
            CompiledMap(path.with_name('no such file'))

    def test_buffers(self):
        data = Map.loads(README).compile()
        scattered = memoryview(bytes(byte for each in data for byte in (each, 0)))[::2]
        for form in [data, bytearray(data), memoryview(data), array('B', data)]:
            self.assertEqual(str(CompiledMap.from_bytes(form).lookup(0, 5)), 'coolstuff.js:0:4 name=x')
        for wrong in ['text', None, 7]:
            with self.assertRaises(TypeError):
                CompiledMap.from_bytes(wrong)
        with self.assertRaises(BufferError):
            CompiledMap.from_bytes(scattered)

    def test_a_buffer_is_held_as_long_as_the_map(self):
        data = bytearray(Map.loads(README).compile())
        map = CompiledMap.from_bytes(data)
        with self.assertRaises(BufferError):
            data.clear()
        map.close()
        data.clear()

    def test_threads(self):
        map = compiled(README)
        ordinary = Map.loads(README)
        positions = [(0, column) for column in range(30)]
        expected = [ordinary.lookup(*position) for position in positions] * 50
        with ThreadPoolExecutor(8) as pool:
            runs = [pool.submit(lambda: [map.lookup(*position) for position in positions * 50]) for _ in range(8)]
            for run in runs:
                self.assertEqual(run.result(), expected)


class Damaged(InFolder):
    def setUp(self):
        super().setUp()
        self.data = bytearray(Map.loads(README).compile())
        self.tables, = struct.unpack_from('<I', self.data, TABLES)
        self.texts = self.tables + OF_A_BLOCK

    def check_refused(self, data, error, text, number=None):
        for call in (lambda: CompiledMap.from_bytes(bytes(data))), (lambda: CompiledMap(self.written(data))):
            with self.assertRaises(error) as raised:
                call()
            self.assertEqual((str(raised.exception), raised.exception.number), (text, number))

    def test_headers(self):
        for cut in b'', self.data[:63], self.data[:-1]:
            self.check_refused(cut, errors.Truncated, 'the compiled map is truncated')
        self.check_refused(self.data + b'\0', errors.WrongExtent, 'a table of the compiled map has a wrong extent')
        self.check_refused(README.encode(), errors.WrongMagic, 'not a compiled map')
        self.data[4:8] = struct.pack('<I', 513)
        self.check_refused(self.data, errors.WrongVersion, 'unknown version of a compiled map', 513)

    def test_text_that_is_not_utf8(self):
        first, = struct.unpack_from('<I', self.data, self.texts)
        self.data[first] = 0xff
        map = CompiledMap.from_bytes(self.data)
        for call in [map.verify, lambda: map.lookup(0, 5), lambda: map.sources[0]]:
            with self.assertRaisesRegex(errors.Utf8, 'a text of the compiled map is not UTF-8'):
                call()
        self.assertEqual(map.lookup_many([(0, 5)]).columns.tolist(), [4])

    def test_text_outside(self):
        struct.pack_into('<I', self.data, self.texts, NONE)
        map = CompiledMap.from_bytes(self.data)
        for call in [map.verify, lambda: map.sources[0]]:
            with self.assertRaisesRegex(errors.TextOutside, 'a text passes the end of the compiled map'):
                call()

    def test_order(self):
        struct.pack_into('<Q', self.data, self.tables, 200)
        map = CompiledMap.from_bytes(self.data)
        with self.assertRaisesRegex(errors.OutOfOrder, 'the compiled map is out of order'):
            map.verify()
        self.assertIsNotNone(map.lookup(0, 300))
