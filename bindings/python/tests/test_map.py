"""What maps say, how they are changed, and how they are written."""
import copy
import json
import mmap
import os
import tempfile
import unittest
import uuid
from array import array
from pathlib import Path

from sourcemap import Map, View, Builder, errors

from .maps import EXAMPLES, HERMES, README, TWO_SECTIONS, regular

ID = uuid.UUID('c56ee0c5-0b5b-4c11-9ad0-1e0e7b7c2a33')
FULL = regular('AAAAA,CCAAC', ['a.js', 'b.js'], names=['x', 'y'], file='out.js', sourceRoot='/src',
               sourcesContent=['var x', None], ignoreList=[1], debugId=str(ID))


class Opened(unittest.TestCase):
    def test_from_bytes_and_texts(self):
        data = README.encode()
        with tempfile.TemporaryFile() as file:
            file.write(data)
            file.flush()
            with mmap.mmap(file.fileno(), 0) as writable:
                forms = [data, README, bytearray(data), memoryview(data), memoryview(bytearray(data)),
                         array('B', data), writable]
                tokens = [list(Map.loads(form)) for form in forms]
        self.assertEqual(len(tokens[0]), 9)
        for each in tokens[1:]:
            self.assertEqual(each, tokens[0])

    def test_scattered_bytes(self):
        scattered = memoryview(bytes(byte for each in README.encode() for byte in (each, 0)))[::2]
        self.assertEqual(len(Map.loads(scattered)), 9)

    def test_a_buffer_is_free_after_the_call(self):
        data = bytearray(README.encode())
        Map.loads(data)
        data.clear()
        self.assertEqual(data, b'')

    def test_from_a_file(self):
        for path in EXAMPLES / 'readme.map', str(EXAMPLES / 'readme.map'):
            with Map.load(path) as map:
                self.assertEqual((map.kind, len(map)), ('regular', 9))
        with self.assertRaises(FileNotFoundError):
            Map.load(EXAMPLES / 'there is no such map')

    def test_constructor(self):
        self.assertEqual(len(Map(README)), 9)
        for wrong in None, 7, ['{}']:
            with self.assertRaises(TypeError):
                Map(wrong)

    def test_lone_surrogates(self):
        with self.assertRaises(ValueError):
            Map.loads('\ud800')

    def test_subclass(self):
        class Own(Map):
            pass

        map = Own.loads(README)
        for each in map, map.share(), copy.copy(map), Own.from_data_url(map.to_data_url()):
            self.assertIs(type(each), Own)


class Properties(unittest.TestCase):
    def test_full_map(self):
        map = Map.loads(FULL)
        self.assertEqual((map.kind, map.file, map.source_root, map.debug_id), ('regular', 'out.js', '/src', ID))
        self.assertEqual(list(map.sources), ['/src/a.js', '/src/b.js'])
        self.assertEqual(list(map.names), ['x', 'y'])
        self.assertEqual(list(map.contents), ['var x', None])
        self.assertEqual((map.ignore_list, map.sections, len(map)), ((1,), (), 2))

    def test_least_map(self):
        map = Map.loads('{"mappings":""}')
        self.assertEqual((map.file, map.source_root, map.debug_id), (None, None, None))
        self.assertEqual((len(map.sources), len(map.names), len(map.contents), map.ignore_list), (0, 0, 0, ()))
        self.assertEqual((len(map), list(map), map.lookup(0, 0)), (0, [], None))
        self.assertTrue(map)

    def test_texts_are_sequences(self):
        sources = Map.loads(regular('', ['a', 'b', 'c', 'é👌'])).sources
        self.assertEqual(sources, ['a', 'b', 'c', 'é👌'])
        self.assertNotEqual(sources, ['a', 'b', 'c'])
        self.assertNotEqual(sources, 'abcd')
        self.assertEqual((sources[0], sources[-1], sources[1:3], sources[::-2]), ('a', 'é👌', ['b', 'c'], ['é👌', 'b']))
        self.assertEqual((sources.index('c'), 'b' in sources, repr(sources)), (2, True, "['a', 'b', 'c', 'é👌']"))
        for wrong in 4, -5:
            with self.assertRaises(IndexError):
                sources[wrong]
        with self.assertRaises(TypeError):
            sources['a']

    def test_long_ignore_list(self):
        ids = list(range(0, 3000, 2))
        map = Map.loads(regular('', [str(id) for id in range(3000)], ignoreList=ids))
        self.assertEqual(map.ignore_list, tuple(ids))

    def test_repr(self):
        self.assertEqual(repr(Map.loads(README)), '<sourcemap.Map: regular, 9 tokens, 1 sources>')
        self.assertEqual(repr(Map.loads(TWO_SECTIONS)), '<sourcemap.Map: index, 2 sections>')


class Changed(unittest.TestCase):
    def test_setters(self):
        map = Map.loads(README)
        map.file, map.source_root, map.debug_id = 'out.js', '/src', ID
        map.set_contents(0, 'var x')
        map.ignore_source(0)
        self.assertEqual((map.file, map.source_root, map.debug_id), ('out.js', '/src', ID))
        self.assertEqual((map.sources, map.contents, map.ignore_list),
                         (['/src/coolstuff.js'], ['var x'], (0,)))
        record = json.loads(map.dumps())
        self.assertEqual({key: record[key] for key in ('file', 'sourceRoot', 'debugId', 'sourcesContent',
                                                       'ignoreList')},
                         {'file': 'out.js', 'sourceRoot': '/src', 'debugId': str(ID), 'sourcesContent': ['var x'],
                          'ignoreList': [0]})

    def test_wrong_values(self):
        map = Map.loads(README)
        for name, value, error in [('file', 5, TypeError), ('file', b'\xff', errors.Utf8),
                                   ('source_root', ['a'], TypeError), ('debug_id', str(ID), TypeError)]:
            with self.assertRaises(error):
                setattr(map, name, value)
        for set_text in map.set_source, map.set_contents:
            for id, error in (1, errors.Absent), (-1, ValueError), (2**32, ValueError), ('0', TypeError):
                with self.assertRaises(error):
                    set_text(id, 'text')
        with self.assertRaises(errors.Absent):
            map.ignore_source(1)
        with self.assertRaises(ValueError):
            Map.loads(TWO_SECTIONS).shift(-1)

    def test_removed(self):
        map = Map.loads(FULL)
        map.file = map.source_root = map.debug_id = None
        map.set_contents(0, None)
        self.assertEqual((map.file, map.source_root, map.debug_id), (None, None, None))
        self.assertEqual((map.sources, map.contents), (['a.js', 'b.js'], [None, None]))

    def test_empty_texts(self):
        map = Map.loads(README)
        map.file = ''
        map.set_contents(0, '')
        self.assertEqual((map.file, map.contents), ('', ['']))

    def test_lookups_after_a_change(self):
        map = Map.loads(README)
        self.assertEqual(str(map.lookup(0, 5)), 'coolstuff.js:0:4 name=x')
        map.set_source(0, 'other.js')
        self.assertEqual(str(map.lookup(0, 5)), 'other.js:0:4 name=x')
        map.source_root = '/src'
        self.assertEqual(str(map.lookup(0, 5)), '/src/other.js:0:4 name=x')
        map.remove_names()
        self.assertEqual(str(map.lookup(0, 5)), '/src/other.js:0:4')

    def test_rewrite(self):
        record = regular('ACAAC,CCAAC', ['unused.js', '/x/y/a.js', '/x/b.js'], names=['unused', 'used', 'last'],
                         sourcesContent=['u', 'a', 'b'], file='out.js', ignoreList=[1])
        for options, sources, names, contents in [
                ({}, ['/x/y/a.js', '/x/b.js'], ['used', 'last'], ['a', 'b']),
                ({'names': False}, ['/x/y/a.js', '/x/b.js'], [], ['a', 'b']),
                ({'contents': False}, ['/x/y/a.js', '/x/b.js'], ['used', 'last'], [None, None]),
                ({'strip_prefixes': ['/x/y', '/x']}, ['a.js', 'b.js'], ['used', 'last'], ['a', 'b']),
                ({'strip_prefixes': (each for each in ['/x', '/x/y'])}, ['y/a.js', 'b.js'], ['used', 'last'],
                 ['a', 'b'])]:
            with self.subTest(options):
                map = Map.loads(record)
                map.rewrite(**options)
                self.assertEqual((map.sources, map.names, map.contents), (sources, names, contents))
                self.assertEqual((map.file, map.ignore_list), ('out.js', ()))

    def test_common_prefix(self):
        map = Map.loads(regular('AAAA,CCAA', ['/x/y/a.js', '/x/y/z/b.js']))
        map.rewrite(strip_prefixes=['~'])
        self.assertEqual(map.sources, ['a.js', 'z/b.js'])

    def test_one_prefix_is_not_a_list(self):
        with self.assertRaises(TypeError):
            Map.loads(README).rewrite(strip_prefixes='/x')

    def test_compose_with_itself(self):
        builder = Builder()
        builder.add(0, 0, source='a.js', line=0, column=0)
        map = builder.finish()
        before = list(map)
        map.compose(map)
        self.assertEqual(list(map), before)


class Shared(unittest.TestCase):
    def test_a_change_is_not_seen_by_others(self):
        map = Map.loads(README)
        for other in map.share(), copy.copy(map), copy.deepcopy(map):
            other.set_source(0, 'other.js')
            self.assertEqual((map.sources, other.sources), (['coolstuff.js'], ['other.js']))
            other.close()
        self.assertEqual(len(map), 9)

    def test_a_share_outlives_its_map(self):
        map = Map.loads(README)
        other = map.share()
        map.close()
        self.assertEqual(str(other.lookup(0, 5)), 'coolstuff.js:0:4 name=x')


class Compared(unittest.TestCase):
    def check(self, map, other, expected):
        self.assertIs(map.equals(other), expected)
        self.assertIs(other.equals(map), expected)

    def test_equal(self):
        for record in README, FULL, HERMES, TWO_SECTIONS:
            map = Map.loads(record)
            for other in map, map.share(), copy.deepcopy(map), Map.loads(record), Map.loads(map.dumps()), \
                    Map.loads(")]}'\n" + record):
                self.check(map, other, True)

    def test_kinds(self):
        maps = [Map.loads(record) for record in (README, HERMES, TWO_SECTIONS)]
        for number, map in enumerate(maps):
            for other_number, other in enumerate(maps):
                self.check(map, other, number == other_number)

    def test_changed(self):
        for change in [lambda map: map.set_source(0, 'c.js'), lambda map: map.set_contents(1, 'let y'),
                       lambda map: map.ignore_source(0), Map.remove_names, Map.rewrite,
                       lambda map: setattr(map, 'file', None), lambda map: setattr(map, 'source_root', '/other'),
                       lambda map: setattr(map, 'debug_id', None)]:
            map = Map.loads(FULL)
            other = map.share()
            change(other)
            self.check(map, other, False)
            self.check(map, Map.loads(FULL), True)

    def test_undone(self):
        map, other = Map.loads(TWO_SECTIONS), Map.loads(TWO_SECTIONS)
        other.file = 'out.js'
        self.check(map, other, False)
        other.file = None
        self.check(map, other, True)
        other.shift(1)
        self.check(map, other, False)

    def test_what_prints_alike(self):
        rows = [(regular('AAAA', ['/src/a.js']), regular('AAAA', ['a.js'], sourceRoot='/src')),
                (regular('AAAAA,CCAAC', ['a', 'b'], names=['x', 'y']),
                 regular('ACAAC,CDAAD', ['b', 'a'], names=['y', 'x']))]
        for one, other in rows:
            one, other = Map.loads(one), Map.loads(other)
            self.assertEqual([str(token) for token in one], [str(token) for token in other])
            self.check(one, other, False)

    def test_others_stay(self):
        map, other = Map.loads(README), Map.loads(README)
        map.equals(other)
        other.close()
        self.assertEqual(str(map.lookup(0, 5)), 'coolstuff.js:0:4 name=x')
        with self.assertRaisesRegex(ValueError, 'this Map is closed'):
            map.equals(other)


class Written(unittest.TestCase):
    def test_files(self):
        map = Map.loads(FULL)
        with tempfile.TemporaryDirectory() as folder:
            for path in Path(folder, 'one.map'), os.path.join(folder, 'two.map'):
                map.dump(path)
                self.assertEqual(Path(path).read_bytes(), map.dumps())
                self.assertEqual(list(Map.load(path)), list(map))
            with self.assertRaises(OSError):
                map.dump(Path(folder, 'missing', 'three.map'))

    def test_data_url(self):
        map = Map.loads(FULL)
        url = map.to_data_url()
        self.assertTrue(url.startswith('data:application/json;charset=utf-8;base64,'))
        self.assertEqual(Map.from_data_url(url).dumps(), map.dumps())

    def test_texts_past_ascii(self):
        map = Map.loads(regular('AAAA', ['é👌.js'], sourcesContent=['"\\\n\u2028']))
        again = Map.loads(map.dumps())
        self.assertEqual((again.sources, again.contents), (['é👌.js'], ['"\\\n\u2028']))


class Functions(unittest.TestCase):
    def test_guessed(self):
        builder = Builder()
        builder.add(0, 0, source='a.js', line=0, column=0)
        builder.add(0, 9, source='a.js', line=0, column=9, name='original')
        builder.add(0, 13, source='a.js', line=0, column=21)
        map = builder.finish()
        view = View('function a(){throw 1}')
        self.assertEqual(map.function_name(0, 13, 'a', view), 'original')
        self.assertIsNone(map.function_name(0, 13, 'b', view))
        self.assertIsNone(map.function_name(0, 13, 'a'))
        view.close()
        with self.assertRaisesRegex(ValueError, 'this View is closed'):
            map.function_name(0, 13, 'a', view)

    def test_hermes(self):
        map = Map.loads(HERMES)
        self.assertIsNone(map.function_name(1, 0))
        with self.assertRaises(errors.WrongKind):
            Map.loads(README).hermes_function_name(0)
        with self.assertRaises(errors.WrongKind):
            Map.loads(README).scope_for(0, 0, 0)
