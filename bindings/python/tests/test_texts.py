"""Generated texts and references, builders, and bundles."""
import json
import tempfile
import unittest
import uuid
from pathlib import Path

from sourcemap import (Builder, Bundle, Map, NewToken, Reference, View, errors, is_source_map, locate_reference, resolve,
                       resolve_path)

from .maps import BUNDLE, HERMES, README, TWO_SECTIONS, index, regular, section

ID = uuid.UUID('c56ee0c5-0b5b-4c11-9ad0-1e0e7b7c2a33')


class Views(unittest.TestCase):
    def test_lines(self):
        text = 'one\r\ntwo\rthrée\n\n👌'
        lines = ['one', 'two', 'thrée', '', '👌']
        for data in text, text.encode(), bytearray(text.encode()):
            view = View(data)
            self.assertEqual((len(view), list(view), view.text), (5, lines, text))
            self.assertEqual((view[0], view[-1], view[1:3], view.index('thrée'), 'four' in view),
                             ('one', '👌', ['two', 'thrée'], 2, False))

    def test_empty_text(self):
        self.assertEqual((list(View('')), View('').text), ([''], ''))

    def test_wrong_lines(self):
        view = View('a\nb')
        for wrong in 2, -3, 2**70:
            with self.assertRaises(IndexError):
                view[wrong]

    def test_slices_by_utf16_units(self):
        view = View('a👌b')
        self.assertEqual([view.slice(0, *part) for part in [(0, 1), (1, 2), (3, 1), (0, 4), (4, 0), (4, 1), (5, 0)]],
                         ['a', '👌', 'b', 'a👌b', '', None, None])
        self.assertIsNone(view.slice(1, 0, 0))
        for wrong in (-1, 0, 0), (0, -1, 0), (0, 0, -1), (2**32, 0, 0):
            with self.assertRaises(ValueError):
                view.slice(*wrong)


class References(unittest.TestCase):
    def test_located(self):
        for text, reference in [
                ('run();\n//# sourceMappingURL=run.js.map\n', Reference('run.js.map', False)),
                ('//@ sourceMappingURL= old.map \n//# sourceMappingURL=new.map', Reference('old.map', True)),
                ('//# sourceMappingURL=é.map', Reference('é.map', False)),
                ('run(); //# sourceMappingURL=run.js.map', None), ('', None)]:
            self.assertEqual(locate_reference(text), reference)
            self.assertEqual(locate_reference(text.encode()), reference)

    def test_bytes_that_are_no_text(self):
        with self.assertRaises(errors.Io):
            locate_reference(b'\xff\n//# sourceMappingURL=run.js.map')

    def test_resolved(self):
        for url, base, result in [
                ('m/a.js.map', 'http://localhost/x/a.js', 'http://localhost/x/m/a.js.map'),
                ('http://elsewhere/a.js.map', 'http://localhost/x/a.js', 'http://elsewhere/a.js.map'),
                ('data:application/json;base64,e30=', 'http://localhost/x/a.js', None),
                ('a.js.map', 'no URL', None)]:
            self.assertEqual(resolve(url, base), result)
        for url, path, result in [('a.js.map', '/x/a.js', '/x/a.js.map'), ('/m/a.js.map', '/x/a.js', '/m/a.js.map'),
                                  ('a%20b.map', '/x/a.js', '/x/a b.map'), ('a.js.map', 'x/a.js', None)]:
            self.assertEqual(resolve_path(url, path), result)

    def test_is_source_map(self):
        for data, answer in [(README, True), (README.encode(), True), (TWO_SECTIONS, True), (HERMES, True),
                             ('{"version":3}', False), ('[]', False), ('', False), (b'\xff', False)]:
            self.assertIs(is_source_map(data), answer)


class Builders(unittest.TestCase):
    def test_whole_map(self):
        with Builder('out.js', source_root='/src', debug_id=ID) as builder:
            self.assertEqual([builder.add_source(each) for each in ('a.js', 'b.js', 'a.js')], [0, 1, 0])
            self.assertEqual([builder.add_name(each) for each in ('x', 'y', 'x')], [0, 1, 0])
            builder.set_contents(1, 'text')
            builder.ignore_source(0)
            builder.add(1, 2, source='b.js', line=3, column=4, name='z', is_range=True)
            builder.add_tokens([NewToken(0, 0, 5, 6, 0, 1), NewToken(0, 9)])
            map = builder.finish()
        self.assertTrue(builder.closed)
        self.assertEqual((map.kind, map.file, map.source_root, map.debug_id, map.ignore_list),
                         ('regular', 'out.js', '/src', ID, (0,)))
        self.assertEqual((map.sources, map.names, map.contents),
                         (['/src/a.js', '/src/b.js'], ['x', 'y', 'z'], [None, 'text']))
        self.assertEqual([(*token[1:7], token.source_id, token.name_id) for token in map],
                         [(5, 6, 'y', False, 0, 0, 0, 1), (None, None, None, False, 0, 9, None, None),
                          (3, 4, 'z', True, 1, 2, 1, 2)])

    def test_least_map(self):
        self.assertEqual(json.loads(Builder().finish().dumps()),
                         {'version': 3, 'sources': [], 'names': [], 'mappings': ''})

    def test_many_tokens_of_an_iterator(self):
        builder = Builder()
        source = builder.add_source('a.js')
        builder.add_tokens(NewToken(line, 0, line, 0, source) for line in range(10_000))
        self.assertEqual([token.line for token in builder.finish()], list(range(10_000)))

    def test_unknown_ids_name_nothing(self):
        builder = Builder()
        builder.add_tokens([NewToken(0, 0, 1, 2, 7, 8)])
        token = builder.finish().lookup(0, 0)
        self.assertEqual((token.source, token.source_id, token.name, token.name_id, token.line), (None, 7, None, 8, 1))
        self.assertEqual(str(token), '<unknown>:1:2')

    def test_wrong_arguments(self):
        builder = Builder()
        builder.add_source('a.js')
        for wrong in (-1, 0), (0, 2**32), (0, 0, -1), (0, 0, 0, 2**32), (0, 0, 0, 0, -1), (0, 0, 0, 0, 0, 2**32):
            with self.assertRaises(ValueError):
                builder.add_tokens([NewToken(*wrong)])
        with self.assertRaises(TypeError):
            builder.add('0', 0)
        for call in builder.set_contents, builder.set_source, lambda id, _: builder.ignore_source(id):
            with self.assertRaises(errors.Absent):
                call(1, 'text')
            with self.assertRaises(ValueError):
                call(-1, 'text')
        with self.assertRaises(ValueError):
            builder.source(-1)
        with self.assertRaisesRegex(TypeError, 'prefixes is a list of texts, not a text'):
            builder.strip_prefixes('a')
        self.assertEqual((builder.source(0), builder.source(1)), ('a.js', None))
        self.assertEqual(len(builder.finish()), 0)

    def test_changed_sources(self):
        builder = Builder(source_root='root')
        self.assertEqual([builder.add_source(each) for each in ('/a/a/x.js', '/ab.js', 'c.js', '~/d.js')], [0, 1, 2, 3])
        builder.set_source(2, '/a/b/c.js')
        builder.strip_prefixes([])
        self.assertEqual(builder.source(2), '/a/b/c.js')
        builder.strip_prefixes(['/a/b', '/a/', '~'])
        self.assertEqual([builder.source(id) for id in range(5)], ['a/x.js', '/ab.js', 'c.js', 'd.js', None])
        self.assertEqual([builder.add_source(each) for each in ('/a/a/x.js', 'c.js', 'd.js')], [0, 2, 4])
        self.assertEqual(builder.finish().sources,
                         ['root/a/x.js', '/ab.js', 'root/c.js', 'root/d.js', 'root/d.js'])


class Bundles(unittest.TestCase):
    TWO_MODULES = bytes.fromhex('e5d10bfb 03000000 00000000'
                                '00000000 02000000 00000000 00000000 02000000 02000000 7800 ff00')

    def test_sequence(self):
        bundle = Bundle(self.TWO_MODULES)
        self.assertEqual((len(bundle), list(bundle), bundle.startup), (3, [b'x', None, b'\xff'], b''))
        self.assertEqual((bundle[-1], bundle[:2]), (b'\xff', [b'x', None]))
        for wrong in 3, -4, 2**40, 2**64, -2**64:
            with self.assertRaises(IndexError):
                bundle[wrong]

    def test_files(self):
        with tempfile.TemporaryDirectory() as folder:
            path = Path(folder, 'main.bundle')
            path.write_bytes(BUNDLE)
            with Bundle.load(path) as bundle:
                self.assertEqual(bundle[0], b'xyz')

    def test_split(self):
        map = Map.loads(index(section(0, 0, regular('AAAA;AACA;AACA')), x_facebook_offsets=[0, 1, 2]))
        with Bundle(self.TWO_MODULES).split(map) as modules:
            self.assertEqual((len(modules), modules[0][:2]), (3, ('0.js', 'x')))
            self.assertEqual(str(modules[0].map.lookup(0, 0)), 'a.js:0:0')
            self.assertIsNone(modules[1])
            with self.assertRaises(errors.InvalidRamBundleEntry):
                modules[2]
            with self.assertRaises(IndexError):
                modules[3]
            self.assertEqual([module and module.name for module in modules[:2]], ['0.js', None])
            kept = modules[-3].map
        map.close()
        self.assertEqual(str(kept.lookup(0, 0)), 'a.js:0:0')

    def test_split_of_a_claim(self):
        # twelve bytes, which claim 4294967295 modules
        bundle = Bundle(BUNDLE[:4] + b'\xff\xff\xff\xff' + bytes(4))
        with bundle.split(Map.loads(index(section(0, 0, regular('AAAA')), x_facebook_offsets=[0]))) as modules:
            bundle.close()
            self.assertEqual(len(modules), 4294967295)
            for number in 0, 1, -1:
                with self.assertRaises(errors.InvalidRamBundleEntry):
                    modules[number]
        with self.assertRaises(ValueError):
            modules[0]
        with self.assertRaises(ValueError):
            len(modules)

    def test_split_by_other_maps(self):
        with self.assertRaises(errors.WrongKind):
            Bundle(BUNDLE).split(Map.loads(README))
