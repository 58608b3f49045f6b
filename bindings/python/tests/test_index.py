"""Index maps: lookups, sections, and what only their sections have."""
import json
import unittest

from sourcemap import Map, Token, errors

from .maps import HERMES, README, TWO_SECTIONS, index, regular, section


class IndexMap(unittest.TestCase):
    def setUp(self):
        inner = index(section(0, 0, regular('AAAAA', ['inner.js'], names=['n'], sourceRoot='/in')),
                      section(5, 0, regular('AAAA', ['late.js'])))
        self.map = Map.loads(index(
            section(1, 2, regular('EAAA', ['first.js'], sourcesContent=['1'])),
            section(10, 4, inner),
            {'offset': {'line': 20, 'column': 0}, 'url': 'third.map'},
            section(30, 0, regular('A', [])), file='out.js'))

    def test_lookups(self):
        for position, text in [((0, 0), None), ((1, 3), None), ((1, 4), 'first.js:0:0'), ((10, 3), 'first.js:0:0'),
                               ((10, 4), '/in/inner.js:0:0 name=n'), ((15, 0), 'late.js:0:0'), ((20, 0), None),
                               ((29, 9), None), ((30, 0), '<unknown>:4294967295:4294967295')]:
            token = self.map.lookup(*position)
            with self.subTest(position):
                self.assertEqual(token if token is None else str(token), text)
                self.assertEqual(self.map.lookup_text(*position), text)
                self.assertEqual(list(self.map.lookup_many([position])), [token])

    def test_token(self):
        token = self.map.lookup(10, 9)
        self.assertEqual(token, Token('/in/inner.js', 0, 0, 'n', False, 0, 0, None, None))

    def test_many_blocks_of_answers(self):
        answers = self.map.lookup_many([(10, 4), (1, 4), (0, 0)] * 1000)
        self.assertEqual([token and token.source for token in answers], ['/in/inner.js', 'first.js', None] * 1000)
        self.assertEqual([token and token.source for token in answers[1025:1028]], [None, '/in/inner.js', 'first.js'])

    def test_trace(self):
        self.assertEqual(self.map.trace('10:4\n20:0'), '/in/inner.js:0:0 name=n\nnone\n')

    def test_sections(self):
        sections = self.map.sections
        self.assertEqual([(each.line, each.column, each.url, each.has_map) for each in sections],
                         [(1, 2, None, True), (10, 4, None, True), (20, 0, 'third.map', False), (30, 0, None, True)])
        self.assertEqual([each.map and each.map.kind for each in sections], ['regular', 'index', None, 'regular'])
        self.assertEqual(repr(sections[0]), '<sourcemap.Section 1:2>')

    def test_sources_by_sections(self):
        first, nested, _, last = self.map.sections
        self.assertEqual((first.map.sources, first.map.contents, last.map.sources), (['first.js'], ['1'], []))
        self.assertEqual([each.map.sources for each in nested.map.sections], [['/in/inner.js'], ['late.js']])
        self.assertEqual([each.map.names for each in nested.map.sections], [['n'], []])

    def test_sections_stay(self):
        sections = self.map.sections
        self.map.shift(7)
        self.assertEqual([each.line for each in sections], [1, 10, 20, 30])
        self.assertEqual([each.line for each in self.map.sections], [8, 17, 27, 37])
        self.map.close()
        self.assertEqual(str(sections[0].map.lookup(0, 2)), 'first.js:0:0')
        self.assertEqual(str(sections[0].map.lookup(0, 2)), 'first.js:0:0')

    def test_a_section_is_a_copy(self):
        copied = self.map.sections[0].map
        copied.set_source(0, 'other.js')
        self.assertEqual(str(self.map.lookup(1, 4)), 'first.js:0:0')

    def test_what_only_sections_have(self):
        for ask in [len, iter, Map.tokens, lambda map: map.ignore_list, lambda map: map.sources[0],
                    lambda map: len(map.names), lambda map: list(map.contents), Map.rewrite, Map.remove_names,
                    lambda map: map.set_source(0, 'a')]:
            with self.assertRaises(errors.WrongKind):
                ask(self.map)

    def test_parts_of_its_own(self):
        self.assertEqual((self.map.kind, self.map.file, self.map.source_root), ('index', 'out.js', None))
        self.map.file = 'other.js'
        self.assertEqual(json.loads(self.map.dumps())['file'], 'other.js')

    def test_modules(self):
        lines = [None, *range(7, 3007, 2)]
        map = Map.loads(index(section(0, 0, regular('AAAA')), x_facebook_offsets=lines,
                              x_metro_module_paths=['a.js', 'é.js']))
        self.assertEqual((map.module_offsets, map.module_paths), (tuple(lines), ('a.js', 'é.js')))
        for count in 0, 1024, 2048:
            map = Map.loads(index(x_facebook_offsets=[3] * count, x_metro_module_paths=[]))
            self.assertEqual((map.module_offsets, map.module_paths), (count * (3,), ()))
        self.assertEqual((self.map.module_offsets, self.map.module_paths), (None, None))
        for record in README, HERMES:
            for ask in lambda map: map.module_offsets, lambda map: map.module_paths:
                with self.assertRaises(errors.WrongKind):
                    ask(Map.loads(record))

    def test_written(self):
        record = json.loads(Map.loads(TWO_SECTIONS).dumps())
        self.assertEqual([each['offset'] for each in record['sections']],
                         [{'line': 0, 'column': 0}, {'line': 10, 'column': 4}])
        self.assertEqual([each['map']['sources'] for each in record['sections']], [['a.js'], ['b.js']])


class Flattened(unittest.TestCase):
    def test_sources_and_contents(self):
        map = Map.loads(index(
            section(0, 0, regular('AAAAA', ['a.js'], names=['n'], sourcesContent=['A'], ignoreList=[0])),
            section(3, 0, regular('ACAAA', ['a.js', 'b.js'], names=['n'], sourcesContent=['B', None]))))
        answers = [map.lookup(0, 0), map.lookup(3, 0)]
        map.flatten()
        self.assertEqual((map.kind, map.sections, len(map)), ('regular', (), 2))
        self.assertEqual((map.sources, map.names, map.contents, map.ignore_list),
                         (['a.js', 'b.js'], ['n'], ['B', None], (0,)))
        for token, before in zip(map, answers):
            self.assertEqual(str(token), str(before))

    def test_hermes_section(self):
        map = Map.loads(index(section(2, 0, HERMES)))
        self.assertEqual(map.sections[0].map.kind, 'hermes')
        map.flatten()
        self.assertEqual((map.kind, str(map.lookup(2, 5))), ('regular', 'a.js:1:5'))

    def test_other_kinds(self):
        for record in README, HERMES:
            map = Map.loads(record)
            for change in Map.flatten, lambda map: map.shift(1):
                with self.assertRaises(errors.WrongKind):
                    change(map)
            self.assertEqual(map.sections, ())

    def test_compose_takes_regular_maps(self):
        flat, nested = Map.loads(README), Map.loads(TWO_SECTIONS)
        for map, later in (flat, nested), (nested, flat):
            with self.assertRaises(errors.WrongKind):
                map.compose(later)
