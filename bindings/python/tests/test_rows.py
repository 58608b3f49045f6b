"""Answers of the library that were worked out by hand, by the calls of this package."""
import json
import unittest

from sourcemap import Builder, Bundle, Map, NewToken, View, errors, relative_path, resolve_path

from .maps import BUNDLE, HERMES, README, TWO_SECTIONS, index, regular, section


def text_at(map, line, column):
    token = map.lookup(line, column)
    return 'none' if token is None else str(token)


def map_of(tokens):
    """A regular map of tokens, each with its generated and its original position."""
    with Builder() as builder:
        source = builder.add_source('a.js')
        builder.add_tokens(NewToken(*generated, *original, source) for generated, original in tokens)
        return builder.finish()


def pairs(map):
    return [((token.generated_line, token.generated_column), (token.line, token.column)) for token in map]


class Lookups(unittest.TestCase):
    def test_readme_map(self):
        map = Map.loads(README)
        for position, text in [((0, 5), 'coolstuff.js:0:4 name=x'), ((0, 0), 'coolstuff.js:0:0'),
                               ((0, 18), 'coolstuff.js:2:2 name=alert'), ((1, 0), 'coolstuff.js:2:8')]:
            self.assertEqual(text_at(map, *position), text)

    def test_range_tokens(self):
        map = Map.loads(regular('AAAO', rangeMappings='B'))
        self.assertEqual(text_at(map, 0, 5), 'a.js:0:12')
        self.assertEqual(text_at(map, 3, 5), 'a.js:0:7')

    def test_range_token_without_source(self):
        token = Map.loads(regular('A', [], rangeMappings='B')).lookup(0, 5)
        self.assertEqual(str(token), '<unknown>:4294967295:4294967295')
        self.assertEqual((token.source, token.line, token.column, token.source_id), (None, None, None, None))

    def test_index_and_flat_map(self):
        map = Map.loads(TWO_SECTIONS)
        for kind in 'index', 'regular':
            self.assertEqual(map.kind, kind)
            self.assertEqual(text_at(map, 10, 4), 'b.js:0:0')
            self.assertEqual(text_at(map, 10, 9), 'b.js:0:0')
            self.assertEqual(text_at(map, 10, 3), 'a.js:0:0')
            if kind == 'index':
                map.flatten()
        self.assertEqual(json.loads(map.dumps())['mappings'], 'AAAA;;;;;;;;;;ICAA')

    def test_hermes_functions(self):
        map = Map.loads(HERMES)
        self.assertEqual(map.kind, 'hermes')
        self.assertEqual(map.hermes_function_name(0), '<global>')
        self.assertEqual(map.hermes_function_name(7), 'foo')
        # `foo` begins at 1:5 of the source
        self.assertEqual([map.scope_for(0, 1, column) for column in (4, 5)], ['<global>', 'foo'])
        self.assertEqual((map.scope_for(0, 9, 0), map.scope_for(1, 9, 0)), ('foo', None))
        self.assertEqual(map.function_name(0, 7), 'foo')


class Written(unittest.TestCase):
    def test_rewrite(self):
        map = Map.loads(README)
        map.rewrite()
        self.assertEqual(map.dumps().decode(),
                         '{"mappings":"AAAA,GAAIA,GAAI,EACR,IAAIA,GAAK,EAAG,CACVC,MAAM",'
                         '"names":["x","alert"],"sources":["coolstuff.js"],"version":3}')

    def test_tokens_without_source(self):
        builder = Builder()
        builder.add(0, 0)
        builder.add(1, 0, is_range=True)
        record = json.loads(builder.finish().dumps())
        self.assertEqual((record['mappings'], record['rangeMappings']), ('A;A', ';B'))

    def test_equal_tokens_are_written_once(self):
        builder = Builder()
        source = builder.add_source('a.js')
        builder.add_tokens([NewToken(0, 0, 0, 0, source), NewToken(0, 0, 0, 0, source),
                            NewToken(0, 5, 0, 5, source, is_range=True)])
        map = builder.finish()
        record = json.loads(map.dumps())
        self.assertEqual((record['mappings'], record['rangeMappings']), ('AAAA,KAAK', 'C'))
        read = Map.loads(map.dumps())
        for column in range(9):
            self.assertEqual(map.lookup(0, column), read.lookup(0, column))

    def test_empty_segments(self):
        map = Map.loads(regular('A,,C', [], rangeMappings='E'))
        self.assertEqual([(token.generated_column, token.is_range) for token in map], [(0, False), (1, True)])
        record = json.loads(map.dumps())
        self.assertEqual((record['mappings'], record['rangeMappings']), ('A,C', 'C'))

    def test_data_url(self):
        map = Map.from_data_url('data:application/json;base64,eyJtYXBwaW5ncyI6IkEifQ==')
        self.assertEqual([(token.generated_line, token.generated_column, token.source) for token in map],
                         [(0, 0, None)])
        self.assertEqual(map.dumps().decode(), '{"mappings":"A","names":[],"sources":[],"version":3}')
        with self.assertRaises(errors.InvalidDataUrl):
            Map.from_data_url('data:application/json;charset=latin1;base64,eyJtYXBwaW5ncyI6IkEifQ==')

    def test_source_root(self):
        map = Map.loads(regular('AAAA', ['./bar.js'], sourceRoot='webpack:///'))
        self.assertEqual(map.sources, ['webpack:///./bar.js'])
        self.assertEqual(json.loads(map.dumps())['sources'], ['./bar.js'])

    def test_debug_ids(self):
        ones, zeros = '11111111-1111-1111-1111-111111111111', '00000000-0000-0000-0000-000000000000'
        self.assertEqual(str(Map.loads(regular('AAAA', debug_id=ones, debugId=zeros)).debug_id), zeros)
        self.assertEqual(str(Map.loads(regular('AAAA', debug_id=ones)).debug_id), ones)


class Composed(unittest.TestCase):
    def compose(self, originals, adjustments):
        map = map_of(originals)
        map.compose(map_of(adjustments))
        return pairs(map)

    def test_stretches(self):
        self.assertEqual(self.compose([((8, 28), (102, 35)), ((8, 40), (102, 50))], [((17, 23), (8, 30))]),
                         [((17, 23), (102, 35)), ((17, 33), (102, 50))])

    def test_two_adjustments_of_one_position(self):
        adjustments = [((3, 0), (0, 5)), ((4, 0), (0, 5))]
        self.assertEqual(self.compose([((0, 0), (7, 7))], adjustments), [((3, 0), (7, 7)), ((4, 0), (7, 7))])
        self.assertEqual(self.compose([((0, 5), (7, 7))], adjustments), [((4, 0), (7, 7))])

    def test_last_column(self):
        last = [((0, 4294967295), (0, 0))]
        map = map_of([((0, 0), (7, 7)), ((0, 1), (8, 8))])
        before = map.dumps()
        with self.assertRaises(errors.IncompatibleSourceMap):
            map.compose(map_of(last))
        self.assertEqual(map.dumps(), before)
        self.assertEqual(self.compose([((0, 0), (7, 7))], last), [((0, 4294967295), (7, 7))])


class Texts(unittest.TestCase):
    def test_junk_header(self):
        self.assertEqual(text_at(Map.loads(")]}garbage\r\n" + README), 0, 5), 'coolstuff.js:0:4 name=x')
        with self.assertRaises(errors.Io):
            Map.loads(")]}'\r" + README)

    def test_slices(self):
        view = View('abc👌def\nblah')
        self.assertEqual(view.slice(0, 3, 1), '👌')
        self.assertEqual(view.slice(0, 4, 1), '')
        self.assertIsNone(view.slice(1, 0, 5))
        self.assertEqual(view.slice(1, 0, 4), 'blah')

    def test_lines(self):
        view = View('a\nb\nc\n')
        self.assertEqual(len(view), 4)
        self.assertEqual(view[3], '')
        with self.assertRaises(IndexError):
            view[4]

    def test_resolved_path(self):
        self.assertEqual(resolve_path('../m/a.js.map', '/x/y/a.js'), '/x/m/a.js.map')

    def test_relative_paths(self):
        self.assertEqual(relative_path('/foo/bar/baz.js', '/foo/baz.map'), '../baz.map')
        self.assertEqual(relative_path('/a/x.js', '/a/b/c.map'), 'b/c.map')


class Refused(unittest.TestCase):
    def test_mappings(self):
        for mappings, sources, error, number in [
                ('AAAAAA', ['a.js'], errors.BadSegmentSize, 6), ('AAAA', [], errors.BadSourceReference, 0),
                ('ADAA', ['a.js'], errors.BadSourceReference, 4294967295),
                ('AAAAA', ['a.js'], errors.BadNameReference, 0), ('A!', [], errors.InvalidBase64, ord('!')),
                ('g', [], errors.VlqLeftover, None), (12 * 'g' + 'I', [], errors.VlqOverflow, None),
                (13 * 'g' + 'A', [], errors.VlqOverflow, None), (13 * 'g', [], errors.VlqLeftover, None)]:
            with self.subTest(mappings):
                with self.assertRaises(error) as raised:
                    Map.loads(regular(mappings, sources))
                self.assertEqual(raised.exception.number, number)

    def test_range_mappings(self):
        with self.assertRaises(errors.InvalidBase64):
            Map.loads(regular('A', [], rangeMappings='!'))
        self.assertEqual(len(Map.loads(regular(';A', [], rangeMappings='!'))), 1)

    def test_json(self):
        for text, number in ('', 0), ('[]', 1):
            with self.subTest(text):
                with self.assertRaises(errors.BadJson) as raised:
                    Map.loads(text)
                self.assertEqual(raised.exception.number, number)

    def test_flatten(self):
        past = index(section(4294967295, 0, regular(';AAAA')))
        with self.assertRaises(errors.CannotFlatten) as raised:
            Map.loads(past).flatten()
        self.assertEqual(str(raised.exception),
                         'cannot flatten the indexed sourcemap: a position passes 4294967295')
        with self.assertRaises(errors.CannotFlatten) as raised:
            Map.loads(index({'offset': {'line': 0, 'column': 0}, 'url': 'u'})).flatten()
        self.assertEqual(str(raised.exception),
                         'cannot flatten the indexed sourcemap: Section has an unresolved sourcemap: u')

    def test_shift(self):
        map = Map.loads(index(section(0, 0, regular('AAAA')), section(4294967295, 0, regular('AAAA'))))
        before = map.dumps()
        with self.assertRaises(errors.PastLimit):
            map.shift(1)
        self.assertEqual(map.dumps(), before)
        starts = [(0, 0), (10, 0), (20, 10), (30, 40)]
        map = Map.loads(index(*(section(*start, regular('AAAA')) for start in starts)))
        map.shift(1)
        self.assertEqual([(each.line, each.column) for each in map.sections],
                         [(1, 0), (11, 0), (21, 10), (31, 40)])


class Bundles(unittest.TestCase):
    def test_modules(self):
        for data in BUNDLE, BUNDLE[:25]:
            bundle = Bundle(data)
            self.assertEqual((bundle.startup, bundle[0]), (b'ab', b'xyz'))
            with self.assertRaises(errors.InvalidRamBundleIndex):
                bundle[1]

    def test_cut_bundles(self):
        with self.assertRaises(errors.Scroll) as raised:
            Bundle(BUNDLE[:24])[0]
        error = raised.exception
        self.assertEqual((error.start, error.size, error.length), (22, 3, 24))
        self.assertEqual(str(error), 'parse error: 22+3 past 24')
        with self.assertRaises(errors.Scroll) as raised:
            Bundle(BUNDLE[:11])
        self.assertEqual(str(raised.exception), 'parse error: 0+12 past 11')

    def test_split(self):
        map = Map.loads(index(section(0, 0, regular(';;;;;AAAA,EAAE;AAAA')), x_facebook_offsets=[5]))
        module, = Bundle(BUNDLE).split(map)
        self.assertEqual((module.name, module.text), ('0.js', 'xyz'))
        self.assertEqual(json.loads(module.map.dumps())['mappings'], 'AAAA,EAAE')
