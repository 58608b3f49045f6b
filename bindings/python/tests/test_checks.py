"""Checks, on the tests of the standard, on real maps, and from the shell."""
import json
import tempfile
import threading
import unittest
from pathlib import Path

import sourcemap
from sourcemap import Finding, SegmentPosition

from .maps import EXAMPLES, README, index, regular, section
from .test_program import run

STANDARD = EXAMPLES.parent / 'checks' / 'spec-tests'


def broken(mappings, **keys):
    return sourcemap.check(regular(mappings, **keys))


class Findings(unittest.TestCase):
    def test_a_segment(self):
        self.assertEqual(broken('AAAA;g').findings, (
            Finding('SM132', 'invalid', 'mappings', (), SegmentPosition(1, 0), 'the segment ends within a number'),))

    def test_a_key(self):
        finding, = broken('', file=None).findings
        self.assertEqual((finding.code, finding.key, finding.sections, finding.position), ('SM106', 'file', (), None))
        self.assertEqual(str(finding), 'file: SM106 file is no text')

    def test_no_json(self):
        for data, code in ((b'', 'SM101'), (b'\xff', 'SM101'), (b'[]', 'SM102')):
            report = sourcemap.check(data)
            self.assertEqual([(each.code, each.key) for each in report.findings], [(code, '')])
            self.assertFalse(report.is_valid)

    def test_sections(self):
        inner = index(section(0, 0, regular('F')))
        report = sourcemap.check(index(section(0, 0, regular('')), section(9, 0, inner)))
        finding, = report.findings
        self.assertEqual((finding.code, finding.sections), ('SM135', (1, 0)))
        self.assertEqual(str(finding), 'sections[1].map.sections[0].map.mappings 0:0: SM135 the generated column is below 0')

    def test_many_levels(self):
        data = regular('F')
        for _ in range(40):
            data = index(section(0, 0, data))
        finding, = sourcemap.check(data).findings
        self.assertEqual(finding.sections, (0,) * 40)

    def test_most(self):
        for most, shown in (1, 1), (3, 3), (20, 9):
            report = sourcemap.check(regular(','.join('g' * 9)), most=most)
            self.assertEqual((report.invalid, len(report.findings)), (9, shown))
        for most in -1, 2 ** 32:
            with self.assertRaises(ValueError):
                sourcemap.check(README, most=most)

    def test_data(self):
        data = regular('g').encode()
        for each in data.decode(), data, bytearray(data), memoryview(data):
            self.assertEqual(sourcemap.check(each).invalid, 1)
        with self.assertRaises(TypeError):
            sourcemap.check(7)

    def test_generated(self):
        with self.assertRaises(sourcemap.errors.Utf8):
            sourcemap.check(README, b'\xff')
        self.assertTrue(sourcemap.check(README, 'let x;').is_valid)
        self.assertTrue(sourcemap.check(README, '').is_valid)

    def test_names(self):
        rows = [('b.js.map', 'a.js.map', ['SM225']), ('a.js.map', 'a.js.map', []), ('maps/a.js.map?v=1', 'a.js.map', []),
                ('a%20b.js.map', 'a b.js.map', []), ('data:application/json;base64,e30=', 'a.js.map', []),
                ('b.js.map', None, []), ('b.js.map', '', [])]
        for reference, name, codes in rows:
            with self.subTest(reference, name=name):
                text = f'x\n//# sourceMappingURL={reference}'
                report = sourcemap.check(regular('', []), text, name=name)
                self.assertEqual([each.code for each in report.findings], codes)
        for text in None, 'x':
            self.assertEqual(sourcemap.check(regular('', []), text, name='a.js.map').findings, ())

    def test_a_name_without_files(self):
        report = sourcemap.check(regular('AAAA', ['a']), '//# sourceMappingURL=b.map', name='a.map')
        self.assertEqual([str(each) for each in report.findings], [
            'sources[0]: SM214 the map has no contents for the source',
            ': SM225 the reference of the generated text ends in another file name'])
        with self.assertRaises(TypeError):
            sourcemap.check(README, name=7)

    def test_suspicious(self):
        rows = [(('K,D', ()), None, 'mappings 0:1: SM221 the segment has a lower column than the one before it'),
                (('E', ()), 'a', 'mappings at 0:2: SM232 the generated line has fewer columns')]
        for (mappings, sources), text, printed in rows:
            report = sourcemap.check(regular(mappings, sources), text)
            self.assertEqual([(each.severity, str(each)) for each in report.findings], [('suspicious', printed)])
            self.assertEqual((report.is_valid, report.suspicious), (True, 1))

    def test_far_columns(self):
        """Of a long line, in another order than they stand in. A pair of surrogates is two columns."""
        builder = sourcemap.Builder()
        rows = [(5009, None), (5010, None), (5004, 'other'), (3005, None), (3000, 'name'), (3001, 'name'), (5005, 'other'),
                (0, 'x' * 1024), (1, 'x' * 1024 + 'y'), (2, 'x' * 1023 + 'y')]
        for number, (column, name) in enumerate(rows):
            builder.add(0, number, source='a.js', line=0, column=column, name=name)
        builder.set_contents(0, 'x' * 3000 + 'name' + '\U0001d51e' * 1000 + 'other')
        with builder.finish() as map:
            report = sourcemap.check(map.dumps())
        self.assertEqual([(each.code, each.position.column) for each in report.findings], [
            ('SM203', 1), ('SM204', 3), ('SM205', 5), ('SM205', 6), ('SM205', 9)])

    def test_shift(self):
        data = regular('AAAAA;AACAC;AACAC;AACAC', names=['one', 'two', 'three', 'four'])
        missing, shift = sourcemap.check(data, '/* */\none\ntwo\nthree\nfour\n').findings
        self.assertEqual((missing.code, missing.key, missing.position), ('SM214', 'sources[0]', None))
        self.assertEqual((shift.code, shift.position), ('SM242', sourcemap.Shift(1, 0)))

    def test_threads(self):
        data = regular(','.join('g' * 500))
        wanted = sourcemap.check(data)
        found = []
        threads = [threading.Thread(target=lambda: found.append(sourcemap.check(data))) for _ in range(8)]
        for thread in threads:
            thread.start()
        for thread in threads:
            thread.join()
        self.assertEqual(found, [wanted] * 8)


def codes_beside(data, sources):
    return [each.code for each in sourcemap.check(data, sources=sources).findings]


class Files(unittest.TestCase):
    """The codes are those that `./sourcemap check --sources` is tested to find."""

    MISSING = regular('AAAA', ['a'])

    def setUp(self):
        folder = tempfile.TemporaryDirectory()
        self.addCleanup(folder.cleanup)
        self.folder = Path(folder.name, 'src')
        self.folder.mkdir()

    def test_a_mapping(self):
        data = regular('AAAE', ['a'], sourceRoot='lib')
        for sources, codes in (({'lib/a': 'x'}, ['SM203']), ({'lib/a': b'xyz'}, []), ({'a': 'x'}, ['SM227']),
                               ({}, ['SM227']), ({'lib/a': b'\xff'}, ['SM227'])):
            self.assertEqual(codes_beside(data, sources), codes)
        self.assertEqual(codes_beside(data, None), ['SM214'])

    def test_contents(self):
        data = regular('AAAE', ['a'], sourcesContent=['xyz'])
        self.assertEqual(codes_beside(data, {'a': 'x'}), ['SM226'])
        self.assertEqual(codes_beside(data, {'a': 'xyz'}), [])
        self.assertEqual(codes_beside(data, {}), [])

    def test_a_folder(self):
        for bytes_in_file, codes in ((b'x', []), (b'', []), (b'\xff', ['SM227'])):
            (self.folder / 'a').write_bytes(bytes_in_file)
            self.assertEqual(codes_beside(self.MISSING, self.folder), codes)
            self.assertEqual(codes_beside(self.MISSING, str(self.folder)), codes)
        (self.folder / 'a').unlink()
        self.assertEqual(codes_beside(self.MISSING, self.folder), ['SM227'])
        self.assertEqual(codes_beside(self.MISSING, self.folder / 'none'), ['SM227'])

    def test_names_without_a_file(self):
        (self.folder.parent / 'a').write_bytes(b'x')
        (self.folder / 'b').mkdir()
        for name in '../a', 'b/../../a', '/a', str(self.folder.parent / 'a'), 'b', 'c\0', '', 'd' * 300:
            self.assertEqual(codes_beside(regular('AAAA', [name]), self.folder), ['SM227'], name)

    def test_a_file_that_cannot_be_read(self):
        (self.folder / 'a').symlink_to('a')
        with self.assertRaises(OSError):
            codes_beside(self.MISSING, self.folder)

    def test_an_index_map(self):
        data = index(section(0, 0, regular('AAAA', ['b'], sourcesContent=['x'])),
                     section(1, 0, index(section(1, 0, regular('AAAE', ['a'], sourceRoot='lib')))))
        finding, = sourcemap.check(data, sources={'lib/a': 'x'}).findings
        self.assertEqual(str(finding), 'mappings at 2:0: SM203 the original line has fewer columns')
        self.assertEqual(codes_beside(data, {'lib/a': 'xyz'}), [])
        self.assertEqual(codes_beside(data, {}), ['SM227'])

    def test_no_map(self):
        far = index(section(0, 0, self.MISSING), section(4294967295, 0, regular(';A', [])))
        for data in '', '{}', far:
            self.assertEqual(sourcemap.check(data, sources={}), sourcemap.check(data))

    def test_shift(self):
        data = regular('AAAAA;AACAC;AACAC;AACAC', ['a'], names=['one', 'two', 'three', 'four'])
        shift = sourcemap.check(data, sources={'a': '/* */\none\ntwo\nthree\nfour\n'}).findings[-1]
        self.assertEqual((shift.code, shift.position), ('SM241', sourcemap.Shift(1, 0)))


class Standard(unittest.TestCase):
    @unittest.skipUnless(STANDARD.is_dir(), 'the tests of the standard are not here')
    def test_codes(self):
        """A valid map has no finding that is invalid, an invalid one has the codes that were found by hand."""
        codes = dict(row.split('\t') for row in (STANDARD / 'codes.tsv').read_text().splitlines())
        tests = json.loads((STANDARD / 'source-map-spec-tests.json').read_text())['tests']
        self.assertEqual(len(tests), 58)
        for test in tests:
            with self.subTest(test['name']):
                report = sourcemap.check((STANDARD / 'resources' / test['sourceMapFile']).read_bytes())
                self.assertEqual(report.is_valid, test['sourceMapIsValid'])
                found = {each.code for each in report.findings if each.severity == 'invalid'}
                self.assertEqual(found, set(codes.get(test['name'], '').split()))

    def test_real_maps(self):
        paths = list(EXAMPLES.glob('*.map'))
        self.assertGreater(len(paths), 1)
        for path in paths:
            with self.subTest(path.name):
                self.assertTrue(sourcemap.check(path.read_bytes()).is_valid)


class Program(unittest.TestCase):
    def test_invalid(self):
        self.assertEqual(run('check', '-', data=regular('AAAA;g')),
                         ('-:mappings 1:0: SM132 the segment ends within a number\n'
                          '1 invalid, 0 suspicious, 1 shown\n', 1, ''))

    def test_most(self):
        printed, status, error = run('check', '-', '--most', '2', data=regular('g,g,g'))
        self.assertEqual((printed.splitlines()[-1], status, error), ('3 invalid, 0 suspicious, 2 shown', 1, ''))

    def test_valid(self):
        path = str(EXAMPLES / 'basket.min.js.map')
        printed, status, error = run('check', path)
        self.assertEqual((status, error), (0, ''))
        self.assertRegex(printed.splitlines()[-1], r'^0 invalid, \d+ suspicious, \d+ shown$')

    def test_strict(self):
        data = regular('K,D', [])
        printed = '-:mappings 0:1: SM221 the segment has a lower column than the one before it\n' \
            '0 invalid, 1 suspicious, 1 shown\n'
        self.assertEqual(run('check', '-', data=data), (printed, 0, ''))
        self.assertEqual(run('check', '-', '--strict', data=data), (printed, 1, ''))

    def test_sources(self):
        with tempfile.TemporaryDirectory() as folder:
            printed, status, error = run('check', '-', '--sources', folder, data=regular('AAAA', ['a']))
        wanted = '-:sources[0]: SM227 the source has neither contents nor a file\n0 invalid, 1 suspicious, 1 shown\n'
        self.assertEqual((printed, status, error), (wanted, 0, ''))

    def test_name(self):
        found = '{}:: SM225 the reference of the generated text ends in another file name\n' \
            '0 invalid, 1 suspicious, 1 shown\n'
        nothing = '0 invalid, 0 suspicious, 0 shown\n'
        with tempfile.TemporaryDirectory() as folder:
            text, same, other = (str(Path(folder, name)) for name in ('a.js', 'a.map', 'b.map'))
            Path(text).write_text('//# sourceMappingURL=a.map')
            for path, words, printed in ((same, (), nothing), (other, (), found.format(other)), ('-', (), nothing),
                                         ('-', ('--name', 'b.map'), found.format('-')),
                                         (same, ('--name', 'b.map'), found.format(same)),
                                         (other, ('--name', 'a.map'), nothing)):
                if path != '-':
                    Path(path).write_text(regular('', []))
                self.assertEqual(run('check', path, '--generated', text, *words, data=regular('', [])), (printed, 0, ''))

    def test_files_that_cannot_be_read(self):
        with tempfile.TemporaryDirectory() as folder:
            text = Path(folder, 'out.js')
            text.write_bytes(b'\xff')
            printed, status, error = run('check', str(EXAMPLES / 'readme.map'), '--generated', str(text))
            self.assertEqual((printed, status), ('', 1))
            self.assertIn('utf-8', error.lower())
        self.assertEqual(run('check', 'missing.map'),
                         ('', 1, 'sourcemap: missing.map: No such file or directory\n'))
