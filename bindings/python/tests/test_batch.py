"""Tables of pandas: what `batch.symbolicate` adds to rows, and the same in a Dask table."""

from __future__ import annotations

import cProfile
import doctest
import os
import pstats
import random
import re
import resource
import subprocess
import sys
import unittest
from functools import partial
from pathlib import Path
from typing import Any, Callable, Dict, List
from unittest import mock

try:
    import numpy as np
    import pandas as pd
except ImportError:
    raise unittest.SkipTest('pandas and numpy are not installed') from None

import sourcemap
from sourcemap import CompiledMap, batch
from sourcemap._tables.opened import OpenedMap
from sourcemap.release import Compiled

from . import builds
from .builds import ID, WRONG, Reference
from .maps import HERMES, README, index, regular, section
from .test_program import ENVIRONMENT, FOLDER
from .test_release import Folder

MISSING = [None, pd.NA, pd.NA, None, None, None]


def added(frame: pd.DataFrame) -> List[List[Any]]:
    return [[None if value is None else value for value in row] for row in frame[list(batch.COLUMNS)].values.tolist()]


def calls_of(call: Callable[[], object]) -> int:
    """How many functions a call calls, of Python and of C."""
    profile = cProfile.Profile()
    profile.runcall(call)
    return sum(count for count, *_ in pstats.Stats(profile).stats.values())  # type: ignore[attr-defined]


class Tables(Folder):
    def setUp(self) -> None:
        super().setUp()
        self.put('app.js.map', README)

    def symbolicate(self, lines: Any, columns: Any, files: Any = 'app.js', zero_based: bool = False, **more: Any) -> pd.DataFrame:
        frames = pd.DataFrame({'file': files, 'line': lines, 'column': columns, **more})
        return batch.symbolicate(frames, self.release(), zero_based=zero_based)


class Rows(Tables):
    def test_readme_map(self) -> None:
        found = self.symbolicate([1, 1, 1, 2, 1], [6, 1, 19, 1, 6], ['app.js', 'x/app.js', 'app.js', 'app.js', 'none.js'])
        self.assertEqual(found.columns.tolist(), ['file', 'line', 'column', *batch.COLUMNS])
        self.assertEqual(repr(added(found)), repr([
            ['coolstuff.js', 1, 5, 'x', None, None, 'found'],
            ['coolstuff.js', 1, 1, None, None, None, 'found'],
            ['coolstuff.js', 3, 3, 'alert', None, None, 'found'],
            [*MISSING, 'no token'],  # the map has nothing on the second line
            [*MISSING, 'no map']]))
        self.assertEqual(found.dtypes.astype(str).tolist(),
                         ['object', 'int64', 'int64', 'object', 'Int64', 'Int64', 'object', 'object', 'object', 'object'])

    def test_zero_based(self) -> None:
        found = self.symbolicate([0, 0, -1], [5, 18, 0], zero_based=True)
        self.assertEqual(added(found)[:2], [['coolstuff.js', 0, 4, 'x', None, None, 'found'],
                                            ['coolstuff.js', 2, 2, 'alert', None, None, 'found']])
        self.assertEqual(found.status[2], 'bad position')

    def test_the_table_stays_as_it_is(self) -> None:
        frames = pd.DataFrame({'function': ['b', None], 'file': ['app.js'] * 2, 'line': [1, 1], 'column': [6, 19]}, index=[7, 3])
        before = frames.copy()
        found = batch.symbolicate(frames, self.release())
        pd.testing.assert_frame_equal(frames, before)
        pd.testing.assert_frame_equal(found[before.columns.tolist()], before)
        self.assertEqual(found.name.to_dict(), {7: 'x', 3: 'alert'})

    def test_what_a_row_costs(self) -> None:
        """Each map is asked once. For 4,900 rows more, which are those of before, no function is called more often, but
        what the interpreter calls by itself."""
        self.put_map('other.js.map')
        release = self.release()
        frames = pd.DataFrame({'file': ['app.js', 'other.js', 'app.js', 'none.js'] * 25, 'line': ['1', '1', 'x', '1'] * 25,
                               'column': [6, 1, 1, 1] * 25})
        costs = []
        batch.symbolicate(frames, release)
        for times in 1, 50:
            rows = pd.concat([frames] * times)
            with mock.patch.object(CompiledMap, 'lookup_many', autospec=True, side_effect=CompiledMap.lookup_many) as asked:
                batch.symbolicate(rows, release)
            self.assertEqual(asked.call_count, 2)
            costs.append(calls_of(partial(batch.symbolicate, rows, release)))
        self.assertLess(costs[1], costs[0] + 100)

    def test_bad_positions(self) -> None:
        values = [*WRONG, None, float('nan'), float('inf'), -1, 0, 2**32 + 1, 10**30, 1.5, [1], {}, 'é', '１', True, 1, 1.0,
                  '1', '01', np.int8(1), pd.NA]
        good = [False] * (len(values) - 7) + [True] * 6 + [False]
        for lines, columns in (values, 1), (1, values):
            found = self.symbolicate(pd.Series(lines, dtype=object) if lines is values else 1,
                                     pd.Series(columns, dtype=object) if columns is values else 1, ['app.js'] * len(values))
            self.assertEqual((found.status == 'found').tolist(), good)
            self.assertEqual((found.status == 'bad position').tolist(), [not each for each in good])

    def test_types_of_columns(self) -> None:
        for kind in ('int8', 'uint16', 'int64', 'uint64', 'float32', 'float64', 'object', 'str', 'category', 'Int64', 'string',
                     'UInt32'):
            with self.subTest(kind):
                found = self.symbolicate(pd.Series([1, 1, 0]).astype(kind), pd.Series([6, 19, 1]).astype(kind),
                                         pd.Series(['app.js'] * 3).astype('category' if kind == 'category' else 'object'))
                self.assertEqual(found.name.tolist(), ['x', 'alert', None])
                self.assertEqual(found.status.tolist(), ['found', 'found', 'bad position'])

    def test_ends_of_the_range(self) -> None:
        self.put('range.js.map', regular('AAAO', rangeMappings='B'))
        found = self.symbolicate([2**32, 1, 2**32 + 1], [2**32, 2**32, 1], 'range.js')
        self.assertEqual(found.status.tolist(), ['found', 'found', 'bad position'])
        self.assertEqual(found.source_column.tolist()[:2], [8, 2**32])
        found = self.symbolicate([2**32 - 1, 2**32], [0, 0], 'range.js', zero_based=True)
        self.assertEqual(found.status.tolist(), ['found', 'bad position'])
        self.assertEqual(found.source_column[0], 7)

    def test_files_that_are_none(self) -> None:
        files = ['app.js', None, float('nan'), 3, ['app.js'], '', pd.NA, 'app.js']
        found = self.symbolicate(1, 6, pd.Series(files, dtype=object))
        self.assertEqual(found.status.tolist(), ['found', *['no map'] * 6, 'found'])

    def test_debug_ids(self) -> None:
        self.put_map('1.map', 'one.js', debugId=ID)
        ids = [ID, ID.upper(), None, 'x', '', 5, float('nan')]
        found = self.symbolicate(1, 1, 'app.js', debug_id=pd.Series(ids, dtype=object))
        self.assertEqual(found.source.tolist(), ['one.js'] * 2 + ['coolstuff.js'] * 5)
        found = self.symbolicate(1, 1, pd.Series([None] * 2, dtype=object), debug_id=[ID, None])
        self.assertEqual(found.status.tolist(), ['found', 'no map'])

    def test_scopes(self) -> None:
        self.put('main.jsbundle.map', HERMES)
        found = self.symbolicate(1, [1, 8, 6, 5], 'main.jsbundle')
        self.assertEqual(found.scope.tolist(), ['<global>', 'foo', 'foo', '<global>'])

    def test_tokens_at_one_position(self) -> None:
        """A position on both finds the first one, a position behind them the last one; each has its own function."""
        self.put('main.jsbundle.map', regular('AAAA,AACK', x_facebook_sources=[[{'names': ['<global>', 'foo'],
                                                                               'mappings': 'AAA,KCC'}]]))
        found = self.symbolicate(1, [1, 2, 1, 3], 'main.jsbundle')
        self.assertEqual(found.source_line.tolist(), [1, 2, 1, 2])
        self.assertEqual(found.scope.tolist(), ['<global>', 'foo', '<global>', 'foo'])

    def test_scopes_of_many_tokens(self) -> None:
        """Tokens of several blocks, some of them at one position: the scopes that the library finds one at a time."""
        drawn = random.Random(5)
        lines = [','.join(drawn.choices(['CACA', 'AACA', 'CAAA', 'C'], k=40)) for _ in range(20)]
        functions = {'names': ['<global>', 'odd', 'even'], 'mappings': ','.join(['AAA', *['ACG', 'ACG', 'AFG'] * 60])}
        self.put('many.jsbundle.map', regular(';'.join(lines), ['a.js'], x_facebook_sources=[[functions]]))
        positions = [(line, column) for line in range(20) for column in range(45)]
        found = self.symbolicate([line + 1 for line, _ in positions], [column + 1 for _, column in positions], 'many.jsbundle')
        are_found = found.status == 'found'
        with self.release().open('many.jsbundle') as map:
            self.assertGreater(len(map), 600)
            wanted = [map.scope_at(*position) for position, is_found in zip(positions, are_found) if is_found]
        self.assertEqual(found.scope[are_found].tolist(), wanted)
        self.assertEqual({*wanted}, {'<global>', 'odd', 'even'})

    def test_tokens_without_a_source_or_on_another_line(self) -> None:
        self.put('app.js.map', regular('AAAA,IAAI,E;;A', ['a.js']))
        found = self.symbolicate([1, 1, 1, 2, 3], [1, 5, 7, 1, 1])
        self.assertEqual(found.status.tolist(), ['found', 'found', 'no token', 'no token', 'no token'])

    def test_contexts(self) -> None:
        text = 'one\r\ntwo\rthree\n' + 'x' * 300 + '\n' + '\N{GRINNING FACE}' * 150
        self.put('app.js.map', regular('AAAA,CACA,CACA,CACA,CAAgJ,CACA,CACA', sourcesContent=[text]))
        found = self.symbolicate(1, [1, 2, 3, 4, 5, 6, 7])
        smile = '\N{GRINNING FACE}'
        # column 144 of the long line, whose units from 50 on are kept; column 144 is also one of the wide line
        self.assertEqual(found.context_line.tolist(), ['one', 'two', 'three', 'x' * 200, 'x' * 200, smile * 100, None])
        self.assertEqual(found.source_column.tolist(), [1, 1, 1, 1, 145, 145, 145])

    def test_lists_of_contents(self) -> None:
        """They may be shorter or longer than that of sources."""
        for contents, lines in [(['one'], ['one', None]), ([None, 'two', 'three'], [None, 'two']), ([], [None, None]),
                                (['', ''], ['', ''])]:
            self.put('app.js.map', regular('AAAA,CCAA', ['a.js', 'b.js'], sourcesContent=contents))
            found = self.symbolicate(1, [1, 2])
            self.assertEqual((found.source.tolist(), found.context_line.tolist()), (['a.js', 'b.js'], lines))

    def test_contents_of_too_many_lines(self) -> None:
        self.put('app.js.map', regular('AAAA,CACA', sourcesContent=['one\ntwo\nthree\nfour']))
        for most, lines in (3, ['one', 'two']), (2, [None, None]):
            with mock.patch('sourcemap._tables.opened.MOST_LINES', most):
                found = self.symbolicate(1, [1, 2])
            self.assertEqual((found.context_line.tolist(), found.status.tolist()), (lines, ['found'] * 2))

    def test_long_texts_are_cut(self) -> None:
        self.put('app.js.map', regular('AAAAA', ['s' * 5000], names=['n' * 5000]))
        found = self.symbolicate([1], [1])
        self.assertEqual((found.source[0], found.name[0]), ('s' * 4096, 'n' * 4096))

    def test_bad_maps(self) -> None:
        self.put('cut.js.map', README[:50])
        self.put('flat.js.map', index(section(0, 0, regular('AAAA')), {'offset': {'line': 1, 'column': 0}, 'url': 'x'}))
        hostile = {'version': 3, 'sourceRoot': 'r' * 128_000, 'sources': [''] * 10_600, 'names': [], 'mappings': 'AAAA'}
        self.put('hostile.js.map', regular(**{key: value for key, value in hostile.items() if key != 'version'}))
        found = self.symbolicate(1, 6, ['app.js', 'cut.js', 'flat.js', 'hostile.js', 'none.js', 'app.js'])
        self.assertEqual(found.status.tolist(), ['found', 'bad map', 'bad map', 'bad map', 'no map', 'found'])

    def test_empty_tables(self) -> None:
        found = self.symbolicate(pd.Series([], dtype='int64'), pd.Series([], dtype=object), pd.Series([], dtype=object))
        self.assertEqual((len(found), found.columns.tolist()), (0, ['file', 'line', 'column', *batch.COLUMNS]))

    def test_names_of_columns(self) -> None:
        release = self.release()
        for names, message in [(['file', 'line'], "no columns 'column'"), (['line', 'column'], "no columns 'file'"),
                               (['file', 'line', 'line', 'column'], "2 columns 'line'"),
                               (['file', 'line', 'column', 'status'], "a column 'status' already")]:
            with self.assertRaisesRegex(ValueError, message):
                batch.symbolicate(pd.DataFrame([[1] * len(names)], columns=names), release)

    def test_more_maps_than_are_kept_open(self) -> None:
        """Nor has the process more files open."""
        for number in range(60):
            self.put_map(f'{number}.js.map', f'{number}.ts')
        files = [f'{number % 60}.js' for number in range(130)]
        before = resource.getrlimit(resource.RLIMIT_NOFILE)
        self.addCleanup(resource.setrlimit, resource.RLIMIT_NOFILE, before)
        resource.setrlimit(resource.RLIMIT_NOFILE, (max(map(int, os.listdir('/proc/self/fd'))) + 20, before[1]))
        with mock.patch('sourcemap.release.MOST_MAPS', 9):
            found = self.symbolicate(1, 1, files)
        self.assertEqual(found.source.tolist(), [f'{number % 60}.ts' for number in range(130)])

    def test_more_lines_than_are_held(self) -> None:
        """Of 5,000 lines of 8 bytes each a fourth of these bytes is taken to be held."""
        for number in range(10):
            self.put_map(f'{number}.js.map', f'{number}.ts', sourcesContent=[f'line {number}.\n' * 5000])
        release = self.release()
        frames = pd.DataFrame({'file': [f'{number % 10}.js' for number in range(30)], 'line': 1, 'column': 1})
        with mock.patch('sourcemap.release.MOST_BYTES', 35_000):
            for _ in range(2):
                found = batch.symbolicate(frames, release)
                self.assertEqual(found.context_line.tolist(), [f'line {number % 10}.' for number in range(30)])
                compiled = [release.compiled(f'{number}.js', None) for number in range(10)]
                self.assertEqual(sum(isinstance(each, Compiled) and release.is_open(each) for each in compiled), 3)

    def test_maps_that_are_opened_again(self) -> None:
        """Those that are open are asked first. The file of another one is checked if it has changed."""
        for number in range(12):
            self.put_map(f'{number}.js.map', f'{number}.ts')
        frames = pd.DataFrame({'file': [f'{number}.js' for number in range(12)], 'line': 1, 'column': 1})
        release = self.release()
        opened = mock.Mock(side_effect=OpenedMap)
        whole: Dict[Path, bytes] = {}
        with mock.patch('sourcemap.release.MOST_MAPS', 9), mock.patch('sourcemap._tables.opened.OpenedMap', opened):
            for count, made_now in (12, 12), (15, 3), (18, 3):
                found = batch.symbolicate(frames, release)
                self.assertEqual(found.source.tolist(), [f'{number}.ts' for number in range(12)])
                cached = {path: path.read_bytes() for path in (self.top / 'cache').glob('*/*.compiled')}
                whole = whole or cached
                self.assertEqual((opened.call_count, len(cached)), (count, 12))
                self.assertEqual(sum(data == whole[path] for path, data in cached.items()), made_now)
                for path, data in whole.items():
                    path.unlink()
                    path.write_bytes(data[:-9] + bytes([data[-9] ^ 1]) + data[-8:])


class AsOneAtATime(Folder):
    def test_all_kinds_of_maps(self) -> None:
        """The rows of the table, and those of its parts in any order, are what `Map.lookup` says."""
        built = builds.write(self.root)
        rows = list(builds.rows(built, 20_000))
        reference = Reference(built)
        wanted = [[field or '' for field in reference.answer(row)] for row in rows]
        self.assertGreater(min(sum(row[6] == status for row in wanted) for status in ('found', 'no token', 'bad position')), 100)
        frames = pd.DataFrame(rows, columns=['file', 'debug_id', 'line', 'column'])
        release = self.release()
        whole = batch.symbolicate(frames, release)
        self.assertEqual(whole[list(batch.COLUMNS)].astype(object).fillna('').astype(str).values.tolist(), wanted)
        parts = [batch.symbolicate(frames[first:first + 999], release) for first in range(0, len(frames), 999)]
        pd.testing.assert_frame_equal(pd.concat(parts[::-1]).sort_index(), whole)

    def test_in_dask(self) -> None:
        try:
            from dask.dataframe import from_pandas
        except ImportError:
            self.skipTest('dask is not installed')
        built = builds.write(self.root)
        frames = pd.DataFrame(builds.rows(built, 3000), columns=['file', 'debug_id', 'line', 'column'])
        release = self.release()
        for zero_based, schedulers in (False, ('synchronous', 'threads', 'processes')), (True, ('threads',)):
            lazy = sourcemap.dask.symbolicate(from_pandas(frames, npartitions=5), release, zero_based=zero_based)
            expected = batch.symbolicate(frames, release, zero_based=zero_based)
            self.assertEqual(lazy.dtypes.to_dict(), expected.dtypes.to_dict())
            for part in lazy.to_delayed():
                pd.testing.assert_frame_equal(part.compute(scheduler='synchronous')[:0], lazy._meta)
            for scheduler in schedulers:
                pd.testing.assert_frame_equal(lazy.compute(scheduler=scheduler), expected)


class Page(Tables):
    """The examples of BATCH.md."""

    def test_examples(self) -> None:
        page = (FOLDER / 'BATCH.md').read_text('utf-8')
        self.put('static/app.js', '//# sourceMappingURL=../app.js.map')
        frames = pd.DataFrame({'file': ['static/app.js'] * 2000 + ['none.js'] * 500, 'line': 1, 'column': 1})
        frames.to_csv(self.top / 'frames.csv', index=False)
        self.addCleanup(os.chdir, os.getcwd())
        os.chdir(self.top)
        self.assertEqual(doctest.DocTestRunner().run(doctest.DocTestParser().get_doctest(page, {}, 'BATCH.md', None, 0)), (0, 3))
        code, printed = re.findall(r'```python\n(.*?)```\n\nprints `(.*?)`', page, flags=re.DOTALL)[0]
        run = subprocess.run([sys.executable, '-c', code], env={**ENVIRONMENT, 'PYTHONPATH': str(FOLDER)},
                             capture_output=True, text=True)
        self.assertEqual((run.stdout, run.stderr), (f'{printed}\n', ''))


class Needed(unittest.TestCase):
    """Packages that are not there."""

    def run_without(self, missing: str, code: str) -> str:
        block = f'import sys; sys.modules[{missing!r}] = None; import sourcemap; '
        return subprocess.run([sys.executable, '-c', block + code], cwd=FOLDER, env=ENVIRONMENT, text=True,
                              stderr=subprocess.PIPE).stderr

    def test_named(self) -> None:
        for missing, code in [('pandas', 'sourcemap.batch.symbolicate(None, None)'),
                              ('numpy', 'sourcemap.batch.symbolicate(None, None)'),
                              ('dask', 'sourcemap.dask.symbolicate(None, None)')]:
            error = self.run_without(missing, code)
            self.assertRegex(error, f'ImportError: {missing} is needed and cannot be imported .*Debian has it as python3-{missing}')

    def test_imports_are_lazy(self) -> None:
        code = 'sys.exit([name for name in ("numpy", "pandas", "dask", "distributed", "tqdm") if name in sys.modules])'
        self.assertEqual(self.run_without('nothing', code).strip(), '[]')

    def test_program(self) -> None:
        block = 'import sys; sys.modules["pandas"] = None; from sourcemap.__main__ import main; sys.exit(main(sys.argv[1:]))'
        run = subprocess.run([sys.executable, '-c', block, 'batch', 'a.csv', '--release', '.'], cwd=FOLDER, env=ENVIRONMENT,
                             capture_output=True, text=True)
        self.assertEqual((run.returncode, run.stdout), (1, ''))
        self.assertIn('sourcemap: pandas is needed', run.stderr)


if __name__ == '__main__':
    unittest.main()
