"""`python -m sourcemap batch`: tables in files, with processes that die, disks that fill, and maps that are broken."""

from __future__ import annotations

import contextlib
import csv
import errno
import glob
import gzip
import io
import json
import logging
import os
import pty
import random
import re
import resource
import select
import signal
import subprocess
import sys
import time
import unittest
from importlib.util import find_spec
from pathlib import Path
from typing import Any, Callable, Dict, Iterator, List, Literal, Optional, Sequence, Set, Tuple
from unittest import mock

try:
    import pandas  # noqa: F401
except ImportError:
    raise unittest.SkipTest('pandas and numpy are not installed') from None

from sourcemap import batch, dask
from sourcemap.__main__ import main
from sourcemap._tables import csv_rows, pieces
from sourcemap._tables.pieces import Table

from . import builds
from .builds import Reference, Row
from .maps import README, regular
from .test_program import ENVIRONMENT, FOLDER
from .test_release import Folder

HEAD = ['file', 'debug_id', 'line', 'column']
COUNTS = re.compile(r'(\d+) rows: (\d+) found, (\d+) no map, (\d+) no token, (\d+) bad position, (\d+) bad map; '
                    r'\d+ frames a second')
# runs the program as if some packages were not installed
WITHOUT = ('import sys; sys.modules.update(dict.fromkeys({})); from sourcemap.__main__ import main; '
           'sys.exit(main(sys.argv[1:]))')
# how many seconds a step of a program may take, at most
PATIENCE = 240
needs_distributed = unittest.skipUnless(find_spec('distributed'), 'distributed is not installed')


def csv_of(rows: Sequence[Sequence[Optional[str]]], quoting: Literal[0, 1] = csv.QUOTE_MINIMAL) -> bytes:
    text = io.StringIO()
    csv.writer(text, lineterminator='\n', quoting=quoting).writerows(rows)
    return text.getvalue().encode()


def answered(rows: Sequence[Row], answers: Sequence[Sequence[Optional[str]]]) -> bytes:
    """The table with the answers. All lines of sources are in quotes."""
    text = io.StringIO()
    writer = csv.writer(text, lineterminator='\n')
    writer.writerow([*HEAD, *batch.COLUMNS])
    for row, (*answer, context, status) in zip(rows, answers):
        writer.writerow([*row, *answer])
        text.seek(text.tell() - 1)
        in_quotes = '' if context is None else '"' + context.replace('"', '""') + '"'
        text.write(f',{in_quotes},{status}\n')
    return text.getvalue().encode()


class Jobs(Folder):
    """A table, a release, and the program."""

    def words(self, frames: Path, *more: object) -> List[str]:
        return [sys.executable, '-m', 'sourcemap', 'batch', str(frames), '--release', str(self.root), '--cache',
                str(self.top / 'cache'), *map(str, more)]

    def run_job(self, frames: Path, *more: object, **keys: Any) -> 'subprocess.CompletedProcess[str]':
        """Runs the program."""
        return subprocess.run(self.words(frames, *more), cwd=FOLDER, env=ENVIRONMENT, capture_output=True, text=True, **keys)

    def run_here(self, frames: Path, *more: object) -> 'subprocess.CompletedProcess[str]':
        """Runs it in this process, which has imported pandas before. It may print no table."""
        words = self.words(frames, '--workers', 1, *more)
        with contextlib.redirect_stderr(io.StringIO()) as errors:
            return subprocess.CompletedProcess(words, main(words[3:]), '', errors.getvalue())

    def output_of(self, frames: Path, *more: object, out: str = 'out.csv') -> bytes:
        """What the program writes, in this process if nothing says who works."""
        path = self.top / out
        run = (self.run_job if {'--workers', '--dask'} & {*more} else self.run_here)(frames, '-o', path, *more)
        self.assertEqual((run.returncode, run.stdout), (0, ''), run.stderr)
        self.assertIsNotNone(COUNTS.fullmatch(run.stderr.splitlines()[-1]), run.stderr)
        self.assertEqual(self.leftovers(), [])
        return path.read_bytes()

    def leftovers(self) -> List[str]:
        return glob.glob(str(self.top / '.batch.*'))

    def table(self, name: str, rows: Sequence[Sequence[str]]) -> Path:
        return builds.put(self.top, name, csv_of(rows))


class SameAnswers(Jobs):
    def build(self, count: int) -> Tuple[List[Row], List[List[Optional[str]]]]:
        built = builds.write(self.root)
        rows = list(builds.rows(built, count))
        reference = Reference(built)
        answers = [reference.answer(row) for row in rows]
        self.assertEqual({row[0] for row, answer in zip(rows, answers) if answer[6] == 'found'}, {each.file for each in built})
        return rows, answers

    @needs_distributed
    def test_200_000_frames_in_five_ways(self) -> None:
        """One at a time by `Map.lookup`; by one worker; by four; by a Dask cluster with four workers at an address, as a
        table in a file and as one of Dask."""
        from dask.dataframe import from_pandas
        from distributed import Client, LocalCluster

        rows, answers = self.build(200_000)
        wanted = answered(rows, answers)
        frames = self.table('frames.csv', [HEAD, *rows])
        self.assertEqual(self.output_of(frames, '--workers', 1), wanted)
        self.assertEqual(self.output_of(frames, '--partition', 300_001), wanted)
        self.assertEqual(self.output_of(frames, '--workers', 4, '--partition', 500_000), wanted)
        with mock.patch.dict(os.environ, ENVIRONMENT), LocalCluster(
                n_workers=4, threads_per_worker=1, processes=True, dashboard_address=None,
                local_directory=str(self.top)) as cluster:
            self.assertEqual(self.output_of(frames, '--dask', cluster.scheduler_address, '--partition', 500_000), wanted)
            table = from_pandas(pandas.DataFrame(rows, columns=HEAD), npartitions=8)
            with Client(cluster, set_as_default=False) as client:
                found = client.compute(dask.symbolicate(table, self.release())).result(timeout=PATIENCE)
        texts = found[list(batch.COLUMNS)].astype(object).fillna('').astype(str).values.tolist()
        self.assertTrue(texts == [[field or '' for field in answer] for answer in answers])

    def test_formats(self) -> None:
        rows, answers = self.build(3000)
        frames = self.table('frames.csv', [HEAD, *rows])
        wanted = answered(rows, answers)
        zipped = builds.put(self.top, 'frames.csv.gz', gzip.compress(frames.read_bytes()))
        self.assertEqual(self.output_of(zipped, '--partition', 20_000), wanted)
        first = self.output_of(frames, '--partition', 20_000, out='out.csv.gz')
        self.assertEqual(gzip.decompress(first), wanted)
        self.assertEqual(self.output_of(zipped, '--partition', 20_000, out='out.csv.gz'), first)
        printed = subprocess.run(self.words(frames, '--workers', 1), cwd=FOLDER, env=ENVIRONMENT, capture_output=True)
        self.assertEqual(printed.stdout, wanted)
        # a file that can only be appended to
        path = builds.put(self.top, 'all.csv', b'old\n')
        with open(path, 'ab') as file:
            subprocess.run(self.words(frames, '--partition', 20_000, '--workers', 1), cwd=FOLDER, env=ENVIRONMENT,
                           stdout=file, stderr=subprocess.DEVNULL, check=True)
        self.assertEqual(path.read_bytes(), b'old\n' + wanted)
        with mock.patch('os.sendfile', side_effect=OSError(errno.ENOTSOCK, 'as other systems say')) as sent:
            self.assertEqual(self.output_of(frames, '--partition', 20_000), wanted)
            self.assertGreater(sent.call_count, 3)

    def test_json_lines(self) -> None:
        rows, answers = self.build(3000)
        records = [{'more': [number, {'x': None}], **dict(zip(HEAD, row))} for number, row in enumerate(rows)]
        for record in records[::2]:
            for name in 'line', 'column':
                if str(record[name]).isdigit():
                    record[name] = int(str(record[name]))
        text = '\n'.join(map(json.dumps, records)) + '\n \n'
        types: Dict[str, Callable[[str], object]] = {'source_line': int, 'source_column': int}
        wanted = [{**record, **{name: None if text is None else types.get(name, str)(text)
                                for name, text in zip(batch.COLUMNS, answer)}} for record, answer in zip(records, answers)]
        for name, data in ('f.jsonl', text.encode()), ('f.ndjson.gz', gzip.compress(text.encode())):
            frames = builds.put(self.top, name, data)
            found = self.output_of(frames, '--partition', 10_000, out='out.jsonl')
            self.assertEqual([json.loads(line) for line in found.splitlines()], wanted)
            self.assertEqual(gzip.decompress(self.output_of(frames, out='out.ndjson.gz')), found)

    def test_rows_of_json_stay_as_they_are(self) -> None:
        """The answers come after their own keys."""
        self.put('app.js.map', README)
        bad = ('"source":null,"source_line":null,"source_column":null,"name":null,"scope":null,"context_line":null,'
               '"status":"bad position"}')
        good = ('"source":"coolstuff.js","source_line":1,"source_column":5,"name":"x","scope":null,"context_line":null,'
                '"status":"found"}')
        rows = [('{ }', '{' + bad),
                ('{"file":"app.js","line":1,"column":6}', '{"file":"app.js","line":1,"column":6,' + good),
                ('{"line":1, "column":6.0, "file":"\\u0061pp.js", "x":1e400, "x":0.10 }',
                 '{"line":1, "column":6.0, "file":"\\u0061pp.js", "x":1e400, "x":0.10,' + good),
                ('{"file":["app.js"],"line":[1],"column":[6]}', '{"file":["app.js"],"line":[1],"column":[6],' + bad),
                ('{"x":"\N{SNOWMAN}","file":"app.js","line":"1","column":"6"}',
                 '{"x":"\N{SNOWMAN}","file":"app.js","line":"1","column":"6",' + good)]
        text = '\ufeff' + '\r\n'.join(f' {row}' for row, _ in rows)
        found = self.output_of(builds.put(self.top, 'f.jsonl', text.encode()), out='out.jsonl')
        self.assertEqual(found.decode().split('\n'), [*(wanted for _, wanted in rows), ''])

    def test_zero_based(self) -> None:
        self.put('app.js.map', README)
        frames = self.table('f.csv', [['line', 'file', 'column'], ['0', 'app.js', '5'], ['-0', 'app.js', '18'],
                                      ['-1', 'app.js', '0']])
        self.assertEqual(self.output_of(frames, '--zero-based').decode().splitlines()[1:],
                         ['0,app.js,5,coolstuff.js,0,4,x,,,found', '0,app.js,18,coolstuff.js,2,2,alert,,,found',
                          '-1,app.js,0,,,,,,,bad position'])


class Texts(Jobs):
    """Which rows a CSV file has, and what is kept of them."""

    def setUp(self) -> None:
        super().setUp()
        self.put('app.js.map', README)

    def symbolicated(self, text: str, *more: object) -> List[List[str]]:
        frames = builds.put(self.top, 'f.csv', text.encode('utf-8', 'surrogateescape'))
        found = self.output_of(frames, *more).decode('utf-8', 'surrogateescape')
        return list(csv.reader(io.StringIO(found, newline='')))

    def test_rows_of_bad_positions_wherever_the_file_is_cut(self) -> None:
        rows = [['id', 'file', 'line', 'column', 'note']]
        drawn = random.Random(3)
        notes = ['', 'plain', 'a,b', 'two\nlines', '"', '""', ',"', '",\n"', 'x"y', '\r\n', ' ', '\N{SNOWMAN}', "'", 'NA', 'null', '1e5']
        for number in range(300):
            position = ['1', '6']
            if drawn.random() < 0.4:
                position[drawn.randrange(2)] = drawn.choice(builds.WRONG)
            rows.append([str(number), 'app.js', *position, drawn.choice(notes)])
        text = csv_of(rows).decode()
        wanted = [[*rows[0], *batch.COLUMNS]]
        for row in rows[1:]:
            good = row[2:4] == ['1', '6']
            wanted.append(row + (['coolstuff.js', '1', '5', 'x', '', '', 'found'] if good else [''] * 6 + ['bad position']))
        for size in 1, 7, 64, 1000, 4001, 8_000_000:
            self.assertEqual(self.symbolicated(text, '--partition', size), wanted, size)
        self.assertEqual(self.symbolicated(text[:-1]), wanted)
        # fields that have newlines keep them; those that end rows may be pairs
        self.assertEqual(self.symbolicated(csv_of(rows[:1]).decode().replace('\n', '\r\n') + text[text.index('\n') + 1:],
                                           '--partition', 100), wanted)

    def test_stray_quotes(self) -> None:
        """A quote within a field that does not begin with one is a letter, as pandas has it."""
        text = 'file,line,column,x\napp.js,1,6,5" disk\napp.js,1,6,"a"b\napp.js,1"2",6,"q\n"\napp.js,1,6,z\n'
        for size in 1, 20, 10_000:
            found = self.symbolicated(text, '--partition', size)
            self.assertEqual([(row[3], row[-1]) for row in found[1:]],
                             [('5" disk', 'found'), ('ab', 'found'), ('q\n', 'bad position'), ('z', 'found')])

    def test_numbers(self) -> None:
        """They are written alike whether all rows of a piece have numbers or not."""
        rows = ['1', '007', '+6', ' 6', '6 ', '-0', '-7', '4294967296', '4294967297', '9223372036854775807', '9223372036854775808']
        plain = ['1', '7', '6', '6', '6', '0', '-7', '4294967296', '4294967297', '9223372036854775807', '9223372036854775808']
        for more in [], ['x']:
            for size in 1, 10_000:
                found = self.symbolicated('file,line,column\n' + ''.join(f'app.js,1,{row}\n' for row in rows + more),
                                          '--partition', size)
                self.assertEqual([row[2] for row in found[1:]], plain + more)
                self.assertEqual([row[-1] for row in found[1:]],
                                 ['found'] * 5 + ['bad position'] * 2 + ['found'] + ['bad position'] * (3 + len(more)))

    def test_other_columns(self) -> None:
        text = '\ufefffile,"a ""b"",c",line,column,x,x\napp.js,,1,6,NaN,\udcff\n\n   \napp.js,"",1,19,\N{SNOWMAN},1\n'
        self.assertEqual(self.symbolicated(text), [
            ['file', 'a "b",c', 'line', 'column', 'x', 'x', *batch.COLUMNS],
            ['app.js', '', '1', '6', 'NaN', '\udcff', 'coolstuff.js', '1', '5', 'x', '', '', 'found'],
            ['app.js', '', '1', '19', '\N{SNOWMAN}', '1', 'coolstuff.js', '3', '3', 'alert', '', '', 'found']])

    def test_no_rows(self) -> None:
        for text in 'file,line,column', 'file,line,column\n', 'file,line,column\n\n\n':
            self.assertEqual(self.symbolicated(text), [['file', 'line', 'column', *batch.COLUMNS]])

    def test_short_rows(self) -> None:
        found = self.symbolicated('file,line,column\napp.js\napp.js,1\napp.js,1,6\n')
        self.assertEqual([row[-1] for row in found[1:]], ['bad position'] * 2 + ['found'])


def last_row_end(text: bytes) -> int:
    """Goes from letter to letter: a quote opens a quoted field where a field begins; in it, two stand for one."""
    end, at, begins, is_quoted = 0, 0, True, False
    while at < len(text):
        letter = text[at:at + 1]
        if is_quoted:
            if letter == b'"' and text[at + 1:at + 2] == b'"':
                at += 1
            elif letter == b'"':
                is_quoted = False
            begins = False
        elif letter == b'"' and begins:
            is_quoted = True
        else:
            begins = letter in (b',', b'\n', b'\r')
            end = at + 1 if letter == b'\n' else end
        at += 1
    return end


class Fields(unittest.TestCase):
    def test_many_at_once(self) -> None:
        """As each text by itself, whichever of them need quotes or have zero bytes."""
        drawn = random.Random(13)
        for letters in [b'abc', b'ab",\r\n', b'a",\0'] * 1000:
            texts = [bytes(drawn.choices(letters, k=drawn.randrange(4))) for _ in range(drawn.randrange(6))]
            for in_quotes in False, True:
                self.assertEqual(csv_rows._fields(texts, b',', in_quotes),
                                 [pieces.quoted(text, in_quotes) + b',' for text in texts])


class Pieces(Folder):
    def cut(self, text: str, size: int, name: str = 'f.csv') -> List[bytes]:
        with Table(self.put(name, text), size, self.top) as table:
            return [piece.read() for piece in table.pieces()]

    def test_random_rows(self) -> None:
        """Each piece has whole rows: read by itself, it gives those of the whole."""
        drawn = random.Random(7)
        for _ in range(300):
            letters, quoting = drawn.choice([('a",\n', csv.QUOTE_MINIMAL), ('a",\n\r', csv.QUOTE_ALL)])
            rows = [[''.join(drawn.choices(letters, k=drawn.randrange(5))) for _ in range(3)] for _ in range(12)]
            text = csv_of([['x', 'y', 'z'], *rows], quoting).decode()
            found = self.cut(text, drawn.randrange(1, 60))
            self.assertEqual(b''.join(found).decode(), text.partition('\n')[2])
            self.assertEqual([row for piece in found for row in csv.reader(io.StringIO(piece.decode(), newline=''))], rows)

    def test_ends_of_rows(self) -> None:
        """Where the last row ends, letter by letter."""
        drawn = random.Random(11)
        for _ in range(5000):
            text = ''.join(drawn.choices(drawn.choice(['a",\n', '"",,\n', '""\n\r,a']), k=drawn.randrange(25))).encode()
            self.assertEqual(pieces._last_row_end(text), last_row_end(text), text)

    def test_names(self) -> None:
        for text, names in [('a,b\n', ('a', 'b')), ('\ufeff"a\n""b""",c', ('a\n"b"', 'c')), ('a\r\n1\r\n', ('a',))]:
            with Table(self.put('f.csv', text), 3, self.top) as table:
                self.assertEqual(table.names, names)
        for text in '', '\n', '\ufeff\n1,2\n':
            with self.assertRaisesRegex(ValueError, 'has no row with the names of columns'):
                Table(self.put('f.csv', text), 3, self.top)

    def test_pieces_have_some_rows(self) -> None:
        with mock.patch.object(pieces, 'MOST_ROWS', 100), mock.patch.object(pieces, 'FIRST', 50):
            for text, name in ('x\n' + 'abc\n' * 1000, 'f.csv'), ('{}\n' * 1000, 'f.jsonl'):
                found = [piece.count(b'\n') for piece in self.cut(text, 10_000, name)]
                self.assertEqual(sum(found), 1000)
                self.assertTrue(all(90 < rows < 110 for rows in found), found)
                self.assertEqual(len(self.cut(text[:text.index('\n', 90) + 1], 10_000, name)), 1)

    def test_rows_that_are_too_long(self) -> None:
        with mock.patch.object(pieces, 'LONGEST_ROW', 100):
            with self.assertRaisesRegex(ValueError, 'has a row of more than 100 bytes after byte 2'):
                self.cut('a\n' + 'x' * 200, 10)
            with self.assertRaisesRegex(ValueError, 'row of more than 100 bytes'):
                self.cut('{}\n' + 'x' * 200, 10, 'f.jsonl')


class Errors(Jobs):
    """An error, and no table. The one that was there stays."""

    def check(self, frames: Path, message: str, *more: object, out: str = 'out.csv', **keys: Any) -> None:
        old = builds.put(self.top, out, b'old')
        run = self.run_job(frames, '-o', old, *more, **keys) if '--workers' in more else self.run_here(frames, '-o', old, *more)
        self.assertEqual((run.returncode, run.stdout), (1, ''), run.stderr)
        self.assertRegex(run.stderr.splitlines()[-1], f'sourcemap: .*{message}')
        self.assertEqual((old.read_bytes(), self.leftovers()), (b'old', []))

    def test_files(self) -> None:
        frames = self.table('f.csv', [['file', 'line', 'column'], ['app.js', '1', '6']])
        self.check(self.top / 'none.csv', 'none.csv: No such file or directory')
        self.check(builds.put(self.top, 'f.txt', b''), 'a table ends in .csv, .jsonl, .ndjson, or')
        self.check(frames, 'is to have the format of', out='out.jsonl')
        self.check(frames, 'out.txt: a table ends in', out='out.txt')
        self.check(frames, 'none: Not a directory', '--release', self.top / 'none')
        run = self.run_here(frames, '-o', self.top)
        self.assertEqual((run.returncode, run.stderr), (1, f'sourcemap: {self.top}: Is a directory\n'))
        run = self.run_here(frames, '-o', self.top / 'none' / 'out.csv')
        self.assertEqual((run.returncode, run.stdout), (1, ''))

    def test_texts(self) -> None:
        for text, message in [
                ('', 'no row with the names'), ('file,line\n', "no columns 'column'"), ('file,line,column,name\n', "'name' already"),
                ('file,line,column\na,1,2\na,1,2,3,4\n', 'in the rows after byte 17: .*Expected 3 fields in line 2, saw 5'),
                ('file,line,column\na,1,2,3,4\na,1,2\n', 'in the rows after byte 17: the first of them has more than 3 fields'),
                ('file,line,column\na,1,"2\n', 'in the rows after byte 17: .*EOF inside string')]:
            self.check(builds.put(self.top, 'f.csv', text.encode()), message)
        for text, message in [('{}\n{"a":\n', r'in the rows after byte 0: a line is no JSON: b\'{"a":\''),
                              ('{"file":"a"} {}\n', 'a line is no JSON'), ('[1]\n', r"a line is no JSON object: b'\[1\]'"),
                              ('{"status":1}', "a line has 'status' already"), ('{"a":"\udcff"}', 'a line is no JSON')]:
            self.check(builds.put(self.top, 'f.jsonl', text.encode('utf-8', 'surrogateescape')), message, out='out.jsonl')
        zipped = gzip.compress(b'file,line,column\n' * 1000)
        self.check(builds.put(self.top, 'f.csv.gz', zipped[:-9]), '')
        self.check(builds.put(self.top, 'f.csv.gz', b'file,line,column\n'), 'Not a gzipped file')

    def test_arguments(self) -> None:
        for more in ['--workers', 0], ['--workers', 1, '--dask', 'tcp://127.0.0.1:1'], ['--partition', 'x']:
            run = self.run_job(self.top / 'f.csv', *more)
            self.assertEqual((run.returncode, run.stdout), (2, ''))

    @needs_distributed
    def test_full_disk(self) -> None:
        """No file may have more than 100 kB: the pieces of the table, in each worker, or the table."""
        built = builds.write(self.root)
        frames = self.table('f.csv', [HEAD, *builds.rows(built, 20_000)])
        self.output_of(frames)

        def limit() -> None:
            resource.setrlimit(resource.RLIMIT_FSIZE, (100_000, 100_000))

        self.check(frames, 'File too large', '--workers', 1, preexec_fn=limit)
        self.check(frames, 'File too large', '--workers', 1, '--partition', 10_000, preexec_fn=limit)
        self.check(frames, 'File too large', '--workers', 2, '--partition', 200_000, preexec_fn=limit)
        run = self.run_job(frames, '-o', self.top / 'new.csv', '--workers', 2, '--partition', 200_000, preexec_fn=limit)
        self.assertEqual((run.returncode, (self.top / 'new.csv').exists(), self.leftovers()), (1, False, []))

    @needs_distributed
    def test_workers_that_do_not_start(self) -> None:
        """The program may open 40 files."""
        frames = self.table('f.csv', [['file', 'line', 'column'], *[['app.js', '1', '6']] * 100])
        run = self.run_job(frames, '-o', self.top / 'out.csv', '--workers', 4, '--partition', 300,
                           preexec_fn=lambda: resource.setrlimit(resource.RLIMIT_NOFILE, (40, 40)))
        self.assertEqual((run.returncode, run.stdout, (self.top / 'out.csv').exists(), self.leftovers()), (1, '', False, []))
        self.assertRegex(run.stderr, r'\Asourcemap: workers do not start: .*Too many open files\n\Z')

    def test_full_device(self) -> None:
        self.put('app.js.map', README)
        frames = self.table('f.csv', [['file', 'line', 'column'], *[['app.js', '1', '6']] * 1000])
        run = self.run_job(frames, '-o', '/dev/full', '--workers', 1)
        self.assertEqual((run.returncode, run.stderr), (1, 'sourcemap: [Errno 28] No space left on device\n'))

    @needs_distributed
    @unittest.skipUnless(os.geteuid() == 0, 'only root mounts a small disk')
    def test_small_disk(self) -> None:
        built = builds.write(self.root)
        disk = self.top / 'disk'
        disk.mkdir()
        mounted = subprocess.run(['mount', '-t', 'tmpfs', '-o', 'size=400k', 'none', disk], capture_output=True)
        if mounted.returncode:
            self.skipTest('nothing can be mounted here')
        self.addCleanup(subprocess.run, ['umount', disk], check=True)
        frames = self.table('f.csv', [HEAD, *builds.rows(built, 20_000)])
        self.check(frames, 'No space left on device', '--partition', 50_000, out='disk/out.csv')
        self.assertEqual(os.listdir(disk), ['out.csv'])
        self.check(frames, 'No space left on device', '--workers', 2, '--partition', 50_000, out='disk/out.csv')
        self.assertEqual(os.listdir(disk), ['out.csv'])
        # the cache: nothing is left that another run would find
        small = self.top / 'small'
        small.mkdir()
        subprocess.run(['mount', '-t', 'tmpfs', '-o', 'size=8k', 'none', small], check=True)
        self.addCleanup(subprocess.run, ['umount', small], check=True)
        self.check(frames, 'No space left on device', '--cache', small / 'cache')
        self.assertEqual([path for path in small.glob('cache/*/.*')], [])

    @needs_distributed
    def test_no_cluster(self) -> None:
        """At this address nobody listens."""
        frames = self.table('f.csv', [['file', 'line', 'column'], ['app.js', '1', '6']])
        with mock.patch.dict(ENVIRONMENT, DASK_DISTRIBUTED__COMM__TIMEOUTS__CONNECT='1s'):
            run = self.run_job(frames, '-o', self.top / 'out.csv', '--dask', 'tcp://127.0.0.1:1')
        self.assertEqual((run.returncode, run.stdout, (self.top / 'out.csv').exists(), self.leftovers()), (1, '', False, []))
        self.assertRegex(run.stderr.splitlines()[-1], 'sourcemap: .*tcp://127.0.0.1:1')

    def test_nobody_reads(self) -> None:
        built = builds.write(self.root)
        frames = self.table('f.csv', [HEAD, *builds.rows(built, 20_000)])
        program = subprocess.Popen(self.words(frames, '--workers', 1), stdout=subprocess.PIPE, stderr=subprocess.PIPE,
                                   cwd=FOLDER, env=ENVIRONMENT)
        assert program.stdout is not None and program.stderr is not None
        program.stdout.readline()
        program.stdout.close()
        self.assertEqual((program.stderr.read(), program.wait()), (b'', 1))
        program.stderr.close()


class BadMaps(Jobs):
    def put_bad_maps(self) -> Dict[str, str]:
        """Writes them, and returns the statuses of frames in their files."""
        hostile = {'version': 3, 'sourceRoot': 'r' * 128_000, 'sources': [''] * 10_600, 'names': [], 'mappings': 'AAAA'}
        self.put('static/cut.js.map', README[:50])
        self.put('static/hostile.js.map', json.dumps(hostile, separators=(',', ':')))
        self.put('static/deep.js.map', '{"version":3,"sections":' * 50 + '[' * 100_000)
        self.put('static/past.js.map', regular('A' + 'g' * 13 + 'A'))
        self.put('static/nothing.js.map', '')
        self.put('static/gone.js', '//# sourceMappingURL=gone.map')
        self.put('client/both.js.map', regular('AAAA'))
        self.put('server/both.js.map', regular('AAAC'))
        names = ('cut', 'hostile', 'deep', 'past', 'nothing')
        return {**{f'/static/{name}.js': 'bad map' for name in names}, '/both.js': 'no map', '/static/none.js': 'no map',
                '/static/gone.js': 'no map', '../../../etc/passwd': 'no map', '/etc/passwd': 'no map'}

    @needs_distributed
    def test_their_rows_say_so(self) -> None:
        built = builds.write(self.root)
        bad = self.put_bad_maps()
        reference = Reference(built)
        rows = list(builds.rows(built, 500))
        answers = [reference.answer(row) for row in rows]
        for place, (file, status) in enumerate(list(bad.items()) * 3):
            rows.insert(place * 9, (file, '', '1', '1'))
            answers.insert(place * 9, [*builds.MISSING, status])
        frames = self.table('f.csv', [HEAD, *rows])
        run = self.run_job(frames, '--workers', 1)
        self.assertEqual(run.stdout.encode(), answered(rows, answers))
        lines = run.stderr.splitlines()
        self.assertIn(f'sourcemap: /static/cut.js: {self.root}/static/cut.js.map: bad json: the text is not JSON', lines)
        self.assertIn(f'sourcemap: /static/hostile.js: {self.root}/static/hostile.js.map takes more memory than a map of its '
                      'size may take', lines)
        self.assertIn('sourcemap: /both.js: it is ambiguous, since these fit equally well: client/both.js.map, '
                      'server/both.js.map', lines)
        self.check_counts(lines[-1], answers)
        self.assertEqual(self.output_of(frames, '--workers', 3, '--partition', 4000), answered(rows, answers))

    def check_counts(self, line: str, answers: Sequence[Sequence[Optional[str]]]) -> None:
        found = COUNTS.fullmatch(line)
        assert found is not None
        names = ('found', 'no map', 'no token', 'bad position', 'bad map')
        self.assertEqual([int(each) for each in found.groups()],
                         [len(answers), *(sum(answer[6] == name for answer in answers) for name in names)])


class DamagedCache(Jobs):
    @needs_distributed
    def test_made_again(self) -> None:
        """Files of the cache that are truncated, turned or gone, which several workers meet at once."""
        frames = self.table('f.csv', [HEAD, *builds.rows(builds.write(self.root), 5000)])
        wanted = self.output_of(frames)
        made = {path: path.read_bytes() for path in sorted((self.top / 'cache').glob('*/*.compiled'))}
        self.assertEqual(len(made), 7)
        damages: List[Callable[[bytes], bytes]] = [
            lambda data: data[:-1], lambda data: data[:len(data) // 2], lambda data: b'', lambda data: data[::-1],
            lambda data: data[:len(data) // 2] + data[len(data) // 2 + 1:] + b'\0',
            lambda data: data[:-9] + bytes([data[-9] ^ 1]) + data[-8:]]
        for workers in 1, 3:
            for path, damage in zip(made, damages):
                path.write_bytes(damage(made[path]))
            list(made)[-1].unlink()
            self.assertEqual(self.output_of(frames, '--workers', workers, '--partition', 20_000), wanted)
            found = {path: path.read_bytes() for path in sorted((self.top / 'cache').glob('*/*.compiled'))}
            self.assertEqual(found, made)


class WithoutDask(Jobs):
    def test_one_worker_does_without(self) -> None:
        code = WITHOUT.format(['dask', 'distributed'])
        self.put('app.js.map', README)
        frames = self.table('f.csv', [['file', 'line', 'column'], *[['app.js', '1', '6']] * 100])
        wanted = self.output_of(frames)
        out = builds.put(self.top, 'out.csv', b'old')
        for more, status in [('--workers', '1'), 0], [('--workers', '2'), 1], [('--dask', 'tcp://127.0.0.1:1'), 1]:
            words = [sys.executable, '-c', code, *self.words(frames, '-o', out, '--partition', 300, *more)[3:]]
            run = subprocess.run(words, cwd=FOLDER, env=ENVIRONMENT, capture_output=True, text=True)
            self.assertEqual((run.returncode, out.read_bytes()), (status, wanted), run.stderr)
            self.assertEqual(self.leftovers(), [])
            if status:
                self.assertRegex(run.stderr, 'sourcemap: distributed is needed and cannot be imported .*python3-distributed')


class Bar(Jobs):
    def setUp(self) -> None:
        super().setUp()
        self.put('app.js.map', README)
        self.frames = self.table('f.csv', [['file', 'line', 'column'], ['app.js', '1', '6']])

    def on_a_terminal(self, words: Sequence[str]) -> Tuple[int, str]:
        """The status of a program, and what it shows."""
        main, terminal = pty.openpty()
        program = subprocess.Popen(words, stderr=terminal, cwd=FOLDER, env=ENVIRONMENT)
        os.close(terminal)
        shown = b''
        with contextlib.suppress(OSError):  # the end of a terminal that nobody has open any more
            while select.select([main], [], [], 600)[0]:
                shown += os.read(main, 1000)
        os.close(main)
        return program.wait(), shown.decode()

    @unittest.skipIf(find_spec('tqdm') is None, 'tqdm is not installed')
    def test_on_a_terminal(self) -> None:
        status, shown = self.on_a_terminal(self.words(self.frames, '-o', self.top / 'out.csv'))
        self.assertEqual(status, 0)
        self.assertIn('100%', shown)
        self.assertIn('1 rows: 1 found', shown)

    def test_nowhere_else(self) -> None:
        run = self.run_job(self.frames, '-o', self.top / 'out.csv')
        self.assertEqual((run.returncode, len(run.stderr.splitlines())), (0, 1))
        self.assertRegex(run.stderr, COUNTS)

    def test_without_tqdm(self) -> None:
        """It is needed on a terminal alone."""
        words = [sys.executable, '-c', WITHOUT.format(['tqdm']), *self.words(self.frames, '-o', self.top / 'out.csv')[3:]]
        run = subprocess.run(words, cwd=FOLDER, env=ENVIRONMENT, capture_output=True, text=True)
        self.assertEqual((run.returncode, (self.top / 'out.csv').exists()), (0, True), run.stderr)
        (self.top / 'out.csv').unlink()
        status, shown = self.on_a_terminal(words)
        self.assertEqual((status, (self.top / 'out.csv').exists(), self.leftovers()), (1, False, []))
        self.assertRegex(shown, 'sourcemap: tqdm is needed and cannot be imported .*python3-tqdm')


def descendants(pid: int) -> Set[int]:
    """The processes that a process started, and those that these started."""
    found: Set[int] = set()
    waiting = [pid]
    while waiting:
        with contextlib.suppress(OSError):
            for children in glob.glob(f'/proc/{waiting.pop()}/task/*/children'):
                new = {int(each) for each in Path(children).read_text().split()} - found
                found |= new
                waiting.extend(new)
    return found


def fields_of(pid: int) -> List[str]:
    """The fields of /proc/PID/stat from the state on; none if the process has ended."""
    with contextlib.suppress(OSError):
        fields = Path(f'/proc/{pid}/stat').read_text().rpartition(')')[2].split()
        return [] if fields[0] == 'Z' else fields
    return []


def is_forked(pid: int) -> bool:
    with contextlib.suppress(OSError):
        return b'forkserver' in Path(f'/proc/{pid}/cmdline').read_bytes()
    return False


def workers_of(pid: int) -> List[int]:
    """The worker processes of a program: they are forked by another one, which is forked for that."""
    found = [(each, fields_of(each)) for each in descendants(pid)]
    return [each for each, fields in found if fields and is_forked(each) and is_forked(int(fields[1]))]


@needs_distributed
@unittest.skipUnless(sys.platform == 'linux', 'processes are found in /proc')
class Processes(Jobs):
    """Workers that are killed, and a program that is interrupted."""

    def setUp(self) -> None:
        super().setUp()
        self.built = builds.write(self.root)
        self.frames = self.table('f.csv', [HEAD, *builds.rows(self.built, 60_000)])
        self.out = self.top / 'out.csv'

    @contextlib.contextmanager
    def started(self, *more: object) -> Iterator['subprocess.Popen[str]']:
        words = self.words(self.frames, '-o', self.out, '--partition', 8000, *more)
        program = subprocess.Popen(words, cwd=FOLDER, env=ENVIRONMENT, stderr=subprocess.PIPE, text=True,
                                   start_new_session=True)
        try:
            yield program
        finally:
            if program.poll() is None:
                os.killpg(program.pid, signal.SIGKILL)
            program.communicate()

    def wait_for(self, program: 'subprocess.Popen[str]', size: int) -> bool:
        """Waits until so many bytes of the table are written. Returns false if the program ended before."""
        end = time.monotonic() + PATIENCE
        while program.poll() is None:
            whole = [os.path.getsize(path) for path in glob.glob(str(self.top / '.batch.*' / 'whole')) if os.path.exists(path)]
            if whole and whole[0] >= size:
                return True
            self.assertLess(time.monotonic(), end, f'no {size} bytes are written')
            time.sleep(0.005)
        return False

    def check_killed(self, wanted: bytes, workers: Callable[[int], List[int]], *more: object) -> None:
        """Workers are killed three times, one after another, at random: the same bytes as without. `workers` returns those
        of the program of a number."""
        drawn = random.Random()
        self.out.unlink()
        with self.started(*more) as program:
            killed = []
            for part in 0.05, 0.25, 0.45:
                size = int((part + drawn.uniform(0, 0.1)) * len(wanted))
                self.assertTrue(self.wait_for(program, size), 'the table was written too early')
                killed.append(drawn.choice([each for each in workers(program.pid) if fields_of(each)]))
                os.kill(killed[-1], signal.SIGKILL)
            _, errors = program.communicate(timeout=PATIENCE)
        self.assertEqual((program.returncode, len(set(killed))), (0, 3), errors)
        self.assertEqual(self.out.read_bytes(), wanted)
        self.assertEqual(self.leftovers(), [])

    def test_killed_workers(self) -> None:
        self.check_killed(self.output_of(self.frames), workers_of, '--workers', 4)

    def check_interrupted(self, stop: Callable[[int], None], *more: object, old: Optional[bytes] = b'old') -> None:
        """`old` is the table that was there, if there was one."""
        self.out.unlink(missing_ok=True)
        if old is not None:
            self.out.write_bytes(old)
        with self.started(*more) as program:
            self.assertTrue(self.wait_for(program, 100_000))
            workers = workers_of(program.pid)
            self.assertEqual(len(workers), more[-1] if '--workers' in more and more[-1] != 1 else 0)
            stop(program.pid)
            _, errors = program.communicate(timeout=PATIENCE)
        self.assertEqual((program.returncode, errors), (130, 'sourcemap: interrupted, and no table was written\n'))
        self.assertEqual((self.out.read_bytes() if self.out.exists() else None, self.leftovers()), (old, []))
        self.check_ended(workers)

    def check_ended(self, workers: List[int]) -> None:
        end = time.monotonic() + PATIENCE
        while any(map(fields_of, workers)):
            self.assertLess(time.monotonic(), end, 'a worker is still there')
            time.sleep(0.05)

    def test_interrupted(self) -> None:
        """By Ctrl-C in a terminal, which all processes get; by a signal to the program alone."""
        self.check_interrupted(lambda pid: os.killpg(pid, signal.SIGINT), '--workers', 2, old=None)
        self.check_interrupted(lambda pid: os.kill(pid, signal.SIGTERM), '--workers', 2)
        self.check_interrupted(lambda pid: os.kill(pid, signal.SIGINT), '--workers', 1)

    def test_killed(self) -> None:
        """A program that is killed leaves no table, and its workers end."""
        old = builds.put(self.top, 'out.csv', b'old')
        with self.started('--workers', 2) as program:
            self.assertTrue(self.wait_for(program, 100_000))
            workers = workers_of(program.pid)
            program.kill()
            program.wait()
            self.check_ended(workers)
        self.assertEqual(old.read_bytes(), b'old')

    def test_an_error_in_the_middle(self) -> None:
        """It is all that is said, and workers end."""
        with self.frames.open('a') as file:
            file.write('a,,1,2,3\n')
        with self.started('--workers', 2) as program:
            self.assertTrue(self.wait_for(program, 100_000))
            workers = workers_of(program.pid)
            _, errors = program.communicate(timeout=PATIENCE)
        self.assertEqual((program.returncode, len(errors.splitlines()), len(workers)), (1, 1, 2), errors)
        self.assertEqual((self.out.exists(), self.leftovers()), (False, []))
        self.check_ended(workers)

    def test_cluster_at_an_address(self) -> None:
        """The program is interrupted: its workers go on. They are killed while they are asked again. The cluster waits for
        them longer than 15 seconds, after which it would give them up."""
        from dask import config
        from distributed import Client, LocalCluster

        wanted = self.output_of(self.frames)
        patience = {'distributed.deploy.lost-worker-timeout': f'{PATIENCE}s'}
        with mock.patch.dict(os.environ, ENVIRONMENT), config.set(patience), LocalCluster(
                n_workers=3, threads_per_worker=2, processes=True, dashboard_address=None, silence_logs=logging.CRITICAL,
                local_directory=str(self.top)) as cluster, Client(cluster, set_as_default=False) as client:
            address = cluster.scheduler_address
            self.check_interrupted(lambda pid: os.kill(pid, signal.SIGINT), '--dask', address)
            self.assertEqual(client.submit(sum, [1, 2]).result(timeout=PATIENCE), 3)
            self.check_killed(wanted, lambda pid: [each.pid for each in cluster.workers.values() if each.pid], '--dask', address)


@unittest.skipUnless(sys.platform == 'linux', 'memory is that of Linux')
class Memory(Jobs):
    def most_kilobytes(self, frames: Path, *more: object) -> int:
        """The most memory that the program had, with one worker, which is the program."""
        code = ('import re, sys; from sourcemap.__main__ import main; status = main(sys.argv[1:]); '
                'print(re.search("VmHWM:[^0-9]*([0-9]+)", open("/proc/self/status").read())[1]); sys.exit(status)')
        words = self.words(frames, '-o', self.top / f'out.{frames.name}', '--workers', 1, *more)
        return int(subprocess.run([sys.executable, '-c', code, *words[3:]], cwd=FOLDER, env=ENVIRONMENT, check=True,
                                  capture_output=True, text=True).stdout)

    def test_whatever_the_number_of_frames(self) -> None:
        """A table of four times the frames takes the same memory."""
        rows = list(builds.rows(builds.write(self.root), 20_000))
        lines = ''.join(json.dumps(dict(zip(HEAD, row))) + '\n' for row in rows).encode()
        for name in 'f.csv', 'f.csv.gz', 'f.jsonl':
            most = []
            for times in 2, 8:
                data = lines * times if 'json' in name else csv_of([HEAD, *rows * times])
                frames = builds.put(self.top, name, gzip.compress(data, 1) if name.endswith('.gz') else data)
                most.append(self.most_kilobytes(frames, '--partition', 1_000_000))
            self.assertLess(most[1] - most[0], 10_000, (name, most))

    def test_of_a_worker(self) -> None:
        """Of whole partitions: of short rows, of wide ones, and of rows with much that is not used."""
        builds.write(self.root)
        row = {'file': '/srv/static/index.min.js', 'debug_id': builds.ID, 'line': 1, 'column': 5}
        for name, data in [('short.csv', b'file,line,column\n' + b'root.js,1,5\n' * 160_000),
                           ('wide.csv', (','.join(['file', 'line', 'column', *map(str, range(50))]) + '\n').encode()
                            + b''.join(b'root.js,1,5' + b',%d' % number * 50 + b'\n' for number in range(30_000))),
                           ('short.jsonl', (json.dumps(row) + '\n').encode() * 160_000),
                           ('much.jsonl', (json.dumps({**row, 'more': [[]] * 2000}) + '\n').encode() * 2000)]:
            most = self.most_kilobytes(builds.put(self.top, name, data))
            self.assertLess(most, 300_000, name)


if __name__ == '__main__':
    unittest.main()
