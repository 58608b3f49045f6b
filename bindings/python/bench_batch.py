#!/usr/bin/env python3
"""Frames a second of `python -m sourcemap batch`, the memory of its workers, and where the time goes.

    bindings/python/bench_batch.py MAPS WORK [--frames N] [--maps N] [--workers 1,2,4] [--rounds N] [--prepare]

MAPS is a folder with maps, such as those of a corpus: the largest ones are taken, at most 200 (--maps). WORK is a folder
that is made: it gets the release, a table with 10,000,000 frames (--frames), and the output. A table that is there
already is used again; with --prepare that is all. The frames are drawn at random: a map, a token of it, and a column up
to two behind it. Each number of workers takes the table some times (--rounds, 1), and the least time counts. Before each
time the output is removed, and the disk has nothing to write. The maps are compiled before.

The memory of a worker is what it has of its own (RssAnon in /proc/PID/status), the most that was seen ten times a second;
pages of mapped files are not in it. The profile is of one process and a tenth of the frames.
"""
import argparse
import cProfile
import hashlib
import os
import pstats
import shutil
import subprocess
import sys
import tempfile
import threading
import time
from pathlib import Path

import numpy as np

import sourcemap
from sourcemap._tables import csv_rows, job, opened, together
from sourcemap._tables.columns import Texts
from sourcemap._tables.pieces import Table

HEAD = b'file,line,column\n'
PARTS = [('reading CSV', csv_rows._read), ('lookups', opened.CompiledMap.lookup_many),
         ('texts', opened.OpenedMap._texts), ('lines of sources', together.Together.contexts),
         ('writing CSV', csv_rows._write)]


def rank(path):
    data = path.read_bytes()
    return -len(data), hashlib.sha256(data).digest()


def write_release(maps, folder, most):
    """Takes the maps that can be read and have tokens with sources. Returns the name of each file, and its positions."""
    taken = []
    for path in sorted((path for path in maps.rglob('*.map') if path.is_file()), key=rank):
        if len(taken) == most:
            break
        try:
            with sourcemap.Map.load(path) as map:
                if map.kind == 'index':
                    map.flatten()
                tokens = [(token.generated_line, token.generated_column) for token in map if token.source is not None]
        except sourcemap.SourceMapError:
            continue
        if tokens:
            name = f'{len(taken):03}/{path.name[:-4]}'
            (folder / name).parent.mkdir(parents=True)
            shutil.copy(path, folder / f'{name}.map')
            taken.append((name, np.array(tokens, np.int64)))
    return taken


def write_frames(taken, count, path):
    drawn = np.random.default_rng(1)
    names = [f'https://cdn.example/build/{name}'.encode() for name, _ in taken]
    with open(path, 'wb') as file:
        file.write(HEAD)
        for first in range(0, count, 1_000_000):
            size = min(1_000_000, count - first)
            maps = drawn.integers(len(taken), size=size)
            positions = np.empty((size, 2), np.int64)
            for number, (_, tokens) in enumerate(taken):
                rows = np.flatnonzero(maps == number)
                positions[rows] = tokens[drawn.integers(len(tokens), size=len(rows))]
            columns = positions[:, 1] + drawn.integers(3, size=size)
            csv_rows._write(file, [Texts(maps, names), csv_rows._Numbers(positions[:, 0] + 1, False),
                                   csv_rows._Numbers(columns + 1, False)], size)


TICKS = os.sysconf('SC_CLK_TCK')


def look_at(pid):
    """Of this process and each one below it: the bytes that no file backs, and the seconds of processors."""
    found = {}
    waiting = [pid]
    while waiting:
        each = waiting.pop()
        try:
            text = Path(f'/proc/{each}/status').read_text()
            own = 1024 * int(next(line.split()[1] for line in text.splitlines() if line.startswith('RssAnon:')))
            fields = Path(f'/proc/{each}/stat').read_text().rpartition(')')[2].split()
            found[each] = own, (int(fields[11]) + int(fields[12])) / TICKS
            for children in Path(f'/proc/{each}/task').glob('*/children'):
                waiting.extend(map(int, children.read_text().split()))
        except (OSError, StopIteration):
            pass
    return found


class Usage(threading.Thread):
    """Looks at a program ten times a second until it has ended."""

    def __init__(self, program):
        super().__init__()
        self.program = program
        self.most, self.used = 0, {}

    def run(self):
        while self.program.returncode is None:
            for each, (own, seconds) in look_at(self.program.pid).items():
                self.most, self.used[each] = max(self.most, own), seconds
            time.sleep(0.1)


def measure(words, out):
    """Runs the program. Returns the seconds, those of the processors, the most own memory of a process, the last line."""
    out.unlink(missing_ok=True)
    os.sync()
    began = time.monotonic()
    program = subprocess.Popen([sys.executable, '-m', 'sourcemap', 'batch', *words, '-o', str(out)], text=True,
                               stderr=subprocess.PIPE,
                               env={**os.environ, 'PYTHONPATH': str(Path(sourcemap.__file__).parents[1])})
    usage = Usage(program)
    usage.start()
    errors = program.stderr.read()
    program.wait()
    seconds = time.monotonic() - began
    usage.join()
    if program.returncode:
        sys.exit(errors)
    return seconds, sum(usage.used.values()), usage.most, errors.splitlines()[-1]


def profile(frames, release, count):
    with tempfile.TemporaryDirectory() as folder, Table(frames, sourcemap.batch.PARTITION, Path(folder)) as table:
        format = job.Format('csv', False)
        run = job.Job(release, format, table.names, 1, folder)
        profiler = cProfile.Profile(time.process_time)
        answered = 0
        for piece in table.pieces():
            profiler.enable()
            done = job.run_piece(run, piece)
            profiler.disable()
            os.unlink(done.path)
            answered += sum(done.counts)
            if answered >= count:
                break
    stats = pstats.Stats(profiler)
    whole = stats.total_tt
    shares = {}
    for name, function in PARTS:
        code = function.__code__
        found = stats.stats.get((code.co_filename, code.co_firstlineno, code.co_name))
        shares[name] = shares.get(name, 0) + (found[3] if found else 0)
    for name, seconds in shares.items():
        print(f'{100 * seconds / whole:5.1f} %  {name}')
    print(f'{100 * (1 - sum(shares.values()) / whole):5.1f} %  else; {answered} frames in {whole:.1f} s, profiled')


def prepare(arguments):
    """Makes the table, the release and its compiled maps, and says how large they are."""
    work, frames, folder, cache = arguments.work, arguments.table, arguments.release, arguments.cache
    if not frames.exists():
        shutil.rmtree(work, ignore_errors=True)
        folder.mkdir(parents=True)
        taken = write_release(arguments.maps, folder, arguments.most)
        write_frames(taken, arguments.frames, frames)
    release = sourcemap.Release(folder, cache=cache)
    maps = sorted(folder.rglob('*.map'))
    for path in maps:
        release.open(str(path.relative_to(folder))[:-4]).close()
    compiled = sum(path.stat().st_size for path in cache.rglob('*.compiled'))
    print(f'{len(maps)} maps of {sum(path.stat().st_size for path in maps) / 1e6:.0f} MB, compiled {compiled / 1e6:.0f} MB; '
          f'{arguments.frames} frames, {frames.stat().st_size / 1e6:.0f} MB')
    return release


def print_table(arguments):
    out = arguments.work / 'out.csv'
    words = [str(arguments.table), '--release', str(arguments.release), '--cache', str(arguments.cache), '--workers']
    print('| Workers | Seconds | Frames a second | Times the first | Seconds of processors | Memory of a worker |\n'
          '|---|---|---|---|---|---|')
    first = None
    for workers in arguments.workers.split(','):
        seconds, used, most, last = min(measure([*words, workers], out) for _ in range(arguments.rounds))
        first = first or seconds
        print(f'| {workers} | {seconds:.1f} | {arguments.frames / seconds:,.0f} | {first / seconds:.2f} | {used:.1f} | '
              f'{most / 1e6:.0f} MB |', flush=True)
    print(f'{last}\nout.csv: {out.stat().st_size / 1e6:.0f} MB')


def main():
    parser = argparse.ArgumentParser(description=__doc__, formatter_class=argparse.RawDescriptionHelpFormatter)
    parser.add_argument('maps', type=Path)
    parser.add_argument('work', type=Path)
    parser.add_argument('--frames', type=int, default=10_000_000)
    parser.add_argument('--maps', dest='most', type=int, default=200)
    parser.add_argument('--workers', default='1,2,4')
    parser.add_argument('--rounds', type=int, default=1)
    parser.add_argument('--prepare', action='store_true')
    arguments = parser.parse_args()
    arguments.table = arguments.work / f'frames-{arguments.frames}.csv'
    arguments.release, arguments.cache = arguments.work / 'release', arguments.work / 'cache'
    release = prepare(arguments)
    if not arguments.prepare:
        print_table(arguments)
        profile(arguments.table, release, arguments.frames // 10)


if __name__ == '__main__':
    main()
