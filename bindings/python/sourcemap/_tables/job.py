"""`python -m sourcemap batch`: a table in a file is answered piece by piece, by this process or by others.

Each piece is answered into a file of its own. These files are joined in the order of the pieces. So whichever worker
answers a piece, and however often, the table is the same.
"""
from __future__ import annotations

import argparse
import contextlib
import errno
import gzip
import os
import shutil
import signal
import sys
import tempfile
import threading
import time
import uuid
from itertools import chain, islice
from pathlib import Path
from typing import Any, BinaryIO, Dict, Iterator, List, NamedTuple, Optional, Tuple

import numpy as np

from .._generated import printable
from .._needed import need
from ..batch import COLUMNS
from ..release import Release
from . import csv_rows, json_rows
from .answers import STATUSES, Answers
from .engines import engine
from .pieces import Format, Piece, Table, format_of, row_of
from .tables import check_names

# How many files without a map are named.
MOST_PROBLEMS = 20
MOST_REMOVALS = 20
MOST_COPIED = 1 << 30
# `sendfile` of such a file, or on such a system, is not possible
CANNOT_COPY = (errno.EINVAL, errno.ENOSYS, errno.ENOTSOCK, errno.EOPNOTSUPP)


class Job(NamedTuple):
    """What is done with each piece: the release that answers, the format of the table to write, the columns of a CSV
    file, what lines and columns count from, and the folder for what is written."""

    release: Release
    format: Format
    names: Tuple[str, ...]
    base: int
    folder: str


class Done(NamedTuple):
    """An answered piece: the file with its rows, how many rows have each status, and why files have no map."""

    piece: Piece
    path: str
    counts: List[int]
    problems: Dict[str, str]


def run_piece(job: Job, piece: Piece) -> Done:
    """Answers a piece. Called again, it writes another file with the same bytes."""
    path = os.path.join(job.folder, f'{piece.number}.{uuid.uuid4().hex}')
    with open(path, 'xb') as whole, _zipped(whole, job.format.is_gzipped) as file:
        answers = _answer(job, piece, file)
    counts = np.bincount(answers.status, minlength=len(STATUSES))
    return Done(piece, path, counts.tolist(), dict(islice(answers.problems.items(), MOST_PROBLEMS + 1)))


def _answer(job: Job, piece: Piece, file: BinaryIO) -> Answers:
    data = piece.read()
    try:
        if job.format.kind == 'csv':
            return csv_rows.answer_rows(data, job.names, job.release, job.base, file)
        return json_rows.answer_rows(data, job.release, job.base, file)
    except ValueError as error:
        raise ValueError(f'in the rows after byte {piece.end - piece.length}: {str(error).strip()}') from None


@contextlib.contextmanager
def _zipped(file: BinaryIO, is_gzipped: bool) -> Iterator[BinaryIO]:
    """What is written goes to the file, gzipped if that is wanted: the same bytes whenever it is written."""
    if not is_gzipped:
        yield file
        return
    with gzip.GzipFile('', 'wb', fileobj=file, mtime=0) as zipped:
        yield zipped  # type: ignore[misc]


class Output:
    """Where the table goes: the file `path`, which takes its name when it is whole, or a stream, such as standard output
    or a device. `folder` is a new folder for the pieces. On leaving the block it is removed."""

    def __init__(self, path: Optional[Path]) -> None:
        self.path = path if path is None or path.is_file() or not path.exists() else None
        named = None if self.path is None else self.path.absolute()
        self.folder = Path(tempfile.mkdtemp(prefix='.batch.', dir=None if named is None else named.parent))
        try:
            if self.path is not None:
                self._file: BinaryIO = open(self.folder / 'whole', 'xb')
            else:
                self._file = sys.stdout.buffer if path is None else open(path, 'wb')
        except BaseException:
            self._remove()
            raise
        self._is_ours = path is not None

    def __enter__(self) -> Output:
        return self

    def __exit__(self, *error: object) -> None:
        with contextlib.suppress(OSError):
            if self._is_ours:
                self._file.close()
        self._remove()

    def _remove(self) -> None:
        for _ in range(MOST_REMOVALS):  # a worker that nobody waits for may still begin a file
            shutil.rmtree(self.folder, ignore_errors=True)
            if not self.folder.exists():
                return

    def write(self, data: bytes) -> None:
        """Appends bytes."""
        self._file.write(data)

    def append(self, path: str) -> None:
        """Appends the bytes of a file, and removes it. The disk begins with them, so that `finish` need not wait for all."""
        self._file.flush()
        with open(path, 'rb') as part:
            size = _copy(part, self._file)
        if self.path is not None and hasattr(os, 'posix_fadvise'):
            os.posix_fadvise(self._file.fileno(), self._file.tell() - size, size, os.POSIX_FADV_DONTNEED)
        os.unlink(path)

    def finish(self) -> None:
        """Makes the table the file of its name. Until then a file of that name stays as it was."""
        self._file.flush()
        if self.path is not None:
            os.fsync(self._file.fileno())
            if self.path.exists():
                shutil.copymode(self.path, self.folder / 'whole')
            os.replace(self.folder / 'whole', self.path)


def _copy(part: BinaryIO, file: BinaryIO) -> int:
    """Copies a file to the end of another one, and returns how many bytes it has. The system does so without showing them
    to this process, if it can."""
    done = 0
    try:
        while (count := os.sendfile(file.fileno(), part.fileno(), done, MOST_COPIED)):
            done += count
    except OSError as error:
        if error.errno not in CANNOT_COPY:
            raise
        part.seek(done)
        shutil.copyfileobj(part, file, 1 << 20)
        done = part.tell()
    return done


def run_job(arguments: argparse.Namespace) -> None:
    """Writes the table. Ctrl-C and SIGTERM raise `KeyboardInterrupt`. After any error there is no table, and what was there
    under its name is still there."""
    began = time.monotonic()
    with _ended_alike(), Output(arguments.output) as output, \
            Table(arguments.frames, arguments.partition, output.folder) as table:
        wanted = Format(table.format.kind, False) if output.path is None else format_of(output.path)
        if wanted.kind != table.format.kind:
            raise ValueError(f'{arguments.output} is to have the format of {arguments.frames}')
        job = Job(Release(arguments.release, arguments.cache), wanted, table.names, int(not arguments.zero_based),
                  str(output.folder))
        tally = _write(job, table, output, arguments)
        output.finish()
    tally.report(time.monotonic() - began)


def _write(job: Job, table: Table, output: Output, arguments: argparse.Namespace) -> _Tally:
    if job.format.kind == 'csv':
        check_names(job.names)
        names = row_of([*job.names, *COLUMNS])
        output.write(gzip.compress(names, mtime=0) if job.format.is_gzipped else names)
    tally = _Tally()
    pieces = table.pieces()
    first = list(islice(pieces, 2))
    answered = engine(arguments, job.folder, len(first) < 2)(run_piece, job, chain(first, pieces))
    with contextlib.closing(answered), _progress(arguments.frames) as show:
        for done in answered:
            output.append(done.path)
            if done.piece.is_own:
                os.unlink(done.piece.path)
            tally.add(done)
            show(done.piece.end)
    return tally


class _Tally:
    """What is said at the end."""

    def __init__(self) -> None:
        self._counts = [0] * len(STATUSES)
        self._problems: Dict[str, str] = {}

    def add(self, done: Done) -> None:
        self._counts = [sum(pair) for pair in zip(self._counts, done.counts)]
        for file, why in done.problems.items():
            if len(self._problems) <= MOST_PROBLEMS:
                self._problems.setdefault(file, why)

    def report(self, seconds: float) -> None:
        """Prints the files without a map, and then a line with the counts."""
        for file, why in islice(self._problems.items(), MOST_PROBLEMS):
            print(f'sourcemap: {printable(file)}: {printable(why)}', file=sys.stderr)
        if len(self._problems) > MOST_PROBLEMS:
            print('sourcemap: further files have no map', file=sys.stderr)
        rows = sum(self._counts)
        counts = ', '.join(f'{count} {status}' for status, count in zip(STATUSES, self._counts))
        print(f'{rows} rows: {counts}; {rows / max(seconds, 1e-9):.0f} frames a second', file=sys.stderr)


@contextlib.contextmanager
def _progress(path: Path) -> Iterator[Any]:
    """A function that is told how far the file was read; it draws a bar if standard error is a terminal."""
    if not sys.stderr.isatty():
        yield lambda end: None
        return
    with need('tqdm').tqdm(total=os.path.getsize(path), unit='B', unit_scale=True) as bar:
        yield lambda end: bar.update(end - bar.n)


@contextlib.contextmanager
def _ended_alike() -> Iterator[None]:
    """Within the block SIGTERM ends the program as Ctrl-C does, and what was written so far goes."""
    if threading.current_thread() is not threading.main_thread():
        yield
        return
    before = signal.signal(signal.SIGTERM, signal.default_int_handler)
    try:
        yield
    finally:
        signal.signal(signal.SIGTERM, before)
