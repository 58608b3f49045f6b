"""Tables of frames: the original position of each row, on one machine or many; `python -m sourcemap batch`.

`symbolicate` maps a table of pandas to a table, row by row. It keeps nothing but the maps that its release has open,
so any engine may call it on parts of a table, in any order and any number of times.
"""
from __future__ import annotations

import argparse
import sys
from pathlib import Path
from typing import TYPE_CHECKING

from ._needed import importing, need
from .release import Release

if TYPE_CHECKING:
    import pandas

COLUMNS = ('source', 'source_line', 'source_column', 'name', 'scope', 'context_line', 'status')
PARTITION = 16_000_000
INTERRUPTED = 130


def symbolicate(frames: pandas.DataFrame, release: Release, *, zero_based: bool = False) -> pandas.DataFrame:
    """The table with the original position of each row. Needs pandas and numpy.

    `frames` has the columns `file`, `line` and `column`, and may have `debug_id`. All its columns are kept, such as
    `function`. `file` is the path or URL of a generated file. Lines and columns count from 1, as stack traces print them;
    with `zero_based` from 0. They are whole numbers, or texts with the digits of one. These columns are added:

    - `source`, `source_line`, `source_column`: the original position. The last two have the type `Int64`, and count
      from the same number as `line`;
    - `name`: the name that the map has there;
    - `scope`: the name of the function, which Hermes maps have;
    - `context_line`: the line of the source, from the contents in the map. Of a line of more than 200 UTF-16 units it
      has 200 of those around the column. There is none if the contents of the map have more than 2,000,000 lines;
    - `status`: `found`; `no map`; `no token`, if the map has no original position there; `bad position`, if `line` or
      `column` is none; `bad map`, if the map cannot be read.

    What a row does not have is missing (None or NA). Sources, names and scopes are cut after 4,096 characters. A token
    of an earlier line counts only if it is a range token. Raises `ValueError` if a column is not there, or one that is
    to be added is there already; `OSError` if the cache of the release cannot be written.

    >>> import pandas, sourcemap
    >>> frames = pandas.DataFrame({'file': ['bundle.js', 'other.js'], 'line': [1, 1], 'column': [19, 1]})
    >>> found = sourcemap.batch.symbolicate(frames, sourcemap.Release('.', cache='cache'))
    >>> found[['source', 'source_line', 'source_column', 'name', 'status']].values.tolist()
    [['coolstuff.js', 3, 3, 'alert', 'found'], [None, <NA>, <NA>, None, 'no map']]
    """
    need('numpy')
    need('pandas')
    from ._tables.tables import with_answers

    return with_answers(frames, release, 0 if zero_based else 1)


def add_arguments(parser: argparse.ArgumentParser) -> None:
    """Adds the arguments of `batch` to a parser."""
    parser.description = (
        'Reads a table of frames, and writes it with the original position of each. Tables are CSV files, whose first '
        'row names the columns, or JSON lines, also gzipped; the suffix says which: .csv, .jsonl, .ndjson, .gz. OUT is '
        'there when it is whole. The last line on standard error has the counts.'
    )
    parser.add_argument('frames', metavar='FRAMES', type=Path, help='the table, with columns file, line and column')
    parser.add_argument('--release', metavar='DIR', type=Path, required=True, help='the folder with maps')
    parser.add_argument('-o', '--output', metavar='OUT', type=Path,
                        help='the table to write, of the same format; without it, it is printed')
    parser.add_argument('--cache', metavar='DIR', type=Path,
                        help='the folder for compiled maps; else furzehearth-sourcemap where your caches are')
    parser.add_argument('--zero-based', action='store_true', help='lines and columns count from 0, not from 1')
    who = parser.add_mutually_exclusive_group()
    who.add_argument('--workers', metavar='N', type=_positive,
                     help='how many processes of this machine work; else one for each processor. They are a Dask cluster, '
                          'which ends with the program. With 1 the program itself works, and Dask is not needed')
    who.add_argument('--dask', metavar='ADDRESS', help='the workers of the Dask cluster at this address work')
    parser.add_argument('--partition', metavar='BYTES', type=_positive, default=PARTITION,
                        help=f'how much of the table a worker takes at once, at most: {PARTITION} bytes')


def _positive(text: str) -> int:
    number = int(text)
    if number < 1:
        raise argparse.ArgumentTypeError(f'{text} is not above 0')
    return number


def run(arguments: argparse.Namespace) -> int:
    """Writes the table. Returns the exit status, which is 130 after Ctrl-C; other errors are raised."""
    try:
        _run(arguments)
    except KeyboardInterrupt:
        print('sourcemap: interrupted, and no table was written', file=sys.stderr)
        return INTERRUPTED
    return 0


def _run(arguments: argparse.Namespace) -> None:
    with importing():
        from ._tables.engines import prepare

        prepare(arguments)
        need('numpy')
        need('pandas')
        from ._tables.job import run_job

    run_job(arguments)
