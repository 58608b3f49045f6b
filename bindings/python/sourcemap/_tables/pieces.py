"""Tables in files: of which format they are, and how they are cut into pieces of whole rows.

CSV is what RFC 4180 describes, and what pandas reads: a quote opens a quoted field only where a field begins. So a
newline ends a row unless it is in such a field.
"""
from __future__ import annotations

import csv
import gzip
import io
import re
import zlib
from pathlib import Path
from typing import Any, BinaryIO, Callable, Iterator, List, NamedTuple, Tuple

import numpy as np
from numpy.typing import NDArray

SUFFIXES = {'.csv': 'csv', '.jsonl': 'json', '.ndjson': 'json'}
LONGEST_ROW = 64 << 20
# A piece has about so many rows and fields at most, since each takes memory however short it is. The first bytes tell
# their length.
MOST_ROWS = 150_000
MOST_FIELDS = 500_000
FIRST = 1 << 16
MARK = b'\xef\xbb\xbf'

# What a field has in quotes alone.
SPECIAL = re.compile(rb'[",\r\n]')
# A quoted field with what is before it, and its closing quote if that is there.
_QUOTED = re.compile(rb'(?:\A|[,\n\r])"[^"]*(?:""[^"]*)*("?)')


class Format(NamedTuple):
    """The format of a file: `csv` or `json`, and whether it is gzipped."""

    kind: str
    is_gzipped: bool


class Piece(NamedTuple):
    """Some rows of a table: `length` bytes of a file, from `start` on. If `is_own` the file has nothing else, and goes
    when they are answered. `end` is how far the file of the table was read for them."""

    number: int
    path: str
    start: int
    length: int
    is_own: bool
    end: int

    def read(self) -> bytes:
        """The bytes of the rows."""
        with open(self.path, 'rb') as file:
            file.seek(self.start)
            data = file.read(self.length)
        if len(data) < self.length:
            raise ValueError(f'{self.path} became shorter while it was read')
        return data


def format_of(path: Path) -> Format:
    """The format of a file by its suffixes; `ValueError` if they name none."""
    name = path.name.lower()
    is_gzipped = name.endswith('.gz')
    kind = SUFFIXES.get(Path(name[:-3] if is_gzipped else name).suffix)
    if kind is None:
        raise ValueError(f'{path}: a table ends in {", ".join(SUFFIXES)}, or in one of these and .gz')
    return Format(kind, is_gzipped)


class Table:
    """A file with a table, which is read once from its start to its end. `names` are the columns of a CSV file.
    `folder` is where gzipped tables put the bytes of pieces. Raises `OSError` if the file cannot be read, `ValueError`
    if a row is longer than `LONGEST_ROW`, or if a CSV file has no row of names."""

    def __init__(self, path: Path, size: int, folder: Path) -> None:
        self._path = path
        self._most = size
        self._size = min(size, FIRST)
        self._folder = folder
        self.format = format_of(path)
        self._raw = open(path, 'rb')
        self._file: BinaryIO = gzip.open(self._raw) if self.format.is_gzipped else self._raw  # type: ignore[assignment]
        self._at = 0
        self._held = b''
        self.names: Tuple[str, ...] = ()
        try:
            self._begin()
        except BaseException:
            self._close()
            raise

    def _begin(self) -> None:
        if self.format.kind == 'csv':
            self._read_names()
        else:
            self._held = self._read(self._size)
        self._adapt(self._held, len(self._held))

    def _close(self) -> None:
        self._file.close()
        self._raw.close()

    def __enter__(self) -> Table:
        return self

    def __exit__(self, *error: object) -> None:
        self._close()

    def _read_names(self) -> None:
        start = self._read(len(MARK))
        if start == MARK:
            self._at, start = len(MARK), b''
        block, end = self._grow(start, _first_row_end)
        text = block[:end].decode('utf-8', 'surrogateescape')
        self.names = tuple(next(csv.reader(io.StringIO(text, newline='')), ()))
        if not self.names:
            raise ValueError(f'{self._path} has no row with the names of columns')
        self._at, self._held = self._at + end, block[end:]

    def _read(self, size: int) -> bytes:
        try:
            return self._file.read(size)
        except (EOFError, gzip.BadGzipFile, zlib.error) as error:
            raise ValueError(f'{self._path}: {error}') from None

    def _adapt(self, block: bytes, end: int) -> None:
        """Sets the size of the next piece, whose rows are taken to be as long as those in the block up to `end`."""
        count = int(np.count_nonzero(np.frombuffer(block, np.uint8, end) == ord('\n')))
        rows = min(MOST_ROWS, max(1, MOST_FIELDS // max(1, len(self.names))))
        self._size = min(self._most, rows * end // count) if count else self._most

    def _grow(self, block: bytes, end_of: Callable[[bytes], int]) -> Tuple[bytes, int]:
        """The block, filled up to the size of a piece, with more bytes of the file until a row ends in it, and where its
        rows end. They end with it where the file does."""
        block += self._read(max(0, self._size - len(block)))
        while True:
            end = end_of(block)
            data = b'' if end else self._read(self._size)
            if not data:
                return block, end or len(block)
            if len(block) > LONGEST_ROW:
                raise ValueError(f'{self._path} has a row of more than {LONGEST_ROW} bytes after byte {self._at}')
            block += data

    def pieces(self) -> Iterator[Piece]:
        """The pieces in their order. The last one may have no newline at its end."""
        end_of = _last_row_end if self.format.kind == 'csv' else _line_end
        number = 0
        while True:
            block, end = self._grow(self._held, end_of)
            if not block:
                return
            self._adapt(block, end)
            yield self._piece(number, block, end)
            self._at, self._held = self._at + end, block[end:]
            number += 1

    def _piece(self, number: int, block: bytes, end: int) -> Piece:
        if not self.format.is_gzipped:
            return Piece(number, str(self._path.absolute()), self._at, end, False, self._at + end)
        path = self._folder / f'{number}.in'
        path.write_bytes(memoryview(block)[:end])
        return Piece(number, str(path), 0, end, True, self._raw.tell())


def _line_end(data: bytes) -> int:
    """Where the last line ends; 0 if none does."""
    return data.rfind(b'\n') + 1


def _last_row_end(data: bytes) -> int:
    """Where the last row of CSV ends; 0 if none does."""
    if b'"' not in data:
        return _line_end(data)
    letters = np.frombuffer(data, np.uint8)
    quotes = np.flatnonzero(letters == ord('"'))
    if not _are_pairs(letters, quotes):
        return _row_end(data, first=False)
    outside = zip([*(quotes[1::2] + 1)[::-1], 0], [*[len(data)] * (len(quotes) % 2 == 0), *quotes[::2][::-1]])
    return next((end for end in (data.rfind(b'\n', begin, end) + 1 for begin, end in outside) if end), 0)


def _are_pairs(letters: NDArray[np.uint8], quotes: NDArray[Any]) -> bool:
    """Whether each second quote, from the first on, opens a field, or is the second of two that stand for one. Then a
    letter is in a quoted field exactly if the number of quotes ahead of it is odd."""
    opening = quotes[::2]
    opens = (opening == 0) | np.isin(letters[opening - 1], np.frombuffer(b',\n\r', np.uint8))
    opens[1:] |= opening[1:] == quotes[1::2][:len(opening) - 1] + 1
    return bool(opens.all())


def _first_row_end(data: bytes) -> int:
    """Where the first row of CSV ends; 0 if none does."""
    return _row_end(data, first=True)


def _row_end(data: bytes, first: bool) -> int:
    find = data.find if first else data.rfind
    end = 0
    gap = 0
    if b'"' in data:
        for found in _QUOTED.finditer(data):
            end = find(b'\n', gap, found.start() + 1) + 1 or end
            # at the end of the data a closing quote may be the first of two
            gap = found.end() if found[1] and found.end() < len(data) else len(data)
            if first and end:
                return end
    return find(b'\n', gap) + 1 or end


def quoted(text: bytes, always: bool = False) -> bytes:
    """A field of CSV, in quotes if it needs them, or always."""
    return b'"' + text.replace(b'"', b'""') + b'"' if always or SPECIAL.search(text) else text


def row_of(names: List[str]) -> bytes:
    """A row of CSV."""
    return b','.join(quoted(name.encode('utf-8', 'surrogateescape')) for name in names) + b'\n'
