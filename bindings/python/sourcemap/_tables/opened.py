"""Compiled maps that are asked by arrays: lookups, and the texts that their answers lead to."""
from __future__ import annotations

import mmap
from pathlib import Path
from typing import TYPE_CHECKING, Any, List, NamedTuple, Optional, Tuple

import numpy as np
from numpy.typing import NDArray

from .. import _library as library
from .._compiled import CompiledMap
from .blocks import TOKENS, Blocks

if TYPE_CHECKING:
    from typing_extensions import TypeAlias

# Of a longer source, name or scope only so many characters are kept. A map can name a source of any length, and each
# row would repeat it.
LONGEST_TEXT = 4096
# Of a longer line of a source only so many UTF-16 units are kept: those around the column, which begin at a multiple of
# STEP less half of STEP.
LONGEST_LINE = 200
STEP = 100
# Of a map whose contents have more lines no lines are read: finding them takes many times their bytes.
MOST_LINES = 2_000_000

_CHUNK = 4 << 20
_LINE_FEED, _RETURN = 10, 13

Flags: TypeAlias = NDArray[np.bool_]
Numbers: TypeAlias = NDArray[np.uint32]
Places: TypeAlias = NDArray[np.int64]


# what the lowest byte of a flag has
FLAG = np.uint32(255)


class Found(NamedTuple):
    """What was found at many positions, with lines and columns counted from 0: the fields of the sm_found of the library.
    The last two are flags in their lowest bytes."""

    generated_line: Numbers
    generated_column: Numbers
    line: Numbers
    column: Numbers
    source: Numbers
    name: Numbers
    is_range: Numbers
    found: Numbers


class _Lines(NamedTuple):
    """Where the lines of contents begin and end in the bytes of the file, by their numbers. For each source, `first` and
    `last` are the numbers of its first and its last line; `last` is -1 if its contents are not there."""

    starts: Numbers
    ends: Numbers
    first: Places
    last: Places


class OpenedMap:
    """A compiled map that was checked. Any number of threads may use it.

    The library looks positions up. Texts and the scopes of tokens are read here, as docs/COMPILED.md describes them: a call
    for each would take longer than all lookups.
    """

    def __init__(self, path: Path) -> None:
        with open(path, 'rb') as file:
            self._data = mmap.mmap(file.fileno(), 0, access=mmap.ACCESS_READ)
        self._map = CompiledMap.from_bytes(self._data)
        self._bytes: NDArray[np.uint8] = np.frombuffer(self._data, np.uint8)
        header = np.frombuffer(self._data, '<u4', 16).astype(np.int64)
        self._tokens, self._sources, self._names, self._contents = (int(header[at // 4]) for at in (12, 16, 20, 24))
        self._scopes = int(header[52 // 4])
        count = self._sources + self._names + self._scopes + 1 + self._contents
        self._tables = int(header[48 // 4])
        blocks = (self._tokens + TOKENS - 1) // TOKENS
        self._offsets: Numbers = np.frombuffer(self._data, '<u4', count + 1, self._tables + 40 * blocks)
        self._lines: Optional[_Lines] = None
        self._knows_lines = False

    @property
    def size(self) -> int:
        """About how many bytes are held of the map, besides those of its file: eight for each line of contents, of which
        32 bytes are taken for one."""
        return int(self._offsets[-1] - self._offsets[-1 - self._contents]) // 4

    def lookup(self, positions: Numbers) -> Numbers:
        """What is found at many positions, each a row of its line and its column, counted from 0: a row of `Found` for
        each."""
        found = self._map.lookup_many(positions.reshape(-1).data)._found
        return np.frombuffer(found, np.uint32).reshape(-1, len(Found._fields))

    # Texts

    @property
    def source_count(self) -> int:
        """How many sources there are. Their ids are the numbers below it."""
        return self._sources

    @property
    def name_count(self) -> int:
        """How many names there are. Their ids are the numbers below it."""
        return self._names

    def sources(self, ids: Places) -> List[bytes]:
        """The sources of these ids."""
        return self._texts(ids)

    def names(self, ids: Places) -> List[bytes]:
        """The names of these ids."""
        return self._texts(ids + self._sources)

    def _spans(self, numbers: NDArray[Any]) -> Tuple[Places, Places]:
        """Where texts begin and end. A zero byte, which does not count, follows each text that exists."""
        starts = self._offsets[numbers].astype(np.int64)
        return starts, np.maximum(self._offsets[numbers + 1].astype(np.int64) - 1, starts)

    def _texts(self, numbers: NDArray[Any]) -> List[bytes]:
        starts, ends = self._spans(numbers)
        texts = self._read(starts, ends)
        if len(ends) and int((ends - starts).max()) > LONGEST_TEXT:
            return [_cut(text) for text in texts]
        return texts

    def _read(self, starts: NDArray[Any], ends: NDArray[Any]) -> List[bytes]:
        """The texts in these bytes."""
        return list(map(self._data.__getitem__, map(slice, starts.tolist(), ends.tolist())))

    # Functions, which Hermes maps have

    @property
    def scope_count(self) -> int:
        """How many names of functions there are. Their ids are the numbers below it."""
        return self._scopes

    def scopes(self, ids: Places) -> List[bytes]:
        """The names of functions of these ids."""
        return self._texts(ids + self._sources + self._names)

    def scope_ids(self, positions: Numbers, found: Found) -> Numbers:
        """The ids of the functions that the tokens found at these positions are in. What is no id stands for none."""
        if self._scopes == 0:
            return np.zeros(len(positions), np.uint32)
        lines, columns = found.generated_line, found.generated_column
        tokens = lines.astype(np.uint64) << np.uint64(32) | columns
        # of tokens at one position, a lookup of this position finds the first one, any other the last one
        are_first = (lines == positions[:, 0]) & (columns == positions[:, 1])
        return Blocks(self._data, self._tables, self._tokens).scope_numbers(tokens, are_first) - np.uint32(1)

    # Lines of contents

    def line_numbers(self, sources: Numbers, lines: Numbers) -> Places:
        """The numbers that lines of sources have among all lines of contents: all differ, and are less than 2^32. A line
        has -1 if the contents of the source are not there, or have no such line."""
        table = self._line_table()
        if table is None:
            return np.full(len(sources), -1, np.int64)
        numbers = table.first[sources] + lines
        numbers[numbers > table.last[sources]] = -1
        return numbers

    def lines(self, numbers: Places) -> Tuple[List[bytes], Flags]:
        """The lines of these numbers, and for each whether it is longer than `LONGEST_LINE`: then it is not read."""
        table = self._line_table()
        assert table is not None
        starts, ends = table.starts[numbers], table.ends[numbers]
        are_long = ends - starts > LONGEST_LINE
        return self._read(starts, np.where(are_long, starts, ends)), are_long

    def line_units(self, number: int) -> bytes:
        """The line of a number, in UTF-16."""
        table = self._line_table()
        assert table is not None
        return str(self._data[table.starts[number]:table.ends[number]], 'utf-8', 'replace').encode('utf-16-le')

    def _line_table(self) -> Optional[_Lines]:
        if not self._knows_lines:
            self._lines = self._find_lines()
            self._knows_lines = True
        return self._lines

    def _find_lines(self) -> Optional[_Lines]:
        """None if no source has contents, or all have too many lines. There may be more places for contents than sources, or
        fewer."""
        numbers = np.arange(self._contents) + (self._sources + self._names + self._scopes + 1)
        starts, ends = self._spans(numbers)
        are_there = self._offsets[numbers + 1] > self._offsets[numbers]
        if not are_there.any():
            return None
        low, high = int(starts[are_there].min()), int(ends[are_there].max())
        found: List[Places] = []
        for at in range(low, high + 1, _CHUNK):
            found.append(self._breaks_in(at, min(at + _CHUNK, high)))
            if sum(map(len, found)) > MOST_LINES:
                return None
        breaks = np.concatenate(found)
        # the number of a line is that of the breaks ahead of it, and of the places for contents ahead of its own
        first, last = (np.searchsorted(breaks, places) + np.arange(self._contents) for places in (starts, ends))
        ended = np.searchsorted(ends, breaks, 'right') + np.arange(len(breaks))
        lines = np.zeros((2, len(breaks) + self._contents), np.uint32)
        lines[0, first], lines[0, ended + 1] = starts, breaks + 1
        lines[1, last], lines[1, ended] = ends, self._without_return(breaks)
        missing = np.full(max(0, self._sources - self._contents), -1)
        return _Lines(lines[0], lines[1], np.append(first, missing), np.append(np.where(are_there, last, -1), missing))

    def _breaks_in(self, start: int, end: int) -> Places:
        """The line feeds, and the returns that no line feed follows."""
        chunk = self._bytes[start:end]
        feeds = np.flatnonzero(chunk == _LINE_FEED)
        returns = np.flatnonzero(chunk == _RETURN)
        if len(returns):
            following = self._bytes[np.minimum(returns + (start + 1), len(self._bytes) - 1)]
            feeds = np.sort(np.concatenate([feeds, returns[following != _LINE_FEED]]))
        return feeds + start

    def _without_return(self, breaks: Places) -> Places:
        """Where the lines that have these breaks end: ahead of the return that a line feed may follow."""
        are_pairs = (self._bytes[breaks] == _LINE_FEED) & (self._bytes[breaks - 1] == _RETURN)
        return np.asarray(breaks - are_pairs)


def _cut(text: bytes) -> bytes:
    """The part of a text that is kept."""
    return text if len(text) <= LONGEST_TEXT else str(text, 'utf-8', 'replace')[:LONGEST_TEXT].encode()
