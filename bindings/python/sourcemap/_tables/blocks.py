"""The blocks of compiled maps, read by arrays. docs/COMPILED.md describes them."""
from __future__ import annotations

from typing import Any, NamedTuple

import numpy as np
from numpy.typing import NDArray

TOKENS = 64
# so many steps halve the tokens of a block down to one
_STEPS = 6
_HEAD = np.dtype({'names': ['body', 'column', 'widths'], 'formats': ['<u4', '<u4', (np.uint8, 8)], 'offsets': [0, 4, 24],
                  'itemsize': 32})
_LINE, _COLUMN, _SCOPE = 0, 1, 7
_LOW = (1 << 32) - 1


class _Field(NamedTuple):
    """A field of some blocks: where it begins in the bytes, and how many bits a number of it has."""

    words: NDArray[np.uint64]
    starts: NDArray[np.int64]
    widths: NDArray[np.int64]

    def numbers(self, places: NDArray[np.int64]) -> NDArray[np.int64]:
        """Of each block the number at its place."""
        bits = places * self.widths
        found = self.words[np.minimum(self.starts + (bits >> 3), len(self.words) - 1)] >> (bits & 7).astype(np.uint64)
        return np.asarray(found.astype(np.int64) & (1 << self.widths) - 1)


class Blocks:
    """The blocks of a map in order. `tables` is where its tables begin, `count` how many tokens it has. Nothing is held but
    the bytes of the file."""

    def __init__(self, data: Any, tables: int, count: int) -> None:
        blocks = (count + TOKENS - 1) // TOKENS
        self._count = count
        self._starts = np.frombuffer(data, '<u8', blocks, tables)
        self._heads = np.frombuffer(data, _HEAD, blocks, tables + 8 * blocks)
        self._words: NDArray[np.uint64] = np.ndarray(len(data) - 7, '<u8', data, strides=(1,))

    def scope_numbers(self, tokens: NDArray[np.uint64], are_first: NDArray[np.bool_]) -> NDArray[np.uint32]:
        """The scopes of tokens of the map: the id plus 1, or 0 for none. A token is given by its position, the line times
        2^32 plus the column; of those at one position it is the first one or the last one."""
        first, last = np.searchsorted(self._starts, tokens), np.searchsorted(self._starts, tokens, 'right')
        blocks = np.maximum(np.where(are_first, first, last) - 1, 0)
        places = blocks * TOKENS + self._places(blocks, tokens, are_first)
        places[are_first & (first == 0)] = 0
        return self._field(places // TOKENS, _SCOPE).numbers(places % TOKENS).astype(np.uint32)

    def _places(self, blocks: NDArray[np.int64], tokens: NDArray[np.uint64],
                are_first: NDArray[np.bool_]) -> NDArray[np.int64]:
        """Where tokens are in blocks that start ahead of them, or with them if the last ones are looked for. It is the number
        of tokens of a block, if the first one is where the next block starts."""
        lines, columns = self._field(blocks, _LINE), self._field(blocks, _COLUMN)
        starts, bases = self._starts[blocks] & ~np.uint64(_LOW), self._heads['column'][blocks].astype(np.int64)
        least = np.ones(len(tokens), np.int64)
        most = np.minimum(self._count - blocks * TOKENS, TOKENS)
        for _ in range(_STEPS):
            middle = least + most >> 1
            found = starts | (bases + columns.numbers(middle) & _LOW).astype(np.uint64)
            if lines.widths.any():
                found += lines.numbers(middle).astype(np.uint64) << np.uint64(32)
            is_ahead = ((found < tokens) | (found == tokens) & ~are_first) & (least < most)
            least, most = np.where(is_ahead, middle + 1, least), np.where(is_ahead, most, middle)
        return np.where(are_first, least, least - 1)

    def _field(self, blocks: NDArray[np.int64], field: int) -> _Field:
        """A field of blocks. In the body of a block each field takes eight bytes for each bit of its width."""
        widths = self._heads['widths'][blocks] & 63
        ahead = widths[:, :field].sum(axis=1, dtype=np.int64)
        return _Field(self._words, self._heads['body'][blocks] + 8 * ahead, widths[:, field].astype(np.int64))
