"""What several maps are asked together: NumPy takes a step for all rows at once, and not for those of each map."""
from __future__ import annotations

from itertools import groupby
from typing import Callable, Iterator, List, Tuple

import numpy as np
import pandas as pd
from numpy.typing import NDArray

from .columns import Codes
from .opened import LONGEST_LINE, STEP, Flags, Found, Numbers, OpenedMap

_LOW = (1 << 32) - 1
_BUCKET_BITS = 26
_BUCKET = (1 << _BUCKET_BITS) - 1


class Together:
    """Some maps, each with rows of its own. The rows come in the order of the maps: those of a map go from one bound to
    the next."""

    def __init__(self, maps: List[OpenedMap], bounds: List[int]) -> None:
        self._maps = maps
        self._bounds = bounds
        self._of = np.repeat(np.arange(len(maps)), np.diff(bounds))

    def lookup(self, positions: Numbers) -> Found:
        """What is found at the position of each row."""
        found = np.empty((len(Found._fields), len(positions)), np.uint32)
        for map, first, end in self.parts():
            found[:, first:end] = map.lookup(positions[first:end]).T
        return Found(*found)

    def parts(self) -> Iterator[Tuple[OpenedMap, int, int]]:
        """Each map, the first of its rows, and the one after its last."""
        return zip(self._maps, self._bounds, self._bounds[1:])

    def kept(self, are_kept: Flags) -> Together:
        """The maps with these rows alone."""
        return Together(self._maps, np.concatenate([[0], np.cumsum(are_kept)])[self._bounds].tolist())

    def are_below(self, ids: Numbers, counts: List[int]) -> Flags:
        """For each row whether its id is below the count of its map."""
        return np.asarray(ids < np.array(counts)[self._of])

    def texts(self, ids: Numbers, counts: List[int],
              read: Callable[[OpenedMap, Codes], List[bytes]]) -> Tuple[Codes, List[bytes]]:
        """For each row the number of its text in the list of texts. Its map has the text by its id; the number is -1 if the
        id is not below the count of the map. `read` gets each id of a map once."""
        codes, keys = self._numbered(ids, self.are_below(ids, counts))
        return codes, [text for map, used in self._by_map(keys) for text in read(map, used)]

    def scope_ids(self, positions: Numbers, found: Found) -> Numbers:
        """For each row the id of the function that its token is in."""
        return np.concatenate([map.scope_ids(positions[first:end], Found(*(field[first:end] for field in found)))
                               for map, first, end in self.parts()])

    def _numbered(self, low: Numbers, are_there: Flags) -> Tuple[Codes, Codes]:
        """For each row the number of its key, or -1, and the keys, which come in the order of their maps: the number of the
        map, and below it 32 bits."""
        keys = self._of << 32 | low
        if are_there.all():
            codes, used = pd.factorize(keys)
            return codes, used
        codes = np.full(len(keys), -1, np.int64)
        codes[are_there], used = pd.factorize(keys[are_there])
        return codes, used

    def _by_map(self, keys: Codes) -> Iterator[Tuple[OpenedMap, Codes]]:
        """The maps of keys, and what the low halves of these are."""
        bounds = np.searchsorted(keys >> 32, np.arange(len(self._maps) + 1)).tolist()
        low = keys & _LOW
        return ((map, low[first:end]) for map, first, end in zip(self._maps, bounds, bounds[1:]) if first < end)

    def contexts(self, sources: Numbers, lines: Numbers, columns: Numbers) -> Tuple[Codes, List[bytes]]:
        """For each row the number of the line of its source in the list of texts, or -1 if the contents of the source are
        not there, or have no such line. Lines are cut to `LONGEST_LINE`."""
        numbers = np.concatenate([map.line_numbers(sources[first:end], lines[first:end])
                                  for map, first, end in self.parts()])
        codes, keys = self._numbered(numbers, numbers >= 0)
        texts: List[bytes] = []
        are_long = [np.zeros(0, bool)]
        for map, used in self._by_map(keys):
            found, is_long = map.lines(used)
            texts.extend(found)
            are_long.append(is_long)
        self._add_pieces(codes, keys, np.concatenate(are_long), columns, texts)
        return codes, texts

    def _add_pieces(self, codes: Codes, keys: Codes, are_long: Flags, columns: Numbers, texts: List[bytes]) -> None:
        """Of each line that is longer than `LONGEST_LINE`, takes the pieces around the columns that rows have in it."""
        if not are_long.any():
            return
        rows = np.flatnonzero(np.append(are_long, False)[codes])
        pieces, numbers = np.unique(codes[rows] << _BUCKET_BITS | columns[rows] // STEP, return_inverse=True)
        codes[rows] = numbers + len(texts)
        for line, wanted in groupby(pieces.tolist(), lambda piece: int(piece) >> _BUCKET_BITS):
            key = int(keys[line])
            units = self._maps[key >> 32].line_units(key & _LOW)
            texts.extend(_piece(units, piece & _BUCKET) for piece in wanted)


def _piece(units: bytes, bucket: int) -> bytes:
    """The part of a line that is kept, from the UTF-16 units of the line."""
    start = 0 if len(units) <= 2 * LONGEST_LINE else max(0, bucket * STEP - STEP // 2)
    return units[2 * start:2 * (start + LONGEST_LINE)].decode('utf-16-le', 'ignore').encode()
