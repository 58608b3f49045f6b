"""What `batch.symbolicate` adds to a table of frames, as arrays."""
from __future__ import annotations

from typing import Any, Dict, Iterator, List, NamedTuple, Tuple

import numpy as np
import pandas as pd
from numpy.typing import NDArray

from ..release import Compiled, Release
from .columns import Codes, Texts, distinct, positions
from .opened import FLAG, Found, Numbers, OpenedMap
from .together import Together

STATUSES = ('found', 'no map', 'no token', 'bad position', 'bad map')
FOUND, NO_MAP, NO_TOKEN, BAD_POSITION, BAD_MAP = range(len(STATUSES))


class Answers(NamedTuple):
    """The answers to the rows of a table. Where a row has none, the numbers are -1. `problems` has for each generated
    file without a map why it has none."""

    source: Texts
    source_line: Codes
    source_column: Codes
    name: Texts
    scope: Texts
    context_line: Texts
    status: NDArray[np.int8]
    problems: Dict[str, str]


class _Column:
    """A column of texts that is filled group by group of maps."""

    def __init__(self, count: int) -> None:
        self._codes = np.full(count, -1, np.int64)
        self._texts: List[bytes] = []

    def add(self, rows: Codes, codes: Codes, texts: List[bytes]) -> None:
        """Sets texts by their numbers in a list; -1 is none."""
        self._codes[rows] = np.where(codes < 0, -1, codes + len(self._texts)) if self._texts else codes
        self._texts.extend(texts)

    def texts(self) -> Texts:
        return Texts(self._codes, self._texts)


class _Answering:
    """The answers to the rows of a table, of which some have positions in maps. `status` is that of the others."""

    def __init__(self, status: NDArray[np.int8]) -> None:
        count = len(status)
        self._status = status
        self._line, self._column = np.full(count, -1, np.int64), np.full(count, -1, np.int64)
        self._source, self._name, self._scope, self._context = (_Column(count) for _ in range(4))

    def ask(self, maps: List[OpenedMap], bounds: List[int], rows: Codes, positions: Numbers) -> None:
        """Asks maps for the positions of these rows. Each is a line and a column. Those of a map go from one bound to the
        next."""
        asked = Together(maps, bounds)
        found = asked.lookup(positions)
        on_line = (found.generated_line == positions[:, 0]) | (found.is_range & FLAG != 0)
        has_source = asked.are_below(found.source, [map.source_count for map in maps])
        has_original = on_line & has_source & (found.found & FLAG != 0)
        self._status[rows] = np.where(has_original, FOUND, NO_TOKEN)
        if not has_original.all():
            kept = np.flatnonzero(has_original)
            asked, rows, positions = asked.kept(has_original), rows[kept], positions[kept]
            found = Found(*(field[kept] for field in found))
        self._take(asked, maps, rows, positions, found)

    def _take(self, asked: Together, maps: List[OpenedMap], rows: Codes, positions: Numbers, found: Found) -> None:
        """Takes what was found, which all has an original position."""
        self._line[rows], self._column[rows] = found.line, found.column
        self._source.add(rows, *asked.texts(found.source, [map.source_count for map in maps], OpenedMap.sources))
        self._name.add(rows, *asked.texts(found.name, [map.name_count for map in maps], OpenedMap.names))
        if any(map.scope_count for map in maps):
            scope = asked.scope_ids(positions, found)
            self._scope.add(rows, *asked.texts(scope, [map.scope_count for map in maps], OpenedMap.scopes))
        self._context.add(rows, *asked.contexts(found.source, found.line, found.column))

    def answers(self, base: int, problems: Dict[str, str]) -> Answers:
        """The answers. Lines and columns count from `base`."""
        for numbers in self._line, self._column:
            numbers[numbers >= 0] += base
        source, name, scope, context = (column.texts() for column in (self._source, self._name, self._scope, self._context))
        return Answers(source, self._line, self._column, name, scope, context, self._status, problems)


class _Maps(NamedTuple):
    """The maps of a table: for each row the number of its map, or -1, and the status that it has without a map."""

    numbers: Codes
    status: NDArray[np.int8]
    compiled: List[Compiled]
    problems: Dict[str, str]


def answer(frames: pd.DataFrame, release: Release, base: int) -> Answers:
    """The answers to the rows of a table. Lines and columns, read and returned, count from `base`."""
    lines, have_lines = positions(frames['line'], base)
    columns, have_columns = positions(frames['column'], base)
    have_positions = have_lines & have_columns
    maps = _maps_of(frames, release)
    answering = _Answering(np.where(have_positions, maps.status, np.int8(BAD_POSITION)))
    numbers = np.where(have_positions, maps.numbers, -1)
    order = np.argsort(numbers.astype(np.int16) if len(maps.compiled) < 1 << 15 else numbers, kind='stable')
    bounds = np.searchsorted(numbers[order], np.arange(len(maps.compiled) + 1)).tolist()
    first = 0
    for group in _groups(maps.compiled, release):
        ends = bounds[first:first + len(group) + 1]
        rows = order[ends[0]:ends[-1]]
        answering.ask(group, [end - ends[0] for end in ends], rows, np.stack((lines[rows], columns[rows]), axis=1))
        first += len(group)
    return answering.answers(base, maps.problems)


def _groups(compiled: List[Compiled], release: Release) -> Iterator[List[OpenedMap]]:
    """Opens the maps. A group has as many of them as the release keeps open at once."""
    group: List[OpenedMap] = []
    for number, each in enumerate(compiled):
        opened = release.opened(each)
        if group and not release.is_open(compiled[number - len(group)]):
            yield group
            group = []
        group.append(opened)
    if group:
        yield group


def _maps_of(frames: pd.DataFrame, release: Release) -> _Maps:
    codes, files, ids = _files_of(frames)
    found = [release.compiled(file, debug_id) for file, debug_id in zip(files, ids)]
    # those that are open come first, before others take their places
    compiled = sorted({each.key: each for each in found if isinstance(each, Compiled)}.values(),
                      key=lambda each: not release.is_open(each))
    places = {each.key: place for place, each in enumerate(compiled)}
    numbers = np.full(len(files) + 1, -1, np.int64)
    status = np.full(len(files) + 1, NO_MAP, np.int8)
    problems: Dict[str, str] = {}
    for code, (each, file, debug_id) in enumerate(zip(found, files, ids)):
        if isinstance(each, Compiled):
            numbers[code] = places[each.key]
        else:
            status[code] = BAD_MAP if each.is_bad else NO_MAP
            if file or debug_id:
                problems[file or debug_id] = each.why
    return _Maps(numbers[codes], status[codes], compiled, problems)


def _files_of(frames: pd.DataFrame) -> Tuple[Codes, List[Any], List[Any]]:
    """For each row the number of its file and debug id, or -1, and these by their numbers."""
    codes, files = _used_texts(frames['file'])
    if 'debug_id' not in frames:
        return codes, files, [None] * len(files)
    id_codes, ids = _used_texts(frames['debug_id'])
    pairs, used = pd.factorize((codes + 1) * (len(ids) + 1) + id_codes + 1)
    named, identified = [None, *files], [None, *ids]
    file_of, id_of = np.divmod(used, len(ids) + 1)
    return pairs.astype(np.int64), [named[each] for each in file_of], [identified[each] for each in id_of]


def _used_texts(column: pd.Series) -> Tuple[Codes, List[Any]]:
    """For each row the number of its text, and the texts that rows have. What is no text counts as missing."""
    codes, values = distinct(column)
    is_used = np.zeros(len(values) + 1, bool)
    is_used[codes] = True
    is_used[-1] = False
    used = [code for code in np.flatnonzero(is_used).tolist() if isinstance(values[code], str)]
    numbers = np.full(len(values) + 1, -1, np.int64)
    numbers[used] = np.arange(len(used))
    return numbers[codes], [values[code] for code in used]
