"""Rows of CSV files: read by pandas, written by joining texts.

A text is put into quotes once, however many rows have it; so a row costs a few copies of pointers, and none of its
fields a call of Python.
"""
from __future__ import annotations

import io
import re
import warnings
from typing import Any, BinaryIO, Dict, List, NamedTuple, Sequence, Tuple

import numpy as np
import pandas as pd
from numpy.typing import NDArray

from ..release import Release
from .answers import FOUND, STATUSES, Answers, answer
from .columns import Codes, Texts, distinct, encoded
from .pieces import SPECIAL, quoted

# so many rows that what they become stays in the cache of a processor
BLOCK = 256
_SMALL = 1 << 16
_NUMBER = re.compile(r'[ \t\n\v\f\r]*[+-]?[0-9]{1,25}[ \t\n\v\f\r]*')
_LARGEST = (1 << 63) - 1
_IS_SPECIAL = np.array([SPECIAL.match(bytes([letter])) is not None for letter in range(256)])


class _Cells(NamedTuple):
    """A column that is ready to be written: for each row the number of its bytes, with the comma or newline that
    follows. The last of them have the number -1."""

    codes: Codes
    rendered: NDArray[np.object_]


def answer_rows(data: bytes, names: Sequence[str], release: Release, base: int, file: BinaryIO) -> Answers:
    """Answers rows of CSV, and writes them with the answers."""
    table = _read(data, names)
    used = [name for name in ('file', 'line', 'column', 'debug_id') if name in names]
    frames = pd.DataFrame({name: table[names.index(name)] for name in used})
    answers = answer(frames, release, base)
    columns = [_of_input(table[place], names[place] in ('line', 'column')) for place in range(len(names))]
    _write(file, [*columns, answers.source, _Numbers(answers.source_line, True), _Numbers(answers.source_column, True),
                  answers.name, answers.scope, _Last(answers.context_line, answers.status)], len(table))
    return answers


class _Numbers(NamedTuple):
    """A column of numbers. In columns that are `added`, -1 is none."""

    numbers: Codes
    added: bool


class _Last(NamedTuple):
    """The last two columns: the line of the source, which only rows have that are found, and the status. The lines are
    all put into quotes, as most need them. So a line that is empty differs from none."""

    context: Texts
    status: NDArray[np.int8]


def _read(data: bytes, names: Sequence[str]) -> pd.DataFrame:
    """The rows of CSV, with numbers for names. Lines and columns are int64 if all rows of the piece have numbers of that
    type, else texts. All else are texts, also the empty ones."""
    types = {place: {'file': 'category', 'debug_id': 'category'}.get(name, str) for place, name in enumerate(names)}
    numbers = [place for place, name in enumerate(names) if name in ('line', 'column')]
    if not data or data.isspace():
        return pd.DataFrame({place: pd.Series(dtype=object) for place in types})
    # pandas tries int64 first. What it takes for floats or truth values is read as texts
    table = _parse(data, len(names), {place: kind for place, kind in types.items() if place not in numbers})
    if all(table[place].dtype in (np.int64, object) for place in numbers):
        return table
    return _parse(data, len(names), types)


def _parse(data: bytes, count: int, types: Dict[int, Any]) -> pd.DataFrame:
    """Raises `ValueError` if a row has more fields than there are columns. A shorter one has empty texts."""
    with warnings.catch_warnings():
        # of a first row that is too long there is only a warning
        warnings.simplefilter('error', pd.errors.ParserWarning)
        try:
            return pd.read_csv(io.BytesIO(data), header=None, names=range(count), dtype=types, na_filter=False,
                               index_col=False, encoding_errors='surrogateescape', low_memory=False, engine='c')
        except pd.errors.ParserWarning:
            raise ValueError(f'the first of them has more than {count} fields') from None


def _of_input(column: pd.Series, has_numbers: bool) -> Any:
    if column.dtype == np.int64:
        return _Numbers(column.to_numpy(), False)
    codes, texts = distinct(column)
    return Texts(codes, encoded([_plain(text) for text in texts] if has_numbers else texts))


def _plain(text: str) -> str:
    """A number as it is written if all rows of its piece have numbers; any other text as it is."""
    if text.isdigit() and text.isascii() and text[0] != '0' and len(text) < 19:
        return text
    if _NUMBER.fullmatch(text) is None or not -_LARGEST <= int(text) <= _LARGEST:
        return text
    return str(int(text))


def _write(file: BinaryIO, columns: List[Any], count: int) -> None:
    cells = _cells_of(columns)
    block = np.empty((BLOCK, len(cells)), object)
    for first in range(0, count, BLOCK):
        rows = block[:min(BLOCK, count - first)]
        for place, (codes, rendered) in enumerate(cells):
            rows[:, place] = rendered[codes[first:first + BLOCK]]
        file.write(b''.join(rows.ravel().tolist()))


def _cells_of(columns: List[Any]) -> List[_Cells]:
    """The columns, ready to be written. Of one that no row has a text in, only the comma is left: it goes to the column
    ahead of it."""
    found: List[_Cells] = []
    end = b'\n'
    for place, column in reversed(list(enumerate(columns))):
        if place and isinstance(column, Texts) and not column.texts:
            end = b',' + end
        else:
            found.insert(0, _cells(column, end))
            end = b','
    return found


def _cells(column: Any, end: bytes) -> _Cells:
    if isinstance(column, _Numbers):
        return _number_cells(column, end)
    if isinstance(column, _Last):
        return _last_cells(column, end)
    return _Cells(column.codes, _objects([*_fields(column.texts, end, False), end]))


def _last_cells(column: _Last, end: bytes) -> _Cells:
    codes, texts = column.context
    endings = [f',{status}'.encode() + end for status in STATUSES]
    rendered = _objects([*endings, *_fields(texts, endings[FOUND], True)])
    return _Cells(np.where(codes < 0, column.status, codes + len(endings)), rendered)


def _objects(items: Sequence[bytes]) -> NDArray[np.object_]:
    array = np.empty(len(items), object)
    array[:] = items
    return array


def _fields(texts: List[bytes], end: bytes, in_quotes: bool) -> List[bytes]:
    """The texts as fields of CSV, each with what follows it."""
    joined = b'\0'.join(texts)
    if not texts or joined.count(b'\0') >= len(texts):
        return [quoted(text, in_quotes) + end for text in texts]
    # all at once; the zero byte divides them again
    start, stop = (b'"', b'"' + end) if in_quotes else (b'', end)
    whole = joined.replace(b'"', b'""') if in_quotes else joined
    fields = (start + whole.replace(b'\0', stop + b'\0' + start) + stop).split(b'\0')
    if not in_quotes and SPECIAL.search(joined):
        for place in _special_places(joined):
            fields[place] = quoted(texts[place]) + end
    return fields


def _special_places(joined: bytes) -> List[int]:
    """Which of these texts, which zero bytes divide, need quotes."""
    letters = np.frombuffer(joined, np.uint8)
    ends = np.flatnonzero(letters == 0)
    specials = np.flatnonzero(_IS_SPECIAL[letters])
    places: List[int] = np.unique(np.searchsorted(ends, specials)).tolist()
    return places


_small_numbers: Dict[bytes, NDArray[np.object_]] = {}


def _number_cells(column: _Numbers, end: bytes) -> _Cells:
    numbers, added = column
    least, most = _ends(numbers)
    if least >= (-1 if added else 0) and most < _SMALL:
        if end not in _small_numbers:
            after = end.decode()
            texts = f'{after}\0'.join(map(str, range(_SMALL))) + after
            _small_numbers[end] = _objects([*texts.encode().split(b'\0'), end])
        return _Cells(numbers, _small_numbers[end])
    codes, used = pd.factorize(numbers)
    return _Cells(codes, _objects([end if added and number < 0 else b'%d%s' % (number, end) for number in used.tolist()]))


def _ends(numbers: Codes) -> Tuple[int, int]:
    return (int(numbers.min()), int(numbers.max())) if len(numbers) else (0, 0)
