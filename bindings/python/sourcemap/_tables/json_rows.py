"""Rows of JSON lines. Each is written as it was read, with the answers after its own keys."""
from __future__ import annotations

import json
from typing import Any, BinaryIO, Sequence, Tuple

import numpy as np
import pandas as pd
from numpy.typing import NDArray

from ..batch import COLUMNS
from ..release import Release
from .answers import Answers, answer
from .pieces import MARK
from .tables import NEEDED, add_columns

USED = (*NEEDED, 'debug_id')
_BLANKS = b' \t\r'
_encode = json.JSONEncoder(separators=(',', ':')).encode


def answer_rows(data: bytes, release: Release, base: int, file: BinaryIO) -> Answers:
    """Answers the objects on these lines, and writes them with the answers. Lines of blanks are left out. Raises
    `ValueError` if another line is no object, or has a key that is to be added."""
    lines = [line for line in map(_trimmed, data.split(b'\n')) if line]
    rows = list(map(_used, lines))
    frames = pd.DataFrame({name: _column([row[place] for row in rows]) for place, name in enumerate(USED)})
    del rows
    answers = answer(frames, release, base)
    added = add_columns(frames[[]], answers)
    columns = [added[name].to_numpy(dtype=object, na_value=None) for name in COLUMNS]
    file.writelines(_with_answers(line, values) for line, values in zip(lines, zip(*columns)))
    return answers


def _trimmed(line: bytes) -> bytes:
    return line.removeprefix(MARK).strip(_BLANKS)


def _used(line: bytes) -> Tuple[Any, ...]:
    """What a row has for the columns that are used. All else is not held: as values it takes many times its bytes."""
    try:
        row = json.loads(str(line, 'utf-8'))
    except ValueError as error:
        raise ValueError(f'a line is no JSON: {line[:100]!r}: {error}') from None
    if not isinstance(row, dict):
        raise ValueError(f'a line is no JSON object: {line[:100]!r}')
    there = [name for name in COLUMNS if name in row]
    if there:
        raise ValueError(f'a line has {there[0]!r} already: {line[:100]!r}')
    return tuple(map(row.get, USED))


def _column(values: Sequence[Any]) -> NDArray[np.object_]:
    column = np.empty(len(values), object)
    column[:] = values
    return column


def _with_answers(line: bytes, values: Sequence[Any]) -> bytes:
    added = _encode(dict(zip(COLUMNS, values)))
    own = line[:-1].rstrip(_BLANKS)
    return b'%s%s%s\n' % (own, b'' if own == b'{' else b',', added[1:].encode())
