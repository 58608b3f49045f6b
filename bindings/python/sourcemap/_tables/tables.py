"""Tables of pandas with answers."""
from __future__ import annotations

from typing import Iterable

import numpy as np
import pandas as pd

from ..batch import COLUMNS
from ..release import Release
from .answers import STATUSES, Answers, answer
from .columns import Codes

NEEDED = ('file', 'line', 'column')


def check_names(names: Iterable[str]) -> None:
    """Raises `ValueError` if a table cannot have these columns."""
    given = list(names)
    for name in NEEDED:
        if given.count(name) != 1:
            raise ValueError(f'the table has {given.count(name) or "no"} columns {name!r}'[:200])
    for name in COLUMNS:
        if name in given:
            raise ValueError(f'the table has a column {name!r} already')


def with_answers(frames: pd.DataFrame, release: Release, base: int) -> pd.DataFrame:
    """The table with the columns of `answer`. The table itself stays as it is."""
    check_names(frames.columns)
    return add_columns(frames, answer(frames, release, base))


def add_columns(frames: pd.DataFrame, answers: Answers) -> pd.DataFrame:
    """The table with these columns after its own."""
    result = frames.copy(deep=False)
    result['source'] = answers.source.values()
    result['source_line'] = _numbers(answers.source_line)
    result['source_column'] = _numbers(answers.source_column)
    result['name'] = answers.name.values()
    result['scope'] = answers.scope.values()
    result['context_line'] = answers.context_line.values()
    result['status'] = np.array(STATUSES, object)[answers.status]
    return result


def _numbers(numbers: Codes) -> pd.arrays.IntegerArray:
    return pd.arrays.IntegerArray(numbers, numbers < 0)
