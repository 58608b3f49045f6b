"""Columns of tables: the distinct values of one, and the positions that one has."""
from __future__ import annotations

import numbers
import re
from typing import TYPE_CHECKING, Any, Hashable, List, NamedTuple, Tuple

import numpy as np
import pandas as pd
from numpy.typing import NDArray

from .. import _library as library

if TYPE_CHECKING:
    from typing_extensions import TypeAlias

Codes: TypeAlias = NDArray[np.int64]

# What reading a CSV file takes for a number too. More digits are more than any position has.
_WHOLE = re.compile(r'[ \t\n\v\f\r]*(?:-0+|\+?0*([0-9]{1,10}))[ \t\n\v\f\r]*')


class Texts(NamedTuple):
    """A column of texts in UTF-8: for each row the number of its text in `texts`, or -1 for none."""

    codes: Codes
    texts: List[bytes]

    def values(self) -> NDArray[np.object_]:
        """The text of each row, or None."""
        texts = np.empty(len(self.texts) + 1, object)
        texts[:-1] = _decoded(self.texts)
        return np.asarray(texts[self.codes])


def _decoded(texts: List[bytes]) -> List[str]:
    """The texts, decoded at once, unless one has the character that is put between them."""
    found = str(b'\0'.join(texts), 'utf-8', 'replace').split('\0')
    return found if len(found) == len(texts) else [str(text, 'utf-8', 'replace') for text in texts]


def encoded(texts: List[str]) -> List[bytes]:
    """The texts in UTF-8, encoded as `_decoded` decodes. Bytes that reading a file escaped are bytes again."""
    found = '\0'.join(texts).encode('utf-8', 'surrogateescape').split(b'\0')
    return found if len(found) == len(texts) else [text.encode('utf-8', 'surrogateescape') for text in texts]


def distinct(column: pd.Series) -> Tuple[Codes, List[Any]]:
    """For each row of a column the number of its value, and the values. What is missing has the number -1."""
    if isinstance(column.dtype, pd.CategoricalDtype):
        return column.cat.codes.to_numpy().astype(np.int64), column.cat.categories.tolist()
    values = column.to_numpy(dtype=object)
    try:
        codes, uniques = pd.factorize(values)
    except TypeError:  # a list, or another value that cannot be hashed, is no value of use
        hashable = np.empty(len(values), object)
        hashable[:] = [value if isinstance(value, Hashable) else None for value in values]
        codes, uniques = pd.factorize(hashable)
    return codes.astype(np.int64), uniques.tolist()


def positions(column: pd.Series, base: int) -> Tuple[NDArray[np.uint32], NDArray[np.bool_]]:
    """The lines or columns in a column, counted from 0, and for each row whether it has one. `base` is what the column
    counts from. A position is a number that is whole, or the digits of one, from `base` to 4294967295 + `base`."""
    if isinstance(column.dtype, np.dtype) and column.dtype.kind in 'iuf':
        return _in_range(column.to_numpy(), base)
    codes, values = distinct(column)
    found, are_good = _in_range(np.array([*map(_whole, values), -1.0]), base)
    return found[codes], are_good[codes]


def _in_range(values: NDArray[Any], base: int) -> Tuple[NDArray[np.uint32], NDArray[np.bool_]]:
    are_good = (values >= base) & (values <= library.NONE + base)
    if values.dtype.kind == 'f':
        are_good &= np.floor(values) == values
    kept = np.where(are_good, values, base).astype(np.int64) - base
    return kept.astype(np.uint32), are_good


def _whole(value: object) -> float:
    """The whole number that a value is, or stands for as a text; -1 if there is none that a position may be."""
    if isinstance(value, str):
        if value.isdigit() and value.isascii() and len(value) <= 10:
            return float(value)
        found = _WHOLE.fullmatch(value)
        return -1.0 if found is None else float(found[1] or 0)
    if isinstance(value, numbers.Real):
        try:
            return float(value) if value == int(value) else -1.0
        except (ValueError, OverflowError):
            return -1.0
    return -1.0
