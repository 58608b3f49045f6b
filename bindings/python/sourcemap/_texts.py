"""Sequences of the texts of an object, which are read when they are used."""
from __future__ import annotations

import operator
from typing import Callable, Iterator, List, Sequence, TypeVar, Union, overload

Item = TypeVar('Item')


class LazySequence(Sequence[Item]):
    """A sequence whose items are read each time that they are used. It is equal to any sequence of equal items that is
    no `str` and no `bytes`."""

    def __init__(self, count: Callable[[], int], read: Callable[[int], Item]) -> None:
        self._count = count
        self._read = read

    def __len__(self) -> int:
        return self._count()

    @overload
    def __getitem__(self, index: int) -> Item: ...

    @overload
    def __getitem__(self, index: slice) -> List[Item]: ...

    def __getitem__(self, index: Union[int, slice]) -> Union[Item, List[Item]]:
        if isinstance(index, slice):
            return [self._read(each) for each in range(*index.indices(len(self)))]
        return self._read(position_in(self, index))

    def __iter__(self) -> Iterator[Item]:
        return map(self._read, range(len(self)))

    def __eq__(self, other: object) -> bool:
        if not isinstance(other, Sequence) or isinstance(other, (str, bytes)):
            return NotImplemented
        return len(self) == len(other) and all(mine == its for mine, its in zip(self, other))

    __hash__ = None  # type: ignore[assignment]

    def __repr__(self) -> str:
        return repr(list(self))


def position_in(items: Sequence[object], index: int) -> int:
    """The number of an item, counted from 0; a negative `index` counts from the end. `IndexError` if there is none."""
    number = operator.index(index)
    count = len(items)
    if number < 0:
        number += count
    if not 0 <= number < count:
        raise IndexError(f'{index} is not the number of one of {count} items')
    return number
