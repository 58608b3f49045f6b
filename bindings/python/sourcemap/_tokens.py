"""Tokens, and the answers to many positions."""
from __future__ import annotations

import struct
import sys
from array import array
from functools import partial
from typing import TYPE_CHECKING, Any, Callable, Iterable, Iterator, List, NamedTuple, Optional, Sequence, Tuple, Union
from typing import cast, overload

from . import _library as library
from ._texts import position_in

if TYPE_CHECKING:
    from ._compiled import _File
    from ._map import Map

Position = Tuple[int, int]
Positions = Union[Iterable[Position], memoryview, 'array[int]']

# the structs sm_token, sm_found and sm_position
TOKEN = struct.Struct('=6I?3x')
FOUND = struct.Struct('=6I?3x?3x')
POSITION = struct.Struct('=2I')
BLOCK = 1024


class Token(NamedTuple):
    """What a generated position maps to. Lines and columns count from 0, columns in UTF-16 units.

    `source`, `line` and `column` are the original position; all are None of a token without a source. If a source id
    names nothing, only `source` is None. The source is resolved against `source_root`. `name` is the name that the
    token gives, or None. A token with `is_range` also maps the columns after it on its line, up to the next token: a
    column that is N further on than the token maps to the original column of the token plus N, at most to 4294967295.

    `generated_line` and `generated_column` are the generated position of the token itself, which may be before the
    position looked up. In an index map they count from where the section that answers begins, the column only on the
    first line of the section.

    `source_id` and `name_id` are indexes into `Map.sources` and `Map.names`, or None; of an index map they are None,
    since it has no sources of its own. An id may name nothing: after `Map.remove_names` each `name_id` does so, and in
    a map that a `Builder` made any id may.

    >>> import sourcemap
    >>> with sourcemap.Map.load('bundle.js.map') as map:
    ...     token = map.lookup(0, 5)
    >>> token.source, token.line, token.column, token.name
    ('coolstuff.js', 0, 4, 'x')
    >>> print(token)
    coolstuff.js:0:4 name=x
    """

    source: Optional[str]
    line: Optional[int]
    column: Optional[int]
    name: Optional[str]
    is_range: bool
    generated_line: int
    generated_column: int
    source_id: Optional[int]
    name_id: Optional[int]

    def __str__(self) -> str:
        """SOURCE:LINE:COLUMN, with ` name=NAME` if there is a name, as the library prints a token. LINE and COLUMN of a
        token without a source are 4294967295. The library prints others only if a `Builder` made the token with
        others."""
        source = '<unknown>' if self.source is None else self.source
        line = library.NONE if self.line is None else self.line
        column = library.NONE if self.column is None else self.column
        return f'{source}:{line}:{column}' + ('' if self.name is None else f' name={self.name}')


# as Token(*fields), in half the time
make_token = cast(Callable[[Tuple[Any, ...]], Token], partial(tuple.__new__, Token))


def words_of(positions: Positions) -> memoryview:
    """The positions as uint32 numbers for the library: the line and the column of each in turn. A buffer of uint32 is
    not copied here."""
    try:
        view = memoryview(positions)  # type: ignore[arg-type]
    except TypeError:
        return memoryview(_pack(cast(Iterable[Position], positions)))
    order = '@=' + ('<' if sys.byteorder == 'little' else '>')
    if view.itemsize != 4 or view.format.lstrip(order) not in ('I', 'L'):
        raise TypeError(f'a buffer of positions has items of uint32, not of format {view.format!r}')
    if view.nbytes % POSITION.size:
        raise ValueError('a buffer of positions has a line and a column of each')
    return view


def _pack(positions: Iterable[Position]) -> 'array[int]':
    words = array('I')
    append = words.append
    try:
        for line, column in positions:
            append(line)
            append(column)
    except OverflowError:
        raise ValueError(f'a line or a column must be from 0 to {library.NONE}') from None
    return words


class Answers(Sequence[Optional[Token]]):
    """The answers to many positions, in their order: a sequence of `Optional[Token]`, whose items are made when they
    are read. They stay as they are when the map is changed or closed.

    Each property is a memoryview of one field of all answers, without a copy. Where `found` is false, the other fields
    are 0. The id of a source or name that is missing is `NONE`, 4294967295. So are the line and the column of a token
    without a source, unless a `Builder` made the token with others.

    >>> import sourcemap
    >>> with sourcemap.Map.load('bundle.js.map') as map:
    ...     answers = map.lookup_many([(0, 5), (0, 18)])
    >>> [str(token) for token in answers]
    ['coolstuff.js:0:4 name=x', 'coolstuff.js:2:2 name=alert']
    >>> answers.lines.tolist(), answers.columns.tolist()
    ([0, 2], [4, 2])
    """

    def __init__(self, map: Union[Map, _File], positions: Optional[bytes], found: memoryview) -> None:
        """Made by `lookup_many`. `positions` is None except for an index map: its texts are read by position."""
        self._map = map
        self._positions = positions
        self._found = found.toreadonly()

    def _numbers(self, offset: int) -> memoryview:
        return self._found.cast('I')[offset // 4::FOUND.size // 4]

    def _flags(self, offset: int) -> memoryview:
        return self._found.cast('?')[offset::FOUND.size]

    @property
    def found(self) -> memoryview:
        """For each position whether it has a closest token, as bool."""
        return self._flags(library.Found.found.offset)

    @property
    def is_range(self) -> memoryview:
        """For each position whether its token is a range token, as bool."""
        return self._flags(library.Token.is_range.offset)

    @property
    def generated_lines(self) -> memoryview:
        """The generated line of each token; in an index map it counts from where the section begins."""
        return self._numbers(library.Token.line.offset)

    @property
    def generated_columns(self) -> memoryview:
        """The generated column of each token; in an index map it counts as `Token.generated_column` does."""
        return self._numbers(library.Token.column.offset)

    @property
    def lines(self) -> memoryview:
        """The line in the source."""
        return self._numbers(library.Token.original_line.offset)

    @property
    def columns(self) -> memoryview:
        """The column in the source."""
        return self._numbers(library.Token.original_column.offset)

    @property
    def source_ids(self) -> memoryview:
        """The index of each source in `Map.sources`; of an index map, in the map of the section that answers."""
        return self._numbers(library.Token.source.offset)

    @property
    def name_ids(self) -> memoryview:
        """The index of each name in `Map.names`; of an index map, in the map of the section that answers."""
        return self._numbers(library.Token.name.offset)

    def __len__(self) -> int:
        return len(self._found) // FOUND.size

    @overload
    def __getitem__(self, index: int) -> Optional[Token]: ...

    @overload
    def __getitem__(self, index: slice) -> List[Optional[Token]]: ...

    def __getitem__(self, index: Union[int, slice]) -> Union[Optional[Token], List[Optional[Token]]]:
        if isinstance(index, slice):
            return [token for each in range(*index.indices(len(self))) for token in self._block(each, each + 1)]
        number = position_in(self, index)
        return self._block(number, number + 1)[0]

    def __iter__(self) -> Iterator[Optional[Token]]:
        for first in range(0, len(self), BLOCK):
            yield from self._block(first, first + BLOCK)

    def _block(self, first: int, end: int) -> List[Optional[Token]]:
        found = FOUND.iter_unpack(self._found[first * FOUND.size:end * FOUND.size])
        if self._positions is None:
            return self._map._tokens_of(found)
        return cast('Map', self._map)._section_tokens_of(POSITION.iter_unpack(self._positions[first * POSITION.size:]), found)

    def __repr__(self) -> str:
        return f'<sourcemap.Answers to {len(self)} positions>'
