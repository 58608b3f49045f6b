"""Maps that are built token by token."""
from __future__ import annotations

import uuid
from ctypes import byref, c_uint32
from itertools import islice
from typing import Iterable, NamedTuple, Optional

from . import _library as library
from . import errors
from ._handle import HandleOwner, array_of, debug_id_of, encode_texts, optional, pointer_to, run, uint32
from ._map import Map
from ._tokens import TOKEN

_BLOCK = 4096


class NewToken(NamedTuple):
    """A token for `Builder.add_tokens`, with its source and its name by id.

    For a token without a source leave out `line`, `column` and `name_id`: they are not written.

    >>> import sourcemap
    >>> sourcemap.NewToken(0, 5).source_id, sourcemap.NewToken(0, 5, 1, 2, source_id=0).line
    (None, 1)
    """

    generated_line: int
    generated_column: int
    line: Optional[int] = None
    column: Optional[int] = None
    source_id: Optional[int] = None
    name_id: Optional[int] = None
    is_range: bool = False


class Builder(HandleOwner):
    """Builds a regular map. Tokens may be added in any order. A source that is added again has the id that it had, and
    so has a name.

    >>> import sourcemap
    >>> with sourcemap.Builder('out.js') as builder:
    ...     builder.add(0, 0, source='a.js', line=0, column=0)
    ...     builder.add(0, 9, source='a.js', line=3, column=2, name='run')
    ...     map = builder.finish()
    >>> map.dumps().decode()
    '{"file":"out.js","mappings":"AAAA,SAGEA","names":["run"],"sources":["a.js"],"version":3}'
    """

    def __init__(self, file: Optional[str] = None, *, source_root: Optional[str] = None,
                 debug_id: Optional[uuid.UUID] = None) -> None:
        """Begins a map without tokens."""
        self._begin()
        run(library.builder_new, self._at, *optional(file))
        if source_root is not None:
            self._run(library.builder_set_source_root, *optional(source_root))
        if debug_id is not None:
            self._run(library.builder_set_debug_id, True, byref(debug_id_of(debug_id)))

    def add_source(self, text: str) -> int:
        """The id of a source, which is added if it is new.

        >>> import sourcemap
        >>> builder = sourcemap.Builder()
        >>> [builder.add_source(text) for text in ('a.js', 'b.js', 'a.js')]
        [0, 1, 0]
        """
        return self._id(library.builder_add_source, text)

    def add_name(self, text: str) -> int:
        """The id of a name, which is added if it is new.

        >>> import sourcemap
        >>> builder = sourcemap.Builder()
        >>> [builder.add_name(text) for text in ('run', 'main', 'run')]
        [0, 1, 0]
        """
        return self._id(library.builder_add_name, text)

    def _id(self, call: library.Call, text: str) -> int:
        id = c_uint32()
        self._run(call, *pointer_to(text), byref(id))
        return id.value

    def source(self, source_id: int) -> Optional[str]:
        """The text of a source, not resolved against `source_root`; None if there is no such source.

        >>> import sourcemap
        >>> builder = sourcemap.Builder(source_root='/src')
        >>> id = builder.add_source('a.js')
        >>> builder.source(id), builder.source(7)
        ('a.js', None)
        """
        return self._text(library.builder_source, uint32('source_id', source_id))

    def set_source(self, source_id: int, text: str) -> None:
        """Sets the text of a source, which the map resolves against `source_root`. `Absent` if there is no such source.
        `add_source` still returns this id for the text with which the source was added.

        >>> import sourcemap
        >>> builder = sourcemap.Builder()
        >>> builder.add_source('a.js')
        0
        >>> builder.set_source(0, 'b.js')
        >>> builder.add_source('a.js'), builder.add_source('b.js'), builder.finish().sources
        (0, 1, ['b.js', 'b.js'])
        """
        self._run(library.builder_set_source, uint32('source_id', source_id), *pointer_to(text))

    def strip_prefixes(self, prefixes: Iterable[str]) -> None:
        """Cuts from each source the first of these prefixes that it begins with. A prefix without `/` at its end gets
        one; `'~'` has no special meaning here. `add_source` still returns a source's id for the text with which it was
        added.

        >>> import sourcemap
        >>> builder = sourcemap.Builder()
        >>> [builder.add_source(text) for text in ('/x/a.js', '/xy/b.js')]
        [0, 1]
        >>> builder.strip_prefixes(['/x'])
        >>> builder.finish().sources
        ['a.js', '/xy/b.js']
        """
        texts = encode_texts('prefixes', prefixes)
        self._run(library.builder_strip_prefixes, array_of(texts), len(texts))

    def set_contents(self, source_id: int, text: Optional[str]) -> None:
        """Sets the contents of a source; None removes them. `Absent` if there is no such source.

        >>> import sourcemap
        >>> builder = sourcemap.Builder()
        >>> builder.set_contents(builder.add_source('a.js'), 'main()')
        >>> list(builder.finish().contents)
        ['main()']
        """
        self._run(library.builder_set_contents, uint32('source_id', source_id), *optional(text))

    def ignore_source(self, source_id: int) -> None:
        """Puts a source on the ignore list. `Absent` if there is no such source.

        >>> import sourcemap
        >>> builder = sourcemap.Builder()
        >>> builder.ignore_source(builder.add_source('vendor.js'))
        >>> builder.finish().ignore_list
        (0,)
        """
        self._run(library.builder_ignore_source, uint32('source_id', source_id))

    def add(self, generated_line: int, generated_column: int, *, source: Optional[str] = None,
            line: Optional[int] = None, column: Optional[int] = None, name: Optional[str] = None,
            is_range: bool = False) -> None:
        """Adds a token, and its source and name if they are new. If the call fails, the source and the name may have
        been added.

        >>> import sourcemap
        >>> builder = sourcemap.Builder()
        >>> builder.add(0, 5, source='a.js', line=1, column=2, name='main')
        >>> str(builder.finish().lookup(0, 7))
        'a.js:1:2 name=main'
        """
        token = NewToken(generated_line, generated_column, line, column,
                         None if source is None else self.add_source(source),
                         None if name is None else self.add_name(name), is_range)
        self.add_tokens([token])

    def add_tokens(self, tokens: Iterable[NewToken]) -> None:
        """Adds tokens, with their sources and names by id. The id `NONE` is that of no source and of no name. Any other
        id that the builder does not have names nothing. Such a name id is not written. A map with such a source id can
        be written, but reading what was written raises `BadSourceReference`. If the call fails, some of the tokens may
        have been added.

        >>> import sourcemap
        >>> builder = sourcemap.Builder()
        >>> source = builder.add_source('a.js')
        >>> builder.add_tokens(sourcemap.NewToken(0, n, 0, 2 * n, source) for n in range(3))
        >>> [token.column for token in builder.finish()]
        [0, 2, 4]
        """
        rest = iter(tokens)
        while block := b''.join(map(_pack, islice(rest, _BLOCK))):
            self._add_block(block)

    def _add_block(self, block: bytes) -> None:
        count = len(block) // TOKEN.size
        error = library.Error()
        with self._lock:
            added = library.builder_add_tokens(self._at, block, count, byref(error))
            if added < count:
                self._check_open()
                raise errors.of_error(error)

    def finish(self) -> Map:
        """The map that was built. This closes the builder.

        >>> import sourcemap
        >>> builder = sourcemap.Builder('out.js')
        >>> builder.finish().file, builder.closed
        ('out.js', True)
        """
        made = Map._empty()
        self._run(library.builder_finish, made._at)
        return made._refresh()

    def __repr__(self) -> str:
        return f'<sourcemap.Builder{": closed" if self.closed else ""}>'


def _pack(token: NewToken) -> bytes:
    generated_line, generated_column, line, column, source_id, name_id, is_range = token
    return TOKEN.pack(uint32('generated_line', generated_line), uint32('generated_column', generated_column),
                      _or_none('line', line), _or_none('column', column), _or_none('source_id', source_id),
                      _or_none('name_id', name_id), is_range)


def _or_none(what: str, value: Optional[int]) -> int:
    return library.NONE if value is None else uint32(what, value)
