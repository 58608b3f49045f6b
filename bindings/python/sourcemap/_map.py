"""Maps: what they say, lookups, changes, and how they are written."""
from __future__ import annotations

import os
import struct
import uuid
from ctypes import byref, c_bool, c_char, c_size_t, c_uint32
from itertools import starmap
from typing import Any, Dict, Iterable, Iterator, List, Literal, Optional, Sequence, Tuple, Type, TypeVar, Union

from . import _library as library
from . import errors
from ._handle import (Data, HandleOwner, MadeText, array_of, debug_id_of, encode_texts, optional, pointer_to,
                      pointer_to_words, read_text, run, uint32)
from ._texts import LazySequence
from ._tokens import BLOCK, FOUND, POSITION, TOKEN, Answers, Positions, Token, make_token, words_of
from ._view import View

Kind = Literal['regular', 'index', 'hermes']
AnyMap = TypeVar('AnyMap', bound='Map')

_KINDS: Dict[int, Kind] = {library.KIND_REGULAR: 'regular', library.KIND_INDEX: 'index', library.KIND_HERMES: 'hermes'}
_INDEX_HAS_NONE = 'an index map has no {} of its own: see its sections, or flatten it'


# what each lookup uses, as names of the module: these are found faster than attributes
_ONE = c_size_t(1)
_NONE = library.NONE
_lookup_one = library.lookup_one
_pack_position = POSITION.pack_into
_unpack_found = FOUND.unpack


class _Cached(Dict[int, Optional[str]]):
    """Texts of a map by id, read on first use. The caller holds the lock of the map."""

    def __init__(self, call: library.Call, at: Any) -> None:
        super().__init__({library.NONE: None})
        self._call = call
        self._at = at

    def __missing__(self, id: int) -> Optional[str]:
        text = read_text(self._call, self._at, id)
        self[id] = None if text is None else text.decode()
        return self[id]


class Section:
    """A part of an index map.

    It begins at the generated `line` and `column`. `has_map` says whether it holds a map. `url` is the URL of its map,
    or None.
    """

    def __init__(self, index: Map, id: int) -> None:
        """Made by `Map.sections`."""
        start = library.SectionStart()
        index._read(library.section_start_of, id, byref(start))
        self._index = index
        self._id = id
        self._map: Optional[Map] = None
        self.line: int = start.line
        self.column: int = start.column
        self.has_map: bool = start.has_map
        self.url: Optional[str] = index._text(library.section_url, id) if start.has_url else None

    @property
    def map(self) -> Optional[Map]:
        """A copy of the map of the section, made on first use; None if the section has no map. A change of the copy
        does not change the index map."""
        if self.has_map and self._map is None:
            copied = Map._empty()
            self._index._run(library.section, self._id, copied._at)
            self._map = copied._refresh()
        return self._map

    def __repr__(self) -> str:
        return f'<sourcemap.Section {self.line}:{self.column}>'


class Map(HandleOwner):
    """A source map: regular, an index map, or a Hermes map.

    >>> import sourcemap
    >>> with sourcemap.Map.load('bundle.js.map') as map:
    ...     print(map.lookup(0, 5))
    coolstuff.js:0:4 name=x

    Lines and columns count from 0, columns in UTF-16 units.

    Several threads may use one map: a lock lets one call at a time use it. For lookups at the same time give each
    thread its own `share()`. Do not use a map from a signal handler or a `__del__` that may interrupt a call of the
    same map.
    """

    def __init__(self, data: Data) -> None:
        """The same as `Map.loads(data)`."""
        self._begin()
        pointer, length = pointer_to(data)
        run(library.open_bytes, self._at, pointer, length)
        self._refresh()

    @classmethod
    def load(cls: Type[AnyMap], path: Union[str, 'os.PathLike[str]']) -> AnyMap:
        """Reads a map of any kind from a file. Raises `OSError` if the file can't be read, or an error of `loads`.

        >>> import sourcemap
        >>> sourcemap.Map.load('bundle.js.map').kind
        'regular'
        """
        with open(path, 'rb') as file:
            return cls(file.read())

    @classmethod
    def loads(cls: Type[AnyMap], data: Data) -> AnyMap:
        """Reads a map of any kind from JSON. A junk header before the JSON is skipped.

        >>> import sourcemap
        >>> sourcemap.Map.loads('{"version":3,"sources":["a.js"],"names":[],"mappings":"AAAA"}')
        <sourcemap.Map: regular, 1 tokens, 1 sources>

        Raises an error of `sourcemap.errors` if this is no map. A `str` that has no UTF-8 raises `UnicodeEncodeError`.
        Bytes, and writable buffers that are C-contiguous, are not copied. Do not change a buffer during the call.
        """
        return cls(data)

    @classmethod
    def from_data_url(cls: Type[AnyMap], url: str) -> AnyMap:
        """Reads the map in a `data:` URL. The URL begins with `data:application/json`. Then it has `;charset=utf-8`,
        `;charset=utf8` or nothing, and then `;base64,` and base64 with padding, as an encoder writes it. The case of
        letters counts. Raises `InvalidDataUrl` if the text has another form, and the errors of `loads` if the bytes in
        the URL are no map.

        >>> import sourcemap
        >>> map = sourcemap.Map.from_data_url('data:application/json;base64,eyJtYXBwaW5ncyI6IkEifQ==')
        >>> [(token.generated_line, token.generated_column, token.source) for token in map]
        [(0, 0, None)]
        """
        made = cls._empty()
        pointer, length = pointer_to(url)
        run(library.open_url, made._at, pointer, length)
        return made._refresh()

    def _begin(self) -> None:
        super()._begin()
        # the structs of one lookup: its position, and its answer
        self._position = bytearray(POSITION.size)
        self._position_at = byref((c_char * POSITION.size).from_buffer(self._position))
        self._found = bytearray(FOUND.size)
        self._found_at = byref((c_char * FOUND.size).from_buffer(self._found))

    def _refresh(self: AnyMap) -> AnyMap:
        """Reads the kind and drops the cached texts, after the handle was filled or its map changed."""
        self._kind = _KINDS[library.kind(self._at)]
        self._sources = _Cached(library.source, self._at)
        self._names = _Cached(library.name, self._at)
        return self

    def share(self: AnyMap) -> AnyMap:
        """Another `Map` with the same content, without a copy, such as for another thread. A change of one is not seen
        by the other: the first change copies what they share. `copy.copy` and `copy.deepcopy` do the same.

        >>> import sourcemap
        >>> map = sourcemap.Map.load('bundle.js.map')
        >>> other = map.share()
        >>> other.remove_names()
        >>> list(map.names), list(other.names)
        (['x', 'alert'], [])
        """
        other = self._empty()
        self._run(library.share, other._at)
        return other._refresh()

    def __copy__(self: AnyMap) -> AnyMap:
        return self.share()

    def equals(self, other: Map) -> bool:
        """Whether both maps are of one kind and equal in all that they hold. Sources are compared as they are written,
        before they are resolved. The order of each list counts. A map equals itself.

        >>> import sourcemap
        >>> map = sourcemap.Map.load('bundle.js.map')
        >>> other = map.share()
        >>> map.equals(other)
        True
        >>> other.remove_names()
        >>> map.equals(other)
        False
        """
        if self is other:
            return True
        answer = c_bool()
        with other.share() as shared:
            self._read(library.equal, shared._at, byref(answer))
        return answer.value

    # What the map says

    def _counts(self) -> library.Counts:
        counts = library.Counts()
        self._read(library.count, byref(counts))
        return counts

    def _count_of(self, what: str) -> int:
        """How many of these the map has; `WrongKind` of an index map."""
        counts = self._counts()
        if self._kind == 'index':
            raise errors.WrongKind(_INDEX_HAS_NONE.format(what))
        return int(getattr(counts, what))

    @property
    def kind(self) -> Kind:
        """`'regular'`, `'index'` or `'hermes'`."""
        with self._lock:
            self._check_open()
            return self._kind

    @property
    def file(self) -> Optional[str]:
        """The name of the generated file; None if the map names none. It is `'<invalid>'` if the JSON has a `file` that
        is neither a text nor null. May be set; None removes it.

        >>> import sourcemap
        >>> map = sourcemap.Map.load('bundle.js.map')
        >>> map.file = 'bundle.js'
        >>> map.file
        'bundle.js'
        """
        return self._text(library.file)

    @file.setter
    def file(self, text: Optional[str]) -> None:
        self._change(library.set_file, *optional(text))

    @property
    def source_root(self) -> Optional[str]:
        """What `sources` are resolved against; None if the map has no `sourceRoot`, as every index map. May be set, but
        an index map then raises `WrongKind`; None removes it.

        >>> import sourcemap
        >>> map = sourcemap.Map.load('bundle.js.map')
        >>> map.source_root = '/src'
        >>> list(map.sources)
        ['/src/coolstuff.js']
        """
        return self._text(library.source_root)

    @source_root.setter
    def source_root(self, text: Optional[str]) -> None:
        self._change(library.set_source_root, *optional(text))

    @property
    def debug_id(self) -> Optional[uuid.UUID]:
        """The debug id; None if there is none. May be set; None removes it.

        >>> import sourcemap, uuid
        >>> map = sourcemap.Map.load('bundle.js.map')
        >>> map.debug_id = uuid.UUID(int=42)
        >>> map.debug_id
        UUID('00000000-0000-0000-0000-00000000002a')
        """
        id = library.DebugId()
        return uuid.UUID(bytes=bytes(id.bytes)) if self._read(library.get_debug_id, byref(id)) else None

    @debug_id.setter
    def debug_id(self, id: Optional[uuid.UUID]) -> None:
        self._change(library.set_debug_id, id is not None, byref(debug_id_of(id)))

    @property
    def sources(self) -> Sequence[str]:
        """The sources by id, resolved against `source_root`. Each is read when it is used.

        An index map has no sources, names, contents, ignore list and tokens of its own: to read them raises
        `WrongKind`. Look at its sections, or flatten it.

        >>> import sourcemap
        >>> map = sourcemap.Map.load('bundle.js.map')
        >>> list(map.sources), map.sources[0]
        (['coolstuff.js'], 'coolstuff.js')
        """
        return LazySequence(lambda: self._count_of('sources'), self._source)

    @property
    def names(self) -> Sequence[str]:
        """The names by id. Each is read when it is used.

        >>> import sourcemap
        >>> map = sourcemap.Map.load('bundle.js.map')
        >>> list(map.names)
        ['x', 'alert']
        """
        return LazySequence(lambda: self._count_of('names'), self._name)

    @property
    def contents(self) -> Sequence[Optional[str]]:
        """The contents of each source, by its id; None for a source without contents. Each is read when it is used.

        >>> import sourcemap
        >>> map = sourcemap.Map.load('bundle.js.map')
        >>> list(map.contents)
        [None]
        """
        return LazySequence(lambda: self._count_of('sources'), lambda id: self._text(library.contents, id))

    def _source(self, id: int) -> str:
        return self._require(self._text(library.source, id), id)

    def _name(self, id: int) -> str:
        return self._require(self._text(library.name, id), id)

    @staticmethod
    def _require(text: Optional[str], id: int) -> str:
        if text is None:
            raise IndexError(f'the map was changed: nothing has the number {id} any more')
        return text

    @property
    def ignore_list(self) -> Tuple[int, ...]:
        """The ids on the ignore list, in rising order. An id may name no source. `ignore_source` adds one.

        >>> import sourcemap
        >>> map = sourcemap.Map.load('bundle.js.map')
        >>> map.ignore_source(0)
        >>> map.ignore_list
        (0,)
        """
        count = self._count_of('ignored')
        ids = (c_uint32 * max(count, 1))()
        with self._lock:
            written = library.ignore_list_from(self._at, 0, ids, count)
        return tuple(ids[:written])

    @property
    def sections(self) -> Tuple[Section, ...]:
        """The sections of an index map; empty for other maps. They stay as they are when the map is changed.

        >>> import sourcemap
        >>> index = sourcemap.Map.loads('{"version":3,"sections":[{"offset":{"line":2,"column":0},'
        ...                             '"map":{"sources":["a.js"],"mappings":"AAAA"}}]}')
        >>> [(section.line, section.map.sources[0]) for section in index.sections]
        [(2, 'a.js')]
        """
        index = self.share()
        return tuple(Section(index, id) for id in range(index._counts().sections))

    @property
    def module_offsets(self) -> Optional[Tuple[Optional[int], ...]]:
        """Of the index map of a RAM bundle: the line at which each module begins. An item is None if no module has its
        number, or if the line is 4294967295. The whole is None if the index map has no such list. Raises `WrongKind` of
        other maps.

        >>> import sourcemap
        >>> index = sourcemap.Map.loads('{"version":3,"sections":[],"x_facebook_offsets":[0,null,7]}')
        >>> index.module_offsets
        (0, None, 7)
        """
        lines: List[Optional[int]] = []
        block = (c_uint32 * BLOCK)()
        written = c_size_t(BLOCK)
        while written.value == BLOCK:
            if not self._read(library.module_offsets, len(lines), block, BLOCK, byref(written)):
                return None
            lines.extend(None if line == _NONE else line for line in block[:written.value])
        return tuple(lines)

    @property
    def module_paths(self) -> Optional[Tuple[str, ...]]:
        """Of the index map of a RAM bundle: the paths of its modules. None if it has no such list; `WrongKind` of
        other maps.

        >>> import sourcemap
        >>> index = sourcemap.Map.loads('{"version":3,"sections":[],"x_metro_module_paths":["a.js"]}')
        >>> index.module_paths
        ('a.js',)
        """
        if not self._read(library.module_path_count, byref(c_size_t())):
            return None
        paths: List[str] = []
        while (path := self._text(library.module_path, len(paths))) is not None:
            paths.append(path)
        return tuple(paths)

    def __len__(self) -> int:
        """How many tokens the map has."""
        return self._count_of('tokens')

    def __bool__(self) -> bool:
        """True, also of a map without tokens."""
        return True

    def __repr__(self) -> str:
        if self.closed:
            return '<sourcemap.Map: closed>'
        counts = self._counts()
        if self._kind == 'index':
            return f'<sourcemap.Map: index, {counts.sections} sections>'
        return f'<sourcemap.Map: {self._kind}, {counts.tokens} tokens, {counts.sources} sources>'

    # Tokens and lookups

    def __iter__(self) -> Iterator[Token]:
        """The same as `tokens()`."""
        return self.tokens()

    def tokens(self) -> Iterator[Token]:
        """An iterator over the tokens in order. It has those of the map at the time of the call: a later change or
        `close` does not matter.

        >>> import sourcemap
        >>> map = sourcemap.Map.load('bundle.js.map')
        >>> [(token.generated_column, str(token)) for token in map.tokens()][:2]
        [(0, 'coolstuff.js:0:0'), (3, 'coolstuff.js:0:4 name=x')]
        """
        self._count_of('tokens')
        return self._read_tokens(self.share())

    @staticmethod
    def _read_tokens(shared: Map) -> Iterator[Token]:
        block = bytearray(BLOCK * TOKEN.size)
        at = (c_char * 0).from_buffer(block)
        first = 0
        with shared:
            while True:
                with shared._lock:
                    count = library.tokens(shared._at, first, at, BLOCK)
                yield from shared._tokens_of(TOKEN.iter_unpack(memoryview(block)[:count * TOKEN.size]))
                if count < BLOCK:
                    return
                first += count

    def _tokens_of(self, rows: Iterable[Tuple[Any, ...]]) -> List[Any]:
        """Tokens, each made of the fields of an sm_token or an sm_found."""
        with self._lock:
            return list(starmap(self._token, rows))

    def _section_tokens_of(self, positions: Iterable[Tuple[Any, ...]], rows: Iterable[Tuple[Any, ...]]) -> List[Any]:
        with self._lock:
            return [self._section_token(*position, *row) for position, row in zip(positions, rows)]

    def _token(self, line: int, column: int, original_line: int, original_column: int, source: int, name: int,
               is_range: bool, found: bool = True) -> Optional[Token]:
        if not found:
            return None
        name_id = None if name == _NONE else name
        if source == _NONE:
            return make_token((None, None, None, self._names[name], is_range, line, column, None, name_id))
        return make_token((self._sources[source], original_line, original_column, self._names[name], is_range,
                           line, column, source, name_id))

    def _section_token(self, asked_line: int, asked_column: int, line: int, column: int, original_line: int,
                       original_column: int, source: int, name: int, is_range: bool, found: bool) -> Optional[Token]:
        """A token of an index map. Its ids are those of the section's map, so its texts are read by position."""
        if not found:
            return None
        name_bytes = read_text(library.lookup_name, self._at, asked_line, asked_column)
        name_text = None if name_bytes is None else name_bytes.decode()
        if source == _NONE:
            return make_token((None, None, None, name_text, is_range, line, column, None, None))
        source_bytes = read_text(library.lookup_source, self._at, asked_line, asked_column)
        source_text = None if source_bytes is None else source_bytes.decode()
        return make_token((source_text, original_line, original_column, name_text, is_range, line, column, None, None))

    def lookup(self, line: int, column: int) -> Optional[Token]:
        """The closest token to a generated position: the first one at the position, or else the last one before it,
        whichever line that is on. None if there is none. If it is a range token on the line looked up, the distance
        from it to the position is added to its `column`, up to 4294967295. In an index map only the closest section is
        asked: the first one that begins at the position, or else the last one before it.

        >>> import sourcemap
        >>> map = sourcemap.Map.load('bundle.js.map')
        >>> token = map.lookup(0, 5)
        >>> token.source, token.line, token.column, token.name
        ('coolstuff.js', 0, 4, 'x')
        >>> map.lookup(1000, 0).generated_line  # compare it if only tokens of the same line count
        0
        """
        with self._lock:
            try:
                _pack_position(self._position, 0, line, column)
            except struct.error:
                uint32('line', line), uint32('column', column)
                raise
            if not _lookup_one(self._at, self._position_at, _ONE, self._found_at, _ONE):
                raise self._closed_error()
            if self._kind == 'index':
                return self._section_token(line, column, *_unpack_found(self._found))
            return self._token(*_unpack_found(self._found))

    def lookup_text(self, line: int, column: int) -> Optional[str]:
        """The text of the closest token to a generated position, as the library prints it: SOURCE:LINE:COLUMN, with
        ` name=NAME` if there is a name. None if there is no token.

        >>> import sourcemap
        >>> map = sourcemap.Map.load('bundle.js.map')
        >>> map.lookup_text(0, 5)
        'coolstuff.js:0:4 name=x'
        """
        line, column = uint32('line', line), uint32('column', column)
        with MadeText() as text:
            try:
                self._run(library.lookup_text, line, column, text._at)
            except errors.Absent:
                return None
            return text.read().decode()

    def lookup_many(self, positions: Positions) -> Answers:
        """The answers of `lookup` to many positions at once: a sequence in the same order.

        >>> import sourcemap
        >>> from array import array
        >>> map = sourcemap.Map.load('bundle.js.map')
        >>> [token.line for token in map.lookup_many([(0, 5), (0, 18)])]
        [0, 2]
        >>> map.lookup_many(array('I', [0, 5, 0, 18])).lines.tolist()
        [0, 2]

        Positions are pairs, or a buffer of uint32 with the line and the column of each in turn, such as an `array('I')`
        or a memoryview. A buffer that is writable, C-contiguous and aligned is not copied, unless the map is an index
        map. Do not change a buffer during the call.
        """
        words = words_of(positions)
        count = words.nbytes // POSITION.size
        # an empty bytearray would not be aligned
        found = bytearray(max(count, 1) * FOUND.size)
        at = (c_char * 0).from_buffer(found)
        with self._lock:
            self._check_open()
            copied = words.tobytes() if self._kind == 'index' else None
            shared = self._empty()
            run(library.share, self._at, shared._at)
            library.lookup_many(self._at, pointer_to_words(words), count, at, count)
        return Answers(shared._refresh(), copied, memoryview(found)[:count * FOUND.size])

    def trace(self, positions: str) -> str:
        """The answers to a list of positions, LINE:COLUMN on each line. Both count from 0 and are at most 4294967295.
        The answer to each is SOURCE:LINE:COLUMN, with ` name=NAME` if there is a name. It is `none` if the position has
        no closest token, and `bad position` if the line of the list is no position. A newline follows each answer. A
        newline in a source or a name stays in the answer.

        >>> import sourcemap
        >>> map = sourcemap.Map.load('bundle.js.map')
        >>> print(map.trace('0:5\\n0:x'), end='')
        coolstuff.js:0:4 name=x
        bad position
        """
        with MadeText() as text:
            self._run(library.trace, *pointer_to(positions), text._at)
            return text.read().decode()

    def function_name(self, line: int, column: int, minified: str = '', view: Optional[View] = None) -> Optional[str]:
        """The name of the function that contains a generated position; None if it is not known.

        A Hermes map has the names itself, but only for line 0, where `column` is the offset in the bytecode. On other
        lines it gives None. If the functions of a source are not in order, the name may be wrong or missing. With other
        maps the name is guessed from the tokens, the generated text in `view` and the minified name of the function. In
        an index map `view` is read at the positions of the tokens in the map of their section: the start of the section
        is not added.

        >>> import sourcemap
        >>> map = sourcemap.Map.loads('{"sources":["a.js"],"names":["main"],"mappings":"AAAA,SAASA"}')
        >>> map.function_name(0, 12, 'a', sourcemap.View('function a(){}'))
        'main'
        """
        line, column = uint32('line', line), uint32('column', column)
        text = View('') if view is None else view
        with text._lock:
            text._check_open()
            return self._text(library.function_name, line, column, *pointer_to(minified), text._at)

    def hermes_function_name(self, offset: int) -> Optional[str]:
        """Of a Hermes map: the name of the function at an offset of the bytecode; None if it is not known. If the
        functions of a source are not in order, the name may be wrong or missing. `WrongKind` of any other map.

        >>> import sourcemap
        >>> map = sourcemap.Map.loads('{"sources":["a.js"],"mappings":"AAAA",'
        ...                           '"x_facebook_sources":[[{"names":["main"],"mappings":"AAA"}]]}')
        >>> map.hermes_function_name(5)
        'main'
        """
        return self._text(library.hermes_function_name, uint32('offset', offset))

    def scope_for(self, source: int, line: int, column: int) -> Optional[str]:
        """Of a Hermes map: the name of the function that contains a position of the source with this id; None if it is
        not known. So a token has a name on whichever generated line it is. If the functions of a source are not in
        order, the name may be wrong or missing. `WrongKind` of any other map.

        >>> import sourcemap
        >>> map = sourcemap.Map.loads('{"sources":["a.js"],"mappings":";AAAA",'
        ...                           '"x_facebook_sources":[[{"names":["main"],"mappings":"AAA"}]]}')
        >>> token = map.lookup(1, 0)
        >>> map.scope_for(token.source_id, token.line, token.column)
        'main'
        """
        return self._text(library.scope_for, uint32('source', source), uint32('line', line), uint32('column', column))

    # Changes

    def _change(self, call: library.Call, *arguments: Any) -> None:
        with self._lock:
            self._run_locked(call, *arguments)
            self._refresh()

    def rewrite(self, *, names: bool = True, contents: bool = True, strip_prefixes: Iterable[str] = ()) -> None:
        """Keeps only the sources and names that tokens use, in the order of their first use, and the contents of these
        sources. Sources are resolved against `source_root`. Then `source_root` and the ignore list are removed.
        `names=False` removes all names, `contents=False` all contents. Raises `WrongKind` of an index map.

        Cuts from each source the first of `strip_prefixes` that it begins with. A prefix without `/` at its end gets
        one. The prefix `'~'` is tried last. It stands for the common path of all sources that are absolute paths before
        they are resolved: `/a` for `/a/b` and `/a/bc`. Unused sources count too. If the common path is empty or `/`,
        `'~'` removes nothing.

        >>> import sourcemap
        >>> map = sourcemap.Map.loads('{"version":3,"sources":["/x/a.js","/x/b.js"],"names":[],"mappings":"ACAA"}')
        >>> map.rewrite(strip_prefixes=['/x'])
        >>> map.sources
        ['b.js']
        """
        prefixes = encode_texts('strip_prefixes', strip_prefixes)
        self._change(library.rewrite, names, contents, array_of(prefixes), len(prefixes))

    def flatten(self) -> None:
        """Turns an index map into a regular map. Wherever the index map gives an answer, the regular map gives the
        same original position, source and name, under one premise: in the index map, and in each index map inside of
        it, each section and all its tokens start before the next section. Raises `CannotFlatten` if it cannot make the
        regular map; the text of the error says why. Raises `WrongKind` of other maps. Call `share` first if you need
        both maps:

        >>> import sourcemap
        >>> index = sourcemap.Map.loads('{"version":3,"sections":[{"offset":{"line":2,"column":0},'
        ...                             '"map":{"sources":["a.js"],"mappings":"AAAA"}}]}')
        >>> flat = index.share()
        >>> flat.flatten()
        >>> index.kind, flat.kind, flat.sources
        ('index', 'regular', ['a.js'])
        """
        self._change(library.flatten)

    def compose(self, later: Map) -> None:
        """Adjusts this regular map by `later`, the regular map of a later text that was made of this map's generated
        text. The map then maps positions of the later text to the sources of this map. `IncompatibleSourceMap` if a
        token would pass column 4294967295; `WrongKind` if either map is not regular.

        >>> import sourcemap
        >>> map = sourcemap.Map.load('bundle.js.map')
        >>> later = sourcemap.Map.loads('{"sources":["bundle.js"],"names":[],"mappings":";AAAA"}')
        >>> map.compose(later)
        >>> str(map.lookup(1, 5))
        'coolstuff.js:0:4 name=x'
        """
        with later.share() as shared:
            self._change(library.compose, shared._at)

    def shift(self, lines: int) -> None:
        """Moves each section of an index map so many lines further down. `PastLimit` if one would pass line 4294967295;
        `WrongKind` of other maps.

        >>> import sourcemap
        >>> index = sourcemap.Map.loads('{"version":3,"sections":[{"offset":{"line":2,"column":0}}]}')
        >>> index.shift(3)
        >>> index.sections
        (<sourcemap.Section 5:0>,)
        """
        self._change(library.shift, uint32('lines', lines))

    def set_source(self, id: int, text: str) -> None:
        """Sets the text of the source of this id, which the map resolves against `source_root`. `Absent` if there is no
        such source; `WrongKind` of an index map.

        >>> import sourcemap
        >>> map = sourcemap.Map.load('bundle.js.map')
        >>> map.set_source(0, 'a.js')
        >>> str(map.lookup(0, 5))
        'a.js:0:4 name=x'
        """
        self._change(library.set_source, uint32('id', id), *pointer_to(text))

    def set_contents(self, id: int, text: Optional[str]) -> None:
        """Sets the contents of the source of this id; None removes them. `Absent` if there is no such source;
        `WrongKind` of an index map.

        >>> import sourcemap
        >>> map = sourcemap.Map.load('bundle.js.map')
        >>> map.set_contents(0, 'var x;')
        >>> list(map.contents)
        ['var x;']
        """
        self._change(library.set_contents, uint32('id', id), *optional(text))

    def ignore_source(self, id: int) -> None:
        """Puts the source of this id on the ignore list. `Absent` if there is no such source; `WrongKind` of an index
        map.

        >>> import sourcemap
        >>> map = sourcemap.Map.load('bundle.js.map')
        >>> map.ignore_source(0)
        >>> map.ignore_list
        (0,)
        """
        self._change(library.ignore_source, uint32('id', id))

    def remove_names(self) -> None:
        """Removes all names. Tokens keep their name ids, which then name nothing.

        >>> import sourcemap
        >>> map = sourcemap.Map.load('bundle.js.map')
        >>> map.remove_names()
        >>> str(map.lookup(0, 5))
        'coolstuff.js:0:4'
        """
        self._change(library.remove_names)

    # Writing

    def _write(self, call: library.Call) -> bytes:
        with MadeText() as text:
            self._run(call, text._at)
            return text.read()

    def dumps(self) -> bytes:
        """The map as JSON, in UTF-8.

        A token on line L is written after L bytes of `;`, up to 4 GB: look at the last token before you write an
        untrusted map.

        >>> import sourcemap
        >>> map = sourcemap.Map.loads('{"sources":["a.js"],"mappings":"AAAA"}')
        >>> map.dumps()
        b'{"mappings":"AAAA","names":[],"sources":["a.js"],"version":3}'
        """
        return self._write(library.write)

    def dump(self, path: Union[str, 'os.PathLike[str]']) -> None:
        """Writes the map as JSON to a file.

        >>> import sourcemap
        >>> map = sourcemap.Map.load('bundle.js.map')
        >>> map.dump('copy.js.map')
        >>> map.equals(sourcemap.Map.load('copy.js.map'))
        True
        """
        text = self.dumps()
        with open(path, 'wb') as file:
            file.write(text)

    def compile(self, *, contents: bool = True) -> bytes:
        """The map as a compiled map, for a file that `CompiledMap` opens without decoding it. It has the tokens, sources,
        names, `file` and `debug_id`, the contents unless `contents` is false, and the functions of a Hermes map. It has
        no ignore list, and its sources are resolved. An index map is compiled as `flatten` flattens it, with its errors.
        Equal maps give equal bytes. Raises `IncompatibleSourceMap` if there would be 2^32 bytes or more.

        >>> import sourcemap
        >>> map = sourcemap.Map.load('bundle.js.map')
        >>> str(sourcemap.CompiledMap.from_bytes(map.compile()).lookup(0, 5))
        'coolstuff.js:0:4 name=x'
        """
        with MadeText() as made:
            self._run(library.compile_map, contents, made._at)
            return made.read()

    def to_data_url(self) -> str:
        """The map as a `data:` URL.

        >>> import sourcemap
        >>> map = sourcemap.Map.load('bundle.js.map')
        >>> sourcemap.Map.from_data_url(map.to_data_url()).equals(map)
        True
        """
        return self._write(library.write_url).decode()
