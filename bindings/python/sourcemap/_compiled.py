"""Compiled maps: files that are looked up where they lie."""
from __future__ import annotations

import os
import struct
import uuid
from ctypes import (POINTER, Structure, byref, c_char, c_char_p, c_int, c_size_t, c_ssize_t, c_void_p, py_object,
                    pythonapi, string_at)
from itertools import starmap
from mmap import ACCESS_READ, mmap
from types import TracebackType
from typing import TYPE_CHECKING, Any, Dict, Iterable, List, Optional, Sequence, Tuple, Type, Union

from . import _library as library
from . import errors
from ._handle import empty_text, pointer_to_words, read_text, uint32
from ._texts import LazySequence
from ._tokens import FOUND, POSITION, Answers, Positions, Token, make_token, words_of

if TYPE_CHECKING:
    from array import array

Buffer = Union[bytes, bytearray, memoryview, mmap, 'array[int]']

# what each lookup uses, as names of the module: these are found faster than attributes
_ONE = c_size_t(1)
_NONE = library.NONE
_lookup_one = library.compiled_lookup_one
_Found = library.Found
_pack_position = POSITION.pack
_unpack_found = FOUND.unpack


class _Buffer(Structure):
    """Py_buffer of the C API of Python, by which read-only memory has an address too."""

    _fields_ = [('buf', c_void_p), ('obj', c_void_p), ('len', c_ssize_t), ('itemsize', c_ssize_t),
                ('readonly', c_int), ('ndim', c_int), ('format', c_char_p), ('shape', POINTER(c_ssize_t)),
                ('strides', POINTER(c_ssize_t)), ('suboffsets', POINTER(c_ssize_t)), ('internal', c_void_p)]


_get_buffer = pythonapi.PyObject_GetBuffer
_get_buffer.argtypes = [py_object, POINTER(_Buffer), c_int]
_get_buffer.restype = c_int
_release_buffer = pythonapi.PyBuffer_Release
_release_buffer.argtypes = [POINTER(_Buffer)]
_release_buffer.restype = None


class _Texts(Dict[int, Optional[str]]):
    """Texts of a compiled map by id, each read on first use."""

    def __init__(self, call: library.Call, *file: Any) -> None:
        super().__init__({_NONE: None})
        self._call = call
        self._file = file

    def __missing__(self, id: int) -> Optional[str]:
        text = read_text(self._call, *self._file, id)
        self[id] = None if text is None else text.decode()
        return self[id]


class _File:
    """The bytes of a compiled map, which stay where they are as long as this object is there, and the texts that were
    read of them."""

    # kept in the class, as in HandleOwner
    _release = staticmethod(_release_buffer)

    def __init__(self, data: Buffer) -> None:
        self._buffer = _Buffer()
        _get_buffer(data, byref(self._buffer), 0)
        # the library takes no null pointer, not even that of no bytes
        self.at = c_void_p(self._buffer.buf or empty_text().at)
        self.length = c_size_t(self._buffer.len)
        self.sources = _Texts(library.compiled_source, self.at, self.length)
        self.names = _Texts(library.compiled_name, self.at, self.length)

    def __del__(self) -> None:
        if '_buffer' in self.__dict__:
            self._release(byref(self._buffer))

    def check(self, call: library.Call, *arguments: Any) -> bool:
        """Makes a call. Returns False if it found nothing (SM_ABSENT)."""
        code = call(self.at, self.length, *arguments)
        if code and code != library.ABSENT:
            error = errors.of_code(code)
            if isinstance(error, errors.WrongVersion):
                error.number = int.from_bytes(string_at(self._buffer.buf + 4, 4), 'little')
            raise error
        return bool(code == library.OK)

    def text(self, call: library.Call, *arguments: Any) -> Optional[str]:
        text = read_text(call, self.at, self.length, *arguments)
        return None if text is None else text.decode()

    def _tokens_of(self, rows: Iterable[Tuple[Any, ...]]) -> List[Any]:
        """Tokens, each made of the fields of an sm_found."""
        return list(starmap(self.token, rows))

    def token(self, line: int, column: int, original_line: int, original_column: int, source: int, name: int,
              is_range: bool, found: bool) -> Optional[Token]:
        if not found:
            return None
        name_id = None if name == _NONE else name
        if source == _NONE:
            return make_token((None, None, None, self.names[name], is_range, line, column, None, name_id))
        return make_token((self.sources[source], original_line, original_column, self.names[name], is_range, line,
                           column, source, name_id))


class CompiledMap:
    """A compiled map: a file that `Map.compile` made, looked up where it lies, without decoding.

    >>> import sourcemap
    >>> with sourcemap.Map.load('bundle.js.map') as map, open('bundle.compiled', 'wb') as file:
    ...     _ = file.write(map.compile())
    >>> with sourcemap.CompiledMap('bundle.compiled') as compiled:
    ...     print(compiled.lookup(0, 5))
    coolstuff.js:0:4 name=x

    The file is mapped into memory, and only its header is read. So it opens in the same time whatever its size, and
    processes that open it share its memory. Any number of threads may use one object at once: it has no lock. Do not
    change the file as long as it is open: to replace it, write a new file and rename it.

    Opening raises `Truncated`, `WrongMagic`, `WrongVersion` or `WrongExtent` if the file is no compiled map. A damaged
    file may pass that. No call reads outside of it, but answers may be wrong, and a call that reads a text may raise
    `TextOutside` or `Utf8`. Call `verify` once for a file of an origin that you do not trust.
    """

    def __init__(self, path: Union[str, 'os.PathLike[str]']) -> None:
        """Maps a file. Raises `OSError` if it cannot be read, or an error of `sourcemap.errors`."""
        with open(path, 'rb') as file:
            is_empty = os.fstat(file.fileno()).st_size == 0
            self._open(b'' if is_empty else mmap(file.fileno(), 0, access=ACCESS_READ))

    @classmethod
    def from_bytes(cls, data: Buffer) -> CompiledMap:
        """The compiled map in these bytes, or in another buffer that is contiguous. It is not copied: do not change it as
        long as the map is open.

        >>> import sourcemap
        >>> map = sourcemap.Map.load('bundle.js.map')
        >>> len(sourcemap.CompiledMap.from_bytes(map.compile()))
        9
        """
        self = cls.__new__(cls)
        self._open(data)
        return self

    def _open(self, data: Buffer) -> None:
        file = _File(data)
        file.check(library.compiled_check)
        self._file: Optional[_File] = file

    def _get(self) -> _File:
        file = self._file
        if file is None:
            raise ValueError('this CompiledMap is closed')
        return file

    def close(self) -> None:
        """Unmaps the file, once no `Answers` need it. A later call raises `ValueError`; a second `close` does nothing."""
        self._file = None

    @property
    def closed(self) -> bool:
        """Whether the map was closed."""
        return self._file is None

    def __enter__(self) -> CompiledMap:
        return self

    def __exit__(self, kind: Optional[Type[BaseException]], error: Optional[BaseException],
                 trace: Optional[TracebackType]) -> None:
        self.close()

    def verify(self) -> None:
        """Reads the whole file. Raises `OutOfOrder` if its tokens are not sorted; then a lookup may find another token
        than the closest one. Otherwise raises `TextOutside` or `Utf8` if a text cannot be read.

        >>> import sourcemap
        >>> map = sourcemap.Map.load('bundle.js.map')
        >>> sourcemap.CompiledMap.from_bytes(map.compile()).verify()
        """
        self._get().check(library.compiled_verify)

    # What the map says

    def _counts(self) -> library.Counts:
        counts = library.Counts()
        self._get().check(library.compiled_count, byref(counts))
        return counts

    def __len__(self) -> int:
        """How many tokens the map has."""
        return int(self._counts().tokens)

    def __bool__(self) -> bool:
        """True, also of a map without tokens."""
        return True

    def _texts(self, counted: str, call: library.Call) -> Sequence[Optional[str]]:
        return LazySequence(lambda: int(getattr(self._counts(), counted)), lambda id: self._get().text(call, id))

    @property
    def file(self) -> Optional[str]:
        """The name of the generated file; None if the map names none.

        >>> import sourcemap
        >>> map = sourcemap.Map.load('bundle.js.map')
        >>> map.file = 'bundle.js'
        >>> sourcemap.CompiledMap.from_bytes(map.compile()).file
        'bundle.js'
        """
        return self._get().text(library.compiled_file)

    @property
    def debug_id(self) -> Optional[uuid.UUID]:
        """The debug id; None if there is none.

        >>> import sourcemap, uuid
        >>> map = sourcemap.Map.load('bundle.js.map')
        >>> map.debug_id = uuid.UUID(int=42)
        >>> sourcemap.CompiledMap.from_bytes(map.compile()).debug_id == map.debug_id
        True
        """
        id = library.DebugId()
        is_there = self._get().check(library.compiled_debug_id, byref(id))
        return uuid.UUID(bytes=bytes(id.bytes)) if is_there else None

    @property
    def sources(self) -> Sequence[Optional[str]]:
        """The sources by id, resolved. Each is read when it is used. None stands for a source that a damaged file does not
        have.

        >>> import sourcemap
        >>> map = sourcemap.Map.load('bundle.js.map')
        >>> list(sourcemap.CompiledMap.from_bytes(map.compile()).sources)
        ['coolstuff.js']
        """
        return self._texts('sources', library.compiled_source)

    @property
    def names(self) -> Sequence[Optional[str]]:
        """The names by id. Each is read when it is used. None stands for a name that a damaged file does not have.

        >>> import sourcemap
        >>> map = sourcemap.Map.load('bundle.js.map')
        >>> list(sourcemap.CompiledMap.from_bytes(map.compile()).names)
        ['x', 'alert']
        """
        return self._texts('names', library.compiled_name)

    @property
    def contents(self) -> Sequence[Optional[str]]:
        """The contents of each source, by its id; None if the map was compiled without them. Each is read when it is
        used.

        >>> import sourcemap
        >>> map = sourcemap.Map.load('bundle.js.map')
        >>> map.set_contents(0, 'alert(1)')
        >>> list(sourcemap.CompiledMap.from_bytes(map.compile()).contents)
        ['alert(1)']
        """
        return self._texts('sources', library.compiled_contents)

    # Lookups

    def lookup(self, line: int, column: int) -> Optional[Token]:
        """The closest token to a generated position, as `Map.lookup` finds it: the first one at the position, or else the
        last one before it, whichever line that is on. None if there is none. Of an index map that was compiled, it is
        that of the flattened map.

        >>> import sourcemap
        >>> compiled = sourcemap.CompiledMap.from_bytes(sourcemap.Map.load('bundle.js.map').compile())
        >>> token = compiled.lookup(0, 18)
        >>> token.source, token.line, token.column, token.name
        ('coolstuff.js', 2, 2, 'alert')
        """
        file = self._file or self._get()
        try:
            position = _pack_position(line, column)
        except struct.error:
            uint32('line', line), uint32('column', column)
            raise
        found = _Found()
        if not _lookup_one(file.at, file.length, position, _ONE, byref(found), _ONE):
            file.check(library.compiled_check)
        return file.token(*_unpack_found(found))

    def lookup_many(self, positions: Positions) -> Answers:
        """The answers of `lookup` to many positions at once: a sequence in the same order. Positions are pairs, or a
        buffer of uint32 with the line and the column of each in turn, as `Map.lookup_many` takes them.

        >>> import sourcemap
        >>> from array import array
        >>> compiled = sourcemap.CompiledMap.from_bytes(sourcemap.Map.load('bundle.js.map').compile())
        >>> [token.line for token in compiled.lookup_many([(0, 5), (0, 18)])]
        [0, 2]
        >>> compiled.lookup_many(array('I', [0, 5, 0, 18])).lines.tolist()
        [0, 2]
        """
        file = self._get()
        words = words_of(positions)
        count = words.nbytes // POSITION.size
        # an empty bytearray would not be aligned
        found = bytearray(max(count, 1) * FOUND.size)
        at = (c_char * 0).from_buffer(found)
        answered = library.compiled_lookup_many(file.at, file.length, pointer_to_words(words), count, at, count)
        if answered < count:
            file.check(library.compiled_check)
        return Answers(file, None, memoryview(found)[:count * FOUND.size])

    def scope_at(self, line: int, column: int) -> Optional[str]:
        """Of a Hermes map that was compiled: the name of the function that contains the original position of the closest
        token; None if it is not known, and for any other map.

        >>> import sourcemap
        >>> map = sourcemap.Map.loads('{"sources":["a.js"],"mappings":"AAAA",'
        ...                           '"x_facebook_sources":[[{"names":["main"],"mappings":"AAA"}]]}')
        >>> sourcemap.CompiledMap.from_bytes(map.compile()).scope_at(0, 5)
        'main'
        """
        return self._get().text(library.compiled_scope, uint32('line', line), uint32('column', column))

    def __repr__(self) -> str:
        if self.closed:
            return '<sourcemap.CompiledMap: closed>'
        counts = self._counts()
        return f'<sourcemap.CompiledMap: {counts.tokens} tokens, {counts.sources} sources>'
