"""What all objects have: a handle of the library, a lock, and calls that copy the texts which they read."""
from __future__ import annotations

import operator
import threading
import uuid
from ctypes import addressof, byref, c_char, c_char_p, c_void_p, cast, create_string_buffer, string_at
from types import TracebackType
from typing import TYPE_CHECKING, Any, Iterable, List, Optional, Tuple, Type, TypeVar, Union

from . import _library as library
from . import errors

if TYPE_CHECKING:
    from array import array
    from mmap import mmap

Self = TypeVar('Self', bound='HandleOwner')

# Bytes, or a text, which is passed as UTF-8. Any other buffer works too, but type checkers know only these.
Data = Union[str, bytes, bytearray, memoryview, 'mmap', 'array[int]']

_EMPTY = create_string_buffer(1)


def uint32(what: str, value: int) -> int:
    """The value, if it is a whole number of 32 bits without sign; else `ValueError` or `TypeError`."""
    number = operator.index(value)
    if not 0 <= number <= library.NONE:
        raise ValueError(f'{what} must be from 0 to {library.NONE}, not {number}')
    return number


def pointer_to(data: Data) -> Tuple[Any, int]:
    """What ctypes passes as a pointer to these bytes, and how many there are. Bytes, and writable buffers that are
    C-contiguous, are not copied."""
    if isinstance(data, str):
        data = data.encode()
    if not isinstance(data, bytes):
        view = memoryview(data)
        if view.c_contiguous and not view.readonly:
            return (c_char * 0).from_buffer(view), view.nbytes
        data = view.tobytes()
    return data, len(data)


def optional(text: Optional[Data]) -> Tuple[bool, Any, int]:
    """A text that may be missing: whether it is present, its bytes, and how many there are."""
    return (text is not None, *pointer_to('' if text is None else text))


def debug_id_of(id: Optional[uuid.UUID]) -> library.DebugId:
    if id is None:
        return library.DebugId()
    if not isinstance(id, uuid.UUID):
        raise TypeError(f'a debug id is a uuid.UUID, not {id!r}')
    return library.DebugId.from_buffer_copy(id.bytes)


def empty_text() -> library.Text:
    """An empty text, as calls that write one expect it: its pointer is not null."""
    return library.Text(addressof(_EMPTY), 0)


def encode_texts(what: str, texts: Iterable[str]) -> List[bytes]:
    """The UTF-8 bytes of each text. A single `str` is refused, since it would be read as a list of its characters."""
    if isinstance(texts, str):
        raise TypeError(f'{what} is a list of texts, not a text')
    return [text.encode() for text in texts]


def array_of(texts: List[bytes]) -> Any:
    """What ctypes passes as a pointer to these texts. The caller keeps the texts alive."""
    return (library.Text * max(len(texts), 1))(*(library.Text(cast(c_char_p(text), c_void_p).value, len(text))
                                                 for text in texts))


def pointer_to_words(words: memoryview) -> Any:
    """What ctypes passes as a pointer to numbers. They are copied if they are read-only, not C-contiguous, or not
    aligned to 4 bytes."""
    pointer, _ = pointer_to(words)
    if not isinstance(pointer, bytes) and addressof(pointer) % 4:
        return words.tobytes()
    return pointer


def copy_text(text: library.Text) -> bytes:
    return string_at(text.at, text.length)


def read_text(call: library.Call, *arguments: Any) -> Optional[bytes]:
    """A copy of the text that a call writes; None if there is none. The caller holds the lock of the handle."""
    text = empty_text()
    code = call(*arguments, byref(text))
    if code == library.ABSENT:
        return None
    if code:
        raise errors.of_code(code)
    return copy_text(text)


def run(call: library.Call, *arguments: Any) -> None:
    """Makes a call that takes an sm_error, and raises the error if it fails."""
    error = library.Error()
    if call(*arguments, byref(error)):
        raise errors.of_error(error)


class HandleOwner:
    """An object that owns a handle. The lock of the object lets one call at a time use the handle."""

    # kept in the class: when the interpreter ends, it may delete the names of the module before the last objects
    _close = staticmethod(library.close)

    # for an object whose __init__ did not run: a handle that stays empty
    _at: Any = byref(library.Handle())
    _lock = threading.Lock()

    def _begin(self) -> None:
        """Makes an empty handle and a lock for the object."""
        self._at = byref(library.Handle())
        self._lock = threading.Lock()

    @classmethod
    def _empty(cls: Type[Self]) -> Self:
        """An object whose handle a call will fill."""
        self = cls.__new__(cls)
        self._begin()
        return self

    def close(self) -> None:
        """Frees the memory at once, except what another object shares with this one. A later call that needs this
        memory raises `ValueError`; a second `close` does nothing."""
        with self._lock:
            self._close(self._at)

    @property
    def closed(self) -> bool:
        """Whether the object was closed."""
        with self._lock:
            return self._is_empty()

    def _is_empty(self) -> bool:
        return bool(library.kind(self._at) == library.KIND_EMPTY)

    def _check_open(self) -> None:
        if self._is_empty():
            raise self._closed_error()

    def _closed_error(self) -> ValueError:
        return ValueError(f'this {type(self).__name__} is closed')

    def _run(self, call: library.Call, *arguments: Any) -> None:
        with self._lock:
            self._run_locked(call, *arguments)

    def _run_locked(self, call: library.Call, *arguments: Any) -> None:
        try:
            run(call, self._at, *arguments)
        except errors.WrongKind:
            self._check_open()
            raise

    def _read(self, call: library.Call, *arguments: Any) -> bool:
        """Makes a call that takes no sm_error. Returns False if it found nothing (SM_ABSENT)."""
        with self._lock:
            code = call(self._at, *arguments)
            if code == library.WRONG_KIND:
                self._check_open()
        if code and code != library.ABSENT:
            raise errors.of_code(code)
        return bool(code == library.OK)

    def _bytes(self, call: library.Call, *arguments: Any) -> Optional[bytes]:
        with self._lock:
            try:
                return read_text(call, self._at, *arguments)
            except errors.WrongKind:
                self._check_open()
                raise

    def _text(self, call: library.Call, *arguments: Any) -> Optional[str]:
        text = self._bytes(call, *arguments)
        return None if text is None else text.decode()

    def __enter__(self: Self) -> Self:
        return self

    def __exit__(self, kind: Optional[Type[BaseException]], error: Optional[BaseException],
                 trace: Optional[TracebackType]) -> None:
        self.close()

    def __del__(self) -> None:
        # without the lock: nothing else refers to the object
        if '_at' in self.__dict__:
            self._close(self._at)

    def __copy__(self) -> Any:
        raise TypeError(f'cannot copy {type(self).__name__!r} object')

    def __deepcopy__(self, memo: Any) -> Any:
        return self.__copy__()

    def __reduce_ex__(self, protocol: Any) -> Any:
        raise TypeError(f'cannot pickle {type(self).__name__!r} object')


class MadeText(HandleOwner):
    """A text that a call makes."""

    def __init__(self) -> None:
        self._begin()

    def read(self) -> bytes:
        text = read_text(library.bytes_text, self._at)
        return b'' if text is None else text
