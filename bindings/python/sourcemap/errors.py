"""The exceptions that calls raise: a class for each error of the library.

Each is a subclass of `SourceMapError`. If memory runs out, Python's own `MemoryError` is raised instead. If several
errors apply, one of them is raised.

    >>> import sourcemap
    >>> try:
    ...     sourcemap.Map.loads(b'[]')
    ... except sourcemap.SourceMapError as error:
    ...     print(type(error).__name__, error.code, error)
    BadJson 4 bad json: a field has the wrong type
"""
from __future__ import annotations

from typing import ClassVar, Dict, Optional, Type, Union

from . import _library as library

__all__ = [
    'Absent', 'BadJson', 'BadNameReference', 'BadSegmentSize', 'BadSourceReference', 'CannotFlatten',
    'IncompatibleSourceMap', 'InvalidBase64', 'InvalidDataUrl', 'InvalidRamBundleEntry', 'InvalidRamBundleIndex',
    'InvalidRamBundleMagic', 'InvalidRangeMappingIndex', 'Io', 'NotARamBundle', 'OutOfOrder', 'PastLimit', 'Scroll',
    'SourceMapError', 'TextOutside', 'Truncated', 'Utf8', 'VlqLeftover', 'VlqNoValues', 'VlqOverflow', 'WrongExtent',
    'WrongKind', 'WrongMagic', 'WrongVersion',
]


class SourceMapError(Exception):
    """Any error of the library.

    `code` is its number in `sourcemap.h`, and `str(error)` is its text. Some errors have a `number`, such as the id of
    a source that does not exist: their classes say what it is. It is None for the others.

    >>> import sourcemap
    >>> try:
    ...     sourcemap.Map.loads('{"sources":[],"mappings":"ACAA"}')
    ... except sourcemap.SourceMapError as error:
    ...     print(type(error).__name__, error.number)
    BadSourceReference 1
    """

    code: ClassVar[int] = 0
    number: Optional[int] = None


class Io(SourceMapError, ValueError):
    """A junk header has a carriage return without a newline, or `locate_reference` met a line that is not UTF-8."""

    code = 1


class Utf8(SourceMapError, ValueError):
    """Bytes that should be text are not UTF-8."""

    code = 2


class Scroll(SourceMapError, ValueError):
    """A range passes the end of a bundle. It has `size` bytes from `start` on; the bundle has `length` bytes."""

    code = 3
    start: int = 0
    size: int = 0
    length: int = 0


class BadJson(SourceMapError, ValueError):
    """The text can't be read as the JSON of a source map.

    `number` is 0 if the text is not JSON or not UTF-8, has more than 127 levels, has a number too large for a float, or
    escapes one half of a surrogate pair without the other. `number` is 1 if the JSON is no object, if a field has the
    wrong type, or if a required field is missing.
    """

    code = 4


class VlqLeftover(SourceMapError, ValueError):
    """A segment of the mappings ends within a number."""

    code = 5


class VlqNoValues(SourceMapError, ValueError):
    """A segment of the mappings has no number."""

    code = 6


class VlqOverflow(SourceMapError, ValueError):
    """A number of a segment is too large."""

    code = 7


class BadSegmentSize(SourceMapError, ValueError):
    """A segment has `number` numbers, not 1, 4 or 5."""

    code = 8


class BadSourceReference(SourceMapError, ValueError):
    """A segment names source `number`, which does not exist."""

    code = 9


class BadNameReference(SourceMapError, ValueError):
    """A segment names name `number`, which does not exist."""

    code = 10


class IncompatibleSourceMap(SourceMapError, ValueError):
    """A count, a line or a column would pass its limit."""

    code = 11


class InvalidDataUrl(SourceMapError, ValueError):
    """The text is no data URL of the form that `Map.from_data_url` reads."""

    code = 12


class CannotFlatten(SourceMapError, ValueError):
    """An index map cannot become one regular map; the text says why."""

    code = 13


class InvalidRamBundleMagic(SourceMapError, ValueError):
    """A bundle does not begin with its magic number."""

    code = 14


class InvalidRamBundleIndex(SourceMapError, IndexError):
    """A bundle has no module of that number."""

    code = 15


class InvalidRamBundleEntry(SourceMapError, ValueError):
    """The entry of a module in a bundle is not valid. For an item of a `Split`: its module is invalid, whatever the
    reason. For example, the text of the module is not UTF-8.
    """

    code = 16


class NotARamBundle(SourceMapError, ValueError):
    """The index map is not one of a bundle: it has no `module_offsets`."""

    code = 17


class InvalidRangeMappingIndex(SourceMapError, ValueError):
    """Kept for its code; no call raises it."""

    code = 18


class InvalidBase64(SourceMapError, ValueError):
    """A byte of the mappings or of the range mappings is no digit of base 64. `number` is the value of this byte."""

    code = 19


class Absent(SourceMapError, LookupError):
    """There is no source, section or item of that id."""

    code = 32


class WrongKind(SourceMapError, TypeError):
    """The call is not possible on a map of this kind: an index map, for example, has no tokens of its own."""

    code = 33


class PastLimit(SourceMapError, OverflowError):
    """A line would pass 4294967295."""

    code = 34


class Truncated(SourceMapError, ValueError):
    """A compiled map has fewer than 64 bytes, or fewer than its header says."""

    code = 35


class WrongMagic(SourceMapError, ValueError):
    """Bytes do not begin as a compiled map does."""

    code = 36


class WrongVersion(SourceMapError, ValueError):
    """A compiled map has version `number`, which this library does not read."""

    code = 37


class WrongExtent(SourceMapError, ValueError):
    """A compiled map has more bytes than its header says, or its tables pass the end."""

    code = 38


class TextOutside(SourceMapError, ValueError):
    """A text of a compiled map ends before it begins, or past the end of the file."""

    code = 39


class OutOfOrder(SourceMapError, ValueError):
    """A token of a compiled map is before the token ahead of it."""

    code = 40


_CLASSES: Dict[int, Type[SourceMapError]] = {each.code: each for each in SourceMapError.__subclasses__()}
_WITH_NUMBER = (BadJson, BadSegmentSize, BadSourceReference, BadNameReference, InvalidBase64)


# the texts of errors for which the library writes none
_TEXTS = {
    Utf8.code: 'a text of the compiled map is not UTF-8',
    WrongKind.code: 'the object is of a kind that has no such call',
    Truncated.code: 'the compiled map is truncated',
    WrongMagic.code: 'not a compiled map',
    WrongVersion.code: 'unknown version of a compiled map',
    WrongExtent.code: 'a table of the compiled map has a wrong extent',
    TextOutside.code: 'a text passes the end of the compiled map',
    OutOfOrder.code: 'the compiled map is out of order',
}


def of_code(code: int) -> Union[SourceMapError, MemoryError]:
    """The exception for a code without a text: memory ran out, the object is of the wrong kind, or an error of a compiled
    map."""
    if code == library.OUT_OF_MEMORY:
        return MemoryError('out of memory')
    return _CLASSES[code](_TEXTS[code])


def of_error(error: library.Error) -> Union[SourceMapError, MemoryError]:
    """The exception for an sm_error. A text that is too long for the struct is cut, and ends in `...`."""
    kept = min(error.text_length, len(error.text) - 1)
    text = bytes(error.text[:kept]).decode(errors='ignore') + ('...' if kept < error.text_length else '')
    if error.code == library.OUT_OF_MEMORY:
        return MemoryError(text)
    exception = _CLASSES[error.code](text)
    if isinstance(exception, _WITH_NUMBER):
        exception.number = error.number
    if isinstance(exception, Scroll):
        exception.start, exception.size, exception.length = error.start, error.size, error.length
    return exception
