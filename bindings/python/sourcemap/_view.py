"""Generated texts: their lines, and the references to their maps."""
from __future__ import annotations

from ctypes import byref, c_bool, c_size_t
from typing import Iterator, List, NamedTuple, Optional, Sequence, Union, overload

from . import _library as library
from . import errors
from ._handle import Data, HandleOwner, MadeText, pointer_to, run, uint32
from ._texts import position_in


class View(HandleOwner, Sequence[str]):
    """A generated text as a sequence of its lines, without their ends.

    >>> import sourcemap
    >>> view = sourcemap.View('abc👌def\\nblah')
    >>> len(view), view[1]
    (2, 'blah')
    >>> view.slice(0, 3, 1)
    '👌'
    """

    def __init__(self, text: Data) -> None:
        """Copies a text. Bytes that are not UTF-8 raise `Utf8`."""
        self._begin()
        run(library.view_open, self._at, *pointer_to(text))

    @property
    def text(self) -> str:
        """The whole text.

        >>> import sourcemap
        >>> sourcemap.View('a()').text
        'a()'
        """
        return self._text(library.view_text) or ''

    def __len__(self) -> int:
        """How many lines the text has: one more than line ends."""
        lines = c_size_t()
        self._read(library.view_count, byref(lines))
        return lines.value

    @overload
    def __getitem__(self, index: int) -> str: ...

    @overload
    def __getitem__(self, index: slice) -> List[str]: ...

    def __getitem__(self, index: Union[int, slice]) -> Union[str, List[str]]:
        if isinstance(index, slice):
            return [self._line(each) for each in range(*index.indices(len(self)))]
        return self._line(position_in(self, index))

    def __iter__(self) -> Iterator[str]:
        return map(self._line, range(len(self)))

    def _line(self, number: int) -> str:
        return self._text(library.view_line, uint32('line', number)) or ''

    def slice(self, line: int, column: int, span: int) -> Optional[str]:
        """The part of a line from `column` up to the column `span` UTF-16 units later. If it would begin or end inside
        a surrogate pair, it begins or ends after the pair. None if there is no such line, or the part passes the end of
        the line.

        >>> import sourcemap
        >>> sourcemap.View('let a;\\nlet b;').slice(1, 4, 1)
        'b'
        """
        return self._text(library.view_slice, uint32('line', line), uint32('column', column), uint32('span', span))

    def __repr__(self) -> str:
        return '<sourcemap.View: closed>' if self.closed else f'<sourcemap.View: {len(self)} lines>'


class Reference(NamedTuple):
    """The reference in a generated text to its map: the URL as written there, and whether its comment begins with
    `//@`.

    >>> import sourcemap
    >>> sourcemap.locate_reference('//@ sourceMappingURL=a.map')
    Reference(url='a.map', is_legacy=True)
    """

    url: str
    is_legacy: bool


def locate_reference(text: Data) -> Optional[Reference]:
    """The first reference in a generated text to its map; None if there is none. `Io` if a line is not UTF-8, and no
    line before it has a reference.

    >>> import sourcemap
    >>> sourcemap.locate_reference('run();\\n//# sourceMappingURL=run.js.map\\n')
    Reference(url='run.js.map', is_legacy=False)
    """
    is_legacy = c_bool()
    with MadeText() as url:
        try:
            run(library.locate_reference, *pointer_to(text), url._at, byref(is_legacy))
        except errors.Absent:
            return None
        return Reference(url.read().decode(), is_legacy.value)


def resolve(url: str, base: str) -> Optional[str]:
    """The URL that the reference `url` leads to from `base`, the URL of its text. None if it leads to no URL, such as a
    `data:` URL, or if `base` is no URL. May also be None if `url` and `base` together have 2^28 bytes or more; escapes
    that parsing adds to `base` count too.

    >>> import sourcemap
    >>> sourcemap.resolve('../m/a.js.map', 'http://localhost/x/y/a.js')
    'http://localhost/x/m/a.js.map'
    """
    return _resolve(library.resolve, url, base)


def resolve_path(url: str, path: str) -> Optional[str]:
    """The path that the reference `url` leads to from `path`, the path of its text. None if it leads to no path, such
    as a `data:` URL or a URL that is not of a file, or if `path` does not begin with `/`. May also be None if
    `url` and the `file:` URL of `path`, with its escapes and each `..`, together have 2^28 bytes or more.

    >>> import sourcemap
    >>> sourcemap.resolve_path('../m/a.js.map', '/x/y/a.js')
    '/x/m/a.js.map'
    """
    return _resolve(library.resolve_path, url, path)


def relative_path(base: str, target: str) -> str:
    """The path that leads from the folder of the file `base` to the file `target`. Both must be absolute paths, or both
    relative. No folder of `base` may be `.` or `..`. Otherwise the path may lead to another file. A slash and a
    backslash both separate folders.

    >>> import sourcemap
    >>> sourcemap.relative_path('/foo/bar/baz.js', '/foo/baz.map')
    '../baz.map'
    """
    return _make_text_of(library.relative_path, base, target)


def _resolve(call: library.Call, url: str, base: str) -> Optional[str]:
    try:
        return _make_text_of(call, url, base)
    except errors.Absent:
        return None


def _make_text_of(call: library.Call, one: str, other: str) -> str:
    with MadeText() as result:
        run(call, *pointer_to(one), *pointer_to(other), result._at)
        return result.read().decode()


def is_source_map(data: Data) -> bool:
    """Whether these bytes hold a JSON object with the keys of a source map. A key whose value is null counts as
    missing. If `version` has a value that is no whole number from 0 to 4294967295, the answer is False. No other value
    is checked, so `Map.loads` may still refuse the bytes.

    >>> import sourcemap
    >>> sourcemap.is_source_map('{"version":3,"sources":[],"mappings":""}'), sourcemap.is_source_map('[]')
    (True, False)
    """
    answer = c_bool()
    run(library.is_source_map, *pointer_to(data), byref(answer))
    return answer.value
