"""Generated files and their maps, found on the file system."""

from __future__ import annotations

import os
import re
import sys
from itertools import chain
from pathlib import Path
from typing import Dict, Iterator, NamedTuple, Optional, Tuple
from urllib.parse import unquote, urlsplit

from ._map import Map
from ._view import View, locate_reference, resolve_path
from .errors import SourceMapError

_URL = re.compile(r'[A-Za-z][A-Za-z0-9+.-]+:')
_WINDOWS_PATH = re.compile(r'[A-Za-z]:[\\/]|\\\\')


class Found(NamedTuple):
    """A map, and the file that its text is in."""

    map: Map
    path: Path


class Generated(NamedTuple):
    """A map, the file that its text is in, and the generated text. `view` is None if that text has no file, or is not
    UTF-8."""

    map: Map
    path: Path
    view: Optional[View]


def reason_of(error: Exception) -> str:
    """The text of an error. For an `OSError` that names a file, it is the file and the message of the system."""
    if isinstance(error, OSError) and error.filename is not None and error.strerror is not None:
        return f'{error.filename}: {error.strerror}'
    return str(error)


def open_map(path: Path) -> Found:
    """Reads a map from a file. An index map is flattened, so that its sources and contents have ids."""
    return Found(_flat(Map.load(path)), path)


def find_map(path: Path, text: bytes, root: Optional[Path] = None) -> Found:
    """The map of the generated text in a file: the one that the text refers to, or else the one beside the file. Raises
    `FileNotFoundError` if there is neither. With `root` a reference leads only to files below that folder. If it leads
    to none, the ends of its path are looked for below that folder, the longest first."""
    reference = locate_reference(text)
    if reference is not None and reference.url.startswith('data:'):
        return Found(_flat(Map.from_data_url(reference.url)), path)
    if reference is not None:
        target = _target_of(reference.url, path, root)
        if target is not None:
            return open_map(target)
    beside = map_beside(path)
    if beside is not None:
        return open_map(beside)
    refers = 'refers to no map' if reference is None else f'refers to {reference.url[:200]!r}, which is not there'
    raise FileNotFoundError(f'{path} {refers}, and there is no {path.name}.map')


def source_path(source: str, map_path: Path) -> Optional[str]:
    """The path of the file that a source leads to, by the map in this file; None if it leads to none, as a URL of a
    server."""
    folder = os.path.dirname(os.path.abspath(map_path))
    try:
        # a source without a path of its own leads to the map itself
        first, other = (resolve_path(source, f'{folder}/{name}') for name in ('map', 'other'))
    except UnicodeEncodeError:  # the path of the folder is not UTF-8
        return None
    return first if first == other else None


def _target_of(url: str, path: Path, root: Optional[Path]) -> Optional[Path]:
    target = resolve_path(url, str(path.absolute()))
    if target is not None and os.path.isfile(target) and (root is None or _is_below(target, root)):
        return Path(target)
    return None if root is None else next((end for end in ends_below(root, url) if os.path.isfile(end)), None)


def map_beside(path: Path) -> Optional[Path]:
    """The map beside a generated file: `a.min.js.map` or `a.min.map` of `a.min.js`; None if neither is there."""
    names = [Path(f'{path}.map'), *([path.with_suffix('.map')] if path.suffix else [])]
    return next((name for name in names if os.path.isfile(name)), None)


def _flat(map: Map) -> Map:
    if map.kind == 'index':
        map.flatten()
    return map


def _is_below(path: str, folder: Path) -> bool:
    return Path(os.path.abspath(folder)) in Path(os.path.abspath(path)).parents


def path_parts(file: str) -> Tuple[str, ...]:
    """The folders and the name of a file, which is named by a path or a URL. They are empty for a URL without a path,
    such as `node:fs`. Parts `..` are left out, so that the result never leads out of a folder."""
    if _WINDOWS_PATH.match(file):
        parts = re.split(r'[\\/]', file)[1:]
    else:
        parts = (_path_of_url(file) if _URL.match(file) else file).split('/')
    return tuple(part for part in parts if part not in ('', '.', '..'))


def _path_of_url(url: str) -> str:
    try:
        path = urlsplit(url).path
    except ValueError:
        return ''
    return unquote(path) if path.startswith('/') else ''


def ends_below(folder: Path, file: str) -> Iterator[Path]:
    """The paths that a file may have below a folder: the folder with each end of the file's path, the longest first."""
    parts = path_parts(file)
    return (folder.joinpath(*parts[first:]) for first in range(len(parts)))


def _path_named(file: str) -> Optional[str]:
    """The path of a frame's file, which may be named by a `file:` URL; None if that URL leads to no path."""
    if not file.startswith('file:'):
        return file
    try:
        return resolve_path(file, '/')
    except UnicodeEncodeError:  # bytes of the trace that are not UTF-8
        return None


class Finder:
    """Finds the generated file that a frame of a stack trace names, and its map.

    The file is the one below `root` whose path ends like the file of the frame. The longest end counts for which the
    file itself, or the map beside it, exists. Without `root` it is the file that the path names, or else one below the
    current folder. A path may end with a query, as `?v=1`. If `map` is given, it is the map of every file.
    """

    def __init__(self, root: Optional[Path] = None, map: Optional[Found] = None) -> None:
        self._root = root
        self._map = map
        self._found: Dict[str, Optional[Generated]] = {}

    def find(self, file: str) -> Optional[Generated]:
        """The map and the text of a file. None if there is no map, or if the map or the file can't be read. It is also
        None if the file refers to the file of its map, and the absolute path of the generated file is not UTF-8. The
        reason is printed once for the file, on standard error. Raises `MemoryError` if memory runs out."""
        if file not in self._found:
            path = next((path for path in self._candidates(file) if self._is_there(path)), None)
            self._found[file] = self._open(file, path)
        return self._found[file]

    def _candidates(self, file: str) -> Iterator[Path]:
        files = dict.fromkeys([file, file.partition('?')[0]])
        return chain.from_iterable(self._candidates_of(each) for each in files)

    def _candidates_of(self, file: str) -> Iterator[Path]:
        if self._root is not None:
            return ends_below(self._root, file)
        named = _path_named(file)
        return chain([] if named is None else [Path(named)], ends_below(Path(), file))

    @staticmethod
    def _is_there(path: Path) -> bool:
        return os.path.isfile(path) or map_beside(path) is not None

    def _open(self, file: str, path: Optional[Path]) -> Optional[Generated]:
        try:
            text = path.read_bytes() if path is not None and os.path.isfile(path) else None
            found = self._map if self._map is not None else self._map_of(path, text)
        except (OSError, SourceMapError, UnicodeEncodeError) as error:  # the last: the path of the file is not UTF-8
            print(f'sourcemap: the map of {printable(file if path is None else str(path))}: '
                  f'{printable(reason_of(error))}', file=sys.stderr)
            return None
        return Generated(*found, _view_of(text))

    def _map_of(self, path: Optional[Path], text: Optional[bytes]) -> Found:
        if path is None:
            where = 'the current folder' if self._root is None else str(self._root)
            raise FileNotFoundError(f'neither the file nor a map beside it is there, or below {where}')
        if text is not None:
            return find_map(path, text, self._root)
        beside = map_beside(path)
        if beside is None:
            raise FileNotFoundError(f'{path} is not there any more')
        return open_map(beside)


def printable(text: str) -> str:
    """The text with U+FFFD for each character that is not printable. A terminal might take such a character for a
    command."""
    return ''.join(unit if unit.isprintable() else '\N{REPLACEMENT CHARACTER}' for unit in text)


def _view_of(text: Optional[bytes]) -> Optional[View]:
    try:
        return None if text is None else View(text)
    except SourceMapError:
        return None
