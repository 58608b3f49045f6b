"""Releases: the maps of a folder of build output, found by what stack traces say of generated files."""
from __future__ import annotations

import errno
import os
import re
import threading
import uuid
from collections import OrderedDict
from pathlib import Path
from typing import TYPE_CHECKING, Callable, Dict, Iterable, Iterator, List, Literal, NamedTuple, Optional, Set, Tuple, Union

from . import _cache
from ._compiled import CompiledMap
from ._compiler import CannotCompile
from ._generated import path_parts, reason_of
from ._view import locate_reference, resolve_path
from .errors import SourceMapError

if TYPE_CHECKING:
    from ._tables.opened import OpenedMap

By = Literal['debug id', 'reference', 'beside', 'path']
# the folders and the name of a file, below the folder of the release
Parts = Tuple[str, ...]

# How many answers of `find`, and how many open maps, a release keeps, and about how many bytes these may take.
MOST_ANSWERS = 20_000
MOST_MAPS = 256
MOST_BYTES = 64 << 20

# Only such files are searched for comments with debug ids, unless they are asked for.
_GENERATED = ('.js', '.mjs', '.cjs', '.css', '.bundle', '.jsbundle')
_COMMENT = re.compile(rb'//[#@] debugId=([0-9A-Fa-f-]{32,36})[ \t\r]*')
_DEBUG_ID = re.compile(r'[0-9A-Fa-f]{32}|[0-9A-Fa-f]{8}(?:-[0-9A-Fa-f]{4}){3}-[0-9A-Fa-f]{12}')
_KEY_OF_MAP = re.compile(rb'"debug(?:Id|_id)"')


class Match(NamedTuple):
    """What a release has for a generated file. Paths are those of files below the folder of the release.

    `map` is the file that the map is in, or None. `by` says what found it:

    - `'debug id'`: the debug id that was asked for, or that the generated file has in its comment `//# debugId=`;
    - `'reference'`: the reference in the generated file. Its map may be in the generated file itself (`embedded`);
    - `'beside'`: it is beside the generated file, as `a.min.js.map` or `a.min.map`;
    - `'path'`: the generated file is not there, and a map ends like its path with `.map` after it, or in place of its
      last suffix.

    `generated` is the generated file, or None. If several files fit equally well and lead to different maps, `map` is
    None, and `ambiguous` has them all. `why` says why there is no map.
    """

    map: Optional[Path] = None
    by: Optional[By] = None
    generated: Optional[Path] = None
    ambiguous: Tuple[Path, ...] = ()
    embedded: bool = False
    why: str = ''


class Problem(NamedTuple):
    """Why a frame has no map that can be asked. `is_bad` says that there is a map, which cannot be read."""

    is_bad: bool
    why: str


class Compiled(NamedTuple):
    """A compiled map: what it is cached by, its file, and which file that was when it was checked."""

    key: str
    path: Path
    stamp: Tuple[int, ...]

    @classmethod
    def checked(cls, key: str, path: Path) -> Compiled:
        """A compiled map that was just checked."""
        return cls(key, path, _stamp_of(path))

    def is_as_checked(self) -> bool:
        """Whether the file has not changed since it was checked."""
        return self.stamp == _stamp_of(self.path)


def _stamp_of(path: Path) -> Tuple[int, ...]:
    try:
        state = os.stat(path)
    except OSError:
        return ()
    return state.st_dev, state.st_ino, state.st_size, state.st_mtime_ns, state.st_ctime_ns


class Release:
    """The maps in a folder of build output.

    A generated file is found by its path or URL: it is the file below the folder whose path has the longest end in
    common with that path. A file whose whole path is such an end comes first. Then its map is the one with the debug id
    of the generated file, else the one that its reference leads to, else the one beside it. No path, URL or reference
    leads out of the folder; links are followed only within it.

    Maps are compiled once, into the folder `cache`; without it, into `furzehearth-sourcemap` where the user's caches
    are. Any number of processes may use one cache. Nothing is ever removed from it but damaged files.

    The folder is listed when a file is first asked for; later changes of its files are not seen. Threads may share a
    release, and other processes get it by pickling: they list the folder again.

    >>> import sourcemap
    >>> release = sourcemap.Release('.', cache='cache')
    >>> match = release.find('https://example.org/static/bundle.js?v=3')
    >>> match.map.name, match.by
    ('bundle.js.map', 'path')
    """

    def __init__(self, folder: Union[str, 'os.PathLike[str]'], cache: Union[str, 'os.PathLike[str]', None] = None) -> None:
        """Raises `NotADirectoryError` if there is no such folder."""
        self._begin(Path(folder).absolute(), Path(cache).absolute() if cache is not None else _cache.default_folder(),
                    uuid.uuid4().hex)
        self._check_folder()

    def _begin(self, folder: Path, cache: Path, token: str) -> None:
        self._folder = folder
        self._cache_folder = cache
        self._cache = _cache.Cache(cache)
        self._token = token
        self._lock = threading.RLock()
        self._files: Optional[_Files] = None
        self._ids: Optional[Dict[uuid.UUID, List[Match]]] = None
        self._keys: Dict[Path, str] = {}
        self._answers: Dict[Tuple[Optional[str], Optional[str]], Match] = {}
        self._compiled: Dict[str, Union[Compiled, Problem]] = {}
        self._opened: 'OrderedDict[str, OpenedMap]' = OrderedDict()

    def _check_folder(self) -> None:
        if not os.path.isdir(self._folder):
            raise NotADirectoryError(errno.ENOTDIR, os.strerror(errno.ENOTDIR), str(self._folder))

    @property
    def folder(self) -> Path:
        """The folder of the release."""
        return self._folder

    @property
    def cache(self) -> Path:
        """The folder of compiled maps."""
        return self._cache_folder

    def find(self, file: Optional[str], debug_id: Optional[str] = None) -> Match:
        """The map of a generated file, which is named as stack traces do, by its path or URL, and by its debug id if
        that is known. A debug id comes first. If no map has it, the file counts, but not if its map or the generated
        file has another debug id. A text that is no debug id counts as none.

        >>> import sourcemap
        >>> sourcemap.Release('.', cache='cache').find('other.js').why
        'the release has no file that ends like other.js, and no map of one'
        """
        key = (file, debug_id)
        with self._lock:
            if key not in self._answers:
                if len(self._answers) >= MOST_ANSWERS:
                    self._answers.clear()
                self._answers[key] = self._find(file, _debug_id_of(debug_id))
            return self._answers[key]

    def _find(self, file: Optional[str], debug_id: Optional[uuid.UUID]) -> Match:
        if debug_id is not None:
            match = self._with_id(debug_id)
            if match is not None:
                return match
        if not file:
            return Match(why='no file is named')
        match = self._of_file(file)
        if debug_id is not None and match.map is not None and not self._ids_of(match) <= {debug_id}:
            return Match(generated=match.generated, why=f'the map of {file} has another debug id than {debug_id}')
        return match

    # By debug id

    def _with_id(self, debug_id: uuid.UUID, generated: Optional[Path] = None) -> Optional[Match]:
        """The map of this debug id; None if no map has it."""
        if self._ids is None:
            self._ids = self._list_ids()
        found = self._ids.get(debug_id, [])
        return self._only([each._replace(generated=generated or each.generated) for each in found]) if found else None

    def _list_ids(self) -> Dict[uuid.UUID, List[Match]]:
        """The maps by their debug ids. If no map has the id of a generated file, its map counts."""
        listed = sorted(self._listed().paths)
        ids: Dict[uuid.UUID, List[Match]] = {}
        for path in (self._path(parts) for parts in listed if parts[-1].endswith('.map')):
            found = self._id_of_map(path)
            if found is not None:
                ids.setdefault(found, []).append(Match(path, 'debug id'))
        of_generated: Dict[uuid.UUID, List[Match]] = {}
        for parts in (parts for parts in listed if parts[-1].endswith(_GENERATED)):
            found, match = self._id_of_generated(parts)
            if found is not None and found not in ids:
                of_generated.setdefault(found, []).append(match)
        return {**ids, **of_generated}

    def _id_of_map(self, path: Path) -> Optional[uuid.UUID]:
        try:
            if _KEY_OF_MAP.search(path.read_bytes()) is None:
                return None
        except OSError:
            return None
        return self._id_of(Match(path))

    def _id_of_generated(self, parts: Parts) -> Tuple[Optional[uuid.UUID], Match]:
        """The debug id in the comment of a generated file, and its map. None if it has no such map."""
        text = self._text_of(self._path(parts))
        found = None if text is None else _id_in(text)
        if text is None or found is None:
            return None, Match()
        match = self._by_reference(parts, text) or self._beside(parts)
        if match is None or match.map is None or self._id_of(match) not in (None, found):
            return None, Match()
        return found, match._replace(by='debug id')

    def _ids_of(self, match: Match) -> Set[uuid.UUID]:
        """The debug ids that a map and its generated file have."""
        text = None if match.generated is None else self._text_of(match.generated)
        found = self._id_of(match), None if text is None else _id_in(text)
        return {each for each in found if each is not None}

    def _id_of(self, match: Match) -> Optional[uuid.UUID]:
        """The debug id that a map has itself."""
        found = self._checked(match)
        if isinstance(found, Problem):
            return None
        with CompiledMap(found.path) as map:
            return map.debug_id

    # By file

    def _of_file(self, file: str) -> Match:
        for name in dict.fromkeys([file, file.partition('?')[0]]):
            parts = path_parts(name)
            if parts:
                match = self._of_parts(parts)
                if match is not None:
                    return match
        return Match(why=f'the release has no file that ends like {file}, and no map of one')

    def _of_parts(self, parts: Parts) -> Optional[Match]:
        """The map of the file whose path ends like these parts; None if neither a file nor a map ends so."""
        folders, name = parts[:-1], parts[-1]
        generated = self._listed().ending_like(parts)
        maps = max((self._listed().ending_like((*folders, each)) for each in _names_of_maps(name)),
                   key=lambda found: found.length)
        matches: List[Match] = []
        if generated.length >= maps.length:
            matches = [self._of_generated(each) for each in generated.paths]
        if maps.length > 0 and all(each.map is None and not each.ambiguous for each in matches):
            return self._only([Match(self._path(each), 'path') for each in maps.paths])
        return self._only(matches) if matches else None

    def _of_generated(self, parts: Parts) -> Match:
        path = self._path(parts)
        text = self._text_of(path)
        found = None if text is None else _id_in(text)
        match = None if found is None else self._with_id(found, path)
        if match is None and text is not None:
            match = self._by_reference(parts, text)
        match = match or self._beside(parts)
        return match or Match(generated=path, why=f'{path.name} refers to no map of the release, and has none beside it')

    def _by_reference(self, parts: Parts, text: bytes) -> Optional[Match]:
        path = self._path(parts)
        try:
            reference = locate_reference(text)
            if reference is None:
                return None
            if reference.url.startswith('data:'):
                return Match(path, 'reference', path, embedded=True)
            target = resolve_path(reference.url, '/' + '/'.join(parts))
        except (SourceMapError, UnicodeEncodeError):  # a line, or the path of the file, is not UTF-8
            return None
        if target is not None and path_parts(target) in self._listed().paths:
            return Match(self._path(path_parts(target)), 'reference', path)
        found = self._listed().ending_like(path_parts(reference.url)).paths
        return self._only([Match(self._path(each), 'reference', path) for each in found]) if found else None

    def _beside(self, parts: Parts) -> Optional[Match]:
        folders, name = parts[:-1], parts[-1]
        for each in _names_of_maps(name):
            if (*folders, each) in self._listed().paths:
                return Match(self._path((*folders, each)), 'beside', self._path(parts))
        return None

    def _only(self, matches: List[Match]) -> Match:
        """The match, if there is one, or if all lead to maps of the same bytes. Else none, and the files of all."""
        if len(matches) > 1 and len({self._kind_of(each) for each in matches}) > 1:
            paths = tuple(each.map or each.generated or self._folder for each in matches)
            names = ', '.join(str(path.relative_to(self._folder)) for path in paths)
            return Match(ambiguous=paths, why=f'it is ambiguous, since these fit equally well: {names}')
        return matches[0]

    def _kind_of(self, match: Match) -> str:
        """What is equal of maps of the same bytes."""
        try:
            return '' if match.map is None else self._key_of(match.map, match.embedded)
        except OSError:
            return str(match.map)

    # Files

    def _listed(self) -> _Files:
        if self._files is None:
            self._check_folder()  # for another process it may be missing
            self._files = _Files(self._folder)
        return self._files

    def _path(self, parts: Parts) -> Path:
        return self._folder.joinpath(*parts)

    @staticmethod
    def _text_of(path: Path) -> Optional[bytes]:
        try:
            return path.read_bytes()
        except OSError:
            return None

    def _key_of(self, path: Path, embedded: bool) -> str:
        """What a map is cached by. Raises `OSError` if its file cannot be read."""
        if embedded:
            return _cache.key_of(_embedded_in(path).encode())
        if path not in self._keys:
            self._keys[path] = _cache.key_of_file(path)
        return self._keys[path]

    def _checked(self, match: Match) -> Union[Compiled, Problem]:
        """The compiled map, which was checked in this process, or why there is none. Raises `OSError` if the cache cannot
        be written."""
        if match.map is None:
            return Problem(False, match.why)
        with self._lock:
            try:
                key = self._key_of(match.map, match.embedded)
            except OSError as error:
                return Problem(not isinstance(error, FileNotFoundError), reason_of(error))
            found = self._compiled.get(key)
            # what is open stays as it is; what is opened again was checked as it is now
            if found is None or isinstance(found, Compiled) and not self.is_open(found) and not found.is_as_checked():
                found = self._compiled[key] = self._compile(match.map, match.embedded, key)
            return found

    def _compile(self, path: Path, embedded: bool, key: str) -> Union[Compiled, Problem]:
        found = self._cache.find(key)
        if found is None:
            try:
                data: Union[bytes, str] = _embedded_in(path) if embedded else path.read_bytes()
            except OSError as error:
                return Problem(not isinstance(error, FileNotFoundError), reason_of(error))
            try:
                found = self._cache.make(key, data)
            except MemoryError:
                return Problem(True, f'{path} takes more memory than a map of its size may take')
            except (CannotCompile, UnicodeEncodeError) as error:
                return Problem(True, f'{path}: {error}')
        return Compiled.checked(key, found)

    def open(self, file: Optional[str], debug_id: Optional[str] = None) -> CompiledMap:
        """The compiled map of a generated file. Raises `FileNotFoundError` if there is no map, `ValueError` if it cannot be
        read, `OSError` if the cache cannot be written.

        >>> import sourcemap
        >>> with sourcemap.Release('.', cache='cache').open('bundle.js') as compiled:
        ...     print(compiled.lookup(0, 5))
        coolstuff.js:0:4 name=x
        """
        found = self.compiled(file, debug_id)
        if isinstance(found, Problem):
            raise ValueError(found.why) if found.is_bad else FileNotFoundError(found.why)
        return CompiledMap(found.path)

    def compiled(self, file: Optional[str], debug_id: Optional[str]) -> Union[Compiled, Problem]:
        """The compiled map of a generated file, or why there is none. Raises `OSError` if the cache cannot be written."""
        return self._checked(self.find(file, debug_id))

    def is_open(self, compiled: Compiled) -> bool:
        """Whether a compiled map is open, to be asked by arrays."""
        return compiled.key in self._opened

    def opened(self, compiled: Compiled) -> OpenedMap:
        """A compiled map, to be asked by arrays. The last ones stay open for the next time. Needs numpy and pandas."""
        from ._tables.opened import OpenedMap

        with self._lock:
            if compiled.key not in self._opened:
                opened = OpenedMap(compiled.path)
                size = opened.size + sum(each.size for each in self._opened.values())
                while self._opened and (len(self._opened) >= MOST_MAPS or size > MOST_BYTES):
                    size -= self._opened.popitem(last=False)[1].size
                self._opened[compiled.key] = opened
            self._opened.move_to_end(compiled.key)
            return self._opened[compiled.key]

    def __repr__(self) -> str:
        return f'<sourcemap.Release: {self._folder}>'

    # To other processes

    def __reduce__(self) -> Tuple[Callable[..., Release], Tuple[Path, Path, str]]:
        return _shared, (self._folder, self._cache_folder, self._token)

    def __dask_tokenize__(self) -> Tuple[str, str, str]:
        return str(self._folder), str(self._cache_folder), self._token


# The releases that this process got by unpickling: a worker gets one with each partition, and lists its folder once.
_releases: 'OrderedDict[str, Release]' = OrderedDict()
_releases_lock = threading.Lock()
MOST_RELEASES = 4


def _shared(folder: Path, cache: Path, token: str) -> Release:
    with _releases_lock:
        if token not in _releases:
            while len(_releases) >= MOST_RELEASES:
                _releases.popitem(last=False)
            _releases[token] = Release.__new__(Release)
            _releases[token]._begin(folder, cache, token)
        _releases.move_to_end(token)
        return _releases[token]


class _Ends(NamedTuple):
    """Files, and how many parts of their paths they have in common with a path, counted from the name. Of files whose
    whole paths are an end of it, the number is a half more."""

    length: float
    paths: List[Parts]


class _Files:
    """The files below a folder. A link counts if it leads to a file below the folder."""

    def __init__(self, folder: Path) -> None:
        self.paths = set(_files_below(folder))
        self._by_name: Dict[str, List[Parts]] = {}
        for path in sorted(self.paths):
            self._by_name.setdefault(path[-1], []).append(path)

    def ending_like(self, parts: Parts) -> _Ends:
        """The files whose paths have the longest end in common with these parts, the name at least."""
        lengths = {path: _common_end(path, parts) for path in self._by_name.get(parts[-1] if parts else '', [])}
        longest = max(lengths.values(), default=0.0)
        return _Ends(longest, [path for path, length in lengths.items() if length == longest])


def _common_end(path: Parts, parts: Parts) -> float:
    length = 0
    for one, other in zip(reversed(path), reversed(parts)):
        if one != other:
            break
        length += 1
    return length + 0.5 if length == len(path) else length


def _files_below(folder: Path) -> Iterator[Parts]:
    root = os.path.realpath(folder)
    waiting: List[Parts] = [()]
    while waiting:
        parts = waiting.pop()
        try:
            entries = list(os.scandir(os.path.join(folder, *parts)))
        except OSError:  # a folder that may not be read has no files
            continue
        for entry in entries:
            here = (*parts, entry.name)
            if entry.is_dir(follow_symlinks=False):
                waiting.append(here)
            elif entry.is_file(follow_symlinks=False) or (entry.is_symlink() and _leads_below(entry.path, root)):
                yield here


def _leads_below(path: str, root: str) -> bool:
    target = os.path.realpath(path)
    return os.path.isfile(target) and os.path.commonpath([root, target]) == root


def _names_of_maps(name: str) -> Iterable[str]:
    """The names that the map of a file of this name may have."""
    stem, dot, _ = name.rpartition('.')
    return dict.fromkeys([f'{name}.map', f'{stem}.map' if dot and stem else f'{name}.map'])


def _debug_id_of(text: Optional[str]) -> Optional[uuid.UUID]:
    return uuid.UUID(text) if isinstance(text, str) and _DEBUG_ID.fullmatch(text) else None


def _id_in(text: bytes) -> Optional[uuid.UUID]:
    """The debug id in the last such comment of a generated text that stands on a line of its own."""
    at = len(text)
    while (at := max(text.rfind(b'//# debugId=', 0, at), text.rfind(b'//@ debugId=', 0, at))) >= 0:
        found = _COMMENT.match(text, at)
        starts_line = at == 0 or text[at - 1:at] in (b'\n', b'\r')
        if found is not None and starts_line and text[found.end():found.end() + 1] in (b'', b'\n'):
            return _debug_id_of(found[1].decode())
    return None


def _embedded_in(path: Path) -> str:
    """The `data:` URL that the generated text in a file refers to; empty if it has changed."""
    try:
        reference = locate_reference(path.read_bytes())
    except SourceMapError:  # a line is not UTF-8
        return ''
    return '' if reference is None else reference.url
