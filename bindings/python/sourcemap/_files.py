"""The files of the sources of a map, for checks."""
from __future__ import annotations

import errno
import os
from functools import partial
from typing import Callable, List, Mapping, Optional, Union

from ._handle import Data
from ._map import Map
from .errors import SourceMapError

# A folder, or the bytes of files by the names of sources.
Sources = Union[str, 'os.PathLike[str]', Mapping[str, Data]]

# What the library takes for no file, since it is not UTF-8.
_NONE = b'\xff'

_MISSING = (errno.ENOENT, errno.EISDIR, errno.ENOTDIR, errno.EINVAL, errno.ENAMETOOLONG)


def _names(data: Data) -> List[str]:
    """The resolved names of the sources that a check looks at, by id: of an index map those of its flat map."""
    try:
        with Map.loads(data) as map:
            if map.kind == 'index':
                map.flatten()
            return list(map.sources)
    except SourceMapError:
        return []


def _file_below(folder: str, name: str) -> Optional[bytes]:
    """The file of a name below a folder. A name that leads out of the folder has none."""
    if name.startswith('/') or '..' in name.split('/') or '\0' in name:
        return None
    try:
        with open(os.path.join(folder, name), 'rb') as file:
            return file.read()
    except OSError as error:
        if error.errno in _MISSING:
            return None
        raise


def _bytes_of(file: Optional[Data]) -> bytes:
    if file is None:
        return _NONE
    return file.encode() if isinstance(file, str) else memoryview(file).tobytes()


def _finder(sources: Sources) -> Callable[[str], Optional[Data]]:
    """What finds the file of a source by its resolved name."""
    if isinstance(sources, Mapping):
        return sources.get
    return partial(_file_below, os.fspath(sources))


def files_of(data: Data, sources: Sources) -> List[bytes]:
    """The bytes of the file of each source of a map, by id."""
    find = _finder(sources)
    return [_bytes_of(find(name)) for name in _names(data)]
