"""Compiled maps in a folder: made once, by any number of processes, and made again if they are damaged."""
from __future__ import annotations

import contextlib
import fcntl
import hashlib
import os
import re
import threading
import uuid
import zlib
from pathlib import Path
from typing import Iterator, Optional, Union

from ._compiled import CompiledMap
from ._compiler import compile_map
from .errors import SourceMapError

_NAME = re.compile(r'[0-9a-f]{8}\.compiled')
_compiling = threading.Lock()
_BLOCK = 1 << 16


def default_folder() -> Path:
    """The folder for compiled maps if no other is named: `furzehearth-sourcemap` where the user's caches are."""
    caches = os.environ.get('XDG_CACHE_HOME')
    return (Path(caches) if caches else Path.home() / '.cache') / 'furzehearth-sourcemap'


def key_of(data: bytes) -> str:
    """What the compiled map of these bytes is found by: their SHA-256."""
    return hashlib.sha256(data).hexdigest()


def key_of_file(path: Path) -> str:
    """The key of the bytes in a file, which are read block by block."""
    digest = hashlib.sha256()
    block = bytearray(_BLOCK)
    with open(path, 'rb', buffering=0) as file:
        while (count := file.readinto(block)):
            digest.update(memoryview(block)[:count])
    return digest.hexdigest()


class Cache:
    """A folder of compiled maps. The one of key K is the file `K/C.compiled`, C being the CRC-32 of this file. So a byte
    that was changed is noticed, and not only what makes the file impossible to read.

    A file is written beside its place and then renamed: whoever opens it finds all of it.
    """

    def __init__(self, folder: Path) -> None:
        self._folder = folder

    def find(self, key: str) -> Optional[Path]:
        """The compiled map of a key, if it is there and whole. All of it is read. A damaged file is removed."""
        for path in self._candidates(key):
            if _is_whole(path):
                return path
            with contextlib.suppress(FileNotFoundError):
                path.unlink()
        return None

    def make(self, key: str, data: Union[bytes, str]) -> Path:
        """The compiled map of a key, made from JSON or a `data:` URL if it is not there. Of several processes one compiles,
        and the others wait for it. Raises what `compile_map` does, and `OSError` if the folder cannot be written."""
        folder = self._folder / key
        folder.mkdir(parents=True, exist_ok=True)
        with _compiling, self._locked(key):
            found = self.find(key)
            if found is None:
                compiled = compile_map(data)
                found = folder / f'{zlib.crc32(compiled):08x}.compiled'
                write_whole(found, compiled)
            return found

    def _candidates(self, key: str) -> Iterator[Path]:
        folder = self._folder / key
        try:
            names = sorted(os.listdir(folder))
        except FileNotFoundError:
            return iter(())
        return (folder / name for name in names if _NAME.fullmatch(name))

    @contextlib.contextmanager
    def _locked(self, key: str) -> Iterator[None]:
        """Lets one process at a time compile the map of a key. The lock is one byte of a file, and ends with its
        process. Where files cannot be locked, several may compile: they write the same bytes."""
        with open(self._folder / 'lock', 'ab') as file:
            try:
                fcntl.lockf(file, fcntl.LOCK_EX, 1, int(key[:15], 16))
            except OSError:
                pass
            yield


def _is_whole(path: Path) -> bool:
    try:
        if crc_of_file(path) != int(path.stem, 16):
            return False
        with CompiledMap(path) as map:
            map.verify()
    except FileNotFoundError:  # another process removed it
        return False
    except SourceMapError:
        return False
    return True


def crc_of_file(path: Path) -> int:
    """The CRC-32 of the bytes in a file."""
    crc = 0
    block = bytearray(_BLOCK)
    with open(path, 'rb', buffering=0) as file:
        while (count := file.readinto(block)):
            crc = zlib.crc32(memoryview(block)[:count], crc)
    return crc


def write_whole(path: Path, data: bytes) -> None:
    """Writes a file beside its place, and renames it. If this fails, nothing is left."""
    beside = path.with_name(f'.{path.name}.{uuid.uuid4().hex}')
    try:
        with open(beside, 'xb') as file:
            file.write(data)
        beside.replace(path)
    except BaseException:
        with contextlib.suppress(FileNotFoundError):
            beside.unlink()
        raise
