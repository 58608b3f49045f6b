"""Compiles maps in a process of its own, which may take so much memory and no more.

A limit of memory is one of a whole process. So it is set where nothing else runs: a map of a stranger takes no memory
from other threads, and one that ends its process ends nothing else.
"""
from __future__ import annotations

import atexit
import contextlib
import os
import resource
import struct
import subprocess
import sys
import threading
from pathlib import Path
from typing import IO, Iterator, Optional, Tuple, Union

from . import _library as library
from ._map import Map
from .errors import SourceMapError

# To compile a map takes at most 16 bytes for each byte of it, and a few of its kinds take more: docs/LIMITS.md. What
# takes more than this is hostile.
MEMORY_FOR_EACH_BYTE = 32
MEMORY_FOR_EACH_MAP = 64 << 20
# How many processes may end with one map.
MOST_DEATHS = 3

# What is asked and answered: a byte that says of which kind it is, how many bytes follow, and these.
_HEAD = struct.Struct('<BQ')
_JSON, _URL = range(2)
_COMPILED, _REFUSED, _TOO_MUCH_MEMORY, _READY = range(4)
_PROGRAM = 'import sys; sys.path.append(sys.argv[1]); from sourcemap._compiler import serve; serve()'


class CannotCompile(ValueError):
    """A map that cannot be compiled, and why."""


def compile_map(data: Union[bytes, str]) -> bytes:
    """The compiled map of JSON, or of a `data:` URL. Raises `CannotCompile`; `MemoryError` if that takes more memory than
    a map of this size may take; `UnicodeEncodeError` if a URL has half of a surrogate pair; `OSError` if no process can
    be started."""
    question = (_JSON, data) if isinstance(data, bytes) else (_URL, data.encode())
    with _lock:
        answers = (_ask(*question) for _ in range(MOST_DEATHS))
        kind, answer = next(filter(None, answers), (_REFUSED, b'each process that compiles it ends'))
    if kind == _TOO_MUCH_MEMORY:
        raise MemoryError
    if kind == _REFUSED:
        raise CannotCompile(answer.decode())
    return answer


_lock = threading.Lock()
_process: Optional['subprocess.Popen[bytes]'] = None


def _ask(kind: int, data: bytes) -> Optional[Tuple[int, bytes]]:
    """None if the process ended meanwhile, as one does that somebody kills."""
    try:
        process = _started()
        assert process.stdin is not None and process.stdout is not None
        with contextlib.suppress(BrokenPipeError):
            _send(process.stdin, kind, data)
        answer = _receive(process.stdout)
    except BaseException:  # what it answers is of no use any more
        _forget()
        raise
    if answer is None:
        _forget()
    return answer


def _started() -> 'subprocess.Popen[bytes]':
    global _process
    if _process is None:
        environment = dict(os.environ)
        if os.path.isabs(library._path):
            environment[library.VARIABLE] = os.path.dirname(library._path)
        # in a session of its own: Ctrl-C is for this process, with which that one ends
        _process = subprocess.Popen([sys.executable, '-I', '-S', '-c', _PROGRAM, str(Path(__file__).resolve().parents[1])],
                                    stdin=subprocess.PIPE, stdout=subprocess.PIPE, env=environment, start_new_session=True)
        assert _process.stdout is not None
        if _receive(_process.stdout) is None:
            raise ChildProcessError('the process that compiles maps did not start')
    return _process


@atexit.register
def _forget() -> None:
    """Ends the process, if there is one."""
    global _process
    ended, _process = _process, None
    if ended is not None:
        ended.kill()
        with contextlib.suppress(BrokenPipeError), ended:
            ended.wait()


def _after_fork() -> None:
    global _process, _lock
    _process, _lock = None, threading.Lock()


os.register_at_fork(after_in_child=_after_fork)


def _send(file: IO[bytes], kind: int, data: bytes) -> None:
    file.write(_HEAD.pack(kind, len(data)))
    file.write(data)
    file.flush()


def _receive(file: IO[bytes]) -> Optional[Tuple[int, bytes]]:
    """None if the other side has ended."""
    head = file.read(_HEAD.size)
    if len(head) < _HEAD.size:
        return None
    kind, length = _HEAD.unpack(head)
    data = file.read(length)
    return (kind, data) if len(data) == length else None


# In that process

def serve() -> None:
    """Answers until nobody asks any more."""
    with contextlib.suppress(BrokenPipeError):
        _send(sys.stdout.buffer, _READY, b'')
        while (asked := _receive(sys.stdin.buffer)) is not None:
            _send(sys.stdout.buffer, *_answer(*asked))


def _answer(kind: int, data: bytes) -> Tuple[int, bytes]:
    try:
        with bounded_memory(MEMORY_FOR_EACH_BYTE * len(data) + MEMORY_FOR_EACH_MAP), _load(kind, data) as map:
            return _COMPILED, map.compile()
    except MemoryError:
        return _TOO_MUCH_MEMORY, b''
    except SourceMapError as error:
        return _REFUSED, str(error).encode()


def _load(kind: int, data: bytes) -> Map:
    return Map.from_data_url(data.decode()) if kind == _URL else Map(data)


@contextlib.contextmanager
def bounded_memory(size: int) -> Iterator[None]:
    """Lets the process take at most `size` bytes of memory more, where the system has such a limit and says how much
    the process has. What would take more raises `MemoryError`."""
    limits = _memory_limits(size)
    if limits is None:
        yield
        return
    old, new = limits
    resource.setrlimit(resource.RLIMIT_AS, new)
    try:
        yield
    finally:
        resource.setrlimit(resource.RLIMIT_AS, old)


def _memory_limits(size: int) -> Optional[Tuple[Tuple[int, int], Tuple[int, int]]]:
    try:
        pages = int(Path('/proc/self/statm').read_text().split()[0])
    except (OSError, ValueError):
        return None
    old = resource.getrlimit(resource.RLIMIT_AS)
    wanted = pages * resource.getpagesize() + size
    soft = wanted if old[0] == resource.RLIM_INFINITY else min(wanted, old[0])
    return old, (soft, old[1])
