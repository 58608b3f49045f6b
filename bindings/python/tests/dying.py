"""What a worker does that dies, or raises an error. Each call gets a folder and a number."""
from __future__ import annotations

import os
import signal
import time
from pathlib import Path


def _die() -> None:
    os.kill(os.getpid(), signal.SIGKILL)


def twice_a_number(folder: Path, number: int) -> int:
    """Of 7 and 13 each process dies that is asked first."""
    first = folder / str(number)
    if number in (7, 13) and not first.exists():
        first.touch()
        _die()
    return 2 * number


def always(folder: Path, number: int) -> int:
    """Of 3 each process dies."""
    if number == 3:
        _die()
    return number


def an_error(folder: Path, number: int) -> int:
    if number == 5:
        raise ValueError('5 is none')
    return number


def slowly(folder: Path, number: int) -> int:
    """All but 0 take longer than anybody waits."""
    if number:
        (folder / f'{os.getpid()}').touch()
        time.sleep(3600)
    return os.getpid()
