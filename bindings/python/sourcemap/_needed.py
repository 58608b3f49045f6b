"""Packages of others, which only a part of this package needs."""
from __future__ import annotations

import contextlib
import gc
import importlib
from typing import Any, Iterator


def need(module: str) -> Any:
    """Imports a module of another package. If it is not there, raises an `ImportError` that says what to install."""
    try:
        return importlib.import_module(module)
    except ImportError as error:
        package = module.partition('.')[0]
        raise ImportError(f'{package} is needed and cannot be imported ({error}); Debian has it as python3-{package}, '
                          'and bindings/install-tools python installs it', name=package) from error


@contextlib.contextmanager
def importing() -> Iterator[None]:
    """Within the block Python looks for no garbage, which takes a tenth of the time of large imports."""
    was_enabled = gc.isenabled()
    gc.disable()
    try:
        yield
    finally:
        if was_enabled:
            gc.enable()
