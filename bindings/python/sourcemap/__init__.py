"""JavaScript source maps: look up, read, change, build and write them.

    >>> import sourcemap
    >>> with sourcemap.Map.load('bundle.js.map') as map:
    ...     print(map.lookup(0, 5))
    coolstuff.js:0:4 name=x

Lines and columns count from 0. Columns count UTF-16 units. The work is done by the shared library of
`bindings/c`, whose functions are proved. `sourcemap.errors` has a class for each error of the library but out of
memory, for which `MemoryError` is raised. `sourcemap.batch` and `sourcemap.dask` answer tables of frames, by packages
that are imported when they are needed.

Each object may be used by several threads: a lock lets one call at a time use it, but a `CompiledMap` has none and
needs none. Long calls release the interpreter's lock.

A `str` with one half of a surrogate pair has no UTF-8. A call that passes such a text to the library raises
`UnicodeEncodeError`.
"""
from . import batch, dask, errors
from ._builder import Builder, NewToken
from ._bundle import Bundle, Module, Split
from ._checks import Finding, Report, SegmentPosition, Shift, TokenPosition, check
from ._compiled import CompiledMap
from ._library import NONE
from ._map import Map, Section
from ._tokens import Answers, Token
from ._view import Reference, View, is_source_map, locate_reference, relative_path, resolve, resolve_path
from .errors import SourceMapError
from .release import Match, Release

__all__ = [
    'NONE', 'Answers', 'Builder', 'Bundle', 'CompiledMap', 'Finding', 'Map', 'Match', 'Module', 'NewToken', 'Reference',
    'Release', 'Report', 'Section', 'SegmentPosition', 'Shift', 'SourceMapError', 'Split', 'Token', 'TokenPosition',
    'View', 'batch', 'check', 'dask', 'errors', 'is_source_map', 'locate_reference', 'relative_path', 'resolve',
    'resolve_path',
]
