"""Tables of frames in a Dask cluster."""
from __future__ import annotations

from typing import Any

from . import batch
from ._needed import need
from .release import Release


def symbolicate(frames: Any, release: Release, *, zero_based: bool = False) -> Any:
    """`batch.symbolicate` of each partition of a `dask.dataframe.DataFrame`, as another one. Nothing is computed until
    Dask is asked for it. The folder of the release, and that of its cache, have the same path for each worker.

    >>> import pandas, sourcemap
    >>> from dask.dataframe import from_pandas
    >>> frames = pandas.DataFrame({'file': ['bundle.js'] * 4, 'line': [1] * 4, 'column': [1, 4, 19, 23]})
    >>> found = sourcemap.dask.symbolicate(from_pandas(frames, npartitions=2), sourcemap.Release('.', cache='cache'))
    >>> found.source_column.compute().tolist()
    [1, 5, 3, 3]
    """
    need('dask.dataframe')
    meta = batch.symbolicate(frames._meta, release, zero_based=zero_based)
    return frames.map_partitions(batch.symbolicate, release, zero_based=zero_based, meta=meta)
