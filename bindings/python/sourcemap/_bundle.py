"""RAM bundles, and their modules."""
from __future__ import annotations

import operator
import os
import sys
from ctypes import byref, c_size_t
from typing import Iterator, List, NamedTuple, Optional, Sequence, Type, TypeVar, Union, overload

from . import _library as library
from . import errors
from ._handle import Data, HandleOwner, copy_text, empty_text, pointer_to, run
from ._map import Map
from ._texts import position_in

AnyBundle = TypeVar('AnyBundle', bound='Bundle')


class Bundle(HandleOwner, Sequence[Optional[bytes]]):
    """An indexed RAM bundle, as a sequence. An item is the bytes of one module, or None if that module is missing.

    >>> import sourcemap
    >>> data = bytes.fromhex('e5d10bfb 01000000 02000000 02000000 04000000 6162 78797a 00')
    >>> bundle = sourcemap.Bundle(data)
    >>> bundle.startup, list(bundle)
    (b'ab', [b'xyz'])
    """

    def __init__(self, data: Data) -> None:
        """Copies the bytes of a bundle. Raises `Scroll` if there are less than 12 bytes, `InvalidRamBundleMagic` if
        they do not begin with the magic number."""
        self._begin()
        run(library.bundle_open, self._at, *pointer_to(data))

    @classmethod
    def load(cls: Type[AnyBundle], path: Union[str, 'os.PathLike[str]']) -> AnyBundle:
        """Reads a bundle from a file.

        >>> import pathlib, sourcemap
        >>> path = pathlib.Path('main.jsbundle')
        >>> _ = path.write_bytes(bytes.fromhex('e5d10bfb 00000000 02000000 6162'))
        >>> sourcemap.Bundle.load(path).startup
        b'ab'
        """
        with open(path, 'rb') as file:
            return cls(file.read())

    @property
    def startup(self) -> bytes:
        """The startup code."""
        return self._module_bytes(library.bundle_startup) or b''

    def __len__(self) -> int:
        """How many modules the bundle has. Missing ones count too."""
        modules = c_size_t()
        self._read(library.bundle_count, byref(modules))
        return modules.value

    @overload
    def __getitem__(self, index: int) -> Optional[bytes]: ...

    @overload
    def __getitem__(self, index: slice) -> List[Optional[bytes]]: ...

    def __getitem__(self, index: Union[int, slice]) -> Union[Optional[bytes], List[Optional[bytes]]]:
        """The bytes of a module; None if it is missing. A number past the last one raises `InvalidRamBundleIndex`."""
        if isinstance(index, slice):
            return [self._module(each) for each in range(*index.indices(len(self)))]
        number = operator.index(index)
        # the library refuses a number past the last one
        return self._module(position_in(self, number) if number < 0 else min(number, sys.maxsize))

    def __iter__(self) -> Iterator[Optional[bytes]]:
        return map(self._module, range(len(self)))

    def _module(self, id: int) -> Optional[bytes]:
        return self._module_bytes(library.bundle_module, id)

    def _module_bytes(self, call: library.Call, *arguments: int) -> Optional[bytes]:
        text = empty_text()
        with self._lock:
            try:
                self._run_locked(call, *arguments, byref(text))
            except errors.Absent:
                return None
            return copy_text(text)

    def split(self, index: Map) -> Split:
        """The modules of the bundle, each with its name, its text and its map; `index` is the index map of the bundle.

        A module is split off when it is read. Raises `NotARamBundle` if the index map has no `module_offsets`, and
        `CannotFlatten` as `Map.flatten` does.

        >>> import sourcemap
        >>> bundle = sourcemap.Bundle(bytes.fromhex('e5d10bfb 01000000 00000000 00000000 04000000 78797a 00'))
        >>> index = sourcemap.Map.loads('{"version":3,"x_facebook_offsets":[0],"sections":[{"offset":{"line":0,'
        ...                             '"column":0},"map":{"sources":["a.js"],"mappings":"AAAA"}}]}')
        >>> [(module.name, module.text) for module in bundle.split(index) if module]
        [('0.js', 'xyz')]
        """
        made = Split._empty()
        made._bundle = self._share()
        with index.share() as shared:
            run(library.split_open, made._at, shared._at)
        return made

    def _share(self) -> Bundle:
        other = Bundle._empty()
        self._run(library.share, other._at)
        return other

    def __repr__(self) -> str:
        return '<sourcemap.Bundle: closed>' if self.closed else f'<sourcemap.Bundle: {len(self)} modules>'


class Module(NamedTuple):
    """A module of a bundle that was split."""

    name: str
    text: str
    map: Map


class Split(HandleOwner, Sequence[Optional[Module]]):
    """The modules of a bundle with their maps, as a sequence, which `Bundle.split` makes. An item is one module by its
    number. It is None if the module is missing, or if the index map has null instead of its line. If the module is
    invalid, reading its item raises `InvalidRamBundleEntry`.

    >>> import sourcemap
    >>> bundle = sourcemap.Bundle(bytes.fromhex('e5d10bfb ffffffff 00000000'))
    >>> modules = bundle.split(sourcemap.Map.loads('{"version":3,"x_facebook_offsets":[],"sections":[]}'))
    >>> len(modules)
    4294967295
    """

    _bundle: Bundle

    def close(self) -> None:
        super().close()
        if '_bundle' in self.__dict__:
            self._bundle.close()

    def __len__(self) -> int:
        """How many module numbers the bundle has."""
        with self._lock:
            self._check_open()
            return len(self._bundle)

    @overload
    def __getitem__(self, index: int) -> Optional[Module]: ...

    @overload
    def __getitem__(self, index: slice) -> List[Optional[Module]]: ...

    def __getitem__(self, index: Union[int, slice]) -> Union[Optional[Module], List[Optional[Module]]]:
        if isinstance(index, slice):
            return [self._item(each) for each in range(*index.indices(len(self)))]
        return self._item(position_in(self, index))

    def _item(self, number: int) -> Optional[Module]:
        made = Map._empty()
        with self._lock:
            try:
                self._run_locked(library.split_map, self._bundle._at, number, made._at)
            except errors.Absent:
                return None
            text = self._bundle[number] or b''
        return Module(made._refresh().file or '', text.decode(), made)

    def __repr__(self) -> str:
        return '<sourcemap.Split: closed>' if self.closed else f'<sourcemap.Split: {len(self)} modules>'
