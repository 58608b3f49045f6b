"""Checks: whether bytes are a valid map by ECMA-426, and what looks wrong in a valid one."""
from __future__ import annotations

from ctypes import byref, c_size_t
from dataclasses import dataclass
from typing import Literal, Optional, Tuple, Union

from . import _library as library
from ._files import Sources, files_of
from ._handle import Data, HandleOwner, array_of, optional, pointer_to, run, uint32

Severity = Literal['invalid', 'suspicious']

_SEVERITIES: Tuple[Severity, ...] = ('invalid', 'suspicious')


@dataclass(frozen=True)
class SegmentPosition:
    """A segment of `mappings`: its line, and its index among the segments of this line. Both count from 0."""

    line: int
    index: int

    def __str__(self) -> str:
        return f'{self.line}:{self.index}'


@dataclass(frozen=True)
class TokenPosition:
    """A token, by its generated position. Line and column count from 0."""

    line: int
    column: int

    def __str__(self) -> str:
        return f'at {self.line}:{self.column}'


@dataclass(frozen=True)
class Shift:
    """By how many lines and columns positions are off throughout."""

    lines: int
    columns: int

    def __str__(self) -> str:
        return f'by {self.lines}:{self.columns}'


@dataclass(frozen=True)
class Finding:
    """A place where a map breaks a rule of the standard, or where something looks wrong.

    `code` is the one of `docs/CHECK.md`, such as `SM132`. `severity` is `invalid` if a rule is broken, `suspicious` if
    the map is valid but something looks wrong. `key` is the key of the map; it is empty where there is none.
    `sections` has the indexes of the sections that lead to the map, the outermost first; it is empty for the whole map.
    `position` is None where the key says it all. `sentence` says in English what is wrong.

    >>> import sourcemap
    >>> report = sourcemap.check('{"version":3,"sources":["a.js"],"mappings":"AAAA;g"}')
    >>> finding = report.findings[0]
    >>> finding.code, finding.key, finding.position
    ('SM132', 'mappings', SegmentPosition(line=1, index=0))
    >>> print(finding)
    mappings 1:0: SM132 the segment ends within a number
    """

    code: str
    severity: Severity
    key: str
    sections: Tuple[int, ...]
    position: Optional[Union[SegmentPosition, TokenPosition, Shift]]
    sentence: str

    def __str__(self) -> str:
        """Place, code and sentence, as `./sourcemap check` prints them."""
        path = ''.join(f'sections[{section}].map.' for section in self.sections)
        position = '' if self.position is None else f' {self.position}'
        return f'{path}{self.key}{position}: {self.code} {self.sentence}'


@dataclass(frozen=True)
class Report:
    """What a check found. `findings` has the first ones of each code; `invalid` and `suspicious` count all."""

    findings: Tuple[Finding, ...]
    invalid: int
    suspicious: int

    @property
    def is_valid(self) -> bool:
        """Whether the bytes are a valid map by ECMA-426."""
        return self.invalid == 0


class _Handle(HandleOwner):
    """The report of the library."""

    def __init__(self, data: Data, generated: Optional[Data], name: str, sources: Optional[Sources], most: int) -> None:
        self._begin()
        files = [] if sources is None else files_of(data, sources)
        run(library.check_files, self._at, *pointer_to(data), *optional(generated), *pointer_to(name),
            sources is not None, array_of(files), len(files), uint32('most', most))

    def read(self) -> Report:
        counts = library.ReportCounts()
        self._read(library.report_count, byref(counts))
        return Report(tuple(map(self._finding, range(counts.findings))), counts.invalid, counts.suspicious)

    def _finding(self, index: int) -> Finding:
        found = library.Finding()
        self._read(library.report_finding, index, byref(found))
        return Finding(f'SM{found.code}', _SEVERITIES[found.severity], self._text(library.report_key, index) or '',
                       self._sections(index), _position(found), self._text(library.report_sentence, index) or '')

    def _sections(self, index: int) -> Tuple[int, ...]:
        count = c_size_t()
        # the call only counts where nothing fits; the pointer is not null
        self._read(library.report_sections, index, (c_size_t * 1)(), 0, byref(count))
        sections = (c_size_t * max(count.value, 1))()
        self._read(library.report_sections, index, sections, count.value, byref(count))
        return tuple(sections[:count.value])


def _position(found: library.Finding) -> Optional[Union[SegmentPosition, TokenPosition, Shift]]:
    if found.place == library.PLACE_SEGMENT:
        return SegmentPosition(found.line, found.index)
    if found.place == library.PLACE_TOKEN:
        return TokenPosition(found.line, found.index)
    if found.place == library.PLACE_SHIFT:
        return Shift(found.lines, found.columns)
    return None


def check(data: Data, generated: Optional[Data] = None, *, name: Optional[str] = None, sources: Optional[Sources] = None,
          most: int = 20) -> Report:
    """Checks whether bytes are a valid map by ECMA-426, the standard of source maps, and looks for what looks wrong in a
    valid one, also beside the generated text and the files of its sources, if they are given. The report has at most
    `most` findings of each code; 0 counts as 1.

    `name` is the name of the map's file, without folders: the reference of the generated text is to end in it.

    `sources` is the folder of the files, or a mapping that has them by the names of sources, which are resolved against
    the `sourceRoot`. In a folder, a name that begins with `/` or has a part `..` has no file. A file that is missing or
    not UTF-8 counts as none; another error of reading one is raised.

    Any bytes give a report: bytes that are no JSON text are a finding. Raises `Utf8` if the generated text is not UTF-8.

    >>> import sourcemap
    >>> from pathlib import Path
    >>> sourcemap.check(Path('bundle.js.map').read_bytes()).is_valid
    True
    >>> for finding in sourcemap.check('{"version":2,"sources":[]}').findings:
    ...     print(finding)
    version: SM105 version is a number, but not 3
    mappings: SM115 there is no mappings
    >>> data = '{"version":3,"sources":[],"mappings":""}'
    >>> print(*sourcemap.check(data, '//# sourceMappingURL=b.js.map', name='a.js.map').findings)
    : SM225 the reference of the generated text ends in another file name
    >>> data = '{"version":3,"sources":["a.js"],"mappings":"AAAE"}'
    >>> print(*sourcemap.check(data, sources={'a.js': 'x'}).findings)
    mappings at 0:0: SM203 the original line has fewer columns
    """
    with _Handle(data, generated, name or '', sources, most) as report:
        return report.read()
