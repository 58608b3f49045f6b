"""`python -m sourcemap stack`: a JavaScript stack trace with original positions.

A frame is printed with the original name of its function, if `Map.function_name` finds this name. Else the name
in the trace stays. The name of the token at the position is not used: it names the expression at the position, mostly
the function that is called.
"""

from __future__ import annotations

import argparse
import re
import sys
from pathlib import Path
from typing import Dict, Iterable, Iterator, List, NamedTuple, Optional, Tuple

from ._frames import FIRST_COLUMN, FIRST_LINE, Frame, parse_frame
from ._generated import Finder, Generated, open_map, printable, source_path
from ._library import NONE
from ._map import Map
from ._tokens import Token
from ._view import View
from .errors import SourceMapError

# Of a longer line of a source only this many characters are printed: those around the column, or the first ones.
LONGEST_LINE = 100

# What Node prints above a trace: `FILE:LINE`, then that line of the generated text, then marks below a column of it.
_HEAD = re.compile(r'.+:[0-9]+')
_MARKS = re.compile(r'\s*\^+\s*')


class Original(NamedTuple):
    """The original position of a frame, counted from 0. If `column` is None only the line is known."""

    source: str
    source_id: int
    line: int
    column: Optional[int]

    def location(self) -> str:
        """The position as editors read it: the line and the column count from 1."""
        text = f'{printable(self.source)}:{self.line + 1}'
        return text if self.column is None else f'{text}:{self.column + 1}'


class Translator:
    """Translates the lines of a trace. `columns_from` is the number that the trace uses for the first column of a line.
    `context` is how many lines of the source to print above a frame's line, and how many below it. `with_paths` says
    whether a source that leads to a file is printed as the path of this file, or as the map has it."""

    def __init__(
        self, finder: Finder, columns_from: int = FIRST_COLUMN, context: int = 1, with_paths: bool = False
    ) -> None:
        self._finder = finder
        self._columns_from = columns_from
        self._context = context
        self._with_paths = with_paths
        self._contents: Dict[Tuple[Map, int], Optional[View]] = {}
        self.frames = 0
        """How many of the lines so far were frames, those without a map included."""

    def translate(self, line: str) -> List[str]:
        """The lines to print for a line: the line itself if it is no frame, or has no original position."""
        frame = parse_frame(line)
        if frame is None:
            return [line]
        self.frames += 1
        return self._translate_frame(frame)

    def _translate_frame(self, frame: Frame) -> List[str]:
        generated = self._finder.find(frame.file)
        position = self._position(frame)
        if generated is None or position is None:
            return [frame.text]
        line, column = position
        original = original_position(generated.map, line, column)
        if original is None:
            return [frame.text]
        function = None if column is None else original_function(frame, generated, line, column)
        named = original
        if self._with_paths:
            named = original._replace(source=source_path(original.source, generated.path) or original.source)
        text = frame.rewrite(named.location(), None if function is None else printable(function))
        return [text, *self._excerpt(frame, generated.map, original)]

    def _position(self, frame: Frame) -> Optional[Tuple[int, Optional[int]]]:
        """The generated position of a frame, counted from 0; None if one of its numbers is below 0 or above
        4294967294."""
        line = frame.line - FIRST_LINE
        column = None if frame.column is None else frame.column - self._columns_from
        return (line, column) if 0 <= line < NONE and (column is None or 0 <= column < NONE) else None

    def _excerpt(self, frame: Frame, map: Map, original: Original) -> List[str]:
        view = self._contents_of(map, original.source_id)
        if view is None or original.line >= len(view):
            return []
        indent = ' ' * (frame.indent + 4)
        return [indent + line for line in excerpt(view, original.line, original.column, self._context)]

    def _contents_of(self, map: Map, source: int) -> Optional[View]:
        key = (map, source)
        if key not in self._contents:
            contents = map.contents[source]
            self._contents[key] = None if contents is None else View(contents)
        return self._contents[key]


def original_position(map: Map, line: int, column: Optional[int]) -> Optional[Original]:
    """The original position of a generated one, both counted from 0. A token of an earlier line counts only if it is a
    range token."""
    if column is None:
        return only_original_line(map, line)
    token = map.lookup(line, column)
    return None if token is None or (token.generated_line != line and not token.is_range) else original_of(token)


def original_of(token: Token) -> Optional[Original]:
    """The original position of a token, if it has a source."""
    if token.source is None or token.source_id is None or token.line is None:
        return None
    return Original(token.source, token.source_id, token.line, token.column)


def only_original_line(map: Map, line: int) -> Optional[Original]:
    """The original line of a generated line, if all of its tokens with a source come from that line. Of several tokens
    at one position only one is looked at."""
    found = None
    token = map.lookup(line, NONE)
    while token is not None and token.generated_line == line:
        original = original_of(token)
        if original is not None:
            original = original._replace(column=None)
            if found not in (None, original):
                return None
            found = original
        token = map.lookup(line, token.generated_column - 1) if token.generated_column > 0 else None
    return found


def original_function(frame: Frame, generated: Generated, line: int, column: int) -> Optional[str]:
    """The original name of a frame's function; None if the library does not find it."""
    minified = frame.function()
    if minified is None:
        return None
    found = generated.map.function_name(line, column, minified, generated.view)
    return original_class(minified, generated, line, column) if found is None and frame.is_new else found


def original_class(minified: str, generated: Generated, line: int, column: int) -> Optional[str]:
    """The original name of the class with a minified name that begins last before a generated position: the name of the
    token at the minified one. None if there is none."""
    if generated.view is None:
        return None
    name = re.escape(minified)
    pattern = re.compile(rf'(?<![\w$.])(?:class\s+(?P<class>{name})(?![\w$])|(?P<value>{name})\s*=\s*class(?![\w$]))')
    for number in range(min(line, len(generated.view) - 1), -1, -1):
        text = generated.view.slice(line, 0, column) if number == line else generated.view[number]
        last = None
        for last in pattern.finditer(text or ''):
            pass
        if last is not None:
            start = last.start('class') if last['class'] is not None else last.start('value')
            units = len(last.string[:start].encode('utf-16-le')) // 2
            token = generated.map.lookup(number, units)
            is_there = token is not None and (token.generated_line, token.generated_column) == (number, units)
            return token.name if token is not None and is_there else None
    return None


def excerpt(view: View, line: int, column: Optional[int], context: int) -> List[str]:
    """The lines of a source around a line, with their numbers, and a mark below the column if the line has it."""
    before = None if column is None else view.slice(line, 0, column)
    start = 0
    if before is not None and len(view[line]) > LONGEST_LINE:
        start = max(0, len(before) - LONGEST_LINE * 2 // 3)
    numbers = range(max(0, line - context), min(len(view), line + context + 1))
    width = len(str(numbers.stop))
    lines = []
    for number in numbers:
        mark = '>' if number == line else ' '
        lines.append(f'{mark} {number + 1:{width}} | {shorten(view[number], start)}'.rstrip())
        if number == line and before is not None:
            lines.append(f'  {"":{width}} | {"":{len(shorten(before, start))}}^')
    return lines


def shorten(line: str, start: int) -> str:
    """The piece of a source line from `start` on that is printed, with spaces for tabs."""
    return printable(line[start : start + LONGEST_LINE].expandtabs(4))


def cut_heads(lines: Iterable[str]) -> Iterator[str]:
    """The lines of a trace. A long line of the generated text above it, and the marks below that line, are cut as lines
    of sources are."""
    previous = ''
    long: Optional[str] = None
    for line in lines:
        if long is not None:
            yield from _cut(long, line)
            long = None
        elif len(line) > LONGEST_LINE + 2 and _HEAD.fullmatch(previous.rstrip('\r\n')) is not None:
            long = line
        else:
            yield line
        previous = line
    if long is not None:
        yield from _cut(long, '')


def _cut(line: str, marks: str) -> Iterator[str]:
    text, end = _without_end(line)
    if _MARKS.fullmatch(marks) is None:
        yield shorten(text, 0) + end
        if marks:
            yield marks
        return
    column = marks.index('^')
    start = max(0, column - LONGEST_LINE * 2 // 3)
    yield shorten(text, start) + end
    count = min(marks.count('^'), LONGEST_LINE - (column - start))
    yield ' ' * len(shorten(text[:column], start)) + '^' * count + _without_end(marks)[1]


def _without_end(line: str) -> Tuple[str, str]:
    text = line.rstrip('\r\n')
    return text, line[len(text) :]


def translate_lines(lines: Iterable[str], translator: Translator) -> Iterator[str]:
    """Translates a trace line by line. Lines keep their ends; a line that is added ends like the one of its frame. If
    that line has no end, a newline is put before each line that is added."""
    for line in cut_heads(lines):
        text, end = _without_end(line)
        translated = translator.translate(text)
        yield (end or '\n').join(translated) + end


def add_arguments(parser: argparse.ArgumentParser) -> None:
    """Adds the arguments of `stack` to a parser."""
    parser.description = (
        'Reads a JavaScript stack trace of V8, SpiderMonkey or JavaScriptCore from standard input and prints it with '
        'original positions and names. Frames without a map are printed as they stand. Input without a frame is '
        'printed unchanged; a line on standard error says so, and the status is 0.'
    )
    parser.add_argument('--map', metavar='FILE', type=Path, help='the map of all frames')
    parser.add_argument(
        '--root',
        metavar='DIR',
        type=Path,
        help='find generated files and their maps below this folder alone, by the ends of their paths; without it, by '
        'their paths and then below the current folder',
    )
    parser.add_argument(
        '--columns-from',
        type=int,
        choices=(0, 1),
        default=FIRST_COLUMN,
        help='the number of the first column of a line in the trace: 1, as all three engines print it, or 0',
    )
    parser.add_argument(
        '--context', metavar='LINES', type=int, default=1, help='lines of the source above and below each frame: 1'
    )
    parser.add_argument(
        '--sources-as-in-map',
        action='store_true',
        help='print sources as the map has them, not as the paths of the files that they lead to',
    )


def run(arguments: argparse.Namespace) -> int:
    """Translates standard input to standard output, line by line. Returns the exit status. If the file of `--map` can't
    be read, this raises an `OSError`; if it holds no map, the error is printed and the status is 1. An error of
    another map is printed, and does not change the status, unless `Finder.find` raises it. Input without a frame is no
    error: a program that did not fail may write into this filter."""
    try:
        map = None if arguments.map is None else open_map(arguments.map)
    except SourceMapError as error:
        print(f'sourcemap: {arguments.map}: {error}', file=sys.stderr)
        return 1
    finder = Finder(arguments.root, map)
    translator = Translator(finder, arguments.columns_from, arguments.context, not arguments.sources_as_in_map)
    lines = (line.decode('utf-8', 'surrogateescape') for line in sys.stdin.buffer)
    for text in translate_lines(lines, translator):
        sys.stdout.buffer.write(text.encode('utf-8', 'surrogateescape'))
        sys.stdout.buffer.flush()
    if translator.frames == 0:
        print('sourcemap: standard input has no stack frame that names a file and a line', file=sys.stderr)
    return 0
