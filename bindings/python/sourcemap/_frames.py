"""Frames of JavaScript stack traces.

A trace is text that a program printed, not data of a fixed form. So each line is read by itself: it is a frame with a
position, or it is kept unchanged.

What the engines count from, in the text of a trace:

- V8: lines and columns from 1 ("Stack trace API", v8.dev). Node 20 prints column 1 for a call at the beginning of a
  line.
- SpiderMonkey: lines and columns from 1 (MDN, "Error.prototype.stack"). Version 102 prints column 1 for an expression
  at the beginning of a line. Versions before 30 print no column.
- JavaScriptCore: lines and columns from 1. This is not documented, but WebKitGTK 2.50 prints column 15 for the call in
  `function b(){a()}`. The call begins at column 14; the printed column is where the called name `a` ends.

Other engines may count columns from 0: traces of these need the option `--columns-from 0`.
"""

from __future__ import annotations

import re
from dataclasses import dataclass, replace
from typing import List, NamedTuple, Optional, Tuple

FIRST_LINE = 1
FIRST_COLUMN = 1

# A line of more characters than this is no frame: it is a message, or a piece of minified text that was printed above
# the trace. This limit also bounds the time of the patterns below.
LONGEST_FRAME = 8192


class Span(NamedTuple):
    """A piece of a line of a trace: the indexes of its first character, and of the first one after it."""

    start: int
    end: int


@dataclass(frozen=True)
class Frame:
    """A line of a trace that names a position.

    `line` and `column` are as they were printed; `column` is None if none was. `name` is the span of the function's
    identifier. It is None if the frame has no name, or one that is no identifier, or if the frame has the form
    `FILE line LINE > eval`. `location` is the span of file, line and column. `indent` is how many characters a
    terminal shows before the frame itself. `is_new` says that the frame is a constructor's: V8 puts `new` before its
    name.
    """

    text: str
    file: str
    line: int
    column: Optional[int]
    location: Span
    name: Optional[Span]
    indent: int = 0
    is_new: bool = False

    def function(self) -> Optional[str]:
        """The identifier of the function, as the engine printed it; None if there is none."""
        return None if self.name is None else self.text[self.name.start : self.name.end]

    def rewrite(self, location: str, function: Optional[str]) -> str:
        """The line with another location, and another name of the function unless `function` or `name` is None."""
        edits = [(self.location, location)]
        if self.name is not None and function is not None:
            edits.append((self.name, function))
        text = self.text
        for span, new in sorted(edits, reverse=True):
            text = text[: span.start] + new + text[span.end :]
        return text


# The colours of a terminal.
_COLOUR = re.compile('\x1b\\[[0-9;]*m')
# What tools put before each line of a program: `web-1  | ` (docker compose), `[api] ` (concurrently).
_PREFIX = re.compile(r'(?:[\w.-]+ *\||\[[^\]]*\]) ')
# `at NAME (LOCATION)` or `at LOCATION`. Node prints ` {` after the last frame of an error with properties of its own.
_AT = re.compile(r'\s*at (?:(?P<name>.+?) \((?P<inside>.*)\)|(?P<bare>.+?))(?: \{)?\s*', re.DOTALL)
_EVAL = re.compile(r'eval at (?P<name>.+?) \((?P<inside>.*)\)(?:, (?P<own>.*))?', re.DOTALL)
_NUMBERS = re.compile(r':(?P<line>[0-9]{1,10})(?::(?P<column>[0-9]{1,10}))?$')
# `FILE line LINE > eval`, where LINE is that of the call of eval.
_EVAL_LINE = re.compile(r'(?P<file>.+?) line (?P<line>[0-9]{1,10}) > .*', re.DOTALL)
# Scripts of the engine itself, which have no maps.
_BUILT_IN = re.compile(r'node:.*|internal/.*|self-hosted|<anonymous>', re.DOTALL)
_BARE_PATH = re.compile(r'/|[A-Za-z]:[\\/]|[A-Za-z][A-Za-z0-9+.-]*://')
# The identifier may follow words of the engine, the object of a method (`Object.`), an enclosing function (`outer/`),
# or what scheduled the call (`async*`, `setTimeout handler*`).
_FUNCTION = re.compile(
    r'(?:(?:async|new|get|set|static) )*(?:[^(]*[./*])?(?P<name>[^\W\d][\w$]*|\$[\w$]*)(?: \[as [^\]]*\])?'
)


def parse_frame(text: str) -> Optional[Frame]:
    """The frame on a line, which is given without its end; None if the line is no frame."""
    if len(text) > LONGEST_FRAME:
        return None
    plain, places = _without_colours(text)
    prefix = _PREFIX.match(plain)
    first = 0 if prefix is None else prefix.end()
    own = plain[first:]
    frame = _parse_own(own)
    if frame is None:
        return None

    def moved(span: Span) -> Span:
        return Span(places[first + span.start], places[first + span.end - 1] + 1)

    name = None if frame.name is None else moved(frame.name)
    is_new = frame.name is not None and own[: frame.name.start].endswith('new ')
    indent = first + len(own) - len(own.lstrip())
    return replace(frame, text=text, location=moved(frame.location), name=name, indent=indent, is_new=is_new)


def _without_colours(text: str) -> Tuple[str, List[int]]:
    """The text without the colours of a terminal, and where in the text each of its characters is."""
    kept: List[int] = []
    end = 0
    for colour in _COLOUR.finditer(text):
        kept.extend(range(end, colour.start()))
        end = colour.end()
    kept.extend(range(end, len(text)))
    return ''.join(text[place] for place in kept) if end > 0 else text, kept


def _parse_own(text: str) -> Optional[Frame]:
    """The frame in a text without colours and without a prefix."""
    at = _AT.fullmatch(text)
    if at is not None:
        return _parse_at(text, at)
    name, mark, _ = text.partition('@')
    if mark and _BARE_PATH.match(name.lstrip()) is None:
        return _parse_marked(text, len(name))
    return _parse_bare(text)


def _parse_at(text: str, at: re.Match[str]) -> Optional[Frame]:
    """A frame of V8."""
    if at['bare'] is not None:
        start, end = at.span('bare')
        if text.startswith('async ', start):
            start += len('async ')
        return _frame_at(text, Span(start, end), None)
    name, inside = Span(*at.span('name')), Span(*at.span('inside'))
    evaluated = _EVAL.fullmatch(text, inside.start, inside.end)
    if evaluated is None:
        return _frame_at(text, inside, name)
    own = _evaluated_script(evaluated)
    return _frame_at(text, own, name) if own is not None else _eval_caller(text, evaluated)


def _evaluated_script(evaluated: re.Match[str]) -> Optional[Span]:
    """The location in evaluated code, if that location names a script; else None."""
    if evaluated['own'] is None or evaluated['own'].startswith('<anonymous>'):
        return None
    return Span(*evaluated.span('own'))


def _eval_caller(text: str, evaluated: re.Match[str]) -> Optional[Frame]:
    """The frame of the call of eval, the outermost one if they are nested."""
    while True:
        name, inside = Span(*evaluated.span('name')), Span(*evaluated.span('inside'))
        outer = _EVAL.fullmatch(text, inside.start, inside.end)
        if outer is None:
            return _frame_at(text, inside, name)
        evaluated = outer


def _parse_marked(text: str, mark: int) -> Optional[Frame]:
    """A frame of SpiderMonkey or JavaScriptCore, with `@` at `mark`."""
    start, end = mark + 1, len(text.rstrip())
    name = Span(mark - len(text[:mark].lstrip()), mark)
    evaluated = _EVAL_LINE.fullmatch(text, start, end)
    if evaluated is None:
        return _frame_at(text, Span(start, end), name)
    location = Span(start, evaluated.end('line'))
    return Frame(text, evaluated['file'], int(evaluated['line']), None, location, None)


def _parse_bare(text: str) -> Optional[Frame]:
    """A frame of JavaScriptCore without a name: a location alone."""
    span = Span(len(text) - len(text.lstrip()), len(text.rstrip()))
    frame = _frame_at(text, span, None)
    return None if frame is None or frame.column is None else frame


def _frame_at(text: str, span: Span, name: Optional[Span]) -> Optional[Frame]:
    """The frame with its location at `span`. None if the text at `span` is no file with a line, or the file is a script
    of the engine itself."""
    numbers = _NUMBERS.search(text[span.start : span.end])
    if numbers is None or numbers.start() == 0:
        return None
    file = text[span.start : span.start + numbers.start()]
    if _BUILT_IN.fullmatch(file) is not None:
        return None
    column = None if numbers['column'] is None else int(numbers['column'])
    return Frame(text, file, int(numbers['line']), column, span, _identifier(text, name))


def _identifier(text: str, name: Optional[Span]) -> Optional[Span]:
    """The span of the identifier within a function's name; None if there is none."""
    if name is None:
        return None
    function = _FUNCTION.fullmatch(text, name.start, name.end)
    return None if function is None else Span(*function.span('name'))
