#!/usr/bin/env python3
"""Compares names of functions, lines of texts and slices of texts with those of a reference program, and with the
rules as walks.py and hermes_maps.py state them.

    compare/functions.py REFERENCE MAPS [--questions N]

REFERENCE    the folder bench/reference, which is then built, or a program over the Rust crate with the commands
             `names QUESTIONS [TEXT]` and `slices QUESTIONS TEXT`. QUESTIONS is a file with a list of lists, and each
             inner list gets an answer as JSON
MAPS         a folder with maps, at any depth. A file a.js beside a.js.map, or beside a.map, is the generated text. Its
             lines and slices are read, and names of functions in it are looked up by the map. They are also looked up
             by an index map that has this map twice, unless the map is an index map or has more than 1 MB. In a map
             with function maps, names are looked up by columns of line 0, and no text is used
--questions  how many questions of each kind to ask for each map (120)

No command of this repository's programs answers these questions. So a small program is built that does (asking.py);
nothing of it is proved. Each answer is compared with the reference's. It is also compared with the rules, unless it is
a whole line, or the rules leave it open. A difference is printed with its reason, or as UNEXPLAINED. There may be many
differences with the reasons `line wraps` and `no order`, so these are only counted. If a difference is unexplained, or
if no map has a text or function maps, the status is 1. If an answer of this library contradicts the rules, it is always
unexplained. The reasons are:

- panic: the reference panicked
- line wraps: by the rules, a token maps to line 4294967295 of its source. The reference counts this line from 1, and
  the sum wraps
- token twice: the reference's walk visits its first token twice. If this token is before the position, its index in the
  reference is one too high
- pairs: the text has characters of two UTF-16 units. The reference may count from the middle of such a character
- no order: the functions of a source are not sorted, so the rules leave the name open
"""
import argparse, collections, json, pathlib, random, re, sys
from asking import Case, answers_here, answers_there, is_too_long
from comparing import note_of, reference_program, report, text_beside
from composing import tokens_of_record
from hermes_maps import KEY, closest, function_name, is_in_order
from index_maps import LAST, is_index, offset_of, absolute_position, record_of, sections_with_maps
from walks import Guesses, identifier_at, lines_of, slice_of

WORD = re.compile(r'[A-Za-z_$][A-Za-z0-9_$]*')
PAIR = re.compile('[\U00010000-\U0010ffff]')
MOST = 1 << 20
COUNT = ['count']
# stands for the expected answer if the rules leave it open
OPEN = object()


def names_to_ask(lines, tokens, words, draws):
    """A minified name to look up at the last of these tokens. Mostly it is the identifier at one of the tokens. If some
    tokens follow a token at `function`, half of the draws choose among those. Otherwise it is a word of the text."""
    after_function = [token for last, token in zip(tokens, tokens[1:]) if identifier_at(lines, last) == 'function']
    identifier = identifier_at(lines, draws.choice(after_function if after_function and draws.randrange(2) else tokens))
    return identifier if identifier and draws.randrange(8) else draws.choice(words)


def named_positions(record, text, draws, count):
    """Questions about a regular map: a position at a token, or up to two columns after it, and a minified name."""
    lines = lines_of(text)
    tokens = [token for token in tokens_of_record(record) if token.line < len(lines)]
    words = WORD.findall(text[:1 << 16]) or ['x']
    for _ in range(count if tokens else 0):
        at = draws.randrange(len(tokens))
        name = names_to_ask(lines, tokens[max(0, at - 140):at + 1], words, draws)
        yield [tokens[at].line, min(LAST, tokens[at].column + draws.randrange(3)), name]


def positions_of(record, text, draws, count):
    """Such questions about a map of any kind. For an index map they are about the maps of its sections, at positions
    in the whole generated text."""
    if not is_index(record):
        yield from named_positions(record, text, draws, count)
        return
    sections = sections_with_maps(record)
    for section in sections:
        for *position, name in positions_of(section['map'], text, draws, -(-count // len(sections))):
            yield [*(min(LAST, part) for part in absolute_position(offset_of(section), position)), name]


def slices_of(text, draws, count):
    lines = len(lines_of(text))
    for _ in range(count):
        line = draws.randrange(lines + 1)
        yield [line]
        yield [line, draws.randrange(1 << draws.randrange(18)), draws.randrange(1 << draws.randrange(10))]


def in_an_index(record):
    """An index map that has this map twice: in a section at the start, and in a section at its middle token."""
    tokens = tokens_of_record(record)
    line, column = tokens[len(tokens) // 2][:2] if tokens else (1, 0)
    return {'version': 3, 'sections': [{'offset': {'line': 0, 'column': 0}, 'map': record},
                                       {'offset': {'line': line, 'column': column}, 'map': record}]}


def text_cases(name, record, text, is_small, draws, count):
    slices = list(slices_of(text, draws, count))
    yield Case(f'{name}, slices', 'slices', None, text, slices, len(slices) + 1)
    records = {'names': record, 'names by an index': in_an_index(record) if is_small and not is_index(record) else None}
    for what, each in records.items():
        questions = list(positions_of(each, text, draws, count)) if each else []
        if questions:
            yield Case(f'{name}, {what}', 'names', each, text, questions, len(questions))


def function_case(name, record, draws, count):
    columns = [token.column for token in tokens_of_record(record) if token.line == 0] + [0]
    columns = [draws.choice(columns) + draws.randrange(-1, 3) for _ in range(count - 1)]
    questions = [[0, max(0, column), None] for column in columns] + [[1, 0, None]]
    return Case(name, 'names', record, None, questions, count)


def cases_of(folder, count):
    for path in sorted(filter(pathlib.Path.is_file, pathlib.Path(folder).rglob('*.map'))):
        data, name = path.read_bytes(), str(path.relative_to(folder))
        record, draws, beside = record_of(data), random.Random(name), text_beside(path)
        if not is_index(record) and KEY in record:
            yield function_case(name, record, draws, count)
        elif beside:
            yield from text_cases(name, record, beside.read_bytes().decode(), len(data) <= MOST, draws, count)


class SliceRules:
    """The rules of slices of a text, and of its number of lines. Whole lines are left open, since they may be long."""

    def __init__(self, case):
        self.text = case.text

    def due(self, question):
        if question == COUNT:
            return len(lines_of(self.text))
        return slice_of(self.text, *question) if len(question) == 3 else OPEN

    def reason(self, question, there):
        return None


class NameRules:
    """The rules of names that are guessed from a text."""

    def __init__(self, case):
        self.guesses, self.has_pairs = Guesses(case.record, case.text), bool(PAIR.search(case.text))

    def due(self, question, is_doubled=False):
        line, column, name = question
        return self.guesses.name((line, column), name, is_doubled)

    def reason(self, question, there):
        if json.loads(there) == self.due(question, is_doubled=True):
            return 'token twice'
        return 'pairs' if self.has_pairs else None


class FunctionRules:
    """The rules of names from function maps. All are left open if the functions of a source are not sorted."""

    def __init__(self, case):
        self.record, self.tokens = case.record, tokens_of_record(case.record)
        self.is_open = not is_in_order(case.record)

    def due(self, question):
        if self.is_open:
            return OPEN
        return function_name(self.record, question[1], self.tokens) if question[0] == 0 else None

    def reason(self, question, there):
        token = closest(self.tokens, lambda token: token[:2], (0, question[1]))
        if token and token.source_line == LAST:
            return 'line wraps'
        return 'no order' if self.is_open else None


def rules_of(case):
    if case.word == 'slices':
        return SliceRules(case)
    return FunctionRules(case) if case.text is None else NameRules(case)


def notes_of(case, here, there):
    """Compares each answer with the rules and with the reference's answer."""
    rules = rules_of(case)
    for question, own, other in zip([*case.questions, COUNT], here, there):
        what, due = f'{case.name}, {question}', rules.due(question)
        expected = own if due is OPEN else json.dumps(due, ensure_ascii=False)

        def reason():
            if own != expected:
                return None
            return 'panic' if other == 'panic' and due is not OPEN else rules.reason(question, other)

        if due is not OPEN:
            yield note_of(f'{what}, by the rules', (0, own.encode()), (0, expected.encode()), lambda: None)
        yield note_of(what, (0, own.encode()), (0, other.encode()), reason)


def main():
    words = argparse.ArgumentParser(usage=__doc__)
    words.add_argument('reference')
    words.add_argument('maps')
    words.add_argument('--questions', type=int, default=120)
    given = words.parse_args()
    reference = reference_program(given.reference)
    cases = list(cases_of(given.maps, given.questions))
    for case in filter(is_too_long, cases):
        print(f'not asked, since it is too long: {case.name}', flush=True)
    cases = [case for case in cases if not is_too_long(case)]
    if not cases:
        sys.exit(f'{given.maps}: no map has its text beside it, or functions')
    counts, asked = collections.Counter(), collections.Counter()
    for case, here in zip(cases, answers_here(cases)):
        there = answers_there(reference, case)
        if len(there) != case.lines:
            sys.exit(f'{case.name}: the reference answers {there[:3]}')
        asked['slices' if case.word == 'slices' else 'names of functions' if case.text is None else 'names in texts'] += case.lines
        for note in notes_of(case, here, there):
            counts[note.why] += 1
            if note.why not in ('no order', 'line wraps'):
                report(note)
    same, unexplained = counts.pop('same', 0), counts.pop('UNEXPLAINED', 0)
    meant = ', '.join(f'{n} {why}' for why, n in sorted(counts.items())) or 'none meant to differ'
    kinds = ', '.join(f'{n} {what}' for what, n in sorted(asked.items()))
    print(f'{len(cases)} cases, {kinds}: {same} answers the same, {meant}, {unexplained} unexplained')
    sys.exit(1 if unexplained else 0)


main()
