#!/usr/bin/env python3
"""Compares the answers of `sourcemap_tool`, which is called this program below, with those of a reference program. Does
so for every map below a folder.

    compare/answers.py REFERENCE MAPS [--positions N]

REFERENCE    the folder bench/reference, which is then built, or a program over the Rust crate that has the commands of
             this program, and also `positions N SEED [wild]`, `batch FILE` and `dst FILE`. The last two answer each
             position of a file, and `dst` adds the token's generated position
MAPS         a folder with *.map files, at any depth
--positions  how many positions are looked up in each map (20). Half of them are beside tokens, and half are anywhere

If a program of this repository is missing, it is built first. SOURCEMAP_TOOL and SOURCEMAP_BENCH in the environment
name other programs. A difference is printed with its reason, or as UNEXPLAINED. If one is unexplained, the status is 1.
A difference has a reason only if the answers meet the test of this reason:

- stable sort, range bits, panic: of records, see `reason_of_record` in comparing.py
- stable sort: `tokens` prints the same tokens at the same positions, those of one position in another order. Or a
  lookup finds a position at which both programs have the same tokens in another order, and this program answers the
  right one
- distance of columns: a lookup finds a range token on another line than the position. The reference adds the distance
  of their columns to the original column, and nothing else differs
- of a lookup in an index map: both programs answer as they do in the map that the position leads to. There the answers
  differ for the reason `stable sort` or `distance of columns`
- scopes: of rewritten maps with function maps, see `reason_of_rewritten_hermes` in comparing.py
- bundle lists: of records of index maps, see `reason_of_index` in comparing.py
- past the end: this program refuses to flatten. By the rules a token passes the last line or column, and no section
  without a map comes before it
- digits: this program refuses a byte in mappings that is not a digit, or a number in mappings that has more than 63
  bits. It prints this byte as a character. The reference accepts both, or reports a later error
- error: both programs report an error of the JSON text, but different ones
- not there: this program does not have the command. Such differences are only counted

This script itself draws the positions in an index map: half of them beside tokens of the flat map, a quarter beside
starts of sections, and a quarter anywhere.
"""
import argparse, random, re, tempfile
from comparing import (TOOL, answer, build_missing, compare_all, is_reordered, note_of, tokens_with_positions,
                       reason_of_index, reason_of_record, reason_of_rewritten_hermes, reference_program, tokens_of,
                       without_mark)
from hermes_maps import KEY
from index_maps import (LAST, PAST_THE_END, bytes_of, flattening_error, flat_tokens, innermost, is_index, offset_of,
                        pieces, record_of)

WORDS = [['tokens'], ['rewrite'], ['flatten'], ['shift', '7'], ['shift', str(LAST)]]
REFUSED_PAST_THE_END = (1, b'cannot flatten the indexed sourcemap: a position passes 4294967295\n')
JSON_ERROR = b'bad json: '
OVERFLOW = b'vlq decode caused an overflow\n'
FOREIGN = re.compile(r'invalid base64 character: (.)\n', re.DOTALL)
DIGIT = re.compile('[A-Za-z0-9+/]')
TOO_GREAT = re.compile('[g-z0-9+/]{12}[I-Zg-z0-9+/]')
ANSWER = re.compile(rb'(.*):(\d+):(\d+)((?: name=.*)?)', re.DOTALL)
POSITION = re.compile(rb' \((\d+):(\d+)\)( \(range\))?$')


def is_refused_digit(data, here):
    """Whether this program refuses a map for a byte or a number that its mappings have and the reference accepts."""
    refused = FOREIGN.fullmatch(here[1].decode(errors='replace'))
    if here[0] != 1 or not refused and here[1] != OVERFLOW:
        return False
    mappings = ';'.join(piece.get('mappings') or '' for piece in pieces(record_of(data)))
    if refused:
        return not DIGIT.fullmatch(refused[1]) and refused[1] in mappings.encode().decode('latin-1')
    return bool(TOO_GREAT.search(mappings))


def are_json_errors(*answers):
    return all(status == 1 and text.startswith(JSON_ERROR) for status, text in answers)


def reason(word, data, here, there):
    """Why the two programs differ. None if no reason fits."""
    if here[0] == 2:
        return 'not there'
    if is_refused_digit(data, here):
        return 'digits'
    if here == REFUSED_PAST_THE_END:
        return PAST_THE_END if flattening_error(record_of(data), tokens_with_positions) == PAST_THE_END else None
    if here[0] == 1 and there[0] == 1:
        return 'error' if are_json_errors(here, there) else None
    if word == 'tokens':
        return None if here[0] or there[0] or not is_reordered(here[1], there[1]) else 'stable sort'
    if word == 'rewrite' and KEY.encode() in data and record_of(data).get(KEY) is not None:
        return reason_of_rewritten_hermes(data, here, there)
    return (reason_of_index if word == 'shift' else reason_of_record)(data, here, there)


def is_moved(here, theirs, distance):
    """Whether two texts of tokens are equal but for the original column. In the second it must be greater by
    `distance`, but at most 2**32 - 1."""
    own, other = ANSWER.fullmatch(here), ANSWER.fullmatch(theirs)
    if not own or not other or (own[1], own[2], own[4]) != (other[1], other[2], other[4]):
        return False
    return int(other[3]) == min(int(own[3]) + distance, 2**32 - 1)


def is_among_equals(reference, data, position, found_at, here):
    """Whether both programs have the same tokens at the position that was found, in another order, and `here` is the
    right one of them: the first one if the position looked up is the one found, else the last one."""
    own, other = ([text for at, text in tokens_of(answer([program, 'tokens'], data)[1]) if at == found_at]
                  for program in (TOOL, reference))
    if own == other or sorted(own) != sorted(other):
        return False
    return here == without_mark(own[0 if found_at == position.replace(' ', ':').encode() else -1])


def reason_within(reference, data, position, here, theirs):
    """The bytes of the map that a position in an index map leads to, and the position in this map. None if there is no
    such map, or if a program answers otherwise in it than in the index map."""
    found = innermost(record_of(data), tuple(map(int, position.split())))
    if found is None:
        return None
    inner, found_at = bytes_of(found[0]), '%d %d' % found[1]
    answers = [answer([program, 'lookup', *found_at.split()], inner) for program in (TOOL, reference)]
    return (inner, found_at) if answers == [here, (0, theirs + b'\n')] else None


def reason_of_lookup(reference, data, position, here, theirs, with_position):
    """Why two answers to a lookup differ. None if no reason fits. `theirs` is the reference's answer. `with_position`
    is this answer with the generated position of its token, as `a.js:0:7 (0:0) (range)`. If the reference refuses the
    map, both are the text of its error."""
    if is_refused_digit(data, here):
        return 'digits'
    if are_json_errors(here, (1, theirs)):
        return 'error'
    match = POSITION.search(with_position)
    if here[0] or not match:
        return None
    if is_index(record_of(data)):
        inner = reason_within(reference, data, position, here, theirs)
        return inner and reason_of_lookup(reference, *inner, here, theirs, with_position)
    text, (line, column) = here[1][:-1], map(int, position.split())
    if match[3] and int(match[1]) != line and is_moved(text, theirs, (column - int(match[2])) % 2**32):
        return 'distance of columns'
    found_at = match[1] + b':' + match[2]
    return 'stable sort' if is_among_equals(reference, data, position, found_at, text) else None


def positions_in_index(record, count):
    """Lines of positions in an index map: beside tokens of the flat map, beside starts of sections, and anywhere."""
    draws = random.Random(count)
    positions = [position for position, _ in flat_tokens(record, tokens_with_positions)] + [(0, 0)]
    starts = list(map(offset_of, record['sections'])) + [(0, 0)]
    last = max(positions)[0]

    def draw_position(number):
        if number % 4 == 3:
            return draws.randrange(last + 3), draws.randrange(1 << draws.randrange(33))
        line, column = draws.choice(starts if number % 4 == 2 else positions)
        return line + (draws.randrange(-1, 2) if number % 4 == 2 else 0), column + draws.randrange(-2, 4)

    bounded = ([max(0, min(LAST, part)) for part in draw_position(number)] for number in range(count))
    return ''.join('%d %d\n' % tuple(position) for position in bounded).encode()


def drawn_positions(reference, data, count):
    """Lines of positions in a map. None if the reference draws none, as for a map that it refuses."""
    if b'"sections"' in data and is_index(record := record_of(data)):
        return positions_in_index(record, count)
    drawn = [answer([reference, 'positions', str(n), *more], data)
             for n, more in ((count // 2, ['7']), (count - count // 2, ['11', 'wild']))]
    return None if any(status for status, _ in drawn) else b''.join(text for _, text in drawn)


def compare_lookups(reference, count, name, data):
    positions = drawn_positions(reference, data, count)
    if positions is None:
        return
    with tempfile.NamedTemporaryFile() as file:
        file.write(positions)
        file.flush()
        (status, text), (_, with_positions) = (answer([reference, word, file.name], data) for word in ('batch', 'dst'))
    for i, position in enumerate(positions.decode().splitlines()):
        here = answer([TOOL, 'lookup', *position.split()], data)
        theirs, with_position = (text if status else both.split(b'\n')[i] for both in (text, with_positions))
        yield note_of(f'{name}, lookup {position}', here, (status, text if status else theirs + b'\n'),
                      lambda: reason_of_lookup(reference, data, position, here, theirs, with_position))


def compare_words(reference, words, name, data):
    here, there = answer([TOOL, *words], data), answer([reference, *words], data)
    return note_of(f'{name}, {" ".join(words)}', here, there, lambda: reason(words[0], data, here, there))


def main():
    words = argparse.ArgumentParser(usage=__doc__)
    words.add_argument('reference')
    words.add_argument('maps')
    words.add_argument('--positions', type=int, default=20)
    given = words.parse_args()
    build_missing()
    reference = reference_program(given.reference)

    def compare(name, data):
        notes = [compare_words(reference, words, name, data) for words in WORDS]
        return notes + list(compare_lookups(reference, given.positions, name, data))

    compare_all(given.maps, compare)


main()
