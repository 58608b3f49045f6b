#!/usr/bin/env python3
"""Adjusts maps by other maps with this repository's program and with a reference program. Compares both results, and
compares the first one with the rules of composition in composing.py.

    compare/composed.py REFERENCE PAIRS

REFERENCE  the folder bench/reference, which is then built, or a program over the Rust crate that has the command
           `compose FILE`
PAIRS      a folder with pairs of regular maps at any depth, NAME.original.map and NAME.adjustment.map. The pairs are
           made by bench/make-pairs.py, or by other tools

If the program of this repository is missing, the script builds it. SOURCEMAP_TOOL in the environment names another
file to run instead. The answer of this program must be the answer of the rules, whatever the reference answers. If
the two programs differ, the script prints the reason. A pair without a reason is UNEXPLAINED, and then the status is 1.
The reasons are

- past the line: by the rules a token would pass column 4294967295, so this program refuses the pair. In the reference
  the column wraps to the start of the line; this is not checked
- cut range: the reference has the tokens of the rules, but a shortened range token keeps its original position there.
  By the rules the token gets the original position of its remaining part
- stable sort: several tokens of the adjustment have one original position, and the last of them counts. The reference
  has the tokens of the rules for another order of them. This program keeps their order. There are no range tokens
- range bits: the tokens differ only in which of them are range tokens
- panic: the reference panicked, and there are range tokens
"""
import argparse, json, pathlib
from comparing import Note, PANICKED, TOOL, answer, build_missing, compare_all, note_of, reference_program
from composing import compose_tokens, tokens_of_record, with_others_last, without_repeats
from index_maps import record_of

ORIGINAL, ADJUSTMENT = '.original.map', '.adjustment.map'
REFUSED = (1, b'encountered incompatible sourcemap format\n')


def parts_of(record):
    """A record without its mappings."""
    return {key: part for key, part in record.items() if key not in ('mappings', 'rangeMappings')}


def without_marks(tokens):
    return without_repeats([token._replace(is_range=False) for token in tokens])


class Pair:
    """The tokens of a map and of its adjustment. `due` has the tokens of the adjusted map by the rules, or is None if
    the rules refuse the pair."""

    def __init__(self, original, adjustment):
        self.original, self.adjustment = tokens_of_record(original), tokens_of_record(adjustment)
        self.due = compose_tokens(self.original, self.adjustment)

    def is_due(self, here):
        """Whether an answer is the answer of the rules."""
        if self.due is None:
            return here == REFUSED
        return here[0] == 0 and tokens_of_record(json.loads(here[1])) == without_repeats(self.due)

    def reason(self, here, there):
        """The reason why the reference's answer differs from this program's answer, None if no reason fits. Assumes
        that this program's answer is the answer of the rules."""
        if self.due is None:
            return 'past the line'
        is_ranged = any(token.is_range for token in self.due)
        if there[0] == PANICKED:
            return 'panic' if is_ranged else None
        own, other = json.loads(here[1]), json.loads(there[1])
        if parts_of(own) != parts_of(other):
            return None
        theirs = without_marks(tokens_of_record(other))
        if theirs == without_marks(self.due):
            return 'range bits' if is_ranged else None
        whole = compose_tokens(self.original, self.adjustment, takes_cut=False)
        if theirs == without_marks(whole):
            return 'cut range' if is_ranged else None
        return 'stable sort' if not is_ranged and self.is_reordered(theirs) else None

    def is_reordered(self, theirs):
        """Whether the tokens follow from the rules if the adjustment's tokens are in another order. There must be no
        range tokens."""
        due = compose_tokens(self.original, with_others_last(self.original, self.adjustment, theirs))
        return due is not None and set(theirs) == set(due)


def compare_pair(reference, path, name, data):
    adjustment = str(path).replace(ORIGINAL, ADJUSTMENT)
    here, there = (answer([program, 'compose', adjustment], data) for program in (TOOL, reference))
    pair = Pair(record_of(data), record_of(pathlib.Path(adjustment).read_bytes()))
    why = 'same' if pair.is_due(here) else 'UNEXPLAINED'
    return [Note(f'{name}, by the rules', why, here[1][:400], str(pair.due).encode()[:400]),
            note_of(f'{name}, composed', here, there, lambda: pair.reason(here, there))]


def main():
    words = argparse.ArgumentParser(usage=__doc__)
    words.add_argument('reference')
    words.add_argument('pairs', type=pathlib.Path)
    given = words.parse_args()
    build_missing([TOOL])
    reference = reference_program(given.reference)

    def compare(name, data):
        return compare_pair(reference, given.pairs / name, name, data) if name.endswith(ORIGINAL) else []

    compare_all(given.pairs, compare)


main()
