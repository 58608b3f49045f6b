#!/usr/bin/env python3
"""Compares the text that this library writes of a map with the tokens that a reference program reads from this text,
and with the text that the reference writes of the map. Does so for every regular map below a folder.

    compare/written.py REFERENCE MAPS

REFERENCE    the folder bench/reference, which is then built, or a program over the Rust crate with the commands
             `stat`, `tokens` (that of `sourcemap_tool`), and `roundtrip`, which writes a map as it is
MAPS         a folder with *.map files, at any depth

If a program of this repository is missing, it is built first. SOURCEMAP_TOOL and SOURCEMAP_BENCH in the environment
name other programs. `sourcemap_bench write` writes each map that the reference calls regular. The reference must print
the same `tokens` of this text as of the map, and must write the same text of the map. A difference is printed with its
reason, or as UNEXPLAINED. If one is unexplained, the status is 1. A difference has a reason only if the answers meet
the test of this reason. For tokens the reasons are:

- repeats: the tokens are the same, but tokens that repeat the one before are left out
- stable sort: from the map, the reference reads the tokens of one position in another order than `sourcemap_tool`.
  From the text, it reads them in the order of `sourcemap_tool`
- range bits: the tokens are the same, but other ones are range tokens. `sourcemap_tool` reads the same tokens from the
  text as from the map

For records they are those of `reason_of_record` in comparing.py.
"""
import argparse
from comparing import (BENCH, answer, build_missing, compare_all, is_reordered, kind_of, note_of, reads_back,
                       reason_of_record, reference_program, tokens_here, without_marks, without_repeats)


def reason_of_tokens(data, written, back, whole):
    """Why the tokens of the text are not those of the map. None if no reason fits."""
    if written[0] or back[0]:
        return None
    if without_repeats(back[1]) == without_repeats(whole[1]):
        return 'repeats'
    own = tokens_here(data)
    if is_reordered(own, whole[1]) and without_repeats(own) == without_repeats(back[1]):
        return 'stable sort'
    is_marked_else = without_marks(back[1]) == without_marks(whole[1])
    return 'range bits' if is_marked_else and reads_back(data, written[1]) else None


def main():
    words = argparse.ArgumentParser(usage=__doc__)
    words.add_argument('reference')
    words.add_argument('maps')
    given = words.parse_args()
    build_missing()
    reference = reference_program(given.reference)

    def compare(name, data):
        if kind_of(reference, data) != 'regular':
            return []
        written = answer([BENCH, 'write'], data)
        back, whole = (answer([reference, 'tokens'], text) for text in (written[1], data))
        here, there = (written[0], written[1] + b'\n'), answer([reference, 'roundtrip'], data)
        return [note_of(f'{name}, tokens', back, whole, lambda: reason_of_tokens(data, written, back, whole)),
                note_of(f'{name}, record', here, there, lambda: reason_of_record(data, here, there))]

    compare_all(given.maps, compare)


main()
