#!/usr/bin/env python3
"""Makes small pairs of a map and its adjustment. Each run with the same arguments makes the same pairs.

    bench/make-pairs.py FOLDER [--count N] [--seed N]
    bench/make-pairs.py FOLDER --tokens N..

FOLDER    the folder to which NAME.original.map and NAME.adjustment.map are written
--count   the number of pairs (5000)
--seed    the seed of all random choices (1)
--tokens  makes large pairs instead, for measuring times: one for each number, whose original has this many tokens

A small map has up to sixteen tokens on up to three lines. There are so few positions that many tokens have the same
generated or the same original position, or cover an empty range. Columns are small, but a few are at the end of a line.
In half of the maps the tokens of a line are unsorted. Some tokens have no source, and some are range tokens. The two
maps of a pair have no source and no name in common.

The original of a large pair has ten tokens on each line. Its adjustment is like the map of a tool that makes the text
shorter, with forty tokens on each line. It has nine in ten of the original's tokens, in blocks of two hundred. One
block in twenty is swapped with the block before it, and one in four hundred is moved to the end of the text.
"""
import argparse, json, pathlib, random, sys
sys.path.insert(0, str(pathlib.Path(__file__).resolve().parent.parent / 'compare'))
from composing import Token, mappings_of
from index_maps import LAST


def drawn_column(draws, is_far):
    return LAST - draws.randrange(4) if is_far and draws.randrange(4) == 0 else draws.randrange(9)


def drawn_token(draws, is_far, is_ranged):
    """A random token. One in eight has no source, and one in three of the others no name."""
    line, column = draws.randrange(3), drawn_column(draws, is_far)
    is_range = is_ranged and draws.randrange(3) == 0
    if draws.randrange(8) == 0:
        return Token(line, column, LAST, LAST, LAST, LAST, is_range)
    name = draws.choice([0, 1, LAST])
    return Token(line, column, draws.randrange(3), drawn_column(draws, is_far), draws.randrange(2), name, is_range)


def drawn_map(draws, kind):
    is_far, is_ranged = draws.randrange(6) == 0, draws.randrange(3) == 0
    tokens = [drawn_token(draws, is_far, is_ranged) for _ in range(draws.randrange(17))]
    tokens.sort(key=(lambda token: token[:2]) if draws.randrange(2) else (lambda token: token.line))
    mappings, marks = mappings_of(tokens)
    record = {'version': 3, 'file': f'{kind}.js', 'sources': [f'{kind}-{n}.js' for n in range(2)],
              'names': [f'{kind}{n}' for n in range(2)], 'mappings': mappings}
    return {**record, 'rangeMappings': marks} if marks else record


def steps_on(draws, count, tokens_a_line, farthest):
    """Yields `count` positions in order. The step from one column to the next is below `farthest`."""
    column = 0
    for index in range(count):
        column = 0 if index % tokens_a_line == 0 else column + draws.randrange(1, farthest)
        yield index // tokens_a_line, column


def reorder_blocks(draws, tokens):
    """The tokens, with some blocks of 200 swapped with the block before them, and a few blocks moved to the end."""
    blocks = [tokens[at:at + 200] for at in range(0, len(tokens), 200)]
    late = [block for block in blocks if draws.randrange(400) == 0]
    blocks = [block for block in blocks if block not in late]
    for at in range(1, len(blocks)):
        if draws.randrange(20) == 0:
            blocks[at - 1:at + 1] = blocks[at], blocks[at - 1]
    return [token for block in blocks + late for token in block]


def large_pair(draws, count):
    """The tokens of a large original, and the tokens of its adjustment."""
    originals = [Token(line, column, index // 7, column % 60, index * 50 // count, index % 2, False)
                 for index, (line, column) in enumerate(steps_on(draws, count, 10, 13))]
    kept = reorder_blocks(draws, [token for token in originals if draws.randrange(10)])
    positions = steps_on(draws, len(kept), 40, 8)
    return originals, [Token(line, column, token.line, token.column, 0, LAST, False)
                       for token, (line, column) in zip(kept, positions)]


def large_map(tokens, kind):
    return {'version': 3, 'sources': [f'{kind}-{n}.js' for n in range(50)], 'names': ['one', 'two'],
            'mappings': mappings_of(tokens)[0]}


def main():
    words = argparse.ArgumentParser(usage=__doc__)
    words.add_argument('folder', type=pathlib.Path)
    words.add_argument('--count', type=int, default=5000)
    words.add_argument('--seed', type=int, default=1)
    words.add_argument('--tokens', type=int, nargs='+')
    given = words.parse_args()
    draws = random.Random(given.seed)
    given.folder.mkdir(parents=True, exist_ok=True)
    for count in given.tokens or []:
        for kind, tokens in zip(('original', 'adjustment'), large_pair(draws, count)):
            (given.folder / f'{count:07}.{kind}.map').write_text(json.dumps(large_map(tokens, kind)))
    for number in range(0 if given.tokens else given.count):
        for kind in ('original', 'adjustment'):
            (given.folder / f'{number:05}.{kind}.map').write_text(json.dumps(drawn_map(draws, kind)))


main()
