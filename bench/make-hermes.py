#!/usr/bin/env python3
"""Makes small maps with function maps as Metro writes them, the same on every run.

    bench/make-hermes.py FOLDER [--count N] [--seed N]

FOLDER   the folder to which the maps are written, as NAME.map
--count  the number of maps (2000)
--seed   the seed of the random numbers; another seed makes other maps (1)

A map has up to twelve tokens, most of them on line 0, and up to four sources, some of which may be equal texts. Its
list of function maps is as long as the list of sources, shorter, or longer. An entry of this list is null, is empty, or
has one or two records. Some texts of scope mappings cannot be read, some are not sorted, and some have indexes of
missing names.
"""
import argparse, json, pathlib, random, sys
sys.path.insert(0, str(pathlib.Path(__file__).resolve().parent.parent / 'compare'))
from composing import Token, digits_of, mappings_of
from hermes_maps import KEY
from index_maps import LAST

BROKEN = ['!', 'g', 'gggggggggggggA', 'AAAé']


def drawn_token(draws, sources, is_ranged):
    line, column = draws.choice([0, 0, 0, 1]), draws.randrange(24)
    if not sources or draws.randrange(10) == 0:
        return Token(line, column, LAST, LAST, LAST, LAST, False)
    source_line = LAST if draws.randrange(20) == 0 else draws.randrange(6)
    is_range = is_ranged and draws.randrange(3) == 0
    return Token(line, column, source_line, draws.randrange(12), draws.randrange(sources), LAST, is_range)


def drawn_mappings(draws, names):
    """A random text of scope mappings. Some are not sorted, and one in ten cannot be read."""
    positions = [(draws.randrange(1, 8), draws.randrange(12)) for _ in range(draws.randrange(9))]
    if draws.randrange(8):
        positions.sort()
    text, last = '', (0, 1, 0)
    for line, column in positions:
        is_new = draws.randrange(3) == 0
        name = draws.randrange(names + (draws.randrange(6) == 0))
        steps = [column - (0 if is_new else last[2]), name - last[0], line - last[1]]
        if steps[2] == 0 and draws.randrange(3) == 0:
            steps = steps[:2] if steps[1] else steps[:1]
        if draws.randrange(8) == 0:
            steps = (steps + [0, 0])[:3] + [draws.randrange(9)]
        text += (';' if is_new else draws.choice([',', ',', ',,']) if text else '') + ''.join(map(digits_of, steps))
        last = (name, line, column)
    return text + draws.choice(BROKEN) if draws.randrange(10) == 0 else text


def drawn_records(draws, source):
    names = [f'f{source}_{n}' for n in range(draws.randrange(1, 5))]
    return {'names': names, 'mappings': drawn_mappings(draws, len(names))}


def drawn_entry(draws, source):
    kind = draws.randrange(10)
    if kind < 2:
        return None
    return [] if kind == 2 else [drawn_records(draws, source) for _ in range(2 if kind == 3 else 1)]


def drawn_map(draws):
    sources = [draws.choice([f's{n}.js', f's{n}.js', f's{n}.js', 's0.js']) for n in range(draws.randrange(5))]
    tokens = [drawn_token(draws, len(sources), draws.randrange(4) == 0) for _ in range(draws.randrange(13))]
    tokens.sort(key=lambda token: token[:2])
    mappings, marks = mappings_of(tokens)
    length = len(sources) if draws.randrange(3) else draws.randrange(7)
    record = {'version': 3, 'sources': sources, 'names': [], 'mappings': mappings,
              KEY: [drawn_entry(draws, n) for n in range(length)]}
    if draws.randrange(6) == 0:
        record['sourceRoot'] = 'root'
    return {**record, 'rangeMappings': marks} if marks else record


def main():
    words = argparse.ArgumentParser(usage=__doc__)
    words.add_argument('folder', type=pathlib.Path)
    words.add_argument('--count', type=int, default=2000)
    words.add_argument('--seed', type=int, default=1)
    given = words.parse_args()
    draws = random.Random(given.seed)
    given.folder.mkdir(parents=True, exist_ok=True)
    for number in range(given.count):
        (given.folder / f'{number:05}.map').write_text(json.dumps(drawn_map(draws)))


main()
