#!/usr/bin/env python3
"""Compares lookups in compiled maps with lookups in the maps that were compiled, both by the C library.

    compare/compiled.py MAPS [--positions N] [--seed N]

MAPS         a folder with *.map files, at any depth
--positions  the number of random positions in each map (100000)
--seed       the seed of all random choices (1)

Each map is compiled with its contents. At each token, one column before it and one after it, at the end of each line and
at the random positions, both must find the same token with the same original position and the same ids. Sources, names,
contents, file and debug id must be equal, `verify` must accept the file, and a Hermes map must name the same function for
each token. An index map is compared as its flat map; if it has none, both must refuse it by the same error. What is no map
is skipped. Each difference is printed as UNEXPLAINED, and then the status is 1.

Needs the library that bindings/c/build makes, or another that SOURCEMAP_LIBRARY_DIR names.
"""
import argparse, array, itertools, pathlib, random, sys
from comparing import Note, compare_all
sys.path.insert(0, str(pathlib.Path(__file__).resolve().parent.parent / 'bindings/python'))
import sourcemap

LAST, MOST_SCOPES, MOST_NOTES, BLOCK = sourcemap.NONE, 20_000, 10, 1 << 18
FIELDS = ['found', 'is_range', 'generated_lines', 'generated_columns', 'lines', 'columns', 'source_ids', 'name_ids']
PARTS = ['sources', 'names', 'contents', 'file', 'debug_id']


def note(what, here, there):
    return Note(what, 'same', b'', b'') if here == there else Note(what, 'UNEXPLAINED', repr(here).encode()[:200],
                                                                    repr(there).encode()[:200])


def near_tokens(map):
    """The position of each token, one column before it and one after it; the end of each line of tokens."""
    positions = array.array('I')
    for line, tokens in itertools.groupby(map, lambda token: token.generated_line):
        for token in tokens:
            column = token.generated_column
            positions.extend((line, max(column - 1, 0), line, column, line, min(column + 1, LAST)))
        positions.extend((line, LAST))
    return positions


def random_positions(near, count, draws):
    """Positions up to a line after the last token's, and up to some columns after the last of any line."""
    last = near[-2] if near else 0
    most = max((column for column in near[1::2] if column < LAST - 1), default=0)
    return array.array('I', (word for _ in range(count)
                             for word in (min(draws.randint(0, last + 1), LAST), min(draws.randint(0, most + 20), LAST))))


def lookup_notes(name, compiled, map, positions):
    """A note for the answers to all of these positions. If some differ, one for each of the first that differ."""
    differing = []
    for first in range(0, len(positions), 2 * BLOCK):
        block = memoryview(positions)[first:first + 2 * BLOCK]
        here, there = compiled.lookup_many(block), map.lookup_many(block)
        if any(getattr(here, field).tobytes() != getattr(there, field).tobytes() for field in FIELDS):
            differing += [note(f'{name}, lookup {block[2 * i]}:{block[2 * i + 1]}', here[i], there[i])
                          for i in range(len(here)) if here[i] != there[i]]
    return differing[:MOST_NOTES] or [note(f'{name}, {len(positions) // 2} lookups', 0, 0)]


def scope_notes(name, compiled, map):
    """The same for the functions of tokens of a Hermes map."""
    def scopes(line, column):
        token = map.lookup(line, column)
        here = compiled.scope_at(line, column)
        there = None if token.source_id is None else map.scope_for(token.source_id, token.line, token.column)
        return note(f'{name}, scope {line}:{column}', here, there)

    notes = [scopes(token.generated_line, token.generated_column) for token in itertools.islice(map, MOST_SCOPES)]
    return [each for each in notes if each.why != 'same'][:MOST_NOTES] or notes[:1]


def error_of(call):
    try:
        call()
        return None
    except sourcemap.SourceMapError as error:
        return type(error).__name__, str(error)


def compare_map(name, data, positions, draws):
    try:
        map = sourcemap.Map.loads(data)
    except sourcemap.SourceMapError:
        return []
    if map.kind == 'index' and (refused := error_of(map.share().flatten)):
        return [note(f'{name}, compile', error_of(map.compile), refused)]
    file = map.compile()
    compiled = sourcemap.CompiledMap.from_bytes(file)
    if map.kind == 'index':
        map.flatten()
    near = near_tokens(map)
    notes = [note(f'{name}, verify', error_of(compiled.verify), None), note(f'{name}, tokens', len(compiled), len(map))]
    notes += [note(f'{name}, {part}', getattr(compiled, part), getattr(map, part)) for part in PARTS]
    notes += lookup_notes(name, compiled, map, near)
    notes += lookup_notes(name, compiled, map, random_positions(near, positions, draws))
    if map.kind == 'hermes':
        notes += scope_notes(name, compiled, map)
    return notes


def main():
    words = argparse.ArgumentParser(usage=__doc__)
    words.add_argument('maps', type=pathlib.Path)
    words.add_argument('--positions', type=int, default=100_000)
    words.add_argument('--seed', type=int, default=1)
    given = words.parse_args()
    compare_all(given.maps, lambda name, data: compare_map(name, data, given.positions, random.Random(f'{given.seed} {name}')))


if __name__ == '__main__':
    main()
