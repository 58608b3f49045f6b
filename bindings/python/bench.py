#!/usr/bin/env python3
"""Times from Python how a map is opened and looked up: the least processor time of several rounds.

    bindings/python/bench.py MAP [POSITIONS]

MAP is a regular map, POSITIONS the number of lookups. They are drawn at random, at tokens or a little to the right.
`bench/make-map.py 800000` writes a map of 4.6 MB.
"""
import random
import sys
import time
from array import array
from itertools import chain, islice

from sourcemap import Map

ROUNDS = 15


def least(run):
    """The least processor time of a call, in microseconds."""
    times = []
    for _ in range(ROUNDS):
        begin = time.process_time()
        run()
        times.append(time.process_time() - begin)
    return 1e6 * min(times)


def drawn_positions(map, count):
    drawn = random.Random(1)
    tokens = list(map)
    return [(token.generated_line, token.generated_column + drawn.randrange(3))
            for token in drawn.choices(tokens, k=count)]


def each(map, positions):
    lookup = map.lookup
    for line, column in positions:
        lookup(line, column)


def main(path, count=20_000):
    with open(path, 'rb') as file:
        data = file.read()
    print(f'{least(lambda: Map(data)) / 1000:10.1f} ms  open {len(data)} bytes')
    map = Map(data)
    read = min(len(map), int(count))
    print(f'{least(lambda: list(islice(map, read))) / read:10.3f} us  a token, of {read} read in order')
    positions = drawn_positions(map, int(count))
    for order, queries in ('random', positions), ('sorted', sorted(positions)):
        words = array('I', chain.from_iterable(queries))
        for what, run in [('lookup', lambda: each(map, queries)), ('lookup_many, arrays', lambda: map.lookup_many(words)),
                          ('lookup_many, pairs', lambda: map.lookup_many(queries)),
                          ('lookup_many, arrays to tokens', lambda: list(map.lookup_many(words)))]:
            print(f'{least(run) / len(queries):10.3f} us  a position, {order}: {what}')


if __name__ == '__main__':
    main(*sys.argv[1:])
