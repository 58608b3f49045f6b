#!/usr/bin/env python3
"""Writes a source map with TOKENS tokens, the same on every run.

    bench/make-map.py TOKENS [--line N] [--contents BYTES] [--functions N] [--sections N] [--within N]

--line      tokens on each line; without it a new line begins before one token in eighty, by chance
--contents  the bytes of the contents of all sources together; without it the map has no contents
--functions the number of functions of each source, in a function map as Metro writes it
--sections  an index map with this number of sections, each below the one before. Each section has its part of the
            tokens and its own sources, with --contents bytes in each section. The sections share their names
--within    the map in this number of nested index maps; each has one section, at line 1 and column 2

A map has 50 sources and 2,000 names, or fewer if it has less than 8,000 tokens. The same holds for the map of each
section. One token in four has a name. The steps between tokens are like those of a bundle: mostly small, and now and
then to the next line of the source.
"""
import argparse, itertools, json

DIGITS = 'ABCDEFGHIJKLMNOPQRSTUVWXYZabcdefghijklmnopqrstuvwxyz0123456789+/'


def digits(number):
    raw = 2 * abs(number) + (number < 0)
    text = ''
    while raw >= 32:
        text += DIGITS[raw % 32 + 32]
        raw //= 32
    return text + DIGITS[raw]


def contents(sources, size):
    """The JSON text of the contents: lines of a script with quotes and tabs, so that the text has escapes."""
    each = size // sources
    line = '\tconst value{} = "text of a line" + other(argument, 17);\n'
    text = ''.join(line.format(n) for n in range(each // len(line) + 1))
    return json.dumps([text[:each]] * sources)


def scopes(sources, count):
    """The JSON text of the function maps, one for each source. The first of the `count` functions is `<global>`."""
    def entry(source):
        names = json.dumps(['<global>', *(f'function{source}_{n}' for n in range(1, count))])
        rows = [digits(n % 7 * 4) + digits(1) + digits(1 + n % 5) for n in range(1, count)]
        return f'[{{"names":{names},"mappings":"{";".join(["AAA", *rows])}"}}]'
    return f'"x_facebook_sources":[{",".join(map(entry, range(sources)))}],'


def drawn_bits(state):
    """Yields pseudo-random numbers, the same for the same state."""
    while True:
        state = (state * 6364136223846793005 + 1442695040888963407) % 2**64
        yield state >> 20


def leads_to(bits, here, source_count, name_count):
    """Draws a list of the source, the original line, the original column and the name of a token, and whether it has a
    name. `here` is this list for the token before."""
    there = here[:]
    if bits >> 12 & 1023 == 0:
        there[0:3] = [(here[0] + 1) % source_count, 0, 0]
    elif bits >> 22 & 7 == 0:
        there[1:3] = [here[1] + 1, 4 * (bits >> 25 & 3)]
    else:
        there[2] = here[2] + (bits >> 25 & 15)
    is_named = bits >> 29 & 3 == 0
    if is_named:
        there[3] = (bits >> 31) % name_count
    return there, is_named


def mappings(count, tokens_a_line, source_count, name_count, state):
    """The mappings of `count` tokens."""
    here = [0, 0, 0, 0]
    lines, parts, column, last = [], [], 0, 0
    for index, bits in enumerate(itertools.islice(drawn_bits(state), count)):
        if index > 0 and index % tokens_a_line == 0 if tokens_a_line else bits % 80 == 79:
            lines.append(','.join(parts))
            parts, last = [], 0
            column = 0
        column += 1 + bits // 80 % 12
        there, is_named = leads_to(bits, here, source_count, name_count)
        steps = [column - last] + [b - a for a, b in zip(here[:3], there[:3])]
        if is_named:
            steps.append(there[3] - here[3])
        parts.append(''.join(map(digits, steps)))
        here, last = there, column
    return ';'.join([*lines, ','.join(parts)])


def regular_map(count, given, folder='src', state=1):
    """The JSON text of a map with `count` tokens, and the number of its generated lines."""
    source_count, name_count = max(1, min(50, count // 160)), max(1, min(2000, count // 4))
    sources = ','.join(f'"{folder}/module{n}.js"' for n in range(source_count))
    names = ','.join(f'"name{n}"' for n in range(name_count))
    text = mappings(count, given.line, source_count, name_count, state)
    texts = f'"sourcesContent":{contents(source_count, given.contents)},' if given.contents else ''
    texts += scopes(source_count, given.functions) if given.functions else ''
    record = f'{{"version":3,"sources":[{sources}],{texts}"names":[{names}],"mappings":"{text}"}}'
    return record, text.count(';') + 1


def section(line, column, record):
    return f'{{"offset":{{"line":{line},"column":{column}}},"map":{record}}}'


def index_map(sections):
    return f'{{"version":3,"file":"all.js","sections":[{",".join(sections)}]}}'


def sections_below(given):
    """Yields sections, each below the one before and with its part of the tokens."""
    line = 0
    for number in range(given.sections):
        count = given.tokens * (number + 1) // given.sections - given.tokens * number // given.sections
        record, height = regular_map(count, given, f'src/part{number}', number + 1)
        yield section(line, 0, record)
        line += height


def main():
    words = argparse.ArgumentParser(usage=__doc__)
    words.add_argument('tokens', type=int)
    words.add_argument('--line', type=int)
    words.add_argument('--contents', type=int)
    words.add_argument('--functions', type=int)
    words.add_argument('--sections', type=int)
    words.add_argument('--within', type=int, default=0)
    given = words.parse_args()
    record = index_map(sections_below(given)) if given.sections else regular_map(given.tokens, given)[0]
    for _ in range(given.within):
        record = index_map([section(1, 2, record)])
    print(record)


main()
