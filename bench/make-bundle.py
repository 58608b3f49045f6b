#!/usr/bin/env python3
"""Writes an index map and its RAM bundle, the same on every run. The index map is the first line. All bytes after this
line are the indexed bundle.

    bench/make-bundle.py MODULES TOKENS [--sections N] [--contents BYTES] > FILE

--sections  the number of sections of the index map (one for each module)
--contents  the bytes of the contents of each source; without it the map has no contents

Each module is one line, as Metro writes them. It has its own source and its part of the tokens. One token in four has
one of 2,000 names, which the modules share. One step in eight goes to the next line of the source. One module in two
hundred is missing from the bundle.
"""
import argparse, itertools, json, pathlib, struct, sys
sys.path.insert(0, str(pathlib.Path(__file__).resolve().parent.parent / 'compare'))
from composing import Token, mappings_of
from index_maps import LAST

MAGIC, STARTUP, NAMES = 0xFB0BD1E5, b'var __startup = 1;', 2000


def drawn_bits(state):
    """Yields pseudo-random numbers, the same for the same state."""
    while True:
        state = (state * 6364136223846793005 + 1442695040888963407) % 2**64
        yield state >> 20


def module_tokens(bits, line, count, source, names):
    """The tokens of a module on this generated line, and the length of the line. `names` is a dict from names to ids,
    and gets the new names."""
    tokens, column, there = [], 0, (0, 0)
    for drawn in itertools.islice(bits, count):
        is_named = drawn >> 29 & 3 == 0
        name = names.setdefault(f'name{(drawn >> 31) % NAMES}', len(names)) if is_named else LAST
        tokens.append(Token(line, column, *there, source, name, False))
        column += 1 + drawn // 80 % 12
        there = (there[0] + 1, 4 * (drawn >> 25 & 3)) if drawn >> 22 & 7 == 0 else (there[0], there[1] + (drawn >> 25 & 15))
    return tokens, column


def made_section(bits, numbers, counts, size):
    """A section with these modules, each on its own line, and the lengths of the lines. `size` is the number of bytes
    of the contents of each source."""
    tokens, lengths, names = [], [], {}
    for line, number in enumerate(numbers):
        more, length = module_tokens(bits, line, counts[number], line, names)
        tokens += more
        lengths.append(length)
    record = {'version': 3, 'sources': [f'src/module{number}.js' for number in numbers], 'names': list(names),
              'mappings': mappings_of(tokens)[0]}
    if size:
        record['sourcesContent'] = [('module.exports = "text";\n' * (size // 24 + 1))[:size]] * len(numbers)
    return {'offset': {'line': numbers[0], 'column': 0}, 'map': record}, lengths


def bundle_bytes(lengths):
    """An indexed bundle of modules with these lengths."""
    table, offset = b'', len(STARTUP)
    for number, length in enumerate(lengths):
        is_missing = number % 200 == 199
        table += struct.pack('<2I', *((0, 0) if is_missing else (offset, length + 1)))
        offset += 0 if is_missing else length + 1
    texts = b''.join(b'x' * length + b'\0' for number, length in enumerate(lengths) if number % 200 != 199)
    return struct.pack('<3I', MAGIC, len(lengths), len(STARTUP)) + table + STARTUP + texts


def main():
    words = argparse.ArgumentParser(usage=__doc__)
    words.add_argument('modules', type=int)
    words.add_argument('tokens', type=int)
    words.add_argument('--sections', type=int)
    words.add_argument('--contents', type=int, default=0)
    given = words.parse_args()
    modules, tokens, count = given.modules, given.tokens, given.sections or given.modules
    counts = [tokens * (number + 1) // modules - tokens * number // modules for number in range(modules)]
    bits, sections, lengths = drawn_bits(1), [], []
    for part in range(count):
        numbers = range(modules * part // count, modules * (part + 1) // count)
        section, more = made_section(bits, numbers, counts, given.contents)
        sections.append(section)
        lengths += more
    record = {'version': 3, 'sections': sections, 'x_facebook_offsets': list(range(modules)), 'x_metro_module_paths': []}
    sys.stdout.buffer.write(json.dumps(record, separators=(',', ':')).encode() + b'\n' + bundle_bytes(lengths))


main()
