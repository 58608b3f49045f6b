#!/usr/bin/env python3
"""Measures time and memory on hostile inputs: each kind at three sizes, by each command and call that it concerns.

    checks/hostile.py [KIND..] [--scale N] [--instructions] [--list]

KIND            a kind, or a part of the names of kinds (all kinds)
--scale         multiplies the sizes, as 0.1 or 4 (1)
--instructions  counts instructions with valgrind instead of processor time; slow, and the same on every run
--list          prints the kinds, and runs nothing

A kind makes an input of a given size. It also defines the count n that cost is compared with: the bytes of the input,
the bytes of input and output, the size, or a product that the format requires, such as the length of `sourceRoot` times
the number of sources. A run may define another count for its time. The sizes are N, 2N and 4N.

The first table has a row for each run. The input, output, time and peak memory in a row are those of the largest size.
The time and the peak memory of the same run on a small input are subtracted. The growth of time and memory from the
smallest size to the largest is given as an exponent of n. A row fails in each of these cases:

- the time at the largest size is more than twice the time at the smallest size, scaled by n log n
- the memory at the largest size is more than twice the memory at the smallest size, scaled by n
- the memory at the largest size is more than the kind allows for each unit of n
- the time at the largest size is more than the run allows
- an exit status is not 0, 1 or 2

Times and memory within the noise do not fail a row. A call that refuses a kind is run all the same.

A second table has for each kind the memory that it allows for each unit of n, the most that a run took, and the most
output for each byte of input. If nested index maps are among the kinds, the script finds by bisection how much stack
they take, and prints it. The last line is `N passed, M failed`. The exit status is 1 if a row failed.

The programs are sourcemap_tool, sourcemap_bench and sourcemap_bench_calls. The script builds those that are missing.
SOURCEMAP_TOOL, SOURCEMAP_BENCH and SOURCEMAP_BENCH_CALLS in the environment name other programs. Needs the GNU version
of `/usr/bin/time`, and valgrind for --instructions.
"""
import argparse, base64, collections, functools, json, math, os, pathlib, re, resource, struct, subprocess, sys, tempfile
sys.path.insert(0, str(pathlib.Path(__file__).resolve().parent.parent / 'compare'))
from comparing import BENCH, BENCH_CALLS, CRATES, TOOL, build_missing

SLACK = 2
# smaller amounts are noise: seconds, instructions, bytes
LEAST_TIME, LEAST_COUNT, LEAST_MEMORY = 0.02, 5_000_000, 1 << 20
# with --instructions, each nanosecond of a time limit allows this many instructions
INSTRUCTIONS = 4
README = json.dumps({'version': 3, 'sources': ['coolstuff.js'], 'names': ['x', 'alert'],
                     'mappings': 'AAAA,GAAIA,GAAI,EACR,IAAIA,GAAK,EAAG,CACVC,MAAM'})
FLAT_COMMANDS = ['lookup 0 5', 'tokens', 'rewrite', 'compose small.map', 'trace small.txt', 'flatten', 'shift 1']
INDEX_COMMANDS = ['lookup 0 5', 'flatten', 'shift 1', 'trace small.txt', 'tokens', 'rewrite', 'compose small.map']
FLAT_WORDS = ['decode 1', 'decode-reader 1', 'lookup 1', 'tokens 1', 'encode 1', 'rewrite 1']
INDEX_WORDS = ['decode 1', 'decode-reader 1', 'lookup 1', 'encode 1', 'flatten 1']

# A run of a program with these words.
# stack  a function of the size: the limit of the stack in bytes. If None, the limit is not changed
# count  a function like that of `Kind`: the count that the time is compared with. If None, the count of the kind
# most   how many nanoseconds the run may take for each unit of this count. If None, any number
Run = collections.namedtuple('Run', 'program words stack count most', defaults=[None, None, None])
# A kind of input.
# make    a function of the size: makes the input
# size    the smallest size
# runs    the runs on this kind
# memory  how many bytes of memory a run may take for each unit of the count
# count   a function of the size, and of the bytes of the input and of the output: the count that cost is compared with
Kind = collections.namedtuple('Kind', 'name make size runs memory count')
KINDS = []


def kind(name, size, runs, memory, count=lambda size, given, written: given):
    def add_kind(make):
        KINDS.append(Kind(name, make, size, runs, memory, count))
        return make
    return add_kind


def of_tool(*words):
    return [Run(TOOL, each.split()) for each in words]


def of_bench(*words):
    return [Run(BENCH, each.split()) for each in words]


def of_calls(*words):
    return [Run(BENCH_CALLS, each.split()) for each in words]


FLAT = of_tool(*FLAT_COMMANDS) + of_bench(*FLAT_WORDS) + of_calls('encode-in-parts', 'to-data-url')
INDEX = of_tool(*INDEX_COMMANDS) + of_bench(*INDEX_WORDS) + of_calls('flatten-and-rewrite')
# `copy` calls `clone`, `print` prints the map by `Debug`, and `value` converts it to a JSON value and back.
# `builder-tokens` adds the tokens of the map to a builder.
VALUES = of_calls('copy', 'print', 'value')
COPIES = VALUES + of_calls('builder-tokens')
DECODES = of_tool('lookup 0 5', 'tokens') + of_bench('decode 1', 'decode-reader 1') + of_calls('detect', 'detect-reader')


def with_output(size, given, written):
    return given + written


def by_size(size, given, written):
    return size


def by_square(size, given, written):
    return size * size + given


def lines_of(numbers, front=b''):
    return b''.join(b'%b%d\n' % (front, number) for number in numbers)


def text_of(record):
    return json.dumps(record, separators=(',', ':'), ensure_ascii=False).encode()


def digits(number):
    raw, text = 2 * abs(number) + (number < 0), ''
    while raw >= 32:
        text, raw = text + DIGITS[raw % 32 + 32], raw // 32
    return text + DIGITS[raw]


DIGITS = 'ABCDEFGHIJKLMNOPQRSTUVWXYZabcdefghijklmnopqrstuvwxyz0123456789+/'


def flat(mappings, **more):
    return text_of({'version': 3, 'sources': ['a.js'], 'names': ['x'], 'mappings': mappings, **more})


def index(sections):
    return text_of({'version': 3, 'sections': [{'offset': {'line': line, 'column': column}, **part}
                                               for line, column, part in sections]})


def small(mappings='AAAA'):
    return {'map': {'version': 3, 'sources': ['a.js'], 'names': [], 'mappings': mappings}}


def colliding_input(what, count, *options):
    command = [CRATES.parent / 'bench/colliding.py', what, str(count), *options]
    return subprocess.run(command, stdout=subprocess.PIPE, check=True).stdout


# texts that all have the same hash, because the seed of the hash function is fixed

@kind('colliding sources', 10_000, FLAT, 12)
def _(size):
    return colliding_input('sources', size)


@kind('colliding names', 10_000, FLAT, 8)
def _(size):
    return colliding_input('names', size)


@kind('colliding sections', 10_000, INDEX, 12)
def _(size):
    return colliding_input('index', size)


@kind('colliding lines', 10_000, of_calls('builder', 'intern'), 8)
def _(size):
    return colliding_input('lines', size)


# the table grows while the tree has many colliding lines, and enters them again
@kind('usual lines after colliding lines', 10_000, of_calls('builder', 'intern'), 8)
def _(size):
    return colliding_input('lines', size) + colliding_input('lines', size // 10, '--usual')


# mappings

@kind('one huge segment', 1_000_000, DECODES, 4)
def _(size):
    return flat('A' * size)


@kind('one number without an end', 1_000_000, DECODES, 4)
def _(size):
    return flat('g' * size)


@kind('a segment of many numbers', 1_000_000, of_calls('vlq'), 12)
def _(size):
    return b'C' * size


# Without `lookup 1`: this map has no tokens, so its lookups do less than those of the small input.
@kind('empty segments and lines', 1_000_000, [run for run in FLAT if run.words != ['lookup', '1']], 4)
def _(size):
    return flat(',;' * (size // 2))


@kind('falling tokens', 200_000, FLAT, 56)
@kind('falling tokens that are copied and printed', 200_000, COPIES, 120)
def _(size):
    return flat('D,' * size + 'A')


@kind('equal tokens', 200_000, FLAT, 16)
def _(size):
    return flat('AAAC,' * size + 'AAAA')


@kind('a token in turn on two lines far apart', 100_000, FLAT, 16)
def _(size):
    return flat(';'.join('gBAAC,DAAD' for _ in range(size)))


@kind('range bits without tokens', 1_000_000, FLAT, 4)
def _(size):
    return flat('A', rangeMappings='A' * size)


@kind('ids that name nothing', 200_000, DECODES, 20)
def _(size):
    return text_of({'version': 3, 'sources': [], 'names': [], 'mappings': 'A,' * size + 'CAAA'})


@kind('names that are missing', 200_000, FLAT, 12)
def _(size):
    return text_of({'version': 3, 'sources': ['a.js'], 'names': ['x'], 'mappings': 'AAAA,' + 'CAAA,' * size + 'AAAAC'})


# records

@kind('numbers as names', 200_000, FLAT, 80)
@kind('numbers as names that are copied and printed', 200_000, COPIES, 110)
def _(size):
    return text_of({'version': 3, 'sources': ['a.js'], 'names': [0] * size, 'mappings': 'AAAA'})


@kind('empty contents', 100_000, FLAT, 48)
@kind('empty contents that are copied and printed', 100_000, COPIES, 60)
def _(size):
    return text_of({'version': 3, 'sources': ['a'] * size, 'sourcesContent': [''] * size, 'names': [],
                    'mappings': 'AAAA,' + 'CCAA,' * (size - 1) + 'C'})


@kind('contents without sources, copied and printed', 100_000, COPIES, 90)
def _(size):
    return text_of({'version': 3, 'sources': [], 'sourcesContent': [''] * size, 'names': [], 'mappings': ''})


@kind('doubled keys', 100_000, DECODES, 3)
def _(size):
    return b'{"version":3,"sources":[],"mappings":"",' + b'"names":[],' * size + b'"names":[]}'


@kind('many keys', 100_000, DECODES, 20)
def _(size):
    return text_of({**{f'{number}': 0 for number in range(size)}, 'version': 3, 'sources': [], 'names': [], 'mappings': ''})


@kind('objects in a key that nothing reads', 100_000, DECODES, 16)
def _(size):
    return b'{"version":3,"sources":[],"names":[],"mappings":"","x":[' + b'{"":0},' * size + b'{"":0}]}'


@kind('nested objects in a key that nothing reads', 1_000, DECODES, 16)
def _(size):
    nested = b'{"":' * 125 + b'0' + b'}' * 125
    return b'{"version":3,"sources":[],"names":[],"mappings":"","x":[' + (nested + b',') * size + b'0]}'


@kind('arrays in a key that nothing reads', 200_000, DECODES, 16)
def _(size):
    return b'{"version":3,"sources":[],"names":[],"mappings":"","x":[' + b'[],' * size + b'[]]}'


def nested_arrays(size):
    return (b'[' * 120 + b']' * 120 + b',') * size + b'null'


# refused, but only when the record is read. Of an array where a record reads a text nothing is kept
@kind('nested arrays in a list that is read', 1_000, DECODES, 4)
def _(size):
    return b'{"version":3,"names":[],"mappings":"","sources":[' + nested_arrays(size) + b']}'


# any JSON value may be a name
@kind('nested arrays as names', 1_000, DECODES, 32)
def _(size):
    return b'{"version":3,"sources":[],"mappings":"","names":[' + nested_arrays(size) + b']}'


@kind('objects as names', 50_000, DECODES, 150)
def _(size):
    return b'{"version":3,"sources":[],"mappings":"","names":[' + b'{"":0},' * size + b'{"":0}]}'


@kind('deep arrays', 500_000, DECODES, 4)
def _(size):
    return b'[' * size + b']' * size


@kind('escapes', 200_000, FLAT, 3)
def _(size):
    return b'{"version":3,"sources":["' + b'\\u0041' * size + b'"],"names":["x"],"mappings":"AAAA"}'


@kind('escapes that are cut short', 200_000, DECODES, 4)
def _(size):
    return b'{"version":3,"sources":["' + b'\\ud83d' * size


@kind('junk without an end', 1_000_000, DECODES, 3)
def _(size):
    return b')]}' + b'x' * size


@kind('junk of returns', 1_000_000, DECODES, 3)
def _(size):
    return b')]}' + b'\r\n' * size + README.encode()


@kind('white space', 1_000_000, DECODES, 3)
def _(size):
    return b' ' * size + README.encode()


@kind('ids to ignore', 200_000, FLAT, 24)
@kind('ids to ignore that are copied and printed', 200_000, COPIES, 24)
def _(size):
    return flat('AAAA', ignoreList=[0] * size)


# products that the format requires

def map_with_root(size):
    """A map with a `sourceRoot` of `size` bytes, `size` sources, and a token for each source."""
    return {'version': 3, 'sourceRoot': 'r' * size, 'sources': [f'{number}' for number in range(size)], 'names': [],
            'mappings': 'AAAA' + ',CCAA' * (size - 1)}


@kind('sourceRoot times sources', 2_000, FLAT, 2.2, by_square)
@kind('sourceRoot times sources, copied and printed', 2_000, COPIES, 2.5, by_square)
def _(size):
    return text_of(map_with_root(size))


@kind('tokens of one long source', 1_000, FLAT, 2, with_output)
def _(size):
    return text_of({'version': 3, 'sources': ['s' * size], 'names': [], 'mappings': 'AAAA,' + 'CAAA,' * size + 'C'})


def far_line(size):
    return index([(0, 0, small()), (size, 0, small())])


@kind('a far line', 4_000_000, of_tool('flatten') + of_bench('flatten 1', 'encode 1') + of_calls('encode', 'flatten-and-rewrite'), 2.2, by_size)
def _(size):
    return far_line(size)


@kind('a far line as a data URL', 4_000_000, of_calls('to-data-url'), 4.3, by_size)
def _(size):
    return far_line(size)


# `encode-in-parts` holds no memory for each line
@kind('a far line in parts', 40_000_000, of_calls('encode-in-parts'), 0.01, by_size)
def _(size):
    return far_line(size)


@kind('sourceRoot times sources in a section', 2_000, INDEX, 3.2, by_square)
def _(size):
    return index([(0, 0, {'map': map_with_root(size)})])


@kind('sourceRoot times sources in parts', 2_000, of_calls('encode-in-parts'), 1.25, by_square)
def _(size):
    return text_of(map_with_root(size))


# the written text is as long as the product, but `encode-in-parts` does not hold it
@kind('sourceRoot times sources in a section, in parts', 2_000, of_calls('encode-in-parts'), 2.5, by_square)
def _(size):
    return index([(0, 0, {'map': map_with_root(size)})])


@kind('a root that is set', 2_000, of_calls('set-root'), 1.25, by_square)
def _(size):
    return text_of({**map_with_root(size), 'sourceRoot': None}) + b'\n' + b'r' * size


@kind('a root in place of another', 2_000, of_calls('set-root'), 2.5, by_square)
def _(size):
    return text_of(map_with_root(size)) + b'\n' + b's' * size


# all prefixes have a long common start with the one source
@kind('prefixes times their length', 1_000, of_calls('strip'), 1, by_square)
def _(size):
    start = b'p' * size
    return b' '.join(start + b'%d' % number for number in range(size)) + b'\n' + start + b'/\n'


PREFIX = 'p' * 40


@kind('prefixes times sources', 1_000, of_calls('strip'), 0.1, by_square)
def _(size):
    prefixes = ' '.join(f'{PREFIX}{number}' for number in range(size)).encode()
    return prefixes + b'\n' + lines_of(range(size), PREFIX.encode() + b'/')


@kind('prefixes times sources of a map', 1_000, of_calls('rewrite-strip'), 0.1, by_square)
def _(size):
    sources = [f'{PREFIX}/{number}' for number in range(size)]
    return text_of({**map_with_root(size), 'sourceRoot': None, 'sources': sources}) + b'\n' + lines_of(range(size), PREFIX.encode())


@kind('a root of a builder', 2_000, of_calls('builder-root'), 1.25, by_square)
def _(size):
    return b'r' * size + b'\n' + lines_of(range(size))


# setters of maps and builders

@kind('a line for each source', 100_000, of_calls('set-sources', 'set-contents', 'set-file', 'ignore'), 20)
def _(size):
    return text_of({**map_with_root(size), 'sourceRoot': 'r'}) + b'\n' + lines_of(range(size, 0, -1))


@kind('one long line to set', 1_000_000, of_calls('set-root', 'set-sources', 'set-contents', 'set-file', 'ignore'), 4)
def _(size):
    return flat('AAAA', sourceRoot='r') + b'\n' + b'x' * size


BUILDS = of_calls('builder-raw', 'builder-sources', 'builder-contents', 'builder-file', 'builder-ids', 'builder-ignore')


@kind('a line for each source of a builder', 100_000, BUILDS + of_calls('sections'), 50)
def _(size):
    return lines_of(range(size, 0, -1))


@kind('one long line for a builder', 1_000_000, BUILDS + of_calls('builder-root', 'sections'), 4)
def _(size):
    return b'x' * size


@kind('debug ids', 50_000, of_calls('builder-ids'), 2)
def _(size):
    return b''.join(b'%032x\n' % number for number in range(size))


# contents from files

@kind('a file for each source of a builder', 500, of_calls('builder-load'), 6)
def _(size):
    return lines_of(range(size)), {f'{number}': b'a\n' * 2_000 for number in range(size)}


@kind('a file for each source', 500, of_calls('rewrite-load'), 6)
def _(size):
    return text_of({**map_with_root(size), 'sourceRoot': None}), {f'{number}': b'a\n' * 2_000 for number in range(size)}


@kind('a source for each file that is missing', 20_000, of_calls('rewrite-load'), 20)
def _(size):
    return text_of({**map_with_root(size), 'sourceRoot': None})


# each source is a different text that leads to the same file
@kind('sources of a builder times one file', 1_000, of_calls('builder-load'), 1.25, by_square)
def _(size):
    return b''.join(b'%d/../FILE\n' % number for number in range(size)), b'a' * size


@kind('sources times one file', 1_000, of_calls('rewrite-load'), 1.25, by_square)
def _(size):
    return text_of({**map_with_root(size), 'sourceRoot': None, 'sources': [f'{number}/../FILE' for number in range(size)]}), b'a' * size


# index maps

@kind('sections in falling order', 20_000, INDEX, 48)
def _(size):
    return index([(size - number, 0, small()) for number in range(size)])


@kind('sections of one offset', 20_000, INDEX, 48)
def _(size):
    return index([(0, 0, small()) for _ in range(size)])


@kind('sections without a map', 50_000, INDEX, 60)
def _(size):
    return index([(number, 0, {'url': 'u'}) for number in range(size)])


@kind('sections of nothing', 50_000, INDEX, 70)
@kind('sections of nothing that are copied and printed', 50_000, VALUES, 135)
def _(size):
    return b'{"version":3,"sections":[' + b'{"offset":{"line":0,"column":0}},' * size + b'{"offset":{"line":0,"column":0}}]}'


@kind('sections with an empty map', 50_000, VALUES, 130)
def _(size):
    section = b'{"offset":{"line":0,"column":0},"map":{"mappings":""}}'
    return b'{"version":3,"sections":[' + (section + b',') * size + section + b']}'


def within_indexes(tokens, depth):
    record = flat('CAAA,' * tokens + 'C').decode()
    for _ in range(depth):
        record = '{"version":3,"sections":[{"offset":{"line":0,"column":0},"map":' + record + '}]}'
    return record.encode()


@kind('a large map in forty indexes', 100_000, INDEX, 24)
def _(size):
    return within_indexes(size, 40)


# flattening walks the nested indexes once
@kind('a map in ten to forty indexes', 10, of_bench('flatten 1') + of_calls('flatten-and-rewrite'), 2, lambda size, given, written: size * given)
def _(size):
    return within_indexes(50_000, size)


def unresolved_index(size):
    return index([(number, 0, {'url': 'u'}) for number in range(size)])


@kind('a line for each section', 50_000, of_calls('index-file', 'section-urls'), 48)
def _(size):
    return unresolved_index(size) + b'\n' + lines_of(range(size))


@kind('one long line for an index', 1_000_000, of_calls('index-file', 'index-rows', 'section-urls', 'section-maps'), 4)
def _(size):
    return unresolved_index(1) + b'\n' + b'x' * size


@kind('a map for each section', 10_000, of_calls('section-maps'), 16)
def _(size):
    return unresolved_index(size) + b'\n' + (README.encode() + b'\n') * size


# for each line, a call moves all sections
@kind('sections moved down by a row for each', 2_000, [Run(BENCH_CALLS, ['index-rows'], count=by_square)], 60)
def _(size):
    return unresolved_index(size) + b'\n' + b'1\n' * size


@kind('indexes too deep for text', 20_000, DECODES, 4)
def _(size):
    opening, closing = b'{"version":3,"sections":[{"offset":{"line":0,"column":0},"map":', b'}]}'
    return opening * size + README.encode() + closing * size


# function maps

@kind('function maps of one line', 100_000, FLAT, 12)
def _(size):
    scopes = [[{'names': ['f', 'g'], 'mappings': 'AAA,' + 'CCA,CDA,' * size + 'C'}]]
    return flat('AAAA', x_facebook_sources=scopes)


@kind('function maps without names', 50_000, FLAT, 56)
def _(size):
    return text_of({'version': 3, 'sources': ['a'] * size, 'names': [], 'mappings': 'AAAA',
                    'x_facebook_sources': [[{'names': [], 'mappings': ';'}]] * size})


@kind('a token in each of many functions', 100_000, of_calls('scopes', 'bytecode-names'), 7.5)
def _(size):
    scopes = [[{'names': ['f', 'g'], 'mappings': 'AAA,' + 'CCA,CDA,' * (size // 2) + 'C'}]]
    return flat('AAAA,' + 'CAAC,' * size + 'C', x_facebook_sources=scopes)


# two inputs

@kind('positions by the million', 250_000, of_tool('trace FILE'), 6)
def _(size):
    return README.encode(), ''.join(f'{number % 7}:{number % 1000}\n' for number in range(size)).encode()


@kind('positions on one line without an end', 1_000_000, of_tool('trace FILE'), 2)
def _(size):
    return README.encode(), b'1' * size


@kind('an adjustment from one position', 200_000, of_tool('compose FILE'), 12)
def _(size):
    return flat('AAAA,' + 'CAAC,' * size + 'C'), flat('AAAA,' + 'CAAA,' * size + 'C')


@kind('an adjustment in falling order', 200_000, of_tool('compose FILE'), 16)
def _(size):
    return flat('AAAA,' + 'CAAC,' * size + 'C'), flat(f'AAA{digits(size)},' + 'CAAD,' * size + 'C')


# generated texts

def map_and_text(columns, text):
    return flat('AAAA,' + 'CAAC,' * (columns - 1) + 'CAAC') + b'\n' + text


def views_of(tokens, most):
    """The runs on a map and its generated text, whose longest line has `size` characters. `tokens` is a function of the
    size, and returns the number of tokens on this line.

    `walk` may take 50 nanoseconds for each byte of input. `names` walks back from every 128th token, and searches for
    an identifier at each token of a walk. Only the first search of a walk on a line starts at the start of the line. It
    goes to the token, and through the white space after the token. So `names` may take `most` nanoseconds for each byte
    of input, and for each character of the line in each walk. If all 128 searches of a walk started at the start of the
    line, `names` would take many times as long."""
    def calls_times_line(size, given, written):
        return given + math.ceil(tokens(size) / 128) * size
    return [Run(BENCH_CALLS, ['walk'], most=50), Run(BENCH, ['views', 'names', '1'], count=calls_times_line, most=most)]


@kind('one long identifier, a token at each column', 50_000, views_of(lambda size: size, 0.4), 12)
def _(size):
    return map_and_text(size, b'a' * size)


@kind('white space, a token at each column', 50_000, views_of(lambda size: size, 4), 12)
def _(size):
    return map_and_text(size, b' ' * size)


@kind('pairs of surrogates, a token at each column', 50_000, views_of(lambda size: 2 * size, 6), 8)
def _(size):
    return map_and_text(2 * size, '\U0001d51e'.encode() * size)


@kind('names at the end of a line of letters', 500_000, views_of(lambda size: 20_000, 0.4), 3)
def _(size):
    return flat('AAAA,' + digits(size - 1) + 'AAC,' + 'AAAC,' * 20_000 + 'AAAC') + b'\n' + b'a' * size


@kind('lines without text', 1_000_000, of_calls('view', 'slices', 'locate', 'locate-reader', 'locate-view') + [Run(BENCH, ['views', 'lines', '1'])], 12)
def _(size):
    return b'\n' * size


@kind('one line of letters', 1_000_000, of_calls('view', 'slices', 'identifier'), 2.5)
def _(size):
    return b'a' * size


@kind('one line of pairs of surrogates', 500_000, of_calls('view', 'slices'), 2.5)
def _(size):
    return '\U0001d51e'.encode() * size


@kind('references to nothing', 50_000, of_calls('locate', 'locate-reader', 'locate-view'), 3)
def _(size):
    return b' //# sourceMappingURL=a.map\n//# sourceMappingURL' * size


@kind('a reference without an end', 1_000_000, of_calls('locate', 'locate-reader', 'locate-view', 'resolve', 'resolve-path'), 6)
def _(size):
    return b'//# sourceMappingURL=' + b'a/' * (size // 2)


# URLs and paths

@kind('a path of dots', 200_000, of_calls('resolve', 'resolve-path', 'relative'), 3)
def _(size):
    return b'//# sourceMappingURL=' + b'../' * size


@kind('long paths', 200_000, of_calls('relative', 'prefix'), 2)
def _(size):
    return b'/a' * size + b'/b\n' + b'/a' * size + b'/c'


@kind('a data URL', 1_000_000, of_calls('data-url', 'embedded'), 6)
def _(size):
    record = flat('A' * size)
    return b'data:application/json;base64,' + base64.b64encode(record)


@kind('a data URL of nothing', 1_000_000, of_calls('data-url', 'embedded'), 4)
def _(size):
    return b'data:application/json;base64,' + b'=' * size


# bundles

def bundle(count, startup, entries, code=b''):
    return struct.pack('<III', 0xFB0BD1E5, count, startup) + b''.join(struct.pack('<II', *each) for each in entries) + code


@kind('a bundle whose modules are one text', 20_000, of_calls('bundle'), 2)
def _(size):
    return bundle(size, 0, [(0, size)] * size, b'x' * size)


@kind('a bundle whose entries lie', 100_000, of_calls('bundle'), 2)
def _(size):
    return bundle(size, 0xFFFFFFFF, [(0xFFFFFFFF, 0xFFFFFFFF)] * size)


@kind('a bundle whose count passes its table', 100_000, of_calls('bundle'), 2)
def _(size):
    return struct.pack('<III', 0xFB0BD1E5, 4 * size, 0) + struct.pack('<II', 0, 2) * size


@kind('a bundle of nothing', 100_000, of_calls('bundle'), 2)
def _(size):
    return bundle(size, 0, [(0, 0)] * size)


@kind('a bundle in a file', 100_000, of_calls('bundle-path'), 2)
def _(size):
    return b'FILE', bundle(size, 0, [(0, 2)] * size, b'x\0')


def bundle_of_files(modules):
    """The path of a file bundle, and a dict of the paths and the bytes of its files."""
    return b'FILE', {'FILE': b'', 'js-modules/UNBUNDLE': struct.pack('<I', 0xFB0BD1E5), **{f'js-modules/{name}.js': text for name, text in modules}}


@kind('a bundle of many files', 500, of_calls('bundle-path'), 2)
def _(size):
    return bundle_of_files((number, b'a' * 4_000) for number in range(size))


# module numbers from 0 to the greatest that a file bundle may have
@kind('a bundle of files whose numbers are far apart', 500, of_calls('bundle-path'), 2)
def _(size):
    return bundle_of_files((number * (2**64 - 2) // (size - 1), b'a' * 4_000) for number in range(size))


SPLITS = [Run(BENCH, ['bundles', 'split', '1'])]


def split_of(offsets, mappings, text, entries):
    """The input of a split: an index map with these offsets of modules, a line feed, and an indexed bundle."""
    record = {'version': 3, 'sections': [{'offset': {'line': 0, 'column': 0}, **small(mappings)}], 'x_facebook_offsets': offsets,
              'x_metro_module_paths': []}
    return text_of(record) + b'\n' + bundle(len(entries), 0, entries, text)


@kind('a bundle of modules of one line each', 20_000, SPLITS, 8)
def _(size):
    return split_of([*range(size)], 'AAAA;' * size, b'x;\0' * size, [(3 * number, 3) for number in range(size)])


# the map of each module gets all tokens
@kind('modules that all stand on one line', 1_000, [Run(BENCH, ['bundles', 'split', '1'], count=by_square)], 12)
def _(size):
    return split_of([0] * size, 'AAAA,' + 'CAAC,' * size + 'C', b'x' * (2 * size) + b'\0', [(0, 2 * size)] * size)


# what `check` looks at: texts, names and lists

CHECKS, BESIDE = of_tool('check'), of_tool('check --generated FILE')


def with_contents(contents, mappings, names=('x',)):
    return text_of({'version': 3, 'sources': ['a.js'], 'sourcesContent': [contents], 'names': [*names], 'mappings': mappings})


def there_and_back(columns, count):
    """Segments with names whose original columns are by turns far and near."""
    near, far = f'CAA{digits(-columns)}A', f'CAA{digits(columns)}A'
    return 'AAAAA,' + ','.join((far, near) * (count // 2))


@kind('names on a long line of a source', 50_000, CHECKS, 24)
def _(size):
    return with_contents('y' * size, there_and_back(size - 1, size))


@kind('names on a long line of pairs of surrogates', 50_000, CHECKS, 24)
def _(size):
    return with_contents('\U0001d51e' * size, there_and_back(2 * size - 1, size))


@kind('names on far lines of sources', 50_000, CHECKS, 24)
def _(size):
    return with_contents(('y' * 2000 + '\n') * (size // 1000), there_and_back(1999, size))


@kind('a long name on a long line', 50_000, CHECKS, 24)
def _(size):
    return with_contents('y' * 2 * size, there_and_back(size, size), ['y' * (size - 1) + 'x'])


@kind('columns past a long line of a source', 50_000, CHECKS, 24)
def _(size):
    return with_contents('y' * size, there_and_back(2 * size, size))


# each of the first 10,000 is looked at after 41 shifts
@kind('words before the last column that is looked at', 20_000, CHECKS, 24)
def _(size):
    return with_contents('xx' * size, there_and_back(4000, size), ['xx'])


@kind('words of a long line of a generated text', 50_000, BESIDE, 24)
def _(size):
    return with_contents('xx' * size, there_and_back(size, size)), b'xx' * size


@kind('columns past a generated text of surrogates', 50_000, BESIDE, 24)
def _(size):
    return flat('A' + ',BAAA' * size), '\U0001d51e'.encode() * (size // 4)


@kind('tokens that fall in the text', 200_000, CHECKS, 80)
def _(size):
    return flat('gBAAA' + ',DAAA' * 15 + (',gBAAA' + ',DAAA' * 16) * (size // 17))


@kind('two originals of each position', 100_000, CHECKS, 24)
def _(size):
    return flat('AAAA' + ',AACA,CAAA' * (size // 2))


@kind('sources that are equal and not used', 50_000, CHECKS, 24)
def _(size):
    return text_of({'version': 3, 'sources': ['a.js'] * size, 'names': ['x'] * size, 'mappings': 'AAAA'})


@kind('colliding sources that are checked', 10_000, CHECKS, 12)
def _(size):
    return colliding_input('sources', size)


@kind('sections that overlap', 20_000, CHECKS, 36)
def _(size):
    return index([(0, 0, small('AAAA;AAAA'))] * size)


@kind('a broken map in many sections', 20_000, CHECKS, 36)
def _(size):
    return index((2 * number, 0, small('AAAA;A!AA')) for number in range(size))


# maps that are built in memory

NEST = 'nest'
# with a smaller stack the program does not start
LEAST_STACK = 250_000


@kind('indexes in one another, 100 in 1,024,000 bytes of stack', 25, [Run(BENCH_CALLS, [NEST], lambda size: max(10_240 * size, LEAST_STACK))], 14_200,
      by_size)
def _(size):
    return str(size).encode()


@kind('indexes in one another, 1,000 in 8 MB of stack', 250, [Run(BENCH_CALLS, [NEST], lambda size: max(8 * 2**20 * size // 1000, LEAST_STACK))], 14_200,
      by_size)
def _(size):
    return str(size).encode()


# the cache holds the inputs of the three sizes, which all runs of a kind use
@functools.lru_cache(maxsize=3)
def made_of(make, size):
    return make(size)


def inputs_of(made, folder):
    """Writes an input and its other files into a folder, with small.map and small.txt. `made` is the bytes of the
    input, or a pair of these bytes and the other files. The other files are the bytes of FILE, or a dict of names and
    bytes. Returns the number of bytes of the input and the other files."""
    source, beside = made if isinstance(made, tuple) else (made, {})
    files = beside if isinstance(beside, dict) else {'FILE': beside}
    given = {'small.map': README.encode(), 'small.txt': b'0:5\n1:0\n', 'input': source, **files}
    for name, data in given.items():
        path = pathlib.Path(folder, name)
        path.parent.mkdir(exist_ok=True)
        path.write_bytes(data)
    return len(source) + sum(map(len, files.values()))


def with_stack(stack):
    """A function for `preexec_fn` that limits the stack of the new process to `stack` bytes, or None for no limit."""
    return (lambda: resource.setrlimit(resource.RLIMIT_STACK, (stack, stack))) if stack else None


def measure_run(run, folder, counts, size=None):
    """Runs a program in a folder with an input. Returns the processor time in seconds, or the number of instructions if
    `counts` is true. Also returns the peak memory in bytes, the number of bytes of the output, and the exit status."""
    counted, peak = pathlib.Path(folder, 'counted'), pathlib.Path(folder, 'peak')
    command = [run.program, *run.words]
    if counts:
        command = ['valgrind', '--tool=callgrind', f'--callgrind-out-file={counted}', *command]
    # The peak of a process includes its memory before `exec`. So a small process starts the program, not this script.
    command = ['/usr/bin/time', '-o', peak, '-f', '%M', *command]
    with open(pathlib.Path(folder, 'input'), 'rb') as source, tempfile.TemporaryFile() as sink:
        process = subprocess.Popen(command, stdin=source, stdout=sink, stderr=subprocess.DEVNULL, cwd=folder,
                                   preexec_fn=with_stack(run.stack and size and run.stack(size)))
        _, status, usage = os.wait4(process.pid, 0)
        process.returncode = os.waitstatus_to_exitcode(status)
        written = sink.seek(0, os.SEEK_END)
    cost = usage.ru_utime + usage.ru_stime
    if counts:
        cost = int(re.search(r'^summary: (\d+)', counted.read_text(), re.MULTILINE)[1])
    return cost, int(peak.read_text().split()[-1]) * 1024, written, process.returncode


def has_stack(levels, stack):
    """Whether a stack of `stack` bytes suffices for `levels` nested index maps."""
    try:
        ran = subprocess.run([BENCH_CALLS, NEST], input=str(levels).encode(), stdout=subprocess.DEVNULL, stderr=subprocess.DEVNULL,
                             env={}, preexec_fn=with_stack(stack))
    except OSError:
        return False
    return ran.returncode == 0


def stack_of(levels):
    """The least stack that suffices for `levels` nested index maps, in bytes, rounded up to whole pages."""
    low, high = 16, 2**15
    while high - low > 1:
        middle = (low + high) // 2
        low, high = (low, middle) if has_stack(levels, 4096 * middle) else (middle, high)
    return 4096 * high


def print_stack():
    few, many = stack_of(100), stack_of(1000)
    print(f'stack: 100 index maps in one another take {few:,} bytes, 1,000 take {many:,}: {(many - few) / 900:,.0f} a level')


# The result of a run at one size.
# count   the count that memory is compared with
# steps   the count that time is compared with
# given, written  the bytes of the input and of the output
# cost    the time in seconds, or the number of instructions
# memory  the peak memory in bytes, less that of the small input
# status  the exit status
Row = collections.namedtuple('Row', 'count steps given written cost memory status')


def try_sizes(each, run, base, scale, counts):
    """Makes a run at each size. Returns the rows, and a list of texts that say what failed."""
    rows = []
    for factor in (1, 2, 4):
        size = max(1, int(each.size * scale)) * factor
        with tempfile.TemporaryDirectory() as folder:
            given = inputs_of(made_of(each.make, size), folder)
            cost, memory, written, status = measure_run(run, folder, counts, size)
        count = each.count(size, given, written)
        steps = run.count(size, given, written) if run.count else count
        rows.append(Row(count, steps, given, written, cost, max(0, memory - base[1]), status))
    # A program that refuses the input at once may cost less than on the small input. Then nothing is subtracted.
    spent = base[0] if all(row.cost > base[0] for row in rows) else 0
    rows = [row._replace(cost=row.cost - spent) for row in rows]
    return rows, list(failures_of(each, run, rows, base, counts))


def failures_of(each, run, rows, base, counts):
    first, last = rows[0], rows[-1]
    grown = last.steps * math.log(last.steps + 2) / (first.steps * math.log(first.steps + 2))
    floor = LEAST_COUNT if counts else LEAST_TIME
    if any(row.status not in (0, 1, 2) for row in rows):
        yield f'status {[row.status for row in rows]}'
    if last.cost > SLACK * grown * max(first.cost, floor / SLACK):
        yield f'time grows by {last.cost / max(first.cost, 1e-9):.1f}, and n log n by {grown:.1f}'
    # The memory of the small input may be freed before the peak. So whole peaks are compared, with `base` added again.
    if last.memory + base[1] > SLACK * last.count / first.count * (first.memory + base[1]):
        yield f'memory grows by {last.memory / max(first.memory, 1):.1f}, and n by {last.count / first.count:.1f}'
    if last.memory > each.memory * last.count + LEAST_MEMORY:
        yield f'{last.memory / last.count:.1f} bytes a unit, of {each.memory}'
    most = run.most and run.most * last.steps * (INSTRUCTIONS if counts else 1e-9)
    if most and last.cost > max(most, floor):
        yield f'{last.cost / most:.1f} times the time that it may take'


def growth(rows, of):
    """The exponent with which the time or the memory grows with its count, from the first row to the last. Returns 0 if
    the time or the memory of one of these rows is not positive, or if the count does not grow."""
    first, last = [(row.steps, row.cost) if of == 'cost' else (row.count, row.memory) for row in (rows[0], rows[-1])]
    return math.log(last[1] / first[1]) / math.log(last[0] / first[0]) if min(first[1], last[1]) > 0 and last[0] > first[0] else 0


def name_of(run):
    return f'{pathlib.Path(run.program).name.removeprefix("sourcemap_")} {" ".join(run.words)}'


def print_row(each, run, rows, failures, counts):
    last = rows[-1]
    figure = f'{last.cost / 1e6:.1f} M' if counts else f'{last.cost * 1e3:.0f} ms'
    print(f'| {each.name} | {name_of(run)} | {last.given:,} | {last.written:,} | {figure} | {growth(rows, "cost"):.2f} '
          f'| {last.memory / 1e6:.1f} MB | {growth(rows, "memory"):.2f} | {last.memory / last.count:.1f} | {last.status} '
          f'| {"; ".join(failures) or "ok"} |', flush=True)


def print_worst(worst):
    """Prints the second table. `worst` has for each kind its runs, each with the row of the largest size."""
    print('\n| Kind | Bytes a unit, at most | most measured | by | Output a byte of input, most | by |\n|' + '---|' * 6)
    for each, found in worst:
        # memory up to LEAST_MEMORY is noise, so runs with more memory come first
        run, last = max(found, key=lambda pair: (pair[1].memory > LEAST_MEMORY, pair[1].memory / pair[1].count))
        writer, most = max(found, key=lambda pair: pair[1].written / pair[1].given)
        print(f'| {each.name} | {each.memory:,} | {last.memory / last.count:,.1f} | {name_of(run)} '
              f'| {most.written / most.given:,.2f} | {name_of(writer)} |')
    print()


def base_of(run, counts):
    """The cost and the peak memory of a run on the small input."""
    with tempfile.TemporaryDirectory() as folder:
        inputs_of((README.encode(), b'0:5\n'), folder)
        return measure_run(run, folder, counts)[:2]


def main():
    words = argparse.ArgumentParser(usage=__doc__)
    words.add_argument('kinds', nargs='*')
    words.add_argument('--scale', type=float, default=1)
    words.add_argument('--instructions', action='store_true')
    words.add_argument('--list', action='store_true')
    given = words.parse_args()
    chosen = [each for each in KINDS if not given.kinds or any(word in each.name for word in given.kinds)]
    if given.list:
        print('\n'.join(each.name for each in chosen))
        return
    build_missing(dict.fromkeys(run.program for each in chosen for run in each.runs))
    print('| Kind | Run | Input | Output | Time | Growth | Memory | Growth | Bytes a unit | Status | |\n|' + '---|' * 11)
    passed = failed = 0
    bases, worst = {}, []
    for each in chosen:
        worst.append((each, []))
        for run in each.runs:
            key = run.program, *run.words
            bases[key] = bases.get(key) or base_of(run, given.instructions)
            rows, failures = try_sizes(each, run, bases[key], given.scale, given.instructions)
            print_row(each, run, rows, failures, given.instructions)
            worst[-1][1].append((run, rows[-1]))
            passed, failed = passed + (not failures), failed + bool(failures)
    print_worst(worst)
    if any(run.words == [NEST] for each in chosen for run in each.runs):
        print_stack()
    print(f'{passed} passed, {failed} failed')
    sys.exit(failed > 0)


if __name__ == '__main__':
    main()
