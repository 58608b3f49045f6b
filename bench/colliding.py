#!/usr/bin/env python3
"""Writes texts that all have the same hash by the hash function of the kit's maps, whose seed is fixed.

    bench/colliding.py KIND COUNT [--usual]

KIND says what contains the COUNT texts. `lines`: each line is a text. `sources` or `names`: a map has the texts
as its sources or names, and a token for each. `index`: an index map has ten sections, each with a tenth of the
texts as its sources and as its names. If COUNT is not a multiple of ten, there may be more sections, or fewer.
With `--usual` the texts are as many others, which do not collide. They have 50 bytes instead of 48.

The hash function reads 16 bytes at a time, as two numbers a and b. It multiplies (a xor the state) by
(b xor a constant). The exclusive or of the two halves of the product is the new state. If a is equal to the
state, the product is 0 for any b. So the script searches for a first block after which the state consists of
8 plain characters. A text is this block, these 8 characters, 8 characters that differ from text to text,
and a last block that is the same in all texts.
"""
import argparse
import itertools
import json
import sys

SEED = 0x243F6A8885A308D3
MULTIPLIER = 0x9E3779B97F4A7C15
MASK = 2**64 - 1
LENGTH = 48
PLAIN = set(range(0x21, 0x7F)) - set(b'"\\/')


def fold_product(a, b):
    product = a * b
    return (product & MASK) ^ (product >> 64)


def after_block(state, block):
    a = int.from_bytes(block[:8], 'little')
    b = int.from_bytes(block[8:], 'little')
    return fold_product(a ^ state, b ^ MULTIPLIER)


def hash_of(text):
    """The hash of a text of 48 bytes."""
    state = (SEED + LENGTH) & MASK
    for start in range(0, LENGTH, 16):
        state = after_block(state, text[start:start + 16])
    return state


def first_blocks():
    for number in itertools.count():
        yield b'webpack:%08d' % number


def beginning():
    """The first 24 bytes of all texts."""
    for block in first_blocks():
        state = after_block((SEED + LENGTH) & MASK, block).to_bytes(8, 'little')
        if PLAIN.issuperset(state):
            return block + state
    raise AssertionError('no block found')


def colliding_texts(count):
    start = beginning()
    texts = [start + b'%08d' % number + b'/src/app/file.js' for number in range(count)]
    assert len({hash_of(text) for text in texts[:1000]}) <= 1
    return [text.decode() for text in texts]


def usual(count):
    return ['webpack:///./src/app/components/part/file%06d.js' % number for number in range(count)]


def digits(number):
    """The base64 digits of a number in a segment."""
    raw = number << 1 if number >= 0 else (-number << 1) | 1
    text = ''
    while True:
        digit, raw = raw & 31, raw >> 5
        text += 'ABCDEFGHIJKLMNOPQRSTUVWXYZabcdefghijklmnopqrstuvwxyz0123456789+/'[digit | (32 if raw else 0)]
        if not raw:
            return text


def map_of(sources, names):
    """A map with as many tokens as the longer list has entries. Each token uses the next source and the next name."""
    segments = []
    for number in range(max(len(sources), len(names))):
        step = 1 if number else 0
        source = step if number < len(sources) else 0
        segment = digits(step) + digits(source) + digits(0) + digits(0)
        if number < len(names):
            segment += digits(step)
        segments.append(segment)
    return {'version': 3, 'sources': sources, 'names': names, 'mappings': ','.join(segments)}


def output_text(kind, texts):
    if kind == 'lines':
        return ''.join(text + '\n' for text in texts)
    if kind == 'sources':
        return json.dumps(map_of(texts, []))
    if kind == 'names':
        return json.dumps(map_of(['a.js'], texts))
    sections = []
    share = max(1, len(texts) // 10)
    for line, start in enumerate(range(0, len(texts), share)):
        part = texts[start:start + share]
        sections.append({'offset': {'line': line, 'column': 0}, 'map': map_of(part, part)})
    return json.dumps({'version': 3, 'sections': sections})


def main():
    words = argparse.ArgumentParser(description='Writes texts that collide.')
    words.add_argument('kind', choices=['lines', 'sources', 'names', 'index'])
    words.add_argument('count', type=int)
    words.add_argument('--usual', action='store_true')
    given = words.parse_args()
    texts = usual(given.count) if given.usual else colliding_texts(given.count)
    sys.stdout.write(output_text(given.kind, texts))


if __name__ == '__main__':
    main()
