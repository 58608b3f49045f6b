#!/usr/bin/env python3
"""Compares the modules of RAM bundles, and the texts and maps that bundles are split into, with those of a reference
program, and with the rules in bundles.py.

    compare/split.py REFERENCE [--bundles N] [--folders N] [--seed N]

REFERENCE    the folder bench/reference, which is then built, or a program over the Rust crate that has the command
             `bundles QUESTIONS`, as asking_bundles.py describes it
--bundles    the number of indexed bundles (3000)
--folders    the number of file bundles: folders with a file for each module (300)
--seed       the seed of all random choices (1)

A bundle has up to six modules. Every third indexed bundle is cut: the script takes one bundle at each length in turn,
and then takes another. Some bundles have wrong tables: entries or counts are too large, modules overlap or are missing.
Some modules are not UTF-8. Each bundle is split by an index map of one to three sections, which may overlap or lack a
map. The line offsets of modules may be null, missing, too few, unordered, all on one line, before the first token, or
at the last possible line. Neither sourcemap_tool nor sourcemap_bench has commands for bundles, so asking.py builds a
small program that has them. Nothing about this program is proved.

Each answer must be the answer of the rules. It is also compared with the reference's answer. The reason for a
difference from the reference is `panic`, or the smallest set of departures that leads to the reference's answer. If
the answer is not that of the rules, a difference has no reason. The script prints the first ten differences with each
reason. It prints each difference without a reason as UNEXPLAINED, and then the status is 1. The departures of the
reference are

- scroll: if a range passes the end of the bytes, the error is one of the library `scroll`
- first: the first token of a module is dropped
- column: the tokens of a module end at the first one, on any line, whose column is not below the width of the last line
- line: the number of the line after a module wraps
- flags: no token of a module is a range token
- past: positions in the flattened map wrap
- sign: the file name of a module may begin with a plus sign
- last: the number of a module may be 2^64 - 1, and then the count of modules wraps
- listed: of two files with the same number, the one that the folder lists later is the module
- lossy: a file name that is not UTF-8 is refused like a name without a number
"""
import argparse, json, os, pathlib, random, struct, tempfile
from bundles import MAGIC, Files, Indexed, answer_of, byte_text, is_file_bundle, items_of, parts_of
from comparing import reference_program
from comparing_references import compare_answers
from drawn_bundles import STARTUPS, TEXTS, bundle_bytes, drawn_index

# no number that both programs accept is huge, because the reference visits each number below the greatest one
NAMES = ['0.js', '1.js', '2.js', '5.js', '007.js', '01.js', '00.js', '+1.js', '-1.js', '1', '1.js.map', '.js', 'x.js', '1.JS', '１.js', ' 1.js', '11.js',
         '4294.js', '18446744073709551615.js', '18446744073709551616.js']


def bundle_questions(draws, count):
    """Yields two questions for each of `count` bundles. Every third one is cut: one bundle at each length in turn."""
    cut, cuts = None, iter(())
    for number in range(count):
        if number % 3 == 0:
            length = next(cuts, None)
            if length is None:
                texts = [draws.choice(TEXTS) for _ in range(draws.randrange(1, 4))]
                cut = bundle_bytes(draws, texts), drawn_index(draws, texts)
                cuts = iter(range(len(cut[0]) + 1))
                length = next(cuts)
            data, index = cut[0][:length], cut[1]
        else:
            texts = [draws.choice(TEXTS) for _ in range(draws.randrange(7))]
            data, index = bundle_bytes(draws, texts), drawn_index(draws, texts)
        yield ['modules', byte_text(data), [0, 1, 2, 5, 6, 7, 2**32 - 2, 2**32 - 1, 2**32, 2**64 - 1]]
        yield ['split', byte_text(data), index]


def make_folder(draws, folder):
    """Makes a file bundle in a folder. The marker file may be missing or wrong. A module may be a folder or a link."""
    beside = pathlib.Path(folder, 'js-modules')
    beside.mkdir(parents=True)
    pathlib.Path(folder, 'main.js').write_bytes(draws.choice(STARTUPS))
    marker = struct.pack('<I', MAGIC) + draws.choice([b'', b'\0', b'more'])
    if draws.randrange(20):
        (beside / 'UNBUNDLE').write_bytes(draws.choice([marker] * 20 + [marker[:3], marker[::-1], b'']))
    names = draws.sample(NAMES[:7] if draws.randrange(3) else NAMES, draws.randrange(5))
    for name in names:
        if draws.randrange(12) == 0:
            (beside / name).mkdir()
        elif draws.randrange(12) == 0:
            (beside / name).symlink_to('../main.js')
        else:
            (beside / name).write_bytes(draws.choice(TEXTS) + name.encode() * draws.randrange(2))
    if draws.randrange(15) == 0:
        pathlib.Path(os.fsdecode(os.fsencode(beside) + b'/\xff.js')).write_bytes(b'x')


def folder_questions(draws, top, count):
    for number in range(count):
        folder = f'{top}/{number}'
        make_folder(draws, folder)
        path = folder + draws.choice(['/main.js'] * 36 + ['/gone.js', '/js-modules', '/js-modules/0.js', ''])
        yield ['folder', path, [0, 1, 2, 5, 7, 2**64 - 2, 2**64 - 1]]
        yield ['split-folder', path, drawn_index(draws, [draws.choice(TEXTS) for _ in range(draws.randrange(1, 7))])]


def due(question, ways):
    """The answer of the rules, changed by the departures `ways` of the reference."""
    word, given, more = question
    if word == 'modules':
        data = given.encode('latin-1')
        return [data[:4] == struct.pack('<I', MAGIC) and len(data) >= 12, answer_of(parts_of, Indexed, data, more, ways)]
    if word == 'folder':
        return [is_file_bundle(given), answer_of(parts_of, Files, given, more, ways)]
    make, given = (Indexed, given.encode('latin-1')) if word == 'split' else (Files, given)
    return answer_of(items_of, make, given, json.loads(more), ways)


# the departures that the reference may have
SPLIT_WAYS = ['first', 'column', 'line', 'flags', 'past']
FOLDER_WAYS = ['sign', 'last', 'listed', 'lossy']
WAYS = {'modules': ['scroll'], 'folder': FOLDER_WAYS, 'split': ['scroll', *SPLIT_WAYS],
        'split-folder': [*SPLIT_WAYS, *FOLDER_WAYS]}


def main():
    words = argparse.ArgumentParser(usage=__doc__)
    words.add_argument('reference')
    words.add_argument('--bundles', type=int, default=3000)
    words.add_argument('--folders', type=int, default=300)
    words.add_argument('--seed', type=int, default=1)
    given = words.parse_args()
    draws = random.Random(given.seed)
    with tempfile.TemporaryDirectory() as top:
        questions = [*bundle_questions(draws, given.bundles), *folder_questions(draws, os.path.realpath(top), given.folders)]
        compare_answers(reference_program(given.reference), questions, due, lambda question: WAYS[question[0]], 'bundles')


main()
