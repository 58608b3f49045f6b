#!/usr/bin/env python3
"""Compares contents that are loaded from files with those of a reference program, and with the rules.

    compare/loading.py REFERENCE [--cases N] [--seed N]

REFERENCE    the folder bench/reference, which is then built, or a program over the Rust crate that has the command
             `references QUESTIONS`, as asking_references.py describes it
--cases      the number of random lists of sources (400)
--seed       the seed of all random choices (1)

The script makes folders with files. Some files are empty or not UTF-8, some are reached through links or other folders,
and some have names that URLs escape. A builder loads contents from these files, and a map that is rewritten loads the
contents that it lacks. Neither sourcemap_tool nor sourcemap_bench has a command for loading, so asking.py builds a
small program that has one. Nothing about this program is proved.

Each answer must be the answer of the rules. It is also compared with the reference's answer. The reason for a
difference from the reference is `panic`, or the smallest set of departures that leads to the reference's answer. If
the answer is not that of the rules, a difference has no reason. The script prints the first ten differences with each
reason. It prints each difference without a reason as UNEXPLAINED, and then the status is 1. The departures of the
reference are `dots`, `colon`, `url`, `old url` and `new url`, as references.py describes them, and

- count: the reference counts the sources that resolve to a path, even if no file can be read there
- bytes: a source may resolve to a path that is not UTF-8
- devices: a file need not be regular
"""
import argparse, os, pathlib, random, tempfile
from comparing import reference_program
from comparing_references import compare_answers
from references import base_by, url_of_reference, path_by
from urls import Refused

FILES = {
    'a.js': b'x', 'b.js': b'\xff', 'empty.js': b'', 'lines.js': b'a\r\nb\n', 'mark.js': b'\xef\xbb\xbfx', 'a b.js': b'space', 'ü.js': 'ü👌'.encode(),
    '100%.js': b'percent', 'q?x.js': b'question', 'h#x.js': b'number', 'x^y.js': b'caret', 'c:': b'colon', 'long.js': b'y' * 5000, 'cut.js': b'a\xc3',
    'sub/a.js': b'below', 'sub/deep/c.js': b'deep', '../other/d.js': b'beside', 'C:/a.js': b'drive', 'a;b=c&d.js': b'marks', "it's.js": b'quote',
    '%41.js': b'escape', 'back\\slash.js': b'back', 'null': b'name', 'http:/x.com/a.js': b'no URL',
}
FOLDERS = ['folder.js', 'none']
LINKS = {'link.js': 'a.js', 'broken.js': 'gone.js', 'loop.js': 'loop.js', 'far.js': '../other/d.js', 'way': '../other/sub'}
SOURCES = [
    *FILES, *FOLDERS, *LINKS, 'gone.js', './a.js', 'sub/../a.js', 'gone/../a.js', 'way/../d.js', '../work/a.js', '../../../../../../../../etc/hostname', 'a%20b.js',
    '%C3%BC.js', '100%25.js', 'q%3Fx.js', 'h%23x.js', '%2541.js', 'a.js?v=1', 'a.js#f', '', '.', '..', '/', 'A.JS', 'a.js/', 'sub', '%ff.js', './c:', 'c:', 'c|',
    '{}/a.js', 'file://{}/a.js', 'FILE://localhost{}/a.js', 'file://host{}/a.js', 'http://localhost{}/a.js', 'x:{}/a.js', 'http://x.com/a.js', 'webpack:///a.js',
    'data:text/plain,x', 'file:a.js', 'file:////{}/a.js', ' a.js ', 'a\tb.js', 'x:a.js', '//a.js', '\\a.js', 'back%5Cslash.js', 'sub\\a.js', '%00', '/dev/null',
]
BASES = [None, '', '.', 'sub', 'sub/', './sub/deep', '..', '../other', 'gone/..', 'way', 'way/..', 'way/../sub', 'sub/../../work', '{}', '{}/sub', '/', 'a b', 'ü']


def make_files(top):
    for name in FILES:
        pathlib.Path(top, name).parent.mkdir(parents=True, exist_ok=True)
        pathlib.Path(top, name).write_bytes(FILES[name])
    pathlib.Path(os.fsencode(top).decode(), os.fsdecode(b'\xff.js')).write_bytes(b'byte')
    for name in [*FOLDERS, '../other/sub']:
        pathlib.Path(top, name).mkdir(parents=True)
    for name, target in LINKS.items():
        pathlib.Path(top, name).symlink_to(target)


def questions_of(top, given):
    draws = random.Random(given.seed)

    def with_top(name):
        return name and name.replace('{}', top)

    for base in BASES:
        for source in SOURCES:
            yield ['load', top, with_top(base), [[with_top(source), None]]]
    for _ in range(given.cases):
        sources = [[with_top(draws.choice(SOURCES)), draws.choice([None, None, None, 'old', ''])] for _ in range(draws.randrange(1, 12))]
        current = draws.choice([top, top, f'{top}/sub'])
        yield [draws.choice(['load', 'rewrite']), current, with_top(draws.choice(BASES)), sources]


def path_from(folder, source, ways):
    """The path that a source resolves to against a folder, None if it does not resolve to a path."""
    url = base_by(folder, ways, is_folder=True)
    try:
        return url and path_by(url_of_reference(source, url, ways), ways)
    except Refused:
        return None


def text_at(path, ways):
    """The text of a file, None if it is not regular, cannot be read or is not UTF-8. The path has one character for each
    byte."""
    try:
        if 'devices' not in ways and not os.path.isfile(path.encode('latin-1')):
            return None
        with open(path.encode('latin-1'), 'rb') as file:
            return file.read().decode()
    except (OSError, ValueError):
        return None


def due(question, ways):
    word, current, base, sources = question
    folder = current if base is None else os.path.join(current, base)
    # equal sources are one source, in the position of the first; the contents that were set last count
    contents = {}
    for source, text in sources:
        contents[source] = contents.get(source) if text is None else text
    count, absolute = 0, folder.startswith('/')
    if not absolute:
        return 'InvalidInput' if word == 'rewrite' else ['InvalidInput', *contents.values()]
    for source in [source for source, text in contents.items() if text is None]:
        path = path_from(folder, source, ways)
        contents[source] = path and text_at(path, ways)
        count += path is not None if 'count' in ways else contents[source] is not None
    return [count, *contents.values()] if word == 'load' else [[source, text] for source, text in contents.items()]


# the departures that the reference may have
WAYS = ['count', 'dots', 'colon', 'bytes', 'devices', 'url', 'old url', 'new url']


def main():
    words = argparse.ArgumentParser(usage=__doc__)
    words.add_argument('reference')
    words.add_argument('--cases', type=int, default=400)
    words.add_argument('--seed', type=int, default=1)
    given = words.parse_args()
    reference = reference_program(given.reference)
    with tempfile.TemporaryDirectory() as top:
        top = os.path.realpath(top) + '/work'
        make_files(top)
        compare_answers(reference, list(questions_of(top, given)), due, lambda question: WAYS)


main()
