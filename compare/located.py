#!/usr/bin/env python3
"""Compares four kinds of answers with those of a reference program, and with the rules in references.py and urls.py:
references to maps, what references resolve to, relative paths, and which texts are maps.

    compare/located.py REFERENCE [PACKAGES] [--texts N] [--seed N]

REFERENCE    the folder bench/reference, which is then built, or a program over the Rust crate that has the command
             `references QUESTIONS`, as asking_references.py describes it
PACKAGES     a folder of packages. Up to 300 of its *.js and *.css files are tested too, those that contain
             `sourceMappingURL=` first
--texts      the number of random texts (2000)
--seed       the seed of all random choices (1)

Neither sourcemap_tool nor sourcemap_bench has commands for this, so asking.py builds a small program that has them.
Nothing about this program is proved.

Each answer must be the answer of the rules, unless it is about a map in a data URL, or about a host for which urls.py
leaves the result open. Each answer is also compared with the reference's. The reason for a difference from the
reference is `panic`, or the smallest set of departures in references.py that leads to the reference's answer. If the
answer is not that of the rules, or the rules leave it open, a difference has no reason. The script prints the first ten
differences with each reason. It prints each difference without a reason as UNEXPLAINED, and then the status is 1.
"""
import argparse, pathlib, random
from comparing import reference_program
from comparing_references import OPEN, compare_answers
from drawn_references import BASES, PATHS, URLS, drawn_path, drawn_record, drawn_text
from references import cut_sources, is_map, locate_reference, relative_path, resolved_url, resolved_path
from urls import Open

MOST_TEXTS, MOST_BYTES = 300, 1 << 20


def packed_texts(folder):
    """The names and the bytes of up to MOST_TEXTS files of packages, those with the mark of a reference first."""
    paths = [path for suffix in ('js', 'css') for path in pathlib.Path(folder).rglob(f'*.{suffix}')]
    texts = [(str(path.relative_to(folder)), path.read_bytes()) for path in sorted(paths) if path.is_file() and path.stat().st_size <= MOST_BYTES]
    return sorted(texts, key=lambda text: b'sourceMappingURL=' not in text[1])[:MOST_TEXTS]


def text_questions(texts, draws):
    for text in texts:
        yield ['locate', text.decode('latin-1')]
        try:
            yield ['view', text.decode()]
        except UnicodeDecodeError:
            pass
        found = locate_reference(text)
        if isinstance(found, list) and not found[1].startswith('data:'):
            yield ['resolve', found[1], draws.choice(BASES)]
            yield ['path', found[1], draws.choice(PATHS)]


def questions_of(given):
    draws = random.Random(given.seed)
    yield from text_questions([drawn_text(draws) for _ in range(given.texts)], draws)
    if given.packages:
        yield from text_questions([text for _, text in packed_texts(given.packages)], draws)
    for url in URLS:
        yield ['embedded', url]
        yield from (['resolve', url, base] for base in BASES)
        yield from (['path', url, path] for path in PATHS)
    for _ in range(given.texts):
        base, target = drawn_path(draws), drawn_path(draws)
        yield ['relative', base, target]
        shared = base[:draws.randrange(len(base) + 1)]
        yield ['relative', base, shared + target]
        yield ['cut', None, None, [[draws.choice([shared, '', '/a/']) + drawn_path(draws), None] for _ in range(draws.randrange(1, 5))]]
        yield ['map', drawn_record(draws)]


def due(question, ways):
    """The answer of the rules, changed by the departures `ways` of the reference. OPEN if the rules leave it open."""
    word, *texts = question
    if word == 'locate':
        return [locate_reference(texts[0].encode('latin-1'))] * 2
    if word == 'view':
        return locate_reference(texts[0].encode())
    if word == 'map':
        return [is_map(texts[0].encode('latin-1'), ways)] * 2
    if word == 'cut':
        return [[source, None] for source in cut_sources([source for source, _ in texts[2]], ways)]
    call = {'resolve': resolved_url, 'path': resolved_path, 'relative': relative_path}.get(word)
    try:
        return call(*texts, ways) if call else OPEN
    except Open:
        return OPEN


# the departures in references.py that the reference may have
URL_WAYS = ['url', 'old url', 'new url']
WAYS = {'resolve': URL_WAYS, 'path': ['dots', 'drive', 'scheme', 'bytes', 'colon', *URL_WAYS], 'relative': ['nothing'], 'cut': ['forgotten'],
        'map': ['twice', 'skipped', 'array']}


def main():
    words = argparse.ArgumentParser(usage=__doc__)
    words.add_argument('reference')
    words.add_argument('packages', nargs='?')
    words.add_argument('--texts', type=int, default=2000)
    words.add_argument('--seed', type=int, default=1)
    given = words.parse_args()
    compare_answers(reference_program(given.reference), list(questions_of(given)), due, lambda question: WAYS.get(question[0], []))


main()
