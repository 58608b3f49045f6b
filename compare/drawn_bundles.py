"""Draws random RAM bundles, some with a wrong table, and random index maps of their modules."""
import json, struct
from bundles import MAGIC
from composing import Token, mappings_of
from index_maps import LAST

TEXTS = [b'xyz', b'x', b'', b'\n', b'ab\n', b'ab\ncdef', b'abcdef\nab', b'a\r\nbc\rdef\n', b'\n\nabc', '👌'.encode(), 'a👌b\nc👌é'.encode(),
         'x\u2028y'.encode(), b'\xff', b'a\xc3', b'abcdefgh', b'abcdefgh', b'abcde\nabcdefgh', b'abcde\nabcdefgh\nabcdefghij']
STARTUPS = [b'', b'', b'ab', b'var a;\n', b'\0']
SOURCES = ['a.js', 'b.js', '/c.js', 'http:d.js', '']
ROOTS = [None, None, None, '', 'r', 'r/', '/']
CONTENTS = [None, 'x', 'y\n', '']


def bundle_bytes(draws, texts):
    """The bytes of an indexed bundle of these modules. Entries of its table and numbers of its header may be wrong."""
    startup, table, start = draws.choice(STARTUPS), [], 0
    body = startup + b''.join(text + b'\0' for text in texts)
    is_lying = draws.randrange(3) == 0
    for text in texts:
        table.append(lying_entry(draws, body) if is_lying and draws.randrange(3) == 0 else (len(startup) + start, len(text) + 1))
        start += len(text) + 1
    count, size = len(texts), len(startup)
    if is_lying and draws.randrange(6) == 0:
        count = draws.choice([count + 1, max(count - 1, 0), 2**32 - 1])
    if is_lying and draws.randrange(6) == 0:
        size = draws.choice([size + 1, len(body), len(body) + 1, 2**32 - 1])
    magic = draws.choice([MAGIC] * 60 + [0xE5D10BFB, 0])
    return struct.pack('<3I', magic, count, size) + b''.join(struct.pack('<2I', *entry) for entry in table) + body


def lying_entry(draws, body):
    """An offset and a length that need not be those of a module."""
    start = draws.randrange(len(body) + 2)
    return draws.choice([(0, 0), (0, 0), (start, 0), (start, draws.randrange(len(body) + 3)), (len(body), 1), (len(body) - 1, 1), (2**32 - 1, 2),
                         (start, 2**32 - 1), (2**32 - 1, 2**32 - 1), (0, 1)])


def height(text):
    return len(text.replace(b'\r\n', b'\n').replace(b'\r', b'\n').split(b'\n'))


def drawn_offsets(draws, texts, first):
    """The line of each module, or None. Mostly, the first module starts at line `first`, and each other module below
    the one before. The list may have one entry too many or too few, or be empty."""
    way = draws.choice(['below'] * 6 + ['apart', 'one line', 'anywhere', 'last'])
    lines, line = [], first
    for text in texts:
        lines.append(line)
        line += {'below': height(text), 'apart': height(text) + 1}.get(way, 0)
    if way == 'anywhere':
        lines = [draws.randrange(first + 14) for _ in texts]
    if way == 'last':
        lines = [LAST - draws.randrange(3) for _ in texts]
    lines = [None if draws.randrange(12) == 0 else min(line, LAST) for line in lines]
    return draws.choice([lines] * 10 + [lines[:-1], lines + [3], []])


def drawn_map(draws, count):
    """A regular map with at most `count + 4` tokens, on up to seven lines. Maps may share sources and names."""
    sources, names = draws.sample(SOURCES, draws.randrange(1, 4)), draws.sample(['n', 'm', 'o', ''], draws.randrange(3))
    offsets = sorted((draws.randrange(7), draws.randrange(9)) for _ in range(count))
    if draws.randrange(2):
        offsets = sorted({(line, column) for line, column in [*offsets, *((line, 0) for line in range(6))]})[:count + 4]
    is_ranged, tokens = draws.randrange(3) == 0, []
    for line, column in offsets:
        source = (draws.randrange(9), draws.randrange(9), draws.randrange(len(sources))) if draws.randrange(8) else (LAST, LAST, LAST)
        name = draws.randrange(len(names)) if names and source[2] != LAST and draws.randrange(2) else LAST
        tokens.append(Token(line, column, *source, name, is_ranged and draws.randrange(2) == 0))
    mappings, marks = mappings_of(tokens)
    record = {'version': 3, 'sources': sources, 'names': names, 'mappings': mappings}
    if marks:
        record['rangeMappings'] = marks
    if draws.randrange(2):
        record['sourcesContent'] = [draws.choice(CONTENTS) for _ in sources]
    root = draws.choice(ROOTS)
    return record if root is None else {**record, 'sourceRoot': root}


def drawn_index(draws, texts):
    """The text of an index map of these modules. It has so few tokens that the sorts of the reference program keep the
    order of tokens at one position."""
    count, first = draws.choice([1, 1, 1, 2, 3]), draws.choice([0, 0, 0, 1, 5])
    is_far = draws.randrange(12) == 0
    sections, line = [], LAST - draws.randrange(12) if is_far else first
    for _ in range(count):
        made = drawn_map(draws, draws.randrange([17, 6, 3][count - 1]))
        column = 0 if draws.randrange(6) else draws.randrange(5)
        sections.append({'offset': {'line': min(line, LAST), 'column': column}, 'map': made})
        line += draws.choice([0, 1, 3, 10])
    if draws.randrange(20) == 0:
        nested = {'sections': [dict(sections[0])]} if draws.randrange(2) else None
        draws.choice(sections).update(map=nested, url=draws.choice([None, 'u']))
    record = {'version': 3, 'sections': sections, 'x_facebook_offsets': drawn_offsets(draws, texts, LAST - 5 if is_far else first)}
    if draws.randrange(20) == 0:
        del record['x_facebook_offsets']
    return json.dumps(record)
