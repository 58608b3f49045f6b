"""The rules of RAM bundles: which modules a bundle contains, and the texts and maps that it is split into. The code
follows the rules of the format, and takes nothing from the programs that are compared. `ways` are known departures of
the reference program from the rules, by the names that split.py lists. A result departs from the rules in
these ways only."""
import os, re, struct
from composing import tokens_of_record
from index_maps import LAST, in_order, is_index, offset_of, absolute_position

MAGIC = 0xFB0BD1E5
LAST_ID = 2**64 - 1
NO_INDEX, NO_ENTRY = 'invalid module index in ram bundle', 'invalid ram bundle module entry'
NO_BUNDLE, NO_MAGIC = 'not a ram bundle', 'invalid magic number for ram bundle'
CANNOT = 'cannot flatten the indexed sourcemap: '
MOST_MODULES, MOST_ITEMS = 12, 20


class Refused(Exception):
    """A bundle, a module or a split is refused with this error text."""


def answer_of(call, *given):
    """The result of a call, or the error text if the call raises `Refused`."""
    try:
        return call(*given)
    except Refused as error:
        return str(error)


def byte_text(data):
    """A text with one character for each byte."""
    return data.decode('latin-1')


def range_of(data, start, size, ways):
    if start + size > len(data):
        raise Refused('Scroll' if 'scroll' in ways else f'parse error: {start}+{size} past {len(data)}')
    return data[start:start + size]


class Indexed:
    """An indexed bundle: one file with a table of its modules."""
    kind = 'Indexed'

    def __init__(self, data, ways):
        self.data, self.ways = data, ways
        magic, self.count, self.size = struct.unpack('<3I', range_of(data, 0, 12, ways))
        self.start = 12 + 8 * self.count
        if magic != MAGIC:
            raise Refused(NO_MAGIC)

    def startup(self):
        return range_of(self.data, self.start, self.size, self.ways)

    def module(self, number):
        if number >= self.count:
            raise Refused(NO_INDEX)
        offset, length = struct.unpack('<2I', range_of(self.data, 12 + 8 * number, 8, self.ways))
        if length == 0 and offset > 0:
            raise Refused(NO_ENTRY)
        return range_of(self.data, self.start + offset, length - 1, self.ways) if length else None


def file_number(name, ways):
    """The number of the module whose file has this name. Raises `Refused` for other names."""
    found = re.fullmatch(r'\+?[0-9]+\.js' if 'sign' in ways else r'[0-9]+\.js', name, re.ASCII)
    most = LAST_ID if 'last' in ways else LAST_ID - 1
    if not found or int(name[:-3]) > most:
        raise Refused(NO_INDEX)
    return int(name[:-3])


class Files:
    """A file bundle: a file with the startup code, and a file for each module in the folder `js-modules` beside it."""
    kind = 'Unbundle'

    def __init__(self, path, ways):
        if not is_file_bundle(path):
            raise Refused(NO_BUNDLE)
        self.code = read(path)
        folder = os.path.join(os.path.dirname(path), 'js-modules')
        names = [entry.name for entry in os.scandir(os.fsencode(folder)) if entry.is_file(follow_symlinks=False)]
        if not all(map(is_text, names)):
            raise Refused(NO_INDEX if 'lossy' in ways else 'InvalidFilename')
        names = [name.decode() for name in names if name != b'UNBUNDLE']
        numbers = [(file_number(name, ways), name) for name in (names if 'listed' in ways else sorted(names, key=str.encode))]
        self.modules = {number: read(os.path.join(folder, name)) for number, name in numbers}
        self.count = (max([0, *self.modules]) + 1) % 2**64

    def startup(self):
        return self.code

    def module(self, number):
        return self.modules.get(number)


def is_text(name):
    try:
        return name.decode() is not None
    except UnicodeDecodeError:
        return False


def read(path):
    with open(path, 'rb') as file:
        return file.read()


def is_file_bundle(path):
    marker = os.path.join(os.path.dirname(path), 'js-modules/UNBUNDLE')
    return os.path.isfile(path) and os.path.isfile(marker) and read(marker)[:4] == struct.pack('<I', MAGIC)


def modules_in_turn(bundle, most):
    """The first `most` modules that are not missing, as pairs: the number, and the bytes or the error text."""
    found = []
    for number in range(bundle.count):
        text = answer_of(bundle.module, number)
        found += [] if text is None else [(number, text)]
        if len(found) == most:
            break
    return found


def module_text(number, text):
    return [number, byte_text(text)] if isinstance(text, bytes) else text


def parts_of(make, given, numbers, ways):
    """The parts of a bundle: its kind, the number of its modules, its startup code, the modules with these numbers, and
    the first modules. A part that is refused is an error text. Raises `Refused` if the bundle is refused."""
    bundle = make(given, ways)
    code = answer_of(bundle.startup)
    return [bundle.kind, bundle.count, [byte_text(code)] if isinstance(code, bytes) else code,
            [module_text(number, answer_of(bundle.module, number)) for number in numbers],
            [module_text(*found) for found in modules_in_turn(bundle, MOST_MODULES)]]


def source_text(root, source):
    """A source resolved against `sourceRoot`."""
    if not root or source and (source[0] == '/' or source.startswith(('http:', 'https:'))):
        return source
    return root.removesuffix('/') + '/' + source


class Flat:
    """The tokens of a map, with texts instead of ids, and its contents by the texts of the sources. An index map is
    flattened. Raises `Refused` if it cannot be flattened."""

    def __init__(self, record, ways):
        self.tokens, self.contents = [], {}
        if is_index(record):
            for section in in_order(record['sections']):
                self.add(section, ways)
            self.tokens.sort(key=lambda token: token[:2])
        else:
            self.take(record)

    def take(self, record):
        sources = [source_text(record.get('sourceRoot'), source or '') for source in record.get('sources') or []]
        names = [*(record.get('names') or []), None]
        for token in tokens_of_record(record):
            source = None if token.source == LAST else sources[token.source]
            name = None if token.name == LAST else names[token.name]
            self.tokens.append((token.line, token.column, token.source_line, token.source_column, source, name, token.is_range))
        self.hold(zip(sources, record.get('sourcesContent') or []))

    def hold(self, contents):
        self.contents.update((source, text) for source, text in contents if text is not None)

    def add(self, section, ways):
        if section.get('map') is None:
            raise Refused(CANNOT + 'Section has an unresolved sourcemap: ' + (section.get('url') or '<unknown url>'))
        flat = Flat(section['map'], ways)
        for line, column, *rest in flat.tokens:
            line, column = absolute_position(offset_of(section), (line, column))
            if max(line, column) > LAST and 'past' not in ways:
                raise Refused(CANNOT + 'a position passes 4294967295')
            self.tokens.append((line % 2**32, column % 2**32, *rest))
        self.hold(flat.contents.items())


def first_of(tokens, line, ways):
    """The index of the first token of a module that begins at column 0 of this line: the first token at or after this
    position. Raises `Refused` if no token is at or before it."""
    before = sum(token[:2] < (line, 0) for token in tokens)
    is_there = before < len(tokens) and tokens[before][:2] == (line, 0)
    if before == 0 and not is_there:
        raise Refused(NO_ENTRY)
    return before + ('first' in ways)


def tokens_in(tokens, line, text, ways):
    """Yields the tokens of a module that begins at this line and has this text. Their generated lines are counted from
    this line."""
    lines = re.split('\r\n|\n|\r', text)
    width = len(lines[-1].encode('utf-16-le')) // 2
    end = (line + len(lines)) % 2**32 if 'line' in ways else line + len(lines)
    for token in tokens[first_of(tokens, line, ways):]:
        is_past = token[0] >= end or token[1] >= width if 'column' in ways else token[:2] >= (end - 1, width)
        if is_past:
            break
        yield (token[0] - line, *token[1:6], False if 'flags' in ways else token[6])


def module_item(flat, line, number, data, ways):
    """The name, the text and the parts of the map of a module, as asking_bundles.py lists them."""
    first_of(flat.tokens, line, ways)
    if not is_text(data):
        raise Refused(NO_ENTRY)
    tokens, name = [list(token) for token in tokens_in(flat.tokens, line, data.decode(), ways)], f'{number}.js'
    sources = dict.fromkeys(token[4] for token in tokens if token[4] is not None)
    names = dict.fromkeys(token[5] for token in tokens if token[5] is not None)
    return [name, data.decode(), name, [[source, flat.contents.get(source)] for source in sources], list(names), tokens]


def items_of(make, given, record, ways):
    """The first items that a bundle is split into, each with its parts or as an error text. Raises `Refused` if the
    split is refused."""
    bundle, flat, lines, items = make(given, ways), Flat(record, ways), record.get('x_facebook_offsets'), []
    if lines is None:
        raise Refused(NO_BUNDLE)
    for number, data in modules_in_turn(bundle, 2 * MOST_ITEMS):
        if not isinstance(data, bytes) or number >= len(lines):
            items.append(NO_ENTRY)
        elif lines[number] is not None:
            items.append(answer_of(module_item, flat, lines[number], number, data, ways))
    return items[:MOST_ITEMS]
