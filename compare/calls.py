"""Random inputs for calls that `sourcemap_bench_calls` and `sourcemap_bench` make, and what each call prints by
the rules of the formats. The rules are those of `bundles.py`, `references.py`, `walks.py` and `rules.py`. Nothing is
taken from the two programs."""
import base64, binascii, collections, json, re, types
import bundles, references, rules, walks
from drawn_bundles import TEXTS, bundle_bytes, drawn_index
from drawn_references import drawn_path, drawn_record, drawn_text
from index_maps import LAST
from urls import Open

NUMBER = re.compile(r'\+?[0-9]+', re.ASCII)
DATA_URL = re.compile(rb'data:application/json(?:;charset=utf-?8)?;base64,', re.ASCII)
URL_FRONTS = [b'data:application/json;base64,', b'data:application/json;charset=utf-8;base64,', b'data:application/json;charset=utf8;base64,',
              b'data:application/json,', b'data:text/plain;base64,', b'DATA:application/json;base64,', b'']
CODE = ['a', 'b', 'function', 'f1', '$', '_x', 'é', '结', '👌', ' ', '  ', '\t', '\xa0', '(', ')', '{', '}', ';', '.', '1', '\u200d', 'aVeryLongName']
ENDS = ['\n', '\n', '\n', '\r\n', '\r']
MINIFIED_URL, MINIFIED_PATH = 'https://example.org/a/b/c.js', '/a/b/c.js'
# a run takes seconds if the header of a bundle claims many more modules than this
MOST_MODULES = 4096
PREFIXES = ['', '/', 'a', '/a', '/a/', 'a/b', 'a/é', 'http://a', '~', 'A']
NO_URL = 'the provided data URL is invalid'


# The functions that draw and mutate maps. `whole` returns the record of a map of any kind, `regular` the record of a
# regular map, and `map_bytes` the bytes of a map, which may be mutated. `changed_mappings` mutates the mappings of a
# record. `changed_bytes` mutates bytes, and may splice in a part of other bytes of the same kind.
Maps = collections.namedtuple('Maps', 'whole regular map_bytes changed_mappings changed_bytes')


# Functions that draw inputs, from the random generator `chance` and the functions in `maps`.

def generated_text(chance):
    lines = [''.join(chance.choice(CODE) for _ in range(chance.randrange(12))) for _ in range(chance.choice([0, 1, 1, 2, 3, 8]))]
    return ''.join(line + chance.choice(ENDS) for line in lines).encode() + chance.choice([b'', b'a'])


def line_of(record):
    return json.dumps(record, ensure_ascii=False, separators=(',', ':')).encode('utf-8', 'surrogatepass')


def map_and_text(chance, maps):
    make = maps.regular if chance.random() < 0.9 else maps.whole
    return line_of(make(chance)) + b'\n' + generated_text(chance)


def referring_text(chance, maps):
    text = drawn_text(chance)
    if chance.random() < 0.2:
        return text + b'\n//# sourceMappingURL=' + data_url(chance, maps)
    return text if chance.random() < 0.8 else generated_text(chance) + text


def map_line(chance, maps):
    return line_of(maps.regular(chance))


def map_and_lines(chance, maps):
    return map_line(chance, maps) + b'\n' + chance.choice([lines, lines, numbers])(chance, maps)


def numbers(chance, maps):
    return b''.join(b'%d\n' % chance.choice([0, 1, 2, 7, LAST, LAST + 1]) for _ in range(chance.randrange(9)))


def prefixes_and_sources(chance, maps):
    starts = [chance.choice(PREFIXES) for _ in range(chance.randrange(4))]
    sources = [chance.choice(starts + PREFIXES) + chance.choice(['', '/']) + chance.choice(['a.js', '/b.js', '']) for _ in range(chance.randrange(9))]
    return '\n'.join([' '.join(starts), *sources]).encode()


def record_text(chance, maps):
    return maps.map_bytes(chance) if chance.random() < 0.5 else drawn_record(chance).encode('utf-8', 'surrogatepass')


def two_paths(chance, maps):
    base = drawn_path(chance)
    return f'{base}\n{chance.choice(["", base[:chance.randrange(len(base) + 1)]])}{drawn_path(chance)}'.encode()


def paths(chance, maps):
    shared = drawn_path(chance)
    return ''.join(chance.choice([shared, shared, '', '/a/']) + drawn_path(chance) + chance.choice(['\n', '\n', '\r\n'])
                   for _ in range(chance.randrange(6))).encode()


def lines(chance, maps):
    return b''.join(chance.choice([b'', b'a', b'b', 'é'.encode(), b'a' * 40]) + chance.choice([b'\n', b'\n', b'\r\n'])
                    for _ in range(chance.choice([0, 1, 3, 10, 40])))


def data_url(chance, maps):
    body = base64.b64encode(maps.map_bytes(chance))
    return chance.choice(URL_FRONTS[:3] * 5 + URL_FRONTS) + (body if chance.random() < 0.9 else body.rstrip(b'='))


def bundle(chance, maps):
    return bundle_bytes(chance, [chance.choice(TEXTS) for _ in range(chance.randrange(7))])


def index_and_bundle(chance, maps):
    texts = [chance.choice(TEXTS) for _ in range(chance.randrange(7))]
    index = drawn_index(chance, texts)
    if chance.random() < 0.2:
        index = json.dumps(maps.changed_mappings(chance, json.loads(index)))
    made = bundle_bytes(chance, texts)
    if chance.random() < 0.2:
        made = maps.changed_bytes(chance, made, bundle(chance, maps))
    return index.encode() + b'\n' + made


# Functions that return the number that a call prints, from the bytes of its input; and their helpers.

def text_of(data):
    """Decodes UTF-8. Raises `rules.Refusal` with the text of the first error if the bytes are not UTF-8."""
    try:
        return data.decode()
    except UnicodeDecodeError as error:
        if error.reason == 'unexpected end of data':
            raise rules.Refusal(f'incomplete utf-8 byte sequence from index {error.start}') from None
        raise rules.Refusal(f'invalid utf-8 sequence of {error.end - error.start} bytes from index {error.start}') from None


def size_of(text):
    return 0 if text is None else len(text.encode('utf-8', 'surrogatepass'))


def lines_of(text):
    """The lines of a text, without the `\\n` or `\\r\\n` at their ends."""
    return [line[:-1].removesuffix('\r') if line.endswith('\n') else line for line in re.findall('[^\n]*\n|[^\n]+', text)]


def parts_of(data):
    """The first line and the text after it. Both are empty if the bytes have no `\\n`."""
    line, found, text = text_of(data).partition('\n')
    return (line, text) if found else ('', '')


def map_and_rest(data):
    """The regular map on the first line, and the text after it. A map of another kind is refused."""
    line, text = parts_of(data)
    record = rules.record(rules.json_of(line.encode()))
    if record['sections'] is not None or record['x_facebook_sources'] is not None:
        raise rules.incompatible()
    return rules.Map(record), text


def identifier_sum(data):
    found, text = map_and_rest(data)
    rows = walks.lines_of(text)
    return sum(size_of(walks.identifier_at(rows, token)) for token in found.tokens)


def line_sum(data):
    rows = walks.END.split(text_of(data))
    return len(rows) + sum(map(size_of, rows))


def slice_sum(data):
    text = text_of(data)
    rows = walks.lines_of(text)
    eighths = [size_of(row) // 8 for row in rows]
    return len(rows) + sum(size_of(walks.slice_of(text, line, eighth, eighth)) for line, eighth in enumerate(eighths))


def url_of(data):
    """The URL of the reference in a text, None if there is none. Raises `rules.Refusal` if a line is not UTF-8,
    unless it is after the reference."""
    found = references.locate_reference(data)
    if found == 'InvalidData':
        raise rules.Refusal('invalid data')
    return found and found[1]


def url_size(data):
    return size_of(url_of(data))


def located_by_view(data):
    text_of(data)
    return url_size(data)


def resolved_url_size(data):
    url = url_of(data)
    return 0 if url is None else size_of(references.resolved_url(url, MINIFIED_URL))


def resolved_path(data):
    url = url_of(data)
    # the path has one character for each byte, so this is its size in bytes
    return 0 if url is None else len(references.resolved_path(url, MINIFIED_PATH) or '')


def detect_map(data):
    return int(references.is_map(data))


def relative(data):
    text = text_of(data)
    base, found, target = text.partition('\n')
    return size_of(references.relative_path(*(base, target) if found else (text, text)))


def prefix(data):
    return size_of(references.common_prefix(lines_of(text_of(data))))


def decode_data_url(data):
    text_of(data)
    front = DATA_URL.match(data)
    try:
        body = base64.b64decode(data[front.end():], validate=True) if front else None
    except binascii.Error:
        body = None
    if body is None or base64.b64encode(body) != data[front.end():]:
        raise rules.Refusal(NO_URL)
    rules.decode_map(body)
    return 1


def count_lines(data):
    return len(lines_of(text_of(data)))


def count_distinct_lines(data):
    return len(set(lines_of(text_of(data))))


def map_text(data):
    """The JSON text of a regular map, or of a flattened index map. A Hermes map is refused."""
    found = rules.decode_map(data)
    found = found.flat() if isinstance(found, rules.Index) else found
    if not rules.is_regular(found):
        raise rules.incompatible()
    return rules.line_of(found).removesuffix('\n')


def encoded_size(data):
    return size_of(map_text(data))


def data_url_size(data):
    return len(URL_FRONTS[1]) + 4 * ((encoded_size(data) + 2) // 3)


def resolved_size(found):
    return sum(size_of(found.resolved_source(source)) for source in range(len(found.texts)))


def with_root(data):
    found, found.root = map_and_rest(data)
    return resolved_size(found)


def with_sources(data):
    found, text = map_and_rest(data)
    given = lines_of(text)[:len(found.texts)]
    found.texts[:len(given)] = given
    return resolved_size(found)


def with_contents(data):
    found, text = map_and_rest(data)
    given = lines_of(text)[:len(found.texts)]
    found.contents[:len(given)] = given
    return sum(map(size_of, found.contents))


def with_file(data):
    found, text = map_and_rest(data)
    return size_of([found.file, *lines_of(text)][-1])


def number_of(line):
    """The number on a line, 0 if the line is not a number below 2^32."""
    number = int(line) if NUMBER.fullmatch(line) else 0
    return number if number <= LAST else 0


def with_ignored(data):
    found, text = map_and_rest(data)
    return len({*found.ignored, *map(number_of, lines_of(text))})


def without_prefix(source, prefixes):
    found = next((prefix for prefix in prefixes if source.startswith(prefix)), '')
    return source[len(found):]


def stripped_size(data):
    line, text = parts_of(data)
    prefixes = [prefix if prefix.endswith('/') else f'{prefix}/' for prefix in line.split(' ')]
    return sum(size_of(without_prefix(source, prefixes)) for source in set(lines_of(text)))


def module_sizes(data):
    try:
        held = bundles.Indexed(data, ())
    except bundles.Refused as error:
        raise rules.Refusal(str(error)) from None
    found = [bundles.answer_of(held.module, number) for number in range(held.count)]
    return sum(len(each) if isinstance(each, bytes) else 1 for each in found if each is not None)


def mix(total, number):
    return (31 * total + number) % 2**32


def checksum_of(data):
    """The checksum of the modules that a bundle is split into. The first line is the index map, the rest the bundle."""
    line, _, rest = data.partition(b'\n')
    record = rules.record(rules.json_of(line))
    if record['sections'] is None:
        raise rules.incompatible()
    index = rules.Index(record)
    try:
        return split_sum(index, bundles.Indexed(rest, ()))
    except bundles.Refused as error:
        raise rules.Refusal(str(error)) from None


def split_sum(index, held):
    found = index.flat()
    tokens = [(token.line, token.column, token.source_line, token.source_column,
               found.texts[token.source] if token.source < len(found.texts) else None, found.name_of(token), token.is_range)
              for token in found.tokens]
    flat = types.SimpleNamespace(tokens=tokens, contents=dict(zip(found.texts, found.contents)))
    if index.offsets is None:
        raise bundles.Refused(bundles.NO_BUNDLE)
    total = 0
    for number in range(held.count):
        data = held.module(number)
        if data is None:
            continue
        if number >= len(index.offsets):
            raise bundles.Refused(bundles.NO_ENTRY)
        if index.offsets[number] is not None:
            item = bundles.module_item(flat, index.offsets[number], number, data, ())
            total = mix(mix(total, len(data)), len(item[3]))
    return total


# for the words of each call: the function that draws its input, and the function that returns the number it prints
CALLS = {('walk',): (map_and_text, identifier_sum), ('view',): (referring_text, line_sum), ('locate',): (referring_text, url_size),
         ('locate-reader',): (referring_text, url_size), ('locate-view',): (referring_text, located_by_view),
         ('resolve',): (referring_text, resolved_url_size), ('resolve-path',): (referring_text, resolved_path),
         ('relative',): (two_paths, relative), ('prefix',): (paths, prefix), ('data-url',): (data_url, decode_data_url),
         ('embedded',): (data_url, decode_data_url), ('detect',): (record_text, detect_map), ('detect-reader',): (record_text, detect_map),
         ('builder',): (lines, count_lines), ('intern',): (lines, count_distinct_lines), ('bundle',): (bundle, module_sizes),
         ('slices',): (referring_text, slice_sum), ('encode',): (map_line, encoded_size), ('encode-in-parts',): (map_line, encoded_size),
         ('to-data-url',): (map_line, data_url_size), ('set-root',): (map_and_text, with_root), ('set-sources',): (map_and_lines, with_sources),
         ('set-contents',): (map_and_lines, with_contents), ('set-file',): (map_and_lines, with_file), ('ignore',): (map_and_lines, with_ignored),
         ('strip',): (prefixes_and_sources, stripped_size)}
SPLIT = ('bundles', 'split', '1')
ALL = {**CALLS, SPLIT: (index_and_bundle, checksum_of)}


def draw_call(chance, maps):
    """The words of a random call, and its input, which may be mutated."""
    words = chance.choice([*ALL, ('walk',), ('data-url',), ('bundle',), SPLIT, SPLIT])
    make = ALL[words][0]
    data = make(chance, maps)
    if chance.random() < (0.1 if words == SPLIT else 0.4):
        data = maps.changed_bytes(chance, data, make(chance, maps))
    if words == ('bundle',) and int.from_bytes(data[4:8], 'little') > MOST_MODULES:
        data = data[:4] + (int.from_bytes(data[4:8], 'little') % MOST_MODULES).to_bytes(4, 'little') + data[8:]
    return words, data


def outcome_of(words, data):
    """The status and the printed line by the rules. None if the rules leave them open, or if the text of a map has too
    many lines to be made here."""
    try:
        return 0, f'{ALL[words][1](data)}\n'.encode()
    except rules.Refusal as refused:
        return 1, f'{refused}\n'.encode()
    except (Open, rules.TooLong):
        return None
