"""The rules of each command of `sourcemap_tool`: the exit status and the output, for the bytes of a map and of the file
that the command names. The code follows the rules of the formats, and takes nothing from the compared programs."""
import json, re
import checked, compiled_map
from composing import DIGITS, Token, compose_tokens, digits_of, without_repeats
from hermes_maps import closest
from index_maps import LAST, in_order, offset_of, absolute_position

USAGE = ('usage: lookup [--from-1] LINE COL | tokens | rewrite | flatten | compose FILE | shift ROWS'
         ' | trace [--from-1] FILE | compile [--without-contents]'
         ' | check [--json] [--strict] [--generated FILE] [--name NAME] [--sources DIR]\n')
FROM_1 = '--from-1'
WITHOUT_CONTENTS = '--without-contents'
CHECKS = [['check'], ['check', '--json'], ['check', '--strict'], ['check', '--json', '--strict']]
NUMBER = re.compile(rb'[0-9]+\Z')
HYPHENATED = re.compile(r'[0-9a-fA-F]{8}(-[0-9a-fA-F]{4}){3}-[0-9a-fA-F]{12}\Z')
PLAIN = re.compile(r'[0-9a-fA-F]{32}\Z')
SURROGATE = re.compile('[\ud800-\udfff]')
LEVELS = 127
MOST_LINES = 10**5


class Refusal(Exception):
    """A command fails with this text."""


def parse():
    return Refusal('bad json: the text is not JSON')


def shape():
    return Refusal('bad json: a field has the wrong type')


def incompatible():
    return Refusal('encountered incompatible sourcemap format')


class TooLong(Exception):
    """The mappings of an answer have more lines than this module writes, or scopes are compiled."""


class Fraction:
    """A JSON number that is not an integer from -2^63 to 2^64 - 1, or that is written as `-0`, or with a point or an
    exponent."""


def fraction(text):
    if float(text) in (float('inf'), float('-inf')):
        raise ValueError(text)
    return Fraction()


def whole(text):
    number = int(text) if len(text) < 400 else float('inf')
    if text.startswith('-0') or not -2**63 <= number < 2**64:
        return fraction(text)
    return number


def no_constant(text):
    raise ValueError(text)


def check_texts(value):
    if isinstance(value, str) and SURROGATE.search(value):
        raise parse()
    if isinstance(value, list):
        for item in value:
            check_texts(item)


def members(pairs):
    """A JSON object. A lone surrogate is refused even in a value that a later value with the same key replaces."""
    for _, value in pairs:
        check_texts(value)
    return dict(pairs)


DECODER = json.JSONDecoder(parse_float=fraction, parse_int=whole, parse_constant=no_constant, object_pairs_hook=members)


def is_text(value):
    return isinstance(value, str)


def check_levels(value, left=LEVELS):
    """Refuses JSON with more than LEVELS nested levels, or with a lone surrogate."""
    if isinstance(value, str):
        if SURROGATE.search(value):
            raise parse()
    elif isinstance(value, (list, dict)):
        if left == 0:
            raise parse()
        for part in value if isinstance(value, list) else [*value, *value.values()]:
            check_levels(part, left - 1)


def after_header(data):
    """The bytes after a junk header, or all bytes if there is none. Refuses a header in which a carriage return is
    followed by another byte than a line feed."""
    if data[:1] not in (b')', b']', b'}', b"'"):
        return data
    end = data.find(b'\n')
    junk = data if end < 0 else data[:end + 1]
    at = junk.find(b'\r')
    while at >= 0:
        if at + 1 < len(junk) and junk[at + 1] != 10:
            raise Refusal('invalid data')
        at = junk.find(b'\r', at + 1)
    return b'' if end < 0 else data[end:]


def json_of(data):
    try:
        text = after_header(data).decode('utf-8')
        # only white space may precede and follow the value
        value, end = DECODER.raw_decode(text, len(text) - len(text.lstrip(' \t\n\r')))
        if text[end:].strip(' \t\n\r'):
            raise parse()
    except (ValueError, RecursionError, OverflowError):
        raise parse() from None
    check_levels(value)
    return value


# Each of these functions reads the value of a key. The value is None if it is null or missing.

def u32(value):
    if isinstance(value, bool) or not isinstance(value, int) or not 0 <= value <= LAST:
        raise shape()
    return value


def text(value):
    if not is_text(value):
        raise shape()
    return value


def list_of(item):
    def read(value):
        if not isinstance(value, list):
            raise shape()
        return [item(each) for each in value]
    return read


def optional(item):
    return lambda value: None if value is None else item(value)


def read_object(value, **keys):
    if not isinstance(value, dict):
        raise shape()
    return {key: read(value.get(key)) for key, read in keys.items()}


def any_value(value):
    return value


def debug_id(value):
    if not is_text(value) or not (HYPHENATED.match(value) or PLAIN.match(value)):
        raise shape()
    digits = value.replace('-', '').lower()
    return '-'.join((digits[:8], digits[8:12], digits[12:16], digits[16:20], digits[20:]))


def section(value):
    return read_object(value, offset=lambda it: read_object(it, line=u32, column=u32), url=optional(text),
                       map=optional(record))


def scopes(value):
    return read_object(value, names=list_of(text), mappings=text)


def record(value):
    found = read_object(
        value, version=optional(u32), file=any_value, sources=optional(list_of(optional(text))),
        sourceRoot=optional(text), sourcesContent=optional(list_of(optional(text))),
        sections=optional(list_of(section)), names=optional(list_of(any_value)), rangeMappings=optional(text),
        mappings=optional(text), ignoreList=optional(list_of(u32)), x_facebook_offsets=optional(list_of(optional(u32))),
        x_metro_module_paths=optional(list_of(text)),
        x_facebook_sources=optional(list_of(optional(list_of(scopes)))),
        debugId=optional(debug_id), debug_id=optional(debug_id))
    found['debugId'] = found['debugId'] or found['debug_id']
    return found


def name_text(value):
    if isinstance(value, int) and not isinstance(value, bool):
        return str(value)
    return value if is_text(value) else ''


def digit(byte):
    at = DIGITS.find(chr(byte))
    if at < 0:
        raise Refusal(f'invalid base64 character: {chr(byte)}')
    return at


def numbers(segment):
    """The numbers of a segment. Raises `Refusal` with the first error of the segment."""
    found, raw, length = [], 0, 0
    for byte in segment:
        six = digit(byte)
        raw, length = raw | (six & 31) << 5 * length, length + 1
        if length > 13 or raw >= 2**63:
            raise Refusal('vlq decode caused an overflow')
        if six < 32:
            found.append(-(raw >> 1) if raw & 1 else raw >> 1)
            raw, length = 0, 0
    if length:
        raise Refusal('leftover cur/shift in vlq decode')
    return found


class Map:
    """A regular map or a Hermes map."""

    def __init__(self, found):
        self.file = None if found['file'] is None else found['file'] if is_text(found['file']) else '<invalid>'
        self.root, self.debug_id = found['sourceRoot'], found['debugId']
        self.texts = [it or '' for it in found['sources'] or []]
        self.names = [name_text(it) for it in found['names'] or []]
        # as many as the text has, and one for each source
        self.given = found['sourcesContent'] or []
        self.contents = (self.given + [None] * len(self.texts))[:len(self.texts)]
        self.ignored = sorted(set(found['ignoreList'] or []))
        self.scopes = found['x_facebook_sources']
        self.tokens = self.read(found['mappings'] or '', found['rangeMappings'] or '')

    def read(self, mappings, ranges):
        tokens, there = [], [0, 0, 0, 0]
        marks = ranges.encode().split(b';')
        for line, row in enumerate(mappings.encode().split(b';')):
            if not row:
                continue
            bits = [digit(byte) for byte in marks[line]] if line < len(marks) else []
            column = 0
            for index, segment in enumerate(row.split(b',')):
                if not segment:
                    continue
                first, *rest = numbers(segment)
                if len(rest) not in (0, 3, 4):
                    raise Refusal(f'got {len(rest) + 1} segments, expected 4 or 5')
                column = (column + first) % 2**32
                for at, step in enumerate(rest):
                    there[at] = (there[at] + step) % 2**32
                    if at == 0 and there[0] >= len(self.texts):
                        raise Refusal(f'bad reference to source #{there[0]}')
                if len(rest) == 4 and there[3] >= len(self.names):
                    raise Refusal(f'bad reference to name #{there[3]}')
                source, source_line, source_column = there[:3] if rest else (LAST, LAST, LAST)
                is_range = index // 6 < len(bits) and bool(bits[index // 6] >> index % 6 & 1)
                tokens.append(Token(line, column, source_line, source_column, source,
                                    there[3] if len(rest) == 4 else LAST, is_range))
        return sorted(tokens, key=lambda token: token[:2])

    def resolved_source(self, source):
        """The source with this id, resolved against `sourceRoot`."""
        text = self.texts[source]
        if not self.root or text.startswith(('/', 'http:', 'https:')):
            return text
        root = self.root[:-1] if self.root.endswith('/') else self.root
        return f'{root}/{text}'

    def name_of(self, token):
        return self.names[token.name] if token.name < len(self.names) else None

    def token_text(self, token, distance=0, first=0):
        source = self.resolved_source(token.source) if token.source < len(self.texts) else '<unknown>'
        name = self.name_of(token)
        return (f'{source}:{token.source_line + first}:{min(token.source_column + distance, LAST) + first}'
                + ('' if name is None else f' name={name}'))

    def lookup(self, line, column, first=0):
        token = closest(self.tokens, lambda it: it[:2], (line, column))
        if token is None:
            return 'none'
        return self.token_text(token, column - token.column if token.is_range and token.line == line else 0, first)

    def value(self):
        """The record that the map is written as."""
        mappings, marks = self.mappings_and_marks()
        parts = {'version': 3, 'file': self.file, 'sourceRoot': self.root, 'debugId': self.debug_id,
                 'rangeMappings': marks, 'x_facebook_sources': self.scopes}
        parts = {key: part for key, part in parts.items() if part is not None}
        parts.update(sources=self.texts, names=self.names, mappings=mappings)
        if any(it is not None for it in self.contents):
            parts['sourcesContent'] = self.contents
        if self.ignored:
            parts['ignoreList'] = self.ignored
        return parts

    def mappings_and_marks(self):
        tokens = [token if token.source != LAST and token.name < len(self.names) else token._replace(name=LAST)
                  for token in without_repeats(self.tokens)]
        last = self.tokens[-1].line if self.tokens else 0
        if last > MOST_LINES:
            raise TooLong()
        lines, columns, there = [[] for _ in range(last + 1)], [0] * (last + 1), [0, 0, 0, 0]
        for token in tokens:
            segment = digits_of(token.column - columns[token.line])
            if token.source != LAST:
                here = [token.source, token.source_line, token.source_column] + [token.name] * (token.name != LAST)
                segment += ''.join(digits_of(part - old) for part, old in zip(here, there))
                there = here + there[len(here):]
            columns[token.line] = token.column
            lines[token.line].append((segment, token.is_range))
        marks = [''.join(DIGITS[sum(row[at + bit][1] << bit for bit in range(6) if at + bit < len(row))]
                         for at in range(0, len(row), 6)).rstrip('A') for row in lines]
        return (';'.join(','.join(segment for segment, _ in row) for row in lines),
                ';'.join(marks) if any(marks) else None)

    def rewrite(self):
        made = object.__new__(Map)
        made.file, made.debug_id, made.root, made.ignored = self.file, self.debug_id, None, []
        sources, names, firsts, contents, tokens = {}, {}, [], {}, []
        for token in self.tokens:
            source = name = LAST
            if token.source < len(self.texts):
                text = self.resolved_source(token.source)
                source = sources.setdefault(text, len(sources))
                if source == len(firsts):
                    firsts.append(token.source)
                if self.contents[token.source] is not None:
                    contents.setdefault(source, self.contents[token.source])
            if self.name_of(token) is not None:
                name = names.setdefault(self.name_of(token), len(names))
            tokens.append(token._replace(source=source, name=name))
        made.texts, made.names, made.tokens = list(sources), list(names), tokens
        made.contents = [contents.get(source) for source in range(len(sources))]
        made.scopes = None if self.scopes is None else [
            self.scopes[old] if old < len(self.scopes) else None for old in firsts]
        return made


class Index:
    def __init__(self, found):
        self.file = None if found['file'] is None else found['file'] if is_text(found['file']) else '<invalid>'
        self.debug_id, self.offsets, self.paths = (
            found['debugId'], found['x_facebook_offsets'], found['x_metro_module_paths'])
        # the maps are decoded in the order of the text, because the first error is reported
        sections = [{**it, 'map': None if it['map'] is None else map_of(it['map'])} for it in found['sections']]
        self.sections = in_order(sections)

    def lookup(self, line, column, first=0):
        at = closest(self.sections, offset_of, (line, column))
        if at is None or at['map'] is None:
            return 'none'
        offset = offset_of(at)
        return at['map'].lookup(line - offset[0], column - offset[1] if line == offset[0] else column, first)

    def flat(self):
        made = object.__new__(Map)
        made.file, made.debug_id, made.root, made.scopes = self.file, None, None, None
        sources, names, contents, ignored, tokens = {}, {}, {}, set(), []
        for each in self.sections:
            if each['map'] is None:
                url = '<unknown url>' if each['url'] is None else each['url']
                raise Refusal(f'cannot flatten the indexed sourcemap: Section has an unresolved sourcemap: {url}')
            inner = each['map'].flat() if isinstance(each['map'], Index) else each['map']
            ids = []
            for source in range(len(inner.texts)):
                ids.append(sources.setdefault(inner.resolved_source(source), len(sources)))
                if inner.contents[source] is not None:
                    contents[ids[-1]] = inner.contents[source]
            name_ids = [names.setdefault(name, len(names)) for name in inner.names]
            for token in inner.tokens:
                line, column = absolute_position(offset_of(each), token[:2])
                if max(line, column) > LAST:
                    raise Refusal('cannot flatten the indexed sourcemap: a position passes 4294967295')
                source = ids[token.source] if token.source < len(ids) else LAST
                name = name_ids[token.name] if token.name < len(name_ids) else LAST
                if token.source in inner.ignored:
                    ignored.add(source)
                tokens.append(token._replace(line=line, column=column, source=source, name=name))
        made.texts, made.names, made.ignored = list(sources), list(names), sorted(ignored)
        made.contents = made.given = [contents.get(source) for source in range(len(sources))]
        made.tokens = sorted(tokens, key=lambda token: token[:2])
        return made

    def shift(self, rows):
        if any(it['offset']['line'] + rows > LAST for it in self.sections):
            raise incompatible()
        for it in self.sections:
            it['offset'] = {'line': it['offset']['line'] + rows, 'column': it['offset']['column']}

    def value(self):
        parts = {'version': 3, 'file': self.file, 'debugId': self.debug_id, 'x_facebook_offsets': self.offsets,
                 'x_metro_module_paths': self.paths}
        parts = {key: part for key, part in parts.items() if part is not None}
        sections = [{'offset': it['offset'], 'url': it['url'], 'map': it['map'] and it['map'].value()}
                    for it in self.sections]
        return {**parts, 'sources': None, 'sections': sections}


class Compiled:
    """A compiled map."""

    def __init__(self, data):
        fault = compiled_map.fault_of(data)
        if fault:
            raise Refusal(fault)
        self.data = data

    def lookup(self, line, column, first=0):
        found = compiled_map.lookup(self.data, line, column)
        if found is None:
            return 'none'
        source, source_line, source_column, name, _scope = found
        return (f'{"<unknown>" if source is None else source}:{source_line + first}:{source_column + first}'
                + ('' if name is None else f' name={name}'))


def compiled(found, with_contents):
    """The compiled map of a map, or of the flat map of an index map."""
    if isinstance(found, Index):
        found = found.flat()
    if found.scopes is not None:
        raise TooLong()
    tokens = [(token.line, token.column, token.source, token.source_line, token.source_column, token.name,
               int(token.is_range), 0) for token in found.tokens]
    sources = [found.resolved_source(source) for source in range(len(found.texts))]
    debug_id = None if found.debug_id is None else bytes.fromhex(found.debug_id.replace('-', ''))
    return compiled_map.write(tokens, sources, found.names, found.file, found.given if with_contents else None, debug_id)


def map_of(found):
    return Map(found) if found['sections'] is None else Index(found)


def decode_map(data):
    return map_of(record(json_of(data)))


def line_of(found):
    return json.dumps(found.value(), ensure_ascii=False, separators=(',', ':'), sort_keys=True) + '\n'


def is_regular(found):
    return isinstance(found, Map) and found.scopes is None


def tokens_text(found):
    if isinstance(found, Index):
        raise incompatible()
    return ''.join(f'{token.line}:{token.column} {found.token_text(token)}{" range" if token.is_range else ""}\n'
                   for token in found.tokens)


def adjust_map(found, other):
    if not is_regular(found) or not is_regular(other):
        raise incompatible()
    found.tokens = compose_tokens(found.tokens, other.tokens)
    if found.tokens is None:
        raise incompatible()
    return found


def number_of(digits, first=0):
    """The number that a text gives, counted from 0. The text counts from `first`. None if it gives no number."""
    if not NUMBER.match(digits) or len(digits.lstrip(b'0')) > 10 or not first <= int(digits) <= LAST + first:
        return None
    return int(digits) - first


def position_text(found, line, first):
    numbers = [number_of(digits, first) for digits in line.split(b':')]
    return 'bad position' if len(numbers) != 2 or None in numbers else found.lookup(*numbers, first)


def trace_text(found, positions, first):
    lines = positions.split(b'\n')
    return ''.join(position_text(found, line, first) + '\n' for line in (lines if lines[-1] else lines[:-1]))


def without_from_1(words):
    """The words without `--from-1`, and whether positions count from 0 or from 1."""
    if words[:1] in (['lookup'], ['trace']) and words[1:2] == [FROM_1]:
        return words[:1] + words[2:], 1
    return words, 0


def output_of(words, data, file):
    """The output of a command, a text or bytes, or None if its words are not valid. Raises `Refusal` if it fails."""
    words, first = without_from_1(words)
    numbers = [number_of(word.encode('utf-8', 'surrogateescape'), first) for word in words[1:]]
    verb = words[0] if words else None
    if words in (['compile'], ['compile', WITHOUT_CONTENTS]):
        return compiled(decode_map(data), len(words) == 1)
    known = {'lookup': 2, 'tokens': 0, 'rewrite': 0, 'flatten': 0, 'compose': 1, 'shift': 1, 'trace': 1}
    if known.get(verb) != len(numbers) or verb in ('lookup', 'shift') and None in numbers:
        return None
    if verb == 'trace' and words[1] == FROM_1:
        return None
    is_compiled = verb in ('lookup', 'trace') and data.startswith(compiled_map.MAGIC_BYTES)
    found = Compiled(data) if is_compiled else decode_map(data)
    if verb == 'lookup':
        return found.lookup(*numbers, first) + '\n'
    if verb == 'tokens':
        return tokens_text(found)
    if verb == 'compose':
        return line_of(adjust_map(found, decode_map(file)))
    if verb == 'trace':
        return trace_text(found, file, first)
    if (verb == 'rewrite') != isinstance(found, Map):
        raise incompatible()
    if verb == 'shift':
        found.shift(numbers[0])
        return line_of(found)
    return line_of(found.rewrite() if verb == 'rewrite' else found.flat())


def is_valid(data):
    """Whether bytes are a valid map. A junk header is none of JSON."""
    try:
        value = json_of(data) if after_header(data) == data else None
    except Refusal:
        return False
    return isinstance(value, dict) and not checked.checked(json.loads(data))[0]


def outcome_of(words, data, file=b''):
    """The exit status and the output of a run. The output is None for a report, which checked.py compares. None if the
    rules do not say the status."""
    if words in CHECKS:
        if not is_valid(data):
            return 1, None
        # what looks wrong fails a strict check
        return None if '--strict' in words else (0, None)
    try:
        output = output_of(words, data, file)
    except Refusal as refused:
        return 1, f'{refused}\n'.encode()
    if output is None:
        return 2, USAGE.encode()
    return 0, output if isinstance(output, bytes) else output.encode()
