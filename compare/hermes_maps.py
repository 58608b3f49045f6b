"""The rules of the function maps that Metro writes for the sources of a map. The code follows the rules of the format,
and takes nothing from the programs that are compared."""
import bisect, collections
from composing import DIGITS, numbers_of, tokens_of_record
from index_maps import LAST

# the original position at which a function begins, with its line counted from 1, and the index of its name
Offset = collections.namedtuple('Offset', 'line column name')
KEY = 'x_facebook_sources'


def is_readable(segment):
    """Whether a segment has only base64 digits, ends with the last digit of a number, and has no number of more than 63
    bits."""
    if not all(digit in DIGITS for digit in segment) or DIGITS.index(segment[-1]) >= 32:
        return False
    length, raw = 0, 0
    for digit in map(DIGITS.index, segment):
        raw, length = raw | (digit & 31) << 5 * length, length + 1
        if length > 13 or raw >= 2**63:
            return False
        if digit < 32:
            length, raw = 0, 0
    return True


def offsets_of(mappings):
    """The starts of the functions in a text of scope mappings. None if a segment cannot be read."""
    offsets, name, line = [], 0, 1
    for text in mappings.split(';'):
        column = 0
        for segment in filter(None, text.split(',')):
            if not is_readable(segment):
                return None
            steps = (numbers_of(segment) + [0, 0])[:3]
            column, name, line = ((old + step) % 2**32 for old, step in zip((column, name, line), steps))
            offsets.append(Offset(line, column, name))
    return offsets


def closest(items, key, position):
    """The first item at a position. Else the last item before it, or None. The items must be sorted by `key`."""
    at = bisect.bisect_left(items, position, key=key)
    if at < len(items) and key(items[at]) == position:
        return items[at]
    return items[at - 1] if at else None


def begins(offset):
    return offset.line, offset.column


def entry_at(record, source):
    """The function map of a source id. None if it has none."""
    entries = record[KEY]
    return entries[source] if source < len(entries) else None


def scope(record, source, line, column):
    """The name of the function that contains an original position. None if there is none."""
    entry = entry_at(record, source)
    if not entry:
        return None
    found = closest(offsets_of(entry[0]['mappings']) or [], begins, (line + 1, column))
    names = entry[0]['names']
    return names[found.name] if found and found.name < len(names) else None


def function_name(record, offset, tokens=None):
    """The name of the function that contains a bytecode offset, which is a column of line 0. None if there is none. If
    a caller asks often, it passes the map's tokens, so that they are not read each time."""
    token = closest(tokens or tokens_of_record(record), lambda token: token[:2], (0, offset))
    if token is None:
        return None
    distance = offset - token.column if token.is_range and token.line == 0 else 0
    return scope(record, token.source, token.source_line, min(token.source_column + distance, LAST))


def is_in_order(record):
    """Whether the functions of each source are sorted by their starts."""
    lists = [offsets_of(entry[0]['mappings']) or [] for entry in record[KEY] if entry]
    return all(list(map(begins, offsets)) == sorted(map(begins, offsets)) for offsets in lists)


def resolved_sources(record):
    """The sources, each after `sourceRoot` and a slash. Absolute sources, to which no root belongs, are not handled."""
    root = (record.get('sourceRoot') or '').rstrip('/')
    return [f'{root}/{source}' if root and source else source or '' for source in record['sources']]


def kept_entries(record):
    """The function maps of the sources of a rewritten map, one for each: that of the source id of the first token that
    uses the source."""
    texts, firsts = resolved_sources(record), {}
    for token in tokens_of_record(record):
        if token.source < len(texts):
            firsts.setdefault(texts[token.source], token.source)
    return [entry_at(record, source) for source in firsts.values()]
