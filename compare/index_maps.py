"""The rules of index maps as JSON records: the order of sections, the inner map of a position, and the positions of
tokens in the whole generated text. The code follows the rules of the format, and takes nothing from the programs that
are compared."""
import json

LAST = 2**32 - 1
LISTS = ('x_facebook_offsets', 'x_metro_module_paths')
NO_MAP, PAST_THE_END = 'no map', 'past the end'


def record_of(data):
    """The JSON record of a map. Skips all bytes before the first `{`, such as a junk header."""
    return json.loads(data[data.index(b'{'):])


def bytes_of(record):
    return json.dumps(record).encode()


def is_index(record):
    return record.get('sections') is not None


def offset_of(section):
    return section['offset']['line'], section['offset']['column']


def in_order(sections):
    """Sections as a map keeps them: sorted by offset. Sections with equal offsets keep their order."""
    return sorted(sections, key=offset_of)


def sections_with_maps(record):
    """The sections of an index that have a map, in order."""
    return [section for section in in_order(record['sections']) if section.get('map') is not None]


def pieces(record):
    """A list of all records in a record. For an index map: its record without the maps of its sections, and then the
    records in these maps."""
    if not is_index(record):
        return [record]
    bare = [{key: part for key, part in section.items() if key != 'map'} for section in in_order(record['sections'])]
    return [{**record, 'sections': bare}] + [piece for section in sections_with_maps(record)
                                             for piece in pieces(section['map'])]


def relative_position(offset, position):
    """A position relative to the start of a section with this offset."""
    line, column = position
    return line - offset[0], column - offset[1] if line == offset[0] else column


def absolute_position(offset, where):
    """The position in the whole generated text of a position in a section with this offset."""
    line, column = where
    return line + offset[0], column + offset[1] if line == 0 else column


def closest(sections, position):
    """The first section whose offset is this position. If there is none: the last section before it, or None."""
    at = [section for section in in_order(sections) if offset_of(section) == position]
    before = [section for section in in_order(sections) if offset_of(section) < position]
    return (at[:1] or before[-1:] or [None])[0]


def innermost(record, position):
    """The map without sections that covers a position, and the position relative to this map. None if no section covers
    the position, or if a section that covers it has no map."""
    while is_index(record):
        section = closest(record['sections'], position)
        if section is None or section.get('map') is None:
            return None
        record, position = section['map'], relative_position(offset_of(section), position)
    return record, position


def flat_tokens(record, tokens_of):
    """The tokens of an index map, as pairs of a position in the whole generated text and a text. They are sorted by
    position. Tokens at one position are in the order of their sections. Positions may be greater than LAST. `tokens_of`
    returns the tokens of a map without sections."""
    if not is_index(record):
        return tokens_of(record)
    tokens = [(absolute_position(offset_of(section), where), text) for section in sections_with_maps(record)
              for where, text in flat_tokens(section['map'], tokens_of)]
    return sorted(tokens, key=lambda token: token[0])


def section_error(section, tokens_of):
    """The reason why a section cannot be flattened, or None if it can be. Errors of its map come before positions that
    are too large, because the map is flattened before its tokens are moved."""
    if section.get('map') is None:
        return NO_MAP
    error = flattening_error(section['map'], tokens_of)
    if error is not None:
        return error
    positions = (absolute_position(offset_of(section), where) for where, _ in flat_tokens(section['map'], tokens_of))
    return PAST_THE_END if any(max(where) > LAST for where in positions) else None


def flattening_error(record, tokens_of):
    """The reason why a map cannot be flattened, or None if it can be. In the order of offsets, the first section with
    an error determines the reason."""
    sections = in_order(record['sections']) if is_index(record) else []
    return next(filter(None, (section_error(section, tokens_of) for section in sections)), None)
