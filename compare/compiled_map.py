"""A writer and a reader of compiled maps, made from docs/COMPILED.md alone: expected bytes and answers for tests.

    compiled_map.py write FILE.map       the compiled map of a regular map, to standard output
    compiled_map.py lookup LINE COLUMN   looks up in the compiled map on standard input

The reader decodes all tokens and searches them one by one. The writer knows only what tests need: no `sourceRoot`, no
index maps, no `rangeMappings`.
"""
import json
import struct
import sys

MAGIC, VERSION, BLOCK, NO_ID = 0x434D538F, 1, 64, 0xFFFFFFFF
MAGIC_BYTES = MAGIC.to_bytes(4, 'little')
DIGITS = {c: i for i, c in enumerate('ABCDEFGHIJKLMNOPQRSTUVWXYZabcdefghijklmnopqrstuvwxyz0123456789+/')}


def numbers(segment):
    value, shift, found = 0, 0, []
    for c in segment:
        digit = DIGITS[c]
        value += (digit & 31) << shift
        shift += 5
        if not digit & 32:
            found.append(-(value >> 1) if value & 1 else value >> 1)
            value, shift = 0, 0
    return found


def tokens_of(mappings):
    """Tokens as (line, column, source, original line, original column, name, range, scope)."""
    tokens, source, src_line, src_col, name = [], 0, 0, 0, 0
    for line, text in enumerate(mappings.split(';')):
        column = 0
        for segment in filter(None, text.split(',')):
            n = numbers(segment)
            column += n[0]
            token = [line, column, NO_ID, NO_ID, NO_ID, NO_ID, 0, 0]
            if len(n) > 1:
                source, src_line, src_col = source + n[1], src_line + n[2], src_col + n[3]
                token[2:5] = source, src_line, src_col
            if len(n) > 4:
                name += n[4]
                token[5] = name
            tokens.append(tuple(token))
    return sorted(tokens, key=lambda t: t[:2])


def pack(values, width):
    whole = sum(v << (width * i) for i, v in enumerate(values))
    return whole.to_bytes(8 * width, 'little')


def write(tokens, sources, names, file=None, contents=None, debug_id=None, scopes=()):
    """`contents` is None for a map without contents, else a list with None for missing contents."""
    texts = [t.encode() + b'\0' for t in [*sources, *names, *scopes]]
    texts += [b'' if t is None else t.encode() + b'\0' for t in [file] + (contents or [])]
    blocks = [tokens[i:i + BLOCK] for i in range(0, len(tokens), BLOCK)]
    starts = heads = bodies = b''
    for block in blocks:
        start = 64 + len(bodies)
        bases = [block[0][0], *(min((t[f] + 1) % 2**32 for t in block) - 1 & NO_ID for f in range(1, 6)), 0, 0]
        packed = [[(t[f] - bases[f]) % 2**32 for t in block] for f in range(8)]
        widths = [max(p).bit_length() for p in packed]
        starts += struct.pack('<Q', (block[0][0] << 32) + block[0][1])
        heads += struct.pack('<6I', start, *bases[1:6]) + bytes(widths)
        bodies += b''.join(map(pack, packed, widths))
    tables, table = 64 + len(bodies), b''
    offset = tables + 40 * len(blocks) + 4 * (len(texts) + 1)
    for text in texts:
        table += struct.pack('<I', offset)
        offset += len(text)
    table += struct.pack('<I', offset)
    header = struct.pack('<8I', MAGIC, VERSION, offset, len(tokens), len(sources), len(names), len(contents or []),
                         debug_id is not None)
    header += (debug_id or bytes(16)) + struct.pack('<II', tables, len(scopes)) + bytes(8)
    return header + bodies + starts + heads + table + b''.join(texts)


def number(data, offset, size=4):
    return int.from_bytes(data[offset:offset + size], 'little')


def token(data, index):
    tables, blocks = number(data, 48), (number(data, 12) + 63) // 64
    block, place = divmod(index, BLOCK)
    head = tables + 8 * blocks + 32 * block
    position = number(data, tables + 8 * block, 8)
    start, values = number(data, head), []
    for field in range(8):
        width = data[head + 24 + field] % 64
        bit = place * width
        packed = (number(data, start + bit // 8, 8) >> bit % 8) % 2**width
        base = {0: position >> 32, 6: 0, 7: 0}.get(field, number(data, head + 4 * field))
        values.append((base + packed) % 2**32)
        start += 8 * width
    if place == 0:
        values[:2] = position >> 32, position % 2**32
    return tuple(values)


def text(data, index):
    at = number(data, 48) + 40 * ((number(data, 12) + 63) // 64) + 4 * index
    start, end = number(data, at), number(data, at + 4)
    return None if start == end else data[start:end - 1].decode()


def extent_fault(data):
    """Why `parse` refuses bytes that begin with the magic number, or None."""
    if len(data) < 64:
        return 'the compiled map is truncated'
    if number(data, 4) != VERSION:
        return f'unknown version of a compiled map: {number(data, 4)}'
    if len(data) < number(data, 8):
        return 'the compiled map is truncated'
    texts = sum(number(data, at) for at in (16, 20, 24, 52)) + 1
    tables_end = number(data, 48) + 40 * ((number(data, 12) + 63) // 64) + 4 * (texts + 1)
    return 'a table of the compiled map has a wrong extent' if len(data) != number(data, 8) or len(data) < tables_end else None


def fault_of(data):
    """Why `parse` or `verify` refuses bytes that begin with the magic number, or None."""
    if extent_fault(data):
        return extent_fault(data)
    positions = [token(data, index)[:2] for index in range(number(data, 12))]
    for index, (before, position) in enumerate(zip(positions, positions[1:])):
        if position < before:
            return f'the compiled map is out of order at token {index + 1}'
    table = number(data, 48) + 40 * ((number(data, 12) + 63) // 64)
    for index in range(sum(number(data, at) for at in (16, 20, 24, 52)) + 1):
        start, end = number(data, table + 4 * index), number(data, table + 4 * index + 4)
        if end < start or len(data) < end:
            return 'a text passes the end of the compiled map'
        try:
            data[start:max(end - 1, start)].decode()
        except UnicodeDecodeError:
            return 'a text of the compiled map is not UTF-8'
    return None


def lookup(data, line, column):
    tokens = [token(data, i) for i in range(number(data, 12))]
    exact = [t for t in tokens if t[:2] == (line, column)]
    before = [t for t in tokens if t[:2] < (line, column)]
    if not exact and not before:
        return None
    found = exact[0] if exact else before[-1]
    sources, names, scopes = number(data, 16), number(data, 20), number(data, 52)
    added = column - found[1] if found[6] and found[0] == line else 0
    source = text(data, found[2]) if found[2] < sources else None
    name = text(data, sources + found[5]) if found[5] < names else None
    scope = text(data, sources + names + found[7] - 1) if 0 < found[7] <= scopes else None
    return source, found[3], min(found[4] + added, NO_ID), name, scope


if __name__ == '__main__':
    if sys.argv[1] == 'write':
        record = json.load(open(sys.argv[2]))
        sys.stdout.buffer.write(write(tokens_of(record['mappings']), record['sources'], record['names'],
                                      record.get('file'), record.get('sourcesContent')))
    else:
        print(lookup(sys.stdin.buffer.read(), int(sys.argv[2]), int(sys.argv[3])))
