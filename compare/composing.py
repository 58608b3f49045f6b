"""The rules of regular maps as lists of tokens, and of composition, in which one map adjusts another. The code follows
the rules of the format, and takes nothing from the programs that are compared."""
import bisect, collections, itertools
from index_maps import LAST

DIGITS = 'ABCDEFGHIJKLMNOPQRSTUVWXYZabcdefghijklmnopqrstuvwxyz0123456789+/'

# A token's generated and original position, its ids, and whether it is a range token. A missing id is LAST. If the
# source is missing, the original line and column are LAST too.
Token = collections.namedtuple('Token', 'line column source_line source_column source name is_range')
Stretch = collections.namedtuple('Stretch', 'token start end')


def numbers_of(segment):
    """The numbers that the base64 digits of a segment encode."""
    numbers, raw, shift = [], 0, 0
    for digit in map(DIGITS.index, segment):
        raw, shift = raw | (digit & 31) << shift, shift + 5
        if digit < 32:
            numbers.append(-(raw >> 1) if raw & 1 else raw >> 1)
            raw, shift = 0, 0
    return numbers


def digits_of(number):
    raw, text = 2 * abs(number) + (number < 0), ''
    while raw >= 32:
        text, raw = text + DIGITS[raw % 32 + 32], raw // 32
    return text + DIGITS[raw]


def is_marked(bits, at):
    """Whether the range bits of a line mark the segment with this index. The index counts empty segments too."""
    return at // 6 < len(bits) and bool(DIGITS.index(bits[at // 6]) >> at % 6 & 1)


def tokens_of_record(record):
    """The tokens of a valid regular map, sorted by generated position. Tokens at one position keep their order."""
    lines = (record.get('mappings') or '').split(';')
    marks = (record.get('rangeMappings') or '').split(';')
    tokens, there = [], [0, 0, 0, 0]
    for line, (text, bits) in enumerate(itertools.zip_longest(lines, marks[:len(lines)], fillvalue='')):
        column = 0
        for at, segment in enumerate(text.split(',')):
            if not segment:
                continue
            first, *rest = numbers_of(segment)
            column = (column + first) % 2**32
            there = [(part + step) % 2**32 for part, step in itertools.zip_longest(there, rest, fillvalue=0)]
            source, source_line, source_column, name = there if rest else [LAST] * 4
            tokens.append(Token(line, column, source_line, source_column, source,
                                name if len(rest) == 4 else LAST, is_marked(bits, at)))
    return sorted(tokens, key=lambda token: token[:2])


def stretches(tokens, position_of):
    """Sorts tokens by one of their positions, and returns the stretch that each covers: up to the position of the next
    token, or to the end of its own line."""
    ordered = sorted(tokens, key=position_of)
    ends = [position_of(token) for token in ordered[1:]] + [(2**33, 0)]
    return [Stretch(token, position_of(token), min(end, (position_of(token)[0], LAST)))
            for token, end in zip(ordered, ends)]


def pair_token(adjustment, original, takes_cut):
    """The composed token of two stretches that overlap. The adjustment moves the start of the overlap to the generated
    position of this token."""
    start = max(adjustment.start, original.start)
    column = start[1] - adjustment.token.source_column + adjustment.token.column
    token, source_column = original.token, original.token.source_column
    if takes_cut and token.is_range and token.source != LAST:
        source_column = min(source_column + start[1] - original.start[1], LAST)
    return token._replace(line=adjustment.token.line, column=column, source_column=source_column)


class Originals:
    """The stretches of the map that is adjusted."""

    def __init__(self, tokens):
        self.stretches = stretches(tokens, lambda token: token[:2])
        self.starts = [stretch.start for stretch in self.stretches]
        self.ends = [stretch.end for stretch in self.stretches]

    def pairs(self, stretch, takes_cut):
        """The composed tokens of one stretch of the adjustment. `starts` and `ends` are both sorted, so the original
        stretches that overlap it are neighbours."""
        first, last = bisect.bisect_right(self.ends, stretch.start), bisect.bisect_left(self.starts, stretch.end)
        return [pair_token(stretch, other, takes_cut) for other in self.stretches[first:last]]


def source_of(token):
    return token[2:4]


def compose_tokens(original, adjustment, takes_cut=True):
    """The tokens of the composed map, sorted by generated position, or None if a generated column is greater than LAST.
    If `takes_cut` is true, a range token that is shortened at its start maps to the original position of its remaining
    part. Otherwise it keeps its original position."""
    originals = Originals(original)
    tokens = [token for stretch in stretches(adjustment, source_of) for token in originals.pairs(stretch, takes_cut)]
    if any(token.column > LAST for token in tokens):
        return None
    return sorted(tokens, key=lambda token: token[:2])


def with_others_last(original, adjustment, theirs):
    """The tokens of an adjustment, sorted by original position. Of the tokens at one original position, only the last
    can cover a stretch that is not empty. This function makes one token the last if all of the composed tokens that it
    then has are in `theirs`."""
    originals, theirs, ordered = Originals(original), set(theirs), []
    for _, group in itertools.groupby(stretches(adjustment, source_of), key=lambda stretch: stretch.start):
        group = list(group)
        end = group[-1].end
        fits = [stretch.token for stretch in reversed(group)
                if theirs.issuperset(originals.pairs(stretch._replace(end=end), False))]
        tokens = [stretch.token for stretch in group]
        if fits:
            tokens.remove(fits[0])
            tokens.append(fits[0])
        ordered += tokens
    return ordered


def without_repeats(tokens):
    """Tokens as they are written: without each token that is equal to the token before it."""
    return [token for i, token in enumerate(tokens) if i == 0 or tokens[i - 1] != token]


def mappings_of(tokens):
    """The texts of `mappings` and `rangeMappings`. The tokens of a line are written in the given order."""
    lines, marks, there, by_line = [], [], [0, 0, 0, 0], collections.defaultdict(list)
    for token in tokens:
        by_line[token.line].append(token)
    for line in range(max(by_line, default=0) + 1):
        segments, bits, column = [], [0] * (len(by_line[line]) // 6 + 1), 0
        for at, token in enumerate(by_line[line]):
            segment, column = digits_of(token.column - column), token.column
            if token.source != LAST:
                here = [token.source, token.source_line, token.source_column] + [token.name] * (token.name != LAST)
                segment += ''.join(digits_of(part - old) for part, old in zip(here, there))
                there = here + there[len(here):]
            segments.append(segment)
            bits[at // 6] |= token.is_range << at % 6
        lines.append(','.join(segments))
        marks.append(''.join(DIGITS[six] for six in bits).rstrip('A'))
    return ';'.join(lines), ';'.join(marks).rstrip(';')
