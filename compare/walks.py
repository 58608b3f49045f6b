"""The rules of lines, of columns, and of walks back over the tokens of a map, which guess the name of a function. The
code follows the rules of the format, and takes nothing from the programs that are compared."""
import array, bisect, functools, itertools, re
from composing import tokens_of_record
from index_maps import innermost

END = re.compile('\r\n|\r|\n')
SPACE = re.compile('[\t-\r \x85\xa0\u1680\u2000-\u200a\u2028\u2029\u202f\u205f\u3000]*')
TOKENS = 128


@functools.lru_cache(maxsize=4)
def lines_of(text):
    """The lines of a text, without their line ends."""
    return END.split(text)


def units_of(letter):
    return 2 if ord(letter) > 0xffff else 1


@functools.lru_cache(maxsize=4)
def units_before(line):
    """How many UTF-16 units precede each character of a line, and its end."""
    return array.array('L', itertools.accumulate(map(units_of, line), initial=0))


def position_of(line, column):
    """The number of characters in the shortest prefix of a line that has at least `column` UTF-16 units. None if the
    line is too short."""
    units = range(len(line) + 1) if line.isascii() else units_before(line)
    at = bisect.bisect_left(units, column)
    return at if at < len(units) else None


def slice_of(text, line, column, span):
    """The slice of a text that starts at a line and a column, and is `span` UTF-16 units long. None if the text has no
    such line, or if the line is too short."""
    lines = lines_of(text)
    if line >= len(lines):
        return None
    start, end = position_of(lines[line], column), position_of(lines[line], column + span)
    return None if end is None else lines[line][start:end]


def starts(letter):
    return letter in '$_' or letter.isidentifier()


def continues(letter):
    return starts(letter) or letter in '\u200c\u200d' or f'a{letter}'.isidentifier()


def identifier(text, at=0):
    """The longest identifier at an index of a text, after white space. None if there is none."""
    start = SPACE.match(text, at).end()
    if start == len(text) or not starts(text[start]):
        return None
    return text[start:next((end for end in range(start + 1, len(text)) if not continues(text[end])), len(text))]


def identifier_at(lines, token):
    """The identifier at a token's generated position, whose column counts UTF-16 units. None if there is none."""
    if token.line >= len(lines):
        return None
    at = position_of(lines[token.line], token.column)
    return None if at is None else identifier(lines[token.line], at)


class Walks:
    """The walks back over the tokens of a regular map, with the lines of its generated text."""

    def __init__(self, record, text):
        self.tokens, self.names, self.lines = tokens_of_record(record), record.get('names') or [], lines_of(text)
        self.positions = [token[:2] for token in self.tokens]

    def walk(self, position, is_doubled):
        """The tokens that a walk visits: the closest token to a position and those before it, at most `TOKENS`. If
        `is_doubled` is true and the closest token is before the position, the walk visits it twice."""
        at = bisect.bisect_right(self.positions, position)
        first = bisect.bisect_left(self.positions, position)
        end = min(at, first + 1)
        tokens = self.tokens[max(0, end - TOKENS):end][::-1]
        return (tokens[:1] * (is_doubled and at == first) + tokens)[:TOKENS]

    def guessed_name(self, position, minified, is_doubled=False):
        """The name of the function that has a minified name at a position. None if no walk finds it."""
        if minified and identifier(minified) != minified:
            return None
        walk = self.walk(position, is_doubled)
        words = [identifier_at(self.lines, token) for token in walk]
        for token, word, follower in zip(walk, words, words[1:]):
            if word == minified and follower == 'function':
                return self.names[token.name] if token.name < len(self.names) else None
        return None


class Guesses:
    """The names that a map guesses from a text. An index map guesses by the map of the section that a position leads
    to."""

    def __init__(self, record, text):
        self.record, self.text, self.walks = record, text, {}

    def name(self, position, minified, is_doubled=False):
        found = innermost(self.record, position)
        if found is None:
            return None
        record, where = found
        if id(record) not in self.walks:
            self.walks[id(record)] = Walks(record, self.text)
        return self.walks[id(record)].guessed_name(where, minified, is_doubled)
