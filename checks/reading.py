"""Reads the definitions of specs/*.antt, and the clauses, ghost items and types of src/*.rt, as text.

A definition is named by its module and its name, as ('Rattle.sourcemap_vlq.specs.Vlq', 'digits'). What it cites is
found by the words of its text: a word is a citation if its module defines or imports it, and if no variable of this
name is bound before it in the same equation. So a word may count as cited that is not, but hardly the reverse."""
import pathlib, re
from typing import NamedTuple

TOP = pathlib.Path(__file__).resolve().parent.parent
CRATES = TOP / 'crates'

# a string, a name, or one of the characters that part names. A dot between two names without blanks takes a field
WORD = re.compile(r'"(?:\\.|[^"\\])*"|[^\s(){}\[\];,."]+|[(){}\[\];,.]')
HEAD = re.compile(r'(?:(?:abbrev|mutual|unfoldable|opaque|pub) )*(?:(record|data|ruleset) )?([^\s:(){}]+)(?= |$)')
IMPORT = re.compile(r'(pub )?use ([\w.]+?)(?:\.\{(.*)\})?(?: as ([^\s]+))?$', re.S)


class Text(NamedTuple):
    """A piece of a file, and the number of its first line."""
    file: pathlib.Path
    line: int
    text: str

    def size(self):
        """The number of lines that are not blank."""
        return sum(1 for line in self.text.splitlines() if line.strip())


class Definition:
    """A definition of a module of specs/: its declaration and its equations, and the constructors of a type."""

    def __init__(self, module, name, pieces, constructors):
        self.module, self.name, self.pieces, self.constructors = module, name, pieces, constructors


def without_comments(text, mark):
    """The text with each comment replaced by nothing, up to the end of its line."""
    return re.sub(rf'("(?:\\.|[^"\\\n])*")|(?:(?<=\s)|^){mark}[^\n]*', lambda found: found[1] or '', text, flags=re.M)


def imports_of(text):
    """The imports among the text of an import: for each, whether it is public, its path, and pairs of a name and the
    name that it has here. No pairs: the module itself is imported, by its last name or the one after `as`."""
    is_public, path, names, other = IMPORT.match(' '.join(text.split()).rstrip(';')).groups()
    pairs = [tuple(re.split(r' as ', name.strip())) for name in names.split(',') if name.strip()] if names is not None else []
    return bool(is_public), path, [(pair[0], pair[-1]) for pair in pairs], other


def sign_of(name):
    """The first part of an operator, as `≡` of `◌≡◌`; another name itself."""
    return next((part for part in name.split('◌') if part), name)


class Module:
    """A module of specs/: its definitions, and where the other names in its scope come from."""

    def __init__(self, path, file):
        self.path, self.file = path, file
        self.definitions, self.names, self.public, self.modules = {}, {}, {}, {}
        self.read(without_comments(file.read_text(), '--').splitlines())

    def read(self, lines, above=0):
        """Reads lines, before which the file has `above` others."""
        at = 0
        while at < len(lines):
            end = at + 1
            while end < len(lines) and (not lines[end].strip() or lines[end][0] in ' })'):
                end += 1
            chunk = lines[at:end]
            if re.match(r'(pub )?use ', chunk[0]):
                self.add_import('\n'.join(chunk))
            elif re.fullmatch(r'(abbrev )?mutual', chunk[0].strip()):
                self.add_block(chunk[1:], above + at + 1)
            elif chunk[0].startswith('module _ '):
                # definitions that share their first arguments, two columns further in
                self.read([line[2:] for line in chunk[1:]], above + at + 1)
            elif chunk[0].strip() and not chunk[0].startswith('pub mod '):
                self.add(chunk, above + at)
            at = end

    def add_import(self, text):
        is_public, path, pairs, other = imports_of(text)
        for name, here in pairs:
            self.names[here] = self.names[sign_of(here)] = path, name
            if is_public:
                self.public[here] = path, name
        if not pairs:
            self.modules[other or path.rpartition('.')[2]] = path

    def add_block(self, lines, at):
        """The definitions of a `mutual` block, which stand two columns further in."""
        starts = [i for i, line in enumerate(lines) if re.match(r'  \S', line)]
        for start, end in zip(starts, starts[1:] + [len(lines)]):
            self.add([line[2:] for line in lines[start:end]], at + start)

    def add(self, chunk, at):
        """A declaration, or an equation of one before."""
        found = HEAD.match(chunk[0])
        kind, name = found.groups()
        text = '\n'.join(chunk).rstrip()
        is_declared = kind or found[0].startswith(('abbrev', 'pub', 'unfoldable', 'opaque')) or chunk[0].startswith(f'{name} : ')
        if is_declared:
            constructors = re.findall(r'^  (?:pub )?(\S+) :', text, re.M) if kind == 'data' else []
            self.definitions[name] = Definition(self, name, [Text(self.file, at + 1, text)], constructors)
            self.last = name
        else:
            owner = self.definitions[name if name in self.definitions else self.last]
            owner.pieces.append(Text(self.file, at + 1, text))


def spec_modules():
    """All modules of specs/, by their paths."""
    found = {}
    for file in sorted(CRATES.glob('*/specs/**/*.antt')):
        inner = file.relative_to(CRATES).with_suffix('').parts
        path = '.'.join(('Rattle', *inner))
        found[path] = Module(path, file)
    return found


# Rust

RUST = re.compile(r'''//[^\n]*|/\*.*?\*/|b?r"[^"]*"|b?r(\#+)".*?"\1|b?"(?:\\.|[^"\\])*"|b?'(?:\\[^']+|[^'\\])'|'\w+|[^\W\d]\w*|->|=>|::|\S''', re.S)
# ghost items that are proofs, or that only proofs use
OF_PROOFS = {'laws', 'total', 'matches_eq', 'matches_partial_cmp', 'invariant', 'in_range', 'own', 'also_owns', 'by'}


class Clause(NamedTuple):
    """A clause or a ghost item: its kind or name, its text, and what `ghost use` imports there."""
    kind: str
    piece: Text
    names: dict


class Item:
    """A function, a type, a constant, an impl or a trait. `types` are the names of types in its signature or declaration."""

    def __init__(self, kind, name, place, owner=None, trait=None, is_public=False):
        self.kind, self.name, self.owner, self.trait, self.is_public = kind, name, owner, trait, is_public
        self.file, self.line = place
        self.clauses, self.types, self.fields, self.size = [], set(), {}, 0


class Source:
    """A file of src/: its items, and its imports of Rust names."""

    def __init__(self, file):
        self.file, self.text = file, file.read_text()
        self.words = [(found[0], found.start()) for found in RUST.finditer(self.text) if not found[0].startswith(('//', '/*'))]
        self.items, self.uses, self.mods = [], [], {}
        self.read_items(0, len(self.words), {}, None)

    def word(self, at):
        return self.words[at][0] if at < len(self.words) else ''

    def end_of(self, at):
        """The place after the bracket that closes the one at this place."""
        depth = 0
        for i in range(at, len(self.words)):
            depth += (self.word(i) in '({[') - (self.word(i) in ')}]')
            if depth == 0:
                return i + 1
        return len(self.words)

    def find(self, at, words, end):
        """The next place, at or after this one and outside of brackets, with one of these words."""
        while at < end and self.word(at) not in words:
            at = self.end_of(at) if self.word(at) in '({[' else at + 1
        return at

    def piece(self, start, end):
        """The text between two places."""
        first = self.words[start][1]
        last = self.words[end - 1][1] + len(self.word(end - 1))
        return Text(*self.place(start), self.text[first:last])

    def place(self, at):
        """The file and the line of a word."""
        return self.file, self.text.count('\n', 0, self.words[at][1]) + 1

    def read_items(self, at, end, names, owner):
        """Reads the items between two places. `names` are those of `ghost use` outside; more of them come first."""
        names = dict(names)
        is_public = False
        while at < end:
            word = self.word(at)
            if word == '#':
                at = self.end_of(self.find(at, '[', end))
            elif word == 'pub':
                is_public = self.word(at + 1) != '('
                at = at + 1 if is_public else self.end_of(at + 1)
            else:
                at = self.read_item(at, end, names, owner, is_public)
                is_public = False

    def read_item(self, at, end, names, owner, is_public):
        word = self.word(at)
        if word == 'ghost':
            return self.read_ghost(at, end, names, owner)
        if word == 'use':
            stop = next(i for i in range(at, end) if self.word(i) == ';')
            self.uses.append((is_public, self.piece(at + 1, stop).text))
            return stop + 1
        if word == 'mod' and self.word(at + 2) == ';':
            self.mods[self.word(at + 1)] = is_public
            return at + 3
        if word in ('impl', 'trait', 'mod'):
            return self.read_group(at, end, names, is_public)
        if word == 'fn':
            return self.read_function(at, end, names, owner, is_public)
        if word in ('struct', 'enum'):
            return self.read_type(at, end, names, is_public)
        if word in ('const', 'static') and self.word(at + 1) != 'fn':
            stop = self.find(at, ';', end) + 1
            item = Item('const', self.word(at + 1), self.place(at), None, None, is_public)
            item.size = self.piece(at, stop).size()
            self.items.append(item)
            return stop
        if word == 'type':
            return self.find(at, ';', end) + 1
        return self.end_of(at) if word in '({[' else at + 1

    def read_ghost(self, at, end, names, owner):
        """A `ghost use`, whose names are added to `names`, or a ghost item of `owner`."""
        if self.word(at + 1) == 'use':
            stop = next(i for i in range(at, end) if self.word(i) == ';')
            _, path, pairs, other = imports_of(self.piece(at + 1, stop).text)
            names.update((each, (path, name)) for name, here in pairs for each in (here, sign_of(here)))
            if not pairs:
                names[other or path.rpartition('.')[2]] = path, None
            return stop + 1
        at, kind = at + 1, self.word(at + 1)
        while self.word(at := self.find(at, '{;,', end)) == '{':
            owner.clauses.append(Clause(kind, self.piece(at + 1, self.end_of(at) - 1), names))
            # after `by` stands a proof
            at, kind = self.end_of(at), 'by'
        return at + 1

    def read_group(self, at, end, names, is_public):
        opens = self.find(at, '{;', end)
        head = [self.word(i) for i in range(at + 1, opens)]
        if self.word(at) == 'mod':
            self.read_items(opens + 1, self.end_of(opens) - 1, names, None)
            return self.end_of(opens)
        head = without_generics(head)
        if 'where' in head:
            head = head[:head.index('where')]
        if self.word(at) == 'trait' and ':' in head:
            head = head[:head.index(':')]
        trait = head[:head.index('for')] if 'for' in head else []
        item = Item(self.word(at), last_name(head[len(trait):]), self.place(at), None, last_name(trait), is_public)
        self.items.append(item)
        self.read_items(opens + 1, self.end_of(opens) - 1, names, item)
        return self.end_of(opens)

    def read_function(self, at, end, names, owner, is_public):
        item = Item('fn', self.word(at + 1), self.place(at), owner, owner and owner.trait, is_public or bool(owner and owner.kind == 'trait'))
        self.items.append(item)
        stop = self.find(at, ('requires', 'ensures', '{', ';'), end)
        item.types = type_names(self.word(i) for i in range(at + 2, stop))
        while self.word(stop) in ('requires', 'ensures'):
            opens = self.find(stop, '{', end)
            item.clauses.append(Clause(self.word(stop), self.piece(opens + 1, self.end_of(opens) - 1), names))
            stop = self.find(self.end_of(opens), ('requires', 'ensures', '{', ';'), end)
        return self.end_of(stop) if self.word(stop) == '{' else stop + 1

    def read_type(self, at, end, names, is_public):
        item = Item(self.word(at), self.word(at + 1), self.place(at), None, None, is_public)
        self.items.append(item)
        stop = self.find(at, '{(;', end)
        last = self.end_of(stop) if self.word(stop) != ';' else stop + 1
        item.size = without_comments(self.piece(at, last).text, '//')
        item.size = sum(1 for line in item.size.splitlines() if line.strip() and not line.strip().startswith('#['))
        self.read_fields(item, stop + 1, last - 1, names)
        return last if self.word(stop) != '(' else self.find(last, ';', end) + 1

    def read_fields(self, item, at, end, names):
        """The fields of a struct, or the variants of an enum, each with the names of its types, and its ghost fields."""
        while at < end:
            if self.word(at) == 'ghost' or self.word(at) == 'pub' and self.word(at + 1) == 'ghost':
                at = self.read_ghost(at + (self.word(at) == 'pub'), end, names, item)
                continue
            stop = self.find(at, ',', end)
            words = [self.word(i) for i in range(at, stop)]
            name = words[words.index(':') - 1] if ':' in words else words[0] if words else ''
            item.fields[name] = type_names(words)
            item.types |= item.fields[name]
            at = stop + 1


def without_generics(words):
    """The words without those in angle brackets."""
    kept, depth = [], 0
    for word in words:
        depth -= word == '>'
        if depth == 0 and word not in '<>':
            kept.append(word)
        depth += word == '<'
    return kept


def paths_of(text):
    """The paths that a Rust `use` imports, as lists of names, each with the name that it has here."""
    text = ' '.join(text.split())
    front, mark, rest = text.partition('{')
    if not mark:
        path, _, other = text.partition(' as ')
        names = [name for name in path.split('::') if name]
        return [(names, other or names[-1])]
    depth, start, parts = 0, 0, []
    for at, letter in enumerate(rest):
        depth += (letter == '{') - (letter == '}')
        if letter == ',' and depth == 0 or depth < 0:
            parts.append(rest[start:at].strip())
            start = at + 1
    above = [name for name in front.strip().split('::') if name]
    return [(above + names, here) for part in parts if part for names, here in paths_of(part)]


def last_name(words):
    return next((word for word in reversed(words) if word[0].isalpha()), None)


def type_names(words):
    return {word for word in words if word[0].isupper()}


# Citations

def words_of(text):
    """The words of a text in order. Before a field stands the dot, as in `.now`."""
    words, end = [], -1
    for found in WORD.finditer(text):
        word = found[0]
        if words and words[-1] == '.' and found.start() == end and word[0] not in '(){}[];,."':
            words[-1] = f'.{word}'
        else:
            words.append(word)
        end = found.end()
    return words


def is_name(word):
    return word[0] not in '(){}[];,."' and word not in ('=', ':')


def binders_of(words):
    """The places of variables that are bound: after `λ` and `let`, and before the colon of `(a b : T)`."""
    places = set()
    for at, word in enumerate(words):
        if word == 'λ' or word.startswith('λ') and word != 'λ':
            end = next((i for i in range(at, len(words)) if words[i] == '.'), at)
            places.update(range(at + 1, end))
        elif word == 'let':
            places.add(at + 1)
        elif word in '({':
            end = at + 1
            while end < len(words) and is_name(words[end]) and words[end][0] != '.':
                end += 1
            if end < len(words) and words[end] == ':':
                places.update(range(at + 1, end))
        elif word == ':' and at and is_name(words[at - 1]):
            places.add(at - 1)
    return places


def pattern_end(words):
    """The place of the `=` of an equation, and 0 if there is none, as in a signature."""
    depth = 0
    for at, word in enumerate(words):
        depth += (word in '({[') - (word in ')}]')
        if depth == 0 and word in ('=', ':'):
            return at if word == '=' else 0
    return 0


def parts_of(text):
    """The parts of an equation: the equation, and each local declaration after `where`."""
    first, mark, rest = text.partition('where\n')
    return [first] + (re.split(r'\n(?=  \S)', rest) if mark else [])


def cited(text, scope):
    """What a text cites: the targets that `scope` finds for its words, and the names of the fields in it. `scope` takes
    a word and the word of a module before it, or None. It returns a target or None, and whether it is a constructor."""
    found, fields, outer = [], set(), set()
    parts = [text] if re.match(r'(?:(?:abbrev|pub|mutual) )*(?:record|data) ', text) else parts_of(text)
    for number, part in enumerate(parts):
        words, bound = words_of(part), set(outer)
        binders, equals = binders_of(words), pattern_end(words)
        for at, word in enumerate(words):
            if word[0] == '.':
                fields.add(word[1:])
                target, _ = scope(word[1:], words[at - 1]) if at and len(word) > 1 else (None, False)
                found += [target] * bool(target)
            elif not is_name(word) or at >= equals and words[at + 1:at + 2] == ['=']:
                continue
            elif at in binders:
                bound.add(word)
            elif word not in bound:
                target, is_constructor = scope(word, None)
                if at < equals and not is_constructor:
                    bound.add(word)
                elif target:
                    found.append(target)
        if number == 0:
            outer = bound
    return found, fields
