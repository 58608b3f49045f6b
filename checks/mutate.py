#!/usr/bin/env python3
"""Runs `sourcemap_tool` on random inputs, and checks whether it crashes or contradicts the rules of the formats. The
inputs are maps, pairs of maps, RAM bundles, generated texts and lists of positions. They are drawn from a seed, and
some are mutated. Each run with the same seed has the same inputs. Two more programs make the calls for which
`sourcemap_tool` has no command: on maps, RAM bundles, generated texts, references, data URLs and paths.

    checks/mutate.py [--runs N] [--seed N] [--jobs N] [--reference PROGRAM] [--only CASE]

A case has the arguments of a program, its standard input, and the file that the arguments name. `rules.py` states the
expected status and output of a command, and `calls.py` those of a call. A case fails if its run ends otherwise, or if
it writes to standard error. There is one exception: if `sourcemap_bench` does not split a bundle, it writes the
error to standard error, and only its status is compared. The rules leave some cases open, and then require only that
the status is 0 or 1. One reason is an output with too many lines for `rules.py`. Such a run may also print
`out of memory` and end with status 1, because a run has 256 MB of memory.

With --reference, each case of a command also runs on PROGRAM, a built program over the crate (`reference/`). The script
compares no case of `trace`, `compile`, `check`, `--from-1` and compiled maps, which the reference does not have, and no run whose status is not 0 or 1.
Each difference must have a reason among those of `docs/DIFFERENCES.md`. Without a reason it is printed as UNEXPLAINED,
and the case fails.

At most 50 failures are printed, each with the number of its case. `--only CASE`, with the same seed, runs this case
alone, and prints its inputs, the expected result and the actual result in full. The script counts how cases ended,
separately for commands and calls. In its counts, `open` are the cases that the rules leave open. The last line is
`N passed, M failed`, of cases, and the status is 1 if M is not 0.

A million cases take some minutes on four processors. For this speed, each program is started only once for each job and
each number of arguments. A library forks it for each run; a C compiler (CC, or else cc) makes this library of
`serving.c`. The script also needs Python 3.10. SOURCEMAP_TOOL, SOURCEMAP_BENCH and SOURCEMAP_BENCH_CALLS name other
programs than those in `crates`.
"""
import argparse, collections, json, multiprocessing, os, pathlib, random, shutil, struct, subprocess, sys, tempfile, time
sys.path.insert(0, str(pathlib.Path(__file__).resolve().parent.parent / 'compare'))
import calls, compiled_map, rules
from comparing import BENCH, BENCH_CALLS, TOOL, build_missing
from composing import DIGITS, Token, mappings_of
from drawn_bundles import TEXTS as MODULES, bundle_bytes
from drawn_references import drawn_text
from index_maps import LAST, LISTS

HERE = pathlib.Path(__file__).resolve().parent
CHUNK = 500
# the fraction of cases that make calls; the others run commands
CALLS_SHARE = 0.25
EDGES = [0, 1, 2, 5, 31, 32, 2**31 - 1, 2**31, LAST - 1, LAST, LAST + 1, LAST + 2, 2**63, 2**64, -1]
TEXTS = ['a.js', 'b.js', '/a/b/x.js', '/a/b/y.js', '', 'http://x.com/c.js', 'https:d', '../e.js', '~/f.js', 'é👌', '\\"\n\t\x01',
         'webpack:///g', 'C:\\h.js', 'a.js']
NAMES = ['x', 'alert', '', 'é', 'x', '结', 'a b', 7, -3, 1.5, True, None, 2**64 - 1, 2**64, [], {'a': 1}]
ROOTS = [None, '', '/', 'r', 'r/', '/r//', 'webpack:///', 'é']
JUNK = [b")]}'\n", b")]}'\r\n", b"'x", b']x\rx\n', b'}\r\n\n', b')']
VALUES = [None, True, 0, 1, -1, 2**32, 1.5, '', 'x', [], [None], [[]], {}, {'a': 1}, [1, 'a', None]]
TEXT = (b'function a(){}\n//# sourceMappingURL=a.js.map\n//@ sourceMappingURL=data:application/json;base64,e30=\n')

Case = collections.namedtuple('Case', 'words data file program', defaults=[TOOL])


def edge(chance):
    return chance.choice(EDGES) if chance.random() < 0.1 else chance.choice([0, 1, 2, 3, 5, 8, 30])


def tokens(chance, sources, names):
    """Random tokens in order, for a map with these numbers of sources and names."""
    made = []
    for _ in range(chance.choice([0, 1, 1, 2, 3, 5, 12, 30])):
        position = chance.choice([0, 0, 0, 1, 2, 7]), edge(chance) % 2**32
        is_range = chance.random() < 0.15
        if sources and chance.random() < 0.85:
            name = chance.randrange(names) if names and chance.random() < 0.4 else LAST
            made.append(Token(*position, edge(chance) % 2**32, edge(chance) % 2**32, chance.randrange(sources), name, is_range))
        else:
            made.append(Token(*position, LAST, LAST, LAST, LAST, is_range))
        if chance.random() < 0.1:
            made.append(made[-1])
    return sorted(made, key=lambda token: token[:2])


def regular(chance):
    sources = [chance.choice(TEXTS + [None]) for _ in range(chance.choice([0, 1, 1, 2, 3]))]
    names = [chance.choice(NAMES) for _ in range(chance.choice([0, 0, 1, 2, 4]))]
    mappings, marks = mappings_of(tokens(chance, len(sources), len(names)))
    record = {'version': 3, 'sources': sources, 'names': names, 'mappings': mappings}
    if marks:
        record['rangeMappings'] = marks
    if chance.random() < 0.3:
        record['sourcesContent'] = [chance.choice([None, 'x', '', 'a\nb']) for _ in range(len(sources) + chance.choice([-1, 0, 1]))]
    if chance.random() < 0.3:
        record['sourceRoot'] = chance.choice(ROOTS)
    if chance.random() < 0.2:
        record['file'] = chance.choice(['out.js', 7, None, '', []])
    if chance.random() < 0.2:
        record['ignoreList'] = [edge(chance) % 2**32 for _ in range(chance.choice([0, 1, 3]))]
    if chance.random() < 0.2:
        record[chance.choice(['debugId', 'debug_id'])] = chance.choice(
            ['0123456789abcdef0123456789ABCDEF', '01234567-89ab-cdef-0123-456789abcdef', '01234567-89ab-cdef-0123-456789abcdef', None])
    return record


def scope_mappings(chance):
    return chance.choice(['AAA', 'AAA,KCC', 'AAA;ACA', 'AAA,!', '', ';', 'KAA,LCA', 'AAAA', 'A'])


def hermes(chance):
    entry = lambda: chance.choice([None, [], [{'names': ['f', 'g'][:chance.randrange(3)], 'mappings': scope_mappings(chance)}]])
    return {**regular(chance), 'x_facebook_sources': [entry() for _ in range(chance.randrange(4))]}


def index(chance, depth=0):
    sections, line = [], 0
    for _ in range(chance.choice([0, 1, 2, 2, 3])):
        if chance.random() < 0.8:
            line += chance.choice([0, 1, 3, 10])
        else:
            line = edge(chance) % 2**32
        section = {'offset': {'line': min(line, LAST), 'column': edge(chance) % 2**32}}
        if chance.random() < 0.15:
            section['url'] = chance.choice(['u', '', None])
        if chance.random() < 0.9:
            section['map'] = whole(chance, depth + 1)
        sections.append(section)
    if chance.random() < 0.1:
        chance.shuffle(sections)
    record = {'version': 3, 'sections': sections}
    if chance.random() < 0.2:
        record['x_facebook_offsets'] = [chance.choice([None, 5, 0]) for _ in range(chance.randrange(3))]
    if chance.random() < 0.2:
        record['x_metro_module_paths'] = [chance.choice(['a.js', '']) for _ in range(chance.randrange(3))]
    if chance.random() < 0.2:
        record['file'] = chance.choice(['out.js', None, 3])
    return record


def whole(chance, depth=0):
    """The record of a random map of any kind. At most three index maps are nested."""
    kind = chance.random()
    if kind < (0.3 if depth < 3 else 0):
        return index(chance, depth)
    return hermes(chance) if kind < 0.45 else regular(chance)


def changed_value(chance, value):
    """A JSON value after one random change, of a part or of the whole."""
    if isinstance(value, dict) and value and chance.random() < 0.85:
        key = chance.choice(list(value))
        change = chance.random()
        if change < 0.15:
            return {old: part for old, part in value.items() if old != key}
        if change < 0.25:
            return {**value, chance.choice(list(value) + ['sections', 'x', 'map', 'version']): value[key]}
        return {**value, key: changed_value(chance, value[key])}
    if isinstance(value, list) and value and chance.random() < 0.85:
        at, change = chance.randrange(len(value)), chance.random()
        if change < 0.15:
            return value[:at] + value[at + 1:]
        if change < 0.25:
            return value[:at] + [value[at]] + value[at:]
        return value[:at] + [changed_value(chance, value[at])] + value[at + 1:]
    if isinstance(value, str) and chance.random() < 0.8:
        return changed_text(chance, value)
    if isinstance(value, int) and not isinstance(value, bool) and chance.random() < 0.8:
        return chance.choice([value + 1, value - 1, *EDGES])
    return chance.choice(VALUES)


def changed_text(chance, text):
    """A text after one to four random edits. The inserted pieces are typical of mappings."""
    for _ in range(chance.choice([1, 1, 2, 4])):
        at = chance.randrange(len(text) + 1)
        piece = chance.choice([',', ';', chance.choice(DIGITS), chance.choice(DIGITS), 'g', '!', 'é', '=', 'ggggggggggggH',
                               'ggggggggggggI', ';;', 'AAAA', text[at:at + 4]])
        text = text[:at] + piece + text[at + chance.choice([0, 0, 1, 2]):]
    return text


def changed_bytes(chance, data, other):
    """The data after one to three random edits. An edit cuts off the end, changes, inserts, removes or repeats bytes,
    or replaces the end with the end of `other`."""
    for _ in range(chance.choice([1, 1, 2, 3])):
        at = chance.randrange(len(data) + 1)
        change = chance.randrange(7)
        if change == 0:
            data = data[:at]
        elif change == 1:
            data = data[:at] + bytes([chance.choice(b'"\\{}[]:,0123456789-.eE\n\r\x00\x7f\x80\xff\xc3\xed ntfu')]) + data[at + 1:]
        elif change == 2:
            data = data[:at] + chance.choice([b'\\u0041', b'\\ud83d\\ude00', b'\\ud800', b'null', b'1e400', b'-0', b' ', b'\\/',
                                              b'\xef\xbb\xbf', b'"', b'[[', b'}']) + data[at:]
        elif change == 3:
            data = data[:at] + data[at + chance.randrange(6):]
        elif change == 4:
            data = data[:at] + data[at:at + chance.randrange(20)] + data[at:]
        elif change == 5:
            data = data[:at] + other[chance.randrange(len(other) + 1):]
        elif data:
            data = data[:at] + bytes([data[at - 1] ^ 1 << chance.randrange(8)]) + data[at + 1:]
    return data


def text_of(chance, value):
    if chance.random() < 0.5:
        return json.dumps(value, ensure_ascii=False, separators=(',', ':')).encode('utf-8', 'surrogatepass')
    return json.dumps(value, indent=chance.choice([None, 1])).encode()


def with_changed_mappings(chance, record):
    """Changes `mappings` or `rangeMappings` of a record or of a map in one of its sections. Returns the record."""
    sections = [section for section in record.get('sections') or [] if section.get('map')]
    if sections:
        at = chance.choice(sections)
        at['map'] = with_changed_mappings(chance, at['map'])
    elif 'mappings' in record:
        key = chance.choice([key for key in ('mappings', 'rangeMappings') if key in record])
        record[key] = changed_text(chance, record[key])
    return record


# draws a map that the command accepts; in one case of eight `map_bytes` draws any map instead
FITTING = {'flatten': index, 'shift': index, 'rewrite': lambda chance: chance.choice([regular, regular, hermes])(chance),
           'tokens': lambda chance: chance.choice([regular, regular, hermes])(chance), 'compose': regular}


def map_bytes(chance, verb):
    """The bytes of a map for a command, mutated or not. In one case of fifty they are other data."""
    if chance.random() < 0.02:
        other = chance.choice([bundle_bytes(chance, [chance.choice(MODULES)]), drawn_text(chance), positions(chance), b''])
        return changed_bytes(chance, other, TEXT) if chance.random() < 0.5 else other
    value = FITTING.get(verb, whole)(chance) if chance.random() < 0.875 else whole(chance)
    change = chance.random()
    if change < 0.2:
        value = with_changed_mappings(chance, value)
    elif change < 0.4:
        for _ in range(chance.choice([1, 1, 2, 3])):
            value = changed_value(chance, value)
    data = text_of(chance, value)
    if 0.4 < change < 0.6:
        data = changed_bytes(chance, data, text_of(chance, whole(chance)))
    return chance.choice(JUNK) + data if chance.random() < 0.05 else data


def compiled_bytes(chance):
    """The bytes of a compiled map, mutated or not. In some cases those of a map that cannot be compiled."""
    data = text_of(chance, whole(chance))
    try:
        data = rules.compiled(rules.decode_map(data), chance.random() < 0.5)
    except (rules.Refusal, rules.TooLong):
        pass
    return changed_bytes(chance, data, TEXT) if chance.random() < 0.5 else data


def number(chance):
    return str(chance.choice([edge(chance), edge(chance), '00007', '+1', 'x', '', '5 ', '٣', '9' * 30]
                             if chance.random() < 0.05 else [edge(chance)]))


def positions(chance):
    lines = []
    for _ in range(chance.choice([0, 1, 3, 10])):
        lines.append(f'{number(chance)}{chance.choice([":"] * 12 + ["", "::", " ", "٣:"])}{number(chance)}'.encode())
    data = b'\n'.join(lines) + chance.choice([b'', b'\n', b'\r\n'])
    return changed_bytes(chance, data, TEXT) if chance.random() < 0.2 else data


def words_of(chance, path):
    kind = chance.random()
    from_1 = [rules.FROM_1] * (chance.random() < 0.3)
    if kind < 0.2:
        return ['lookup', *from_1, number(chance), number(chance)]
    if kind < 0.35:
        return ['tokens']
    if kind < 0.5:
        return ['rewrite']
    if kind < 0.65:
        return ['flatten']
    if kind < 0.75:
        return ['shift', number(chance)]
    if kind < 0.88:
        return ['compose', path]
    if kind < 0.95:
        return ['trace', *from_1, path]
    if kind < 0.97:
        return chance.choice(rules.CHECKS)
    if kind < 0.98:
        return ['compile', *[rules.WITHOUT_CONTENTS] * (chance.random() < 0.5)]
    words = [chance.choice(['lookup', 'tokens', 'trace', 'compile', 'check', 'Shift', '', 'é', rules.FROM_1])
             for _ in range(chance.choice([1, 2, 3]))]
    # `trace` with one or two more words may be a valid command that would open a missing file. With twice the words it
    # is invalid.
    return words + words if words[0] == 'trace' and len(words) > 1 else words


MAPS = calls.Maps(whole, regular, lambda chance: map_bytes(chance, 'lookup'), with_changed_mappings, changed_bytes)


def case_of(seed, at, path):
    chance = random.Random(f'{seed} {at} calls')
    if chance.random() < CALLS_SHARE:
        words, data = calls.draw_call(chance, MAPS)
        return Case([*words], data, b'', BENCH if words == calls.SPLIT else BENCH_CALLS)
    chance = random.Random(f'{seed} {at}')
    words = words_of(chance, path)
    is_compiled = words[0] in ('lookup', 'trace') and chance.random() < 0.2
    data = compiled_bytes(chance) if is_compiled else map_bytes(chance, words[0])
    file = b''
    if words[0] == 'compose':
        file = map_bytes(chance, words[0])
    elif words[0] == 'trace':
        file = positions(chance)
    return Case(words, data, file)


def pack_text(text):
    return struct.pack('=I', len(text)) + text


class Server:
    """A started program, which `serving.c` forks for each run."""

    def __init__(self, library, program, count):
        env = {'PATH': '/usr/bin:/bin', 'LANG': 'C.UTF-8', 'LD_PRELOAD': library, 'SERVING_SECONDS': '20',
               'SERVING_BYTES': str(2**28)}
        self.started = subprocess.Popen([program, *['-'] * count], env=env, stdin=subprocess.PIPE, stdout=subprocess.PIPE)

    def text(self):
        return self.started.stdout.read(struct.unpack('=I', self.started.stdout.read(4))[0])

    def run(self, words, data):
        request = b''.join(pack_text(word.encode('utf-8', 'surrogateescape')) for word in words) + pack_text(data)
        self.started.stdin.write(request)
        self.started.stdin.flush()
        status = struct.unpack('=i', self.started.stdout.read(4))[0]
        return status, self.text(), self.text()

    def end(self):
        self.started.stdin.close()
        self.started.wait()


def due(case):
    """The expected status and output. None if the output is too long for the rules, or if they leave it open."""
    if case.program != TOOL:
        return calls.outcome_of(tuple(case.words), case.data)
    try:
        return rules.outcome_of(case.words, case.data, case.file)
    except rules.TooLong:
        return None


def contradiction(case, ended, want):
    """How a run contradicts the expected result `want`. None if it does not."""
    status, output, errors = ended
    if status > 2:
        return f'status {status}'
    if case.program == BENCH and status == 1 and errors and not output:
        # the kit words the error on standard error, so only the status is compared
        return None if want[0] == 1 else f'the rules say {want}'
    if errors:
        return 'something on standard error'
    if want is None:
        return None if status in (0, 1) else f'status {status}'
    if want[1] is None:
        return None if status == want[0] else f'the rules say status {want[0]}'
    return None if (status, output) == want else f'the rules say {want}'


class Job:
    """Draws and runs cases. Each process has a job of its own."""

    def __init__(self, library, reference, seed):
        self.library, self.reference, self.seed, self.servers = library, reference, seed, {}
        self.folder = tempfile.mkdtemp(dir='/dev/shm' if os.path.isdir('/dev/shm') else None)
        self.path = f'{self.folder}/file'

    def run(self, program, case, *before):
        """Runs a program with the words `before` and those of a case. Returns its status, output and errors."""
        key = program, len(case.words) + len(before)
        if key not in self.servers:
            self.servers[key] = Server(self.library, *key)
        return self.servers[key].run([*before, *case.words], case.data)

    def chunk(self, first, count):
        """Runs `count` cases from case `first` on. Returns the failures, and counts of how the cases ended."""
        failures, kinds = [], collections.Counter()
        for at in range(first, first + count):
            case = case_of(self.seed, at, self.path)
            if case.words[0] in ('compose', 'trace'):
                pathlib.Path(self.path).write_bytes(case.file)
            ended, want = self.run(case.program, case), due(case)
            kind = 'command' if case.program == TOOL else 'call'
            kinds[f'{kind} {case.words[0] or "no word"} {ended[0]}'] += 1
            kinds.update([f'{kind}s in all'] + [f'{kind}s, open'] * (want is None))
            why = contradiction(case, ended, want)
            if why:
                failures.append((at, f'{why}; it says {ended}'))
            if self.reference and case.program == TOOL and ended[0] < 2:
                agreement = self.compare_with_reference(case, ended)
                kinds[f'reference: {agreement}'] += 1
                if agreement == UNEXPLAINED:
                    failures.append((at, f'{UNEXPLAINED}: it says {ended[:2]}, the reference {self.asked[:2]}'))
        return failures, kinds

    def compare_with_reference(self, case, ended):
        is_compiled = case.data.startswith(compiled_map.MAGIC_BYTES)
        if case.words[0] in ('trace', 'compile', 'check') or rules.FROM_1 in case.words or is_compiled:
            return 'no such word'
        self.asked = self.run(self.reference, case)
        return agreement(case, ended, self.asked)

    def end(self):
        for server in self.servers.values():
            server.end()
        shutil.rmtree(self.folder)


UNEXPLAINED = 'UNEXPLAINED'


def values_in(data):
    """All JSON values in a text, at any depth, in no particular order. Yields nothing if the text is not JSON."""
    try:
        left = [rules.json_of(data)]
    except rules.Refusal:
        return
    while left:
        value = left.pop()
        yield value
        if isinstance(value, (list, dict)):
            left += value if isinstance(value, list) else value.values()


def is_doubled(data):
    """Whether an object of a JSON text has a key twice. Compares the sizes of objects with and without doubled keys."""
    try:
        keys = [len(value) for value in values_in(data) if isinstance(value, dict)]
    except RecursionError:
        return True
    pairs = []
    json.JSONDecoder(object_pairs_hook=lambda found: pairs.append(len(found))).decode(
        rules.after_header(data).decode().strip(' \t\n\r'))
    return sorted(pairs) != sorted(keys)


def reasons(case, ended):
    """The rows of docs/DIFFERENCES.md that may explain a difference in this case."""
    text = ended[1].decode(errors='replace')
    if ended[0] == 1:
        if 'base64' in text or 'vlq' in text:
            yield 'digits'
        if 'bad json' in text or 'invalid data' in text:
            yield 'JSON'
        if '4294967295' in text or case.words[0] == 'compose':
            yield 'sums that wrap'
    for data in (case.data, case.file):
        values = list(values_in(data))
        records = [value for value in values if isinstance(value, dict)]
        if any(record.get('rangeMappings') for record in records):
            yield 'range mappings'
        if any(isinstance(name, rules.Fraction) for record in records for name in record.get('names') or []):
            yield 'names that are no texts'
        if case.words[0] == 'rewrite' and any('x_facebook_sources' in record for record in records):
            yield 'scopes'
        if case.words[0] == 'shift' and any(key in record for record in records for key in LISTS):
            yield 'lists of bundles'
        if any(line.count(',') > 16 for record in records for line in str(record.get('mappings')).split(';')):
            yield 'sorts that are not stable'
        if values and is_doubled(data):
            yield 'doubled keys'


def agreement(case, ended, asked):
    """How a result compares with the reference's. A difference has its reasons, or is UNEXPLAINED."""
    if ended[0] == asked[0] == 0 and ended[1] == asked[1]:
        return 'the same answer'
    # if the reference runs out of memory, it aborts
    if ended[0] == 1 and asked[0] == 1 or ended[1] == b'out of memory\n' and asked[0] == 134:
        return 'refused by both'
    return 'another answer: ' + ', '.join(sorted(set(reasons(case, ended)))) if any(reasons(case, ended)) else UNEXPLAINED


def work(given):
    """Runs the chunks of one process. Returns the failures, and counts of how the cases ended."""
    library, reference, seed, firsts, runs = given
    job = Job(library, reference, seed)
    failures, kinds = [], collections.Counter()
    for first in firsts:
        more, counted = job.chunk(first, min(CHUNK, runs - first))
        failures += more
        kinds += counted
    job.end()
    return failures, kinds


def show(seed, at, library):
    job = Job(library, None, seed)
    case = case_of(seed, at, job.path)
    pathlib.Path(job.path).write_bytes(case.file)
    print(f'words {case.words}\ninput {case.data}\nfile  {case.file}\nrules {due(case)}\nsays  {job.run(case.program, case)}')
    job.end()


def library_in(folder):
    made = f'{folder}/serving.so'
    subprocess.run([os.environ.get('CC', 'cc'), '-shared', '-fPIC', '-O1', '-o', made, HERE / 'serving.c'], check=True)
    return made


def main():
    words = argparse.ArgumentParser(description=__doc__.partition('\n\n')[0])
    words.add_argument('--runs', type=int, default=20000)
    words.add_argument('--seed', type=int, default=1)
    words.add_argument('--jobs', type=int, default=os.cpu_count() or 1)
    words.add_argument('--reference')
    words.add_argument('--only', type=int)
    given = words.parse_args()
    build_missing([TOOL, BENCH, BENCH_CALLS])
    with tempfile.TemporaryDirectory() as folder:
        library = library_in(folder)
        if given.only is not None:
            return show(given.seed, given.only, library)
        begun, firsts = time.time(), range(0, given.runs, CHUNK)
        parts = [(library, given.reference, given.seed, firsts[at::given.jobs], given.runs) for at in range(given.jobs)]
        failures, kinds = [], collections.Counter()
        with multiprocessing.Pool(given.jobs) as pool:
            for more, counted in pool.imap_unordered(work, parts):
                failures += more
                kinds += counted
    for at, why in sorted(failures)[:50]:
        print(f'case {at}: {why[:600]}')
    for kind, count in sorted(kinds.items()):
        print(f'{count:8} {kind}')
    failed = len({at for at, _ in failures})
    print(f'seed {given.seed}, {given.runs / (time.time() - begun):.0f} cases a second')
    print(f'{given.runs - failed} passed, {failed} failed')
    return failed > 0


if __name__ == '__main__':
    sys.exit(main())
