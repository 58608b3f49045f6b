#!/usr/bin/env python3
"""Measures the time and memory of this library and of a reference program, and prints their ratios as Markdown.

    bench/compare-speed.py REFERENCE [MAP..] [--pairs FOLDER] [--views] [--bundles] [--rounds N] [--no-made] [--no-maps]
                           [--lookups N..] [--growth N..] [--instructions] [--svg FILE]
    bench/compare-speed.py --svg FILE --figures decode=RATIO,lookup=RATIO,rewrite=RATIO [--date DATE] [--what TEXT]
                           [--note TEXT]

REFERENCE       the folder bench/reference, which is then built, from the public registry only if crates are missing.
                Or a program over the Rust crate with the commands `bench OPERATION N` and `stat`, which takes `slice`
                and `stream` before `lookup LINE COL`, `rewrite`, `flatten` and `compose FILE`
MAP             files of maps, which may be index maps. Without MAP, the maps that bench/get-maps.sh gathers are
                measured. In both cases, small and odd maps and index maps are added, which bench/make-map.py makes
--pairs         a folder with pairs NAME.original.map and NAME.adjustment.map, at any depth. Each pair is composed
                many times in one process, and in whole runs of `compose`
--views         measures views of texts, which are made and then read line by line, and walks back over tokens,
                which guess names. The walks are on a made line, and on each regular map from above that has its
                generated text beside it, as a.js beside a.js.map or a.map
--bundles       measures made RAM bundles, which are split by their index maps
--rounds        the number of rounds for each figure, of which the smallest result counts (7)
--no-made       leaves out the maps and index maps that are added
--no-maps       leaves out the tables of regular maps and of index maps
--lookups       numbers of tokens (300 1000 5000 20000 100000 2300000). For each number, lookups alone are timed, on
                a made map with ten tokens in each line, and on one with all tokens in one line. 0 gives no row
--growth        numbers of tokens (75000 250000). For each number, a table compares four made maps. The smallest has
                this number of tokens, and each other one has twice as many as the one before. 0 gives no table
--instructions  also counts instructions, with valgrind, which is slow
--svg           writes a picture of three ratios to FILE, as docs/speed.svg is: decoding a slice, looking up, and copying
                and rewriting. Each is the largest ratio among the measured regular maps, without the maps that are added
--figures       measures nothing, and draws these ratios. --date is the day on which they were measured (today), --what
                says of which maps they are, and --note is a comment in the file, which says where they come from

If a program of this repository is missing, it is built first. With --no-maps, only `sourcemap_bench` is built.
SOURCEMAP_TOOL and SOURCEMAP_BENCH in the environment name other programs.

The time of an operation comes from two processes: one repeats the operation often, and the other does it once. The
difference of their times is divided by the difference of their numbers of repetitions. So the figure does not contain
the start of the process, reading the map, decoding it for the first time, or drawing positions. The two programs take
turns within a round. The smallest time of all rounds counts. Times are processor times, user and system together.
Memory is the peak of a process, in one run.

For whole runs, the reference is measured in its best modes. Its time is that of `slice`, which reads all input before
it decodes it. Its memory is that of `stream`, which decodes the input while it reads it. If the two programs have
different checksums for an operation, these are printed on standard error, and the status is 1. Each row is also printed
there as soon as it is measured, except in tables of growth. A cell has the ratio of the figure here to the reference's,
and in parentheses the figure here. A row of growth has the figure on the smallest map, and then the ratios to it.
"""
import argparse, datetime, json, os, pathlib, shutil, subprocess, sys, tempfile
sys.path.insert(0, str(pathlib.Path(__file__).resolve().parent.parent / 'compare'))
from comparing import BENCH, CRATES, TOOL, build_missing, reference_program, text_beside
from composing import Token, mappings_of
from index_maps import LAST, is_index, record_of
from picture import picture
from walks import TOKENS

SCRIPTS = CRATES.parent / 'bench'
OPERATIONS = ['decode', 'decode-reader', 'lookup', 'tokens', 'encode', 'rewrite']
INDEX_OPERATIONS = ['decode', 'decode-reader', 'lookup', 'encode', 'flatten']
TITLES = {'decode': 'decode a slice', 'decode-reader': 'decode a reader', 'lookup': '1,000,000 lookups',
          'tokens': 'all tokens', 'encode': 'encode', 'rewrite': 'copy and rewrite', 'flatten': 'flatten',
          'compose': 'copy and compose', 'lines': 'a view and all its lines', 'names': 'walks over all tokens', 'split': 'flatten and split'}
OF_VIEWS = ['lines', 'names']
# the words before the operations on other subjects than maps
SUBJECTS = {**dict.fromkeys(OF_VIEWS, ['views']), 'split': ['bundles']}
BUNDLES = {'2,500 modules': ['2500', '250000'], '5,000 modules': ['5000', '500000'], '10,000 modules': ['10000', '1000000'],
           '5,000 modules in one section': ['5000', '500000', '--sections', '1'],
           '5,000 modules with contents': ['5000', '500000', '--contents', '2000']}
# the operations in the picture
DRAWN = ['decode', 'lookup', 'rewrite']
COUNTED = ['decode', 'decode-reader', 'encode']
RUNS = (['lookup', '3', '100'], ['rewrite'])
INDEX_RUNS = (['lookup', '3', '100'], ['flatten'])
MADE = {'300-tokens': ['300'], '1000-tokens': ['1000'], '5000-tokens': ['5000'], '20000-tokens': ['20000'],
        'short-lines': ['500000', '--line', '5'], 'contents': ['20000', '--contents', '10000000'],
        'functions': ['300000', '--line', '300000', '--functions', '400'],
        '500-sections': ['400000', '--sections', '500'], '100000-sections': ['400000', '--sections', '100000'],
        'within-40-indexes': ['20000', '--within', '40']}
# texts of about 5 MB
LINE = 'const value = "text of a line" + other(name, 17);'
TEXTS = {'100000-lines.js': (LINE + '\n') * 100_000, '100000-wide-lines.js': (LINE.replace('text', 'täxt👌') + '\n') * 100_000,
         'one-line.js': LINE * 100_000}


def run(command, path):
    """The processor time of a run in seconds, and its output. None if the program is missing, if its status is not 0,
    or if it prints its usage."""
    if not os.path.exists(command[0]):
        return None
    with open(path, 'rb') as source, tempfile.TemporaryFile() as sink:
        process = subprocess.Popen(command, stdin=source, stdout=sink, stderr=subprocess.DEVNULL)
        _, status, usage = os.wait4(process.pid, 0)
        process.returncode = status
        sink.seek(0)
        text = sink.read().decode(errors='replace')
    if status != 0 or text.startswith('usage'):
        return None
    return usage.ru_utime + usage.ru_stime, text


def peak(command, path):
    """The peak memory of a run, in MB."""
    with open(path, 'rb') as source, tempfile.NamedTemporaryFile('r') as result:
        subprocess.run(['/usr/bin/time', '-o', result.name, '-f', '%M', *command], stdin=source,
                       stdout=subprocess.DEVNULL, check=True)
        return int(result.read().split()[-1]) / 1024


def instructions(command, path):
    """The instructions of a run, in millions."""
    with open(path, 'rb') as source, tempfile.NamedTemporaryFile() as log:
        result = subprocess.run(['valgrind', '--tool=callgrind', f'--callgrind-out-file={log.name}', *command],
                              stdin=source, stdout=subprocess.DEVNULL, stderr=subprocess.PIPE, text=True)
    return int(result.stderr.split('Collected :')[1].split()[0]) / 1e6


def repetitions(path, operation):
    """How often to repeat an operation, so that most runs take at least some tenths of a second."""
    size = os.path.getsize(path)
    if operation == 'lookup':
        return 2
    if operation == 'tokens':
        return max(100, 300_000_000 // size)
    if operation in OF_VIEWS:
        return 100
    return max(3, 30_000_000 // size)


class Pair:
    """Both programs, and whether a checksum differed."""

    def __init__(self, reference):
        self.commands = {'here': lambda op, n: [BENCH, *SUBJECTS.get(op, []), op, str(n)],
                         'reference': lambda op, n: [reference, 'bench', op, str(n)]}
        self.reference = reference
        self.is_different = False

    def compare_sums(self, path, operation, sums):
        if len(sums) > 1:
            self.is_different = True
            print(f'{path}, {operation}: the checksums differ, {sorted(sums)}', file=sys.stderr, flush=True)

    def times(self, path, operation, rounds):
        """The processor time of one operation in seconds, here and the reference's. None if a program fails."""
        more = repetitions(path, operation)
        least, sums = {}, set()
        for _ in range(rounds):
            for name, command in self.commands.items():
                for n in (1, 1 + more):
                    result = run(command(operation, n), path)
                    if result is None:
                        return None
                    least[name, n] = min(least.get((name, n), result[0]), result[0])
                    sums.add((n, result[1]))
        self.compare_sums(path, operation, {text for n, text in sums if n > 1})
        return tuple((least[name, 1 + more] - least[name, 1]) / more for name in self.commands)

    def counts(self, path, operation):
        """The instructions of one operation in millions, here and the reference's."""
        many = [[instructions(command(operation, n), path) for n in (1, 2)] for command in self.commands.values()]
        return tuple(two - one for one, two in many)

    def whole(self, path, words, rounds):
        """The processor time of a whole run in seconds, here and the reference's. None if a program fails."""
        least = [9e9, 9e9]
        for _ in range(rounds):
            for i, command in enumerate(([TOOL, *words], [self.reference, 'slice', *words])):
                result = run(command, path)
                if result is None:
                    return None
                least[i] = min(least[i], result[0])
        return tuple(least)

    def memory(self, path, words):
        """The peak memory of a whole run in MB, here and the reference's. None if a program fails."""
        commands = [TOOL, *words], [self.reference, 'stream', *words]
        if None in [run(command, path) for command in commands]:
            return None
        return tuple(peak(command, path) for command in commands)


def gathered_maps(folder):
    subprocess.run([SCRIPTS / 'get-maps.sh', folder], check=True)
    return sorted(map(str, pathlib.Path(folder, 'maps').glob('*.map')), key=os.path.getsize)


def made_map(words, folder, name):
    path = os.path.join(folder, f'{name}.map')
    with open(path, 'w') as sink:
        subprocess.run([sys.executable, SCRIPTS / 'make-map.py', *words], stdout=sink, check=True)
    return path


def figure_text(figure):
    """A figure with three significant digits, or with all digits before the point. Below 0.1: with four decimals."""
    decimals = next((n for n, least in enumerate((100, 10, 1, 0.1)) if figure >= least), 4)
    return f'{figure:.{decimals}f}'


def cell(pair, unit, scale):
    """The ratio of the figure here to the reference's, and in parentheses the figure here."""
    if pair is None:
        return 'not there'
    here, there = pair
    return f'{here / there:.2f} ({figure_text(here * scale)} {unit})'


class Table:
    """A table. `add` prints each row on standard error, and `show` prints the table if it has rows."""

    def __init__(self, head):
        self.lines = ['| ' + ' | '.join(head) + ' |', '|---' * len(head) + '|']

    def add(self, cells):
        self.lines.append('| ' + ' | '.join(cells) + ' |')
        print(self.lines[-1], file=sys.stderr, flush=True)

    def show(self, title):
        if len(self.lines) > 2:
            print(f'\n{title}:\n', *self.lines, sep='\n', flush=True)


class Maps:
    """The tables of maps of one kind: of operations, of whole runs and of instructions. `ratios` has the ratio of each
    operation for each map."""

    def __init__(self, operations, runs):
        self.operations, self.runs, self.ratios = operations, runs, {}
        self.times = Table(['Map', 'Size', 'Tokens', *(TITLES[each] for each in operations)])
        words = ['`' + ' '.join(each) + '`' for each in runs]
        self.wholes = Table(['Map', *(head for each in words for head in ('run of ' + each, 'its most memory'))])
        self.counted = Table(['Map', *(TITLES[each] for each in COUNTED)])

    def add(self, programs, path, tokens, rounds, is_counted):
        name, size = f'`{os.path.basename(path)}`', os.path.getsize(path) / 1e3
        size = f'{size / 1e3:.1f} MB' if size >= 100 else f'{size:.0f} kB'
        times = [programs.times(path, each, rounds) for each in self.operations]
        self.ratios[path] = {each: pair[0] / pair[1] for each, pair in zip(self.operations, times) if pair}
        self.times.add([name, size, f'{int(tokens):,}', *(cell(pair, 'ms', 1e3) for pair in times)])
        wholes = [each for words in self.runs for each in (cell(programs.whole(path, words, rounds), 'ms', 1e3),
                                                           cell(programs.memory(path, words), 'MB', 1))]
        self.wholes.add([name, *wholes])
        if is_counted:
            self.counted.add([name, *(cell(programs.counts(path, each), 'million', 1) for each in COUNTED)])

    def show(self, kind):
        self.times.show(f'{kind}, operations')
        self.wholes.show(f'{kind}, whole runs')
        self.counted.show(f'{kind}, instructions')


def map_tables(programs, paths, rounds, is_counted):
    """Prints the tables of maps. Returns the ratios of the regular maps."""
    kinds = {'Regular maps': Maps(OPERATIONS, RUNS), 'Index maps': Maps(INDEX_OPERATIONS, INDEX_RUNS)}
    for path in paths:
        kind, tokens = subprocess.run([programs.reference, 'stat'], stdin=open(path), capture_output=True,
                                      text=True).stdout.split('\t')[:2]
        kinds['Index maps' if kind == 'index' else 'Regular maps'].add(programs, path, tokens, rounds, is_counted)
    for kind, maps in kinds.items():
        maps.show(kind)
    return kinds['Regular maps'].ratios


def draw(path, figures, date, what, note):
    pathlib.Path(path).write_text(picture(figures, date, what, note))


def draw_measured(path, ratios, rounds):
    """Draws the largest ratio of each operation among these maps."""
    if not ratios:
        sys.exit('no picture: no regular map but those that are added was measured')
    figures = {each: max(ratio[each] for ratio in ratios.values() if each in ratio) for each in DRAWN
               if any(each in ratio for ratio in ratios.values())}
    names = ', '.join(sorted(map(os.path.basename, ratios)))
    draw(path, figures, datetime.date.today(), f'the largest ratio of {len(ratios)} maps',
         f'measured by bench/compare-speed.py, rounds: {rounds}, maps: {names}')


def figures_of(text):
    """The ratios in the argument of --figures."""
    figures = {name: float(ratio) for name, ratio in (part.split('=') for part in text.split(','))}
    if list(figures) != DRAWN:
        raise ValueError
    return figures


def lines_of(paths, folder):
    """Writes these maps to a file in the folder, each as compact JSON on its own line. Returns the path of the file."""
    lines = os.path.join(folder, 'lines')
    with open(lines, 'w') as sink:
        for path in paths:
            json.dump(json.loads(pathlib.Path(path).read_bytes()), sink, separators=(',', ':'))
            sink.write('\n')
    return lines


def pair_table(programs, paths, rounds):
    table = Table(['Pair', 'Sizes', TITLES['compose'], 'run of `compose FILE`', 'its most memory'])
    for path in paths:
        adjustment = str(path).replace('.original.map', '.adjustment.map')
        sizes = ', '.join(f'{os.path.getsize(each) / 1e6:.1f} MB' for each in (path, adjustment))
        with tempfile.TemporaryDirectory() as folder:
            lines = lines_of((path, adjustment), folder)
            composed = programs.times(lines, 'compose', rounds)
        words = ['compose', adjustment]
        table.add([f"`{path.name.replace('.original.map', '')}`", sizes, cell(composed, 'ms', 1e3),
                   cell(programs.whole(path, words, rounds), 'ms', 1e3), cell(programs.memory(path, words), 'MB', 1)])
    table.show('Pairs, of which one is adjusted by the other')


def map_of_last_tokens(text):
    """The record of a map with tokens at the end of a text of one line. A walk visits all these tokens."""
    columns = range(len(text) - 8 * TOKENS, len(text), 8)
    tokens = [Token(0, column, 0, column, 0, LAST, False) for column in columns]
    return {'version': 3, 'sources': ['a.js'], 'names': [], 'mappings': mappings_of(tokens)[0]}


def walked_texts(paths):
    """The texts to walk in: the name of each, the record of its map, and the text."""
    yield f'{TOKENS} tokens at the end of `one-line.js`', map_of_last_tokens(TEXTS['one-line.js']), TEXTS['one-line.js']
    for path in paths:
        record, text = record_of(pathlib.Path(path).read_bytes()), text_beside(path)
        if text and not is_index(record):
            yield f'`{os.path.basename(path)}`', record, text.read_bytes().decode()


def view_table(programs, paths, rounds):
    """Measures views of texts, and walks over tokens. The size in a row is that of the text."""
    table = Table(['Text', 'Size', 'What is done', 'Time'])
    inputs = [(f'`{name}`', text, 'lines', text) for name, text in TEXTS.items()]
    inputs += [(name, text, 'names', json.dumps(record, separators=(',', ':')) + '\n' + text)
               for name, record, text in walked_texts(paths)]
    with tempfile.NamedTemporaryFile() as file:
        for name, text, operation, data in inputs:
            pathlib.Path(file.name).write_bytes(data.encode())
            size = f'{len(text.encode()) / 1e6:.1f} MB'
            table.add([name, size, TITLES[operation], cell(programs.times(file.name, operation, rounds), 'ms', 1e3)])
    table.show('Views')


def made_bundle(words, folder):
    path = os.path.join(folder, 'bundle')
    with open(path, 'wb') as sink:
        subprocess.run([sys.executable, SCRIPTS / 'make-bundle.py', *words], stdout=sink, check=True)
    return path


def bundle_table(programs, rounds, is_counted):
    """Measures bundles that are split by their index maps. Memory is the peak of a process that reads both and splits
    once."""
    table = Table(['Bundle', 'Size', TITLES['split'], 'its most memory', *(['instructions'] * is_counted)])
    with tempfile.TemporaryDirectory() as folder:
        for name, words in BUNDLES.items():
            path = made_bundle(words, folder)
            peaks = tuple(peak(command('split', 1), path) for command in programs.commands.values())
            cells = [cell(programs.times(path, 'split', rounds), 'ms', 1e3), cell(peaks, 'MB', 1)]
            cells += [cell(programs.counts(path, 'split'), 'million', 1)] if is_counted else []
            table.add([name, f'{os.path.getsize(path) / 1e6:.1f} MB', *cells])
    table.show('RAM bundles')


def lookup_table(programs, counts, rounds):
    table = Table(['Tokens', 'in lines of ten', 'in one line'])
    with tempfile.TemporaryDirectory() as folder:
        for count in counts:
            paths = [made_map([str(count), '--line', str(line)], folder, f'{count}-by-{line}') for line in (10, count)]
            table.add([f'{count:,}', *(cell(programs.times(path, 'lookup', rounds), 'ms', 1e3) for path in paths)])
    table.show('1,000,000 lookups, by tokens')


def growth_row(title, programs, figures):
    """Prints a row for each program. `figures` has the pairs of figures on maps with 1, 2, 4 and 8 times the tokens. If
    one is missing, prints nothing."""
    if None in figures:
        return
    for i, name in enumerate(programs.commands):
        growth = ' | '.join(f'{f[i] / figures[0][i]:.2f}' for f in figures[1:])
        print(f'| {title} | {name} | {figure_text(figures[0][i] * 1e3)} ms | {growth} |', flush=True)


def growth_table(programs, smallest, rounds):
    print(f'\nGrowth, on made maps: the figure on 2, 4 and 8 times the tokens, by that on a map of {smallest:,} tokens.\n')
    print('| Operation | Program | 1 | 2 | 4 | 8 |\n|---|---|---|---|---|---|')
    with tempfile.TemporaryDirectory() as folder:
        paths = [made_map([str(smallest * k)], folder, smallest * k) for k in (1, 2, 4, 8)]
        for operation in OPERATIONS:
            if operation not in ('lookup', 'tokens'):
                growth_row(TITLES[operation], programs, [programs.times(path, operation, rounds) for path in paths])
        for words in RUNS:
            growth_row('run of `' + ' '.join(words) + '`', programs, [programs.whole(path, words, rounds) for path in paths])
        figures = [programs.memory(path, RUNS[0]) for path in paths]
        for i, name in enumerate(programs.commands):
            growth = ' | '.join(f'{f[i] / figures[0][i]:.2f}' for f in figures[1:])
            print(f'| most memory | {name} | {figure_text(figures[0][i])} MB | {growth} |', flush=True)


def arguments():
    words = argparse.ArgumentParser(usage=__doc__)
    words.add_argument('reference', nargs='?')
    words.add_argument('maps', nargs='*')
    words.add_argument('--pairs', type=pathlib.Path)
    words.add_argument('--views', action='store_true')
    words.add_argument('--bundles', action='store_true')
    words.add_argument('--rounds', type=int, default=7)
    words.add_argument('--no-made', action='store_true')
    words.add_argument('--no-maps', action='store_true')
    words.add_argument('--lookups', type=int, nargs='+', default=[300, 1000, 5000, 20000, 100000, 2300000])
    words.add_argument('--growth', type=int, nargs='+', default=[75000, 250000])
    words.add_argument('--instructions', action='store_true')
    words.add_argument('--svg')
    words.add_argument('--figures', type=figures_of)
    words.add_argument('--date', default=datetime.date.today())
    words.add_argument('--what', default='the largest ratio of 4 real maps')
    words.add_argument('--note', default='figures given to bench/compare-speed.py')
    given = words.parse_args()
    if given.figures and not given.svg or not given.figures and not given.reference:
        words.error('names no reference, or no file for the picture')
    if given.instructions and not shutil.which('valgrind'):
        words.error('--instructions needs valgrind')
    return given


def main():
    given = arguments()
    if given.figures:
        return draw(given.svg, given.figures, given.date, given.what, given.note)
    build_missing([BENCH] if given.no_maps else [TOOL, BENCH])
    programs = Pair(reference_program(given.reference))
    with tempfile.TemporaryDirectory() as folder:
        real = [] if given.no_maps else given.maps or gathered_maps(folder)
        made = [] if given.no_maps or given.no_made else [made_map(words, folder, name) for name, words in MADE.items()]
        ratios = map_tables(programs, real + made, given.rounds, given.instructions)
        if given.svg:
            draw_measured(given.svg, {path: ratio for path, ratio in ratios.items() if path in real}, given.rounds)
        if given.views:
            view_table(programs, real + made, given.rounds)
    if given.bundles:
        bundle_table(programs, given.rounds, given.instructions)
    if given.pairs:
        pair_table(programs, sorted(given.pairs.rglob('*.original.map')), given.rounds)
    lookup_table(programs, filter(None, given.lookups), given.rounds)
    for smallest in given.growth:
        if smallest:
            growth_table(programs, smallest, given.rounds)
    sys.exit(1 if programs.is_different else 0)


main()
