"""Shared by the scripts: the programs of this repository, running a program, comparing answers and lists of tokens,
finding reasons for differences, and counting them."""
import collections, concurrent.futures, json, os, pathlib, re, subprocess, sys
from hermes_maps import KEY, kept_entries
from index_maps import LISTS, bytes_of, flat_tokens, is_index, pieces, record_of

CRATES = pathlib.Path(__file__).resolve().parent.parent / 'crates'
TOOL = os.environ.get('SOURCEMAP_TOOL', str(CRATES / 'sourcemap_tool/out/sourcemap_tool'))
BENCH = os.environ.get('SOURCEMAP_BENCH', str(CRATES / 'sourcemap_bench/out/sourcemap_bench'))
BENCH_CALLS = os.environ.get('SOURCEMAP_BENCH_CALLS', str(CRATES / 'sourcemap_bench_calls/out/sourcemap_bench_calls'))
MAPS_AT_ONCE = 3
MARK = b' range'
# the position and the text of a token; the text may contain line ends
TOKEN = re.compile(rb'(\d+):(\d+) (.*?)\n(?=\d+:\d+ |\Z)', re.DOTALL)
PANICKED = 101

Note = collections.namedtuple('Note', 'what why here there')


def text_beside(path):
    """The path of the generated text beside a map, None if there is none: the path of the map without its suffix, or
    with `.js` instead of the suffix."""
    beside = pathlib.Path(path).with_suffix('')
    return next((each for each in (beside, beside.with_name(f'{beside.name}.js')) if each.is_file()), None)


def answer(command, data):
    """The status and the standard output of a command whose standard input is `data`."""
    ended = subprocess.run(command, input=data, stdout=subprocess.PIPE, stderr=subprocess.DEVNULL)
    return ended.returncode, ended.stdout


def build_missing(programs=(TOOL, BENCH)):
    """Proves and builds each of `programs` whose file does not exist. Exits if it cannot be built."""
    for program in map(pathlib.Path, programs):
        if not program.exists():
            print(f'{program} is not there: it is proved and built first', file=sys.stderr, flush=True)
            subprocess.run(['rt', 'run'], cwd=program.parent.parent, stdin=subprocess.DEVNULL, stdout=sys.stderr)
        if not program.exists():
            sys.exit(f'{program} could not be built')


def reference_program(given):
    """The path of the reference program. If `given` is the folder of its Cargo project, Cargo builds the program."""
    if not os.path.isdir(given):
        return given
    build = ['cargo', 'build', '--release']
    if subprocess.run([*build, '--offline'], cwd=given, stdout=sys.stderr, stderr=subprocess.DEVNULL).returncode != 0:
        subprocess.run(build, cwd=given, check=True, stdout=sys.stderr)
    built = [p for p in pathlib.Path(given, 'target/release').iterdir()
             if p.is_file() and os.access(p, os.X_OK) and p.suffix == '']
    return str(built[0])


def kind_of(reference, data):
    return answer([reference, 'stat'], data)[1].split(b'\t')[0].decode(errors='replace')


def tokens_of(text):
    """The position and the text of each token in the output of `tokens`. If the output is an error, one pair: an empty
    position and the text of the error."""
    return [(b'%b:%b' % found[:2], found[2]) for found in TOKEN.findall(text)] or [(b'', text)]


def without_repeats(text):
    tokens = tokens_of(text)
    return [token for i, token in enumerate(tokens) if i == 0 or tokens[i - 1] != token]


def without_mark(text):
    return text[:-len(MARK)] if text.endswith(MARK) else text


def without_marks(text):
    return [(position, without_mark(token)) for position, token in without_repeats(text)]


def is_reordered(here, there):
    """Whether two outputs of `tokens` differ at most in the order of tokens that have the same position."""
    here, there = tokens_of(here), tokens_of(there)
    return [position for position, _ in here] == [position for position, _ in there] and sorted(here) == sorted(there)


def tokens_with_positions(record):
    """The positions and the texts of the tokens of a map. Empty for an index map, which `tokens` refuses."""
    found = TOKEN.findall(answer([TOOL, 'tokens'], bytes_of(record))[1])
    return [((int(line), int(column)), text) for line, column, text in found]


def tokens_here(data):
    """What `tokens` of this repository's program prints for a map. For an index map, what it must print for the
    flattened map, computed from what it prints for the maps of the sections."""
    if b'"sections"' in data and is_index(record := record_of(data)):
        tokens = flat_tokens(record, tokens_with_positions)
        return b''.join(b'%d:%d %b\n' % (*position, text) for position, text in tokens)
    return answer([TOOL, 'tokens'], data)[1]


def reads_back(data, written):
    return without_repeats(tokens_here(written)) == without_repeats(tokens_here(data))


def without_order(record):
    """The parts of a record without its mappings. Its names, and its sources with their contents, are sorted, so that
    their order does not count."""
    parts = {key: part for key, part in record.items() if key not in ('mappings', 'rangeMappings')}
    contents = parts.pop('sourcesContent', [None] * len(parts['sources']))
    parts['sources'] = sorted(map(repr, zip(parts['sources'], contents)))
    parts['names'] = sorted(parts['names'])
    return parts


def reason_of_record(data, here, there):
    """The reason why two records differ that the programs wrote for a map, or for the flattened map of an index map.
    None if no reason fits.

    With each reason, the record that was written here reads back: it has the tokens of the map. A token that is equal
    to the token before it does not count.

    - range bits: the record here has `rangeMappings`, and the records differ in nothing else
    - panic: the reference panicked, and the record here has `rangeMappings`
    - stable sort: the records may differ in the order of tokens at one position, in which tokens repeat the token
      before them, and in the order of sources and of names. They differ in nothing else
    - stable sort, range bits: the same, but the record here has `rangeMappings`, and the records may also differ in
      which tokens are range tokens
    """
    if here[0] or there[0] not in (0, PANICKED):
        return None
    record = json.loads(here[1])
    ranges = record.pop('rangeMappings', None)
    if there[0] == PANICKED:
        return 'panic' if ranges and reads_back(data, here[1]) else None
    other = json.loads(there[1])
    other.pop('rangeMappings', None)
    if record == other:
        return 'range bits' if ranges and reads_back(data, here[1]) else None
    list_tokens = without_marks if ranges else without_repeats
    tokens, others = (set(list_tokens(tokens_here(text))) for text in (here[1], there[1]))
    if without_order(record) != without_order(other) or tokens != others or not reads_back(data, here[1]):
        return None
    return 'stable sort, range bits' if ranges else 'stable sort'


def without_scopes(ended):
    """An answer without the `x_facebook_sources` of its record, and the removed value."""
    record = json.loads(ended[1])
    scopes = record.pop(KEY, None)
    return (ended[0], bytes_of(record)), scopes


def reason_of_rewritten_hermes(data, here, there):
    """The reason why two records differ that the programs wrote for a rewritten Hermes map. None if no reason fits.

    With each reason, the record that was written here has the list of scopes that the rules prescribe.

    - scopes: the records differ only in this list, and the list of the map is shorter than the list of sources of the
      rewritten map; or the reference panicked, and the list of the map is shorter than the map's list of sources
    - panic: the reference panicked, and the list of the map is not shorter than the map's list of sources
    - otherwise the reason of `reason_of_record` for the records without this list
    """
    if here[0] or there[0] not in (0, PANICKED):
        return None
    due = kept_entries(record_of(data))
    own, scopes = without_scopes(here)
    if scopes != due:
        return None
    if there[0] == PANICKED:
        return 'scopes' if len(record_of(data)[KEY]) < len(record_of(data)['sources']) else 'panic'
    other, others = without_scopes(there)
    reason = None if own == other else reason_of_record(data, own, other)
    if own != other and reason is None or others != due and len(record_of(data)[KEY]) >= len(due):
        return None
    return reason or 'scopes'


def reason_of_piece(own, here, there):
    """The reason why the records differ that the programs wrote for one piece of an index map. `same` if they do not
    differ, None if no reason fits."""
    if here == there:
        return 'same'
    if not is_index(own):
        return reason_of_record(bytes_of(own), (0, bytes_of(here)), (0, bytes_of(there)))
    lists = {key: own[key] for key in LISTS if own.get(key) is not None}
    return 'bundle lists' if lists and here == {**there, **lists} else None


def reason_of_index(data, here, there):
    """The reasons why two records differ that the programs wrote for an index map, joined by commas. None if a piece
    differs without a reason. The pieces are the index map without its inner maps, and the pieces of these.

    - bundle lists: only the record here has the RAM bundle lists of the index map, and nothing else differs
    - panic: the reference panicked, an inner map of the record here has `rangeMappings`, and its inner maps read back
    - otherwise the reason of `reason_of_record` for each inner map
    """
    if here[0] or there[0] not in (0, PANICKED):
        return None
    own, written = pieces(record_of(data)), pieces(json.loads(here[1]))
    if there[0] == PANICKED:
        maps = [(bytes_of(old), bytes_of(new)) for old, new in zip(own, written) if not is_index(old)]
        is_ranged = any('rangeMappings' in piece for piece in written)
        return 'panic' if is_ranged and all(reads_back(*both) for both in maps) else None
    other = pieces(json.loads(there[1]))
    if not len(own) == len(written) == len(other):
        return None
    reasons = set(map(reason_of_piece, own, written, other)) - {'same'}
    return None if None in reasons else ', '.join(sorted(reasons)) or None


def first_difference(here, there):
    """At most 200 bytes of both texts, from up to 80 bytes before the first difference on."""
    both = zip(here, there)
    at = next((i for i, (a, b) in enumerate(both) if a != b), min(len(here), len(there)))
    start = max(0, at - 80)
    return here[start:start + 200], there[start:start + 200]


def note_of(what, here, there, reason):
    """The note of a comparison. If the answers differ, `reason` is called, which returns None if it finds no reason.
    Then the note is UNEXPLAINED."""
    if here == there:
        return Note(what, 'same', b'', b'')
    return Note(what, reason() or 'UNEXPLAINED', *first_difference(here[1], there[1]))


def report(note):
    if note.why == 'UNEXPLAINED':
        print(f'UNEXPLAINED: {note.what}\n    here  {note.here!r}\n    there {note.there!r}', flush=True)
    elif note.why != 'same' and not note.why.endswith('not there'):
        print(f'{note.why}: {note.what}', flush=True)


def compare_all(folder, compare):
    """Calls `compare` with the name and the bytes of each map below a folder. Prints the notes of differences that it
    returns, and the counts of all notes. Then exits, with status 1 if a difference is unexplained."""
    # packages have broken symbolic links
    paths = sorted(path for path in pathlib.Path(folder).rglob('*.map') if path.is_file())
    counts = collections.Counter()
    with concurrent.futures.ThreadPoolExecutor(MAPS_AT_ONCE) as pool:
        for notes in pool.map(lambda path: compare(str(path.relative_to(folder)), path.read_bytes()), paths):
            for note in notes:
                counts[note.why] += 1
                report(note)
    same, unexplained = counts.pop('same', 0), counts.pop('UNEXPLAINED', 0)
    meant = ', '.join(f'{n} {why}' for why, n in sorted(counts.items())) or 'none meant to differ'
    print(f'{len(paths)} maps: {same} answers the same, {meant}, {unexplained} unexplained')
    sys.exit(1 if unexplained else 0)
