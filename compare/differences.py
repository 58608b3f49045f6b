#!/usr/bin/env python3
"""Tests the rows of docs/DIFFERENCES.md: runs this repository's programs and the reference on the input of each row.

    compare/differences.py REFERENCE

REFERENCE    the folder bench/reference, which is then built, or a program over the Rust crate with these commands:
             `lookup`, `tokens`, `rewrite`, `stream rewrite`, `flatten`, `compose`, `shift`,
             `roundtrip`, which reads a map and writes it again, and the commands of asking.py

If a program of this repository is missing, the script builds it. SOURCEMAP_TOOL and SOURCEMAP_BENCH in the
environment name other files to run instead. For commands that neither program has, asking.py builds a third one.

If the last column of a row names a command, the row must have a trial below. The key of the trial is the text of the
first column. If the last column is `none`, the row has no trial. The script prints each row that does not behave as
described, each row without a trial by its command, and each trial without a row. If it prints any, the status is 1.
"""
import argparse, collections, json, os, pathlib, pty, struct, subprocess, sys, tempfile, tty
from asking import Case, answers_here, answers_there
from bundles import MAGIC, NO_INDEX, byte_text
from comparing import BENCH, CRATES, TOOL, build_missing, is_reordered, reference_program
from composing import tokens_of_record

DOCUMENT = CRATES.parent / 'docs/DIFFERENCES.md'

# `word` is a command with its arguments. `data` is the standard input, or a function that opens it. `here` and `there`
# are the expected answers of this repository and of the reference: a status, and a text that the output contains. In
# `there` a test of both outputs may replace the text. `file` is the text of a second file, if the command takes one.
Trial = collections.namedtuple('Trial', 'word data here there file', defaults=[None])
# `case` is a question to the library. `here` and `there` are the expected first lines of the answers of the library and
# of the reference. `there` may be a test of both lines.
Asked = collections.namedtuple('Asked', 'case here there')


def record(mappings, **more):
    return json.dumps({'version': 3, 'sources': ['a.js'], 'names': [], **more, 'mappings': mappings}).encode()


def index(*sections):
    """The JSON text of an index map. A section is a line, a column, a source and mappings. If the mappings are None,
    the section has no map."""
    return json.dumps({'sections': [
        {'offset': {'line': line, 'column': column}, 'map': mappings and {'sources': [source], 'mappings': mappings}}
        for line, column, source, mappings in sections]}).encode()


def steps(text):
    """The number of segments in a map of one line, and how many of them step to another generated column."""
    segments = json.loads(text)['mappings'].split(',')
    return len(segments), sum(segment[0] != 'A' for segment in segments)


def has_the_same_steps(here, there):
    return steps(here) == steps(there)


def is_covered_by_others(here, there):
    """Whether two maps have the same original columns, but not all of them at the same generated columns."""
    here, there = (sorted((token.source_column, token.column) for token in tokens_of_record(json.loads(text)))
                   for text in (here, there))
    return here != there and [original for original, _ in here] == [original for original, _ in there]


def fails_after(data):
    """A file descriptor to read these bytes from. After them a read fails, because the other end of this terminal is
    closed."""
    ours, theirs = pty.openpty()
    tty.setraw(theirs)
    os.write(theirs, data)
    os.close(theirs)
    return ours


def question_of(word, record=None, text=None, question=None):
    """A case with one question. The answer to `slices` has a second line, with the count of lines."""
    return Case(word, word, record, text, [question], 2 if word == 'slices' else 1)


def reference_question(*question):
    """A case with one question of asking_references.py."""
    return Case('references', 'references', None, None, [list(question)], 1)


# the folder of all bundles that `folder_of` makes, removed when the script ends
FOLDERS = tempfile.TemporaryDirectory()


def bundle_question(*question):
    """A case with one question of asking_bundles.py."""
    return Case('bundles', 'bundles', None, None, [list(question)], 1)


def folder_of(*names):
    """Makes a file bundle with a module file for each name, and returns the path of its startup code. Each module file
    contains its own name."""
    folder = pathlib.Path(tempfile.mkdtemp(dir=FOLDERS.name))
    modules = folder / 'js-modules'
    modules.mkdir()
    (folder / 'main.js').write_text('main')
    (modules / 'UNBUNDLE').write_bytes(struct.pack('<I', MAGIC))
    for name in names:
        (modules / name).write_text(os.fsencode(name).decode(errors='replace'))
    return str(folder / 'main.js')


def split_question(text, mappings, line=0, offset=5, **more):
    """A case with a question: the split of a bundle with this text as its only module, by an index map with one section
    at `line`. In the whole bundle the module starts at line `offset`."""
    code = text.encode() + b'\0'
    data = struct.pack('<5I', MAGIC, 1, 0, 0, len(code)) + code
    section = {'offset': {'line': line, 'column': 0}, 'map': {'sources': ['a.js'], 'mappings': mappings, **more}}
    return bundle_question('split', byte_text(data), json.dumps({'sections': [section], 'x_facebook_offsets': [offset]}))


def split_into(text, *tokens):
    """The answer to `split_question`: module 0 with these tokens. A token is a generated line, a column, and a mark if
    it is a range token. The column is both the generated and the original one. The original line is 0."""
    rows = [[line, column, 0, column, 'a.js', None, bool(mark)] for line, column, *mark in tokens]
    return compact([['0.js', text, '0.js', [['a.js', None]] if tokens else [], [], rows]])


def compact(value):
    return json.dumps(value, separators=(',', ':'))


def has_listed_others(here, there):
    """Whether two file bundles have the same module numbers, but some modules have different texts."""
    parts = [json.loads(text)[1][4] for text in (here, there)]
    return parts[0] != parts[1] and [number for number, _ in parts[0]] == [number for number, _ in parts[1]]


def is_shuffled(here, there):
    """Whether the reference has the same pairs, also sorted by their first numbers, but some pairs with equal first
    numbers in another order."""
    pairs = [[tuple(map(int, pair.split(':'))) for pair in line.split()] for line in (here, there)]
    return pairs[0] != pairs[1] and pairs[0] == sorted(pairs[1]) and [first for first, _ in pairs[1]] == sorted(first for first, _ in pairs[1])


def named_record(mappings, **more):
    return {'version': 3, 'sources': ['a.js'], 'names': ['foo'], 'mappings': mappings, **more}


# file names of the modules 1 to 4: ten for each module, with zero to nine zeros before the number
ZEROS = [f'{"0" * zeros}{number}.js' for zeros in (3, 1, 5, 0, 9, 2, 4, 7, 6, 8) for number in range(1, 5)]
PAST_THE_END = 'cannot flatten the indexed sourcemap: a position passes 4294967295'
PARTLY_READ = 'a JSON text of which a failing reader gave a part, as `{"version":3`'
COVERED = 'originals `AAAA,CAAC`, an adjustment of 33 tokens in a line, `AAAC`, then `CAAA` 31 times and `CAAD`'
BUILT = 'tokens added to a builder out of order, more than 32 in a line, some at one position'
SORTED = 'a line of more than 32 segments, out of order, some at one column, as `CAAA` and then `DAAC,CAAC` 16 times'
TRIALS = {
    'segment `A!`': Trial(
        'tokens', record('A!'), (1, 'invalid base64 character: !'), (1, 'leftover cur/shift')),
    'segment of twelve `g`, then `I`': Trial(
        'tokens', record('g' * 12 + 'I'), (1, 'vlq decode caused an overflow'), (0, '0:0 ')),
    SORTED: Trial(
        'tokens', record('CAAA' + ',DAAC,CAAC' * 16), (0, '0:1 a.js:0:0\n0:1 a.js:0:2\n0:1 a.js:0:4'), (0, is_reordered)),
    PARTLY_READ: Trial(
        'tokens', lambda: fails_after(b'{"version":3'), (1, 'Input/output error'), (1, 'bad json: Input/output error')),
    '`)]}x\\rA` as header': Trial(
        'tokens', b')]}x\rA', (1, 'invalid data'), (1, 'bad json: expected newline')),
    '`{"names":[1.5,-0,1e2,18446744073709551616],"mappings":""}`': Trial(
        'write', b'{"names":[1.5,-0,1e2,18446744073709551616],"mappings":""}',
        (0, '"names":["","","",""]'), (0, '"names":["1.5","-0.0","100.0","1.8446744073709552e19"]')),
    '`{"version":3,"version":3,"mappings":""}`': Trial(
        'rewrite', b'{"version":3,"version":3,"mappings":""}', (0, '"version":3'), (1, 'duplicate field')),
    '`{"sections":[[[0,0],null,null]]}`': Trial(
        'lookup 0 0', b'{"sections":[[[0,0],null,null]]}', (1, 'bad json: a field has the wrong type'), (0, 'none')),
    '`{"debugId":"0123456789abcdef0123456789abcdef1","mappings":""}`': Trial(
        'rewrite', b'{"debugId":"0123456789abcdef0123456789abcdef1","mappings":""}',
        (1, 'bad json: a field has the wrong type'), (0, '"debugId":"01234567-89ab-cdef-0123-456789abcdef-1"')),
    'JSON errors, as that of `{`': Trial(
        'tokens', b'{', (1, 'bad json: the text is not JSON'), (1, 'bad json: EOF while parsing an object')),
    '`{"version":"x"`': Trial(
        'tokens', b'{"version":"x"', (1, 'bad json: the text is not JSON'), (1, 'bad json: invalid type: string "x"')),
    'source `a.js`, mappings `AAAO`, range bits `B`, position (3,5)': Trial(
        'lookup 3 5', record('AAAO', rangeMappings='B'), (0, 'a.js:0:7\n'), (0, 'a.js:0:12\n')),
    'source `a.js`, mappings `KAAO`, range bits `B`, position (3,0)': Trial(
        'lookup 3 0', record('KAAO', rangeMappings='B'), (0, 'a.js:0:7\n'), (0, 'a.js:0:4294967295\n')),
    'a plain token at (0,0), a range token at (1,0)': Trial(
        'write', record('A;A', rangeMappings=';B'), (0, '"rangeMappings":";B"'), (0, '"rangeMappings":"C;"')),
    'a token twice, then a range token': Trial(
        'write', record('A,A,C', rangeMappings='E'), (0, '"rangeMappings":"C"'), (0, '"rangeMappings":"E"')),
    'sixteen plain tokens and then a range token in one line': Trial(
        'write', record('A' + ',C' * 16, rangeMappings='AAQ'), (0, '"rangeMappings":"AAQ"'), (101, '')),
    'a section at (4294967295,0), source `a.js`, mappings `;AAAA`': Trial(
        'flatten', index((2**32 - 1, 0, 'a.js', ';AAAA')), (1, PAST_THE_END), (0, '"mappings":"AAAA"')),
    'a section at (0,4294967295), source `a.js`, mappings `CAAA`, then one without a map': Trial(
        'flatten', index((0, 2**32 - 1, 'a.js', 'CAAA'), (1, 0, '', None)), (1, PAST_THE_END),
        (1, 'cannot flatten the indexed sourcemap: Section has an unresolved sourcemap: <unknown url>')),
    'two sections at (0,0), sources `a.js` and `b.js`, each with mappings `AAAA` and then `,CAAA` 20 times': Trial(
        'flatten', index(*((0, 0, source, 'AAAA' + ',CAAA' * 20) for source in ('a.js', 'b.js'))),
        (0, '"mappings":"AAAA,ACAA' + ',CDAA,ACAA' * 20 + '"'), (0, has_the_same_steps)),
    '`{"sections":[],"x_facebook_offsets":[5,null],"x_metro_module_paths":["a.js"]}`': Trial(
        'shift 0', b'{"sections":[],"x_facebook_offsets":[5,null],"x_metro_module_paths":["a.js"]}',
        (0, '{"sections":[],"sources":null,"version":3,"x_facebook_offsets":[5,null],"x_metro_module_paths":["a.js"]}'),
        (0, '{"sections":[],"sources":null,"version":3}')),
    '`{"mappings":"ACAA","sources":["a.js","b.js"],"x_facebook_sources":[]}`, rewritten as a Hermes map': Trial(
        'rewrite', b'{"mappings":"ACAA","sources":["a.js","b.js"],"x_facebook_sources":[]}',
        (0, '"x_facebook_sources":[null]'), (0, '"x_facebook_sources":[]')),
    '`{"mappings":"ACAA,CDAA","sources":["a.js","b.js"],"x_facebook_sources":[[{"mappings":"AAA","names":["f"]}]]}`, the same': Trial(
        'rewrite', b'{"mappings":"ACAA,CDAA","sources":["a.js","b.js"],"x_facebook_sources":[[{"mappings":"AAA","names":["f"]}]]}',
        (0, '"x_facebook_sources":[null,[{"mappings":"AAA","names":["f"]}]]'),
        (0, '"x_facebook_sources":[[{"mappings":"AAA","names":["f"]}]]')),
    '`{"mappings":"ACAA","sources":["a.js","b.js"],"x_facebook_sources":[null]}`, the same': Trial(
        'rewrite', b'{"mappings":"ACAA","sources":["a.js","b.js"],"x_facebook_sources":[null]}',
        (0, '"x_facebook_sources":[null]'), (101, '')),
    'originals at (0,0) and (0,1), an adjustment at (0,4294967295) that comes from (0,0)': Trial(
        'compose', record('AAAA,CAAC'), (1, 'encountered incompatible sourcemap format'),
        (0, '"mappings":"AAAC,+/////HAAD"'), record('+/////HAAA')),
    'a range token at (0,0) from column 7 of its source, an adjustment at (5,0) that comes from (0,10)': Trial(
        'compose', record('AAAO', rangeMappings='B'), (0, '"mappings":";;;;;AAAiB"'), (0, '"mappings":";;;;;AAAO"'),
        record(';;;;;AAAU')),
    COVERED: Trial(
        'compose', record('AAAA,CAAC'), (0, '"mappings":"+BAAC,CAAD"'), (0, is_covered_by_others),
        record('AAAC' + ',CAAA' * 31 + ',CAAD')),
    'JSON keys': Trial(
        'rewrite', record('AAAA'), (0, '{"mappings":"AAAA","names":[],"sources":["a.js"],"version":3}\n'),
        (0, '{"version":3,"sources":["a.js"],"names":[],"mappings":"AAAA"}\n')),
}

INVALID_SECTION = {'sections': [{'offset': {'line': 0, 'column': 0}, 'map': {'mappings': 'A!'}}]}
TWO_TEXTS = 'a data URL of `e30=IA==` (two texts in base64, put end to end)'
ASKED = {
    'the function at 0 of `{"mappings":"AADA","sources":["a.js"],"x_facebook_sources":[[{"mappings":"AAA","names":["f"]}]]}`': Asked(
        question_of('names', {'mappings': 'AADA', 'sources': ['a.js'], 'x_facebook_sources': [[{'mappings': 'AAA', 'names': ['f']}]]},
                    question=[0, 0, None]), '"f"', 'null'),
    'text `function`, mappings `AAAAA`, name `foo`: the name of `function` at (0,1)': Asked(
        question_of('names', named_record('AAAAA'), 'function', [0, 1, 'function']), 'null', '"foo"'),
    'text `function b👌;`, mappings `AAAA,SAAAA,EAAA`, name `foo`: the name of `b` at (0,11)': Asked(
        question_of('names', named_record('AAAA,SAAAA,EAAA'), 'function b👌;', [0, 11, 'b']), '"foo"', 'null'),
    'text `function x` with U+037A for `x`, mappings `AAAA,SAAAA`, name `foo`: the name of that letter at (0,9)': Asked(
        question_of('names', named_record('AAAA,SAAAA'), 'function \u037a', [0, 9, '\u037a']), 'null', '"foo"'),
    'view `abc`, slice (0,1,4294967295)': Asked(
        question_of('slices', None, 'abc', [0, 1, 2**32 - 1]), 'null', '""'),
    '`SourceMap::from_slice` of `{"sections":[{"offset":{"line":0,"column":0},"map":{"mappings":"A!"}}]}`': Asked(
        question_of('regular', INVALID_SECTION), 'encountered incompatible sourcemap format', 'leftover cur/shift in vlq decode'),
    TWO_TEXTS: Asked(
        question_of('url', None, 'data:application/json;base64,e30=IA=='), 'the provided data URL is invalid', 'none'),
    'sources `a.js`, `a.js`, mappings `AAAA,ACAA`, the two tokens compared by `==`': Asked(
        question_of('equal', named_record('AAAA,ACAA', sources=['a.js', 'a.js'])), 'true', 'false'),
    '`SourceMapIndex::from_slice` or `from_reader` of `{"mappings":"A!"}`': Asked(
        question_of('sections', {'mappings': 'A!'}), 'encountered incompatible sourcemap format', 'leftover cur/shift in vlq decode'),
    'a writer that refuses': Asked(
        question_of('refused', named_record('AAAA')), 'broken pipe', 'bad json: broken pipe'),
    'reference `c` by the path `/a/../b.js`': Asked(reference_question('path', 'c', '/a/../b.js'), '"/c"', '"/a/../c"'),
    'reference `/c` by the path `/C:/b.js`': Asked(reference_question('path', '/c', '/C:/b.js'), '"/c"', '"/C:/c"'),
    'reference `http://localhost/c` by the path `/b.js`': Asked(reference_question('path', 'http://localhost/c', '/b.js'), 'null', '"/c"'),
    'reference `%ff` by the path `/b.js`': Asked(reference_question('path', '%ff', '/b.js'), 'null', '"/\u00ff"'),
    'reference `./c:` by the path `/b.js`': Asked(reference_question('path', './c:', '/b.js'), '"/c:"', '"/c:/"'),
    'reference `^` by `http://x.com/`': Asked(reference_question('resolve', '^', 'http://x.com/'), '"http://x.com/%5E"', '"http://x.com/^"'),
    'reference `///y.com` by `http://x.com/`': Asked(reference_question('resolve', '///y.com', 'http://x.com/'), '"http://y.com/"', 'null'),
    'reference `\\c` by `x:/a/b`': Asked(reference_question('resolve', '\\c', 'x:/a/b'), '"x:/a/\\\\c"', '"x:/c"'),
    'reference `file:////c` by `http://x.com/`': Asked(reference_question('resolve', 'file:////c', 'http://x.com/'), '"file:////c"', '"file:///c"'),
    'reference `/C:` by `file://y/b`': Asked(reference_question('resolve', '/C:', 'file://y/b'), '"file://y/C:"', '"file:///C:"'),
    'the way from `/a/b.js` to `/c/d.js`': Asked(reference_question('relative', '/a/b.js', '/c/d.js'), '"../c/d.js"', '"../cd.js"'),
    'whether `{"sections":[],"sections":[]}` is a map': Asked(
        reference_question('map', '{"sections":[],"sections":[]}'), '[true,true]', '[false,false]'),
    'whether `{"sections":["\\ud800"]}` is a map': Asked(reference_question('map', '{"sections":["\\ud800"]}'), '[false,false]', '[true,true]'),
    'whether `[null,null,null,null,null,[],null,null]` is a map': Asked(
        reference_question('map', '[null,null,null,null,null,[],null,null]'), '[false,false]', '[true,true]'),
    'contents loaded of the source `gone` from `/`: their count': Asked(
        reference_question('load', '/', None, [['gone', None]]), '[0,null]', '[1,null]'),
    'contents loaded of the source `proc/sys/kernel/ostype` from `/`, with the base path `gone/..`': Asked(
        reference_question('load', '/', 'gone/..', [['proc/sys/kernel/ostype', None]]), '[1,"Linux\\n"]', '[1,null]'),
    'contents loaded of the source `dev/null` from `/`': Asked(
        reference_question('load', '/', None, [['dev/null', None]]), '[0,null]', '[1,""]'),
    'contents to be read from files, by the options of a rewriting, without `current_dir`': Asked(
        question_of('contents', named_record('AAAA')), 'invalid input parameter', 'none'),
    'what the paths `/a`, `C:/a`, `/a/b` have in common': Asked(
        reference_question('cut', None, None, [['/a', None], ['C:/a', None], ['/a/b', None]]),
        '[["/a",null],["C:/a",null],["/a/b",null]]', '[["/a",null],["C:/a",null],["b",null]]'),
    'a file bundle with `+1.js` in `js-modules`': Asked(
        bundle_question('folder', folder_of('+1.js'), [1]), compact([True, NO_INDEX]),
        compact([True, ['Unbundle', 2, ['main'], [[1, '+1.js']], [[1, '+1.js']]]])),
    'one with `18446744073709551615.js`': Asked(
        bundle_question('folder', folder_of('18446744073709551615.js'), [0]), compact([True, NO_INDEX]),
        compact([True, ['Unbundle', 0, ['main'], [None], []]])),
    'one with `1.js` and `01.js`': Asked(
        bundle_question('folder', folder_of(*ZEROS), [0]),
        compact([True, ['Unbundle', 5, ['main'], [None], [[number, f'{number}.js'] for number in range(1, 5)]]]), has_listed_others),
    'one with a name that is not UTF-8': Asked(
        bundle_question('folder', folder_of('\udcff.js'), [0]), compact([True, 'InvalidFilename']), compact([True, NO_INDEX])),
    '11 bytes as an indexed bundle: the text of the error': Asked(
        bundle_question('modules', 'x' * 11, [0]), compact([False, 'parse error: 0+12 past 11']), compact([False, 'Scroll'])),
    'the module `xyz` by mappings `;;;;;AAAA,EAAE`': Asked(
        split_question('xyz', ';;;;;AAAA,EAAE'), split_into('xyz', (0, 0), (0, 2)), split_into('xyz', (0, 2))),
    'the same with range bits `;;;;;C`': Asked(
        split_question('xyz', ';;;;;AAAA,EAAE', rangeMappings=';;;;;C'), split_into('xyz', (0, 0), (0, 2, 'range')), split_into('xyz', (0, 2))),
    'the module of two lines `abcde` and `fg` by mappings `;;;;;AAAA,CAAC,GAAG;AAAJ`': Asked(
        split_question('abcde\nfg', ';;;;;AAAA,CAAC,GAAG;AAAJ'), split_into('abcde\nfg', (0, 0), (0, 1), (0, 4), (1, 0)),
        split_into('abcde\nfg', (0, 1))),
    'the module of two lines `xyz` and `xyz` at line 4294967295, by mappings `AAAA,CAAC` at that line': Asked(
        split_question('xyz\nxyz', 'AAAA,CAAC', 2**32 - 1, 2**32 - 1), split_into('xyz\nxyz', (0, 0), (0, 1)), split_into('xyz\nxyz')),
    BUILT: Asked(
        Case('built', 'built', None, None, [[1, 0], *([column, original] for original in range(1, 33, 2) for column in (0, 1))], 1),
        ' '.join([*(f'0:{original}' for original in range(1, 33, 2)), '1:0', *(f'1:{original}' for original in range(1, 33, 2))]) + ' ', is_shuffled),
}


def rows():
    """Yields the first and the last column of each row, in the tables whose last column is `Tried by`."""
    is_tried = False
    for line in DOCUMENT.read_text().splitlines():
        columns = [column.strip() for column in line.strip('|').split(' | ')]
        if not line.startswith('|'):
            is_tried = False
        elif columns[-1] == 'Tried by':
            is_tried = True
        elif is_tried and set(line) != set('|-'):
            yield columns[0], columns[-1].strip('`')


def commands(word, title, reference):
    """The command lines of both programs. The reference prints the keys of a JSON object in alphabetical order, except
    for the row about this order."""
    if word == 'write':
        return [BENCH, 'write'], [reference, 'roundtrip']
    if title == 'JSON keys':
        return [TOOL, word], [reference, 'stream', word]
    return [TOOL, *word.split()], [reference, *word.split()]


def with_file(commands, text):
    """Yields both command lines. If there is a text, the path of a file with this text is the last argument. The file
    exists as long as the caller iterates."""
    with tempfile.NamedTemporaryFile() as file:
        file.write(text or b'')
        file.flush()
        yield from ([*command, *([file.name] if text else [])] for command in commands)


def answer(command, data):
    given = {'stdin': data()} if callable(data) else {'input': data}
    ended = subprocess.run(command, stdout=subprocess.PIPE, stderr=subprocess.DEVNULL, **given)
    if 'stdin' in given:
        os.close(given['stdin'])
    return ended.returncode, ended.stdout


def is_as_described(due, status, text, other):
    if callable(due[1]):
        return status == due[0] and text != other and due[1](other, text)
    return status == due[0] and due[1].encode() in text


def wrong(title, trial, reference):
    """The title and both answers, if one of them is not as the row says. Otherwise None."""
    both = with_file(commands(trial.word, title, reference), trial.file)
    here, there = (answer(command, trial.data) for command in both)
    if is_as_described(trial.here, *here, b'') and is_as_described(trial.there, *there, here[1]):
        return None
    return f'{title}\n    here  {here}\n    there {there}'


def wrong_answers(reference):
    """Yields the title and both answers of each row of `ASKED` whose answers are not as it says."""
    all_here = answers_here([row.case for row in ASKED.values()])
    for (title, row), here in zip(ASKED.items(), all_here):
        there = answers_there(reference, row.case)
        is_so = row.there(here[0], there[0]) if callable(row.there) else there[:1] == [row.there]
        if here[0] != row.here or not is_so:
            yield f'{title}\n    here  {here}\n    there {there}'


def main():
    words = argparse.ArgumentParser(usage=__doc__)
    words.add_argument('reference')
    given = words.parse_args()
    build_missing()
    reference = reference_program(given.reference)
    described = dict(rows())
    tried = {title: trial.word.split()[0] for title, trial in TRIALS.items()}
    tried.update((title, row.case.word) for title, row in ASKED.items())
    failures = [f'no trial by {word}: {title}' for title, word in described.items()
              if word != 'none' and tried.get(title) != word]
    failures += [f'no row: {title}' for title in tried if described.get(title, 'none') == 'none']
    failures += filter(None, (wrong(title, trial, reference) for title, trial in TRIALS.items()))
    failures += wrong_answers(reference)
    for failure in failures:
        print(failure)
    print(f'{len(described)} rows, {len(tried)} tried, {len(failures)} failed')
    sys.exit(1 if failures else 0)


main()
