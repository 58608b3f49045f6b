#!/usr/bin/env python3
"""Runs the tests and the program while an allocation, a read or a write fails, and checks how each run ends. In each
run another call fails. `fail-each.sh` describes the options, and makes a library of `failing.c`. This library makes
the calls fail.

If an allocation of a test fails, the test may still pass, because the code under test needs no memory there or is
called again. Otherwise the test must end with an error that says that memory ran out. The test returns this error, or a
failed assertion prints it. A failed assertion that hides this cause counts as a failure. If a read or a write of a test
is interrupted, or moves one byte, the test must pass. If the read or write fails or moves nothing, the test must end by
itself.

If an allocation of the program fails, the program must give its usual answer, or print `out of memory` with status 1.
It prints this on standard output, or only on standard error if the run has not begun yet. A read or a write that is
interrupted or short must change nothing. If a read fails, the status must be 1, and the output the text of the error.
If a read returns the end of the file early, the answer must be that for the part of the input, or of the file, that was
read. If a write fails or moves nothing, the status must be 1, and standard output must have what was written before.
Standard error must have the error, if it can be written.
"""
import argparse, collections, concurrent.futures, os, pathlib, re, resource, subprocess, sys, tempfile
sys.path.insert(0, str(pathlib.Path(__file__).resolve().parent.parent / 'compare'))
import compiled_map

CRATES = pathlib.Path(__file__).resolve().parent.parent / 'crates'
TOOL = 'sourcemap_tool'
ABORTED = 128 + 6
TIMED_OUT = 128 + 14
# the statuses of a test that ends by itself: it passes, returns an error or fails an assertion
ENDED = (0, 101, ABORTED)
# the out-of-memory error that a test returns, or that a failed assertion prints
OUT_OF_MEMORY = re.compile(
    rb'^[Ee]rror: .*(OutOfMemory|AllocError|AllocFailed|out of memory)|: OutOfMemory\s*\Z|^ *left: "out of memory"$'
    rb'|(Err\(|: Ok\(")[^\n]*(OutOfMemory|AllocError|AllocFailed|out of memory)[^\n]*\)\s*\Z', re.MULTILINE)

# the tests that allocate nothing; any other in which no allocation is intercepted was not swept
WITHOUT_MEMORY = {'sourcemap_hermes_tests indexed::tests_of_bytes', 'sourcemap_uses_tests uses::errors_have_advice',
                  'sourcemap_compiled_tests lookups::constants', 'sourcemap_compiled_tests lookups::debug_ids',
                  'sourcemap_compiled_tests lookups::getters_of_tokens', 'sourcemap_check_tests lists::contents_look_wrong'}

# what the kit adds to the message of a test that returned an error
RETURNED = re.compile(rb'\nthe test failed: its result gives status 1\s*\Z')

MAP = ('{"version":3,"sources":["coolstuff.js"],"names":["x","alert"],'
       '"mappings":"AAAA,GAAIA,GAAI,EACR,IAAIA,GAAK,EAAG,CACVC,MAAM"}')
FULL = ('{"version":3,"file":"out.js","sourceRoot":"/r","sources":["/a/x.js","b.js",null],"sourcesContent":["x\\n",null,"z"],'
        '"names":["m",1.5,7],"mappings":"AAAAA,CCAAC;;ACAO,E","rangeMappings":";;B","ignoreList":[1],'
        '"debugId":"01234567-89ab-cdef-0123-456789abcdef"}')
HERMES = ('{"sources":["a.js","b.js"],"mappings":"ACAA,CDAA","x_facebook_sources":[null,[{"names":["f","g"],'
          '"mappings":"AAA,KCC"}]]}')
INDEX = ('{"file":"f","sections":[{"offset":{"line":0,"column":0},"map":{"sources":["a.js"],"sourcesContent":["x"],'
         '"mappings":"AAAA"}},{"offset":{"line":10,"column":4},"map":{"sections":[{"offset":{"line":0,"column":1},"map":'
         '{"sources":["b.js"],"names":["n"],"mappings":"AAAAA;AAAA","ignoreList":[0],"x_facebook_sources":[null]}}]}}]}')
LINKED = '{"sections":[{"offset":{"line":1,"column":4},"url":"u"}]}'
LATER = '{"sources":["t.js"],"mappings":"EAAA,EAAI"}'
POSITIONS = '0:5\n0:18\nx\n1:0\n\n0:4294967296\n7:7'
POSITIONS_FROM_1 = '1:6\n1:19\nx\n2:1\n\n0:1\n8:8'

COMPILED = compiled_map.write(compiled_map.tokens_of('AAAA,GAAIA,GAAI;IAAIA'), ['a.js'], ['x'], 'out.js', ['y'])

# the texts of the errors EIO and ENOSPC
READ_ERROR = b'Input/output error (os error 5)\n'
WRITE_ERROR = b'No space left on device (os error 28)\n'

Case = collections.namedtuple('Case', 'words input file', defaults=('',))
# the arguments of a run, its input, a text or bytes, and the text of the file that the argument FILE stands for
CASES = [
    Case('lookup 0 5', MAP), Case('lookup 9 9', FULL), Case('lookup 10 9', INDEX), Case('lookup 0 1', HERMES),
    Case('tokens', MAP), Case('tokens', FULL), Case('tokens', INDEX),
    Case('rewrite', MAP), Case('rewrite', FULL), Case('rewrite', HERMES),
    Case('flatten', INDEX), Case('flatten', LINKED), Case('flatten', MAP),
    Case('shift 2', INDEX), Case('shift 4294967295', INDEX),
    Case('compose FILE', MAP, LATER), Case('compose FILE', FULL, MAP), Case('compose FILE', MAP, INDEX),
    Case('trace FILE', MAP, POSITIONS), Case('trace FILE', INDEX, POSITIONS),
    Case('lookup --from-1 1 6', MAP), Case('trace --from-1 FILE', INDEX, POSITIONS_FROM_1),
    Case('compile', FULL), Case('compile', HERMES), Case('compile --without-contents', INDEX), Case('compile', LINKED),
    Case('check', INDEX), Case('check --json', FULL), Case('check --strict', MAP), Case('check', HERMES),
    Case('check --json --generated FILE', FULL, 'x\n😀'),
    Case('check --generated FILE --name a.map', MAP, '//# sourceMappingURL=b.map'),
    Case('check --json --generated FILE --sources FILE', FULL, 'x\n😀'), Case('check --sources FILE', HERMES, ''),
    Case('lookup 0 4', COMPILED), Case('trace --from-1 FILE', COMPILED, POSITIONS_FROM_1),
    Case('lookup 0 4', COMPILED[:-1]), Case('trace FILE', COMPILED[:140] + b'\x01' + COMPILED[141:], POSITIONS),
    Case('lookup 0 0', ")]}'\r\n" + MAP), Case('lookup 0 0', ")]}'\r" + MAP), Case('lookup 0 0', '[]'),
    Case('lookup 0 0', '{"mappings":"A!"}'), Case('lookup 0', MAP), Case('compose gone.map', MAP),
]

# which calls fail, how they fail, and whether each read or write moves at most one byte
WAYS_OF_TESTS = [('allocation', 'fails', False), ('allocation', 'onward', False)] + [
    (call, how, is_short) for call in ('read', 'write') for how, is_short in
    (('fails', False), ('interrupted', False), ('ends', False), ('nothing', True), ('each_interrupted', False))]
WAYS_OF_RUNS = [('allocation', 'fails', False), ('allocation', 'onward', False)] + [
    (call, how, is_short) for call in ('read', 'write') for how in ('fails', 'interrupted', 'ends')
    for is_short in (False, True)] + [
    # the kit's writer gives up a text after about 64 interruptions, so writes of one byte are not interrupted each time
    ('read', 'nothing', True), ('read', 'each_interrupted', True),
    ('write', 'nothing', True), ('write', 'each_interrupted', False)]

Ending = collections.namedtuple('Ending', 'status output errors')


class Unswept(Exception):
    """A program is older than its sources, did not start, ended before its calls could fail, or listed no tests."""


class Failing:
    """Runs programs with calls that fail."""

    def __init__(self, library, millis):
        self.library, self.millis = library, millis

    def endings(self, command, folder, given, call, how, is_short):
        """The number of calls in a run in which none fails, and the ending of each run by the number of its failing
        call. Number 0 is the run in which no call fails."""
        env = {'PATH': '/usr/bin:/bin', 'LANG': 'C.UTF-8', 'LD_PRELOAD': self.library, 'FAILING_CALL': call,
               'FAILING_HOW': how, 'FAILING_INPUT': given, 'FAILING_MILLIS': str(self.millis), 'FAILING_SECONDS': '60'}
        if is_short:
            env['FAILING_SHORT'] = '1'
        ran = subprocess.run(command, env=env, cwd=folder, stdin=subprocess.DEVNULL, stdout=subprocess.PIPE,
                             stderr=subprocess.PIPE)
        if ran.returncode:
            raise Unswept(f'status {ran.returncode}, {ran.stderr.decode(errors="replace").strip()[-300:]!r}')
        first, *lines = ran.stdout.decode().splitlines()
        found = {}
        for line in lines:
            status, output, errors, *failed = line.split()
            ending = Ending(int(status), bytes.fromhex(output[1:]), bytes.fromhex(errors[1:]))
            found.update((int(number), ending) for number in failed)
        return int(first), found


def run(command, folder, given):
    """How a program ends if no call fails."""
    with open(given, 'rb') as it:
        ran = subprocess.run(command, cwd=folder, stdin=it, stdout=subprocess.PIPE, stderr=subprocess.PIPE,
                             env={'PATH': '/usr/bin:/bin', 'LANG': 'C.UTF-8'})
    return Ending(ran.returncode, ran.stdout, ran.stderr)


def is_test_well(way, ending, usual):
    call, how, _ = way
    if call == 'allocation':
        text = RETURNED.sub(b'', ending.output + ending.errors)
        return ending == usual or ending.status in (101, ABORTED) and bool(OUT_OF_MEMORY.search(text))
    if how in ('fails', 'ends'):
        return ending.status in ENDED
    return ending == usual


def is_memory(ending):
    return ending in (Ending(1, b'out of memory\n', b''), Ending(1, b'', b'out of memory\n'))


class Runs:
    """A case of the program, and how its runs may end."""

    def __init__(self, program, folder, case, at):
        self.program, self.folder, self.case = program, folder, case
        self.input, self.file = f'{folder}/{at}.input', f'{folder}/{at}.file'
        self.input_bytes = case.input if isinstance(case.input, bytes) else case.input.encode()
        self.file_bytes = case.file.encode()
        pathlib.Path(self.input).write_bytes(self.input_bytes)
        pathlib.Path(self.file).write_bytes(self.file_bytes)
        self.usual = run(self.command(self.file), folder, self.input)
        self.known = {}

    def command(self, file):
        return [self.program, *(file if word == 'FILE' else word for word in self.case.words.split())]

    def ends_after(self, count):
        """How the run ends if reads return `count` bytes of the input and then of the file, and then the end of a file.
        The end of the input itself counts as one byte."""
        size = len(self.input_bytes)
        given, file = self.input_bytes[:count], self.file_bytes[:max(count - size - 1, 0)]
        if (given, file) not in self.known:
            with tempfile.TemporaryDirectory(dir=self.folder) as folder:
                pathlib.Path(f'{folder}/input').write_bytes(given)
                pathlib.Path(f'{folder}/file').write_bytes(file)
                self.known[given, file] = run(self.command(f'{folder}/file'), folder, f'{folder}/input')
        return self.known[given, file]

    def ends_at(self, number, is_short):
        """How the run ends if read `number` and all later reads return the end of the file. If `is_short` is true, each
        earlier read returns one byte. Otherwise the reads return in turn the input, its end, the file and its end."""
        size = len(self.input_bytes)
        whole = [0, size, size + 1, size + 1 + len(self.file_bytes)]
        return self.ends_after(number - 1 if is_short else whole[min(number, 4) - 1])

    def is_well(self, way, number, ending):
        call, how, is_short = way
        if call == 'allocation':
            return ending == self.usual or is_memory(ending)
        if number == 0 or how in ('interrupted', 'each_interrupted', 'nothing'):
            return ending == self.usual
        if call == 'read':
            if how == 'ends':
                return ending == self.ends_at(number, is_short)
            return ending == Ending(1, READ_ERROR, b'')
        written = self.usual.output[:number - 1] if is_short else b''
        return ending == Ending(1, written, WRITE_ERROR if how == 'fails' else b'')


class Tally:
    """Counts runs that ended well, and runs that did not. Prints up to four of the latter for each test or command."""

    def __init__(self):
        self.passed = self.failed = self.left_out = 0
        self.printed = collections.Counter()

    def add_unswept(self, about, why):
        """Counts a sweep that could not be made as one failed run."""
        self.failed += 1
        print(f'{about}: not swept, {why}', flush=True)

    def add(self, about, way, calls, found, is_well):
        call, how, is_short = way
        if call == 'allocation' and calls == 0 and about not in WITHOUT_MEMORY:
            self.add_unswept(about, 'no allocation was intercepted')
        self.left_out += max(calls - len(found) + 1, 0) if how not in ('nothing', 'each_interrupted') else 0
        for number, ending in sorted(found.items()):
            if is_well(number, ending):
                self.passed += 1
                continue
            self.failed += 1
            self.printed[about] += 1
            if self.printed[about] <= 4:
                text = (ending.output + b' ' + ending.errors).decode(errors='replace').strip()
                print(f'{about}: {call} {number} of {calls}, {how}{", a byte each" if is_short else ""}: '
                      f'status {ending.status}, {text[-300:]!r}', flush=True)


def tests_of(program):
    listed = subprocess.run([program, '--list'], stdout=subprocess.PIPE, stderr=subprocess.PIPE, stdin=subprocess.DEVNULL)
    tests = [line.partition(': ')[0] for line in listed.stdout.decode().splitlines() if line.endswith(': test')]
    if listed.returncode or not tests:
        raise Unswept(f'status {listed.returncode}, and no tests are listed')
    return tests


def listed_crates():
    """The crates of crates.txt in their order, each with those that it names. Those of the kit name none."""
    lines = [line for line in (CRATES.parent / 'crates.txt').read_text().splitlines() if ':' in line and line[0] != '#']
    return {head.split()[0]: named.split() for head, _, named in (line.partition(':') for line in lines)}


def crates_with_tests():
    return [name for name in listed_crates()
            if any('#[test]' in file.read_text() for file in (CRATES / name).glob('src/**/*.rt'))]


def newer_source(name, program):
    """A source of the crate, or of one below it, that changed after the program was built, or None."""
    listed, known, waiting = listed_crates(), set(), [name]
    built = program.stat().st_mtime
    while waiting:
        crate = waiting.pop()
        if crate not in known:
            known.add(crate)
            waiting += listed.get(crate, [])
    sources = (file for crate in sorted(known) for file in (CRATES / crate).glob('src/**/*.rt'))
    return next((file for file in sources if file.stat().st_mtime > built), None)


def program_of(name):
    return CRATES / name / 'out' / (name if name == TOOL else f'{name}_tests')


def build(name):
    """Proves and builds a program, or tests, by running them."""
    words = ['rt', 'run', '--', 'lookup', '0', '0'] if name == TOOL else ['rt', 'test']
    subprocess.run(words, cwd=CRATES / name, stdin=subprocess.DEVNULL, stdout=sys.stderr)


def sweep_test(failing, program, test, way):
    with tempfile.TemporaryDirectory() as folder:
        calls, found = failing.endings([program, test], folder, '/dev/null', *way)
    usual = found[0]
    well = lambda number, ending: is_test_well(way, ending, usual) and usual.status == 0
    return way, calls, found, well


def sweep_run(failing, runs, way):
    calls, found = failing.endings(runs.command(runs.file), runs.folder, runs.input, *way)
    return way, calls, found, lambda number, ending: runs.is_well(way, number, ending)


def steps_of(name, work):
    """The sweeps of a crate's tests, or of the program."""
    program = str(program_of(name))
    changed = newer_source(name, program_of(name))
    if changed:
        raise Unswept(f'older than {changed.relative_to(CRATES)}')
    if name == TOOL:
        every = [Runs(program, work, case, at) for at, case in enumerate(CASES)]
        return [(f'{TOOL} {runs.case.words}', sweep_run, runs, way) for runs in every for way in WAYS_OF_RUNS]
    return [(f'{name} {test}', sweep_test, program, test, way) for test in tests_of(program) for way in WAYS_OF_TESTS]


def main():
    words = argparse.ArgumentParser(prog='fail-each.sh', description='See the head of fail-each.sh.')
    words.add_argument('work')
    words.add_argument('crates', nargs='*')
    words.add_argument('--build', action='store_true')
    words.add_argument('--millis', type=float, default=4000, metavar='N')
    words.add_argument('--jobs', type=int, default=os.cpu_count() or 1)
    given = words.parse_intermixed_args()
    failing, tally, steps = Failing(f'{given.work}/failing.so', given.millis), Tally(), []
    for name in given.crates or [*crates_with_tests(), TOOL]:
        if given.build and not program_of(name).exists():
            build(name)
        try:
            steps += steps_of(name, given.work)
        except (OSError, Unswept) as why:
            tally.add_unswept(name, f'not built: {program_of(name)}' if isinstance(why, FileNotFoundError) else why)
    with concurrent.futures.ThreadPoolExecutor(given.jobs) as pool:
        begun = {pool.submit(how, failing, *on): about for about, how, *on in steps}
        for done in concurrent.futures.as_completed(begun):
            try:
                tally.add(begun[done], *done.result())
            except (OSError, Unswept) as why:
                tally.add_unswept(begun[done], why)
    if tally.left_out:
        print(f'{tally.left_out} calls of long tests were left out')
    spent = resource.getrusage(resource.RUSAGE_CHILDREN)
    print(f'{(spent.ru_utime + spent.ru_stime) / 60:.1f} processor minutes')
    print(f'{tally.passed} passed, {tally.failed} failed')
    return tally.failed > 0 or tally.passed == 0


if __name__ == '__main__':
    sys.exit(main())
