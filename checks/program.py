#!/usr/bin/env python3
"""Tests how the program ends if an argument is not UTF-8, if the reader of its output closes the pipe, if an
output or an input fails, and if there is no memory to read its arguments. Also tests the wrapper `sourcemap`: through
a symbolic link, from another folder, if no program is built, and if a source changed after the build.

    checks/program.py

If the program is missing, it is built first. SOURCEMAP_TOOL in the environment names another program, but not for the
wrapper. Each trial that does not end as expected is printed, and then the status is 1.
"""
import os, pathlib, resource, shutil, subprocess, sys, tempfile
sys.path.insert(0, str(pathlib.Path(__file__).resolve().parent.parent / 'compare'))
from comparing import CRATES, TOOL, build_missing

HOME = CRATES.parent
MAP = HOME / 'examples/readme.map'
USAGE = (b'usage: lookup [--from-1] LINE COL | tokens | rewrite | flatten | compose FILE | shift ROWS'
         b' | trace [--from-1] FILE | compile [--without-contents]'
         b' | check [--json] [--strict] [--generated FILE] [--name NAME] [--sources DIR]\n')
WRAPPER_USAGE = b'usage: sourcemap WORDS < MAP'
ANSWER = b'coolstuff.js:0:4 name=x\n'
LOOKUP = [b'lookup', b'0', b'5']
MISSING = b'No such file or directory (os error 2)\n'
STUB = '''#!/bin/sh
if [ "$1" = run ]; then
    mkdir -p out
    printf '#!/bin/sh\\necho built\\n' > out/sourcemap_tool
    chmod +x out/sourcemap_tool
else
    echo unproved
    echo run=ended >&2
fi
'''
COMPOSED = b'{"mappings":"","names":["x","alert"],"sources":["coolstuff.js"],"version":3}\n'


def run_on_map(command, **more):
    """Runs a command on the map. Returns its status, standard output and standard error."""
    with open(MAP, 'rb') as given:
        streams = {'stdin': given, 'stdout': subprocess.PIPE, 'stderr': subprocess.PIPE, **more}
        result = subprocess.run(command, timeout=600, **streams)
    return result.returncode, result.stdout or b'', result.stderr or b''


def without_reader(words):
    """A run whose output is a pipe without a reader."""
    reader, writer = os.pipe()
    os.close(reader)
    try:
        return run_on_map([TOOL, *words], stdout=writer)
    finally:
        os.close(writer)


def on_full_device(words):
    with open('/dev/full', 'wb') as full:
        return run_on_map([TOOL, *words], stdout=full)


def on_closed(words, streams):
    return run_on_map(['bash', '-c', f'exec "$0" "$@" {streams}', TOOL, *words])


def through_link(words):
    """A run of the wrapper in another folder, through a symbolic link. File names are relative to that folder."""
    with tempfile.TemporaryDirectory() as folder:
        link = pathlib.Path(folder, 'link')
        link.symlink_to(HOME / 'sourcemap')
        pathlib.Path(folder, 'here.map').write_bytes(MAP.read_bytes())
        pathlib.Path(folder, 'empty.map').write_text('{}')
        pathlib.Path(folder, 'inner').mkdir()
        return run_on_map(['bash', '-c', 'exec ../link "$@" < ../here.map', 'bash', *words], cwd=f'{folder}/inner')


def copy_tracked(folder):
    """Copies the files that git tracks. No program is built there."""
    listed = subprocess.run(['git', 'ls-files', '-z'], cwd=HOME, check=True, stdout=subprocess.PIPE).stdout
    # a checkout may lack files that git tracks
    for name in filter(lambda name: (HOME / name).is_file(), os.fsdecode(listed).split('\0')):
        copy = pathlib.Path(folder, name)
        copy.parent.mkdir(parents=True, exist_ok=True)
        shutil.copy(HOME / name, copy)


def run_unbuilt(words):
    """Runs the wrapper on the map in a copy in which no program is built. Returns the status, the first line of standard
    output, and standard error."""
    with tempfile.TemporaryDirectory() as folder:
        copy_tracked(folder)
        status, printed, errors = run_on_map([f'{folder}/sourcemap', *words])
    return status, printed.split(b'\n')[0], errors


def answered_after(change):
    """What the wrapper prints in a copy after a change, which gets the path of a source. There a stub stands for rt: its
    program prints `built`, and its unproved program prints `unproved`."""
    with tempfile.TemporaryDirectory() as folder:
        copy_tracked(folder)
        stub = pathlib.Path(folder, 'stub/rt')
        stub.parent.mkdir()
        stub.write_text(STUB)
        stub.chmod(0o755)
        path = {**os.environ, 'PATH': f'{stub.parent}:{os.environ["PATH"]}'}
        for words in (['--build'], ['tokens']):
            run_on_map([f'{folder}/sourcemap', *words], env=path)
        change(pathlib.Path(folder, 'crates/sourcemap_vlq/src/lib.rt'))
        return run_on_map([f'{folder}/sourcemap', 'tokens'], env=path)[1]


def run_unproved(words):
    """Runs the wrapper in the same way, with words that the program answers. Returns the status, the first line of
    standard output, the number of lines on standard error, and whether they name the command that proves and builds."""
    status, printed, errors = run_unbuilt(words)
    return status, printed, len(errors.splitlines()), b'/sourcemap --build\'' in errors


def within(kilobytes):
    """A run with at most this much address space, in units of 1024 bytes. None if it cannot be started."""
    limit = kilobytes << 10
    try:
        return run_on_map([TOOL, *LOOKUP], preexec_fn=lambda: resource.setrlimit(resource.RLIMIT_AS, (limit, limit)))
    except (OSError, subprocess.SubprocessError):
        return None


def short_of_memory():
    """The first run that the program itself ends, of runs with more and more memory. With less memory, the system or
    the loader ends a run. The returned run should have no memory left for allocations of the program."""
    runs = map(within, range(512, 1 << 20, 16))
    return next(run for run in runs if run and run[0] in (0, 1))


# The name of a trial, what it runs, and how this should end.
TRIALS = [
    ('an answer', lambda: run_on_map([TOOL, *LOOKUP]), (0, ANSWER, b'')),
    ('a word that is not UTF-8', lambda: run_on_map([TOOL, b'lookup', b'0', b'\xff']), (2, USAGE, b'')),
    ('no words', lambda: run_on_map([TOOL]), (2, USAGE, b'')),
    ('a reader that has gone away', lambda: without_reader([b'tokens']), (1, b'', b'')),
    ('the same at the usage', lambda: without_reader([b'tokens', b'0']), (1, b'', b'')),
    ('a full device', lambda: on_full_device(LOOKUP), (1, b'', b'No space left on device (os error 28)\n')),
    ('a closed output', lambda: on_closed(LOOKUP, '>&-'), (1, b'', b'Bad file descriptor (os error 9)\n')),
    ('all outputs closed', lambda: on_closed(LOOKUP, '>&- 2>&-'), (1, b'', b'')),
    ('a closed input', lambda: on_closed(LOOKUP, '<&-'), (1, b'Bad file descriptor (os error 9)\n', b'')),
    ('a folder as input', lambda: on_closed(LOOKUP, '< /'), (1, b'Is a directory (os error 21)\n', b'')),
    ('the wrapper through a link', lambda: through_link(LOOKUP), (0, ANSWER, b'')),
    ('a second map, named from the folder of the caller', lambda: through_link([b'compose', b'../empty.map']),
     (0, COMPOSED, b'')),
    ('a second map that is missing', lambda: run_on_map([TOOL, b'compose', b'no.map']), (1, MISSING, b'')),
    ('a folder as a second map', lambda: run_on_map([TOOL, b'compose', b'/']),
     (1, b'Is a directory (os error 21)\n', b'')),
    ('a word that is not UTF-8 through it', lambda: through_link([b'lookup', b'0', b'\xff']), (2, USAGE, b'')),
    ('--help where nothing is built', lambda: run_unbuilt(['--help']), (0, WRAPPER_USAGE, b'')),
    ('no words where nothing is built', lambda: run_unbuilt([]), (2, WRAPPER_USAGE, b'')),
    ('an answer where nothing is built', lambda: run_unproved(LOOKUP), (0, ANSWER.strip(), 1, True)),
    ('other words where nothing is built', lambda: run_unproved([b'lookup', b'0']), (2, USAGE.strip(), 1, True)),
    ('no source changed', lambda: answered_after(lambda source: None), b'built\n'),
    ('a source was edited', lambda: answered_after(lambda source: source.write_text('')), b'unproved\n'),
    ('a source was removed', lambda: answered_after(lambda source: source.unlink()), b'unproved\n'),
    ('an old source was added', lambda: answered_after(lambda source: shutil.copy2(source, source.with_name('a.rt'))),
     b'unproved\n'),
    ('a test was edited', lambda: answered_after(lambda source: (source.parents[2] / 'sourcemap_map_tests/src/lib.rt').write_text('')),
     b'built\n'),
    ('out of memory before the run begins', short_of_memory, (1, b'', b'out of memory\n')),
]


def main():
    build_missing([TOOL])
    failures = 0
    for name, run, want in TRIALS:
        result = run()
        if result != want:
            failures += 1
            print(f'{name}: {result}, and not {want}')
    print(f'{len(TRIALS) - failures} as they should be, {failures} not')
    return 1 if failures else 0


if __name__ == '__main__':
    sys.exit(main())
