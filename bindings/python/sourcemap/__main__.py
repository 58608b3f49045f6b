"""The package as a program: `python -m sourcemap lookup|tokens|check|stack|page|batch`."""
from __future__ import annotations

import argparse
import gc
import os
import sys
from pathlib import Path
from typing import List, Optional

from . import Map, SourceMapError, batch, page, stack
from . import check as check_bytes
from ._generated import reason_of


def read_map(path: str) -> Map:
    """Reads the map in a file, or on standard input if the path is `-`."""
    return Map(sys.stdin.buffer.read()) if path == '-' else Map.load(path)


def lookup(arguments: argparse.Namespace) -> int:
    with read_map(arguments.map) as map:
        text = map.lookup_text(arguments.line, arguments.column)
    print('none' if text is None else text)
    return 0


def tokens(arguments: argparse.Namespace) -> int:
    with read_map(arguments.map) as map:
        for token in map:
            kind = ' range' if token.is_range else ''
            print(f'{token.generated_line}:{token.generated_column} {token}{kind}')
    return 0


def name_of(arguments: argparse.Namespace) -> Optional[str]:
    """The name of the map's file, None if it has none, or one that is not UTF-8."""
    path = '' if arguments.map == '-' else arguments.map
    name: str = os.path.basename(path) if arguments.name is None else arguments.name
    try:
        name.encode()
    except UnicodeEncodeError:
        return None
    return name or None


def check(arguments: argparse.Namespace) -> int:
    """Prints a line for each finding, as compilers print them, and a line with counts. The status is 1 if the map is not
    valid, or with `--strict` if anything was found."""
    data = sys.stdin.buffer.read() if arguments.map == '-' else Path(arguments.map).read_bytes()
    generated = None if arguments.generated is None else Path(arguments.generated).read_bytes()
    report = check_bytes(data, generated, name=name_of(arguments), sources=arguments.sources, most=arguments.most)
    for finding in report.findings:
        print(f'{arguments.map}:{finding}')
    print(f'{report.invalid} invalid, {report.suspicious} suspicious, {len(report.findings)} shown')
    return int(not report.is_valid or (arguments.strict and report.suspicious > 0))


def parser() -> argparse.ArgumentParser:
    """The parser of the commands and their arguments."""
    program = argparse.ArgumentParser(prog='python -m sourcemap', description='Ask a JavaScript source map.')
    words = program.add_subparsers(title='words', required=True, metavar='WORD')

    word = words.add_parser('lookup', help='print the original position of a generated one')
    word.add_argument('map', help='the map; - is standard input')
    word.add_argument('line', type=int, help='the generated line, counted from 0')
    word.add_argument('column', type=int, help='the generated column, counted from 0 in UTF-16 units')
    word.set_defaults(run=lookup)

    word = words.add_parser('tokens', help='print a line for each token')
    word.add_argument('map', help='the map; - is standard input')
    word.set_defaults(run=tokens)

    word = words.add_parser('check', help='print where a map breaks the standard, and what looks wrong in it')
    word.add_argument('map', help='the map; - is standard input')
    word.add_argument('--generated', metavar='FILE', help='the generated text, which is compared with the map')
    word.add_argument('--name', help="the name of the map's file, which the text is to refer to, if it is not that of MAP")
    word.add_argument('--sources', metavar='DIR', help='the folder of the files of sources, which are compared too')
    word.add_argument('--most', type=int, default=20, metavar='N', help='how many findings of each code to print (20)')
    word.add_argument('--strict', action='store_true', help='end with status 1 also if something looks wrong')
    word.set_defaults(run=check)

    word = words.add_parser('stack', help='print a JavaScript stack trace with its original positions')
    stack.add_arguments(word)
    word.set_defaults(run=stack.run)

    word = words.add_parser('page', help='write an HTML page that shows generated text and sources side by side')
    page.add_arguments(word)
    word.set_defaults(run=page.run)

    word = words.add_parser('batch', help='add the original position to each row of a table of frames')
    batch.add_arguments(word)
    word.set_defaults(run=batch.run)
    return program


def main(words: Optional[List[str]] = None) -> int:
    """Runs the program and returns its exit status. After an error, which is printed to standard error, it is 1. A line
    or a column that is out of range is such an error. After some errors of `stack` the status is 0: see `stack.run`. If
    the reader closes the pipe the status is 1, and nothing is printed. Arguments that the parser refuses raise
    `SystemExit` with the status 2."""
    arguments = parser().parse_args(words)
    try:
        status = int(arguments.run(arguments))
        sys.stdout.flush()
        return status
    except BrokenPipeError:
        # the reader closed the pipe: what is still buffered goes to /dev/null at exit
        os.dup2(os.open(os.devnull, os.O_WRONLY), sys.stdout.fileno())
        return 1
    except (OSError, ValueError, MemoryError, ImportError, SourceMapError) as error:
        print(f'sourcemap: {reason_of(error)}', file=sys.stderr)
        return 1


if __name__ == '__main__':
    status = main()
    # else Python looks for garbage among all that `batch` imported: 0.2 seconds
    gc.freeze()
    sys.exit(status)
