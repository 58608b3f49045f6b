#!/usr/bin/env python3
"""Checks whether each must-fail edit can be applied.

    checks/edits.py

The edits are crates/CRATE/must-fail/*.edit, which `rt ci` tries, and checks/edits/CRATE/*.edit, which `checks/try-edits`
tries. Each says what to change in crates/CRATE. An edit is tried only if the text of each `old:` line occurs exactly
once in the file that the `file:` line before it names. `rt ci` prints a note for any other edit, and does not fail. So
a reworded line could switch an edit off. Then this script fails. It also fails if a crate has two edits of one name, or
if there are no edits. Its last line is `N passed, M failed`, of edits."""
import pathlib, sys

TOP = pathlib.Path(__file__).resolve().parent.parent
CRATES = TOP / 'crates'


def reasons_against(crate, edit):
    """The reasons why an edit of a crate cannot be applied."""
    path, old, pairs = None, None, 0
    for line in edit.read_text().splitlines():
        if line.startswith('file: '):
            path = crate / line.removeprefix('file: ').strip()
            if not path.is_file():
                yield f'there is no file {path.name}'
                return
        elif line.startswith('old: '):
            old = line.removeprefix('old: ')
            count = path.read_text().count(old) if path else 0
            if count != 1:
                yield f'{count} times in the file: {old.strip()}'
        elif line.startswith('new:') and old is not None:
            if line.removeprefix('new:').removeprefix(' ') == old:
                yield f'changes nothing: {old.strip()}'
            old, pairs = None, pairs + 1
    if pairs == 0:
        yield 'has no pair of `old:` and `new:`'


def main():
    edits = [(edit.parent.parent, edit) for edit in sorted(CRATES.glob('*/must-fail/*.edit'))]
    edits += [(CRATES / edit.parent.name, edit) for edit in sorted((TOP / 'checks/edits').glob('*/*.edit'))]
    names, failed = set(), 0
    for crate, edit in edits:
        reasons = list(reasons_against(crate, edit))
        if (crate, edit.name) in names:
            reasons.append('there is another edit of this name')
        names.add((crate, edit.name))
        failed += bool(reasons)
        for reason in reasons:
            print(f'{edit.relative_to(TOP)}: {reason}')
    print(f'{len(edits) - failed} passed, {failed} failed')
    return 1 if failed or not edits else 0


sys.exit(main())
