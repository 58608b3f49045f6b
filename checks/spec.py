#!/usr/bin/env python3
"""Runs the check over the tests of the standard in checks/spec-tests, and compares the codes.

    checks/spec.py [PROGRAM]      the built program, crates/sourcemap_tool/out/sourcemap_tool by default

A valid map breaks no rule and has status 0, whatever looks wrong in it. An invalid one has the codes of codes.tsv and
status 1.
"""

import json
import pathlib
import re
import subprocess
import sys

TOP = pathlib.Path(__file__).resolve().parent
TESTS = TOP / "spec-tests"
PROGRAM = TOP.parent / "crates/sourcemap_tool/out/sourcemap_tool"


def wanted_codes():
    rows = (TESTS / "codes.tsv").read_text().splitlines()
    return {name: set(codes.split()) for name, codes in (row.split("\t") for row in rows)}


def run(program, file):
    ended = subprocess.run([program, "check"], stdin=file.open("rb"), capture_output=True, timeout=60)
    return ended.returncode, set(re.findall(r": (SM1\d\d) ", ended.stdout.decode()))


def main():
    program = sys.argv[1] if len(sys.argv) > 1 else PROGRAM
    wanted = wanted_codes()
    tests = json.loads((TESTS / "source-map-spec-tests.json").read_text())["tests"]
    failed = 0
    for test in tests:
        name = test["name"]
        if test["sourceMapIsValid"] == (name in wanted):
            failed += 1
            print(f"{name}: codes.tsv contradicts the standard")
        status, codes = run(program, TESTS / "resources" / test["sourceMapFile"])
        due = wanted.get(name, set())
        if codes != due or status != (1 if due else 0):
            failed += 1
            print(f"{name}: {sorted(codes)}, status {status}, wanted {sorted(due)}")
    print(f"{len(tests) - failed} passed, {failed} failed")
    return 1 if failed else 0


if __name__ == "__main__":
    sys.exit(main())
