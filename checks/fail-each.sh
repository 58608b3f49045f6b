#!/usr/bin/env bash
# Reruns the tests and the program, and makes allocations, reads and writes fail. Fails each allocation
# in turn: once this one alone, and once this one and all later ones. Also fails and interrupts each read
# and each write in turn, and lets them move one byte or none.
#
#   checks/fail-each.sh [--build] [--millis N] [--jobs N] [CRATE ..]
#
# Uses the tests and the program that `rt ci` has proved and built in the folder `out` of each crate. With
# --build the script first proves and builds those that are missing. CRATE is a crate with tests, or
# `sourcemap_tool` for the program. Without CRATE the script takes all of them. `failing.py` says how a run
# may end.
#
# For each way to fail, each call of a test or of a command fails in turn. If this would take more than N
# processor milliseconds, only some of the calls fail, spread over all, but at least 40. The number of the
# other calls is printed. N is 4000 by default.
#
# The last line is `N passed, M failed`, and counts runs. The exit status is 1 if a run failed, or if none
# passed. If a program is not built, is older than its sources or cannot be started, or if no C compiler
# works, this counts as a failed run.
#
# Needs a C compiler (CC, or else cc, gcc or clang) and Python 3.8.
set -euo pipefail
here=$(cd "$(dirname "$0")" && pwd)
work=$(mktemp -d)
trap 'rm -rf "$work"' EXIT
exec < /dev/null
for compiler in "${CC:-}" cc gcc clang; do
    [ -n "$compiler" ] || continue
    if "$compiler" -shared -fPIC -O1 -o "$work/failing.so" "$here/failing.c" -ldl 2> "$work/why"; then
        # its own process group, so that the trap ends the runs too
        set -m
        TMPDIR=$work python3 "$here/failing.py" "$work" "$@" &
        trap 'kill -- -$!; exit 1' INT TERM HUP
        status=0
        wait $! || status=$?
        exit "$status"
    fi
done
cat "$work/why" >&2
echo "nothing is tried: no C compiler makes a library of failing.c"
echo "0 passed, 1 failed"
exit 1
