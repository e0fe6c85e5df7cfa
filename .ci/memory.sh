#!/bin/sh
# Lets each allocation of a run fail in turn, outside the gate: of `link` over packages, of `unlink`, `refresh`, `check` and
# `inject`, and of sessions with edits that are accepted and refused.
# The runs are those of files in crates/run_rows/data, tried by the proved program that the
# gate built: the first allocation fails, then the second, and so on to the last that the run makes. Prints how often the
# runs ended in which way; the first allocations are those with which the row itself is read. Of the session a second run
# is made, in which an edit is made again that found no memory. It needs a C compiler.
#
#     .ci/memory.sh [FILE]..
[ $# != 0 ] || set -- packages.txt memory_commands.txt session_commits.txt
here=$(cd "$(dirname "$0")" && pwd)
cd "$here/../crates/run_rows" || exit 1
program=$PWD/out/run_rows
[ -x "$program" ] || { echo "memory.sh: run_rows isn't built: rt ci builds it" >&2; exit 1; }
kept=$(mktemp -d) || exit 1
trap 'rm -rf "$kept"' EXIT
cc -O2 -shared -fPIC -o "$kept/fail.so" "$here/fail_allocation.c" -ldl || exit 1

# The ending of the run of a file in which this allocation fails: 0 for none, and then how many there are.
ending() {
    echo 0 | FAIL_ALLOCATION=$2 LD_PRELOAD=$kept/fail.so "$program" "$1"
}

# The endings of the runs of a file, each on a line.
endings() {
    ending "data/$1" 0 >"$kept/whole" 2>"$kept/count" || return 1
    count=$(cat "$kept/count")
    number=0
    while [ "$number" -lt "$count" ]; do
        number=$((number + 1))
        ending "data/$1" "$number" 2>&1 || echo "(status $?)"
    done >"$kept/out"
    echo "$1: $count allocations"
    sort "$kept/out" | uniq -c
    # A program that can't even read its words ends with 1.
    grep -qx done "$kept/whole" &&
        grep -qx memory "$kept/out" &&
        ! grep -e wrong -e '^(status [^1])' -e '^(status 1.)' "$kept/out"
}

failed=0
for file in "$@"; do
    endings "$file" || failed=1
done
exit "$failed"
