#!/bin/sh
# Leaves the program as build/salimgub: the one that was built last, where it is newer than all sources, and else a new
# one, whose crates build.py proves first, several at a time. Meanwhile it says how many are done, and the minutes so far.
set -eu
cd "$(dirname "$0")"
program=crates/generator_cli/out/generator_cli

is_fresh() {
    [ -x "$program" ] || return 1
    newer=$(find crates.txt crates -name out -prune -o \
        -type f \( -name '*.rt' -o -name '*.antt' -o -name crates.txt \) -newer "$program" -print | head -n 1)
    [ -z "$newer" ]
}

mkdir -p build
if ! is_fresh; then
    for command in rt python3; do
        if ! command -v "$command" >/dev/null; then
            echo "build.sh: $command isn't on the path" >&2
            exit 1
        fi
    done
    # A program that is there already would stay as it is where only the sources' times have changed.
    rm -f "$program"
    python3 -B build.py
fi
# Under a new name first, so that a program that runs isn't written to.
cp "$program" build/salimgub.new
mv build/salimgub.new build/salimgub
