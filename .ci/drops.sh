#!/bin/sh
# Lets each allocation fail in turn while values that count their drops are put into an arena and taken out again: each
# must be dropped once, also where a growth finds no memory. The task `drops` of crates/layer_measure first takes and
# gives back as many pieces of memory as its second word says, so one build serves for all: allocation LAST fails, and a
# larger number moves the failure to the front of the run. A bad access stops the program. It is built with the tasks of
# an arena alone, in a copy, and nothing is proved here.
LAST=${1:-20}
cd "$(dirname "$0")/.." || exit 1
kept=$(mktemp -d) || exit 1
trap 'rm -rf "$kept"' EXIT
program=$kept/crates/arena_tasks
mkdir "$kept/inputs" && tar -cf - --exclude=out crates crates.txt HANDLES | tar -xf - -C "$kept" &&
    mkdir -p "$program/src" "$program/specs" "$program/proofs" && : >"$program/specs/Lib.antt" &&
    : >"$program/proofs/Lib.antt" && echo 'arena_tasks: slot_arena' >>"$kept/crates.txt" || exit 1
for module in arenas counted plain; do
    cp "crates/layer_measure/src/$module.rt" "$program/src" || exit 1
done
cat >"$program/src/main.rt" <<'END'
#![tactic(auto)]

mod arenas;
mod counted;
mod plain;

use std::{env, io};

fn main(rt: HostRuntime) -> io::Result<()> {
    let mut words = env::args(&rt)?;
    words.next();
    let (Some(task), Some(number)) = (words.next(), words.next()) else {
        return Ok(());
    };
    arenas::tell(&rt, task.as_str(), number.as_str())
}
END
for number in $(seq 0 "$LAST"); do
    : >"$kept/inputs/$number"
    echo "$number" >"$kept/inputs/$number.args"
done
cd "$program" || exit 1
rt try --cases "$kept/inputs" --fail-alloc "$LAST" -- drops >"$kept/out" 2>"$kept/log" || {
    tail -n 20 "$kept/log" >&2
    exit 1
}

# The failure lies behind the run where nothing goes before it, and within it somewhere.
grep -v '^== ' "$kept/out" | sort | uniq -c | tee "$kept/counts"
grep -qx ' *[0-9]* 200 dropped, 199 put in' "$kept/counts" &&
    sed -n '/^== 0$/{n;p;}' "$kept/out" | grep -qx '200 dropped, 200 put in' &&
    [ "$(grep -c '^200 dropped, ' "$kept/out")" = $((LAST + 1)) ]
