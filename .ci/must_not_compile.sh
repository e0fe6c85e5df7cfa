#!/bin/sh
# Programs that must not compile. A view lends a graph, so one that keeps a view while the graph is changed must not
# (must-not-compile/view_is_kept.txt, in four ways); only `outline` makes requests, only `resolve` a `Found`, and only a
# `Found` gives the module of an answer, so one that makes them by itself must not (requests_are_forged.txt,
# found_is_forged.txt, answer_is_forged.txt, each in two). In a copy of the crates each is tried twice: as it stands, it
# must be refused for that, at the lines that say so and at no other; and without the lines that make it an error it must
# compile and run. Nothing is proved here.
cd "$(dirname "$0")/.." || exit 1
kept=$(mktemp -d) || exit 1
trap 'rm -rf "$kept"' EXIT
tar -cf - --exclude=out crates crates.txt HANDLES | tar -xf - -C "$kept" || exit 1

# The lines at which the compiler finds an error of this kind; other errors count as line 0.
refused_at() {
    sed -n "s/^src\/main\.rt:\([0-9]*\):[0-9]*: error\[$1\].*/\1/p; t
s/^.*: error.*/0/p" "$2" | sort -nu
}

# A program, the crates that it uses, the kind of its errors, and the words behind which stands what makes it an error.
must_not_compile() {
    text=must-not-compile/$1.txt
    program=$kept/crates/$1
    mkdir -p "$program/src" "$program/specs" "$program/proofs" || exit 1
    : >"$program/specs/Lib.antt"
    : >"$program/proofs/Lib.antt"
    echo "$1: $2" >>"$kept/crates.txt"
    cp "$text" "$program/src/main.rt" || exit 1
    if (cd "$program" && rt try) >"$kept/log" 2>&1; then
        echo "$text compiled"
        exit 1
    fi
    grep -n '// is refused$' "$text" | cut -d: -f1 >"$kept/wanted"
    refused_at "$3" "$kept/log" >"$kept/found"
    if ! diff "$kept/wanted" "$kept/found"; then
        cat "$kept/log"
        exit 1
    fi
    grep -v "// $4\$" "$text" >"$program/src/main.rt"
    if ! (cd "$program" && rt try) >"$kept/log" 2>&1; then
        cat "$kept/log"
        exit 1
    fi
}

must_not_compile view_is_kept module_graph 'borrow-e050[0-9]' 'uses the view'
must_not_compile requests_are_forged 'shared_types es_module_parser' 'private-[a-z]*' 'is refused'
must_not_compile found_is_forged 'tree_model web_url node_resolve' 'private-[a-z]*' 'is refused'
must_not_compile answer_is_forged 'tree_model web_url node_resolve trace_walk' 'private-[a-z]*' 'is refused'
