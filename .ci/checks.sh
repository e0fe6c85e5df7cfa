#!/bin/sh
# The project's own checks, on the program that the gate built. The argument is how many checks passed before; the last
# line counts these too.
cd "$(dirname "$0")/.." || exit 1
passed=${1:-0}
failed=0
kept=$(mktemp -d) || exit 1
trap 'rm -rf "$kept"' EXIT

check() {
    name=$1
    shift
    if "$@"; then
        echo "$name: passed"
        passed=$((passed + 1))
    else
        echo "$name: FAILED"
        failed=$((failed + 1))
    fi
}

# The example gives its line and the map that was typed by hand, in a copy, so that it stays as it is.
example() {
    program=$PWD/build/salimgub
    cp -R examples/site "$kept/site" &&
        rm -f "$kept/site/importmap.json" "$kept/site/importmap.project.json" &&
        (cd "$kept/site" && "$program" link --base https://app.test/ ./app.mjs >"$kept/out") &&
        echo 'ok: 5 modules, 8 requests, 1 mappings' | diff - "$kept/out" &&
        diff examples/expected-importmap.json "$kept/site/importmap.json"
}

# The same of the example with packages.
packages() {
    program=$PWD/build/salimgub
    cp -R examples/packages "$kept/packages" &&
        rm -f "$kept/packages/importmap.json" "$kept/packages/importmap.project.json" &&
        (cd "$kept/packages" && "$program" link --base https://app.test/ ./app.js >"$kept/out") &&
        echo 'ok: 9 modules, 11 requests, 7 mappings' | diff - "$kept/out" &&
        diff examples/expected-packages.json "$kept/packages/importmap.json"
}

# The SHA-384 digest of a file in standard Base64, by two programs.
by_sha384sum() {
    sha384sum <"$1" | cut -d ' ' -f 1 | tr a-f A-F | basenc --base16 -d | base64 -w 0
}

by_openssl() {
    openssl dgst -sha384 -binary "$1" | openssl base64 -A
}

# The map of the example with packages has the digests that both give for two of the files, and nine in all.
digests() {
    map=$kept/packages/importmap.json
    for path in app.js node_modules/cards/parts/price.js; do
        for tool in by_sha384sum by_openssl; do
            grep -qF "\"https://app.test/$path\": \"sha384-$($tool "$kept/packages/$path")\"" "$map" || return 1
        done
    done
    [ "$(grep -c '": "sha384-' "$map")" = 9 ]
}

# Why the older of two versions is loaded there, against lines typed by hand; and of a path to which nothing leads.
explained() {
    (cd "$kept/packages" && "$program" why /node_modules/cards/node_modules/numbers/lib/numbers.js >"$kept/out") &&
        diff examples/expected-why.txt "$kept/out" || return 1
    (cd "$kept/packages" && "$program" why /node_modules/cards/server.js >"$kept/out")
    [ $? = 10 ] && echo 'not reached: "/node_modules/cards/server.js"' | diff - "$kept/out"
}

# The 14 files of the example with packages that its map needs, of 17, and no others: byte for byte; and the copy has the
# same map. Nothing is copied to where something stands.
vendored() {
    program=$PWD/build/salimgub
    cp -R "$kept/packages" "$kept/vendored" || return 1
    (cd "$kept/vendored" && "$program" vendor /new/out >"$kept/out") && echo 'vendored 14 files' | diff - "$kept/out" || return 1
    (cd "$kept/vendored/new/out" && find . -type f | sort) >"$kept/copied"
    (cd examples/packages && find . -type f ! -name server.js ! -name index.html ! -name 'importmap*' | sort) | diff - "$kept/copied" || return 1
    while read -r copy; do
        cmp "examples/packages/$copy" "$kept/vendored/new/out/$copy" || return 1
    done <"$kept/copied"
    (cd "$kept/vendored/new/out" && "$program" link --base https://app.test/ ./app.js >"$kept/out") &&
        cmp "$kept/packages/importmap.json" "$kept/vendored/new/out/importmap.json" || return 1
    (cd "$kept/vendored" && "$program" vendor /new >"$kept/out")
    [ $? = 1 ] && echo 'refused: Occupied "/new"' | diff - "$kept/out"
}

# The page of the examples becomes the one with the map that was typed by hand, which lies beside it: once and again, in
# a copy, and nothing else is written.
injected() {
    program=$PWD/build/salimgub
    cp -R examples/page "$kept/page" || return 1
    before=$(cd "$kept/page" && find . | sort)
    for _ in 1 2; do
        (cd "$kept/page" && "$program" inject >"$kept/out") &&
            echo 'ok: 3 modules, 3 requests, 1 mappings' | diff - "$kept/out" &&
            diff examples/page/with-map.html "$kept/page/index.html" || return 1
    done
    [ "$before" = "$(cd "$kept/page" && find . | sort)" ]
}

# The map that was written by hand has the two differences that were typed by hand; the map that `refresh` writes in its
# place has none, and neither a check nor `refresh` changes the project.
checked() {
    program=$PWD/build/salimgub
    cp -R examples/checked "$kept/checked" || return 1
    (cd "$kept/checked" && "$program" check >"$kept/out")
    [ $? = 6 ] && diff examples/expected-check.txt "$kept/out" &&
        diff -r examples/checked "$kept/checked" &&
        (cd "$kept/checked" && "$program" refresh >"$kept/out") &&
        echo 'ok: 4 modules, 4 requests, 3 mappings' | diff - "$kept/out" &&
        (cd "$kept/checked" && "$program" check >"$kept/out") &&
        echo 'ok: 4 needs served' | diff - "$kept/out" &&
        diff examples/checked/importmap.project.json "$kept/checked/importmap.project.json"
}

# The page of the example with packages gets the same map with another base, in the copy that was linked.
injected_packages() {
    program=$PWD/build/salimgub
    (cd "$kept/packages" &&
        "$program" link --base http://localhost:8000/packages/ >"$kept/out" &&
        "$program" inject >>"$kept/out") &&
        printf '%s\n' 'ok: 9 modules, 11 requests, 7 mappings' 'ok: 9 modules, 11 requests, 7 mappings' |
        diff - "$kept/out" &&
        diff examples/expected-packages.html "$kept/packages/index.html"
}

# Runs a command in the copy of the cycle: cycle_step STATUS MAP PROJECT WORDS.., and what it must say on the standard
# input. Afterwards map and project are these files of examples/expected-cycle, and nothing else is written.
cycle_step() {
    wanted=$1 map=$2 project=$3
    shift 3
    (cd "$kept/cycle" && "$program" "$@" >"$kept/out" </dev/null)
    [ $? = "$wanted" ] && diff - "$kept/out" &&
        diff "examples/expected-cycle/$map.json" "$kept/cycle/importmap.json" &&
        diff "examples/expected-cycle/$project.json" "$kept/cycle/importmap.project.json" &&
        [ "$(cd "$kept/cycle" && find . | sort)" = "$cycle_files" ]
}

# A site from its first map on, in a copy: two entries, of which one is a package's; a check; a module that asks for
# one thing more, which a check finds and `refresh` mends; and an entry that is taken out.
cycle() {
    program=$PWD/build/salimgub
    cp -R examples/cycle "$kept/cycle" || return 1
    rm -f "$kept/cycle/importmap.json" "$kept/cycle/importmap.project.json"
    cycle_files=$(cd "$kept/cycle" && { find .; echo ./importmap.json; echo ./importmap.project.json; } | sort)
    echo 'ok: 3 modules, 4 requests, 2 mappings' |
        cycle_step 0 linked linked-project link --base https://app.test/ ./app.mjs hello/loud &&
        echo 'ok: 4 needs served' | cycle_step 0 linked linked-project check || return 1
    echo 'import "hello/quiet";' >>"$kept/cycle/app.mjs"
    cycle_step 6 linked linked-project check <examples/expected-cycle/differs.txt &&
        echo 'ok: 4 modules, 5 requests, 3 mappings' | cycle_step 0 refreshed linked-project refresh &&
        echo 'ok: 5 needs served' | cycle_step 0 refreshed linked-project check &&
        echo 'refused: NotLinked "hello"' | cycle_step 1 refreshed linked-project unlink hello/loud hello &&
        echo 'ok: 3 modules, 3 requests, 2 mappings' | cycle_step 0 unlinked unlinked-project unlink hello/loud &&
        echo 'ok: 3 needs served' | cycle_step 0 unlinked unlinked-project check
}

# The rows of a program, by the program that the gate built: rows NAME. It writes what is stored, in which each line of a
# file tells how many rows came to what they must; these are counted.
rows() {
    program=$PWD/crates/$1/out/$1
    words=$(tr '\n' ' ' <"crates/$1/args")
    # The words hold no spaces.
    (cd "crates/$1/data" && "$program" $words >"$kept/rows" </dev/null) &&
        diff "crates/$1/stdout" "$kept/rows" || return 1
    counted=$(sed -n 's/^[a-z_/]*\.txt: \([0-9]*\) .*/\1/p' "$kept/rows" | awk '{ sum += $1 } END { print sum + 0 }')
    echo "$1: $counted rows"
    passed=$((passed + counted))
}

check "build.sh" ./build.sh
check "the example" example
check "the example with packages" packages
check "digests by other programs" digests
check "why a file is loaded" explained
check "copies of what the map needs" vendored
check "the page of the examples" injected
check "the page of packages" injected_packages
check "the example with a map written by hand" checked
check "a site from link to unlink" cycle
check "the sentences that edits break" .ci/edits.sh
check "rows of runs" rows run_rows
check "rows of layers" rows layer_rows
check "rows on disk" .ci/rows.sh
check "a session through pipes" python3 -B .ci/session.py
check "a program that must not compile" .ci/must_not_compile.sh
check "values that are dropped once" .ci/drops.sh
check "the smallest maps of random needs" python3 -B .ci/fewest.py --program build/salimgub
check "the benchmark on small trees" bench/run.sh smoke
check "specifiers of small trees" python3 -B bench/resolve.py smoke
echo "$passed passed, $failed failed"
[ "$failed" = 0 ]
