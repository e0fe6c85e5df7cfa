#!/bin/sh
# Outside the gate: compares the statement grammar with Node's parser over all files `.js` and `.mjs` of the npm packages
# that Debian installs into /usr/share/nodejs. It takes crates/layer_measure/out/layer_measure, which `rt run`
# there leaves. Names each file that Node takes for a module and the grammar refuses, and counts those that the grammar takes
# and Node refuses, by what Node says of them.
cd "$(dirname "$0")/.." || exit 1
kept=$(mktemp -d) || exit 1
trap 'rm -rf "$kept"' EXIT
program=${1:-crates/layer_measure/out/layer_measure}
find -L "${2:-/usr/share/nodejs}" -type f \( -name '*.js' -o -name '*.mjs' \) -size -16000k 2>/dev/null | sort |
    sed 's/^/strict /' >"$kept/layers"
"$program" each "$kept/layers" >"$kept/said" || exit 1
node --no-warnings --experimental-vm-modules .ci/grammar.mjs "$kept/said"
