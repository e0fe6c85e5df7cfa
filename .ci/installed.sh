#!/bin/sh
# Outside the gate: compares `link` with Node itself over npm packages as Debian installs them, once with Node's own
# conditions and once with `browser` besides. It takes what stands in /usr/share/nodejs, es-module-lexer among it:
#     apt-get install node-es-module-lexer node-d3 node-graphql node-lodash ..
cd "$(dirname "$0")/.." || exit 1
program=$PWD/build/salimgub
site=$(mktemp -d) || exit 1
trap 'rm -rf "$site"' EXIT
mkdir "$site/node_modules" || exit 1
# Links that lead nowhere aren't copied.
cp -RL /usr/share/nodejs/. "$site/node_modules"

compare() {
    node --no-warnings --experimental-import-meta-resolve --experimental-vm-modules "$@"
}

compare .ci/installed.mjs "$program" "$site" && compare -C browser .ci/installed.mjs "$program" "$site" browser
