#!/bin/sh
# That build/salimgub names nothing outside the folder in which it runs, over the rows on disk and a session, by a trace of its
# calls of the system; outside the gate, since it takes Debian's strace. Every call that does is named, and the last line counts
# runs, calls and names.
cd "$(dirname "$0")/.." || exit 1
command -v strace >/dev/null || { apt-get update -qq && apt-get install -y -qq strace; } >/dev/null 2>&1
exec python3 -B .ci/outside.py "$@"
