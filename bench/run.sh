#!/bin/sh
# Measures build/salimgub on trees of its own, in sessions, by `why` and by `vendor` too, and then on npm packages where
# Debian's stand in /usr/share/nodejs, and says PASS or FAIL to each target. `smoke` runs small trees alone, against ten
# times each target.
cd "$(dirname "$0")" || exit 1
python3 -B bench.py "$@"
status=$?
python3 -B sessions.py "$@" || status=1
python3 -B why.py "$@" || status=1
python3 -B vendor.py "$@" || status=1
python3 -B installed.py "$@" || status=1
exit $status
