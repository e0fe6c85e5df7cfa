#!/bin/sh
# What build/salimgub does on a disk on which things go wrong, outside the gate: it mounts, makes devices and takes
# Debian's strace, as root. Every case that fails is named, and the last line counts them all.
cd "$(dirname "$0")/.." || exit 1
command -v strace >/dev/null || { apt-get update -qq && apt-get install -y -qq strace; } >/dev/null 2>&1
exec python3 -B .ci/disk.py "$@"
