"""Measures how fast specifiers are resolved, and says PASS or FAIL to each target. `smoke` runs small trees, against
ten times each target.

It runs the layer `resolve` of crates/layer_measure, which `rt ci` or `rt run` in its folder builds, in trees of its
own. The program resolves each pair of a file over the folder in which it runs, round by round; what was looked at in
one round is known in the next ones. So the first round is resolution from nothing, which stands beside `cat` of the
same files, and what many rounds take beyond one is resolution over what is known. The line that the program prints is
checked against how the tree is made. Judged is processor time, of the program and of the system for it, in the fewest
of a few runs; the least by the wall clock is told beside it. How long the files take that are only opened, read and
closed is told too.
"""

import os
import sys
import tempfile
import time

import measure
import trees
from measure import say

RESOLVE = measure.layer("resolve")
# Resolutions in a second, over what is known.
PACE = 150_000
# How much longer than the reading of the same files a round from nothing may take.
READING_TIMES = 1.5
# As many paths as may be looked at.
LOOKS = 400_000
LOOKS_SECONDS = 10


class Times:
    """The least processor seconds and the least seconds by the wall clock of a few runs, which have to print a line."""

    def __init__(self, name, command, wanted, tries=measure.TRIES):
        self.seconds = self.clock = float("inf")
        for _ in range(tries):
            seconds, clock, line = measure.timed(command)
            if line != wanted:
                say(False, f"{name}: printed {line!r}, wanted {wanted!r}")
            self.seconds = min(self.seconds, seconds)
            self.clock = min(self.clock, clock)

    def told(self):
        return f"{self.seconds:.3f} s ({self.clock:.3f} s by the clock)"


def requests(count):
    """The pairs of trees.packages: who asks, and for what."""
    pairs = ["/index.html ./app.mjs", "/app.mjs p0", "/app.mjs p0/x/a", "/app.mjs c"]
    for i in range(count):
        asked = ["./x/a.js", "c"] + ([f"p{i + 1}"] if i + 1 < count else [])
        pairs += [f"/node_modules/p{i}/index.js {specifier}" for specifier in asked]
    return pairs


def pairs_file(folder, name, pairs):
    path, _ = measure.written(folder, name, "".join(f"{pair}\n" for pair in pairs))
    return path


def resolving(pairs, rounds):
    return [*RESOLVE, pairs, str(rounds)]


def reading(folder, tree, files):
    """`cat` over the files, whose bytes are counted."""
    path, _ = measure.written(folder, "paths.txt", "\0".join(files))
    return Times("reading", ["sh", "-c", f"xargs -0 -a {path} cat | wc -c"], str(tree.size))


def bare_reading(files):
    """The least processor seconds in which this process opens, reads and closes the files, and does nothing else."""
    least = float("inf")
    for _ in range(measure.TRIES):
        started = time.process_time()
        for name in files:
            file = os.open(name, os.O_RDONLY)
            while os.read(file, measure.MIB):
                pass
            os.close(file)
        least = min(least, time.process_time() - started)
    return least


def packages(folder, count, rounds, slack):
    tree = trees.packages(os.path.join(folder, "packages"), count)
    os.chdir(tree.folder)
    pairs = requests(count)
    path = pairs_file(folder, "pairs.txt", pairs)
    wanted = f"{len(pairs)} modules, 0 refusals"
    once = Times("from nothing", resolving(path, 1), wanted)
    often = Times("over what is known", resolving(path, rounds), wanted)
    files = tree.paths + tree.records
    read = reading(folder, tree, files)
    times = measure.growth(read.seconds, once.seconds)
    say(times <= slack * READING_TIMES,
        f"from nothing: {len(pairs)} resolutions in {once.told()}, {times:.2f} times as long as `cat` of their "
        f"{len(files)} files, {read.told()}, at most {slack * READING_TIMES}")
    bare = bare_reading(files)
    print(f"not judged: {once.seconds / bare:.2f} times as long as to open, read and close these files and do nothing "
          f"else, {bare:.3f} s")
    later = (rounds - 1) * len(pairs)
    pace = later / max(often.seconds - once.seconds, 1e-9)
    say(slack * pace >= PACE,
        f"over what is known: {later:,} resolutions, {pace:,.0f} a second "
        f"({later / max(often.clock - once.clock, 1e-9):,.0f} by the clock), at least {PACE // slack:,}")


def looks(folder, count, slack):
    """So many paths that are looked at, where nothing stands; and one more than may be."""
    os.makedirs(os.path.join(folder, "empty"))
    os.chdir(os.path.join(folder, "empty"))
    absent = [f"/app.mjs ./n{i}.mjs" for i in range(count)]
    path = pairs_file(folder, "absent.txt", absent)
    times = Times("looks", resolving(path, 1), f"0 modules, {count} refusals", 2)
    most = slack * LOOKS_SECONDS * count / LOOKS
    say(times.seconds <= most, f"{count:,} looks: {times.told()}, at most {most:.0f}")
    if count == LOOKS:
        path = pairs_file(folder, "one_more.txt", absent + ["/app.mjs ./one-more.mjs"])
        measure.right("one more look", resolving(path, 1), "limit: looks")


def main():
    smoke = sys.argv[1:] == ["smoke"]
    if sys.argv[1:] and not smoke:
        sys.exit("usage: python3 -B bench/resolve.py [smoke]")
    measure.need()
    before = os.getcwd()
    with tempfile.TemporaryDirectory(prefix="salimgub-resolve-") as folder:
        if smoke:
            packages(folder, 200, 11, 10)
            looks(folder, 4000, 10)
        else:
            packages(folder, 2000, 51, 1)
            looks(folder, LOOKS, 1)
        os.chdir(before)
    measure.finish()


if __name__ == "__main__":
    main()
