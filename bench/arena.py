"""Measures the arena of values under slots, and says PASS or FAIL to each target.

It runs the tasks of an arena of crates/layer_measure, which `rt ci` or `rt run` in its folder builds. Inserting and
removing in turn is measured beside the same on a vector of options with a list of free places, in the same program;
looking at 200,000 values in an order without a pattern against a number of looks in a second; and the memory that
values of 128 bytes take, which is about a module's, against their own size. Each sum that the program prints is
checked.
"""

import os
import sys

HERE = os.path.dirname(os.path.abspath(__file__))
PROGRAM = os.path.join(HERE, "..", "crates", "layer_measure", "out", "layer_measure")
TRIES = 7
TURNS = 2_000_000
LIVE = 1_024
SEEN = 200_000
ROUNDS = 100
HELD = 1_000_000
SIZE = 128

failures = 0


def run(task, number, wanted):
    """The processor seconds and the peak bytes of one run, whose sum is checked."""
    read, write = os.pipe()
    pid = os.fork()
    if pid == 0:
        os.dup2(write, 1)
        os.execv(PROGRAM, [PROGRAM, task, str(number)])
    os.close(write)
    with os.fdopen(read) as out:
        line = out.read()
    _, status, used = os.wait4(pid, 0)
    if status or line != f"{wanted}\n":
        sys.exit(f"{task} {number}: {line!r}, wanted {wanted}")
    return used.ru_utime + used.ru_stime, used.ru_maxrss * 1024


def best(task, number, wanted):
    """The least time of a few runs: the others were disturbed."""
    return min(run(task, number, wanted)[0] for _ in range(TRIES))


def verdict(name, figure, passed):
    global failures
    failures += not passed
    print(f"{'PASS' if passed else 'FAIL'} {name}: {figure}", flush=True)


def main():
    if not os.path.exists(PROGRAM):
        sys.exit("crates/layer_measure/out/layer_measure is missing: `rt run` in crates/layer_measure makes it")
    removed = sum(range(TURNS - LIVE))
    arena = best("turns", TURNS, removed)
    plain = max(best("plain", TURNS, removed), 0.001)
    verdict(
        f"{TURNS:,} insertions and removals in turn, at most 3 times a vector of options",
        f"{arena:.3f} s beside {plain:.3f} s",
        arena <= 3 * plain,
    )
    seen = sum(range(SEEN)) * ROUNDS
    looks = best("looks", ROUNDS, seen) - best("looks", 0, 0)
    speed = SEEN * ROUNDS / looks / 1e6
    verdict("looks at 200,000 values, at least 20 million a second", f"{speed:.0f} million", speed >= 20)
    share = run("held", HELD, HELD - 1)[1] / (HELD * SIZE)
    verdict("memory at most 1.3 times the values", f"{share:.2f} times {HELD:,} of {SIZE} bytes", share <= 1.3)
    sys.exit(1 if failures else 0)


if __name__ == "__main__":
    main()
