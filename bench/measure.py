"""What the measurements of single programs share: runs by processor time, files to read, and PASS or FAIL."""

import os
import resource
import subprocess
import sys
import time

HERE = os.path.dirname(os.path.abspath(__file__))
MIB = 1024 * 1024
SIZE = 16 * MIB
TRIES = 5
# Below this a time says more about the machine than about the program.
NOISE = 0.02

failures = 0


# The program that measures the layers, as `rt ci`, or `rt run` in its folder, leaves it.
LAYERS = os.path.abspath(os.path.join(HERE, "..", "crates", "layer_measure", "out", "layer_measure"))


def layer(name):
    """The words that put this layer to work, but for the file."""
    return [LAYERS, name]


def need():
    """Ends the script where the program isn't there."""
    if not os.access(LAYERS, os.X_OK):
        sys.exit("bench: there is no program: run `rt run` in crates/layer_measure first")


def say(passed, text):
    global failures
    if not passed:
        failures += 1
    print(f"{'PASS' if passed else 'FAIL'}  {text}", flush=True)


def finish():
    print(f"{failures} failed" if failures else "all passed")
    sys.exit(1 if failures else 0)


def timed(command):
    """The processor seconds of one run, its seconds by the wall clock, and the line that it printed."""
    before = resource.getrusage(resource.RUSAGE_CHILDREN)
    started = time.perf_counter()
    done = subprocess.run(command, capture_output=True, text=True, check=False)
    clock = time.perf_counter() - started
    after = resource.getrusage(resource.RUSAGE_CHILDREN)
    seconds = after.ru_utime + after.ru_stime - before.ru_utime - before.ru_stime
    return seconds, clock, done.stdout.rstrip("\n")


def run(command):
    """The processor seconds of one run, and the line that it printed."""
    seconds, _, line = timed(command)
    return seconds, line


def right(name, command, wanted):
    """The processor seconds of one run, which has to print this line."""
    seconds, line = run(command)
    if line != wanted:
        say(False, f"{name}: printed {line!r}, wanted {wanted!r}")
    return seconds


def fewest(name, command, wanted):
    """The fewest seconds of a few runs, each of which has to print this line."""
    return min(right(name, command, wanted) for _ in range(TRIES))


def written(folder, name, text):
    """The path of a new file with this text, and its number of bytes."""
    path = os.path.join(folder, name)
    with open(path, "w", encoding="utf-8", newline="") as file:
        file.write(text)
    return path, os.path.getsize(path)


def growth(half, whole):
    """How much longer twice the text takes; times below the noise count as the noise."""
    return max(whole, NOISE) / max(half, NOISE)


def best(command, shape, size, folder):
    """The fewest seconds of a few runs of a command over one text, where each is right, and the bytes of the text."""
    text, wanted = shape(size)
    path, size = written(folder, "module.mjs", text)
    return fewest(shape.__name__, [*command, path], wanted), size


def hold_growth(command, shapes, folder, most):
    """Says of each shape of hostile texts how much longer a command takes over the whole of it than over half."""
    for shape in shapes:
        half, _ = best(command, shape, SIZE // 2, folder)
        whole, size = best(command, shape, SIZE, folder)
        ratio = growth(half, whole)
        say(ratio <= most, f"{shape.__name__}: {whole:.3f} s for {size} bytes, {size / whole / 1e6:.0f} MB/s, "
                           f"{ratio:.2f} times as long as for half of it, at most {most}")
