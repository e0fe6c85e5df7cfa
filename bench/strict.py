"""Measures how fast the statement grammar reads a module text, by processor time, and how much memory it takes, and
says PASS or FAIL to each target.

It runs the layer `strict` of crates/layer_measure, which `rt ci` or `rt run` in its folder builds. The times hold all
that this program does: it starts, reads the file, reads the text's outline, and then reads it by the grammar. The files
are those of Debian's libjs-three, node-lodash and node-acorn, where they are installed.
"""

import os
import subprocess
import sys
import tempfile

import measure
from measure import MIB, TRIES, say

STRICT = measure.layer("strict")
FILES = (
    "/usr/share/javascript/three/three.module.js",
    "/usr/share/nodejs/lodash/lodash.js",
    "/usr/share/nodejs/acorn/dist/acorn.mjs",
)
# Bytes in a second.
SPEED = 5_000_000
# How much longer than half the text it may take.
GROWTH = 3
# Bytes of memory for a byte of text.
MEMORY = 40


def hostile():
    """Parts of texts that are deep, or of many small tokens, or whose choices are found late."""
    yield "round brackets", "(" * 450 + "a" + ")" * 450 + ";\n"
    yield "square brackets", "[" * 450 + "]" * 450 + ";\n"
    yield "arrows", "((a)=>" * 120 + "a" + ")" * 120 + ";\n"
    yield "units", "!" * 900 + "a;\n"
    yield "branches", "if(a);else " * 400 + ";\n"
    yield "templates", "`${" * 200 + "a" + "}`" * 200 + ";\n"
    yield "semicolons", ";" * 64


def best(path):
    return min(measure.run([*STRICT, path]) for _ in range(TRIES))


def peak(path):
    """The most memory that a run takes, in bytes."""
    code = "import resource,subprocess,sys;subprocess.run(sys.argv[1:],stdout=subprocess.DEVNULL);"
    code += "print(resource.getrusage(resource.RUSAGE_CHILDREN).ru_maxrss)"
    done = subprocess.run([sys.executable, "-c", code, *STRICT, path], capture_output=True, text=True, check=True)
    return int(done.stdout) * 1024


def real():
    for path in FILES:
        if not os.path.exists(path):
            print(f"      {path} isn't installed")
            continue
        size = os.path.getsize(path)
        seconds, line = best(path)
        pace = size / max(seconds, 0.001)
        say(line.startswith("agrees") and pace >= SPEED, f"{os.path.basename(path)}: {pace / 1e6:.1f} MB/s, {line}")


def made(folder):
    for name, part in hostile():
        path = os.path.join(folder, "text.mjs")
        times = []
        for size in (MIB, 2 * MIB):
            text = part * (size // len(part))
            with open(path, "w", encoding="utf-8") as file:
                file.write(text)
            seconds, line = best(path)
            times.append(seconds)
            if not line.startswith("agrees"):
                say(False, f"{name}: {line}")
        memory = peak(path) / len(text)
        pace = len(text) / max(times[1], 0.001) / 1e6
        growth = f"half of it {times[0]:.2f} s, all {times[1]:.2f} s"
        say(times[1] <= GROWTH * max(times[0], measure.NOISE), f"{name}: {pace:.1f} MB/s, {growth}")
        say(memory <= MEMORY, f"{name}: {memory:.1f} bytes of memory for a byte")


def main():
    measure.need()
    real()
    with tempfile.TemporaryDirectory() as folder:
        made(folder)
    measure.finish()


if __name__ == "__main__":
    main()
