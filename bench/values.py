"""Measures how fast JSON is read, by processor time, and says PASS or FAIL to the target.

It runs the layer `values` of crates/layer_measure, which `rt ci` or `rt run` in its folder builds, on the texts of
json_texts.py. The times hold all that this program does but for freeing the value: it starts, reads the file, and then
reads the text. The number of values that it prints is checked against what Python's reader finds. Beside each stands
Node's `JSON.parse` of the same text alone, where Node is installed.
"""

import json
import math
import os
import resource
import shutil
import subprocess
import sys
import tempfile
import time

import json_texts
import measure

HERE = os.path.dirname(os.path.abspath(__file__))
VALUES = measure.layer("values")
TRIES = 7
# Bytes in a second.
SPEED = 50_000_000

# What Node takes for the text alone: seconds of processor time.
NODE = """
const text = require("fs").readFileSync(process.argv[1], "utf8");
const start = process.cpuUsage();
JSON.parse(text);
const used = process.cpuUsage(start);
console.log((used.user + used.system) / 1e6);
"""

failures = 0


def seconds(path, wanted):
    """The processor time of one run, whose line is checked."""
    before = resource.getrusage(resource.RUSAGE_CHILDREN)
    out = subprocess.run([*VALUES, path], check=True, capture_output=True, text=True).stdout
    after = resource.getrusage(resource.RUSAGE_CHILDREN)
    if out != wanted:
        sys.exit(f"{os.path.basename(path)}: {out!r}, wanted {wanted!r}")
    return after.ru_utime + after.ru_stime - before.ru_utime - before.ru_stime


def pace():
    """Tells how fast the machine is at this moment, by a fixed loop: a virtual one may be twice as slow an hour
    later."""
    start = time.process_time()
    total = 0
    for i in range(5_000_000):
        total += i
    print(f"pace: five million additions in Python take {time.process_time() - start:.2f} s", flush=True)


def beside(path, size):
    """Node's speed on the text, once."""
    if not shutil.which("node"):
        return ""
    run = subprocess.run(["node", "--max-old-space-size=8192", "-e", NODE, path], check=False, capture_output=True,
                         text=True)
    return f"; Node {size / float(run.stdout) / 1e6:.0f} MB/s" if run.returncode == 0 else "; Node failed"


def written(text, path):
    """Writes the text to the path, and gives the line that the program must print for it."""
    with open(path, "w", encoding="utf-8") as file:
        file.write(text)
    value = json.loads(text)
    return f"{len(value) if isinstance(value, (list, dict)) else 1} values\n"


def fastest(wanted):
    """The fastest of a few runs over each text. Each round goes over all texts, so that a slow moment of the machine
    falls on one run of several texts, and not on all runs of one."""
    best = {}
    for _ in range(TRIES):
        for path, line in wanted.items():
            best[path] = min(best.get(path, math.inf), seconds(path, line))
    return best


def tell(name, path, best, asked):
    """Prints the speed of a text, which is judged where one is asked for."""
    global failures
    size = os.path.getsize(path)
    told = f"{name}: {best:.3f} s, {size / best / 1e6:.0f} MB/s"
    if asked:
        passed = size >= SPEED * best
        failures += not passed
        told = f"{'PASS' if passed else 'FAIL'}  {told}, at least {SPEED / 1e6:.0f}"
    print(f"{told}{beside(path, size)}", flush=True)


def main():
    measure.need()
    with tempfile.TemporaryDirectory(prefix="salimgub-values-") as folder:
        paths = {name: os.path.join(folder, f"{name}.json") for name in json_texts.TEXTS | json_texts.TOLD}
        texts = (json_texts.TEXTS | json_texts.TOLD).items()
        wanted = {paths[name]: written(text(), paths[name]) for name, text in texts}
        pace()
        best = fastest(wanted)
        pace()
        for name, path in paths.items():
            tell(name, path, best[path], name in json_texts.TEXTS)
    print(f"{failures} failed" if failures else "all passed")
    sys.exit(1 if failures else 0)


if __name__ == "__main__":
    main()
