"""Measures sessions of build/salimgub and `measure`, and says PASS or FAIL to each target."""

import os

import bench
import trees

FILE = 16 * bench.MIB
SESSION = [bench.PROGRAM, "session"]
FEW, MANY = 10, 100
EDITED = "/node_modules/p7/x/a.js", (b"export {};\n", b"export {};\n\n")
FIELDS = b'"name":"p7","type":"module","exports":{".":"./index.js","./x/*":"./x/*.js"}'
RECORD = "/node_modules/p7/package.json", (b"{" + FIELDS + b"}", b"{" + FIELDS + b',"version":"1"}')


def put(path, content):
    """The lines that put a file."""
    return f"put {path} {len(content)}\n".encode() + content + b"\n"


def held(folder, name, edits, tries):
    """The fastest of a few sessions with these edits, each of which has to be accepted."""
    path = os.path.join(folder, "..", name)
    with open(path, "wb") as file:
        file.writelines(edits)
        file.write(b"end\n")
    run = bench.best(SESSION, folder, tries, path)
    lines = run.out.splitlines()
    accepted = len(lines) == len(edits) + 2 and all(line.startswith("ok: ") for line in lines[:-1])
    if run.status != 0 or not accepted:
        bench.say(False, f"{name}: status {run.status}, {len(lines)} lines, {lines[-1:]}")
    return run


def measure_stated(work, count, slack, tries):
    """`measure` over the stated tree in memory, beside `link` over the same on disk; then edits of one module there."""
    tree = trees.packages(os.path.join(work, f"packages-{count}"), count)
    linked = bench.link(tree, tries)
    stated = bench.best([bench.PROGRAM, "measure", str(count)], tree.folder, tries)
    wanted = f"measure {count}: {len(tree.paths)} modules, {tree.requests} requests, {tree.mappings} mappings\n"
    if stated.status != 0 or stated.out != wanted:
        bench.say(False, f"measure {count}: status {stated.status}, out {stated.out!r}, wanted {wanted!r}")
    bench.say(stated.seconds <= max(0.6 * slack * linked.seconds, bench.NOISE),
              f"measure {count}: {stated.times()}, {stated.seconds / linked.seconds:.2f} times as long as link on "
              f"disk, {linked.times()}, at most {0.6 * slack:g}")
    measure_edits(tree.folder, f"{count} packages", EDITED, RECORD, slack, tries)


def measure_edits(folder, label, module, record, slack, tries):
    """An edit of a module and one of a package.json, each put again and again with other bytes, beside the opening; and the memory
    behind many edits beside that behind few."""
    opening = held(folder, "opening", [], tries)
    for path, texts in (module, record):
        edited = held(folder, "edits", [put(path, texts[i % 2]) for i in range(FEW)], tries)
        cost = (edited.seconds - opening.seconds) / FEW
        bench.say(cost <= min(0.1 * opening.seconds, 0.025) * slack,
                  f"an edit of {path}, {label}: {1000 * cost:.1f} ms, {cost / opening.seconds:.3f} of the opening, "
                  f"{opening.times()}, at most {0.1 * slack:g} of it and {25 * slack} ms")
    path, texts = module
    few, many = (held(folder, "edits", [put(path, texts[i % 2]) for i in range(edits)], 1) for edits in (FEW, MANY))
    bench.say(many.memory <= few.memory + (MANY - FEW) * max(map(len, texts)) + 2 * slack * bench.MIB,
              f"the same, behind {MANY} edits of {path}: {many.memory / bench.MIB:.1f} MiB, behind {FEW} "
              f"{few.memory / bench.MIB:.1f}, {opening.memory / bench.MIB:.1f} before, at most what they put and {2 * slack} MiB more")


def measure_puts(work, files, slack, tries):
    """How fast the bytes of files are taken, in a project without entries."""
    folder = os.path.join(work, "puts")
    os.makedirs(folder)
    bench.put_project(folder, [])
    few = held(folder, "no-put", [], tries)
    many = held(folder, "puts-of-files", [put("/a", b"x" * FILE) for _ in range(files)], tries)
    pace = files * FILE / 1e6 / max(many.seconds - few.seconds, 0.001)
    bench.say(pace >= 500 / slack,
              f"{files} puts of 16 MiB: {many.times()}, {pace:.0f} MB/s, at least {500 / slack:g}; "
              f"{many.memory / bench.MIB:.1f} MiB")


def measure_all(work):
    measure_stated(work, 2000, 1, 3)
    measure_puts(work, 12, 1, 3)


def measure_small(work):
    measure_stated(work, 200, 10, 2)
    measure_puts(work, 2, 10, 2)


if __name__ == "__main__":
    bench.all_measured("sessions", measure_small if bench.is_smoke("python3 -B bench/sessions.py") else measure_all)
