"""Measures build/salimgub, and says PASS or FAIL to each target."""

import json
import os
import shutil
import sys
import tempfile
import time

import maps
import trees

HERE = os.path.dirname(os.path.abspath(__file__))
PROGRAM = os.path.join(HERE, "..", "build", "salimgub")
ENTRY = "./app.mjs"
WORDS = ["link", "--base", maps.BASE, ENTRY]
MIB = 1024 * 1024
# Below this a time says more about the machine than about the program.
NOISE = 0.05
SKIPPED = 77

failures = 0


class Run:
    """The outcome of one program: status, output, seconds by the wall clock and of processor time, and most bytes of
    memory."""

    def __init__(self, command, folder, stdin=None):
        with tempfile.TemporaryFile() as out:
            started = time.perf_counter()
            child = os.fork()
            if child == 0:
                os.chdir(folder)
                source = os.open(stdin or os.devnull, os.O_RDONLY)
                os.dup2(source, 0)
                os.dup2(out.fileno(), 1)
                try:
                    os.execvp(command[0], command)
                except OSError:
                    os._exit(127)
            _, status, used = os.wait4(child, 0)
            self.seconds = time.perf_counter() - started
            self.processor = used.ru_utime + used.ru_stime
            self.status = os.waitstatus_to_exitcode(status)
            self.memory = used.ru_maxrss * 1024
            out.seek(0)
            self.out = out.read().decode("utf-8", "replace")

    def times(self):
        return f"{self.seconds:.3f} s ({self.processor:.3f} s of processor time)"


def best(command, folder, tries, stdin=None):
    """The fastest of a few runs."""
    return min((Run(command, folder, stdin) for _ in range(tries)), key=lambda run: run.seconds)


def say(passed, text):
    global failures
    if not passed:
        failures += 1
    print(f"{'PASS' if passed else 'FAIL'}  {text}", flush=True)


def judged(tree, run):
    """The run over a tree, which has to say what is in the tree."""
    wanted = f"ok: {len(tree.paths)} modules, {tree.requests} requests, {tree.mappings} mappings\n"
    if run.status != 0 or run.out != wanted:
        say(False, f"{os.path.basename(tree.folder)}: status {run.status}, out {run.out!r}, wanted {wanted!r}")
    return run


def link(tree, tries):
    """The fastest of a few links of a tree, where each is right. From the first one on a project is there."""
    return judged(tree, best([PROGRAM] + WORDS, tree.folder, tries))


def put_project(folder, entries):
    """Writes the project's file of a folder."""
    project = {"base": maps.BASE, "page": "/index.html", "conditions": ["browser", "import"], "entries": entries}
    with open(os.path.join(folder, "importmap.project.json"), "w", encoding="utf-8") as file:
        json.dump(project, file)


def check(folder, entries, needs, tries, label):
    """The fastest of a few checks of a folder's map for these entries, where each serves so many needs."""
    put_project(folder, entries)
    run = best([PROGRAM, "check"], folder, tries)
    wanted = f"ok: {needs} needs served\n"
    if run.status != 0 or run.out != wanted:
        say(False, f"{label}: status {run.status}, out {run.out[:200]!r}, wanted {wanted!r}")
    return run


def put_map(folder, shape, size):
    """Writes the map of a folder, and says how many bytes it has. Its text is made in a process of its own, since the
    memory of this one would count as that of the programs that it starts."""
    path = os.path.join(folder, "importmap.json")
    child = os.fork()
    if child == 0:
        with open(path, "w", encoding="utf-8") as file:
            file.write(shape(size))
        os._exit(0)
    os.waitpid(child, 0)
    return os.path.getsize(path)


def floor(tree, tries):
    """Reads and digests each file of the tree that is looked at, once."""
    names = os.path.join(tree.folder, "..", os.path.basename(tree.folder) + ".list")
    with open(names, "w", encoding="utf-8") as file:
        file.write("".join(path + "\0" for path in tree.paths + tree.records))
    return best(["xargs", "-0", "-n", "100000", "-s", "2000000", "sha384sum", "--"], tree.folder, tries, names)


def against_peer(name, run, peer, share, label):
    if peer.status in (SKIPPED, 127):
        print(f"SKIP  {label}: {name} isn't installed", flush=True)
    elif peer.status != 0:
        print(f"SKIP  {label}: {name} ended with status {peer.status}", flush=True)
    else:
        say(run.seconds <= share * peer.seconds,
            f"{label}: {run.seconds:.3f} s, {run.seconds / peer.seconds:.3f} of {name}'s {peer.seconds:.3f} s, "
            f"at most {share}; of processor time {run.processor:.3f} s, "
            f"{run.processor / peer.processor:.3f} of {peer.processor:.3f} s")


def esbuild(tree, tries):
    built = os.path.join(tree.folder, "..", "esbuild-" + os.path.basename(tree.folder))
    return best(["esbuild", "--bundle", "--format=esm", "--log-level=error", f"--metafile={built}.json",
                 f"--outfile={built}.js", "./app.mjs"], tree.folder, tries)


def node(tree, tries):
    written = os.path.join(tree.folder, "..", "node-" + os.path.basename(tree.folder) + ".json")
    return best(["node", "--no-warnings", "--experimental-import-meta-resolve", os.path.join(HERE, "node_link.mjs"),
                 "./app.mjs", written], tree.folder, tries)


def measure(shape, work, modules, slack, tries, peers):
    """Measures one shape at half the modules and at all of them."""
    label = f"{shape.__name__} of {modules} modules"
    half = shape(os.path.join(work, f"{shape.__name__}-{modules // 2}"), modules // 2)
    whole = shape(os.path.join(work, f"{shape.__name__}-{modules}"), modules)
    once, twice = link(half, tries), link(whole, tries)
    # A tree at the limit of requests has twice the time and memory of one at the limit of modules alone.
    at_limit = 2 if shape is trees.shared else 1
    seconds = max(5 * at_limit * slack * modules / 20000, NOISE)
    say(twice.seconds <= seconds, f"{label}: {twice.times()}, at most {seconds:g} s")
    memory = min(512 * at_limit * MIB, slack * (3 * whole.size + 64 * MIB))
    say(twice.memory <= memory, f"{label}: {twice.memory / MIB:.1f} MiB for {whole.size / MIB:.1f} MiB of files, "
                                f"at most {memory / MIB:.1f} MiB")
    ratio = twice.seconds / max(once.seconds, NOISE)
    say(ratio <= 4, f"{label}: {ratio:.2f} times as long as for half of them, {once.seconds:.3f} s, at most 4")
    if shape is not trees.shared:
        sums = floor(whole, tries)
        say(twice.seconds <= max(4 * slack * sums.seconds, NOISE),
            f"{label}: {twice.seconds / sums.seconds:.2f} times as long as sha384sum, {sums.seconds:.3f} s, "
            f"at most {4 * slack}")
    if peers:
        label = f"{shape.__name__} of {modules // 2} modules"
        against_peer("esbuild", once, esbuild(half, tries), 0.25, label)
        against_peer("Node with es-module-lexer", once, node(half, tries), 0.1, label)


def measure_packages(work, count, slack, tries, peers):
    """Measures packages at a tenth of the number and at all of them."""
    label = f"{count} packages"
    tenth = trees.packages(os.path.join(work, f"packages-{count // 10}"), count // 10)
    whole = trees.packages(os.path.join(work, f"packages-{count}"), count)
    once, ten = link(tenth, tries), link(whole, tries)
    memory = 3 * whole.size + 64 * MIB
    say(ten.memory <= memory, f"{label}: {ten.memory / MIB:.1f} MiB for {whole.size / MIB:.1f} MiB of files, "
                              f"at most {memory / MIB:.1f} MiB")
    ratio = ten.seconds / max(once.seconds, NOISE / 10)
    say(ratio <= 12 * slack, f"{label}: {ten.times()}, {ratio:.2f} times as long as for a tenth of them, "
                             f"{once.seconds:.3f} s, at most {12 * slack}")
    sums = floor(whole, tries)
    say(ten.seconds <= max(1.8 * slack * sums.seconds, NOISE),
        f"{label}: {ten.seconds / sums.seconds:.2f} times as long as sha384sum, {sums.seconds:.3f} s, "
        f"at most {1.8 * slack}")
    if peers:
        against_peer("esbuild", ten, esbuild(whole, tries), 0.25, label)
        against_peer("Node with es-module-lexer", ten, node(whole, tries), 0.1, label)


def measure_names(work, modules, slack, tries):
    """Measures looks at the folders above."""
    label = f"{modules // 2} names, 40 folders deep"
    tree = trees.names(os.path.join(work, "names"), modules)
    run = link(tree, tries)
    seconds = 10 * slack * modules / 20000
    say(run.seconds <= seconds, f"{label}: {run.times()}, at most {seconds:g} s")
    say(run.memory <= 1024 * MIB, f"{label}: {run.memory / MIB:.1f} MiB, at most 1024 MiB")


def measure_layout(work, referrers, targets, slack, tries):
    """Measures modules that ask for versions of one package: for two, for many, and at the limit of choices, which is
    so many places times a fourth of them."""
    def measured(referrers, targets, seconds):
        label = f"{referrers} modules and {targets} versions of what they ask for"
        run = link(trees.versions(os.path.join(work, f"versions-{referrers}-{targets}"), referrers, targets), tries)
        say(run.seconds <= max(seconds, NOISE), f"{label}: {run.times()}, at most {seconds:g} s")
        say(run.memory <= 1024 * MIB, f"{label}: {run.memory / MIB:.1f} MiB, at most 1024 MiB")

    measured(referrers, 2, 2 * slack * referrers / 19000)
    measured(referrers, targets, 2 * slack * referrers / 19000)
    versions = 2048 * referrers // 19000
    measured(3 * versions - 3, versions, 10 * slack * (referrers / 19000) ** 2)


def measure_refresh(work, count, slack, tries):
    """Measures `refresh` beside `link` over packages that stay as they are, by turns. It reads and generates the same,
    and makes one write less."""
    label = f"refresh of {count} packages"
    tree = trees.packages(os.path.join(work, f"refreshed-{count}"), count)
    link(tree, 1)
    linked, refreshed = [], []
    for _ in range(3 * tries):
        linked.append(link(tree, 1))
        refreshed.append(judged(tree, Run([PROGRAM, "refresh"], tree.folder)))
    by_link, run = (min(runs, key=lambda run: run.seconds) for runs in (linked, refreshed))
    # What two times of the same work differ by.
    say(run.seconds <= slack * by_link.seconds + NOISE / 10,
        f"{label}: {run.times()}, {run.seconds / by_link.seconds:.2f} times as long as link, {by_link.times()}, "
        f"at most {slack:g} and {NOISE / 10:g} s")


def measure_check(work, count, slack, tries):
    """Measures a check of packages by the map that `link` writes there."""
    label = f"check of {count} packages"
    tree = trees.packages(os.path.join(work, f"checked-{count}"), count)
    linked = link(tree, tries)
    run = check(tree.folder, [ENTRY], tree.requests, tries, label)
    say(run.seconds <= max(1.3 * slack * linked.seconds, NOISE),
        f"{label}: {run.times()}, {run.seconds / linked.seconds:.2f} times as long as link, {linked.times()}, "
        f"at most {1.3 * slack:g}")


def measure_maps(work, size, slack, tries):
    """Measures the reading of maps of one size, which is nearly all that a check without entries does. The map that is
    in the form of `link` has a pace and a share of memory to keep, besides its own bytes; a hostile one a time."""
    folder = os.path.join(work, "maps")
    os.makedirs(folder)

    def read(name, shape):
        length = put_map(folder, shape, size)
        run = check(folder, [], 0, tries, name)
        run.pace, run.share = length / 1e6 / run.seconds, run.memory / length - 1
        run.said = (f"{name}, {length / MIB:.1f} MiB: {run.times()}, {run.pace:.1f} MB/s, "
                    f"{run.share:.2f} times its bytes")
        return run

    run = read("a map as link prints it", maps.printed)
    say(run.pace >= 40 / slack, f"{run.said}, at least {40 / slack:g} MB/s")
    # The program alone takes more than a small map.
    say(run.memory <= 4 * slack * size + size + 16 * MIB, f"{run.said}, at most {4 * slack} times")
    for name, shape in maps.OTHERS.items():
        print(f"      {read(name, shape).said}", flush=True)
    for name, shape in maps.HOSTILE.items():
        run = read(name, shape)
        say(run.seconds <= 10, f"{run.said}, at most 10 s")


def measure_needs(work, modules, count, slack, tries):
    """Measures what a need costs by a large map and by a small one: how much longer a check with entries takes than one
    without them, so with the trace of the need."""
    tree = trees.shared(os.path.join(work, f"needs-{modules}"), modules)

    def cost(shape, number, label):
        put_map(tree.folder, shape, number)
        run = check(tree.folder, [ENTRY], tree.requests, tries, label)
        return max(run.seconds - check(tree.folder, [], 0, tries, label).seconds, 0.001) / tree.requests

    for name, shape in (("scopes", maps.scopes), ("keys that end in /", maps.folders)):
        label = f"a need of {tree.requests} by {count} {name}"
        large, small = cost(shape, count, label), cost(shape, 1, label)
        say(large <= 3 * slack * small, f"{label}: {large * 1e6:.2f} us, {large / small:.2f} times as long as by one, "
                                        f"{small * 1e6:.2f} us, at most {3 * slack}")


def is_smoke(usage):
    """Whether small trees alone are asked for, by the one word that a script takes."""
    if sys.argv[1:] not in ([], ["smoke"]):
        sys.exit(f"usage: {usage} [smoke]")
    return bool(sys.argv[1:])


def all_measured(name, measurements):
    """Measures in a folder of its own, which is gone afterwards, and ends with 0 where each target was met."""
    if not os.access(PROGRAM, os.X_OK):
        sys.exit("bench: there is no build/salimgub: run ./build.sh first")
    work = tempfile.mkdtemp(prefix=f"salimgub-{name}-")
    try:
        measurements(work)
    finally:
        shutil.rmtree(work)
    print(f"{failures} failed" if failures else "all passed")
    sys.exit(1 if failures else 0)


def small_trees(work):
    for shape in (trees.chain, trees.fan, trees.deep, trees.shared):
        measure(shape, work, 2000, 10, 2, False)
    measure_packages(work, 200, 10, 2, False)
    measure_names(work, 2000, 10, 2)
    measure_layout(work, 1900, 80, 10, 2)
    measure_refresh(work, 200, 10, 2)
    measure_check(work, 200, 10, 2)
    measure_maps(work, MIB, 10, 2)
    measure_needs(work, 2000, 10000, 10, 2)


def whole_trees(work):
    for shape in (trees.chain, trees.fan, trees.deep, trees.shared):
        measure(shape, work, 20000, 1, 3, shape in (trees.chain, trees.fan))
    measure_packages(work, 2000, 1, 3, True)
    measure_names(work, 18000, 1, 2)
    measure_layout(work, 19000, 800, 1, 3)
    measure_refresh(work, 2000, 1, 3)
    measure_check(work, 2000, 1, 3)
    measure_maps(work, 64 * MIB, 1, 2)
    measure_needs(work, 20000, 100000, 1, 3)


if __name__ == "__main__":
    all_measured("bench", small_trees if is_smoke("bench/run.sh") else whole_trees)
