"""Measures build/salimgub on npm packages as Debian installs them, and says PASS or FAIL to each target; without any in
/usr/share/nodejs it says so and ends. One module imports each package, each subpath that one exports and each file that
one names for bundlers, where a map comes of it alone."""

import json
import os
import re
import subprocess
import sys

import bench
import maps
import sessions

INSTALLED = "/usr/share/nodejs"
LINK = [bench.PROGRAM, "link", "--base", maps.BASE]
# The runs of each program, in turn.
TURNS = 15


class Site:
    """The folder with the packages, and what its module asks for."""

    def __init__(self, folder):
        self.folder = folder
        self.packages = os.path.join(folder, "node_modules")
        # Links that lead nowhere aren't copied.
        subprocess.run(["cp", "-RL", INSTALLED, self.packages], stderr=subprocess.DEVNULL, check=False)
        self.paths, self.records = [], []

    def record(self, name):
        with open(os.path.join(self.packages, name, "package.json"), encoding="utf-8") as file:
            return json.load(file)

    def names(self):
        """The packages, those below an `@` too."""
        for name in sorted(os.listdir(self.packages)):
            inner = sorted(os.listdir(os.path.join(self.packages, name))) if name.startswith("@") else [None]
            for one in inner:
                whole = name if one is None else f"{name}/{one}"
                if os.path.isfile(os.path.join(self.packages, whole, "package.json")):
                    yield whole

    def specifiers(self, name):
        """What a package may be asked for by."""
        record = self.record(name)
        exports = record.get("exports")
        subpaths = [key for key in exports if re.fullmatch(r"\./[^*]*", key)] if isinstance(exports, dict) else []
        files = [record.get(key) for key in ("module", "jsnext:main", "es2015")]
        return [name] + [name + key[1:] for key in subpaths] + [
            f"./node_modules/{name}/{re.sub(r'^[.]/', '', file)}" for file in files if isinstance(file, str)]

    def put_module(self, specifiers):
        with open(os.path.join(self.folder, "app.mjs"), "w", encoding="utf-8") as file:
            file.write("".join(f"import {json.dumps(specifier)};\n" for specifier in specifiers))

    def clear(self):
        for name in ("importmap.json", "importmap.project.json"):
            path = os.path.join(self.folder, name)
            if os.path.exists(path):
                os.remove(path)

    def link(self):
        self.clear()
        return bench.Run(LINK + [bench.ENTRY], self.folder)

    def has_map(self, specifier):
        self.put_module([specifier])
        return self.link().status == 0

    def served(self):
        """What each package may be asked for by, where a map comes of it alone."""
        return [specifier for name in self.names() for specifier in self.specifiers(name) if self.has_map(specifier)]

    def read_paths(self):
        """The files whose digests stand in the map, and the records beside them."""
        with open(os.path.join(self.folder, "importmap.json"), encoding="utf-8") as file:
            for url in json.load(file)["integrity"]:
                self.paths.append(os.path.join(self.folder, url.removeprefix(maps.BASE).lstrip("/")))
        self.records = [os.path.join(self.packages, name, "package.json") for name in self.names()]


def fewest(runs):
    """The fastest of a few runs, with the fewest seconds of processor time of any."""
    run = min(runs, key=lambda run: run.seconds)
    run.processor = min(run.processor for run in runs)
    return run


def measure(work):
    site = Site(os.path.join(work, "installed"))
    asked = site.served()
    site.put_module(asked)
    run = site.link()
    if run.status != 0:
        bench.say(False, f"installed packages: status {run.status}, {run.out!r}")
        return
    site.read_paths()
    turns = [(site.link(), bench.floor(site, 1), bench.esbuild(site, 1), bench.node(site, 1)) for _ in range(TURNS)]
    run, sums, esbuild, node = (fewest(runs) for runs in zip(*turns))
    label = f"installed packages, {len(asked)} specifiers"
    print(f"      {label}: {run.times()}, {run.memory / bench.MIB:.1f} MiB; {run.out.strip()}", flush=True)
    bench.say(run.seconds <= 1.6 * sums.seconds, f"{label}: {run.seconds / sums.seconds:.2f} times as long as sha384sum, "
                                                 f"{sums.seconds:.3f} s, at most 1.6; of processor time "
                                                 f"{run.processor / sums.processor:.2f} of {sums.processor:.3f} s")
    bench.against_peer("esbuild", run, esbuild, 0.2, label)
    bench.against_peer("Node with es-module-lexer", run, node, 0.1, label)
    measure_edits(site, label)


def measure_edits(site, label):
    """Edits of a session over the same: of the shortest module of a package, and of that package's record."""
    records = {os.path.dirname(path): path for path in site.records}
    path, folder = min(((path, package_of(path, records)) for path in site.paths if package_of(path, records)),
                       key=lambda it: os.path.getsize(it[0]))
    sessions.measure_edits(site.folder, label, edited(site, path), edited(site, records[folder]), 1, 3)


def package_of(path, records):
    """The nearest folder with a record above a file; none where it is in none."""
    while len(path) > 1 and path not in records:
        path = os.path.dirname(path)
    return path if path in records else None


def edited(site, path):
    """A file's path in the site, and its text with a line end behind it and as it is."""
    with open(path, "rb") as file:
        text = file.read()
    return path.removeprefix(site.folder), (text + b"\n", text)


def main():
    if bench.is_smoke("python3 -B bench/installed.py") or not os.path.isdir(INSTALLED):
        print(f"SKIP  installed packages: {'small trees alone' if sys.argv[1:] else 'none in ' + INSTALLED}")
        return
    bench.all_measured("installed", measure_installed)


def measure_installed(work):
    os.makedirs(os.path.join(work, "installed"))
    measure(work)


if __name__ == "__main__":
    main()
