"""Measures build/salimgub on input that is made to be slow: maps, pages, modules, package.json files, projects and
sessions of 16 MiB, alone and together, and says PASS where it is done within ten seconds. Status and line are
checked as well. The modules of `strict` are read by the statement grammar too.

`python3 -B bench/hostile.py [MIB] [WORD]..` takes input of another size, and runs the cases whose names hold one of
the words. A run that takes more than `PATIENCE` seconds of processor time is stopped, and may use no more than
`ROOM` of memory.
"""

import os
import resource
import shutil
import subprocess
import sys

import bench
import maps
import outline
import page
import strict
import tokens

MIB = 1024 * 1024
SIZE = 16 * MIB
SECONDS = 10
PATIENCE = 30
ROOM = 6 * 1024 * MIB
LINK = ("link", "--base", maps.BASE, "./app.mjs")
# The fronts of a text that HTML tries: one for each slash.
SLASHES = 4000


class Case:
    """What is run, in which folder, with what as input; how it must end."""

    def __init__(self, words, line, status=0, stdin=None):
        self.words, self.line, self.status, self.stdin = words, line, status, stdin


def put(folder, path, text):
    place = os.path.join(folder, path)
    os.makedirs(os.path.dirname(place), exist_ok=True)
    with open(place, "w", encoding="utf-8") as file:
        file.write(text)


def project(folder, entries=("./app.mjs",)):
    bench.put_project(folder, list(entries))


def filled(size, front, back, entry, between=","):
    """As many entries, by their numbers, as fit between two texts."""
    parts, length, i = [], len(front) + len(back), 0
    while True:
        text = entry(i)
        length += len(text) + len(between)
        if length > size:
            return front + between.join(parts) + back
        parts.append(text)
        i += 1


# ---- modules

def module_of(text, line, status=0):
    """The module of a site of one module; a text of a `shape` of the measures of layers, or a text."""
    def case(folder, size):
        put(folder, "app.mjs", text(size))
        put(folder, "b.mjs", "")
        return Case(LINK, line, status)
    return case


def shaped(shape):
    return lambda size: shape(size)[0]


def requests(size, specifier, most=4096):
    """As many requests as a module may have and as fit."""
    parts, length = [], 0
    for i in range(most):
        text = f'import"{specifier(i)}";'
        length += len(text)
        if length > size:
            break
        parts.append(text)
    return "".join(parts)


def slashes(i, count=SLASHES, path="./b.mjs"):
    """A specifier of a file with many slashes in its query."""
    return f"{path}?{'/' * count}{i}"


def long_queries(folder, size):
    """Modules with long names, each with a digest under its name."""
    put(folder, "app.mjs", requests(size, slashes))
    put(folder, "b.mjs", "")
    return Case(LINK, "ok: 4097 modules, 4097 requests, 0 mappings")


def versions_of_queries(count):
    """Modules whose names have thousands of places, below two versions of what each asks for."""
    def case(folder, size):
        half = count // 2
        put(folder, "app.mjs", requests(size, lambda i: slashes(i, path="./a/m.mjs" if i < half else "./b/m.mjs"), count))
        for side in "ab":
            put(folder, f"{side}/m.mjs", 'import "c";')
            put(folder, f"{side}/node_modules/c/package.json", '{"exports":"./i.mjs"}')
            put(folder, f"{side}/node_modules/c/i.mjs", "")
        return Case(LINK, f"ok: {count + 3} modules, {2 * count + 1} requests, 2 mappings")
    return case


def strict_check(part):
    """A module of a part of a text again and again, which is also read by the statement grammar, over an empty map."""
    def case(folder, size):
        project(folder)
        put(folder, "app.mjs", part * (size // len(part)))
        put(folder, "importmap.json", "{}")
        return Case(("check", "--strict"), "ok: 1 needs served")
    return case


# ---- package.json

def package(exports, specifier, line, status=0, most=1, files=()):
    """A package with these exports, and a module that asks for so many of its parts."""
    def case(folder, size):
        put(folder, "app.mjs", requests(size, specifier, most))
        put(folder, "node_modules/p/package.json", exports(size))
        for path in files:
            put(folder, f"node_modules/p/{path}", "")
        return Case(LINK, line, status)
    return case


def patterns(size):
    """Patterns whose bases all fit a long specifier, from the shortest to the longest, none of which ends as it does."""
    return filled(size, '{"exports":{"./a*":"./x.mjs",', "}}", lambda i: f'"./{"a" * (1 + i % 60)}*{i}":"./y.mjs"')


def many_keys(size):
    return filled(size, '{"exports":{', ',"./x":"./x.mjs"}}', lambda i: f'"./k{i}":"./y.mjs"')


def many_conditions(size):
    return filled(size, '{"exports":{', ',"default":"./x.mjs"}}', lambda i: f'"c{i}":"./y.mjs"')


def many_targets(size):
    return filled(size, '{"exports":[', ',"./x.mjs"]}', lambda i: '"x"')


def conditions_of_a_pattern(size):
    return filled(size, '{"exports":{"./*":{', ',"default":"./x.mjs"}}}', lambda i: f'"c{i}":"./y.mjs"')


def objects_of_a_pattern(size):
    """A list of objects that come to nothing, though their conditions hold."""
    return filled(size, '{"exports":{"./*":[', ',"./x.mjs"]}}', lambda i: '{"default":{"c":"./y"}}')


def lists_of_a_pattern(size):
    return filled(size, '{"exports":{"./*":[', ',"./x.mjs"]}}', lambda i: '["x","x"]')


def imports_of_conditions(folder, size):
    """A module that asks for what its own package imports under many conditions."""
    put(folder, "app.mjs", requests(size, lambda i: f"#k{i}"))
    put(folder, "package.json", filled(size, '{"imports":{"#*":{', ',"default":"./x.mjs"}}}', lambda i: f'"c{i}":"./y.mjs"'))
    put(folder, "x.mjs", "")
    return Case(LINK, "ok: 2 modules, 4097 requests, 4096 mappings")


def many_names(size):
    """Many members of other names."""
    return filled(size, '{', ',"exports":"./x.mjs"}', lambda i: f'"n{i}":0')


def one_name(size):
    return filled(size, '{', ',"exports":"./x.mjs"}', lambda i: '"exports":0')


def deep_lists(size):
    deep = "[" * 120 + "]" * 120
    return filled(size, '{"x":[', '],"exports":"./x.mjs"}', lambda i: deep)


def long_target(size):
    return '{"exports":"./' + "a/" * ((size - 22) // 2) + 'x.mjs"}'


# ---- pages

def page_of(shape):
    """A page with a shape of the measure of pages."""
    def case(folder, size):
        text, _, outcome = shape(size)
        project(folder)
        put(folder, "app.mjs", "")
        put(folder, "index.html", text)
        if outcome.endswith("bytes"):
            return Case(("inject",), "ok: 1 modules, 1 requests, 0 mappings")
        return Case(("inject",), f"refused: {outcome}", 1)
    return case


# ---- projects

def project_of(text, line, status=7):
    def case(folder, size):
        put(folder, "app.mjs", "")
        put(folder, "importmap.project.json", text(size))
        return Case(("refresh",), line, status)
    return case


def project_text(entries="[]", base=maps.BASE, conditions="[]", more=""):
    return f'{{"base":"{base}","page":"/index.html","conditions":{conditions},"entries":{entries}{more}}}'


# ---- sessions

def session_of(text, line, status=0):
    """A session over a site of one module; the line is the last one."""
    def case(folder, size):
        project(folder)
        put(folder, "app.mjs", "")
        put(folder, "input", text(size))
        return Case(("session",), line, status, "input")
    return case


def edits_of_puts(size):
    """A file an edit, each of which is accepted."""
    return filled(size, "", "\nend\n", lambda i: f"put /f{i} 0\n", "\n")


def puts(size):
    return filled(size, "begin\n", "\ncommit\nend\n", lambda i: f"put /f{i} 0\n", "\n")


def puts_of_one(size):
    return filled(size, "begin\n", "\ncommit\nend\n", lambda i: "put /f 0\n", "\n")


def deep_puts(size):
    """Files in folders of their own, as deep as paths may be."""
    return filled(size, "begin\n", "\ncommit\nend\n", lambda i: f"put /{i}{'/a' * 62}/b 0\n", "\n")


def puts_and_drops(size):
    return filled(size, "begin\n", "\ncommit\nend\n", lambda i: f"put /f{i} 0\n\ndrop /f{i}", "\n")


def links_and_unlinks(size):
    return filled(size, "begin\n", "\ncommit\nend\n", lambda i: f"link ./app.mjs?{i}\nunlink ./app.mjs?{i}", "\n")


# ---- together

def fronts_map(size, keys):
    """A scope for each front of a name with many slashes, and in each so many keys that end in `/` and don't apply."""
    def scope(i):
        inner = ",".join(f'"k{j}/":"/"' for j in range(keys))
        return f'"{maps.BASE}b.mjs?{"/" * (i + 1)}":{{{inner}}}'
    return filled(size, '{"scopes":{', "}}", scope)


def map_and_modules(needs, keys):
    """Needs of a module whose name has thousands of slashes, as have those that it asks for, by a map with a scope for
    each front of its name."""
    def case(folder, size):
        put(folder, "app.mjs", f'import"./b.mjs?{"/" * SLASHES}x";')
        put(folder, "b.mjs", requests(size, lambda i: slashes(i, path="./c.mjs"), needs))
        put(folder, "c.mjs", "")
        put(folder, "importmap.json", fronts_map(min(size, SLASHES * (SLASHES // 2 + 60 + 12 * keys)), keys))
        project(folder)
        return Case(("check",), f"ok: {needs + 2} needs served")
    return case


CASES = {
    "module of one specifier": module_of(lambda size: 'import"./' + "a" * (size - 12) + '";',
                                         "limit: specifier above 4096", 3),
    "module of long specifiers of nothing": module_of(lambda size: requests(size, lambda i: f"./{'a/' * 2000}{i}.mjs"),
                                                      'refused: NotFound from "/app.mjs"', 1),
    "module of long queries": long_queries,
    "module of long queries, above two versions": versions_of_queries(96),
    "module of 4,096 long queries, above two versions": versions_of_queries(4096),
    **{f"module: {shape.__name__}": module_of(shaped(shape), None, None) for shape in tokens.HOSTILE + outline.HOSTILE},
    **{f"strict: {name}": strict_check(part) for name, part in strict.hostile()},
    "package.json: patterns": package(patterns, lambda i: f"p/{'a' * 60}{i}x", "ok: 2 modules, 2 requests, 1 mappings",
                                      files=("x.mjs",)),
    "package.json: keys": package(many_keys, lambda i: "p/x", "ok: 2 modules, 2 requests, 1 mappings", files=("x.mjs",)),
    "package.json: conditions": package(many_conditions, lambda i: "p", "ok: 2 modules, 2 requests, 1 mappings",
                                        files=("x.mjs",)),
    "package.json: targets": package(many_targets, lambda i: "p", "ok: 2 modules, 2 requests, 1 mappings",
                                     files=("x.mjs",)),
    "package.json: names": package(many_names, lambda i: "p", "ok: 2 modules, 2 requests, 1 mappings", files=("x.mjs",)),
    "package.json: one name": package(one_name, lambda i: "p", "ok: 2 modules, 2 requests, 1 mappings", files=("x.mjs",)),
    "package.json: lists": package(deep_lists, lambda i: "p", "ok: 2 modules, 2 requests, 1 mappings", files=("x.mjs",)),
    "package.json: one target": package(long_target, lambda i: "p", 'refused: NotFound from "/app.mjs" for "p"', 1),
    "package.json: spaces": package(lambda size: " " * size, lambda i: "p", 'refused: InvalidConfig from "/app.mjs" for "p"',
                                    1),
    **{f"page: {shape.__name__}": page_of(shape) for shape in page.HOSTILE},
    "project: entries": project_of(lambda size: project_text(filled(size - 200, "[", "]", lambda i: f'"{i}"')),
                                   "limit: entries above 1024", 3),
    "project: entries that are one": project_of(lambda size: project_text(filled(size - 200, "[", "]", lambda i: '"a"')),
                                                "bad file: project at 0"),
    "project: long entries": project_of(lambda size: project_text(filled(size - 200, "[", "]",
                                        lambda i: f'"./{"a" * 17000}{i}"')), "limit: specifier above 4096", 3),
    "project: conditions": project_of(lambda size: project_text(conditions=filled(size - 200, "[", "]", lambda i: f'"c{i}"')),
                                      "bad file: project at 0"),
    "project: a base": project_of(lambda size: project_text(base=maps.BASE + "a/" * (size // 2 - 100)),
                                  "ok: 0 modules, 0 requests, 0 mappings", 0),
    "project: members": project_of(lambda size: project_text(more=filled(size - 200, ",", "", lambda i: f'"m{i}":0')),
                                   "bad file: project at 0"),
    "project: one member": project_of(lambda size: project_text(more=filled(size - 200, ",", "", lambda i: '"entries":[]')),
                                      "ok: 0 modules, 0 requests, 0 mappings", 0),
    "project: lists": project_of(lambda size: "[" * size, "limit: depth above 128", 3),
    "project: spaces": project_of(lambda size: " " * (size - 200) + project_text(),
                                  "ok: 0 modules, 0 requests, 0 mappings", 0),
    "session: one line": session_of(lambda size: "a" * size, "bad file: session line 1", 7),
    "session: a put of lines": session_of(lambda size: f"put /a {size - 30}\n" + "\n" * (size - 30) + "\nend\n", "end"),
    "session: lines behind the end": session_of(lambda size: "end\n" * (size // 4), "end"),
    "session: edits of nothing": session_of(lambda size: "begin\ncommit\n" * (size // 13) + "end\n", "end"),
    "session: changes that are refused": session_of(lambda size: "unlink q\n" * (size // 9) + "end\n", "end"),
    "session: maps": session_of(lambda size: "map\n" * (size // 4) + "end\n", "end"),
    "session: edits that are accepted": session_of(edits_of_puts, "end"),
    "session: one edit of puts": session_of(puts, "end"),
    "session: one edit of puts at one path": session_of(puts_of_one, "end"),
    "session: one edit of deep puts": session_of(deep_puts, "end"),
    "session: one edit of puts and drops": session_of(puts_and_drops, "end"),
    "session: one edit of links and unlinks": session_of(links_and_unlinks, "end"),
    "together: patterns by 4,096 requests": package(patterns, lambda i: f"p/{'a' * 60}{i}x",
                                                    "ok: 2 modules, 4097 requests, 4096 mappings", most=4096,
                                                    files=("x.mjs",)),
    "together: targets by 4,096 requests": package(many_targets, lambda i: "p",
                                                   "ok: 2 modules, 4097 requests, 1 mappings", most=4096,
                                                   files=("x.mjs",)),
    "together: conditions by 4,096 requests": package(many_conditions, lambda i: "p",
                                                      "ok: 2 modules, 4097 requests, 1 mappings", most=4096,
                                                      files=("x.mjs",)),
    "together: keys by 4,096 requests": package(many_keys, lambda i: "p/x",
                                                "ok: 2 modules, 4097 requests, 1 mappings", most=4096,
                                                files=("x.mjs",)),
    **{f"together: {shape.__name__.replace('_', ' ')} by 4,096 requests":
       package(shape, lambda i: f"p/k{i}", "ok: 2 modules, 4097 requests, 4096 mappings", most=4096, files=("x.mjs",))
       for shape in (conditions_of_a_pattern, objects_of_a_pattern, lists_of_a_pattern)},
    "together: imports of conditions by 4,096 requests": imports_of_conditions,
    "together: scopes of one key by 64 needs": map_and_modules(64, 1),
    "together: scopes of one key by 4,096 needs": map_and_modules(4096, 1),
}


def confined():
    resource.setrlimit(resource.RLIMIT_AS, (ROOM, ROOM))
    resource.setrlimit(resource.RLIMIT_CPU, (PATIENCE, PATIENCE))


class Ran:
    """The outcome of a run."""

    def __init__(self, folder, case):
        out = os.path.join(folder, "..", "out")
        with open(os.path.join(folder, case.stdin) if case.stdin else os.devnull, "rb") as stdin, open(out, "wb") as said:
            child = subprocess.Popen([bench.PROGRAM, *case.words], cwd=folder, stdin=stdin, stdout=said,
                                     preexec_fn=confined)
            _, status, used = os.wait4(child.pid, 0)
            self.status = child.returncode = os.waitstatus_to_exitcode(status)
        self.seconds = used.ru_utime + used.ru_stime
        self.memory = used.ru_maxrss * 1024
        with open(out, "rb") as said:
            said.seek(max(0, os.path.getsize(out) - 5000))
            self.said = said.read().decode("utf-8", "replace")

    def ends_as(self, case):
        lines = self.said.splitlines() or [""]
        line = lines[-1] if case.stdin else lines[0]
        return case.status in (None, self.status) and (case.line is None or line.startswith(case.line))


def measure(work, name, case, size):
    folder = os.path.join(work, "site")
    os.makedirs(folder)
    made = case(folder, size)
    ran = Ran(folder, made)
    shutil.rmtree(folder)
    told = f"{name}: {ran.seconds:.2f} s of processor time, {ran.memory / MIB:.0f} MiB"
    if ran.status < 0:
        bench.say(False, f"{told}, stopped by signal {-ran.status}")
    elif not ran.ends_as(made):
        bench.say(False, f"{told}, status {ran.status}, {ran.said[-200:]!r}; wanted {made.status}, {made.line!r}")
    else:
        bench.say(ran.seconds <= SECONDS, f"{told}, status {ran.status}")


def measure_named(work):
    words = sys.argv[1:]
    size = int(float(words.pop(0)) * MIB) if words and words[0][0].isdigit() else SIZE
    for name, case in CASES.items():
        if not words or any(word in name for word in words):
            measure(work, name, case, size)


if __name__ == "__main__":
    bench.all_measured("hostile", measure_named)
