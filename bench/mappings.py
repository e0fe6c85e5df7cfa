#!/usr/bin/env python3
"""How many mappings a site's map has, beside a simpler rule: python3 -B bench/mappings.py FOLDER

FOLDER has a project that `link` wrote. The needs are what `check` says of an empty map. By the simpler rule a mapping
stands at the outermost place below which all that ask for the specifier get one target, and at each further place where
that holds though not above it; the written map has the fewest of all."""

import json
import os
import re
import subprocess
import sys
import urllib.parse

PROGRAM = os.path.join(os.path.dirname(os.path.dirname(os.path.abspath(__file__))), "build", "salimgub")
LINE = re.compile(r'differs: from ("(?:[^"\\]|\\.)*") for ("(?:[^"\\]|\\.)*") wants ("(?:[^"\\]|\\.)*") gets')
KEPT = "/-._~!$&'()+,;=:@"


def needs(folder):
    """Who asks, for what, and which URL has to come of it, where the specifier alone doesn't lead there."""
    base = json.load(open(os.path.join(folder, "importmap.project.json"), encoding="utf-8"))["base"]
    path = os.path.join(folder, "importmap.json")
    with open(path, encoding="utf-8") as file:
        written = file.read()
    try:
        with open(path, "w", encoding="utf-8") as file:
            file.write("{}")
        said = subprocess.run([PROGRAM, "check"], cwd=folder, capture_output=True, text=True, check=False).stdout
    finally:
        with open(path, "w", encoding="utf-8") as file:
            file.write(written)
    found = [[json.loads(part) for part in match] for match in LINE.findall(said)]
    name = lambda shown: base + urllib.parse.quote(shown[1:].split("?")[0], safe=KEPT) + "".join(
        shown[1:].partition("?")[1:])
    relative = lambda text: text.startswith(("/", "./", "../"))
    return written, {(name(by), urllib.parse.urljoin(name(by), text) if relative(text) else text, target)
                     for by, text, target in found}


def places(referrer):
    """The top level, the folders above the referrer, outermost first, and the referrer."""
    start = referrer.index("/", referrer.index("://") + 3)
    return ["", *(referrer[:at + 1] for at in range(start, len(referrer) - 1) if referrer[at] == "/"), referrer]


def agreed(asked):
    """The mappings of one specifier by the simpler rule."""
    below = {}
    for referrer, target in asked:
        for place in places(referrer):
            below.setdefault(place, set()).add(target)
    chosen = set()
    for referrer, _ in asked:
        chosen.add(next(place for place in places(referrer) if len(below[place]) == 1))
    return len(chosen)


def main():
    if len(sys.argv) != 2:
        sys.exit("usage: python3 -B bench/mappings.py FOLDER")
    written, found = needs(sys.argv[1])
    by_specifier = {}
    for referrer, specifier, target in found:
        by_specifier.setdefault(specifier, []).append((referrer, target))
    parsed = json.loads(written)
    fewest = len(parsed["imports"]) + sum(len(scope) for scope in parsed.get("scopes", {}).values())
    print(f"{fewest} mappings; {sum(agreed(asked) for asked in by_specifier.values())} by the simpler rule")


main()
