"""Measures how fast the outline of a module text is read, by processor time, and says PASS or FAIL to each target.

It runs the layers `outline` and `tokens` of crates/layer_measure, which `rt ci` or `rt run` in its folder builds. The
times hold all that these programs do: they start, read the file, see that it is UTF-8, and then read the text. The line
that each prints is checked, against what the text is made to have. Beside them stands Debian's node-es-module-lexer,
where it is installed: the time of its parse alone, once, of the text that Node has read.

`python3 -B bench/outline.py instructions` counts by Debian's valgrind what both layers take for a byte instead.
"""

import os
import re
import shutil
import subprocess
import sys
import tempfile

import measure
import tokens
from measure import HERE, SIZE, TRIES, say

OUTLINE = measure.layer("outline")
TOKENS = measure.layer("tokens")
PEER = "/usr/share/nodejs/es-module-lexer"
IMPORTS = 4000
# What Debian's packages put there: libjs-three, node-lodash, node-acorn, node-yjs and so on.
INSTALLED = "/usr/share/nodejs"
PACKAGES = ["three/build/three.module.js", "lodash/lodash.js", "acorn/dist/acorn.mjs", "yjs/dist/yjs.mjs",
            "immutable/dist/immutable.es.js", "chart.js/dist/chart.esm.js", "vue/dist/vue.esm.browser.js",
            "jquery/dist/jquery.js", "react/cjs/react.development.js", "marked/lib/marked.esm.js"]
# Bytes in a second, of ordinary code.
SPEED = 100_000_000
# The same of the texts of packages.
PACKAGES_SPEED = 160_000_000
# The part of the pace at which tokens alone are read.
PACE = 0.9
# The runs of ordinary code, and of the texts of packages: outline and tokens in turn.
TURNS = 15
# How much longer than the peer it may take.
PEER_TIMES = 2
# How much longer twice the text may take.
GROWTH = 3


def code(size):
    """Ordinary code, with imports in its first part alone."""
    parts, length, n = [], 0, 1
    while length < size:
        for line, _ in tokens.CODE if n <= IMPORTS else tokens.CODE[1:]:
            parts.append(line.format(n=n))
            length += len(parts[-1])
        n += 1
    return "".join(parts), f"{min(n - 1, IMPORTS)} requests, a module"


def words(size):
    """The word `import` again and again, without a form."""
    return "import " * (1_000_000 * size // SIZE), "unreadable at 0"


def names(size):
    """One import with a million names in braces, where the text is the longest one."""
    return "import{" + "a," * (1_000_000 * size // SIZE) + "}from'b'", "1 requests, a module"


def long_names(size):
    """One import with names of 15 bytes in braces."""
    return "import{" + "abcdefghijklmn," * (size // 15) + "}from'b'", "1 requests, a module"


def nested(size):
    """Imports of braces that nest to the limit."""
    piece = "import" + "{" * 4096 + "}" * 4096 + "from'a';"
    return piece * (size // len(piece)), f"{size // len(piece)} requests, a module"


def literal(size):
    """One module specifier without an escape."""
    return "import'" + "a" * size + "'", "1 requests, a module"


def escapes(size):
    """One module specifier of escapes."""
    return "import'" + "\\u0061" * (size // 6) + "'", "1 requests, a module"


def braced_escapes(size):
    """The same of escapes in braces."""
    return "import'" + "\\u{000061}" * (size // 10) + "'", "1 requests, a module"


def pairs(size):
    """The same of surrogate pairs."""
    return "import'" + "\\ud83d\\ude00" * (size // 12) + "'", "1 requests, a module"


def wide(size):
    """The same of characters past ASCII, and one escape."""
    return "import'\\x61" + "\u00e9" * (size // 2) + "'", "1 requests, a module"


def digits(size):
    """One escape with digits that don't end: it has no value."""
    return "import'\\u{" + "0" * size + "'", "unreadable at 6"


def exports(size):
    """A million `export default`, where the text is the longest one."""
    return "export default " * (1_000_000 * size // SIZE), "0 requests, a module"


def metas(size):
    """The property `import.meta` again and again."""
    return "import.meta;" * (size // 12), "0 requests, a module"


def many(size):
    """More imports than may be."""
    return "import'a';" * (size // 10), "too many requests"


HOSTILE = [words, names, long_names, nested, literal, escapes, braced_escapes, pairs, wide, digits, exports, metas,
           many]


def peer(path):
    """The fewest seconds of a few parses by es-module-lexer, each in a process of its own; None without it."""
    if not os.path.isdir(PEER) or not shutil.which("node"):
        return None
    runs = []
    for _ in range(TRIES):
        done = subprocess.run(["node", os.path.join(HERE, "node_lex.mjs"), path], capture_output=True, text=True,
                              check=False)
        if done.returncode != 0:
            return None
        runs.append(float(done.stdout.split()[0]))
    return min(runs)


def paces(path, wanted):
    """The fewest seconds of outlines and of tokens alone, in turn; the line that the outline prints is this one."""
    mine, lexing = [], []
    for _ in range(TURNS):
        mine.append(measure.right("outline", [*OUTLINE, path], wanted))
        lexing.append(measure.run([*TOKENS, path])[0])
    return min(mine), min(lexing)


def ordinary(folder):
    """Ordinary code: the pace, beside that of tokens alone, and beside the peer."""
    text, wanted = code(SIZE)
    path, size = measure.written(folder, "module.mjs", text)
    seconds, alone = paces(path, wanted)
    say(size / seconds >= SPEED, f"ordinary code: {seconds:.3f} s for {size} bytes, {size / seconds / 1e6:.0f} MB/s, "
                                 f"at least {SPEED / 1e6:.0f}; its tokens alone {size / alone / 1e6:.0f} MB/s")
    say(alone / seconds >= PACE, f"its tokens alone: {alone:.3f} s, so {alone / seconds:.2f} of their pace, "
                                 f"at least {PACE}")
    other = peer(path)
    if other is None:
        print("      no es-module-lexer: skipped")
    else:
        say(seconds <= PEER_TIMES * other, f"es-module-lexer: {other:.3f} s, so {seconds / other:.2f} times its time, "
                                           f"at most {PEER_TIMES}")


def joined():
    """The texts of packages that are installed, one behind the other, again and again; and how many they are."""
    texts = []
    for name in PACKAGES:
        path = os.path.join(INSTALLED, name)
        if os.path.isfile(path):
            with open(path, encoding="utf-8") as file:
                texts.append(file.read())
    text = "\n;\n".join(texts) + "\n;\n"
    return text * max(1, SIZE // len(text)), len(texts)


def packages(folder):
    """The texts of packages."""
    text, count = joined()
    if not count:
        print("      no texts of packages: skipped")
        return
    path, size = measure.written(folder, "module.mjs", text)
    line = measure.run([*OUTLINE, path])[1]
    seconds, alone = paces(path, line)
    say(line.endswith("requests, a module") and size / seconds >= PACKAGES_SPEED,
        f"{count} texts of packages: {seconds:.3f} s for {size} bytes, {size / seconds / 1e6:.0f} MB/s, "
        f"at least {PACKAGES_SPEED / 1e6:.0f}; their tokens alone {size / alone / 1e6:.0f} MB/s")


def instructions(command):
    """How many instructions a run takes."""
    done = subprocess.run(["valgrind", "--tool=callgrind", "--callgrind-out-file=/dev/null", *command], capture_output=True,
                          text=True, check=True)
    return int(re.search(r"Collected : (\d+)", done.stderr).group(1))


def counted(folder):
    """What a byte takes."""
    text, count = joined()
    for label, text in (("ordinary code", code(SIZE)[0]), (f"{count} texts of packages", text)):
        path, size = measure.written(folder, "module.mjs", text)
        mine, lexing = instructions([*OUTLINE, path]), instructions([*TOKENS, path])
        print(f"      {label}: {mine / size:.2f} instructions for a byte, its tokens alone {lexing / size:.2f}, so "
              f"{lexing / mine:.3f} of their pace", flush=True)


def main():
    if sys.argv[1:] not in ([], ["instructions"]):
        sys.exit("usage: python3 -B bench/outline.py [instructions]")
    measure.need()
    with tempfile.TemporaryDirectory(prefix="salimgub-outline-") as folder:
        if sys.argv[1:]:
            counted(folder)
            return
        ordinary(folder)
        packages(folder)
        measure.hold_growth(OUTLINE, HOSTILE, folder, GROWTH)
    measure.finish()


if __name__ == "__main__":
    main()
