"""Measures how fast the tokens of a module text are read, by processor time, and says PASS or FAIL to each target.

It runs the layer `tokens` of crates/layer_measure, which `rt ci` or `rt run` in its folder builds. The times hold all
that this program does: it starts, reads the file, sees that it is UTF-8, and then reads the tokens. The line that it
prints is checked, against counts that come from how the text is made.
"""

import sys
import tempfile

import measure
from measure import SIZE, say

TOKENS = measure.layer("tokens")
DEPTH = 4096
# Bytes in a second, of ordinary code.
SPEED = 100_000_000
# How much longer twice the text may take.
GROWTH = 3

# Lines of ordinary code, each with the number of its tokens.
CODE = [
    ('import {{ first{n}, second as other{n} }} from "./folder/module-{n}.js";\n\n', 11),
    ("/**\n * Gives the total of the first {n} items, and null where there is none.\n */\n", 0),
    ("export function total{n}(items, options = {{}}) {{\n", 12),
    ("    const {{ limit = {n}, name = 'item {n}' }} = options;\n", 13),
    ("    let sum = 0.5;  // begins with half\n", 5),
    ("    for (const item of items.slice(0, limit)) {{\n", 15),
    ("        if (item.name !== name && !/^[\\w/]+\\.(js|mjs)$/i.test(item.path)) continue;\n", 20),
    ("        sum += item.weight?.[{n}] ?? (item.count * 1e3) / 0x{n:x};\n", 20),
    ("    }}\n", 1),
    ("    return {{ sum, label: `total ${{name}} of ${{items.length}} at ${{Math.round(sum / {n})}}` }};\n", 24),
    ("}}\n\n", 1),
    ("export class Widget{n} extends Base{n} {{\n", 6),
    ("    #state = new Map([['key', {n}], ['other', null]]);\n\n", 20),
    ("    async update(key, change) {{\n", 8),
    ("        const old = this.#state.get(key);\n", 12),
    ("        this.#state.set(key, await change(old ? {{ ...old }} : undefined));\n", 22),
    ('        return key => this.#state.has(key) || "nothing at " + key;\n', 16),
    ("    }}\n}}\n\n", 2),
]


def code(size):
    """Ordinary code: functions, classes, comments, strings, templates and regular expressions."""
    parts, length, tokens, n = [], 0, 0, 1
    while length < size:
        for line, count in CODE:
            parts.append(line.format(n=n))
            length += len(parts[-1])
            tokens += count
        n += 1
    return "".join(parts), f"{tokens} tokens"


def repeated(piece, size, tokens):
    """A piece again and again, and the number of all tokens."""
    times = size // len(piece)
    return piece * times, f"{tokens * times} tokens"


def refused(size):
    """A fault at once, so that what is left is the time for the file."""
    return ")" + "a" * (size - 1), "0 tokens, fault at 0"


def opening(size):
    """A million opening brackets, where the text is the longest one."""
    return "(" * (1_000_000 * size // SIZE), f"{DEPTH} tokens, fault at {DEPTH}"


def brackets(size):
    """Brackets that nest to the limit and close again."""
    return repeated("(" * DEPTH + ")" * DEPTH, size, 2 * DEPTH)


def templates(size):
    """Templates that nest to the limit and close again."""
    return repeated("`${" * DEPTH + "}`" * DEPTH + ";", size, 2 * DEPTH + 1)


def expression(size):
    """One regular expression."""
    return "/" + "a" * (size - 2) + "/", "1 tokens"


def classes(size):
    """One regular expression of classes that hold a slash."""
    return "/" + "[/]" * ((size - 2) // 3) + "/", "1 tokens"


def comment(size):
    """One comment of stars."""
    return "/*" + "*" * (size - 4) + "*/", "0 tokens"


def endless_comment(size):
    """One comment without an end."""
    return "/*" + " *" * (size // 2 - 1), "0 tokens, fault at 0"


def line_comments(size):
    """Comments to the ends of their lines, each as short as may be."""
    return repeated("//\n", size, 0)


def name(size):
    """One name."""
    return "a" * size, "1 tokens"


def escapes(size):
    """One name of escapes."""
    return "\\u{000061}" * (size // 10), "1 tokens"


def endless_escape(size):
    """One escape whose digits don't end."""
    return "\\u{" + "0" * (size - 3), "0 tokens, fault at 0"


def number(size):
    """One number."""
    return "1e+" * (size // 3), "1 tokens"


def string(size):
    """One string of escapes."""
    return "'" + "\\'" * (size // 2 - 1) + "'", "1 tokens"


def template(size):
    """One template that nearly has a substitution again and again."""
    return "`" + "$" * (size - 2) + "`", "1 tokens"


def wide_space(size):
    """White space past ASCII."""
    return "\u3000" * (size // 3), "0 tokens"


def marks(size):
    """The longest punctuator, again and again."""
    return repeated(">>>=", size, 1)


HOSTILE = [opening, brackets, templates, expression, classes, comment, endless_comment, line_comments, name, escapes,
           endless_escape, number, string, template, wide_space, marks]


def main():
    if sys.argv[1:]:
        sys.exit("usage: python3 -B bench/tokens.py")
    measure.need()
    with tempfile.TemporaryDirectory(prefix="salimgub-tokens-") as folder:
        floor, size = measure.best(TOKENS, refused, SIZE, folder)
        print(f"      the file alone: {floor:.3f} s for {size} bytes")
        seconds, size = measure.best(TOKENS, code, SIZE, folder)
        speed = size / seconds
        say(speed >= SPEED, f"ordinary code: {seconds:.3f} s for {size} bytes, {speed / 1e6:.0f} MB/s, "
                            f"without the file {size / max(seconds - floor, 1e-9) / 1e6:.0f}, "
                            f"at least {SPEED / 1e6:.0f}")
        measure.hold_growth(TOKENS, HOSTILE, folder, GROWTH)
    measure.finish()


if __name__ == "__main__":
    main()
