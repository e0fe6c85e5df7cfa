"""Measures how fast a page is read and a map is put into it, by processor time, and says PASS or FAIL to each target.

It runs the layers `pieces` and `inject` of crates/layer_measure, which `rt ci` or `rt run` in its folder builds. The
times hold all that this program does: it starts, reads the file, sees that it is UTF-8, and then counts the pieces, or
finds the place of the map and writes the new page to memory. The line that it prints is checked, against counts that
come from how the page is made.
"""

import sys
import tempfile

import measure
from measure import SIZE, say

PIECES, INJECT = measure.layer("pieces"), measure.layer("inject")
# Bytes in a second, of ordinary markup.
SPEED = 150_000_000
# How much longer twice the page may take.
GROWTH = 2.5
# What an injection adds to a page without an import map element.
ELEMENT = len('<script type="importmap">{}</script>\n')

# A part of an ordinary page, and the number of its pieces: ten start tags, nine end tags, a comment, the raw text of a
# script, and sixteen texts, nine of them white space.
PIECES = 37
SECTION = """<section id="s{n}" class="card wide">
  <h2 class='title'>Item {n}</h2>
  <p>Ordinary text with <b>bold</b> words and <a href="/items/{n}?x=1&amp;y=2" rel=nofollow>a link</a>, 3 &lt; 4.</p>
  <!-- a comment about item {n} -->
  <img src="/img/{n}.png" alt="" width=64 height=64 loading="lazy"/>
  <script>if (a < b && c > d) {{ log("item {n}"); }}</script>
  <ul><li>one</li><li data-n='{n}' hidden>two</li></ul>
</section>
"""


def ordinary(size):
    """Ordinary markup: sections with a title, words, a link, a comment, an image, a script and a list."""
    parts, length, n = [], 0, 0
    while length < size:
        parts.append(SECTION.format(n=n))
        length += len(parts[-1])
        n += 1
    return "".join(parts), f"{PIECES * n} pieces", f"{length + ELEMENT} bytes"


def refused(size):
    """A comment at once, so that what is left is the time for the file."""
    return "<!" + "a" * (size - 2), "1 pieces", "PageUnclear at 0"


def repeated(front, piece, back, size, pieces, outcome=None):
    """A piece of a page again and again, with the number of pieces for each, and what comes of it."""
    page = front + piece * ((size - len(front) - len(back)) // len(piece)) + back
    count = pieces if isinstance(pieces, str) else f"{pieces * ((size - len(front) - len(back)) // len(piece))} pieces"
    return page, count, outcome or f"{len(page) + ELEMENT} bytes"


def less(size):
    """Signs that open nothing."""
    return repeated("", "<", "", size, "1 pieces", "NoPlace")


def open_comment(size):
    """A comment without an end."""
    return repeated("<!--", " -", "", size, "1 pieces", "PageUnclear at 0")


def attribute(size):
    """One attribute."""
    return repeated('<a b="', "x", '">', size, "1 pieces", "NoPlace")


def quotes(size):
    """Quotes in quotes."""
    return repeated("<a ", "b=\"'\" c='\"' ", ">", size, "1 pieces", "NoPlace")


def names(size):
    """Attributes that nearly have the name that is asked for."""
    return repeated("<script ", "typo ", "></script>", size, "3 pieces")


def script_type(size):
    """A script's type that is white space."""
    return repeated('<script type="', " ", '"></script>', size, "3 pieces")


def endless_script(size):
    """A script that nearly ends again and again."""
    return repeated("<script>", "</scrip ", "", size, "2 pieces", "PageUnclear at 8")


def endless_tag(size):
    """The start tag of a script without an end."""
    return repeated("<script ", "a='b' ", "", size, "1 pieces", "PageUnclear at 0")


def script_starts(size):
    """Start tags of scripts, all but the first in its text."""
    return repeated("", "<script>", "", size, "2 pieces", "PageUnclear at 8")


def scripts(size):
    """Scripts without a text."""
    return repeated("", "<script></script>", "", size, 3)


def near_comments(size):
    """A script whose text nearly begins a comment again and again."""
    return repeated("<script>", "<!-", "</script>", size, "3 pieces")


def maps(size):
    """Import map elements."""
    return repeated("", "<script type=importmap></script>", "", size, 3, "TwoMaps at 32")


def tags(size):
    """The shortest tags."""
    return repeated("", "<p>", "", size, 1, "NoPlace")


def words(size):
    """Words before the only place."""
    return repeated("", "a ", "</head>", size, "2 pieces")


HOSTILE = [less, open_comment, attribute, quotes, names, script_type, endless_script, endless_tag,
           script_starts, scripts, near_comments, maps, tags, words]


def best(shape, size, folder):
    """The fewest seconds of a few runs over one page, of counting and of injection, where each is right."""
    page, counted, injected = shape(size)
    path, size = measure.written(folder, "page.html", page)
    times = [
        measure.fewest(shape.__name__, [*PIECES, path], counted),
        measure.fewest(shape.__name__, [*INJECT, path], injected),
    ]
    return times, size


def main():
    if sys.argv[1:]:
        sys.exit("usage: python3 -B bench/page.py")
    measure.need()
    with tempfile.TemporaryDirectory(prefix="salimgub-page-") as folder:
        (floor, _), size = best(refused, SIZE, folder)
        print(f"      the file alone: {floor:.3f} s for {size} bytes")
        times, size = best(ordinary, SIZE, folder)
        for what, seconds in zip(["ordinary markup", "a map put into it"], times):
            speed = size / seconds
            say(speed >= SPEED, f"{what}: {seconds:.3f} s for {size} bytes, {speed / 1e6:.0f} MB/s, "
                                f"at least {SPEED / 1e6:.0f}")
        for shape in HOSTILE:
            half, _ = best(shape, SIZE // 2, folder)
            whole, _ = best(shape, SIZE, folder)
            growth = max(measure.growth(one, two) for one, two in zip(half, whole))
            say(growth <= GROWTH, f"{shape.__name__}: {whole[0]:.3f} s, with a map {whole[1]:.3f} s, "
                                  f"{growth:.1f} times as long for twice the bytes, at most {GROWTH}")
    measure.finish()


if __name__ == "__main__":
    main()
