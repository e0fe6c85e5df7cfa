#!/usr/bin/env python3
"""Prints the table of crates of architecture.md: `docs/lines.py [FOLDER]`, for the repository in that folder (else the
one it lies in).

To believe: lines of `specs/` of the crates whose names end in `_spec`, without comments, blank lines and `use` lines:
definitions, the statements of laws and of worked examples, and what else stands there. Words: the same of the other
crates, whose contracts alone use them. Proofs: lines of `proofs/`. Code and tests: lines of `src/`. Edits: files of
`must-fail/`.
"""
import pathlib
import re
import sys

COLUMNS = ('To believe', 'Words', 'Proofs', 'Code', 'Tests', 'Edits')


def lines_of(paths):
    """all lines of these files"""
    return [line for path in paths for line in path.read_text(encoding='utf8').splitlines()]


def told(lines):
    """the lines that state something"""
    kept = (line.strip() for line in lines)
    return sum(1 for line in kept if line and not re.match(r'--|use |pub use |pub mod |mod ', line))


def test_files(sources):
    """the names of the files that `#[cfg(test)] mod NAME;` brings in"""
    texts = (path.read_text(encoding='utf8') for path in sources)
    return {name + '.rt' for text in texts for name in re.findall(r'#\[cfg\(test\)\]\s*(?:pub )?mod (\w+);', text)}


def split_tests(path, tests):
    """how many lines of a source file are code, and how many are tests"""
    lines = path.read_text(encoding='utf8').splitlines()
    if path.name in tests:
        return 0, len(lines)
    for at, line in enumerate(lines):
        follows = lines[at + 1].strip() if at + 1 < len(lines) else ''
        if line.strip() == '#[cfg(test)]' and not re.match(r'(pub )?mod \w+;', follows):
            return at, len(lines) - at
    return len(lines), 0


def row_of(crate):
    """the numbers of one crate, in the order of the columns"""
    specs = told(lines_of(sorted((crate / 'specs').rglob('*.antt'))))
    believed = crate.name.endswith('_spec')
    proofs = len(lines_of(sorted((crate / 'proofs').rglob('*.antt'))))
    files = sorted((crate / 'src').rglob('*.rt'))
    sources = [split_tests(path, test_files(files)) for path in files]
    edits = len(list((crate / 'must-fail').glob('*.edit')))
    code, tests = (sum(source[at] for source in sources) for at in (0, 1))
    return (specs if believed else 0, 0 if believed else specs, proofs, code, tests, edits)


def main():
    """the table, with a last row for the sums"""
    root = pathlib.Path(sys.argv[1]) if len(sys.argv) > 1 else pathlib.Path(__file__).parent.parent
    named = (line.split('#')[0] for line in (root / 'crates.txt').read_text().splitlines())
    names = [line.split(':')[0].split()[0] for line in named if line.strip()]
    rows = [(name, row_of(root / 'crates' / name)) for name in names]
    print('Crate|' + '|'.join(COLUMNS))
    print('---' + '|---' * len(COLUMNS))
    for name, row in rows:
        print(f'`{name}`|' + '|'.join(str(number) for number in row))
    print('together|' + '|'.join(str(sum(numbers)) for numbers in zip(*(row for _, row in rows))))


main()
