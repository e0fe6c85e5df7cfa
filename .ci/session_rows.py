"""The sessions of crates/run_rows/data above which stands how many steps they may take: `-- steps 4 2 0`, for the opening and for each
edit of the input. docs/architecture.md describes the form of the files; of it is read here what these rows use.
"""
import json
import re

from asked import CONDITIONS, PAGE
from sessions import ROOT, Site, above

DATA, PROJECT = ROOT / 'crates' / 'run_rows' / 'data', '/importmap.project.json'
# A module whose text is made of what asked.py knows; other sessions it can't foresee.
PLAIN = re.compile(r'(\s|import "[^"\\%]*";|export ?[^;"]*;|let \w+( = \d)?;)*')
ESCAPE = re.compile(r'\\(\n|[nrt\\]|x[0-9A-F]{2}|u\{[0-9A-F]+\})')
SIGNS = {'\n': '', 'n': '\n', 'r': '\r', 't': '\t', '\\': '\\'}


def repeated(match):
    first, last, text = match.groups()
    numbers = range(int(first)) if last is None else range(int(first), int(last) + 1)
    return ''.join(text.replace('\\#', str(it)) for it in numbers)


def sign(match):
    name = match[1]
    if name in SIGNS:
        return SIGNS[name]
    code = int(name[1:].strip('{}'), 16)
    # A byte that is no character by itself.
    return chr(code + 0xDC00 if name[0] == 'x' and code > 127 else code)


def unescaped(text):
    text = re.sub(r'\\\{(\d+)(?:-(\d+))?\*(.*?)\\\}', repeated, text)
    return ESCAPE.sub(sign, text).encode(errors='surrogateescape')


def items(name):
    """the lines of a file that aren't of a block, each with its block"""
    found = []
    for line in (DATA / name).read_text().split('\n'):
        if line.startswith('|'):
            found[-1][1] += line[2:] + '\n'
        else:
            found.append([line, ''])
    return found


def replies(said):
    """the lines of what a session says, and its maps"""
    lines, maps = [], []
    while said:
        line, _, said = said.partition(b'\n')
        if line.startswith(b'map '):
            size = int(line[4:])
            maps.append(said[:size])
            said = said[size:]
        else:
            lines.append(line.decode())
    return lines, maps


def edits_in(told):
    """the edits of an input up to its `end`, each with whether it stands alone"""
    edits, open_edit = [], None
    while not told.startswith(b'end\n'):
        line, _, told = told.partition(b'\n')
        kind, _, name = line.decode().partition(' ')
        content = None
        if kind == 'put':
            name, size = name.rsplit(' ', 1)
            content, told = told[:int(size)], told[int(size) + 1:]
        if kind == 'begin':
            open_edit = []
        elif kind == 'commit':
            edits.append((open_edit, False))
            open_edit = None
        elif open_edit is not None:
            open_edit.append((kind, name, content))
        elif kind != 'map':
            edits.append(([(kind, name, content)], True))
    return edits


class Tree:
    """Files and folders of a row, and its project."""

    def __init__(self):
        self.files, self.folders = {}, set()

    def put(self, head, block, texts):
        path, mark, text = re.fullmatch(r'(/.*?)(?:(: | = |:$)(.*))?', head).groups()
        if mark is None:
            self.folders.update([path.rstrip('/'), *above(path.rstrip('/'))])
            return
        self.folders.update(above(path))
        self.files[path] = texts[text] if mark == ' = ' else unescaped(text or block)

    def copy(self):
        other = Tree()
        other.files, other.folders = dict(self.files), set(self.folders)
        return other


class Row:
    """A session with its tree, its edits, its replies without maps, and how many steps it may take."""

    def __init__(self, name, tree, bounds, told, said):
        self.name, self.project, self.bounds, self.edits = name, json.loads(tree.files[PROJECT]), bounds, edits_in(told)
        files = {path: text for path, text in tree.files.items() if path != PROJECT}
        self.site, self.lines = Site(files, tree.folders, self.project['entries']), replies(said)[0]
        if len(bounds) != len(self.edits) + 1:
            raise SystemExit(f'steps: {name} has {len(self.edits)} edits')

    def write(self, folder):
        self.site.write(folder)
        (folder / PROJECT[1:]).write_text(json.dumps(self.project))

    def is_plain(self):
        """whether asked.py knows all that it is made of"""
        put = [(name, content) for edit, _ in self.edits for kind, name, content in edit if kind == 'put']
        texts = [text for path, text in (*self.site.files.items(), *put) if path.endswith(('.js', '.mjs'))]
        return ((self.project['page'], tuple(self.project['conditions'])) == (PAGE, CONDITIONS)
                and all(PLAIN.fullmatch(it.decode(errors='replace')) for it in texts)
                and not any(it.startswith('limit: ') for it in self.lines))


def rows():
    """the rows of all files"""
    texts, trees = {}, {}
    for name in ('texts.txt', 'sessions.txt', *sorted(it.name for it in DATA.glob('session_*.txt'))):
        yield from rows_of(name, texts, trees)


def rows_of(name, texts, trees):
    title, tree, bounds, told = '', Tree(), None, None
    for head, block in items(name):
        kind, _, rest = head.partition(' ')
        if kind == 'text':
            rest, _, text = rest.partition(': ')
            texts[rest] = unescaped(text or block)
        elif kind in ('row', 'tree'):
            title, tree = rest, Tree()
            if kind == 'tree':
                trees[rest] = tree
        elif kind == 'with':
            tree.files.update(trees[rest].files)
            tree.folders |= trees[rest].folders
        elif head.startswith('/'):
            tree.put(head, block, texts)
        elif re.match(r'\d+ x /', head):
            for turn in range(int(kind)):
                tree.put(rest[2:].replace('\\#', str(turn)), block, texts)
        elif head.startswith('-- steps '):
            bounds = [int(it) for it in head.split()[2:]]
        elif kind == '$':
            told = b''
        elif kind == '<' and bounds:
            told += unescaped(block or rest + '\n')
        elif kind == '=>' and bounds:
            yield Row(f'{name}: {title}', tree.copy(), bounds, told, unescaped(rest.partition(' ')[2] + '\n' + block))
            bounds = None
