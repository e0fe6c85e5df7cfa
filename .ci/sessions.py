#!/usr/bin/env python3
"""Random sessions of build/salimgub against `refresh`: sessions.py [--program FILE] [--sessions N] [--seed N].

Each session is held over a small random site, and told random edits. What an edit makes of the files and entries is worked out
here; these are written into a folder of their own, and `refresh` says there what a map they have. The session's reply must be
that line, and its map those bytes; a refused edit must leave both as they were.
"""
import argparse
import json
import pathlib
import random
import shutil
import subprocess
import sys
import tempfile

ROOT = pathlib.Path(__file__).resolve().parent.parent
sys.path.insert(0, str(ROOT / 'examples' / 'session'))
from keep import Session  # noqa: E402

MODULES = ['/app.mjs', '/lib/m.mjs', '/lib/a.js', '/lib/b.mjs', '/node_modules/c/c.mjs', '/node_modules/c/d.js', '/node_modules/c/index.js',
           '/lib/node_modules/c/c.mjs', '/lib/node_modules/c/d.js', '/node_modules/@s/p/i.mjs', '/node_modules/c/node_modules/e/index.js',
           '/node_modules/e/index.js', '/lib', '/node_modules/c']
RECORDS = ['/package.json', '/lib/package.json', '/node_modules/c/package.json', '/lib/node_modules/c/package.json',
           '/node_modules/@s/p/package.json', '/node_modules/e/package.json']
SPECIFIERS = ['./b.mjs', '../app.mjs', './lib/m.mjs', './a.js', 'c', 'c/x', 'c/d.js', '@s/p', 'e', '#n', './lib/../app.mjs?q', '/lib/b.mjs', 'fs', './q']
ENTRIES = ['./app.mjs', './lib/m.mjs', './lib/a.js', 'c', '@s/p', './lib/b.mjs?q', '#n']
TEXTS = ['{}', '{"type":"module"}', '{"type":"commonjs"}', '{"exports":"./c.mjs"}', '{"exports":{".":"./d.js","./x":"./c.mjs"},"type":"module"}',
         '{"exports":{"./*":"./*.mjs",".":{"node":"./q.mjs","import":"./c.mjs"}}}', '{"main":"d.js","type":"module"}', '{"exports":"./i.mjs"}',
         '{"imports":{"#n":"./lib/b.mjs"}}', '{"imports":{"#n":"c"},"type":"module"}', '{"name":"c","exports":{".":"./c.mjs","./d.js":null}}', '{', '[]']


class Refused(Exception):
    """A change that can't be made, with the line that says so."""


def above(path):
    parts = path.split('/')[1:-1]
    return ['/' + '/'.join(parts[:count]) for count in range(len(parts), 0, -1)]


class Site:
    """Files and folders by their paths, and the entries of the project."""

    def __init__(self, files, folders, entries):
        self.files, self.folders, self.entries = dict(files), set(folders), list(entries)

    def copy(self):
        return Site(self.files, self.folders, self.entries)

    def put(self, path, content):
        if path in self.folders or path == '/' or any(it in self.files for it in above(path)):
            raise Refused(f'refused: BadEdit {json.dumps(path)}')
        self.folders.update(above(path))
        self.files[path] = content

    def drop(self, path):
        if path not in self.files:
            raise Refused(f'refused: BadEdit {json.dumps(path)}')
        del self.files[path]

    def link(self, entry):
        if entry not in self.entries:
            self.entries.append(entry)

    def unlink(self, entry):
        if entry not in self.entries:
            raise Refused(f'refused: NotLinked {json.dumps(entry)}')
        self.entries.remove(entry)

    def write(self, folder):
        shutil.rmtree(folder, ignore_errors=True)
        folder.mkdir()
        for path in sorted(self.folders):
            (folder / path[1:]).mkdir(parents=True, exist_ok=True)
        for path, content in self.files.items():
            (folder / path[1:]).write_bytes(content)
        project = {'base': 'https://app.test/', 'page': '/index.html', 'conditions': ['browser', 'import'], 'entries': self.entries}
        (folder / 'importmap.project.json').write_text(json.dumps(project))


def content_of(chance, path):
    """some bytes for a file"""
    if path in RECORDS:
        return chance.choice(TEXTS).encode()
    lines = [f'import "{it}";' for it in chance.sample(SPECIFIERS, chance.choice((0, 0, 1, 1, 2)))]
    return chance.choice(('\n', '\r\n')).join(lines + chance.choice(([], ['export {};'], [''], ['\0' if chance.random() < 0.1 else '']))).encode()


def random_site(chance):
    site = Site({}, (), chance.sample(ENTRIES, chance.choice((0, 1, 1, 2))))
    for path in chance.sample(MODULES[:-2], chance.randint(3, 9)) + chance.sample(RECORDS, chance.randint(0, 4)):
        site.put(path, content_of(chance, path))
    return site


def random_change(chance, site):
    kind = chance.choice(('put', 'put', 'put', 'put', 'drop', 'drop', 'link', 'unlink'))
    if kind == 'put':
        path = chance.choice(MODULES + RECORDS)
        return kind, path, content_of(chance, path)
    if kind == 'drop':
        return kind, chance.choice(sorted(site.files) + MODULES), None
    return kind, chance.choice(ENTRIES if kind == 'link' else site.entries + ENTRIES), None


def changed(site, edit):
    """the site behind the changes of an edit"""
    after = site.copy()
    for kind, name, content in edit:
        if kind == 'put':
            after.put(name, content)
        else:
            getattr(after, kind)(name)
    return after


class Trial:
    """Sessions of a program, each beside a folder in which what an edit makes is written anew."""

    def __init__(self, program, room):
        self.program, self.held, self.fresh = program, room / 'held', room / 'fresh'

    def refreshed(self, site):
        """the line of `refresh` over the site, and its map, where there is one"""
        site.write(self.fresh)
        ran = subprocess.run([self.program, 'refresh'], cwd=self.fresh, stdout=subprocess.PIPE, check=False)
        return ran.stdout.decode().rstrip('\n'), (self.fresh / 'importmap.json').read_bytes() if ran.returncode == 0 else None

    def told(self, session, edit, alone):
        if not alone:
            session.tell('begin')
        for kind, name, content in edit:
            session.tell(f'{kind} {name}' + (f' {len(content)}' if kind == 'put' else ''), content)
        if not alone:
            session.tell('commit')
        return session.reply()

    def expected(self, site, edit):
        """the line of an edit, and the site and the map behind it, where it is accepted"""
        try:
            after = changed(site, edit)
        except Refused as why:
            return str(why), None, None
        return (*self.refreshed(after), after)

    def hold(self, chance):
        """what is wrong with one random session, or nothing"""
        site = random_site(chance)
        site.write(self.held)
        wanted, kept = self.refreshed(site)
        session = Session(self.program, self.held)
        said = session.reply()
        if said != wanted or kept is None:
            session.close()
            return None if said == wanted else ('the opening', said, wanted)
        for number in range(chance.randint(1, 6)):
            edit = [random_change(chance, site) for _ in range(chance.choice((1, 1, 1, 2, 3, 0)))]
            said = self.told(session, edit, len(edit) == 1 and chance.random() < 0.7)
            wanted, map_behind, after = self.expected(site, edit)
            if map_behind is not None:
                site, kept = after, map_behind
            if said != wanted or session.map() != kept:
                session.close()
                return f'edit {number + 1}, {edit}', said, wanted
        session.tell('end')
        return None if (session.reply(), session.process.wait()) == ('end', 0) else ('the end', '', '')


def given_words(sessions):
    """what the words of the call say, where this many sessions are held unless they say another number"""
    words = argparse.ArgumentParser()
    words.add_argument('--program', default=str(ROOT / 'build' / 'salimgub'))
    words.add_argument('--sessions', type=int, default=sessions)
    words.add_argument('--seed', type=int, default=1)
    return words.parse_args()


def main():
    given = given_words(2000)
    shared = pathlib.Path('/dev/shm')
    with tempfile.TemporaryDirectory(dir=shared if shared.is_dir() else None) as room:
        trial = Trial(given.program, pathlib.Path(room))
        for number in range(given.sessions):
            wrong = trial.hold(random.Random(given.seed * 1000003 + number))
            if wrong:
                print(f'session {number}: {wrong[0]}: {wrong[1]!r}, not {wrong[2]!r}')
                return 1
    print(f'{given.sessions} random sessions')
    return 0


if __name__ == '__main__':
    sys.exit(main())
