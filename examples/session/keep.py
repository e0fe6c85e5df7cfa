#!/usr/bin/env python3
"""Keeps the map of a site current while its files change: keep.py PROGRAM [SECONDS], in the folder of a linked project.

Once in so many seconds it looks for files that are new, changed or gone, tells the session of all of them as one edit,
and writes importmap.json where the map is another; the session itself writes no file. It prints each reply. What was
refused is told again with the next change. Where a session ends or can't follow, a new one is opened over what lies on
the disk. Links, special files, each `.git` and drafts of the program are passed over.
"""
import contextlib
import os
import re
import shutil
import stat
import subprocess
import sys
import time

# as many bytes as a file and all that is told may have, and as many bytes and segments as a path
MOST_BYTES, MOST_INPUT, LONGEST, DEEPEST = 16777216, 268435456, 1024, 64
MAP, DRAFT, PROJECT = '/importmap.json', '/.importmap.json-draft', '/importmap.project.json'
FOLDER = ()
# replies behind which the session stands as it should
FOLLOWED = re.compile('ok: |refused: (?!BadEdit)|limit: (?!session )')


class Session:
    """A session of the program, which answers each edit before the next one is told."""

    def __init__(self, program, folder='.'):
        self.process = subprocess.Popen([program, 'session'], cwd=folder, stdin=subprocess.PIPE, stdout=subprocess.PIPE)

    def reply(self):
        return self.process.stdout.readline().decode(errors='replace').rstrip('\n')

    def tell(self, line, content=None):
        self.process.stdin.write(line.encode() + b'\n' + (b'' if content is None else content + b'\n'))
        self.process.stdin.flush()

    def put(self, path, content):
        self.tell(f'put {path} {len(content)}', content)

    def map(self):
        self.tell('map')
        size = int(self.reply().removeprefix('map '))
        content = self.process.stdout.read(size)
        if len(content) < size:
            raise ValueError('the session ended within a map')
        return content

    def close(self):
        """ends it, wherever it stands"""
        with contextlib.suppress(BrokenPipeError):
            self.process.stdin.close()
        self.process.stdout.read()
        return self.process.wait()


def can_be_told(path):
    """whether a line can name the path"""
    text = path.encode(errors='replace')
    return text.decode() == path and '\n' not in path and len(text) <= LONGEST and path.count('/') <= DEEPEST


def look(folder):
    """the folders below this one, the files with what tells that they changed, and the paths that are passed over"""
    seen, passed, waiting = {}, set(), ['']
    while waiting:
        at = waiting.pop()
        try:
            names = os.listdir(folder + at)
        except OSError:
            seen.pop(at, None)
            passed.add(at)
            continue
        for path in (f'{at}/{name}' for name in names if name != '.git' and not name.startswith('.salimgub-draft-')):
            with contextlib.suppress(OSError):
                state = os.lstat(folder + path)
                if stat.S_ISDIR(state.st_mode):
                    seen[path] = FOLDER
                    waiting.append(path)
                elif not stat.S_ISREG(state.st_mode):
                    passed.add(path)
                elif path not in (MAP, DRAFT):
                    seen[path] = (state.st_size, state.st_mtime_ns, state.st_ctime_ns, state.st_ino)
    return seen, passed


def read(path, most=MOST_BYTES):
    """the bytes of a file that has no more than that; it follows no link, and waits for none that writes"""
    with open(path, 'rb', opener=lambda name, flags: os.open(name, flags | os.O_NOFOLLOW | os.O_NONBLOCK)) as file:
        content = file.read(most + 1) or b''
    if len(content) > most:
        raise OSError(f'more than {most} bytes: {path}')
    return content


def write(path, draft, content):
    """has the file hold these bytes; says so on standard error where it can't"""
    with contextlib.suppress(OSError):
        if read(path, len(content)) == content:
            return
    try:
        with open(draft, 'wb') as file:
            file.write(content)
        os.replace(draft, path)
    except OSError as why:
        print(f'keep.py: {why}', file=sys.stderr, flush=True)


class Keeper:
    """Has the map of a folder renewed by a session, which knows the files as they were when an edit was accepted."""

    def __init__(self, program, folder):
        self.program, self.folder = program, folder
        self.session, self.told, self.tried = None, {}, None

    def close(self):
        if self.session:
            self.session.close()
        self.session = None

    def reply(self, now):
        """the session's line; behind `ok`, the map is written"""
        said = self.session.reply()
        if said.startswith('ok: '):
            write(self.folder + MAP, self.folder + DRAFT, self.session.map())
            self.told = now
        return said

    def open(self, now):
        """what a new session says of the files as they lie there; there is none where it is refused"""
        self.close()
        try:
            self.session = Session(self.program, self.folder)
            said = self.reply(now)
        except (OSError, ValueError) as why:
            said = f'no session: {why}'
        if not said.startswith('ok: '):
            self.close()
        return said or 'no session'

    def edit(self, now):
        """the reply to all that changed as one edit; none where a new session is needed"""
        contents, gone = {}, sorted(self.told.keys() - now.keys())
        changed = sorted(path for path in now if now[path] and now[path] != self.told.get(path))
        if sum(now[path][0] for path in changed) > MOST_INPUT:
            return None
        for path in changed:
            try:
                contents[path] = read(self.folder + path)
            except FileNotFoundError:
                del now[path]
                now.update({path: self.told[path]} if path in self.told else {})
        other = [*contents, *gone]
        # the folders that the puts make
        made = {path[:at] for path in contents for at, letter in enumerate(path) if letter == '/'}
        if (PROJECT in other or not all(map(can_be_told, other)) or any(self.told.get(path) == FOLDER for path in other)
                or any(os.path.lexists(self.folder + path) for path in gone)
                or any(now[path] == FOLDER != self.told.get(path) and path not in made for path in now)):
            return None
        self.session.tell('begin')
        for path, content in contents.items():
            self.session.put(path, content)
        for path in gone:
            self.session.tell(f'drop {path}')
        self.session.tell('commit')
        return self.reply(now)

    def turn(self):
        """what is said of changes since the last turn, if there are any"""
        now, passed = look(self.folder)
        ended = self.session and self.session.process.poll() is not None
        if (now, self.session or passed) == self.tried and not ended:
            return None
        said = None
        with contextlib.suppress(OSError, ValueError):
            said = self.edit(now) if self.session and not ended else None
        if not said or not FOLLOWED.match(said):
            said = self.open(now)
        self.tried = (now, self.session or passed)
        return said


def main(words):
    try:
        program, seconds = words[0], float(words[1]) if len(words) > 1 else 0.5
        if len(words) > 2 or not shutil.which(program) or not 0 < seconds <= 86400:
            raise ValueError
    except (IndexError, ValueError):
        print('usage: keep.py PROGRAM [SECONDS], in the folder of a linked project', file=sys.stderr)
        return 2
    sys.stdout.reconfigure(errors='backslashreplace')
    keeper, last = Keeper(program, os.getcwd()), None
    with contextlib.suppress(KeyboardInterrupt):
        while True:
            said = keeper.turn()
            if said and (keeper.session or said != last):
                print(said, flush=True)
            last = said or last
            time.sleep(seconds)
    keeper.close()
    return 0


if __name__ == '__main__':
    sys.exit(main(sys.argv[1:]))
