"""Runs build/salimgub in folders on disk where the disk, its streams or the machine fail, and compares line, status and files.

A small site of two modules is linked, copied, put into its page and kept in a session. What must be there afterwards is made
here: its map with digests by Python's hashlib, its project's file as it is documented. Nothing may be half written: each file is
what it was, or the whole new one.
"""
import base64
import collections
import errno
import hashlib
import os
import pathlib
import re
import shutil
import signal
import socket
import stat
import subprocess
import sys
import tempfile
import threading

PROGRAM = pathlib.Path(sys.argv[1] if len(sys.argv) > 1 else 'build/salimgub').resolve()
KEPT = pathlib.Path(tempfile.mkdtemp(prefix='salimgub-disk-'))
LINK = ('link', '--base', 'https://app.test/', './app.mjs')
OK = 'ok: 2 modules, 2 requests, 0 mappings\n'
FILES = {'app.mjs': b'import "./b.mjs";\n', 'b.mjs': b'export {};\n'}
OLD = {'importmap.json': b'{}\n'}
PROJECT = b'''{
  "base": "https://app.test/",
  "page": "/index.html",
  "conditions": [
    "browser",
    "import"
  ],
  "entries": [
    "./app.mjs"
  ]
}
'''
# The calls of the system that can fail or be the last one of a run.
CALLS = 'openat,read,write,rename,renameat,renameat2,unlink,unlinkat,close,statx,newfstatat,lstat,stat,mkdir,mkdirat'
counts = {'passed': 0, 'failed': 0}
# How runs ended that were harmed at a call of the system.
endings = collections.Counter()


def tell(name, *faults):
    """counts a case, and names it where it has faults"""
    wrong = [it for it in faults if it]
    counts['failed' if wrong else 'passed'] += 1
    if wrong:
        print(f'{name}: FAILED: {"; ".join(wrong)}')


def digest(content):
    return 'sha384-' + base64.b64encode(hashlib.sha384(content).digest()).decode()


def map_of(files):
    """the map of modules that ask for each other by relative specifiers alone"""
    pairs = ',\n'.join(f'    "https://app.test/{name}": "{digest(files[name])}"' for name in sorted(files))
    return f'{{\n  "imports": {{}},\n  "integrity": {{\n{pairs}\n  }}\n}}\n'.encode()


def put(folder, files):
    for name, content in files.items():
        place = folder / name
        place.parent.mkdir(parents=True, exist_ok=True)
        place.write_bytes(content)


def site(name, **more):
    """a new folder with the two modules"""
    folder = KEPT / name
    folder.mkdir()
    put(folder, FILES)
    return folder


def content(place):
    """what stands at a place, a link not followed"""
    mode = place.lstat().st_mode
    if stat.S_ISLNK(mode):
        return 'link to ' + os.readlink(place)
    return place.read_bytes() if stat.S_ISREG(mode) else stat.S_IFMT(mode)


def tree(folder):
    return {os.fsencode(it.relative_to(folder)): content(it) for it in folder.rglob('*')}


def run(folder, *words, before=(), **how):
    """status, output, and what is told on standard error"""
    ran = subprocess.run([*before, str(PROGRAM), *words], cwd=folder, stdin=how.pop('stdin', subprocess.DEVNULL),
                         stdout=how.pop('stdout', subprocess.PIPE), stderr=subprocess.PIPE, timeout=60, check=False, **how)
    return ran.returncode, (ran.stdout or b'').decode(), ran.stderr.decode()


def differs(what, got, wanted):
    return '' if got == wanted else f'{what} is {got!r}, not {wanted!r}'


def lacks(told, *parts):
    return '' if all(it in told for it in parts) else f'standard error is {told!r}'


def linked(before, files=None):
    """the files behind a `link` that is done"""
    names = FILES if files is None else files
    return {**before, b'importmap.json': map_of(names), b'importmap.project.json': PROJECT}


def fails(name, folder, status, line, *told, words=LINK, **how):
    """a run that leaves everything as it was"""
    before = tree(folder)
    ended, out, said = run(folder, *words, **how)
    tell(name, differs('status', ended, status), differs('line', out, line), lacks(said, *told),
         '' if tree(folder) == before else 'files changed')


def succeeds(name, folder, line=OK, after=None, **how):
    before = tree(folder)
    ended, out, _ = run(folder, *LINK, **how)
    tell(name, differs('status', ended, 0), differs('line', out, line),
         '' if tree(folder) == (linked(before) if after is None else after) else 'files differ')


# ---- disks

def with_tmpfs(name, size, work):
    """a small file system of its own"""
    folder = KEPT / name
    folder.mkdir()
    subprocess.run(['mount', '-t', 'tmpfs', '-o', f'size={size}', 'tmpfs', str(folder)], check=True)
    try:
        put(folder, FILES)
        work(folder)
    finally:
        subprocess.run(['umount', '-l', str(folder)], check=True)


def fill(folder, leave):
    """fills a file system but for so many pages"""
    with open(folder / 'fill', 'wb', buffering=0) as file:
        try:
            while True:
                file.write(bytes(4096))
        except OSError as fault:
            assert fault.errno == errno.ENOSPC
        file.truncate(file.tell() // 4096 * 4096 - leave * 4096)


def full(folder):
    fill(folder, 0)
    fails('a full disk', folder, 5, 'fault: write\n', './importmap.json', 'No space left')
    (folder / 'fill').unlink()
    (folder / 'importmap.json').write_bytes(b'{}\n')
    fill(folder, 0)
    fails('a full disk with a map', folder, 5, 'fault: write\n', './importmap.json', 'No space left')


def nearly_full(folder):
    fill(folder, 1)
    before = tree(folder)
    ended, out, said = run(folder, *LINK)
    tell('a disk with room for the map alone', differs('status', ended, 5), differs('line', out, 'fault: write\n'),
         lacks(said, './importmap.project.json', 'No space left'),
         '' if tree(folder) == {**before, b'importmap.json': map_of(FILES)} else 'files differ')
    (folder / 'fill').unlink()
    succeeds('the same with room', folder, after=linked({it: before[it] for it in before if it != b'fill'}))


def read_only(folder):
    subprocess.run(['mount', '-o', 'remount,ro', str(folder)], check=True)
    fails('a disk for reading alone', folder, 5, 'fault: write\n', './importmap.json', 'Read-only')


def disks():
    with_tmpfs('full', '64k', full)
    with_tmpfs('nearly-full', '64k', nearly_full)
    with_tmpfs('read-only', '64k', read_only)


# ---- rights

def as_nobody(name, change):
    folder = site(name)
    (folder / 'd').mkdir()
    for place in [folder, *folder.rglob('*')]:
        os.chown(place, 65534, 65534)
    change(folder)
    return folder


def rights():
    nobody = ('setpriv', '--reuid=65534', '--regid=65534', '--clear-groups')
    folder = as_nobody('unreadable', lambda it: (it / 'b.mjs').chmod(0))
    fails('a file that may not be read', folder, 4, 'fault: read\n', './b.mjs', 'Permission denied', before=nobody)
    folder = as_nobody('unsearchable', lambda it: (it / 'd').chmod(0))
    put(folder, {'app.mjs': b'import "./d/x.mjs";\n'})
    fails('a folder that may not be searched', folder, 4, 'fault: read\n', './d/x.mjs', 'Permission denied', before=nobody)
    folder = as_nobody('unwritable', lambda it: it.chmod(0o555))
    fails('a folder that may not be written', folder, 5, 'fault: write\n', './importmap.json', 'Permission denied',
          before=nobody)


# ---- names

def names():
    folder = site('below-a-file')
    put(folder, {'app.mjs': b'import "./b.mjs/c.mjs";\n'})
    fails('a path below a file', folder, 1, 'refused: NotFound from "/app.mjs" for "./b.mjs/c.mjs"\n')
    long = 'n' * 251 + '.mjs'
    folder = site('longest-name')
    put(folder, {'app.mjs': f'import "./{long}";\n'.encode(), long: b''})
    used = {'app.mjs': (folder / 'app.mjs').read_bytes(), long: b''}
    succeeds('a name of 255 bytes', folder, after=linked(tree(folder), used))
    folder = site('longer-name')
    put(folder, {'app.mjs': f'import "./n{long}";\n'.encode()})
    fails('a name of 256 bytes', folder, 1, f'refused: NotFound from "/app.mjs" for "./n{long}"\n')
    folder = site('no-text')
    with open(os.fsencode(folder) + b'/\xff.mjs', 'wb'):
        pass
    succeeds('a name beside that is no UTF-8', folder)
    put(folder, {'app.mjs': b'import "./%ff.mjs";\n'})
    fails('a specifier of a name that is no UTF-8', folder, 1, 'refused: NotFound from "/app.mjs" for "./%ff.mjs"\n')


# ---- special files and links

def make_socket(place):
    with socket.socket(socket.AF_UNIX) as it:
        here = os.getcwd()
        os.chdir(place.parent)
        it.bind(place.name)
        os.chdir(here)


SPECIAL = {
    'fifo': os.mkfifo,
    'socket': make_socket,
    'device': lambda place: os.mknod(place, stat.S_IFCHR | 0o666, os.makedev(1, 5)),
    'link to a file': lambda place: place.symlink_to('other.mjs'),
    'link to a folder': lambda place: place.symlink_to('folder'),
    'link to nothing': lambda place: place.symlink_to('nothing'),
    'link to itself': lambda place: place.symlink_to(place.name),
}


def special():
    for kind, make in SPECIAL.items():
        told = 'symbolic link' if kind.startswith('link') else 'special file'
        for name, status, line in (('b.mjs', 4, 'fault: read\n'), ('importmap.project.json', 4, 'fault: read\n'),
                                   ('importmap.json', 5, 'fault: write\n')):
            folder = site(f'{kind} {name}')
            put(folder, {'other.mjs': b'export {};\n', 'folder/b.mjs': b''})
            place = folder / name
            place.unlink(missing_ok=True)
            make(place)
            fails(f'a {kind} as {name}', folder, status, line, f'./{name}', told)
    folder = site('link on the way')
    put(folder, {'app.mjs': b'import "./d/b.mjs";\n', 'folder/b.mjs': b''})
    (folder / 'd').symlink_to('folder')
    fails('a link on the way', folder, 4, 'fault: read\n', './d', 'symbolic link')


# ---- streams

def written(name, folder, status, before):
    tell(name, differs('status', status, 5), '' if tree(folder) == linked(before) else 'files differ')


def streams():
    folder = site('closed output')
    before = tree(folder)
    written('a closed output', folder, run(folder, *LINK, before=('sh', '-c', 'exec "$0" "$@" >&-'))[0], before)
    folder = site('full output')
    before = tree(folder)
    with open('/dev/full', 'wb') as full_output:
        written('a full output', folder, run(folder, *LINK, stdout=full_output)[0], before)
    folder = site('broken pipe')
    before = tree(folder)
    end, start = os.pipe()
    os.close(end)
    written('an output that nobody reads', folder, run(folder, *LINK, stdout=start)[0], before)
    os.close(start)
    succeeds('a closed input', site('closed input'), before=('sh', '-c', 'exec "$0" "$@" <&-'))


# ---- sessions

def talks():
    """sessions whose input or output fails; they write nothing"""
    opened = OK + 'fault: read\n'
    folder = site('session without input')
    put(folder, {'importmap.project.json': PROJECT})
    fails('a session whose input is closed', folder, 4, opened, words=('session',),
          before=('sh', '-c', 'exec "$0" "$@" <&-'))
    inside = os.open(folder, os.O_RDONLY)
    fails('a session whose input is a folder', folder, 4, opened, words=('session',), stdin=inside)
    os.close(inside)
    before = tree(folder)
    with open('/dev/full', 'wb') as full_output:
        ended, _, _ = run(folder, 'session', stdout=full_output)
    tell('a session whose output is full', differs('status', ended, 5), '' if tree(folder) == before else 'files changed')


# ---- a file that grows

def growing():
    folder = site('growing')
    ends = threading.Event()

    def grow():
        with open(folder / 'b.mjs', 'ab', buffering=0) as file:
            for _ in range(200_000):
                if ends.is_set():
                    return
                file.write(b';\n')
    grower = threading.Thread(target=grow)
    grower.start()
    wrong = []
    for _ in range(40):
        ended, out, said = run(folder, *LINK)
        told = re.search(rb'b\.mjs": "(.*)"', (folder / 'importmap.json').read_bytes()) if not ended else None
        whole = (folder / 'b.mjs').read_bytes()
        fronts = hashlib.sha384(FILES['b.mjs'])
        known = set()
        for at in range(len(FILES['b.mjs']), len(whole) + 1):
            known.add('sha384-' + base64.b64encode(fronts.copy().digest()).decode())
            fronts.update(whole[at:at + 1])
        if not told or told[1].decode() not in known:
            wrong.append(f'status {ended}, {out!r}, {said!r}')
    ends.set()
    grower.join()
    tell('a file that grows', *wrong[:3])


# ---- each call of the system

class Work:
    """a command, what it says, what stands beside the two modules, and what it makes there, one after another"""

    def __init__(self, words, line, files, made):
        self.words, self.line, self.files, self.made = words, line, files, made

    def put(self, folder):
        put(folder, {**FILES, **self.files})

    def states(self):
        """what may stand in the folder, from what was there to what is there behind the whole command"""
        before = {os.fsencode(name): content for name, content in {**FILES, **self.files}.items()}
        made = list(self.made.items())
        return [{**before, **dict(made[:count])} for count in range(len(made) + 1)]

    def found(self, folder):
        """in which of these states it is, which is -1 where in none, and the drafts that are left"""
        after = tree(folder)
        drafts = [it for it in after if os.path.basename(it).startswith(b'.salimgub-draft-')]
        rest = {it: after[it] for it in after if it not in drafts}
        states = self.states()
        return states.index(rest) if rest in states else -1, drafts

    def again(self, folder, state, drafts):
        """what is wrong with the next run, behind one that was killed"""
        ended, out, _ = run(folder, *self.words)
        yield differs('the next status', ended, 0) or differs('the next line', out, self.line)
        yield '' if self.found(folder) == (len(self.made), drafts) else 'the next run leaves other files'


class Copying(Work):
    """one that makes copies in a folder, which must not be there before"""
    place = 'out/copies'

    def again(self, folder, state, drafts):
        copies = folder / self.place
        if copies.exists():
            ended, out, _ = run(folder, *self.words)
            yield differs('the next status', ended, 1) or differs('the next line', out, f'refused: Occupied "/{self.place}"\n')
            yield '' if self.found(folder) == (state, drafts) else 'a refused run changes files'
            drafts = [it for it in drafts if not it.startswith(os.fsencode(self.place))]
            shutil.rmtree(copies)
        yield from super().again(folder, state, drafts)


LINKING = Work(LINK, OK, OLD, {b'importmap.json': map_of(FILES), b'importmap.project.json': PROJECT})
INJECTING = Work(('inject',), OK, {'index.html': b'<head></head>\n', 'importmap.project.json': PROJECT}, {
    b'index.html': b'<head><script type="importmap">' + map_of(FILES) + b'</script>\n</head>\n'})
COPYING = Copying(('vendor', '/out/copies'), 'vendored 2 files\n', {'importmap.project.json': PROJECT}, {
    b'out': stat.S_IFDIR, b'out/copies': stat.S_IFDIR, b'out/copies/app.mjs': FILES['app.mjs'],
    b'out/copies/b.mjs': FILES['b.mjs']})


def traced(work, *harm):
    """a new folder in which a command was run with harm done at a call, how it ended, and the trace of its calls"""
    folder = KEPT / 'call'
    shutil.rmtree(folder, ignore_errors=True)
    folder.mkdir()
    work.put(folder)
    log = KEPT / 'log'
    ended = run(folder, *work.words, before=('strace', '-f', '-o', str(log), '-e', f'trace={CALLS}', *harm))
    return folder, ended, log.read_text(errors='replace')


def calls_of(work):
    """the calls of a run without harm, also those of the system's loader, each by its name and its number among those of it"""
    seen = collections.Counter()
    for name in re.findall(r'^\d+ +(\w+)\(', traced(work)[2], re.M):
        seen[name] += 1
        yield name, seen[name]


def each_call(kind, harm, judge, work):
    """runs a command once for each of its calls of the system, with harm done at this one alone"""
    wrong = []
    for name, number in list(calls_of(work)):
        folder, (ended, out, said), log = traced(work, '-e', f'inject={name}:{harm}:when={number}')
        endings['killed' if judge is killed else f'status {ended}'] += 1
        harmed = '+++ killed' in log if judge is killed else log.count('INJECTED') == 1
        faults = ['' if harmed else 'no harm is done', *judge(work, folder, ended, out, said)]
        wrong += [f'{name} {number}: {it}' for it in faults if it]
    tell(f'{work.words[0]}: {kind}', *wrong[:5])


def killed(work, folder, ended, out, said):
    state, drafts = work.found(folder)
    yield '' if state >= 0 else 'a file is half written'
    yield '' if len(drafts) <= 1 else f'{len(drafts)} drafts are left'
    yield from work.again(folder, state, drafts)


def erring(work, folder, ended, out, said):
    state, drafts = work.found(folder)
    yield '' if state >= 0 and not drafts else 'a file is half written, or a draft is left'
    yield '' if ended in (0, 4, 5, 8) or state == 0 and ended > 0 else f'status {ended}, {out!r}, {said!r}'
    yield '' if state == len(work.made) or ended else 'not all is written, with status 0'
    yield '' if state == 0 or ended in (0, 5) else f'files are written, with status {ended}'
    yield '' if ended != 4 or out == 'fault: read\n' else f'line {out!r}'
    yield '' if ended >= 0 else f'ended by signal {-ended}'


def calls():
    for work in (LINKING, INJECTING, COPYING):
        each_call('killed at each call', f'signal={signal.SIGKILL.name}', killed, work)
        for error in ('EIO', 'ENOSPC', 'EMFILE'):
            each_call(f'{error} at each call', f'error={error}', erring, work)


def outside():
    """that nothing outside the current folder is opened or looked at, but for what the system's loader takes"""
    folder = site('outside')
    put(folder, {'app.mjs': b'import "./b.mjs"; import "../../../etc/passwd.mjs";\n', 'etc/passwd.mjs': b''})
    log = KEPT / 'outside.log'
    before = ('strace', '-f', '-o', str(log), '-e', 'trace=%file')
    ended, out, _ = run(folder, *LINK, before=before)
    names_in = re.findall(r'^\d+ +\w+\((?:AT_FDCWD, )?"([^"]*)"', log.read_text(errors='replace'), re.M)
    loader = ('/etc/ld.so', '/lib', '/usr/lib', '/proc/self', '/sys/kernel/mm', str(PROGRAM))
    far = [it for it in names_in if not it.startswith(loader) and (it.startswith('/') or '..' in it.split('/'))]
    tell('nothing outside the folder', differs('status', ended, 0), differs('line', out,
         'ok: 3 modules, 3 requests, 0 mappings\n'), f'names outside: {far}' if far else '')


def main():
    global PROGRAM
    KEPT.chmod(0o755)
    PROGRAM = pathlib.Path(shutil.copy(PROGRAM, KEPT / 'salimgub'))
    for part in (disks, rights, names, special, streams, talks, growing, calls, outside):
        part()
    shutil.rmtree(KEPT)
    told = ', '.join(f'{count} {ending}' for ending, count in sorted(endings.items()))
    print(f'{endings.total()} runs harmed at a call of the system: {told}')
    print(f'{counts["passed"]} passed, {counts["failed"]} failed')
    return counts['failed'] > 0


sys.exit(main())
