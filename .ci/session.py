"""A session of build/salimgub over examples/cycle, through pipes both ways: each line is told when the reply to the one before has
come, and replies and maps are those that were typed by hand. Then the example's keeper over files that change."""
import os
import pathlib
import shutil
import subprocess
import sys
import tempfile
import time

ROOT = pathlib.Path(__file__).resolve().parent.parent
sys.path.insert(0, str(ROOT / 'examples' / 'session'))
from keep import Session  # noqa: E402

PROGRAM = str(ROOT / 'build' / 'salimgub')
WANTED = ROOT / 'examples' / 'expected-cycle'
faults = []


def same(what, got, wanted):
    if got != wanted:
        faults.append(f'{what}: {got!r}, not {wanted!r}')


def site(kept):
    """the example as it stands behind `link`"""
    folder = pathlib.Path(kept) / 'cycle'
    shutil.copytree(ROOT / 'examples' / 'cycle', folder)
    shutil.copy(WANTED / 'linked-project.json', folder / 'importmap.project.json')
    return folder


def files(folder):
    return {it: it.read_bytes() for it in folder.rglob('*') if it.is_file()}


def conversation(folder):
    before = files(folder)
    session = Session(PROGRAM, folder)
    same('the opening', session.reply(), 'ok: 3 modules, 4 requests, 2 mappings')
    same('the first map', session.map(), (WANTED / 'linked.json').read_bytes())
    session.put('/app.mjs', (folder / 'app.mjs').read_bytes() + b'import "hello/quiet";\n')
    same('a module that asks for more', session.reply(), 'ok: 4 modules, 5 requests, 3 mappings')
    same('its map', session.map(), (WANTED / 'refreshed.json').read_bytes())
    session.tell('unlink hello')
    same('an entry that is none', session.reply(), 'refused: NotLinked "hello"')
    for line in ('begin', 'unlink hello/loud', 'drop /node_modules/hello/quiet.js', 'commit'):
        session.tell(line)
    same('a file that is missed', session.reply(), 'refused: NotFound from "/app.mjs" for "hello/quiet"')
    same('the map as it was', session.map(), (WANTED / 'refreshed.json').read_bytes())
    session.tell('unlink hello/loud')
    same('an entry less', session.reply(), 'ok: 3 modules, 3 requests, 2 mappings')
    same('its map', session.map(), (WANTED / 'unlinked.json').read_bytes())
    session.tell('end')
    same('the end', session.reply(), 'end')
    same('the status', session.process.wait(10), 0)
    same('what it wrote', files(folder) == before, True)


def ended(folder):
    """an input that ends before `end`, and one that is closed within a file's bytes"""
    for told in (b'', b'begin\nput /app.mjs 9\nimport'):
        ran = subprocess.run([PROGRAM, 'session'], cwd=folder, input=told, stdout=subprocess.PIPE, timeout=10, check=False)
        same('an input cut short', (ran.returncode, ran.stdout.decode()),
             (7, f'ok: 3 modules, 4 requests, 2 mappings\nbad file: session line {1 + told.count(b"begin")}\n'))


def kept(folder):
    """the keeper of the example, while a file is changed, and a file and a folder are renamed and get their names back"""
    keeper = subprocess.Popen([sys.executable, '-B', str(ROOT / 'examples/session/keep.py'), PROGRAM, '0.05'], cwd=folder,
                              stdout=subprocess.PIPE)
    said = [keeper.stdout.readline()]
    time.sleep(0.3)
    with open(folder / 'app.mjs', 'ab') as file:
        file.write(b'import "hello/quiet";\n')
    said.append(keeper.stdout.readline())
    quiet, silent = folder / 'node_modules/hello/quiet.js', folder / 'node_modules/hello/silent.js'
    for old, new in ((quiet, silent), (silent, quiet), (folder / 'node_modules/hello', folder / 'node_modules/hi'),
                     (folder / 'node_modules/hi', folder / 'node_modules/hello')):
        os.rename(old, new)
        said.append(keeper.stdout.readline())
    keeper.terminate()
    keeper.wait(10)
    same('what the keeper says', [it.decode().rstrip('\n') for it in said],
         ['ok: 3 modules, 4 requests, 2 mappings', 'ok: 4 modules, 5 requests, 3 mappings',
          'refused: NotFound from "/app.mjs" for "hello/quiet"', 'ok: 4 modules, 5 requests, 3 mappings',
          'refused: NotFound from "/index.html" for "hello/loud"', 'ok: 4 modules, 5 requests, 3 mappings'])
    same("the keeper's map", (folder / 'importmap.json').read_bytes(), (WANTED / 'refreshed.json').read_bytes())


def main():
    for part in (conversation, ended, kept):
        with tempfile.TemporaryDirectory() as room:
            part(site(room))
    for fault in faults:
        print(f'session: {fault}')
    return 1 if faults else 0


sys.exit(main())
