#!/usr/bin/env python3
"""The steps of random sessions, against a bound that is counted here: steps.py [--program FILE] [--sessions N] [--seed N].

A step is a call of `outline`, which reads a module's text, or of `resolve`, which finds where a specifier leads and doesn't call
itself. The program counts them in ghosts alone, so gdb counts how often a running one comes there. The bound is worked out from
the trees (asked.py): an opening may take a step for each question of its trace, up to its refusal; an edit one for each that is
fresh, which wasn't asked for the map before, or looked where another tree is now; an edit that can't be made none. Replies must
be those that the trace foresees. Each session is run anew with one edit more, so that the steps of each edit are known. Sessions
of crates/run_rows/data are held to bounds that stand there (session_rows.py), which are those of the trace where it foresees them.
"""
import base64
import hashlib
import os
import pathlib
import random
import re
import shutil
import subprocess
import sys
import tempfile

from asked import Trace
from session_rows import replies, rows
from sessions import TEXTS, Refused, Site, changed, given_words, random_change, random_site

STEPS = re.compile(r'es_module_parser::reading::outline::<|node_resolve::esm_resolve::resolve::<')
# more that a package.json of a random site may hold
TEXTS += ['{"imports":{"#*":["../out.js",null,"./lib/*.mjs"],"#n":{"node":"./q","default":["q","./lib/a.js"]}},"main":"./d"}',
          '{"name":"c","exports":{"./*":"./*","./x":["c.mjs","./c.mjs"],".":[]},"imports":{"#n":"c/x"}}', '{"main":"index","type":"module"}']


class Counter:
    """Counts the steps of runs of a program."""

    def __init__(self, program):
        if not shutil.which('gdb') or not shutil.which('nm'):
            raise SystemExit('steps: gdb or nm is missing')
        self.program = program
        symbols = subprocess.run(['nm', program], stdout=subprocess.PIPE, text=True, check=True).stdout.splitlines()
        # Of two functions with one body one symbol is enough.
        self.places = {it.split()[0]: it.split(maxsplit=2)[2] for it in symbols if STEPS.search(it)}
        if len({it.split('::<')[0] for it in self.places.values()}) < 2:
            raise SystemExit(f'steps: {program} has no such functions')

    def steps(self, folder, inputs):
        """how many steps a session in this folder takes for each input, and what it says to the last"""
        told, said = folder / 'told', folder / 'said'
        # The C library's debug information would be read at each run.
        words = ['set debug-file-directory /none', *(f"break '{it}'" for it in self.places.values())]
        words.append('python for it in gdb.breakpoints(): it.ignore_count = 1000000000')
        for number, text in enumerate(inputs):
            told.with_suffix(f'.{number}').write_bytes(text)
            words.append(f'run session <{told}.{number} >{said}')
            words.append('python print("steps", sum(it.hit_count for it in gdb.breakpoints()))')
        ran = subprocess.run(['gdb', '-nx', '-batch', *(word for it in words for word in ('-ex', it)), self.program], cwd=folder / 'site',
                             stdout=subprocess.PIPE, stderr=subprocess.STDOUT, text=True, check=False,
                             env={**os.environ, 'DEBUGINFOD_URLS': ''}).stdout
        counts = [int(it) for it in re.findall(r'^steps (\d+)$', ran, re.MULTILINE)]
        if len(counts) != len(inputs) or ran.count(') exited ') != len(inputs):
            raise SystemExit(f'steps: gdb says {ran}')
        return counts, said.read_text().splitlines()

    def each(self, folder, inputs):
        """how many steps each part of a session takes, and what it says"""
        counts, said = self.steps(folder, [it + b'end\n' for it in inputs])
        return [count - before for count, before in zip(counts, [0, *counts])], said


def told_text(edit, alone):
    """the lines that tell an edit"""
    text = b''.join(f'{kind} {name}'.encode() + (b'' if content is None else b' %d\n' % len(content) + content) + b'\n'
                    for kind, name, content in edit)
    return text if alone else b'begin\n' + text + b'commit\n'


class Told:
    """A session as it is foreseen: for the opening and each edit what is told, the line, and how many steps it may take, and how
    many if all were asked anew."""

    def __init__(self, site):
        self.start, self.before = site, Trace(site)
        self.inputs, self.lines, self.edits = [b''], [self.before.line], []
        self.most, self.anew, self.fewest = [len(self.before.asked)], [len(self.before.asked)], len(self.before.looks)

    def tell(self, edit, alone):
        self.inputs.append(self.inputs[-1] + told_text(edit, alone))
        self.edits.append(edit)
        try:
            trace = Trace(changed(self.before.site, edit))
        except Refused as why:
            self.foresee(str(why), 0, 0)
            return
        self.foresee(trace.line, trace.fresh_behind(self.before), len(trace.asked))
        if trace.is_right:
            self.before = trace

    def foresee(self, line, most, anew):
        self.lines.append(line)
        self.most.append(most)
        self.anew.append(anew)

    def wrong(self, counter, room):
        """what is wrong with it, where something is; the steps of its opening and edits"""
        self.start.write(room / 'site')
        taken, said = counter.each(room, self.inputs)
        if without_mappings(said) != self.foreseen():
            return f'{said} said, {self.foreseen()} foreseen', taken
        if self.before.is_right and taken[0] < self.fewest:
            return f'{taken[0]} steps for {self.fewest} questions: gdb misses some', taken
        return too_many(taken, self.most), taken

    def foreseen(self):
        return self.lines + ['end'] * self.before.is_right


def without_mappings(lines):
    return [re.sub(r', \d+ mappings$', '', it) for it in lines]


def too_many(taken, most):
    """the opening and the edits that take more steps than they may"""
    names = ['the opening', *(f'edit {number}' for number in range(1, len(most)))]
    return ', '.join(f'{name}: {count} steps, {bound} fresh' for name, count, bound in zip(names, taken, most) if count > bound)


def worth(trace, before=None):
    """how much a trace is to be wished: that it isn't refused, that something is fresh behind the one before, and its questions"""
    return trace.is_right, before is not None and trace.fresh_behind(before) > 0, len(trace.asked)


def random_edit(chance, before):
    """an edit, and the worth of what it leaves"""
    edit = [random_change(chance, before.site) for _ in range(chance.choice((1, 1, 1, 2, 3, 0)))]
    try:
        return worth(Trace(changed(before.site, edit)), before), edit
    except Refused:
        return (), edit


def random_session(chance):
    """a session over the best of some random sites; of some edits each time the best is told"""
    told = Told(max((random_site(chance) for _ in range(chance.choice((1, 50, 200)))), key=lambda it: worth(Trace(it))))
    for _ in range(chance.randint(1, 4) if told.before.is_right else 0):
        _, edit = max((random_edit(chance, told.before) for _ in range(chance.choice((1, 10, 40)))), key=lambda it: it[0])
        told.tell(edit, len(edit) == 1 and chance.random() < 0.7)
    return told


def packages(count):
    """the tree that `measure` makes"""
    files = {'/app.mjs': 'import "p0";\nimport "p0/x/a";\nimport "c";\n', '/node_modules/c/index.mjs': 'export const v = 0;\n'}
    for number in range(count):
        at = f'/node_modules/p{number}'
        files[at + '/package.json'] = f'{{"name":"p{number}","type":"module","exports":{{".":"./index.js","./x/*":"./x/*.js"}}}}'
        files[at + '/x/a.js'] = 'export {};\n'
        files[at + '/index.js'] = 'import "./x/a.js";\nimport "c";\n' + (f'import "p{number + 1}";\n' if number + 1 < count else '')
        if number % 10 == 3:
            files[at + '/node_modules/c/index.mjs'] = 'export const v = 1;\n'
    for path in [it for it in files if it.endswith('/c/index.mjs')]:
        files[path.replace('index.mjs', 'package.json')] = '{"name":"c","exports":"./index.mjs"}'
    return site_of(files, './app.mjs')


def site_of(files, entry):
    site = Site({}, (), [entry])
    for path, text in files.items():
        site.put(path, text.encode())
    return site


def named_sessions():
    """sessions with stated bounds: a package that is put nearer, and one file of many packages that is put anew"""
    nearer = Told(site_of({'/lib/m.mjs': 'import "c";', '/node_modules/c/package.json': '{"exports":"./c.mjs"}', '/node_modules/c/c.mjs': ''},
                          './lib/m.mjs'))
    nearer.tell([('put', '/lib/node_modules/c/package.json', b'{"exports":"./d.mjs"}'), ('put', '/lib/node_modules/c/d.mjs', b'')], False)
    yield 'a nearer package', nearer, [4, 2]
    yield 'one file of 200 packages', one_file_of_many(), [1025, 2]


def one_file_of_many():
    many = Told(packages(200))
    many.tell([('put', '/node_modules/p7/x/a.js', b'export{};')], True)
    return many


def other_lines(program, told, room):
    """the lines of the map behind a session's edit that its map before it has otherwise"""
    told.start.write(room / 'site')
    said = subprocess.run([program, 'session'], cwd=room / 'site', input=b'map\n' + told.inputs[-1] + b'map\nend\n',
                          stdout=subprocess.PIPE, check=True).stdout
    before, behind = (it.decode().split('\n') for it in replies(said)[1])
    return [line for one, line in zip(before, behind) if one != line] if len(before) == len(behind) else behind


def wrong_map(program, room):
    """what is wrong with the map behind an edit of one file of many packages, where something is"""
    found = other_lines(program, one_file_of_many(), room)
    digest = base64.b64encode(hashlib.sha384(b'export{};').digest()).decode()
    wanted = [f'    "https://app.test/node_modules/p7/x/a.js": "sha384-{digest}"']
    return '' if [it.rstrip(',') for it in found] == wanted else f'{found} of the map, not {wanted}'


def wrong_row(counter, row, room):
    """what is wrong with a session of the row files, where something is"""
    if row.is_plain():
        told = Told(row.site)
        for edit in row.edits:
            told.tell(*edit)
        if (told.most, told.foreseen()) != (row.bounds, without_mappings(row.lines)):
            return f'{told.most} fresh and {told.foreseen()} foreseen, {row.bounds} and {row.lines} there'
    row.write(room / 'site')
    inputs = [b'']
    for edit in row.edits:
        inputs.append(inputs[-1] + told_text(*edit))
    taken, said = counter.each(room, inputs)
    return too_many(taken, row.bounds) if said == row.lines else f'{said} said, {row.lines} there'


def tell_rows(counter, room):
    """what is wrong with the first session of the row files with which something is, and how many there are"""
    tried = list(rows())
    for row in tried:
        wrong = wrong_row(counter, row, room)
        if wrong:
            return f'{row.name}: {wrong}'
    edits, plain = sum(len(it.edits) for it in tried), sum(it.is_plain() for it in tried)
    print(f'{len(tried)} sessions of {len({it.name for it in tried})} rows, {plain} of them foreseen, {edits} edits')
    return '' if tried else 'no rows'


def main():
    given = given_words(200)
    counter, edits = Counter(str(pathlib.Path(given.program).resolve())), []
    shared = pathlib.Path('/dev/shm')
    with tempfile.TemporaryDirectory(dir=shared if shared.is_dir() else None) as room:
        for name, told, stated in named_sessions():
            wrong, taken = told.wrong(counter, pathlib.Path(room))
            if wrong or any(it > most for it, most in zip(taken, stated)):
                print(f'{name}: {taken} steps, {stated} stated; {wrong}')
                return 1
        wrong = wrong_map(counter.program, pathlib.Path(room)) or tell_rows(counter, pathlib.Path(room))
        if wrong:
            print(wrong)
            return 1
        for number in range(given.sessions):
            told = random_session(random.Random(given.seed * 1000003 + number))
            wrong, taken = told.wrong(counter, pathlib.Path(room))
            if wrong:
                print(f'session {number}: {wrong}\n{told.start.entries} {told.start.files}\n{told.edits}')
                return 1
            edits += zip(taken[1:], told.most[1:], told.anew[1:])
    steps, most, anew = (sum(it) for it in zip((0, 0, 0), *edits))
    none = sum(it[0] == 0 for it in edits)
    print(f'{given.sessions} random sessions, {len(edits)} edits, {none} of them without a step: {steps} steps, {most} fresh, {anew} anew')
    return 0 if 0 < none < len(edits) else 1


if __name__ == '__main__':
    sys.exit(main())
