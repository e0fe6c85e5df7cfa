#!/usr/bin/env python3
"""Processor minutes of the gate, by crate.

`docs/minutes.py run FILE [WORDS..]` runs `rt ci WORDS..` at the top of the repository in the current folder, looks twice a second at
what processes it has and how much processor time each took, and writes what it saw to FILE, each half minute and at the end.
`docs/minutes.py table FILE [BEFORE]` prints a table of FILE, with what an earlier run took beside it; crates that took less than a
minute in each run are its line `others`.

Proofs: the building of libraries and programs. Tests: the building of `#[test]` functions. Edits: what must-fail edits took, with
the checks that they begin with. Runs: programs and tests that were run. What a process took after the last look at it is missing;
the whole, which the system counts exactly, is told below the table.
"""
import json
import os
import re
import subprocess
import sys
import time

TICKS = os.sysconf('SC_CLK_TCK')
KINDS = ('proofs', 'tests', 'edits', 'runs')


def read_stat(pid):
    """a process's parent, birth, own seconds, and those of the children it waited for"""
    with open(f'/proc/{pid}/stat', encoding='utf8', errors='replace') as file:
        fields = file.read().rsplit(')', 1)[1].split()
    times = [int(it) / TICKS for it in fields[11:15]]
    return int(fields[1]), fields[19], times[0] + times[1], times[2] + times[3]


def processes():
    """all processes that are there"""
    found = {}
    for name in filter(str.isdigit, os.listdir('/proc')):
        try:
            found[int(name)] = read_stat(name)
        except OSError:
            pass
    return found


def below(root, found):
    """the processes below one, each behind its parent"""
    children = {}
    for pid, (parent, *_) in found.items():
        children.setdefault(parent, []).append(pid)
    left = list(children.get(root, []))
    while left:
        pid = left.pop(0)
        left += children.get(pid, [])
        yield pid


def classify(pid, above):
    """the crate and the kind of a process: that of what started it, if this has one"""
    if above:
        return above
    try:
        with open(f'/proc/{pid}/cmdline', encoding='utf8', errors='replace') as file:
            words = file.read().split('\0')
        folder = os.readlink(f'/proc/{pid}/cwd')
    except OSError:
        return None
    crate = words[words.index('--crate-name') + 1] if '--crate-name' in words else None
    if crate:
        is_edit = not re.search(rf'/crates/{crate}$', folder)
        return crate, 'edits' if is_edit else 'tests' if '--test' in words else 'proofs'
    ran = re.search(r'/crates/(\w+)/', ' '.join([*words, folder + '/']))
    return (ran[1], 'runs') if ran else None


def look(runner, seen):
    """looks once at each process of the run; the whole as the system counts it, or nothing where the run has ended"""
    found = processes()
    for pid in below(runner.pid, found):
        parent, born, own, _ = found[pid]
        above = next((it['of'] for key, it in seen.items() if key[0] == parent and it['of']), None)
        kept = seen.setdefault((pid, born), {'of': classify(pid, above), 'own': 0})
        kept['of'] = kept['of'] or classify(pid, above)
        kept['own'] = own
    return sum(found[runner.pid][2:]) if runner.pid in found else 0


def write(file, seen, whole, clock, status):
    """writes the seconds by crate and kind; the status is nothing until the run ends"""
    rows, other = {}, 0
    for it in seen.values():
        if it['of']:
            crate, kind = it['of']
            row = rows.setdefault(crate, dict.fromkeys(KINDS, 0))
            row[kind] += it['own']
        else:
            other += it['own']
    told = {'clock': clock, 'whole': whole, 'other': other, 'rows': rows, 'status': status}
    with open(file, 'w', encoding='utf8') as out:
        json.dump(told, out, indent=1, sort_keys=True)


def run(file, words):
    """runs the gate, and writes what it took so far each half minute"""
    began, seen, whole, due = time.monotonic(), {}, 0, 30
    with subprocess.Popen(['rt', 'ci', *words]) as runner:
        while runner.poll() is None:
            whole = max(whole, look(runner, seen))
            clock = time.monotonic() - began
            if clock >= due:
                write(file, seen, whole, clock, None)
                due = clock + 30
            time.sleep(0.5)
    write(file, seen, whole, time.monotonic() - began, runner.returncode)
    return runner.returncode


def minutes(row, kind):
    """as the table shows it; nothing for what took nothing"""
    seconds = row[kind] if row else 0
    return f'{seconds / 60:.1f}' if seconds >= 3 else ''


def gathered(runs, names):
    """what these crates took together, in each run"""
    return [{kind: sum(rows[name][kind] for name in names if name in rows) for kind in KINDS} for rows in runs]


def tell(name, told):
    """prints the whole of a run"""
    end = '' if told['status'] == 0 else ', and had not passed then'
    print(f'\n{name}: {told["whole"] / 60:.0f} processor minutes as the system counts them, {told["clock"] / 60:.0f} by the clock{end}.')


def table(file, before):
    """prints a crate a line, those that took most first, and beside each what it took in an earlier run"""
    told = [json.load(open(it, encoding='utf8')) for it in (before, file) if it]
    heads = [f'{kind.capitalize()}{of}' for kind in KINDS for of in ((', before', ', after') if before else ('',))]
    print('|'.join(['Crate', *heads]) + '\n' + '|'.join(['---'] * (1 + len(heads))))
    taken = [it['rows'] for it in told]
    took = {name: sum(sum(rows[name].values()) for rows in taken if name in rows) for rows in taken for name in rows}
    names = sorted(took, key=took.get, reverse=True)
    small = [name for name in names if all(sum(rows[name].values()) < 60 for rows in taken if name in rows)]
    lines = [(f'`{name}`', [rows.get(name) for rows in taken]) for name in names if name not in small]
    for name, rows in [*lines, ('others', gathered(taken, small)), ('together', gathered(taken, names))]:
        print('|'.join([name, *(minutes(row, kind) for kind in KINDS for row in rows)]))
    for name, it in zip(('Before', 'After') if before else ('Here',), told):
        tell(name, it)


def main(words):
    """run FILE WORDS.. or table FILE [BEFORE]"""
    if len(words) >= 2 and words[0] == 'run':
        return run(words[1], words[2:])
    if 2 <= len(words) <= 3 and words[0] == 'table':
        table(words[1], words[2] if len(words) == 3 else None)
        return 0
    print(__doc__, file=sys.stderr)
    return 2


sys.exit(main(sys.argv[1:]))
