"""Runs the rows on disk and a session through pipes with a build/salimgub that is traced, and tells each call that names something
outside the folder of its run, goes to another folder or opens a socket.

What the system's loader and allocator look at before the program begins is passed over: it is named in LOADER.
"""
import os
import pathlib
import re
import shutil
import subprocess
import sys
import tempfile

ROOT = pathlib.Path(__file__).resolve().parent.parent
PROGRAM = pathlib.Path(sys.argv[1] if len(sys.argv) > 1 else ROOT / 'build' / 'salimgub').resolve()
CHECKS = (['sh', '.ci/rows.sh'], [sys.executable, '-B', '.ci/session.py'])
# Calls that take a name, those that go elsewhere, and those that reach for the network or another process.
TRACED = '%file,%network,chdir,fchdir,chroot,open_by_handle_at,io_uring_setup,ptrace,process_vm_readv,mount,setns'
LOADER = re.compile(r'/etc/ld\.so\.(cache|preload)$|(/usr)?/lib(64)?/[^ ]*\.so[.0-9]*$|/proc/self/|/sys/kernel/mm/')
GOES = {'chdir', 'fchdir', 'chroot', 'mount', 'setns', 'ptrace', 'open_by_handle_at', 'process_vm_readv'}
CALL = re.compile(r'^(?:\d+ +)?(\w+)\((.*)\) += ')
NAME = re.compile(r'"((?:[^"\\]|\\.)*)"(\.\.\.)?')
WRAPPER = '''#!/bin/sh
exec strace -f --seccomp-bpf -s 5000 -o "{logs}/$$" -e trace={traced} "{program}" "$@"
'''


def traced_in(kept):
    """a folder with the checks in which the program is traced, and the folder of the traces"""
    logs = kept / 'logs'
    logs.mkdir()
    (kept / 'build').mkdir()
    for part in ('.ci', 'examples'):
        shutil.copytree(ROOT / part, kept / part)
    wrapper = kept / 'build' / 'salimgub'
    wrapper.write_text(WRAPPER.format(logs=logs, traced=TRACED, program=PROGRAM))
    wrapper.chmod(0o755)
    return logs


def is_inside(name):
    """whether a name leads from a folder to what is in it"""
    return not name.startswith('/') and '..' not in name.split('/')


def far(line):
    """what a line of a trace names outside, and how many names it has"""
    call = CALL.match(line)
    if not call:
        return ([] if re.search(r'\+\+\+|---|resumed|unfinished', line) or not line.strip() else [line]), 0
    kind, words = call.groups()
    if kind == 'execve':
        return ([] if f'"{PROGRAM}"' in words.split(', ', 1)[0] else [line]), 0
    names = [name for name, _ in NAME.findall(words)]
    if not names or kind in GOES:
        return [line], 0
    return [line for name in names if not is_inside(name) and not LOADER.match(name)], len(names)


def main():
    kept = pathlib.Path(tempfile.mkdtemp(prefix='salimgub-outside-'))
    logs = traced_in(kept)
    failed = 0
    for words in CHECKS:
        # A check finds its program beside its own file.
        ran = subprocess.run([*words[:-1], str(kept / words[-1])], cwd=kept, capture_output=True, text=True, check=False)
        if ran.returncode:
            failed += 1
            print(f'{words[-1]}: FAILED: {ran.stdout}{ran.stderr}')
    runs, calls, names, told = 0, 0, 0, []
    for log in sorted(logs.iterdir()):
        runs += 1
        for line in log.read_text(errors='replace').splitlines():
            outside, count = far(line)
            calls += 1
            names += count
            told += outside
    for line in told[:20]:
        print(f'outside: {line[:400]}')
    shutil.rmtree(kept)
    print(f'{runs} runs, {calls} calls, {names} names: {len(told)} of them outside the folder')
    return failed > 0 or bool(told) or not names


if __name__ == '__main__':
    os.umask(0o022)
    sys.exit(main())
