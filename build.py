#!/usr/bin/env python3
"""Proves the crates that the program is made of, several at a time, and builds it as crates/generator_cli/out/generator_cli.

build.sh calls it. It says as each crate is done how many of how many that is, and the minutes so far; what the prover says of a
crate stands in its out/built/log. A crate that was proved here before, from the same files over the same libraries, isn't proved
again. `build.py --lanes 1` takes one crate after another, `--anew` keeps nothing from before.
"""
import argparse
import concurrent.futures
import functools
import hashlib
import os
import pathlib
import shutil
import subprocess
import sys
import time

ROOT = pathlib.Path(__file__).resolve().parent
PROGRAM = 'generator_cli'
# What a proof takes of memory at the most, in bytes.
ROOM = 2_500_000_000
# What a crate without code takes, as so many lines of code: its proofs take little beside the reading of what lies below.
LEAST = 100
# By how much each proof stands behind the next more urgent one, in steps of the system's priorities.
STEP = 3


def kit():
    """the folder of the toolchain: rt tells a page that lies in it"""
    told = subprocess.run(['rt', 'doc'], capture_output=True, text=True, check=True).stdout
    return pathlib.Path(told.strip()).parent


def listed():
    """the names behind each crate's own in crates.txt"""
    lines = (line.split('#')[0] for line in (ROOT / 'crates.txt').read_text(encoding='utf8').splitlines())
    pairs = (line.split(':', 1) for line in lines if ':' in line)
    return {name.split()[0]: names.split() for name, names in pairs}


class Crate:
    """a crate of this repository: what it uses of the repository and of the kit"""

    def __init__(self, name, names, all_names):
        self.name, self.folder = name, ROOT / 'crates' / name
        self.own = [it for it in names if it in all_names]
        self.of_kit = ['std', *(it for it in names if it not in all_names)]
        self.built = self.folder / 'out' / 'built'
        self.rlib = self.built / f'{name}.rlib'

    def files(self):
        """its sources, in one order"""
        parts = (self.folder / part for part in ('src', 'specs', 'proofs'))
        return sorted(it for part in parts for it in part.rglob('*') if it.suffix in ('.rt', '.antt'))


def below(crates, name, found):
    """the crates that this one uses, each behind those that it uses itself, and then this one"""
    for other in crates[name].own:
        if other not in found:
            below(crates, other, found)
    found[name] = crates[name]
    return found


def stamps(crates, toolchain):
    """for each crate a sum of all that its proof reads"""
    found = {}
    for name, crate in crates.items():
        text = hashlib.sha256(repr((toolchain, crate.of_kit, [found[it] for it in crate.own])).encode())
        for file in crate.files():
            text.update(repr((str(file.relative_to(crate.folder)), file.read_bytes())).encode())
        found[name] = text.hexdigest()
    return found


def words(crates, crate, kit_folder):
    """the words of a build, but for what it makes and by how many jobs"""
    said = ['--crate-name', crate.name, 'src/main.rt' if crate.name == PROGRAM else 'src/lib.rt']
    for name in crate.of_kit:
        said += ['--extern', f'{name}={kit_folder}/rlibs/{name}.rlib']
    said += ['-L', f'dependency={kit_folder}/rlibs']
    for name in crate.own:
        said += ['--extern', f'{name}={crates[name].rlib}']
    for name in below(crates, crate.name, {}):
        said += ['-L', f'dependency={crates[name].built}']
    return [*said, '--antt-project', f'{kit_folder}/rattle/logic/antt-project.json', '--logic-built',
            f'{kit_folder}/logic_built', '--links', f'{crate.name}=']


def run(crate, behind, command):
    """runs a command in the crate's folder, its output in the crate's log, so many steps behind others; whether it succeeded"""
    with open(crate.built / 'log', 'a', encoding='utf8') as log:
        started = subprocess.Popen(command, cwd=crate.folder, stdin=subprocess.DEVNULL, stdout=log, stderr=log)
        os.setpriority(os.PRIO_PROCESS, started.pid, os.getpriority(os.PRIO_PROCESS, 0) + behind)
        return not started.wait()


def prove(crates, crate, kit_folder, rank, jobs, stamp):
    """proves a crate and builds its library, or the program, behind `rank` others; whether that succeeded"""
    run_one = functools.partial(run, crate, STEP * rank)
    shutil.rmtree(crate.built, ignore_errors=True)
    crate.built.mkdir(parents=True)
    rattle = [f'{kit_folder}/bin/rattle', 'build', *words(crates, crate, kit_folder), '--jobs', str(jobs)]
    if crate.name != PROGRAM:
        is_made = run_one([*rattle, '--statements', '-o', str(crate.rlib)])
    else:
        toolchain = ['--toolchain', f'{kit_folder}/toolchain']
        made, program = str(crate.built / f'{PROGRAM}.o'), str(crate.folder / 'out' / PROGRAM)
        libraries = [f'{kit_folder}/c/libos_c.a', f'{kit_folder}/c/liblibc_c.a']
        link = [f'{kit_folder}/bin/rattle-link', '--target', 'x86_64-unknown-linux-gnu', *toolchain, '-o', program]
        is_made = run_one([*rattle, *toolchain, '--backend', 'llvm', '-o', made]) and run_one([*link, made, *libraries])
    if is_made:
        (crate.built / 'stamp').write_text(stamp, encoding='utf8')
    return is_made


def is_kept(crate, stamp):
    """whether the crate was proved here before, from the same files"""
    kept = crate.built / 'stamp'
    return kept.is_file() and kept.read_text(encoding='utf8') == stamp and crate.rlib.exists()


def chains(crates):
    """for each crate how much work lies on the longest way from it up to the program, in lines of code"""
    found = dict.fromkeys(crates, 0)
    for name in reversed(crates):
        lines = sum(it.read_bytes().count(b'\n') for it in crates[name].files() if it.suffix == '.rt')
        found[name] += LEAST + lines
        for other in crates[name].own:
            found[other] = max(found[other], found[name])
    return found


def lanes():
    """how many proofs go beside each other: one a processor, as far as memory goes"""
    with open('/proc/meminfo', encoding='ascii') as told:
        free = next(int(line.split()[1]) * 1024 for line in told if line.startswith('MemAvailable'))
    return max(1, min(len(os.sched_getaffinity(0)), free // ROOM))


def build(crates, kept, kit_folder, stamp_of, many, most):
    """proves all crates but those that are kept, those with the longest way up first; the name of one that failed, if one did"""
    began, total, way = time.monotonic(), len(crates), chains(crates)
    left, done, running = sorted(crates.keys() - kept, key=lambda it: -way[it]), set(kept), {}
    # One more where each lane has a proof, and none of these has as long a way up.
    with concurrent.futures.ThreadPoolExecutor(many + 1) as pool:
        while left or running:
            for name in [it for it in left if all(other in done for other in crates[it].own)]:
                rank = sum(way[it] > way[name] for it in running.values())
                if len(running) >= many and (rank or many == 1 or len(running) > many):
                    break
                left.remove(name)
                # The most urgent may take all processors, the next half of them; the priorities share these out.
                jobs = max(1, most >> rank)
                task = pool.submit(prove, crates, crates[name], kit_folder, rank, jobs, stamp_of[name])
                running[task] = name
            for task in concurrent.futures.wait(running, return_when=concurrent.futures.FIRST_COMPLETED).done:
                name = running.pop(task)
                if not task.result():
                    return name
                done.add(name)
                minutes = (time.monotonic() - began) / 60
                print(f'build.sh: {len(done)} of {total} crates, {minutes:.1f} minutes: {name}', flush=True)
    return None


def main():
    parser = argparse.ArgumentParser(description=__doc__, formatter_class=argparse.RawDescriptionHelpFormatter)
    parser.add_argument('--lanes', type=int, help='how many proofs go beside each other')
    parser.add_argument('--anew', action='store_true', help='keep nothing from before')
    said = parser.parse_args()
    names, kit_folder = listed(), kit()
    crates = below({name: Crate(name, uses, names) for name, uses in names.items()}, PROGRAM, {})
    stamp_of = stamps(crates, (kit_folder / 'WHAT').read_text(encoding='utf8'))
    # The program itself is built anew: one that lies there may be older than what was proved.
    kept = {name for name in crates if name != PROGRAM and not said.anew and is_kept(crates[name], stamp_of[name])}
    if kept:
        print(f'build.sh: {len(kept)} of {len(crates)} crates are as they were proved before', flush=True)
    failed = build(crates, kept, kit_folder, stamp_of, said.lanes or lanes(), lanes())
    if failed:
        log = crates[failed].built / 'log'
        print(f'build.sh: {failed} is not proved; {log} has it all', file=sys.stderr)
        print(*log.read_text(encoding='utf8').splitlines()[-20:], sep='\n', file=sys.stderr)
        return 1
    return 0


sys.exit(main())
