#!/usr/bin/env python3
"""The fewest mappings, found by trying all choices: an independent check of the layout.

    .ci/fewest.py [--tables N] [--seed S] [--places N] [--targets N]              prints random needs and the least mappings of each
    .ci/fewest.py --program build/salimgub [the same options]     links a site for each table, and compares its map
    .ci/fewest.py --rows [the same options]     prints such sites as rows of crates/run_rows, each with its map

A table has needs for one specifier: who asks (by URL), and which URL has to come of it. A choice holds targets at some
places; who asks gets the target at the longest of its places that is held, and the specifier itself where none is, which
is a target only where it is a URL. Of the choices with the fewest places that serve all needs the first counts: places
are compared in byte order; at the first at which two choices differ, to hold it comes before not to hold it, and a smaller
target before a greater one. All of this is tried, and nothing of the program's way of finding it is used."""
import argparse
import base64
import hashlib
import itertools
import json
import os
import random
import subprocess
import sys
import tempfile

BASE = 'https://app.test/'


def places(referrer):
    """The referrer, the folders above it, and the top level, longest first."""
    start = referrer.index('://') + 3
    first = referrer.index('/', start)
    folders = [referrer[:i + 1] for i in range(first, len(referrer) - 1) if referrer[i] == '/']
    return [referrer, *reversed(folders), '']


def value(choice, referrer, asked):
    for place in places(referrer):
        if place in choice:
            return choice[place]
    return asked


def serves(choice, asked, needs):
    return all(value(choice, referrer, asked) == target for referrer, target in needs)


def comes_first(one, other):
    """Whether the one choice is ahead at the first place where the two differ."""
    for place in sorted(set(one) | set(other), key=str.encode):
        if one.get(place) != other.get(place):
            if place not in other:
                return True
            if place not in one:
                return False
            return one[place].encode() < other[place].encode()
    return False


def least(asked, needs):
    """The first of the choices with the fewest places, by trying all of them."""
    all_places = sorted({p for referrer, _ in needs for p in places(referrer)}, key=str.encode)
    targets = sorted({target for _, target in needs}, key=str.encode)
    for size in range(len(all_places) + 1):
        best = None
        for held in itertools.combinations(all_places, size):
            for given in itertools.product(targets, repeat=size):
                choice = dict(zip(held, given))
                if serves(choice, asked, needs) and (best is None or comes_first(choice, best)):
                    best = choice
        if best is not None:
            return best
    raise AssertionError('needs that clash')


def random_needs(draw, most_places, most_targets, by_folder):
    """Needs of one specifier whose referrers have so many places at most; by folder: those in one folder have one target."""
    while True:
        asked = 'c' if by_folder or draw.random() < 0.7 else BASE + 'x.mjs'
        targets = [f'{BASE}node_modules/t{i}/index.mjs' for i in range(draw.randint(1, most_targets))]
        if asked != 'c':
            targets[0] = asked
        draw.shuffle(targets)
        needs, of_folder = {}, {}
        for _ in range(draw.randint(1, 6)):
            depth = draw.choice([0, 1, 1, 2, 2, 3])
            folder = BASE + ''.join(draw.choice('ab') + '/' for _ in range(depth))
            target = of_folder.setdefault(folder, draw.choice(targets)) if by_folder else draw.choice(targets)
            needs[folder + draw.choice(['m.mjs', 'n.mjs'])] = target
        if not by_folder and draw.random() < 0.1:
            needs[BASE + 'a/'] = draw.choice(targets)
        if len({p for referrer in needs for p in places(referrer)}) <= most_places:
            return asked, list(needs.items())


def printed(number, asked, needs, choice):
    print(f'table {number}')
    for referrer, target in needs:
        print(f'need {referrer} {asked} {target}')
    for place in sorted(choice, key=str.encode):
        print(f'map {place or "-"} {asked} {choice[place]}')


def site_of(needs):
    """A site in which each referrer asks for `#c`, which its folder's package.json leads to its target: its files, of
    which the modules have URLs; and the entries."""
    records, modules = {}, {}
    for target in sorted({target for _, target in needs}):
        modules[target[len(BASE):]] = ''
        records[os.path.dirname(target[len(BASE):]) + '/package.json'] = {'exports': './index.mjs'}
    for referrer, target in needs:
        path = referrer[len(BASE):]
        modules[path] = 'import "#c";'
        name = target[len(BASE):].split('/')[1]
        records[os.path.join(os.path.dirname(path), 'package.json')] = {'imports': {'#c': name}}
    texts = {path: json.dumps(record, separators=(',', ':')) for path, record in records.items()}
    return texts, modules, ['./' + referrer[len(BASE):] for referrer, _ in needs]


def digest(text):
    return 'sha384-' + base64.b64encode(hashlib.sha384(text.encode()).digest()).decode()


def short(url):
    return './' + url[len(BASE):]


def row_of(number, needs, choice):
    """The site as a row: its files, the command, and the map of the choice with all digests, as it is written."""
    records, modules, entries = site_of(needs)
    yield f'row Table {number}'
    for path, text in sorted({**records, **modules}.items()):
        yield f'/{path}: {text}'.rstrip()
    yield f'$ link --base {BASE} {" ".join(entries)}'
    yield f'=> 0 ok: {len(modules)} modules, {2 * len(needs)} requests, {len(choice)} mappings'
    scopes = {short(place): {'#c': short(choice[place])} for place in sorted(choice, key=str.encode) if place}
    parts = {'imports': {'#c': short(choice[''])} if '' in choice else {}}
    if scopes:
        parts['scopes'] = scopes
    parts['integrity'] = {BASE + path: digest(modules[path]) for path in sorted(modules, key=str.encode)}
    yield '+ /importmap.json:'
    yield from ('| ' + line for line in json.dumps(parts, indent=2).split('\n'))
    yield '+ /importmap.project.json ...'
    yield ''


def linked(program, needs):
    """The mappings that the program gives for these needs, by their places."""
    with tempfile.TemporaryDirectory() as folder:
        records, modules, entries = site_of(needs)
        for path, text in {**records, **modules}.items():
            path = os.path.join(folder, path)
            os.makedirs(os.path.dirname(path), exist_ok=True)
            with open(path, 'w', encoding='utf-8') as file:
                file.write(text)
        done = subprocess.run([os.path.abspath(program), 'link', '--base', BASE, *entries], cwd=folder, capture_output=True, text=True)
        if done.returncode:
            sys.exit(f'{program}: {done.stdout}{done.stderr}')
        with open(os.path.join(folder, 'importmap.json'), encoding='utf-8') as file:
            written = json.load(file)
    def whole(text):
        return BASE + text[2:] if text.startswith('./') else text
    found = {'': written['imports'], **{whole(key): scope for key, scope in written.get('scopes', {}).items()}}
    return {(place, key): whole(address) for place, scope in found.items() for key, address in scope.items()}


def main():
    options = argparse.ArgumentParser(description=__doc__.splitlines()[0])
    options.add_argument('--tables', type=int, default=2000)
    options.add_argument('--seed', type=int, default=1)
    options.add_argument('--places', type=int, default=8)
    options.add_argument('--targets', type=int, default=3)
    options.add_argument('--program')
    options.add_argument('--rows', action='store_true')
    chosen = options.parse_args()
    draw = random.Random(chosen.seed)
    for number in range(1, chosen.tables + 1):
        asked, needs = random_needs(draw, chosen.places, chosen.targets, chosen.rows or chosen.program is not None)
        # A row has two targets at least.
        while chosen.rows and len({target for _, target in needs}) < 2:
            asked, needs = random_needs(draw, chosen.places, chosen.targets, True)
        choice = least(asked, needs)
        if chosen.rows:
            print('\n'.join(row_of(number, needs, choice)))
            continue
        if not chosen.program:
            printed(number, asked, needs, choice)
            continue
        wanted = {(place, '#c'): target for place, target in choice.items()}
        found = linked(chosen.program, needs)
        if found != wanted:
            printed(number, asked, needs, choice)
            sys.exit(f'table {number}: the program maps {found}')
    if chosen.program:
        print(f'{chosen.tables} tables: the program gives the least map of each')


main()
