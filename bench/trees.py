"""Trees of modules and of packages, written to disk."""

import os

MOST_REQUESTS = 4000


class Tree:
    """A tree on disk: its folder, its modules' paths in it, the paths of its other files, and how many requests and
    mappings `link ./app.mjs` counts."""

    def __init__(self, folder):
        self.folder = folder
        self.paths = []
        self.records = []
        self.requests = 1
        self.mappings = 0
        self.size = 0
        os.makedirs(folder)

    def write(self, path, text):
        place = os.path.join(self.folder, path)
        os.makedirs(os.path.dirname(place), exist_ok=True)
        with open(place, "w", encoding="utf-8") as file:
            file.write(text)
        self.size += len(text)

    def add(self, path, specifiers, rest=""):
        self.write(path, "".join(f'import "{specifier}";\n' for specifier in specifiers) + rest)
        self.paths.append(path)
        self.requests += len(specifiers)

    def record(self, path, text):
        """A package.json."""
        self.write(path, text)
        self.records.append(path)


def chain(folder, modules):
    """Each module asks for the next one."""
    tree = Tree(folder)
    for i in range(modules):
        name = "app.mjs" if i == 0 else f"m{i}.mjs"
        tree.add(name, [f"./m{i + 1}.mjs"] if i + 1 < modules else [])
    return tree


def fan(folder, modules):
    """The entry asks for hubs, and each hub for leaves of its own."""
    tree = Tree(folder)
    rest = modules - 1
    hubs = max(2, -(-rest // MOST_REQUESTS))
    tree.add("app.mjs", [f"./h{h}.mjs" for h in range(hubs)])
    leaves = [[] for _ in range(hubs)]
    for i in range(rest - hubs):
        leaves[i % hubs].append(i)
    for h, own in enumerate(leaves):
        tree.add(f"h{h}.mjs", [f"./leaves/l{i}.mjs" for i in own])
        for i in own:
            tree.add(f"leaves/l{i}.mjs", [])
    return tree


def deep(folder, modules):
    """A chain through 40 nested folders, down and up again, so that paths and specifiers are long."""
    levels = 40
    names = [f"folder-number-{level}" for level in range(levels)]

    def place(i):
        depth = min(i % (2 * levels), 2 * levels - i % (2 * levels))
        return "/".join(names[:depth] + [f"m{i}.mjs"])

    tree = Tree(folder)
    tree.add("app.mjs", ["./" + place(1)])
    for i in range(1, modules):
        ahead = os.path.relpath(place(i + 1), os.path.dirname(place(i)) or ".")
        ahead = ahead if ahead.startswith("../") else "./" + ahead
        tree.add(place(i), [ahead] if i + 1 < modules else [])
    return tree


def shared(folder, modules):
    """Each module asks for the next ten, so that there are ten times as many requests as modules."""
    tree = Tree(folder)
    for i in range(modules):
        name = "app.mjs" if i == 0 else f"m{i}.mjs"
        tree.add(name, [f"./m{j}.mjs" for j in range(i + 1, min(i + 11, modules))])
    return tree


def packages(folder, count):
    """So many packages in a chain, each with a module of its own and a pattern among its exports, and one that all of
    them ask for, of which every tenth has another version below it."""
    tree = Tree(folder)
    tree.add("app.mjs", ["p0", "p0/x/a", "c"])

    def common(above, version):
        tree.record(f"{above}/node_modules/c/package.json", '{"name":"c","exports":"./index.mjs"}')
        tree.add(f"{above}/node_modules/c/index.mjs", [], f"export const v = {version};\n")

    common(".", 0)
    for i in range(count):
        place = f"node_modules/p{i}"
        tree.record(f"{place}/package.json", f'{{"name":"p{i}","type":"module","exports":'
                    '{".":"./index.js","./x/*":"./x/*.js"}}')
        tree.add(f"{place}/x/a.js", [], "export {};\n")
        tree.add(f"{place}/index.js", ["./x/a.js", "c"] + ([f"p{i + 1}"] if i + 1 < count else []))
        if i % 10 == 3:
            common(place, 1)
    # The versions below are scoped, each to its package.
    tree.mappings = count + 2 + len(range(3, count, 10))
    return tree


def names(folder, modules):
    """Modules 39 folders below the top, each of which asks for bare names that stand in the folder `node_modules` of
    the top, so that each folder on the way is looked at for each name."""
    tree = Tree(folder)
    levels = [f"f{level}" for level in range(39)]
    below = "/".join(levels)
    wanted = modules // 2
    tree.add("app.mjs", [f"./{below}/m{i}.mjs" for i in range(-(-wanted // 50))])
    for i in range(-(-wanted // 50)):
        tree.add(f"{below}/m{i}.mjs", [f"n{name}" for name in range(50 * i, min(50 * i + 50, wanted))])
    for i in range(wanted):
        tree.record(f"node_modules/n{i}/package.json", f'{{"name":"n{i}","exports":"./index.mjs"}}')
        tree.add(f"node_modules/n{i}/index.mjs", [], "export {};\n")
    tree.mappings = wanted
    return tree


def versions(folder, referrers, targets):
    """Modules in folders of one folder that all ask for `c`, of which each folder but the first has a version of its
    own; so many versions and folders. The modules have so many places, and three more with those of the folders."""
    tree = Tree(folder)
    hubs = -(-referrers // MOST_REQUESTS)
    tree.add("app.mjs", [f"./h{h}.mjs" for h in range(hubs)])
    places = [f"all/f{i % targets}/m{i}.mjs" for i in range(referrers)]
    for h in range(hubs):
        tree.add(f"h{h}.mjs", [f"./{place}" for place in places[h::hubs]])
    for place in places:
        tree.add(place, ["c"])
    for above in [".", *(f"all/f{i}" for i in range(1, targets))]:
        tree.record(f"{above}/node_modules/c/package.json", '{"exports":"./index.mjs"}')
        tree.add(f"{above}/node_modules/c/index.mjs", [])
    # One version stands at the top, each other one at its folder.
    tree.mappings = targets
    return tree
