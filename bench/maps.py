"""Texts of import maps for `check`."""

BASE = "https://app.test/"


def entries(size, entry):
    """As many entries, by their numbers, as fit into so many bytes with a comma and a line's end behind each."""
    made = []
    while True:
        text = entry(len(made))
        size -= len(text) + 2
        if size < 0:
            return made
        made.append(text)


def part(name, made):
    """An object with these entries as the part of a map."""
    return f'"{name}":{{' + ",\n".join(made) + "}"


def whole(*parts):
    return "{" + ",".join(parts) + "}"


def filled(size, name, entry):
    """A map of one part that is full up to this size."""
    return whole(part(name, entries(size - len(name) - 8, entry)))


def address(i):
    return f"{BASE}node_modules/p{i}/index.js"


def scope(i):
    return f'    "./node_modules/p{i}/": {{\n      "c": "./node_modules/c/index.mjs"\n    }}'


def digest(i):
    return f'    "{address(i)}": "sha384-{i:064}"'


def printed(size):
    """Keys, scopes and digests, a third of the text each, in the form that `link` prints."""
    third = (size - 100) // 3
    parts = [
        ("imports", entries(third, lambda i: f'    "p{i}": "./node_modules/p{i}/index.js"')),
        ("scopes", entries(third, scope)),
        ("integrity", entries(third, digest)),
    ]
    return "{\n" + ",\n".join(f'  "{name}": {{\n' + ",\n".join(made) + "\n  }" for name, made in parts) + "\n}\n"


def relative(size):
    """Addresses that have to be read against the base."""
    return filled(size, "imports", lambda i: f'"p{i}":"/node_modules/p{i}/index.js"')


def scopes(count):
    """So many scopes that apply to no module of a tree but its folder `f`."""
    return whole(part("scopes", [f'"{BASE}f{i}/":{{"c":"{BASE}f{i}/c"}}' for i in range(count)]))


def folders(count):
    """So many keys that end in `/`."""
    return whole(part("imports", [f'"{BASE}f{i}/":"{BASE}f{i}/"' for i in range(count)]))


def one_key(unit):
    """The map of one key that is a text again and again."""
    return lambda size: whole(part("imports", ['"' + unit * ((size - 40) // len(unit)) + '":"/x"']))


def nested(opening, closing):
    """Values that are as deep as a map may have them, again and again."""
    def text(size):
        deep = opening * 126 + "0" + closing * 126
        return '{"x":[' + ",".join([deep] * ((size - 20) // (len(deep) + 1))) + "]}"
    return text


def in_part(name, entry):
    """A map of one part, full up to a size."""
    return lambda size: filled(size, name, lambda i: entry(i, size))


# Maps in other forms.
OTHERS = {
    "addresses against the base": relative,
}

# What a map may have to make its reading slow. Each one is read whole.
HOSTILE = {
    "keys that are one": in_part("imports", lambda i, size: '"a":"/x"'),
    "keys that normalize alike": in_part("imports", lambda i, size: f'"./{i}/../a":"/x"'),
    "scopes that normalize alike": in_part("scopes", lambda i, size: f'"{i}a/..":{{}}'),
    "digests of one module": in_part("integrity", lambda i, size: f'"./{i}/../a":""'),
    "keys alike up to their ends": in_part("imports", lambda i, size: f'"{"k" * 200}{i}":""'),
    "keys from the last to the first": in_part("imports", lambda i, size: f'"{size - i}":null'),
    "numbers from the last to the first as scopes": in_part("scopes", lambda i, size: f'"{size - i}":{{}}'),
    "one key": one_key("k"),
    "one key of slashes": one_key("/"),
    "one key up and down": one_key("/a/.."),
    "one key of escapes": one_key("\\u006b"),
    "one key that is escaped in a URL": one_key("/\\u00e9"),
    "lists 128 deep": nested("[", "]"),
    "objects 128 deep": nested('{"":', "}"),
}
