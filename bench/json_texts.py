"""JSON texts of 16 MiB, each of one shape, written to a folder: `json_texts.py FOLDER`. The layer `values` of
layer_measure reads them."""

import itertools
import os
import sys

SIZE = 16 * 1024 * 1024
MOST_BRACKETS = 128


def listed(items, size=SIZE):
    """A list of as many of the items as the size has room for."""
    parts = []
    left = size - 2
    for item in items:
        left -= len(item) + 1
        if left < 0:
            break
        parts.append(item)
    return "[" + ",".join(parts) + "]"


def numbers():
    return (str((i * 7919) % 1000000) for i in itertools.count())


def digits():
    return (str(i % 10) for i in itertools.count())


def fractions():
    return (f"-{i % 1000}.{(i * 7919) % 100000}e{i % 30}" for i in itertools.count())


def words():
    return (f'"word number {i}"' for i in itertools.count())


def long_string():
    line = "The quick brown fox jumps over the lazy dog. "
    return '"' + line * ((SIZE - 2) // len(line)) + '"'


def escapes():
    piece = "\\u00e9 and \\n and \\ud83d\\ude00 "
    return '"' + piece * ((SIZE - 2) // len(piece)) + '"'


def one_object():
    """500,000 keys, and values that fill the size."""
    keys = 500000
    value = "v" * (SIZE // keys - len('"key 499999":"",'))
    return "{" + ",".join(f'"key {i:06}":"{value}"' for i in range(keys)) + "}"


def small_objects():
    return (f'{{"id":{i},"name":"item {i}","on":true}}' for i in itertools.count())


def deep(opening, inner, closing):
    """One value within as many brackets as may be open beside that of the list of them."""
    depth = MOST_BRACKETS - 1
    return itertools.repeat(opening * depth + inner + closing * depth)


def brackets(depth):
    """Lists in a list, this deep."""
    return "[" * depth + "]" * depth


TEXTS = {
    "long_string": long_string,
    "escapes": escapes,
    "words": lambda: listed(words()),
    "numbers": lambda: listed(numbers()),
    "fractions": lambda: listed(fractions()),
    "small_objects": lambda: listed(small_objects()),
    "digits": lambda: listed(digits()),
}
TOLD = {
    "object_500000": one_object,
    "arrays_of_four_numbers_128_deep": lambda: listed(deep("[1,22,333,4444,", "5", "]")),
    "arrays_of_two_numbers_128_deep": lambda: listed(deep("[10,20,", "30", "]")),
    "arrays_of_two_texts_128_deep": lambda: listed(deep('["one","two",', '"three"', "]")),
    "objects_128_deep": lambda: listed(deep('{"key":', "1", "}")),
    "arrays_of_a_digit_128_deep": lambda: listed(deep("[1,", "2", "]")),
    "brackets_128_deep": lambda: listed(deep("[", "", "]")),
    "brackets_and_numbers_within": lambda: listed(deep("[", "1,22,333,4444", "]")),
    "digits_beside_brackets_128_deep": lambda: listed(itertools.repeat("[" + "0," * 33 + brackets(126) + "]")),
    "brackets_in_members": lambda: listed(itertools.repeat('{"":' + brackets(126) + "}")),
    "short_lists_in_members": lambda: listed(itertools.repeat('{"":[0]}')),
}


def main(folder):
    os.makedirs(folder, exist_ok=True)
    for name, text in (TEXTS | TOLD).items():
        with open(os.path.join(folder, f"{name}.json"), "w", encoding="utf-8") as file:
            file.write(text())


if __name__ == "__main__":
    main(sys.argv[1])
