#!/usr/bin/env python3
"""Runs the Python of docs/RECIPES.md on the inputs of crates/recipes, and compares.

Every block of Python on the page is run by CPython's own itertools, and what it gives is written as
the program writes it and compared with crates/recipes/stdout, line by line. It is also looked
whether each block of the page stands word for word in crates/recipes/src: the Python in a doc
comment, the Rattle as it is. The exit status is 1 where something differs.
"""
import re
import sys
from collections import deque, namedtuple
from itertools import accumulate, chain, combinations, dropwhile, filterfalse, groupby, islice
from itertools import pairwise, repeat, tee, zip_longest
from operator import attrgetter, itemgetter, mul
from pathlib import Path

TOP = Path(__file__).resolve().parent.parent
Block = namedtuple("Block", "bus bay start end")
Some = namedtuple("Some", "value")
BLOCKS = [Block(7, 2, 360, 370), Block(12, 2, 379, 480), Block(30, 2, 495, 555), Block(1, 3, 0, 10)]
PLAN = [BLOCKS[0], BLOCKS[1]]
ACTUAL = [BLOCKS[0], BLOCKS[2], BLOCKS[1]]


def minutes(block):
    return block.end - block.start


def at_least_three(number):
    return number >= 3


def consumed(consume):
    numbers = iter(range(6))
    consume(numbers, 3)
    return list(numbers)


def flat(rows):
    return list(chain.from_iterable(rows))


def either(value):
    """What stands in an Option."""
    return None if value is None else Some(value)


# each recipe's name with the call of it that the program makes
CALLS = {
    "long_gaps": lambda f: f(BLOCKS),
    "first_long": lambda f: either(f(BLOCKS)),
    "first_over": lambda f: either(f([5, 9, 30], 10, 20)),
    "third_slots": lambda f: f(range(10)),
    "deviations": lambda f: [(either(p), either(a)) for p, a in f(PLAN, ACTUAL)],
    "nth": lambda f: either(f(range(10), 3)),
    "first_true": lambda f: either(f(range(10), None, at_least_three)),
    "quantify": lambda f: f(range(10), at_least_three),
    "all_equal": lambda f: f([5, 5, 6]),
    "dotproduct": lambda f: f([1, 2, 3], [4, 5, 6]),
    "consume": consumed,
    "list_of": lambda f: f(map(minutes, BLOCKS)),
    "take": lambda f: f(3, range(10)),
    "tail": lambda f: list(f(3, range(10))),
    "flatten": lambda f: list(f([range(2), range(5, 5), range(7, 9)])),
    "unique_justseen": lambda f: list(f(map(attrgetter("bay"), BLOCKS))),
    "iter_index": lambda f: list(f([5, 6, 5, 7, 5], 5)),
    "grouper": lambda f: flat(f(range(7), 3, 99)),
    "triplewise": lambda f: list(f(range(5))),
    "ncycles": lambda f: list(f(range(3), 2)),
    "partition": lambda f: tuple(map(list, f(at_least_three, range(6)))),
    "powerset": lambda f: list(map(list, f([1, 2, 3]))),
}


def written(value):
    """A value as the program writes it."""
    if isinstance(value, Block):
        return "Block { %s }" % ", ".join(f"{k}: {v}" for k, v in value._asdict().items())
    if isinstance(value, Some):
        return f"Some({written(value.value)})"
    if isinstance(value, bool):
        return str(value).lower()
    if isinstance(value, list):
        return f"[{', '.join(map(written, value))}]"
    if isinstance(value, tuple):
        return f"({', '.join(map(written, value))})"
    return str(value)


def line_of(name, value):
    if name == "partition":
        return f"{name} {written(value[0])} {written(value[1])}"
    return f"{name} {written(value)}"


def main():
    page = (TOP / "docs/RECIPES.md").read_text()
    source = "\n".join(p.read_text() for p in sorted((TOP / "crates/recipes/src").glob("*.rt")))
    wrong = []
    names = []
    scope = dict(globals())
    for language, text in re.findall(r"^```(\w+)\n(.*?)^```$", page, re.M | re.S):
        stands = text
        if language == "python":
            stands = "".join(f"/// {row}".rstrip() + "\n" for row in text.splitlines())
            names += re.findall(r"^def (\w+)", text, re.M)
            exec(text, scope)
        if stands not in source:
            wrong.append(f"not in crates/recipes/src: {text.splitlines()[0]}")
    expected = [line_of(name, CALLS[name](scope[name])) for name in names if name in CALLS]
    wrong += [f"{name}: on the page, and not called" for name in names if name not in CALLS]
    wrong += [f"{name}: called, and not on the page" for name in CALLS if name not in names]
    printed = (TOP / "crates/recipes/stdout").read_text().splitlines()
    wrong += [f"CPython: {line}" for line in expected if line not in printed]
    wrong += [f"printed: {line}" for line in printed if line not in expected]
    for line in wrong:
        print(line)
    print(f"{len(names)} recipes compared, {len(wrong)} differ")
    return 1 if wrong else 0


if __name__ == "__main__":
    sys.exit(main())
