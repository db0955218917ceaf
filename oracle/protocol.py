"""The text of a scenario and of its answers, as docs/replay.md has them."""

import itertools
import re
import struct
from dataclasses import dataclass

MAXSIZE = 2**63 - 1

# The refusals by what they say. No scenario is long enough for the seventh, of a group call beyond
# 2^32 - 1.
POOL_TOO_LONG, TOO_MANY_PLACES, OTHER_POOL, SHORT_BUFFER, SLICE = 1, 2, 3, 4, 5
STORE_FULL, NO_BRANCH, OTHER_STORE = 6, 8, 9

# How often an adapter or a source is to say end.
ENDS = 3

# What a run of the others holds: places of a row, elements of a pool, places of a store and
# branches
# made at once; and how often no pools are repeated. After so many calls of an ended source in one
# call,
# the driver of the original gives up.
LARGEST = 1000
LONGEST = 1_000_000
PATIENCE = 1000

# The branches of a tee, at the most, and where a making does not say how many.
BRANCHES = 16
TWO = 2

# What stands in a place that nothing was written to.
UNTOUCHED = 7777

# A listing has so many rows at the most; its buffer has so many bytes for a place of each, and so
# many for
# the last line. A scenario's is no longer than the last number.
LISTED_ROWS = 100
PLACE_BYTES = 4
LAST_LINE_BYTES = 5
LONGEST_BUFFER = 32_768

# In the place of an answer to a call that only we refuse.
UNASKED = "unasked"

ENUMERATORS = ("product", "combinations", "replacement", "permutations")

# How many words stand behind the name, and how many parts behind the first.
SHAPES = {
    "range": (2, 0),
    "records": (1, 0),
    "takewhile": (1, 1),
    "dropwhile": (1, 1),
    "chain": (0, 2),
    "islice": (1, 1),
    "compress": (1, 2),
    "accumulate": (2, 1),
    "pairwise": (0, 1),
    "zip_longest": (2, 2),
    "tee": (2, 2),
    "groupby": (1, 2),
    "listing": (3, 1),
    **{name: (2, 1) for name in ENUMERATORS},
}


class Bad(Exception):
    """The line is not of a form."""


class Fault(tuple):
    """A step that is a fault: origin, cause and place."""


class Block(tuple):
    """Bus, bay, start and end."""


PREDICATE_FAULT, KEY_FAULT, JOINING_FAULT = (Fault((origin, 1, 0)) for origin in (2, 3, 4))


@dataclass
class Rule:
    """A rule with its number, where it has one, and the item that it has no answer for."""

    number: int
    bad: int | None


@dataclass
class Making:
    """What the making of an enumerator takes: the pools' lengths, how many places a row has, and
    what says so: how often the pools of a product are repeated, or else the r, None where it is
    absent."""

    name: str
    lengths: list
    width: int
    count: int | None

    @property
    def size(self):
        return sum(self.lengths)

    def refusal(self):
        if any(length > 256 for length in self.lengths):
            return POOL_TOO_LONG
        return TOO_MANY_PLACES if len(self.lengths) > 64 or self.width > 64 else None

    def fitting(self):
        """What a call is lent that does not say: the pool, and buffers that are two longer than a
        row."""
        return self.size, self.width + 2, self.width + 2

    def least_buffer(self):
        """How many bytes a listing has to be lent."""
        return LISTED_ROWS * max(1, PLACE_BYTES * self.width) + LAST_LINE_BYTES

    def refused(self, pool, places, elements):
        if pool != self.size:
            return OTHER_POOL
        return SHORT_BUFFER if min(places, elements) < self.width else None


@dataclass
class Scenario:
    name: str
    given: tuple
    lists: list


def need(condition):
    if not condition:
        raise Bad


def number(word, bits=64):
    """A line is ASCII, so its decimal characters are the ten digits."""
    need(word.isdecimal())
    digits = word.lstrip("0") or "0"
    need(len(digits) <= 20 and int(digits) < 2**bits)
    return int(digits)


def optional(word, absent="-"):
    return None if word == absent else number(word)


def step(word):
    if not word.startswith("!"):
        return number(word)
    numbers = word[1:].split(":")
    need(len(numbers) == 3)
    return Fault(number(n, bits) for n, bits in zip(numbers, (8, 16, 64)))


def steps(part):
    return [] if part == "-" else [step(word) for word in part.split(" ")]


def lent(word):
    """The lengths of the pool and of both buffers that a call is lent; None for those that fit."""
    if word == "n":
        return None
    name, *lengths = word.split(":")
    need(name == "n" and len(lengths) == 3)
    return tuple(number(length) for length in lengths)


def branch(word):
    """A step of a branch and the length of the store that it is lent, None for the tee's own; or a
    copy of a branch."""
    name, *numbers = word[:1], *word[1:].split(":")
    need(name == "c" and len(numbers) == 1 or name == "s" and len(numbers) <= 2)
    return (name, *map(number, numbers), *[None] * (name == "s" and len(numbers) == 1))


def group(word):
    """None for a group call, and the number of an item call."""
    if word == "g":
        return None
    need(word.startswith("i"))
    return number(word[1:])


def calls(part, call):
    return [call(word) for word in part.split(" ")]


def rule(word, name, numbers):
    """A rule of this name; `numbers` tells whether it has a number."""
    first, *rest = word.split(":")
    need(first == name and len(rest) in (numbers, numbers + 1))
    rest = [number(n) for n in rest]
    return Rule(rest[0] if numbers else 0, rest[numbers] if len(rest) > numbers else None)


def entries(word):
    return [] if word == "-" else [optional(entry, "_") for entry in word.split(",")]


def making(name, words):
    if name == "product":
        repeat = number(words[0], 32)
        lengths = [] if words[1] == "-" else [number(length) for length in words[1].split(",")]
        return Making(name, lengths, len(lengths) * repeat, repeat)
    n = number(words[0])
    r = optional(words[1]) if name == "permutations" else number(words[1])
    return Making(name, [n], n if r is None else r, r)


def buffer_size(part):
    """The bytes of a listing's buffer, None for as few as are not refused."""
    size = optional(part)
    need(size is None or size <= LONGEST_BUFFER)
    return size


def framed(kind, payload, length=None):
    """A record: a length, which is its payload's where no other is told, the kind, the payload."""
    return struct.pack("<HH", len(payload) if length is None else length, kind) + payload


def record_bytes(digits):
    need(digits == "-" or re.fullmatch("([0-9a-fA-F]{2})+", digits))
    return bytes.fromhex(digits.replace("-", ""))


def joining(word):
    need(word in ("max", "sum"))
    return word


def key(word):
    if word == "self":
        return None
    modulus = rule(word, "mod", 1)
    need(modulus.number != 0)
    return modulus


# What the words behind a name say.
WORDS = {
    "range": lambda start, stop: (number(start, 32), number(stop, 32)),
    "records": lambda digits: (record_bytes(digits),),
    "takewhile": lambda word: (rule(word, "below", 1),),
    "dropwhile": lambda word: (rule(word, "below", 1),),
    "chain": lambda: (),
    "islice": lambda word: (entries(word),),
    "compress": lambda word: (rule(word, "nonzero", 0),),
    "accumulate": lambda word, initial: (joining(word), optional(initial)),
    "pairwise": lambda: (),
    "zip_longest": lambda left, right: (number(left), number(right)),
    "tee": lambda branches, store: (optional(branches), number(store)),
    "groupby": lambda word: (key(word),),
}


def read(line):
    """A line of bytes as a scenario."""
    need(line.isascii() and line.decode("ascii").isprintable())
    head, *parts = line.decode("ascii").split(" ; ")
    name, *words = head.split(" ")
    need(name in SHAPES and (len(words), len(parts)) == SHAPES[name])
    if name in ENUMERATORS:
        return Scenario(name, (making(name, words),), [calls(parts[0], lent)])
    if name == "listing":
        need(words[0] in ENUMERATORS)
        return Scenario(name, (making(words[0], words[1:]), buffer_size(parts[0])), [])
    given = WORDS[name](*words)
    if name in ("tee", "groupby"):
        return Scenario(name, given,
                        [steps(parts[0]), calls(parts[1], branch if name == "tee" else group)])
    return Scenario(name, given, [steps(part) for part in parts])


class Ahead:
    """The steps that a source has ahead, and how many were drawn. One that is a fault is raised if
    `raises` says how."""

    def __init__(self, listed, raises=None):
        self.listed = listed
        self.drawn = 0
        self.raises = raises

    def __iter__(self):
        return self

    def __next__(self):
        if self.drawn == len(self.listed):
            raise StopIteration
        self.drawn += 1
        drawn = self.listed[self.drawn - 1]
        if self.raises and isinstance(drawn, Fault):
            raise self.raises(drawn)
        return drawn

    def left(self):
        return len(self.listed) - self.drawn


def shown(s):
    if isinstance(s, Fault):
        return "fault %d %d %d" % s
    if isinstance(s, Block):
        return "block %d %d %d %d" % s
    if isinstance(s, tuple):
        return "item %d %d" % s
    return "item %d" % s


def left(sources):
    return " ".join(["left"] + [str(source.left()) for source in sources])


def lent_words(front, length):
    """What stands in a lent buffer or store of a length: what was written to its front, and what
    was there."""
    return [*map(str, front)] + [str(UNTOUCHED)] * (length - len(front))


def told(answer, row, places, picked, elements):
    """The answer to a call, and both buffers."""
    words = [answer, "places", *lent_words(row, places), "elements", *lent_words(picked, elements)]
    return " ".join(words)


def store_line(front, length):
    return " ".join(["store", *lent_words(front[:length], length)])


def listed_lines(rows):
    """The answers to a listing of rows that is not refused."""
    rows = [*itertools.islice(rows, LISTED_ROWS + 1)]
    text = [" ".join(map(str, row)) for row in rows[:LISTED_ROWS]]
    text.append("more" if len(rows) > LISTED_ROWS else "end")
    written = sum(len(line) + 1 for line in text)
    return [f"listed {written}", *(f"| {line}" for line in text), "rest kept"]


def answer_line(line, answers):
    """The answers to a line, where one that is not of a form has an answer of its own."""
    try:
        scenario = read(line)
    except Bad:
        return ["bad scenario"]
    return answers(scenario)


def is_silent(line):
    return not line or line.startswith(b"#")
