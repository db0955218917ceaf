"""Scenarios for the comparison, each once: all small ones, random large ones from a fixed seed, the
edges, and damaged copies of good ones. `families` names them; `further` makes as many random ones
as are wanted, from any seed.
"""

import itertools
import random
import struct

import model
from protocol import (BRANCHES, ENUMERATORS, LARGEST, LONGEST_BUFFER, MAXSIZE, Bad, framed, making,
                      read)

TOP = 2**64 - 1
F, G = "!1:2:3", "!1:5:4294967296"
FULL = f"!255:65535:{TOP}"


def listed(words):
    return " ".join(map(str, words)) or "-"


def lists(alphabet, longest):
    """Every list of words of an alphabet up to a length."""
    for length in range(longest + 1):
        for words in itertools.product(alphabet, repeat=length):
            yield listed(words)


def numbered(longest):
    """Every list up to a length of items, which are numbered, and faults."""
    for length in range(longest + 1):
        for faults in itertools.product((False, True), repeat=length):
            yield listed(f"!1:2:{at}" if fault else 7 + at for at, fault in enumerate(faults))


def faults_at_every_position(length):
    items = [*range(1, length + 1)]
    for at in range(length + 1):
        yield listed(items[:at] + [F] + items[at:])
        yield listed(items[:at] + [F, G] + items[at:])


# -------------------------------------------------------------------------------------------------
# All small scenarios


def ranges():
    edges = [0, 1, 2, 3, 4, 2**32 - 3, 2**32 - 2, 2**32 - 1]
    for start, stop in itertools.product(edges, repeat=2):
        if stop - start < 1000:
            yield f"range {start} {stop}"


def whiles():
    for name in ("takewhile", "dropwhile"):
        for ahead in lists((0, 1, 2, F), 5):
            yield f"{name} below:1 ; {ahead}"
            yield f"{name} below:1:2 ; {ahead}"
        for ahead in lists((0, 1, F), 4):
            yield f"{name} below:2:0 ; {ahead}"
            yield f"{name} below:0 ; {ahead}"
        for ahead in faults_at_every_position(12):
            yield f"{name} below:7 ; {ahead}"
            yield f"{name} below:99:4 ; {ahead}"


def chains():
    for first, second in itertools.product([*numbered(4)], repeat=2):
        yield f"chain ; {first} ; {second}"


def slices():
    numbers = [*map(str, range(6)), "_"]
    for length in range(8):
        ahead = listed(range(length))
        yield f"islice - ; {ahead}"
        for count in (1, 2, 3):
            for arguments in itertools.product(numbers, repeat=count):
                yield f"islice {','.join(arguments)} ; {ahead}"
    for arguments in itertools.product(("0", "1", "2", "3"), ("0", "1", "2", "4", "_"),
                                       ("0", "1", "2", "3")):
        for ahead in numbered(4):
            yield f"islice {','.join(arguments)} ; {ahead}"
    for arguments in ("1,5", "2,9,3", "1,8,4", "0,_,3", "5,2", "13", "3,12,20"):
        for ahead in faults_at_every_position(12):
            yield f"islice {arguments} ; {ahead}"


def slices_at_the_edges():
    edges = [0, 1, 2, MAXSIZE - 1, MAXSIZE, MAXSIZE + 1, TOP, "_"]
    for count in (1, 2, 3):
        for arguments in itertools.product(edges, repeat=count):
            for ahead in ("-", "0 1 2 3", f"0 {F} 1 2"):
                yield f"islice {','.join(map(str, arguments))} ; {ahead}"
    for arguments in ((1, 2, 3, 4), ("_",) * 4, (0, 1, 2, 3, 4), (TOP,) * 4):
        yield f"islice {','.join(map(str, arguments))} ; 0 1 2"
    # a call that asks an ended source a thousand times, and some more and fewer
    for skipped in (0, 1, 800, *range(996, 1006), 1500, 5000):
        for ahead in ("-", "0", "0 1 2", F, f"0 {F} 1"):
            yield f"islice {skipped},_ ; {ahead}"
            yield f"islice {skipped},2 ; {ahead}"
            yield f"islice 0,_,{skipped} ; {ahead}"
            yield f"islice 1,2,{skipped} ; {ahead}"


def long_numbers():
    zeros = "0" * 5000
    for word in (zeros, zeros + "7", zeros + str(TOP), zeros + str(TOP + 1), "1" + zeros):
        yield f"pairwise ; 1 {word} 2"
        yield f"takewhile below:{word} ; 1 2"
        yield f"product {word} 2 ; n"
        yield f"combinations {word} 1 ; n n:{word}:3:3"


def compressions():
    for data in numbered(4):
        for selectors in lists((0, 1, 2, F), 4):
            yield f"compress nonzero:2 ; {data} ; {selectors}"
    for data in numbered(3):
        for selectors in lists((0, 1, G), 5):
            yield f"compress nonzero ; {data} ; {selectors}"
        for selectors in lists((0, 1), 3):
            yield f"compress nonzero:0 ; {data} ; {selectors}"


def accumulations():
    for joining, initial in itertools.product(("max", "sum"), ("-", "0", "5", TOP)):
        for ahead in lists((0, 3, TOP, F), 5):
            yield f"accumulate {joining} {initial} ; {ahead}"
        for ahead in faults_at_every_position(12):
            yield f"accumulate {joining} {initial} ; {ahead}"


def pairs():
    for ahead in lists((1, 2, F), 7):
        yield f"pairwise ; {ahead}"
    for ahead in faults_at_every_position(12):
        yield f"pairwise ; {ahead}"


def zips():
    for left, right in itertools.product([*numbered(4)], repeat=2):
        yield f"zip_longest 4 4 ; {left} ; {right}"
    for left, right in itertools.product([*numbered(2)], repeat=2):
        yield f"zip_longest 4 5 ; {left} ; {right}"
    for ahead in faults_at_every_position(8):
        yield f"zip_longest 0 0 ; {ahead} ; 1 2 3"
        yield f"zip_longest 0 0 ; 1 2 3 ; {ahead}"


def to_the_end(head, most=400):
    """All the rows, as far as `most`, and three calls beyond the last."""
    name, *words = head.split(" ")
    rows = itertools.islice(model.rows(making(name, words)), most)
    return f"{head} ; {listed(['n'] * (sum(1 for _ in rows) + 3))}"


def chosen(longest, most):
    """Heads of the three enumerators that choose from one pool."""
    for n, r in itertools.product(range(longest + 1), range(most + 1)):
        yield f"combinations {n} {r}"
        yield f"replacement {n} {r}"
        yield f"permutations {n} {r}"
    for n in range(longest + 1):
        yield f"permutations {n} -"


def rows():
    for count in range(4):
        for lengths in itertools.product(range(4), repeat=count):
            for repeat in range(4):
                yield to_the_end(f"product {repeat} {','.join(map(str, lengths)) or '-'}")
    for lengths in itertools.product((1, 2, 3), repeat=4):
        yield to_the_end(f"product 1 {','.join(map(str, lengths))}")
    for head in chosen(6, 7):
        yield to_the_end(head)


HEADS = (
    "product 1 1,2", "product 2 2", "product 1 2,0", "product 0 3", "product 1 -",
    "combinations 3 2", "combinations 2 3", "combinations 2 0",
    "replacement 2 2", "replacement 0 1", "permutations 3 2", "permutations 2 -",
    "permutations 0 0", "permutations 1 2",
)


def call_words(head):
    """Calls that fit and calls that are refused, for each reason."""
    name, *words = head.split(" ")
    made = making(name, words)
    size, width = made.size, made.width
    yield from ("n", f"n:{size}:{width}:{width}", f"n:{size + 1}:{width}:{width}",
                f"n:{size}:{width + 1}:{width}")
    if size:
        yield f"n:{size - 1}:{width}:{width + 1}"
    if width:
        yield from (f"n:{size}:{width - 1}:{width}", f"n:{size}:{width}:{width - 1}",
                    f"n:{size + 1}:{width - 1}:{width}")


def row_calls():
    """Every list of such calls up to a length."""
    for head in HEADS:
        words = [*call_words(head)]
        for length in range(1, 5):
            for calls in itertools.product(words, repeat=length):
                yield f"{head} ; {listed(calls)}"


def nonempty(alphabet, longest):
    return (calls for calls in lists(alphabet, longest) if calls != "-")


def tees():
    words = ("s0", "s1", "c0", "c1", "s2", "s0:9")
    for steps in ("-", "1", "1 2 3", f"1 {F} 2", f"{F} {G}", "1 2 3 4 5 6"):
        for store, branches in itertools.product((0, 1, 2, 9), ("-", 0, 1, 3)):
            for calls in nonempty(words, 3):
                yield f"tee {branches} {store} ; {steps} ; {calls}"
    for calls in itertools.product(("s0", "s1", "c0"), repeat=6):
        yield f"tee 2 9 ; 1 {F} 2 3 ; {listed(calls)}"
    # stores that are lent in the place of the tee's, of its length and of others
    for store, other in ((0, 0), (0, 1), (1, 0), (1, 1), (2, 2), (2, 1), (2, 3), (3, 3), (3, 2**40),
                         (3, TOP)):
        for calls in nonempty(("s0", "s1", f"s0:{other}", f"s1:{other}", f"s2:{other}"), 4):
            yield f"tee 2 {store} ; 7 8 9 ; {calls}"
    for calls in nonempty(("s0", "s1", "s0:2", "c1"), 5):
        yield f"tee 2 2 ; 7 {F} 8 9 ; {calls}"


def tees_over_faults():
    """Each fault is met by a branch at the front, by one behind it later, or by a copy."""
    rounds = ("s0 s1", "s0 s0 s1 s1", "s1 s0 s0", "s0 c0 s1 s2 s3")
    for steps in faults_at_every_position(6):
        for store, turn in itertools.product((3, 6, 7), rounds):
            yield f"tee 2 {store} ; {steps} ; {' '.join([turn] * 9)}"
        yield f"tee 3 9 ; {steps} ; {' '.join(['s0'] * 10 + ['s1'] * 10 + ['c1', 's2', 's3'] * 9)}"


def limits_of_tees():
    for count in (14, 15, 16, 17, 18, 100, LARGEST, LARGEST + 1, 2**16 + 2, 2**32, 2**32 + 2, 2**40,
                  TOP):
        for calls in ("s0 c0 s15 c0 c3 s16", "s13 c13 s14 c14 s15 c15 s16", "s0:8", "c0",
                      f"s{count} c{count}"):
            yield f"tee {count} 9 ; 1 2 ; {calls}"
        yield f"tee {count} 0 ; 1 2 ; s0 c0"
    yield f"tee - 9 ; 1 2 3 ; {' '.join(['s0', 'c0'] * 16)} s15 s16 c1 s3"
    yield f"tee 0 9 ; 1 2 3 ; {' '.join(['c0'] * 18)} s0"
    yield f"tee 1 2 ; 1 2 3 ; {' '.join(['c0'] * 15)} s15 s14 s15 s13 s15 c0 s16 s16:1"
    yield f"tee 17 {2**40} ; 1 ; s0"
    for far in (2**16, 2**32, 2**32 + 1, 2**63, TOP):
        yield f"tee 2 3 ; 1 2 ; s0 s{far} c{far} s{far}:3 s{far}:4 s0:{far} s1:{far} s1"


def groups():
    patterns = (
        "g g g g g", "g i1 i1 g i2 i2 g i3 i3 g", "g i1 g i1 i2 g", "i1 g i2 g g i1",
        "g i1 i1 i1 i1 i1 g i2", "g g i1 i2 g i3 i2",
    )
    for key in ("self", "mod:2", "mod:2:6"):
        for steps in lists((5, 6, 7, F), 4):
            for calls in patterns:
                yield f"groupby {key} ; {steps} ; {calls}"
    for calls in nonempty(("g", "i1", "i2"), 7):
        yield f"groupby self ; 5 5 6 6 5 ; {calls}"
        yield f"groupby mod:3:9 ; 4 {F} 1 9 5 2 ; {calls}"
    # numbers that no group has, of more than 32 bits too
    for number in (0, 3, 2**16 + 1, 2**31, 2**32 - 1, 2**32, 2**32 + 1, 2**32 + 2, 2**40 + 1, 2**63,
                   TOP):
        for calls in ("i{0}", "g i{0} i1", "g i1 g i{0} i2", "g g i{0} i2 i{0} g i3"):
            yield f"groupby self ; 5 5 6 5 5 ; {calls.format(number)}"


def groups_over_faults():
    """Each fault of the source or of the key is met by a group call or by an item call."""
    each_run = " ".join(f"g i{n} i{n} i{n} i{n}" for n in range(1, 5))
    patterns = (
        each_run, "g g g g g g g g", "g i1 g i2 g i3 g i4 g i5 g",
        "g i1 i1 i1 i1 i1 i1 i1 i1 g i2 i2",
        "g i1 i1 g i1 i2 i2 g i1 i2 i3 i3 g i4 i4",
        "i1 g i0 i1 g i1 i1 g i2 i3 i3 i2 g i3 i4 i4 i4",
    )
    items = (3, 3, 3, 5, 5, 3)
    for at, met in itertools.product(range(len(items) + 1), ((F,), (F, G), (9,), (9, 9), (9, F))):
        steps = listed([*items[:at], *met, *items[at:]])
        for key, calls in itertools.product(("self", "mod:4:9", "mod:2:9", "mod:1000:9"), patterns):
            yield f"groupby {key} ; {steps} ; {calls}"


def listings():
    heads = [*chosen(6, 7),
             *(f"product {repeat} {pools}" for repeat in range(4) for pools in SMALL_POOLS)]
    for head in heads:
        yield f"listing {head} ; -"
    # as many rows as are listed, one fewer and one more
    for n in (99, 100, 101, 255, 256):
        for head in (f"combinations {n} 1", f"replacement {n} 1", f"permutations {n} 1",
                     f"product 1 {n}"):
            yield f"listing {head} ; -"
        yield f"listing product 2 1,{n} ; -"
        yield f"listing product 1 {n},1 ; -"
    for head in ("combinations 9 3", "replacement 13 2", "permutations 10 2", "permutations 11 2",
                 "product 2 10",
                 "product 1 9,11", "product 1 101", "product 1 4,25", "product 1 3,11,3",
                 "product 7 2", "product 6 2"):
        yield f"listing {head} ; -"
    for head in HEADS:
        name, *words = head.split(" ")
        least = making(name, words).least_buffer()
        for size in (0, 1, 4, 5, 104, 105, 106, least - 1, least, least + 1, LONGEST_BUFFER, "-"):
            yield f"listing {head} ; {size}"


SMALL_POOLS = ("-", "0", "1", "2", "3", "0,2", "2,0", "1,2", "2,1", "2,2", "2,3", "3,2", "1,1,1",
               "2,1,2", "2,0,2")


# -------------------------------------------------------------------------------------------------
# The edges of the limits


def limits():
    lengths = (0, 1, 63, 64, 65, 255, 256, 257)
    places = (0, 1, 63, 64, 65)
    for n in lengths:
        for r in (*places, "-"):
            for name in ("combinations", "replacement", "permutations"):
                if r != "-" or name == "permutations":
                    yield f"{name} {n} {r} ; {listed(['n'] * 4)}"
        for repeat in (0, 1, 2, 32, 33, 63, 64, 65):
            yield f"product {repeat} {n} ; n n n"
            yield f"product {repeat} {n},{n} ; n n n"
            yield f"product {repeat} 2,{n} ; n n n"
    for count in (1, 31, 32, 33, 63, 64, 65, 66):
        for repeat in (0, 1, 2, 3):
            for length in (0, 1, 2, 257):
                yield f"product {repeat} {','.join([str(length)] * count)} ; n n n"
    for name in ("combinations", "replacement", "permutations"):
        for n, r in ((256, 64), (64, 64), (65, 64), (256, 1), (257, 64), (257, 65), (256, 65)):
            size, width = n, r
            words = (f"n:{size}:{width}:{width}", f"n:{size}:{width - 1}:{width}",
                     f"n:{size}:{width}:{width - 1}", f"n:{size - 1}:{width}:{width}")
            for calls in itertools.product(words, repeat=3):
                yield f"{name} {n} {r} ; {listed(calls)}"
    for far in (2**16, 2**16 + 1, 2**32, 2**40, 2**63, TOP):
        for name in ("combinations", "replacement", "permutations"):
            yield f"{name} {far} 1 ; n"
            yield f"{name} 1 {far} ; n"
        yield f"product 1 {far} ; n"
        yield f"product 1 2,{far},2 ; n"
    for repeat in (2**20, 2**26, 2**31, 2**32 - 1):
        for lengths in ("-", "1", "1,1", "0"):
            yield f"product {repeat} {lengths} ; n n"


def limits_of_listings():
    lengths = (0, 1, 63, 64, 65, 255, 256, 257)
    for n, r in itertools.product(lengths, (0, 1, 63, 64, 65, "-")):
        for name in ("combinations", "replacement", "permutations"):
            if r != "-" or name == "permutations":
                yield f"listing {name} {n} {r} ; -"
    for size in (25_604, 25_605, 25_606, LONGEST_BUFFER):
        for head in ("combinations 64 64", "replacement 256 64", "permutations 65 64",
                     "product 32 256,2", "product 64 0",
                     "product 1 65", "combinations 257 1", "combinations 3 65", "permutations 81 -",
                     "permutations 82 -"):
            yield f"listing {head} ; {size}"
    for repeat, n in itertools.product((0, 1, 2, 32, 33, 64, 65), lengths):
        yield f"listing product {repeat} {n} ; -"
        yield f"listing product {repeat} 2,{n} ; -"
    for far in (2**16 + 1, 2**32, 2**40, TOP):
        yield f"listing combinations {far} 1 ; -"
        yield f"listing permutations 1 {far} ; -"
        yield f"listing product 1 {far} ; -"
    for repeat in (2**20, 2**31, 2**32 - 1):
        for pools in ("-", "1", "0"):
            yield f"listing product {repeat} {pools} ; -"


# -------------------------------------------------------------------------------------------------
# Random ones


class Chance:
    """Random parts of scenarios, from a seed."""

    def __init__(self, seed):
        self.random = random.Random(seed)

    def number(self):
        r = self.random
        return r.choice((r.randrange(4), r.randrange(4), r.randrange(100),
                         r.choice((0, 1, 2**16, 2**32, 2**63 - 1, 2**63, TOP - 1, TOP))))

    def length(self, longest):
        """Small ones more often than large."""
        return min(self.random.randrange(longest + 1), self.random.randrange(longest + 1))

    def fault(self):
        r = self.random
        return r.choice((F, G, FULL, "!0:0:0",
                         f"!{r.randrange(256)}:{r.randrange(2**16)}:{r.randrange(2**64)}"))

    def steps(self, longest, item=None):
        often = self.random.choice((0, 0, 0.05, 0.3))
        item = item or self.number
        chance = self.random.random
        count = self.length(longest)
        return listed(self.fault() if chance() < often else item() for _ in range(count))

    def bad(self):
        return self.random.choice(("", "", f":{self.random.randrange(4)}", f":{self.number()}"))

    def argument(self):
        r = self.random
        return r.choice(("_", r.randrange(5), r.randrange(50), r.randrange(50),
                         r.choice((0, 1, MAXSIZE, MAXSIZE + 1, 2000))))


def random_while(chance):
    name = chance.random.choice(("takewhile", "dropwhile"))
    return f"{name} below:{chance.number()}{chance.bad()} ; {chance.steps(120)}"


def random_chain(chance):
    return f"chain ; {chance.steps(60)} ; {chance.steps(60)}"


def random_islice(chance):
    arguments = [chance.argument() for _ in range(chance.random.choice((1, 2, 2, 3, 3, 3, 3)))]
    return f"islice {','.join(map(str, arguments))} ; {chance.steps(60)}"


def random_compress(chance):
    items, selectors = chance.steps(60), chance.steps(60, lambda: chance.random.randrange(2))
    if chance.random.randrange(2):
        items, selectors = chance.steps(20), chance.steps(20)
    return f"compress nonzero{chance.bad()} ; {items} ; {selectors}"


def random_accumulate(chance):
    initial = chance.random.choice(("-", chance.number()))
    return f"accumulate {chance.random.choice(('max', 'sum'))} {initial} ; {chance.steps(120)}"


def random_pairwise(chance):
    return f"pairwise ; {chance.steps(120)}"


def random_zip(chance):
    fill = chance.number()
    return f"zip_longest {fill} {fill} ; {chance.steps(60)} ; {chance.steps(60)}"


ADAPTERS = (
    random_while, random_while, random_chain, random_islice, random_compress, random_compress,
    random_accumulate, random_pairwise, random_zip,
)


def random_product(r):
    pools = [r.choice(LENGTHS) for _ in range(r.choice((1, 2, 2, 3, 3, 5, 12, 32, 64)))]
    if r.random() < 0.8:
        pools = [length or 1 for length in pools]
    return f"product {r.choice((0, 1, 1, 1, 2, 3, 64 // len(pools)))} {','.join(map(str, pools))}"


def random_head(r, name):
    if name == "product":
        return random_product(r)
    n = r.choice(LENGTHS)
    edges = (min(n, 64), min(n, 64), max(0, min(n, 65) - 1), min(n + 1, 64))
    return f"{name} {n} {r.choice((0, 1, 2, 3, *edges, r.randrange(65)))}"


LENGTHS = (0, 1, 2, 3, 3, 4, 5, 8, 17, 64, 65, 255, 256)


def random_calls(chance, name):
    r = chance.random
    head = random_head(r, name)
    words = [*call_words(head)]
    often = r.choice((0, 0.1, 0.5))
    calls = [
        r.choice(words) if r.random() < often else words[r.randrange(2)]
        for _ in range(r.choice((1, 5, 20, 60)))
    ]
    return f"{head} ; {listed(calls)}"


def random_listing(chance):
    r = chance.random
    head = random_head(r, r.choice(ENUMERATORS))
    name, *words = head.split(" ")
    least = making(name, words).least_buffer()
    sizes = least, max(0, least - 1), least + r.randrange(99), r.randrange(LONGEST_BUFFER)
    size = r.choice(sizes)
    return f"listing {head} ; {r.choice(('-', min(size, LONGEST_BUFFER)))}"


def record(r):
    kind = r.choice((16, 16, 16, 16, 0, 17, 4096))
    length = r.choice((8, 8, 8, 8, 8, 0, 7, 9))
    start = r.choice((0, 1, 360, 1439, 1440, r.randrange(1500)))
    end = r.choice((start, start + 1, 1440, 1441, 1439, r.randrange(1500), 65535))
    payload = struct.pack("<HHHH", r.randrange(2**16), r.randrange(4), start, end) + b"\x00"
    return framed(kind, payload[:length])


def random_records(chance):
    r = chance.random
    data = b"".join(record(r) for _ in range(r.randrange(6)))
    data = data[: len(data) - r.choice((0, 0, 0, r.randrange(14)))]
    return f"records {data.hex() or '-'}"


def random_range(chance):
    start = chance.random.choice((chance.random.randrange(2**32), chance.random.randrange(9),
                                  2**32 - 1))
    return f"range {start} {min(2**32 - 1, max(0, start + chance.random.randrange(-3, 60)))}"


def random_tee(chance):
    r = chance.random
    branches, store = r.choice(("-", 0, 1, 2, 5, 15, 16, 17)), r.choice((0, 1, 5, 40, 100))
    lent = r.choice((("",), ("", "", "", ":0"), ("", "", f":{store}"),
                     ("", f":{store + 1}", f":{store}")))
    reach = r.choice((1, 2, 3, 5, 17))
    calls = []
    for _ in range(chance.length(60) + 1):
        branch = r.randrange(reach)
        calls.append(f"c{branch}" if r.random() < 0.1 else f"s{branch}{r.choice(lent)}")
    return f"tee {branches} {store} ; {chance.steps(60)} ; {listed(calls)}"


def random_groupby(chance):
    """Items of few keys, so that there are runs; and calls with the last number more often than
    with others."""
    r = chance.random
    key = r.choice(("self", f"mod:{r.choice((1, 2, 7, 1000, TOP))}{chance.bad()}"))
    items = (chance.number, lambda: r.choice((3, 11, 19, 2**63 + 3)), lambda: r.randrange(2),
             lambda: r.randrange(2))
    given, calls = 0, []
    for _ in range(chance.length(60) + 1):
        number = r.choice(("g", "g", given, given, given, given, given - 1, r.randrange(12)))
        given += number == "g"
        calls.append("g" if number == "g" else f"i{max(0, number)}")
    return f"groupby {key} ; {chance.steps(60, r.choice(items))} ; {listed(calls)}"


def many(seed, count, *kinds):
    chance = Chance(seed)
    for _ in range(count):
        for kind in kinds:
            yield kind(chance)


def random_enumerator(chance):
    return random_calls(chance, chance.random.choice(("product", *ENUMERATORS)))


# What `further` draws from, as often as it stands here: the fourteen types of the original, then
# what the others have a part of, or nothing for.
KINDS = (
    *ADAPTERS,
    *(lambda chance, name=name: random_calls(chance, name) for name in ENUMERATORS),
    random_tee, random_tee, random_groupby, random_groupby, random_listing, random_range,
    random_records,
)


def further(seed, part, count):
    """The random scenarios of one part of those from a seed."""
    chance = Chance(f"{seed} {part}")
    return [chance.random.choice(KINDS)(chance).encode() for _ in range(count)]


# -------------------------------------------------------------------------------------------------
# Damaged copies

MARKS = " ;:,!-_0127nabcdefg+.#\t\r\x00\x7f\xe9"


def damaged(seed, good):
    r = Chance(seed).random
    good = [line for line in good if len(line) < 200]
    for _ in range(12000):
        line = bytearray(r.choice(good).encode())
        for _ in range(r.choice((1, 1, 1, 2, 3))):
            damage(r, line)
        line = bytes(line).replace(b"\n", b" ")
        if can_be_held(line):
            yield line


def can_be_held(line):
    """Whether the answers to a line are not too long, and the buffers not too large for a run."""
    try:
        scenario = read(line)
    except Bad:
        return True
    if scenario.name == "range":
        start, stop = scenario.given
        return stop - start < 1000
    if scenario.name == "tee":
        branches, store = scenario.given
        return store < LARGEST or (branches or 0) > BRANCHES
    lents = scenario.lists[0] if scenario.name in ENUMERATORS else []
    return all(lent is None or max(lent[1:]) < 1000 for lent in lents)


def damage(r, line):
    at = r.randrange(len(line) + 1)
    way = r.randrange(6)
    if way == 0:
        del line[at : at + r.choice((1, 1, 2, 5))]
    elif way == 1:
        line[at:at] = r.choice(MARKS).encode()[-1:]
    elif way == 2:
        line[at : at + 1] = r.choice(MARKS).encode()[-1:]
    elif way == 3:
        line[at:at] = r.choice((b" ; ", b" ", b";", b" - ", b"18446744073709551615",
                                b"18446744073709551616", b"4294967296", b"65536", b"256"))
    elif way == 4:
        line[at : at + 3], line[at + 3 : at + 6] = line[at + 3 : at + 6], line[at : at + 3]
    else:
        words = bytes(line).split(b" ")
        words.insert(r.randrange(len(words) + 1), r.choice(words))
        line[:] = b" ".join(words)


# -------------------------------------------------------------------------------------------------
# All of them

SMALL = (
    ("ranges", ranges),
    ("takewhile and dropwhile", whiles),
    ("chain", chains),
    ("islice", slices),
    ("islice at the edges", slices_at_the_edges),
    ("numbers with many digits", long_numbers),
    ("compress", compressions),
    ("accumulate", accumulations),
    ("pairwise", pairs),
    ("zip_longest", zips),
    ("rows to the end", rows),
    ("calls on enumerators", row_calls),
    ("limits of enumerators", limits),
    ("tee", tees),
    ("tee over faults", tees_over_faults),
    ("limits of tees", limits_of_tees),
    ("groupby", groups),
    ("groupby over faults", groups_over_faults),
    ("listings", listings),
    ("limits of listings", limits_of_listings),
)

RANDOM = (
    ("large adapters", lambda: many(1, 2500, *ADAPTERS)),
    ("large enumerators", lambda: many(2, 6000, random_enumerator)),
    ("records", lambda: many(3, 3000, random_records)),
    ("large tees and groups", lambda: many(5, 4000, random_tee, random_groupby)),
    ("large listings", lambda: many(6, 1000, random_listing)),
)


def families():
    """Each family's name and its lines, as bytes."""
    seen = set()

    def once(lines):
        fresh = dict.fromkeys(line if isinstance(line, bytes) else line.encode() for line in lines)
        fresh = [line for line in fresh if line not in seen and line and not line.startswith(b"#")]
        seen.update(fresh)
        return fresh

    good = []
    for name, family in SMALL + RANDOM:
        lines = [*family()]
        good += lines
        yield name, once(lines)
    yield "damaged copies", once(damaged(4, good))

