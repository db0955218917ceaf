"""The good scenarios of the gate, kind by kind, which tools/scenarios.py writes into
crates/replay/stdin.

They are few, and each has its reason; generator.py makes the many of the comparison.
"""

import itertools
import struct

import differences
import model
from generator import F, FULL, TOP, listed, to_the_end
from protocol import MAXSIZE, framed, making

G = "!9:8:7"


def with_faults(words):
    """The list, the list with a fault at each place, and with two in a row at the first, the second
    and the last."""
    yield listed(words)
    for at in range(len(words) + 1):
        yield listed(words[:at] + [F] + words[at:])
    for at in sorted({0, 1, len(words)}):
        yield listed(words[:at] + [F, G] + words[at:])


def range_scenarios():
    for bounds in ("0 0", "0 1", "0 3", "4 4", "5 3", "7 9", "4294967294 4294967295",
                   "4294967293 4294967295",
                   "4294967295 4294967295", "4294967295 0", "007 010",
                   "0 0000000000000000000000002"):
        yield "range " + bounds
    # more text than the program keeps before it prints some
    yield "range 4294966000 4294966600"


BLOCK = "080010000700020068017201"


def record(bus=7, bay=2, start=360, end=370, kind=0x10, length=8):
    return framed(kind, struct.pack("<HHHH", bus, bay, start, end), length).hex()


def records_scenarios():
    yield "records -"
    for cut in range(2, len(BLOCK) + 1, 2):
        yield "records " + BLOCK[:cut]
    yield "records " + BLOCK + BLOCK
    yield "records " + BLOCK + record(65535, 65535, 0, 1440)
    for cut in range(2, len(BLOCK), 4):
        yield "records " + BLOCK + BLOCK[:cut]
    for start, end in ((0, 1), (0, 0), (1, 0), (360, 360), (370, 360), (1439, 1440), (1440, 1440),
                       (1439, 1441),
                       (0, 1440), (0, 1441), (1440, 1441), (1441, 1442), (0, 65535), (65535, 65535),
                       (65535, 0)):
        yield "records " + record(start=start, end=end)
    bad_ones = [record(kind=kind) for kind in (0, 0x11, 0x1000, 0x1010, 65535)]
    bad_ones += ["00001000", "01001000aa", "07001000070002006801" "72",
                 "0900100007000200680172" "01aa", "00001100"]
    bad_ones += [record(start=5, end=5), record(end=1441)]
    for bad in bad_ones:
        yield "records " + bad
        yield "records " + bad + BLOCK
    yield "records " + record(length=7)
    yield "records " + record(length=9)
    yield "records " + record(length=65535)
    yield "records " + record(length=9, kind=0x11)
    yield "records " + record(length=0)
    yield "records " + record(start=9, end=9) + record(kind=3) + BLOCK + "000010" + "00" + "0800"
    yield "records ff"
    yield "records FF00aA"
    yield "records 080010000A000b0068017201"


def while_scenarios(name):
    for limit in ("0", "1", "3", "9", TOP):
        yield f"{name} below:{limit} ; -"
        yield f"{name} below:{limit} ; 1"
        yield f"{name} below:{limit} ; 1 2 5 1 7"
    yield f"{name} below:{TOP} ; {TOP} 1 {TOP}"
    yield f"{name} below:5 ; 5 1 2 3"
    yield f"{name} below:5 ; 1 2 3 5"
    yield f"{name} below:5 ; 0"
    yield f"{name} below:005 ; 004 005 006"
    for ahead in with_faults(["1", "5", "2"]):
        yield f"{name} below:3 ; {ahead}"
    for bad in ("1", "2", "5", "7", "4"):
        yield f"{name} below:3:{bad} ; 1 2 5 1 7"
    yield f"{name} below:3:1 ; 1 1 1"
    yield f"{name} below:0:1 ; 1 1 0 1"
    yield f"{name} below:9:1 ; 1 {F} 1 {G} 1 2"
    yield f"{name} below:3:7 ; 7 7 1 7 3 7 1"
    yield f"{name} below:{TOP}:{TOP} ; {TOP} 0 {TOP}"
    yield f"{name} below:3 ; {FULL} !0:0:0 1"
    yield f"{name} below:0 ; {F}"
    yield f"{name} below:0 ; {F} {F} {F} {F}"


def chain_scenarios():
    for first, second in itertools.product(("-", "1", "1 2"), ("-", "7", "7 8")):
        yield f"chain ; {first} ; {second}"
    for first in with_faults(["1", "2"]):
        yield f"chain ; {first} ; 7 8"
        yield f"chain ; {first} ; -"
    for second in with_faults(["7", "8"]):
        yield f"chain ; 1 2 ; {second}"
        yield f"chain ; - ; {second}"
    yield f"chain ; {F} ; {G}"
    yield f"chain ; {FULL} 1 ; 2"
    yield f"chain ; 1 1 1 ; 1 1 1"


def islice_scenarios():
    ten = "0 1 2 3 4 5 6 7 8 9"
    yield f"islice 0,5,3 ; {ten}"
    yield f"islice 3,1 ; {ten}"
    for only in ("0", "1", "3", "4", "5", "_"):
        yield f"islice {only} ; 0 1 2 3"
    for only in ("0", "1", "_", "1,2", "1,_,2"):
        yield f"islice {only} ; -"
    for start, stop in itertools.product(("0", "2", "4", "_"), repeat=2):
        yield f"islice {start},{stop} ; 0 1 2 3"
    for start, stop, stride in itertools.product(("0", "1", "4", "_"), ("0", "2", "3", "_"),
                                                 ("1", "2", "4", "_")):
        yield f"islice {start},{stop},{stride} ; 0 1 2 3 4"
    yield f"islice 2,9,3 ; {ten}"
    yield f"islice 9,2,3 ; {ten}"
    yield f"islice 1,10,3 ; {ten}"
    yield f"islice 1,11,3 ; {ten}"
    yield f"islice 0010,020 ; {ten}"
    yield from large_slices()
    for arguments in ("-", "1,2,0", "_,_,0", "0,0,0", "1,2,3,4", "_,_,_,_", "0,1,2,3,4",
                      f"{TOP},1,0", "1,2,3,0"):
        yield f"islice {arguments} ; 0 1 2"
    for arguments in ("0", "2", "2,1", "1,_,2"):
        for ahead in with_faults(["5", "6", "7"]):
            yield f"islice {arguments} ; {ahead}"
    yield f"islice 1,{MAXSIZE},{MAXSIZE} ; 5 {F} 6 {G} 7"
    yield f"islice 2 ; {FULL} {FULL} {FULL}"


def large_slices():
    """Arguments as large as they may be, and larger."""
    for top in (MAXSIZE, MAXSIZE - 1):
        yield f"islice {top} ; 0 1 2"
        yield f"islice {top},2 ; 0 1 2"
        yield f"islice 1,{top} ; 0 1 2"
        yield f"islice 1,3,{top} ; 0 1 2 3 4"
        yield f"islice 1,_,{top} ; 0 1 2 3 4"
        yield f"islice 0,_,{top} ; 0 1 2 3 4"
        yield f"islice {top},_,{top} ; 0 1 2"
        yield f"islice {top},{top},{top} ; 0 1 2"
    for over in (str(MAXSIZE + 1), TOP):
        yield f"islice {over} ; 0 1 2"
        yield f"islice {over},1 ; 0 1 2"
        yield f"islice 1,{over} ; 0 1 2"
        yield f"islice {over},{over},{over} ; 0 1 2"
        yield f"islice 0,_,{over} ; 0 1 2"
        yield f"islice _,_,{over} ; -"


def compress_scenarios():
    for items, selectors in itertools.product(("-", "7", "7 8", "7 8 9"),
                                              ("-", "1", "0", "1 0", "0 0 1", "1 1 1 1")):
        yield f"compress nonzero ; {items} ; {selectors}"
    yield "compress nonzero ; 7 8 9 ; 1 0"
    yield f"compress nonzero ; 7 8 9 ; {TOP} 000 1"
    for items in with_faults(["7", "8"]):
        yield f"compress nonzero ; {items} ; 1 1"
    for items in with_faults(["7", "8", "9"]):
        yield f"compress nonzero ; {items} ; 0 1"
    for selectors in with_faults(["1", "0", "1"]):
        yield f"compress nonzero ; 7 8 9 6 ; {selectors}"
    yield f"compress nonzero ; {F} ; {G}"
    yield f"compress nonzero ; 7 {F} ; {G} 1"
    yield f"compress nonzero ; 7 8 {F} ; 1"
    yield f"compress nonzero ; 7 ; 1 {F} {G}"
    yield f"compress nonzero ; - ; {F}"
    yield f"compress nonzero ; {FULL} 7 ; {FULL} 1"
    for bad in ("0", "1", "2", "5"):
        yield f"compress nonzero:{bad} ; 6 7 8 9 ; 1 0 2 1"
    yield f"compress nonzero:0 ; 6 7 8 ; 0 0 0"
    yield f"compress nonzero:3 ; 6 7 8 {F} 9 ; 3 {G} 3 1"
    yield f"compress nonzero:{TOP} ; 6 7 ; {TOP} 1"


def accumulate_scenarios():
    for joining, initial in itertools.product(("max", "sum"), ("-", "0", "5", TOP)):
        yield f"accumulate {joining} {initial} ; -"
        yield f"accumulate {joining} {initial} ; 4"
        yield f"accumulate {joining} {initial} ; 3 1 4 1 5 9 2 6"
    for joining, initial in itertools.product(("max", "sum"), ("-", "5")):
        for ahead in with_faults(["3", "7"]):
            yield f"accumulate {joining} {initial} ; {ahead}"
    yield f"accumulate sum - ; {TOP} 0"
    yield f"accumulate sum - ; {TOP} 1 0 2 0"
    yield f"accumulate sum - ; 1 {TOP} 5 {TOP - 6} 1"
    yield f"accumulate sum - ; {TOP - 1} 1 1"
    yield f"accumulate sum - ; {TOP - 1} 2 1"
    yield f"accumulate sum {TOP} ; 1 1 {F} 1 0"
    yield f"accumulate sum {TOP} ; {TOP}"
    yield f"accumulate sum {2**63} ; {2**63} {2**63 - 1} 1"
    yield f"accumulate max - ; {TOP} 0 {TOP}"
    yield f"accumulate max 007 ; 3 8"
    yield f"accumulate sum - ; {FULL} {FULL}"


def pairwise_scenarios():
    for ahead in ("-", "1", "1 2", "1 2 3", "5 5 5", f"{TOP} 0 {TOP}"):
        yield f"pairwise ; {ahead}"
    yield "pairwise ; 1 !1:0:0 2 3"
    yield "pairwise ; 1 2 !1:0:0 3"
    for base in (["1"], ["1", "2"], ["1", "2", "3"]):
        for ahead in with_faults(base):
            if "!" in ahead:
                yield f"pairwise ; {ahead}"
    yield f"pairwise ; 1 {F} 2 {G} 3"
    yield f"pairwise ; 1 {F} 2 {G} 3 4"
    yield f"pairwise ; 1 {F} 2 3 {G} 4"
    yield f"pairwise ; {FULL}"


def zip_longest_scenarios():
    for left, right in itertools.product(("-", "1", "1 2", "1 2 3"), ("-", "5", "5 6", "5 6 7")):
        yield f"zip_longest 8 9 ; {left} ; {right}"
    yield "zip_longest 0 0 ; 1 2 3 ; 5"
    yield f"zip_longest {TOP} 0 ; - ; 1 2"
    yield f"zip_longest 008 009 ; 1 ; 2 3"
    yield "zip_longest 8 9 ; 1 !1:0:0 2 ; 5 6"
    yield "zip_longest 8 9 ; 1 2 ; 5 !1:0:0 6"
    for left in with_faults(["1", "2"]):
        yield f"zip_longest 8 9 ; {left} ; 5 6"
        yield f"zip_longest 8 9 ; {left} ; 5"
    for right in with_faults(["5", "6"]):
        yield f"zip_longest 8 9 ; 1 2 ; {right}"
        yield f"zip_longest 8 9 ; 1 ; {right}"
    yield f"zip_longest 8 9 ; - ; {F}"
    yield f"zip_longest 8 9 ; {F} ; -"
    yield f"zip_longest 8 9 ; {F} ; {G}"
    yield f"zip_longest 8 9 ; 1 {F} ; {G} 5"
    yield f"zip_longest 8 9 ; 1 2 3 ; 5 {FULL}"


def difference_scenarios():
    """The smallest scenarios of docs/DIFFERENCES.md."""
    yield from differences.smallest()
    yield from ("islice 0,2,3 ; 0 1 2 3", "islice 2,_ ; -", "islice - ; 1",
                "zip_longest 8 9 ; 1 ; -")


def line_of(head, words):
    return f"{head} ; {' '.join(words)}"


def edge_calls(head):
    """Calls whose pool or buffers just fit or do not, before, between and behind the rows."""
    name, *words = head.split(" ")
    made = making(name, words)
    size, width = made.size, made.width
    rows = len([*model.rows(made)])

    def lent(pool, places, elements):
        return f"n:{size + pool}:{width + places}:{width + elements}"

    fits, longer, short = lent(0, 0, 0), lent(1, 0, 0), lent(1, 0, 0)
    shorter = [lent(-1, 0, 0), fits, lent(-size, 0, 0)] if size else []
    yield line_of(head, [longer, fits, longer, longer, *shorter, fits, "n"])
    yield line_of(head, [lent(0, 0, 3), lent(0, 3, 0), lent(0, 1, 1)])
    if width:
        places, short, both, none = lent(0, -1, 0), lent(0, 0, -1), lent(0, -1, -1), lent(0, -width,
                                                                                          -width)
        yield line_of(head, [places, short, both, fits, short, places, none, fits, both, "n"])
        # the pool is looked at before the buffers
        yield line_of(head, [lent(1, -1, 0), lent(1, 0, -1), lent(1, -width, -width), fits])
    yield line_of(head, ["n"] * rows + [longer, short, "n", short, longer, fits])


def pools(*lengths):
    return ",".join(map(str, lengths)) or "-"


FAR = 2**40


def product_scenarios():
    for lengths in ("-", "0", "1", "2", *(pools(a, b) for a in range(3) for b in range(3))):
        yield to_the_end(f"product 1 {lengths}")
        yield to_the_end(f"product 2 {lengths}")
    for head in ("product 0 -", "product 0 0", "product 0 2", "product 0 2,0", "product 3 2",
                 "product 1 3", "product 1 3,0", "product 1 0,3",
                 "product 1 1,2,3", "product 1 3,2,1", "product 1 2,0,2", "product 2 2,1,1",
                 "product 1 2,2,2,2", "product 6 1", "product 002 01,002"):
        yield to_the_end(head)
    for head in ("product 1 2,3", "product 2 2", "product 1 3,0", "product 0 2,3", "product 5 -"):
        yield from edge_calls(head)
    # equal places of different pools have different elements
    yield line_of("product 1 2,2,2", ["n:6:3:4"] * 9)
    yield line_of("product 2 1,2", ["n:3:4:4"] * 5)
    yield "product 1 1,0,1 ; n n:2:2:3 n:2:3:3"
    yield from full_products()
    yield from refused_products()


def full_products():
    """As many places and pools as there may be."""
    for head in (f"product 1 {pools(*[1] * 64)}", "product 64 1", "product 21 1,1,1",
                 f"product 1 {pools(2, *[1] * 63)}",
                 f"product 1 {pools(*[1] * 63, 2)}",
                 f"product 1 {pools(*[1] * 31, 2, *[1] * 30, 2, 1)}",
                 f"product 1 {pools(*[1] * 63, 0)}"):
        yield to_the_end(head)
    yield "product 64 2 ; n:2:64:64 n:2:64:64 n:2:64:63 n:2:64:64 n:2:63:64 n:3:64:64 n:2:64:64"
    yield line_of("product 32 2,3", ["n:5:64:64"] * 7)
    yield line_of(f"product 1 {pools(*[256] * 64)}",
                  ["n:16384:64:64", "n:16385:1:2", "n:16383:1:2", "n:16384:64:64",
                   "n:16384:64:65"])
    yield f"product 1 {pools(0, *[256] * 63)} ; n:16128:64:64 n:16127:0:0 n:16128:63:64"
    yield "product 64 0 ; n n:0:63:64 n:0:64:63 n"
    yield f"product 0 {pools(*[1] * 64)} ; n n:64:0:0 n:63:0:0"
    yield "product 0 256,256 ; n:511:0:0 n:512:0:0 n:512:0:0 n:513:0:0"


def refused_products():
    """One place, one pool or one element more, and many more of them."""
    for head in (f"product 1 {pools(*[1] * 65)}", "product 65 1", "product 65 0",
                 f"product 0 {pools(*[1] * 65)}", f"product 0 {pools(*[0] * 65)}",
                 "product 33 1,1", "product 22 1,1,1", f"product 2 {pools(*[1] * 33)}",
                 f"product 1 {pools(*[0] * 200)}", f"product 2 {pools(*[256] * 33)}"):
        yield f"{head} ; n:0:0:0 n n:1:2:3"
    # repeats whose rows have more places than 32 bits count, some with a small rest
    for repeat in (2**31, 2**32 - 1):
        yield f"product {repeat} - ; n n n"
        for lengths in ("0", "1", "1,1", "256"):
            yield f"product {repeat} {lengths} ; n"
    for repeat, count in ((2**26, 64), (2**26 + 1, 64), (2**32 - 1, 64), (2**27, 32),
                          (1431655766, 3)):
        yield f"product {repeat} {pools(*[1] * count)} ; n"
    # pools of as many elements as there may be, and of one more, which comes before all else
    yield line_of("product 1 256", ["n:256:1:1"] * 258)
    yield line_of("product 1 2,256", ["n:258:2:2"] * 259)
    for lengths in ("257", "256,257", "257,0", f"{FAR}", f"1,{FAR}", f"{TOP},{TOP}", f"{TOP},1",
                    pools(*[1] * 63, 257),
                    pools(*[1] * 64, 257), pools(*[1] * 199, 257), pools(*[257] * 65)):
        yield f"product 1 {lengths} ; n"
        yield f"product 0 {lengths} ; n"
    yield "product 65 257 ; n n:257:65:65"
    yield f"product {2**32 - 1} 257 ; n"
    yield f"product {2**32 - 1} 1,{TOP} ; n n"


def limit_scenarios(name):
    """Pools and rows at their limits and one beyond them."""
    yield line_of(f"{name} 256 64",
                  ["n:256:64:64", "n:255:1:0", "n:257:1:0", "n:256:63:64", "n:256:64:63",
                   "n:256:64:64", "n:256:64:64"])
    yield line_of(f"{name} 256 1", ["n:256:1:1"] * 258)
    yield f"{name} 256 0 ; n:255:0:0 n:256:0:0 n:256:0:0"
    yield f"{name} 1 64 ; n:1:64:64 n:1:63:64 n:1:64:64 n:2:64:64"
    yield f"{name} 0 64 ; n:0:64:64 n:0:64:63 n:1:64:63"
    yield f"{name} 63 64 ; n:63:64:64 n:63:64:64"
    yield f"{name} 64 64 ; n n n:64:64:64"
    yield f"{name} 65 64 ; n:65:64:64 n:65:64:64 n:65:64:64"
    for n, r in ((257, 0), (257, 2), (257, 64), (3, 65), (0, 65), (65, 65), (256, 65), (257, 65)):
        yield f"{name} {n} {r} ; n:0:0:0 n n:1:2:3"
    for n, r in ((FAR, 2), (2, FAR), (FAR, FAR), (TOP, 1), (1, TOP), (2**32 + 1, 1), (1, 2**32 + 1),
                 (2**16 + 1, 1), (1, 2**16)):
        yield f"{name} {n} {r} ; n"


def combination_scenarios(name):
    for n, r in itertools.product(range(4), range(5)):
        yield to_the_end(f"{name} {n} {r}")
    for n, r in ((4, 2), (4, 3), (5, 3), (3, 5), (6, 1), ("007", "02")):
        yield to_the_end(f"{name} {n} {r}")
    for n, r in ((4, 2), (3, 0), (2, 3), (0, 1)):
        yield from edge_calls(f"{name} {n} {r}")
    yield f"{name} 3 2 ; n n:3:2:1 n n:3:2:2 n"
    yield f"{name} 3 2 ; n:{2**40}:2:2 n n:{2**64 - 1}:1:1 n:16385:2:2 n"
    yield from limit_scenarios(name)


def permutation_scenarios():
    for n, r in itertools.product(range(4), [*range(5), "-"]):
        yield to_the_end(f"permutations {n} {r}")
    for n, r in ((4, 2), (4, 3), (4, "-"), (5, 2), (5, "-"), (1, 7), (9, 1), ("004", "02")):
        yield to_the_end(f"permutations {n} {r}")
    for n, r in ((4, 2), (3, "-"), (0, "-"), (2, 3)):
        yield from edge_calls(f"permutations {n} {r}")
    yield from limit_scenarios("permutations")
    # an absent r is the length of the pool
    yield line_of("permutations 64 -", ["n:64:64:64"] * 7 + ["n:64:63:64", "n"])
    for n in (65, 256, 257, FAR, TOP):
        yield f"permutations {n} - ; n n:1:2:3"


def tee_scenarios():
    yield "tee - 2 ; 1 2 3 ; s0 s0 s0 s1"
    # every order of a few calls
    for length in range(1, 5):
        for calls in itertools.product(("s0", "s1"), repeat=length):
            yield line_of("tee 2 2 ; 7 8 9", calls)
    for calls in itertools.product(("s0", "s1", "c0"), repeat=3):
        yield line_of("tee - 3 ; 7 8", [*calls, "s2", "s2"])
    # the branches and the store of a making
    for branches, places in itertools.product(("-", 0, 1, 2, 3, "003"), (0, 1, 2, "02")):
        yield f"tee {branches} {places} ; 7 8 9 ; s0 s1 s2 s0 s3"
    # faults, met by the branch that is furthest, and by no other
    for ahead in with_faults(["7", "8"]):
        for calls in ("s0 s0 s0 s0 s0 s1 s1 s1 s1", "s0 s1 s1 s0 s0 s1 s0 s1",
                      "s0 c0 s2 s2 s3 s1 s2 s1 s1 s1"):
            yield f"tee 2 2 ; {ahead} ; {calls}"
    yield f"tee 2 0 ; {F} ; s0 s1"
    yield f"tee 1 1 ; {FULL} 7 ; s0 s0"
    # the end needs a place too, and moves nothing
    yield "tee 2 0 ; - ; s0 s1"
    yield "tee 2 1 ; - ; s0 s1 c0 s2"
    yield "tee 2 1 ; 7 ; s0 s0 s1 s1"
    yield "tee 2 2 ; 7 ; s0 s0 s1 s1"
    yield from lent_stores()
    yield from tee_copies()
    for far in (2**16, 2**32, 2**32 + 1, TOP):
        yield f"tee 2 2 ; 7 8 ; s{far} c{far} s{far}:2 s{far}:3 s0"


def lent_stores():
    """Other stores: of another length, and of the same, from which and into which a step goes."""
    for lent in (0, 1, 3, 2**40, TOP):
        yield f"tee 2 2 ; 7 8 9 ; s0:{lent} s0 s1:{lent} s1 s0 s0:{lent} s5:{lent} s1"
    yield "tee 2 2 ; 7 8 9 ; s0 s1:2 s1:02 s0 s1 s0:2 s1"
    yield f"tee 2 2 ; {F} 7 8 ; s0:2 s1:2 s1 s0:2 s0 s1:2 s1"
    yield "tee 2 0 ; 7 ; s0:0 s1:1 s0"
    # a store is looked at before a branch, and a branch before the room
    yield "tee 1 1 ; 7 8 ; s0 s1:2 s1 s0:2 s0 s1:1 s0:0"


def tee_copies():
    """Copies: where they stand, of none that there is, and as many as there may be."""
    yield "tee 1 5 ; 7 8 9 ; s0 s0 c0 s1 s0 c1 s2 c9 s3"
    yield "tee 3 5 ; 7 8 9 ; s0 c0 c1 s3 s4 s4 c4 s5 s5"
    yield line_of("tee 14 3 ; 7 8", ["s13", "c13", "s14", "c14", "s15", "c15", "s16", "c0", "s15"])
    yield line_of("tee 0 3 ; 7 8", ["c0", "s0", "c1"])
    yield line_of("tee - 3 ; 7 8", ["s0", *["c0"] * 14, "s15", "c15", "s2", "s1", "s16"])
    for branches in (15, 16, 17, 18, FAR, 2**32, 2**32 + 2, TOP):
        yield f"tee {branches} 2 ; 7 8 ; s0 s15 c15 s16 s14 c0"
    yield f"tee 17 {FAR} ; 7 ; s0 s0:{FAR} s0:{TOP}"


def groupby_scenarios():
    yield "groupby self ; 5 5 6 5 ; g i1 i1 i1 g i2 i2 g i3 i3 g"
    items = ["5", "5", "6", "5"]
    patterns = ("g g g g g", "g i1 i1 i1 i1 g i2 i2 g i3 g i4", "g i1 g i2 i1 g i3 i3 i2 g i3",
                "i1 g i2 i1 i0 g i2 g i2 g i3 i4")
    for calls in patterns:
        for ahead in with_faults(items):
            yield f"groupby self ; {ahead} ; {calls}"
        for ahead in ("-", "5", "5 5", "5 6", f"{TOP} 0 0"):
            yield f"groupby self ; {ahead} ; {calls}"
        for key in ("mod:1", "mod:2", "mod:003", f"mod:{TOP}", "mod:2:6", "mod:2:5", "mod:7:8",
                    f"mod:1:{TOP}"):
            yield f"groupby {key} ; 5 7 6 8 8 5 {TOP} ; {calls}"
        yield f"groupby mod:2:6 ; 6 5 6 {F} 7 6 4 ; {calls}"
    for calls in itertools.product(("g", "i1", "i2"), repeat=3):
        yield line_of("groupby self ; 5 5 6", [*calls, "g", "i2"])
    # after the end, and a number that was current then
    yield "groupby self ; 5 ; g i1 i1 i1 g i1 g"
    yield "groupby self ; 5 6 ; g i1 i1 i1 g i1 i2 g i2"
    # a fault in a group call, the old number being current before
    yield f"groupby self ; 5 5 {F} 5 6 ; g i1 g i1 g i1 i2"
    yield f"groupby mod:9:7 ; 5 5 7 5 6 ; g i1 g i1 g i1 i2"
    # a fault in an item call
    yield f"groupby self ; 5 {F} 5 6 ; g i1 i1 i1 i1 i1 g i2"
    yield f"groupby mod:9:7 ; 5 7 5 6 ; g i1 i1 i1 i1 i1 g i2"
    yield f"groupby self ; {FULL} 5 ; i1 g g i1"
    # numbers that no group has, of more than 32 bits too
    for far in (0, 2, 2**32 - 1, 2**32, 2**32 + 1, 2**33 + 1, 2**40 + 1, TOP):
        yield f"groupby self ; 5 5 6 ; i{far} g i{far} i1 i{far} i001 i1 g i{far} i2"


def listing_scenarios():
    for lengths in ("-", "0", "1", "2", *(pools(a, b) for a in range(3) for b in range(3))):
        yield f"listing product 1 {lengths} ; -"
        yield f"listing product 2 {lengths} ; -"
    for n, r in itertools.product(range(4), range(5)):
        for name in ("combinations", "replacement", "permutations"):
            yield f"listing {name} {n} {r} ; -"
    for n in (0, 1, 2, 3, 4, 65):
        yield f"listing permutations {n} - ; -"
    # as many rows as are listed, and one fewer and one more
    for n in (99, 100, 101, 256):
        for head in (f"combinations {n} 1", f"replacement {n} 1", f"permutations {n} 1",
                     f"product 1 {n}"):
            yield f"listing {head} ; -"
    for head in ("product 2 10", "product 1 101,1", "product 1 9,11", "combinations 15 2",
                 "replacement 13 2", "permutations 10 2", "permutations 11 2"):
        yield f"listing {head} ; -"
    # places of three digits, and the longest rows
    yield "listing combinations 256 64 ; -"
    yield "listing permutations 256 64 ; -"
    yield "listing combinations 200 3 ; -"
    yield "listing combinations 120 2 ; -"
    yield f"listing product 1 {pools(1, 256, 1)} ; -"
    yield "listing product 64 1 ; -"
    yield "listing combinations 64 64 ; -"
    yield "listing replacement 256 64 ; 25605"
    # buffers of just enough bytes, of fewer, and of more
    for head, least in (("combinations 3 2", 805), ("product 1 -", 105), ("combinations 2 3", 1205),
                        ("replacement 2 1", 405), ("permutations 64 -", 25605)):
        for size in (0, 1, 5, least - 1, least, least + 1, f"0{least}", 32_768):
            yield f"listing {head} ; {size}"
    # makings that are refused, whatever the buffer
    for head in ("combinations 257 1", "combinations 3 65", "replacement 257 65",
                 "permutations 65 -", "product 1 257", "product 65 1", f"product 0 {FAR}",
                 f"combinations {TOP} {TOP}"):
        for size in ("-", 0, 32_768):
            yield f"listing {head} ; {size}"
    for repeat in (2**31, 2**32 - 1):
        for lengths in ("-", "0", "1"):
            yield f"listing product {repeat} {lengths} ; -"



GOOD = (
    ("range: the numbers from a start to below a stop", range_scenarios),
    ("records: blocks read from record bytes", records_scenarios),
    ("takewhile", lambda: while_scenarios("takewhile")),
    ("dropwhile", lambda: while_scenarios("dropwhile")),
    ("chain", chain_scenarios),
    ("islice", islice_scenarios),
    ("compress", compress_scenarios),
    ("accumulate", accumulate_scenarios),
    ("pairwise", pairwise_scenarios),
    ("zip_longest", zip_longest_scenarios),
    ("products", product_scenarios),
    ("combinations", lambda: combination_scenarios("combinations")),
    ("combinations with replacement", lambda: combination_scenarios("replacement")),
    ("permutations", permutation_scenarios),
    ("tees", tee_scenarios),
    ("groups", groupby_scenarios),
    ("listings", listing_scenarios),
    ("the smallest inputs of docs/DIFFERENCES.md", difference_scenarios),
)
