"""Lines that are no scenarios, of which the gate asks that each is answered `bad scenario`."""

from gate import BLOCK, FAR
from generator import TOP


def malformed_calls():
    """Tees, groups and listings that are not of a form."""
    yield from malformed_tees()
    yield from malformed_groups()
    yield from malformed_listings()


def malformed_tees():
    for line in ("tee", "tee 2", "tee 2 3", "tee 2 3 ; 1", "tee 2 ; 1 ; s0", "tee ; 1 ; s0",
                 "tee 2 3 4 ; 1 ; s0", "tee 2 3 ; 1 ; s0 ; s1", "tee 2 3 ; s0",
                 "tee 2 3 ;  ; s0", "tee 2 3 ; 1 ; ", "tee 2 3 ; 1 s0", "Tee 2 3 ; 1 ; s0",
                 "tees 2 3 ; 1 ; s0", "tee 2,3 ; 1 ; s0", "tee  2 3 ; 1 ; s0"):
        yield line
    for words in ("_ 3", "+2 3", "-1 3", "a 3", "-- 3", f"{2**64} 3", "2 -", "2 _", "2 +3", "2 a",
                  f"2 {2**64}", "- -", f"17 {2**64}", "17 a"):
        yield f"tee {words} ; 1 ; s0"
    for word in ("-", "s", "c", "s:", "s0:", "s:1", "s0:1:2", "s0::1", "s0:-", "s0:a", "s0:+1",
                 "c0:1", "c:", "s-1", "s+0", "sa", "ca", "S0", "C0", "ss0", "0", "n", "g",
                 "i1", f"s{2**64}", f"c{2**64}", f"s0:{2**64}", "s0 -", "- s0", "s0  s1", " s0",
                 "s0 ", "s0,s1", "s 0", "s0 s0: s0", "!1:2:3"):
        yield f"tee 2 3 ; 1 ; {word}"
    # the steps and the calls are looked at before the making is refused
    yield from ("tee 17 3 ; a ; s0", "tee 17 3 ; 1 ; x", "tee 17 3 ; 1 ; s0:", "tee 2 3 ; 1 - ; s0",
                "tee 2 3 ; !256:0:0 ; s0")


def malformed_groups():
    for line in ("groupby", "groupby self", "groupby self ; 1", "groupby ; 1 ; g",
                 "groupby self self ; 1 ; g", "groupby self ; 1 ; g ; g", "groupby self 1 ; g",
                 "groupby self ;  ; g", "groupby self ; 1 ; ", "Groupby self ; 1 ; g",
                 "group self ; 1 ; g", "groupby  self ; 1 ; g", "groupby self ; a ; g"):
        yield line
    for key in ("mod", "mod:", "mod:0", "mod:00", "mod:0:1", "mod:a", "mod:+1", "mod:-1", "mod:1:",
                "mod::1", "mod:1:a", "mod:1:+2", "mod:1:2:3", f"mod:{2**64}", f"mod:1:{2**64}",
                "self:", "self:5", "Self", "itself", "Mod:1", "mod1", "below:1", "nonzero", "-",
                "5"):
        yield f"groupby {key} ; 1 ; g"
    for word in ("-", "G", "gg", "g1", "g:1", "i", "i:", "i1:2", "i-", "i-1", "i+1", "ia", "I1",
                 "ii1", "1", "n", "s0", f"i{2**64}", "g -", "- g", "g  g", " g", "g ", "g,i1",
                 "g i", "!1:2:3"):
        yield f"groupby self ; 1 ; {word}"


def malformed_listings():
    for line in ("listing", "listing ; -", "listing combinations 3 2", "listing combinations 3 ; -",
                 "listing combinations ; -", "listing combinations 3 2 1 ; -",
                 "listing combinations 3 2 ; - ; -", "listing combinations 3 2 -",
                 "listing combinations 3 2 ; n", "listing tee 2 2 ; -", "listing pairwise ; 1",
                 "listing listing combinations 3 2 ; -", "listing range 1 2 ; -",
                 "Listing combinations 3 2 ; -", "list combinations 3 2 ; -",
                 "listing  combinations 3 2 ; -",
                 "listing Combinations 3 2 ; -", "listing combinations_with_replacement 3 2 ; -",
                 "listing combinations 3 - ; -", "listing replacement 3 - ; -",
                 "listing permutations - - ; -", "listing product 4294967296 2 ; -",
                 "listing product 1 2,,2 ; -", f"listing combinations {2**64} 1 ; -",
                 "listing product 2 ; -"):
        yield line
    for size in ("", "--", "_", "a", "+805", "-805", "805.0", "0x325", "805 805", "- -", " 805",
                 "805 ", "805,805", "32769", "032769", "40000", str(2**32 + 805), str(2**64),
                 str(2**64 + 805), "!1:2:3"):
        yield f"listing combinations 3 2 ; {size}"
    yield from ("listing combinations 257 1 ; 32769", "listing combinations 3 65 ; a",
                "listing permutations 65 - ; ")


def malformed_enumerators():
    # the number of words and of parts
    for head in ("product", "product 1", "product 1 2 3", "product 1 2,2 -", "product  1 2",
                 "combinations 3", "combinations 3 2 1", "combinations 3,2",
                 "replacement 3", "replacement 3 2 1", "permutations 3", "permutations 3 2 1"):
        yield f"{head} ; n"
    for line in ("combinations 3 2", "combinations 3 2 ;", "combinations 3 2 ; ",
                 "combinations 3 2 n n", "combinations 3 2 ; n ; n",
                 "combinations ; 3 2 ; n", "product 1 2 ; ", "product 1 2,2; n",
                 "replacement 2 2 ;  n", "permutations 3 -", "permutations 3 2 ; n "):
        yield line
    for head in ("Product 1 2", "products 1 2", "combination 3 2",
                 "combinations_with_replacement 2 2", "permutation 3 2"):
        yield f"{head} ; n"
    # repeats, lengths and r
    for repeat in (2**32, 2**64 - 1, 2**64, "-", "_", "+1", "a", "1,1"):
        yield f"product {repeat} 2 ; n"
    for lengths in (",", "2,", ",2", "2,,2", "_", "2,_", "-,2", "2,-", "--", "+2", "a", "2;2",
                    2**64, f"2,{2**64}", f"257,{2**64}", "2, 2"):
        yield f"product 1 {lengths} ; n"
    for name in ("combinations", "replacement", "permutations"):
        for n, r in ((2**64, 1), (1, 2**64), ("+3", 2), (3, "+2"), ("-", 2), (3, "_"), (1, "a")):
            yield f"{name} {n} {r} ; n"
    for head in ("combinations 3 -", "replacement 3 -", "permutations - -", "permutations 3 --"):
        yield f"{head} ; n"
    # calls
    for word in ("-", "N", "nn", "n:", "n:1", "n:1:2", "n:3:4:", "n:3::4", "n::4:4", "n:::",
                 ":3:4:4", "n:3:4:4:5", "n:3:4:4:", "3:4:4", "n3:4:4", "n:3,4,4",
                 "n:+3:4:4", "n:3:+4:4", "n:3:4:+4", "n:a:4:4", "n:3:_:4", "n:-:4:4",
                 f"n:{2**64}:4:4", f"n:3:{2**64}:4", f"n:3:4:{2**64}",
                 "next", "s0", "5", "!1:2:3", "n;", "n,n", "m:3:4:4", "n -", "- n", "n  n",
                 "n n:1:2 n"):
        yield f"combinations 3 2 ; {word}"
    # the calls are looked at before the making is refused
    for line in ("combinations 257 1 ; ", "combinations 3 65 ; n:1:2", "replacement 257 1 ; n m",
                 "permutations 65 - ; -", "product 1 257 ; n:",
                 "product 65 1 ; 1 2 3", f"product 0 {FAR} ; N"):
        yield line


def malformed_scenarios():
    yield from malformed_lines()
    yield from malformed_parts()
    yield from malformed_numbers()
    yield from malformed_rules()
    # a list of steps that is not of the form is looked at before the arguments are refused
    yield from ("islice 1,2,0 ; a", "islice - ; +1", f"islice {TOP} ; ")


def malformed_lines():
    yield from (" ", "  ", ";", " ; ", " ; ; ", "-", "!", "!1:2:3", "5", ".", "end", "bad scenario",
                "range", "hello")
    yield from (" # a comment that does not begin its line", " range 0 1", "range 0 1 ",
                "range  0 1", "range 0  1")
    yield from ("range 0 1\r", "\r", "range\t0 1", "range 0\t1", "range 0 1;", "range 0 1 ;",
                "range 0 1 ; ", "; range 0 1")
    yield from ("Range 0 1", "RANGE 0 1", "ranges 0 1", "rang 0 1", "range0 1", "range,0,1",
                "range 0 1 # comment")


def malformed_parts():
    """Other numbers of words and of parts."""
    yield from ("range 0", "range 0 1 2", "range 0 1 ; 2", "range ; 0 1", "records", "records - -",
                "records - ; -")
    yield from ("records 08 00", "takewhile below:3", "takewhile ; 1", "takewhile below:3 ; 1 ; 2",
                "takewhile below:3 1 ; 2")
    yield from ("takewhile below:3 ;", "takewhile below:3 ; ", "takewhile below:3 ;  ; 1",
                "takewhile below:3 ; ; 1")
    yield from ("chain", "chain ; 1", "chain ; 1 ; 2 ; 3", "chain 1 ; 2 ; 3", "chain 1 2",
                "chain ; ; 1", "chain ;  ; 1")
    yield from ("chain ; 1 ;", "chain ; 1 ; ", "chain ;; 1 ; 2", "chain; 1 ; 2", "chain ;1 ; 2",
                "chain  ; 1 ; 2", "chain ;  1 ; 2")
    yield from ("islice ; 1", "islice 1", "islice 1 2 ; 1", "islice 1 ; 1 ; 2",
                "compress nonzero ; 1", "compress ; 1 ; 2")
    yield from ("compress nonzero ; 1 ; 2 ; 3", "accumulate sum ; 1", "accumulate - ; 1",
                "accumulate sum - - ; 1", "accumulate sum -")
    yield from ("accumulate ; 1", "accumulate sum - ; 1 ; 2", "pairwise", "pairwise 1",
                "pairwise ; 1 ; 2", "pairwise - ; 1")
    yield from ("zip_longest 8 ; 1 ; 2", "zip_longest ; 1 ; 2", "zip_longest 8 9 7 ; 1 ; 2",
                "zip_longest 8 9 ; 1", "zip_longest 8 9")


def malformed_numbers():
    """Numbers, faults and hexadecimal digits."""
    yield from ("range 4294967296 0", "range 0 4294967296", "range 18446744073709551616 0",
                f"range 0 {TOP}")
    yield from ("range -1 1", "range +0 1", "range 0 +1", "range 0 1.0", "range 0 0x1",
                "range 0 1e0", "range 0 1_0", "range 0 -", "range a b")
    for word in (str(2**64), "1" + "0" * 40, "+1", "-1", "1.", "1,2", "0x1", "a", "_", "1:2", "!",
                 ";", "--", "1-"):
        yield f"pairwise ; 1 {word}"
    for place in (f"pairwise ; - 1", "pairwise ; 1 -", "pairwise ; - -", "pairwise ; 1  2",
                  "pairwise ;  1", "pairwise ; 1 ", "pairwise ; 1,2"):
        yield place
    for fill in (str(2**64), "+1", "-", "_", "a"):
        yield f"zip_longest {fill} 1 ; 1 ; 2"
        yield f"zip_longest 1 {fill} ; 1 ; 2"
    # faults
    for word in ("!1", "!1:2", "!1:2:", "!1::3", "!:2:3", "!::", "!1:2:3:4", "!1:2:3:", "!256:0:0",
                 "!0:65536:0", f"!0:0:{2**64}",
                 "!+1:2:3", "!1:+2:3", "!1:2:+3", "!-1:2:3", "!a:2:3", "!1:2:0x3", "! 1:2:3",
                 "!!1:2:3", "1:2:3", "!1,2,3", "!1:2:3!"):
        yield f"pairwise ; {word}"
    # hexadecimal digits
    for word in ("0", "080", "0g", "g0", "0x08", "-0", "0-", "--", "+0", "08,00", BLOCK[:-1],
                 BLOCK + "z" * 2, "+f", " 08"):
        yield f"records {word}"


def malformed_rules():
    """Predicates, joinings and the arguments of islice."""
    for word in ("below", "below:", "below:a", "below:+1", "below:-1", f"below:{2**64}", "below:1:",
                 "below::1", "below:1:2:3", "below:1:+2",
                 f"below:1:{2**64}", "below:1:a", "Below:1", "above:1", "nonzero", "nonzero:1",
                 "below 1", "1", "-", ":", "xbelow:1"):
        yield f"takewhile {word} ; 1"
    for word in ("nonzero:", "nonzero:+1", "nonzero:a", f"nonzero:{2**64}", "nonzero:1:2",
                 "nonzero::", "nonzero1", "Nonzero", "non zero", "zero",
                 "below:1", "-", "1"):
        yield f"compress {word} ; 1 ; 1"
    # joinings and initial values
    for words in ("min -", "add -", "Sum -", "sum", "sum _", "sum +1", "sum -1", f"sum {2**64}",
                  "max a", "- sum", "sum, -", "max  -"):
        yield f"accumulate {words} ; 1"
    # arguments of islice
    for word in (",", "1,", ",1", "1,,2", "1,2,", "__", "-,1", "1,-", "--", "+1", "-1", "1,+2", "a",
                 "1;2", str(2**64), f"0,0,{2**64}",
                 f"1,2,3,{2**64}", "_,_,_,a", "1.2", "1, 2"):
        yield f"islice {word} ; 1"


def bytes_scenarios():
    """Lines that are not ASCII, that hold a zero byte, or are much longer than others: all bad."""
    yield "range 0 1é".encode()
    yield "pairwise ; ١ ٢".encode()
    yield "records ０８".encode()
    yield b"range 0 1\xff"
    yield b"\xff\xfe"
    yield b"pairwise ; 1 \xc3\x28"
    yield b"pairwise ; 1 \x80 2"
    yield b"range 0 1\x00"
    yield b"\x00"
    yield b"\x7f"
    yield b" " * 5000
    yield b"; " * 2500
    yield b"pairwise" + b" ; 1" * 1500
    yield b"range 0 " + b"9" * 3000


BAD = (
    ("lines that are not of a form", malformed_scenarios),
    ("enumerators that are not of a form", malformed_enumerators),
    ("tees, groups and listings that are not of a form", malformed_calls),
    ("lines with other bytes, and long ones", bytes_scenarios),
)
