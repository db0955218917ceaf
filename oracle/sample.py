"""The sample of the original's answers, which the gate plays on replay: sample.txt, written by
`oracle/run FOLDER --sample`.

The driver of the original is compiled so that it tells which edges of the code each scenario goes
over. Among the scenarios that the original answers word for word as the rules do, those are chosen
that together go over each edge of its module that any of them goes over, several times, shorter
ones first.
"""

import re
import subprocess
from collections import Counter, defaultdict
from pathlib import Path

import model
from protocol import is_silent

ORACLE = Path(__file__).resolve().parent
SAMPLE = ORACLE / "sample.txt"

# Each edge is to lie on the way of so many scenarios, where there are so many.
TIMES = 12

LEAST = 200

LONGEST_LINE = 90
LONGEST_ANSWER = 1500

WAYS = ("level=3", "inline-8bit-counters", "pc-table")
COVERAGE = [
    "-Cpasses=sancov-module", *(f"-Cllvm-args=-sanitizer-coverage-{way}" for way in WAYS)
]

# The functions of the original that are asked for: makings and next calls, and what these call.
CALLED = "next|py_new|slot_new|update_idxs|advance|get_item|copy|from_iter"
BODIES = re.compile(
    rf"decl\.\.PyItertools(\w+).*?({CALLED})17h|(pyobject_to_opt_usize|is_current)"
)
LEFT_OUT = {"Count", "Cycle", "Repeat", "Starmap", "FilterFalse", "Batched"}

HEAD = """\
# Scenarios, and below each what the Rust original answers, as the text of its module was run by
# oracle/run FOLDER --sample.
# They are such that the answers by the rules are the same word for word.
"""


def blocks():
    """The scenarios of the sample and the original's answers."""
    lines = SAMPLE.read_text().splitlines()
    answers = None
    for line in lines:
        if answers is None:
            if not is_silent(line.encode()):
                scenario, answers = line.encode(), []
        elif line == ".":
            yield scenario, answers
            answers = None
        else:
            answers.append(line)


def play(program, lines):
    """What a program answers to lines, and what it writes beside."""
    run = subprocess.run(program, input=b"".join(line + b"\n" for line in lines),
                         capture_output=True, check=True)
    answers = run.stdout.decode().split("\n.\n")[:-1]
    return [answer.split("\n") for answer in answers], run.stderr.decode().splitlines()


def stale(original):
    """What is wrong with the sample: answers that the original does not give."""
    kept = [*blocks()]
    if len(kept) < LEAST:
        yield f"the sample has only {len(kept)} scenarios"
    answers, _ = play(original, [line for line, _ in kept])
    for (line, owed), told in zip(kept, answers, strict=True):
        if owed != told:
            yield f"the sample is not as the original answers: {line.decode()}"


def edges_of_bodies(program, places):
    """The places in the bodies of the original that are asked for, each with its function and
    line."""
    found = subprocess.run(["addr2line", "-f", "-e", *program], input="\n".join(places), text=True,
                           capture_output=True, check=True)
    lines = iter(found.stdout.splitlines())
    bodies = {}
    for place, name, at in zip(places, lines, lines):
        body = BODIES.search(name)
        if body and body[1] not in LEFT_OUT and "itertools.rs" in at:
            bodies[place] = body[1] or body[3], body[2] or "", at.rsplit(":", 1)[1]
    return bodies


def ways(program, lines):
    """The edges in the original's bodies that each line goes over, and all of those."""
    _, told = play(program, lines[:1])
    bodies = edges_of_bodies(program, told[0].split())
    gone = []
    for at in range(0, len(lines), 4000):
        _, told = play(program, lines[at : at + 4000])
        gone += [frozenset(place for place in way.split() if place in bodies) for way in told[1:]]
    return gone, bodies


def chosen(lines, gone):
    """Lines that go over every edge several times, round by round."""
    by_way = defaultdict(list)
    for line, way in sorted(zip(lines, gone), key=lambda known: len(known[0])):
        by_way[way].append(line)
    picked = []
    for _ in range(TIMES):
        wanted = frozenset().union(*(way for way, left in by_way.items() if left))
        while wanted:
            way = max((way for way, left in by_way.items() if left),
                      key=lambda way: (len(way & wanted), -len(by_way[way][0])),
                      default=frozenset())
            if not way & wanted:
                break
            wanted -= way
            picked.append(by_way[way].pop(0))
    return picked


def is_short(line, answers):
    return len(line) <= LONGEST_LINE and len("".join(answers)) <= LONGEST_ANSWER


def write(lines, original, counting):
    """Chooses the sample among lines and writes it, and tells which edges no scenario reaches. An
    edge without a line is the compiler's own, and many are checks of an index."""
    gone, bodies = ways(counting, lines)
    told, _ = play(original, lines)
    same = [
        at for at, line in enumerate(lines)
        if is_short(line, told[at]) and told[at] == model.by_the_rules(line)
    ]
    picked = chosen([lines[at] for at in same], [gone[at] for at in same])
    answers = dict(zip(lines, told))
    order = {line: at for at, line in enumerate(lines)}
    with SAMPLE.open("w") as out:
        out.write(HEAD)
        for line in sorted(picked, key=order.get):
            out.write("\n".join([line.decode(), *answers[line], ".", ""]))
    reached = frozenset().union(*gone)
    in_sample = frozenset().union(*(way for line, way in zip(lines, gone) if line in {*picked}))
    print(
        f"{len(picked)} scenarios, over {len(in_sample)} of {len(bodies)} edges in the original's "
        f"bodies; {len(reached)} are reached by any scenario"
    )
    missed = Counter(bodies[edge] for edge in bodies.keys() - reached)
    for (name, body, line), count in sorted(missed.items()):
        print(f"not reached: {name} {body} line {line}, {count} of its edges")
