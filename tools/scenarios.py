#!/usr/bin/env python3.12
"""Writes the scenarios that the replay program is run on at every check, and the answers it owes.

    python3.12 tools/scenarios.py            write crates/replay/stdin and crates/replay/stdout
    python3.12 tools/scenarios.py --check    say whether both files are as they would be written

No answer comes from the replay program. They come from four places that have to agree:

- oracle/model.py, a model of each adapter and enumerator, of tees, groups and listings, written
  from the rules;
- CPython 3.12's own itertools, as oracle/cpython.py plays them, wherever Python has what a scenario
  asks for. Where its answers are others by intent, they have to be those that
  oracle/differences.py foretells;
- the Rust original, as its own text was run: oracle/sample.txt holds scenarios and its answers;
- answers written out by hand, in oracle/by_hand.py, for some 120 scenarios.

The scenarios are in oracle/gate.py, and lines that are none in oracle/malformed.py.
"""

import sys
from pathlib import Path

ROOT = Path(__file__).resolve().parent.parent
sys.path.insert(0, str(ROOT / "oracle"))

import cpython
import differences
import model
import sample
from by_hand import BY_HAND
from gate import GOOD
from malformed import BAD
from protocol import answer_line, read

FOLDER = ROOT / "crates" / "replay"


def scenarios(group):
    """The lines of a group as bytes, each once."""
    lines = (line if isinstance(line, bytes) else line.encode() for line in group())
    return list(dict.fromkeys(lines))


def owed(line, good):
    lines = model.by_the_rules(line)
    assert (lines != ["bad scenario"]) == good, line
    if good:
        told = answer_line(line, cpython.answers)
        foretold = differences.lines_of(read(line), lines, original=False)
        assert told == foretold, (line, foretold, told)
    hand = BY_HAND.get(line.decode("ascii", "replace"))
    assert hand is None or hand.split(", ") == lines, (line, lines, hand)
    return lines


def sampled(line, told):
    """The original's answers, which are those by the rules."""
    assert owed(line, good=True) == told, (line, told)
    return told


def files():
    asked, said, seen = [b"# Written by tools/scenarios.py."], [], set()
    for groups, good in ((GOOD, True), (BAD, False)):
        for title, group in groups:
            asked += [b"", b"# " + title.encode()]
            for line in scenarios(group):
                seen.add(line)
                asked.append(line)
                said += owed(line, good) + ["."]
    asked += [b"", b"# a sample of what the Rust original answers"]
    for line, told in sample.blocks():
        told = sampled(line, told)
        if line not in seen:
            seen.add(line)
            asked.append(line)
            said += told + ["."]
    missing = [line for line in BY_HAND if line.encode() not in seen]
    assert not missing, missing
    # the last line is a scenario too where no line feed ends it
    asked.append(b"range 1 2")
    said += owed(b"range 1 2", True) + ["."]
    return b"\n".join(asked), "".join(line + "\n" for line in said).encode(), len(seen) + 1


def main():
    if sys.version_info[:2] != (3, 12):
        sys.exit("scenarios.py: run it with CPython 3.12, whose itertools are the judge")
    stdin, stdout, count = files()
    wanted = {FOLDER / "stdin": stdin, FOLDER / "stdout": stdout}
    if sys.argv[1:] == ["--check"]:
        kept = {path: path.exists() and path.read_bytes() for path in wanted}
        stale = [path.name for path, text in wanted.items() if kept[path] != text]
        sys.exit("scenarios.py: not as written here: " + " ".join(stale) if stale else 0)
    for path, text in wanted.items():
        path.write_bytes(text)
    print(f"{count} scenarios")


if __name__ == "__main__":
    main()
