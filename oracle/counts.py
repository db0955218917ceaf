"""Tells how many scenarios there are, and whether the documents tell the same numbers.

    python3.12 oracle/counts.py     print the numbers, and every place where a document has another

Nothing is run: what the others answer is taken as foretold, so that the numbers are those of
`oracle/run`. The status is 0 if all documents are right.
"""

import os
import re
import sys
from multiprocessing import get_context

import compare
import differences
import model
import sample
from by_hand import BY_HAND
from compare import ROOT
from protocol import is_silent

DOCUMENTS = (
    "README.md", "docs/ASSURANCE.md", "docs/DIFFERENCES.md", "docs/replay.md", "oracle/README.md"
)

# How the documents tell the numbers.
TOLD = {
    "gate": r"([\d,]+)\s+scenarios\s+of\s+`crates/replay`|There\s+are\s+([\d,]+)\s+of\s+them",
    "made": r"more\s+than\s+([\d,]+)\s+scenarios",
    "compared": r"some\s+([\d,]+)\s+(?:scenarios\s+|are\s+compared\s+)?beside\s+each",
}


def account_of(lines):
    """What is compared of lines where all answer as they should."""
    account = compare.Account()
    for line in lines:
        scenario = compare.scenario_of(line)
        ours = ["bad scenario"] if scenario is None else model.answers(scenario)
        others = dict.fromkeys(compare.OTHERS, ours)
        if scenario is not None:
            for name in others:
                original = name == compare.ORIGINAL
                others[name] = differences.lines_of(scenario, ours, original)
        account.add(line, ours, others)
    return account


def numbers():
    """The numbers that documents tell, rounded down as they tell them, and the account of the
    comparison."""
    lines = compare.all_lines()
    account = compare.Account()
    with get_context("fork").Pool(os.cpu_count()) as pool:
        chunks = [lines[at : at + compare.CHUNK] for at in range(0, len(lines), compare.CHUNK)]
        for part in pool.imap(account_of, chunks):
            account.take(part)
    gate = (ROOT / "crates" / "replay" / "stdin").read_bytes().split(b"\n")
    least = min(judged.total() for judged in account.judged.values())
    told = {
        "gate": len({line for line in gate if not is_silent(line)}),
        "made": len(lines) // 10_000 * 10_000,
        "compared": least // 1_000 * 1_000,
    }
    beside = {"made in all": len(lines), "sample": len([*sample.blocks()]), "by hand": len(BY_HAND)}
    return told, beside, account


def wrong(told):
    """Where a document tells another number."""
    for document in DOCUMENTS:
        text = (ROOT / document).read_text()
        for what, pattern in TOLD.items():
            for found in re.finditer(pattern, text):
                number = next(filter(None, found.groups()))
                if number != f"{told[what]:,}":
                    line = text.count("\n", 0, found.start()) + 1
                    yield f"{document}:{line}: {number} for {told[what]:,} ({what})"


def main():
    told, beside, account = numbers()
    for what, number in (told | beside).items():
        print(f"{what}: {number:,}")
    account.report()
    places = [*wrong(told)]
    print(*places, sep="\n")
    sys.exit(bool(places))


if __name__ == "__main__":
    main()
