"""Runs replay, the Rust original and CPython on the same scenarios and compares the answers line by
line.

    oracle/run FOLDER            all scenarios; FOLDER holds the original's src/stdlib/itertools.rs
    oracle/run FOLDER --more N   N random scenarios beside them, from a new seed or from `--seed S`
    oracle/run FOLDER --try      a part of them, on replay as `rt try` runs it, without a proof
    oracle/run FOLDER --sample   choose the sample of the original's answers anew, and write it

The last line is `N compared, D differ`. The status is 0 if none differs, each intended difference
has shown itself and is in docs/DIFFERENCES.md, and the sample holds what the original answers.
"""

import argparse
import hashlib
import os
import random
import shutil
import subprocess
import sys
import time
from collections import Counter
from concurrent.futures import ProcessPoolExecutor
from contextlib import closing
from functools import partial
from multiprocessing import get_context
from pathlib import Path

import differences
import generator
import model
import sample
from protocol import UNASKED, Bad, read

ROOT = Path(__file__).resolve().parent.parent
ORACLE = ROOT / "oracle"
REPLAY = ROOT / "crates" / "replay"
WORK = ROOT / "target" / "oracle"

# named, so that what is set for the driver is not set for what compiles it
TARGET = "x86_64-unknown-linux-gnu"

# So many scenarios are played and compared at once; no more of them are ever kept.
CHUNK = 5_000

SHOWN = 10

# One in so many, for replay without its proof: `rt try` gives at most 1 MiB of answers.
THINNED = 60

# So many have to be compared beside each of the two.
LEAST = 150_000

ORIGINAL = "the original"

OTHERS = {ORIGINAL: differences.ORIGINAL, "CPython": differences.CPYTHON}

# The original's two files, as rustpython-vm 0.4.0 has them.
PUBLISHED = {
    "src/stdlib/itertools.rs": "da80d687a9ed64eb9e7a3be9fa4cd79eafd3247d812fa09259f48e3fa0bda9bd",
    "src/protocol/iter.rs": "e60b57db0cf847eebf0c48f7fb594bb663fdaea95f5a62f82d58d046761733a7",
}

# -------------------------------------------------------------------------------------------------
# Building and running


class Failed(Exception):
    """The comparison cannot go on."""


def build_original(folder, *, counting=False):
    """The driver of the original, compiled from the folder's own files. One that is `counting`
    tells the edges it goes over."""
    profile, flags = ("coverage", ["--features=coverage"]) if counting else ("release", [])
    target = WORK / "cargo" / profile
    command = ["cargo", "build", "--quiet", "--offline", f"--profile={profile}", *flags]
    environment = {"ORIGINAL": str(folder),
                   "RUSTFLAGS": " ".join(sample.COVERAGE if counting else [])}
    subprocess.run(
        [*command, f"--target={TARGET}", f"--target-dir={target}"],
        check=True, cwd=ORACLE / "original", env=os.environ | environment,
    )
    return [target / TARGET / profile / "original"]


def build_replay():
    subprocess.run(
        ["rt", "run"], cwd=REPLAY, stdin=subprocess.DEVNULL, stdout=subprocess.DEVNULL, check=True
    )
    return [REPLAY / "out" / "replay"]


def answers_of(name, text, count):
    """The answers of a run, scenario by scenario."""
    told, lines = [], []
    for line in text.decode("ascii").splitlines():
        if line == ".":
            told.append(lines)
            lines = []
        else:
            lines.append(line)
    if len(told) != count or lines:
        raise Failed(f"{len(told)} of {count} scenarios were answered by {name}")
    return told


def play(programs, lines):
    """What each program answers to the same lines. They run side by side."""
    asked = WORK / f"{os.getpid()}.scenarios"
    asked.write_bytes(b"".join(line + b"\n" for line in lines))
    running = {}
    for name, command in programs.items():
        answer = WORK / f"{os.getpid()}.{name.replace(' ', '-')}"
        with asked.open("rb") as stdin, answer.open("wb") as stdout:
            process = subprocess.Popen(command, stdin=stdin, stdout=stdout, cwd=REPLAY)
        running[name] = process, answer
    failed = [name for name, (process, _) in running.items() if process.wait() != 0]
    if failed:
        raise Failed(f"{' and '.join(failed)} did not end with status 0")
    told = {}
    for name, (_, answer) in running.items():
        told[name] = answers_of(name, answer.read_bytes(), len(lines))
        answer.unlink()
    asked.unlink()
    return told


# -------------------------------------------------------------------------------------------------
# Comparing


class Account:
    """What was compared so far. Of the scenarios only a few are kept, so that there may be any
    number."""

    def __init__(self):
        self.scenarios = 0
        self.compared = 0
        self.bad = 0
        self.differing = 0
        # the first that differ
        self.shown = []
        # by who is beside: how many were compared, of each form; of refused calls alone; skipped,
        # and why
        self.judged = {name: Counter() for name in OTHERS}
        self.unasked = Counter()
        self.skipped = {name: Counter() for name in OTHERS}
        # by intended difference and who is beside: how often it was met, the shortest that met it,
        # and
        # whether its smallest was among them
        self.met = Counter()
        self.shortest = {}
        self.smallest = set()

    def add(self, line, ours, others):
        """Our answers beside those of the model, and what the others told beside what is
        foretold."""
        scenario = scenario_of(line)
        owed = ["bad scenario"] if scenario is None else model.answers(scenario)
        wrong = ["the model"] if ours != owed else []
        for name, theirs in others.items():
            if not self.is_foretold(name, line, scenario, ours, theirs):
                wrong.append(name)
        self.scenarios += 1
        self.bad += scenario is None
        self.compared += scenario is not None and any(map(is_an_answer, others.values()))
        if wrong:
            self.differing += 1
            self.shown = [*self.shown,
                          (line, wrong, {"replay": ours, "the model": owed} | others)][:SHOWN]

    def is_foretold(self, name, line, scenario, ours, theirs):
        if scenario is None:
            return theirs == ours
        reason = differences.reason_to_skip(scenario, name == ORIGINAL)
        if reason is not None:
            self.skipped[name][reason] += 1
            return theirs == [f"skipped: {reason}"]
        if is_an_answer(theirs):
            self.judged[name][scenario.name] += 1
        else:
            self.unasked[name] += 1
        lines, entries = differences.foretold(OTHERS[name], scenario, ours)
        for entry in entries:
            self.meet((name, entry), line.decode())
        return theirs == lines

    def meet(self, difference, line):
        self.met[difference] += 1
        self.shortest[difference] = min(self.shortest.get(difference, line), line, key=len)
        if line in SMALLEST:
            self.smallest.add((*difference, line))

    def take(self, other):
        """Adds what was compared elsewhere."""
        self.scenarios += other.scenarios
        self.compared += other.compared
        self.bad += other.bad
        self.differing += other.differing
        self.shown = [*self.shown, *other.shown][:SHOWN]
        self.unasked += other.unasked
        self.met += other.met
        self.smallest |= other.smallest
        for name in OTHERS:
            self.judged[name] += other.judged[name]
            self.skipped[name] += other.skipped[name]
        for difference, line in other.shortest.items():
            self.shortest[difference] = min(self.shortest.get(difference, line), line, key=len)

    def report(self):
        for line, wrong, told in self.shown:
            print(f"differs from {' and '.join(wrong)}: {line.decode('latin-1')}")
            for name, lines in told.items():
                print(f"    {name}: {', '.join(lines)}")
        print(f"lines that are not of a form, which all have to call so: {self.bad:,}")
        for name in OTHERS:
            print(
                f"{name}: {self.judged[name].total():,} compared ({listed(self.judged[name])}), "
                f"{self.unasked[name]:,} of refused calls alone, "
                f"{self.skipped[name].total():,} skipped ({listed(self.skipped[name])})"
            )
        for (name, entry), count in self.met.most_common():
            shortest = self.shortest[name, entry]
            print(f"intended, beside {name}: {entry}: {count:,} times, as in {shortest}")


def listed(counter):
    return ", ".join(f"{what}: {count:,}" for what, count in counter.most_common())


def is_an_answer(lines):
    """Whether something was answered, and not only that it was not asked."""
    return not all(line == UNASKED or line.startswith("skipped: ") for line in lines)


def scenario_of(line):
    """What a line says; None where it is not of a form."""
    try:
        return read(line)
    except Bad:
        return None


SMALLEST = frozenset(differences.smallest())


def unshown(account):
    """The intended differences that did not show themselves by their smallest scenario, or that the
    documents lack."""
    text = (ROOT / "docs" / "DIFFERENCES.md").read_text()
    rows = [line for line in text.splitlines() if line.startswith("|")]
    for name, rules in OTHERS.items():
        for rule in rules + differences.REFUSED:
            if (name, rule.entry, rule.smallest) not in account.smallest:
                yield f"{rule.entry}: not shown by {rule.smallest} beside {name}"
            if not any(row.startswith(f"| {rule.entry} | `{rule.smallest}` |") for row in rows):
                yield f"{rule.entry}: no row of docs/DIFFERENCES.md has it with {rule.smallest}"


def smallest():
    return [line.encode() for line in differences.smallest()]


def all_lines():
    lines = smallest()
    for _, family in generator.families():
        lines += family
    return [*dict.fromkeys(lines)]


def in_chunks(lines):
    """What makes the lines of each chunk: for those that are there."""
    for at in range(0, len(lines), CHUNK):
        yield partial(list, lines[at : at + CHUNK])


def further_chunks(seed, count):
    """The same for random ones, which are made where they are played."""
    for part, at in enumerate(range(0, count, CHUNK)):
        yield partial(generator.further, seed, part, min(CHUNK, count - at))


def compared_chunk(programs, chunk):
    lines = chunk()
    told = play(programs, lines)
    account = Account()
    for line, ours, *others in zip(lines, told["replay"], *(told[name] for name in OTHERS)):
        account.add(line, ours, dict(zip(OTHERS, others)))
    return account


def compared(programs, chunks, workers):
    """Chunk by chunk, each by a process of its own, `workers` of them at a time."""
    account = Account()
    began = time.monotonic()
    with ProcessPoolExecutor(workers, mp_context=get_context("fork")) as pool:
        with closing(pool.map(partial(compared_chunk, programs), chunks)) as results:
            for result in results:
                account.take(result)
                passed = time.monotonic() - began
                told = f"{account.scenarios:,} scenarios, {account.differing:,} differ"
                print(f"{told}, {passed:.0f} s", flush=True)
    return account


def wrong_beside(account, original, all_were_run):
    """What else is wrong: rules that did not show themselves, a stale sample, stale answers of the
    gate, too few scenarios."""
    yield from unshown(account)
    yield from sample.stale(original)
    if subprocess.run([sys.executable, ROOT / "tools" / "scenarios.py", "--check"]).returncode != 0:
        yield "crates/replay/stdin and stdout are not as tools/scenarios.py writes them"
    if subprocess.run([sys.executable, ROOT / "tools" / "pages.py"]).returncode != 0:
        yield "docs/ITERTOOLS.md is not what crates/pages and CPython do"
    if subprocess.run([sys.executable, ROOT / "oracle" / "recipes.py"]).returncode != 0:
        yield "docs/RECIPES.md is not what crates/recipes and CPython do"
    for name in OTHERS:
        if all_were_run and account.judged[name].total() < LEAST:
            yield f"only {account.judged[name].total():,} scenarios were compared beside {name}"


def arguments():
    parser = argparse.ArgumentParser(prog="oracle/run")
    add = parser.add_argument
    add("folder", type=Path, help="the folder that holds the original's src/stdlib/itertools.rs")
    add("--seed", help="the seed of the random scenarios of --more")
    add = parser.add_mutually_exclusive_group().add_argument
    add("--more", type=int, default=0, metavar="N",
        help="play N random scenarios beside all others")
    add("--try", dest="tried", action="store_true",
        help="run replay as `rt try` does, without its proof, on a part of the scenarios")
    add("--sample", action="store_true",
        help="choose the sample of the original's answers anew, and write it")
    chosen = parser.parse_args()
    if chosen.more < 0 or chosen.seed is not None and not chosen.more:
        parser.error("--seed S is for --more N, with an N above 0")
    for name, published in PUBLISHED.items():
        file = chosen.folder / name
        if not file.is_file():
            parser.error(f"{chosen.folder} does not hold {name}")
        if hashlib.sha256(file.read_bytes()).hexdigest() != published:
            parser.error(f"{file} is not that of rustpython-vm 0.4.0")
    for program in ("cargo", "rt"):
        if shutil.which(program) is None:
            parser.error(f"{program} is wanted on the path")
    return chosen


def run(chosen):
    """The account of all that was wanted, and what else is wrong."""
    print("building the original's driver", flush=True)
    folder = chosen.folder.resolve()
    original = build_original(folder)
    lines = all_lines()
    if chosen.sample:
        sample.write(lines, original, build_original(folder, counting=True))
        return Account(), []
    if chosen.tried:
        lines = [*smallest(), *lines[::THINNED]]
    else:
        print("proving and building replay", flush=True)
    programs = {
        "replay": ["rt", "try"] if chosen.tried else build_replay(),
        ORIGINAL: original,
        "CPython": [sys.executable, ORACLE / "cpython.py"],
    }
    # two runs of `rt try` would be in each other's way
    workers = 1 if chosen.tried else os.cpu_count()
    account = compared(programs, in_chunks(lines), workers)
    if chosen.more:
        seed = random.SystemRandom().randrange(2**32) if chosen.seed is None else chosen.seed
        print(f"{chosen.more:,} random scenarios more, from the seed {seed}", flush=True)
        account.take(compared(programs, further_chunks(seed, chosen.more), workers))
    return account, [*wrong_beside(account, original, not chosen.tried)]


def main():
    chosen = arguments()
    WORK.mkdir(parents=True, exist_ok=True)
    try:
        account, wrong = run(chosen)
    except Failed as failed:
        sys.exit(f"compare.py: {failed}")
    if chosen.sample:
        return
    account.report()
    for line in wrong:
        print(f"wrong: {line}")
    print(f"{account.compared} compared, {account.differing} differ")
    sys.exit(bool(wrong or account.differing))


if __name__ == "__main__":
    main()
