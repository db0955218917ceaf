"""Measures this library beside its peers, and writes the table into docs/SPEED.md.

It fails where two peers disagree on what a job makes. README.md says how to read the table.
"""
import datetime
import os
import platform
import subprocess
import sys

import hot_loops
import peers
import table

REPEATS = 5  # how often the compiled peers are run, in turn; the fastest run counts
PAGE = peers.ROOT / "docs" / "SPEED.md"
BEGIN = "<!-- written by bench/run: begin -->"
END = "<!-- written by bench/run: end -->"
QUIET = 1.0  # a load above which the times are not to be kept


def jobs():
    """The lines of jobs.txt that are jobs."""
    lines = (peers.BENCH / "jobs.txt").read_text().splitlines()
    return [line for line in lines if line and not line.startswith("#")]


def run(command, lines, results):
    """Runs one peer on all jobs, and keeps the units, the sum and the least time of each."""
    text = "".join(line + "\n" for line in lines)
    done = subprocess.run(command, input=text, stdout=subprocess.PIPE, text=True, check=True)
    for line in done.stdout.splitlines():
        peer, job, units, total, nanos = line.split("\t")
        kept = results.setdefault(job, {}).get(peer)
        made = (int(units), int(total))
        if kept is not None and kept[0] != made:
            raise SystemExit(f"bench/run: {peer} makes two things of: {job}")
        best = int(nanos) if kept is None else min(kept[1], int(nanos))
        results[job][peer] = (made, best)


def check(lines, results):
    """Fails where a compiled peer left out a job, or two peers made different things of it."""
    for job in lines:
        made = {peer: times[0] for peer, times in results.get(job, {}).items()}
        if not {"Foimukad", "crate", "kit"} <= set(made) or len(set(made.values())) != 1:
            raise SystemExit(f"bench/run: the peers do not agree on: {job}: {made}")


def machine():
    """The machine in words."""
    for line in peers.answer("lscpu").splitlines():
        if line.startswith("Model name:"):
            model = line.split(":", 1)[1].strip()
            return f"{model}, {os.cpu_count()} processors, Linux {platform.release()}"
    return platform.platform()


def heading(load, missing):
    """The lines above the table: when, where and on what it was measured."""
    lines = [f"Measured on {datetime.date.today()}, {machine()}; load at the start {load:.1f}."]
    lines += peers.versions()
    return [f"- {line}" for line in lines + missing]


def sizes():
    """The bytes of the states, as `bench --sizes` tells them."""
    lines = ["| State | Bytes |", "|---|---|"]
    for line in peers.answer(str(peers.PROGRAM), "--sizes").splitlines():
        name, size = line.split("\t")
        lines.append(f"| `{name}` | {size} |")
    return lines


def measure(lines):
    """The results of all peers that are here, and what to say of those that are not."""
    results = {}
    found, missing = peers.interpreted()
    for command in peers.compiled() * REPEATS + found:
        run(command, lines, results)
    check(lines, results)
    return results, missing


def first_of_all():
    """Takes the processor before other programs, where that is allowed."""
    try:
        os.setpriority(os.PRIO_PROCESS, 0, -15)
    except PermissionError:
        pass


def write(lines):
    """Puts the lines between the two marks of the page."""
    text = PAGE.read_text()
    before, rest = text.split(BEGIN)
    _, after = rest.split(END)
    PAGE.write_text(before + "\n".join([BEGIN, "", *lines, "", END]) + after)


def main():
    if sys.argv[1:] not in ([], ["--print"]):
        raise SystemExit("usage: bench/run [--print]")
    peers.build_program()
    peers.build_crate()
    load = os.getloadavg()[0]
    first_of_all()
    lines = jobs()
    results, missing = measure(lines)
    loops = hot_loops.Loops(peers.PROGRAM)
    page = [*heading(load, missing), "", *table.rows(lines, results, loops), "", *sizes()]
    if sys.argv[1:]:
        print("\n".join(page))
    else:
        write(page)
    for line in table.missed(lines, results, loops):
        print(line)
    if load > QUIET:
        print(f"the load was {load:.1f} at the start: measure again on a machine at rest")


main()
