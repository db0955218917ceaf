"""Plays the jobs of bench/jobs.txt, read from standard input, on the itertools of CPython or PyPy.

A line for each: the peer, the job, its units, its checksum and the nanoseconds of the fastest
round.
"""
import itertools
import sys
import time

ROUNDS = 5  # how many times each job is timed; the fastest counts
WORD = 1 << 64


def rows(job_rows):
    units = total = 0
    for row in job_rows:
        units += 1
        total += row[-1]
    return units, total


def items(numbers):
    units = total = 0
    for number in numbers:
        units += 1
        total += number
    return units, total


def pairs(numbers):
    units = total = 0
    for left, right in numbers:
        units += 1
        total += left ^ right
    return units, total


ENUMERATORS = {
    "product": lambda pool, places: itertools.product(pool, repeat=places),
    "combinations": itertools.combinations,
    "replacement": itertools.combinations_with_replacement,
    "permutations": itertools.permutations,
}


def chosen(numbers, selectors):
    return itertools.compress(numbers, (selector % 2 for selector in selectors))


def six(to, n):
    both = itertools.chain(to(n), to(n))
    odd = itertools.islice(chosen(both, to(2 * n)), 0, n, 1)
    behind = itertools.dropwhile(lambda item: item < n // 100, odd)
    return itertools.accumulate(itertools.takewhile(lambda item: item < n, behind))


# by name: what counts the items, and the adapter over `to`, which gives the numbers below a stop
ADAPTERS = {
    "alone": (items, lambda to, n: to(n)),
    "takewhile": (items, lambda to, n: itertools.takewhile(lambda item: item < n, to(n + 1))),
    "dropwhile": (items, lambda to, n: itertools.dropwhile(lambda item: item < n // 100, to(n))),
    "islice": (items, lambda to, n: itertools.islice(to(3 * n), 0, 3 * n, 3)),
    "compress": (items, lambda to, n: chosen(to(n), to(n))),
    "accumulate": (items, lambda to, n: itertools.accumulate(to(n))),
    "chain": (items, lambda to, n: itertools.chain(to(n), to(n))),
    "zip_longest": (pairs, lambda to, n: itertools.zip_longest(to(n), to(n // 2), fillvalue=0)),
    "pairwise": (pairs, lambda to, n: itertools.pairwise(to(n))),
    "six": (items, six),
}


def playing(words):
    """The job that the words name, as a function that answers its units and its checksum."""
    if len(words) == 4:
        pool, places, most = map(int, words[1:])
        enumerator = ENUMERATORS[words[0]]
        return lambda: rows(itertools.islice(enumerator(range(pool), places), most))
    over, adapter, count = words[0], words[1], int(words[2])
    count_items, adapt = ADAPTERS[adapter]
    if over == "range":
        return lambda: count_items(adapt(range, count))
    stops = (count, count + 1, count // 2, 2 * count, 3 * count)
    lists = {stop: list(range(stop)) for stop in stops}
    return lambda: count_items(adapt(lists.__getitem__, count))


def main():
    for line in sys.stdin.read().splitlines():
        if not line or line.startswith("#"):
            continue
        words = line.split(" ")
        if words[1] == "pairwise" and not hasattr(itertools, "pairwise"):
            continue  # it came with Python 3.10
        play = playing(words)
        best = None
        for _ in range(ROUNDS):
            start = time.perf_counter_ns()
            units, total = play()
            nanos = time.perf_counter_ns() - start
            best = nanos if best is None else min(best, nanos)
        name = sys.implementation.name
        print(f"{name}\t{line}\t{units}\t{total % WORD}\t{best}", flush=True)


main()
