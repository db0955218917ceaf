#!/usr/bin/env python3.12
"""Plays scenarios on CPython's own itertools: reads them from standard input, one to a line, and
writes what it answers.

A fault is an exception. Python has no records, no limits, no lent pools, buffers or stores, and one
fill: a scenario that asks for them has the one answer `skipped` with a reason, and a call that does
is answered `unasked`.
"""

import itertools
import operator
import sys

from protocol import (
    BRANCHES, ENDS, ENUMERATORS, KEY_FAULT, LARGEST, PREDICATE_FAULT, SLICE, UNASKED, Ahead, Fault,
    answer_line, is_silent, left, listed_lines, shown, store_line, told,
)


class Raised(Exception):
    """A fault, raised."""

    def __init__(self, fault):
        self.fault = fault


class Skipped(Exception):
    """The scenario is not one for CPython."""


def asked(rule, says, fault):
    def called(item):
        if item == rule.bad:
            raise Raised(fault)
        return says(item)

    return called


class Selector:
    """A selector, whose truth is what the rule says of it."""

    def __init__(self, value, rule):
        self.value, self.rule = value, rule

    def __bool__(self):
        return asked(self.rule, lambda value: value != 0, PREDICATE_FAULT)(self.value)


def sources_of(scenario):
    lists = scenario.lists
    if scenario.name == "compress":
        items, selectors = lists
        (rule,) = scenario.given
        lists = items, [s if isinstance(s, Fault) else Selector(s, rule) for s in selectors]
    return [Ahead(listed, raises=Raised) for listed in lists]


def iterator(scenario, sources):
    name, given = scenario.name, scenario.given
    if name == "range":
        return iter(range(*given))
    if name in ("takewhile", "dropwhile"):
        (rule,) = given
        return getattr(itertools, name)(asked(rule, lambda item: item < rule.number,
                                              PREDICATE_FAULT), *sources)
    if name == "islice":
        return itertools.islice(*sources, *given[0])
    if name == "accumulate":
        joining, initial = given
        return itertools.accumulate(*sources, max if joining == "max" else operator.add,
                                    initial=initial)
    if name == "zip_longest":
        fill, other = given
        if fill != other:
            raise Skipped("itertools has one fill")
        return itertools.zip_longest(*sources, fillvalue=fill)
    return getattr(itertools, name)(*sources)


def said(call, shown_as=shown):
    """The line of a call."""
    try:
        return shown_as(call())
    except StopIteration:
        return "end"
    except Raised as raised:
        return shown(raised.fault)


def adapter(scenario):
    sources = sources_of(scenario)
    try:
        called = iterator(scenario, sources)
    except (TypeError, ValueError):
        if scenario.name == "islice":
            return [f"refused {SLICE}"]
        raise
    lines = []
    while lines.count("end") < ENDS:
        lines.append(said(lambda: next(called)))
    return lines + ([left(sources)] if sources else [])


def rows_over(making, pools):
    if making.name == "product":
        return itertools.product(*pools, repeat=making.count)
    rule = getattr(itertools, {"replacement": "combinations_with_replacement"}.get(making.name,
                                                                                   making.name))
    return rule(*pools) if making.count is None else rule(*pools, making.count)


def positions(making):
    """The rows over the positions of the pools, which are the rows of places."""
    if making.width > LARGEST or any(length > LARGEST for length in making.lengths):
        raise Skipped("too large to run")
    return rows_over(making, [range(length) for length in making.lengths])


def enumerator(scenario):
    (making,), (lents,) = scenario.given, scenario.lists
    places = positions(making)
    starts = itertools.accumulate(making.lengths, initial=1000)
    pools = [range(start, start + length) for start, length in zip(starts, making.lengths)]
    elements = rows_over(making, pools)
    lines = []
    for lent in lents:
        lent = lent or making.fitting()
        if making.refused(*lent):
            lines.append(UNASKED)
            continue
        row = next(places, None)
        copied = next(elements, ())
        lines.append(told("end" if row is None else "row", row or (), lent[1], copied, lent[2]))
    return lines


def listing(scenario):
    making, size = scenario.given
    rows = positions(making)
    if size is not None and size < making.least_buffer():
        return [UNASKED]
    return listed_lines(rows)


def tee(scenario):
    """Of a store there is its length alone: a step that would want a place more is not asked."""
    (branches, store), (steps, calls) = scenario.given, scenario.lists
    if max(branches or 0, store) > LARGEST:
        raise Skipped("too large to run")
    source = Ahead(steps, raises=Raised)
    tees = [*itertools.tee(source, *[] if branches is None else [branches])]
    passed = [0] * len(tees)
    stored = 0
    lines = []
    for name, at, *lent in calls:
        if at >= len(tees) or name == "c" and len(tees) >= BRANCHES:
            lines.append(UNASKED)
        elif name == "c":
            lines.append(f"branch {len(tees)}")
            tees.append(tees[at].__copy__())
            passed.append(passed[at])
        elif lent not in ([None], [store]) or passed[at] == stored == store:
            lines.append(UNASKED)
        else:
            lines.append(said(lambda: next(tees[at])))
            passed[at] += lines[-1].startswith("item")
            stored = max(stored, passed[at])
    items = [s for s in steps[: source.drawn] if not isinstance(s, Fault)]
    return [*lines, left([source]), store_line(items, store)]


def groups(scenario):
    (key,), (steps, calls) = scenario.given, scenario.lists
    source = Ahead(steps, raises=Raised)
    keys = [] if key is None else [asked(key, lambda item: item % key.number, KEY_FAULT)]
    called = itertools.groupby(source, *keys)
    groupers, lines = [], []

    def shown_group(group):
        key, grouper = group
        groupers.append(grouper)
        return f"group {key} {len(groupers)}"

    for number in calls:
        if number is None:
            lines.append(said(lambda: next(called), shown_group))
        elif 0 < number <= len(groupers):
            lines.append(said(lambda: next(groupers[number - 1])))
        else:
            lines.append(UNASKED)
    return lines + [left([source])]


def answers(scenario):
    try:
        if scenario.name == "records":
            raise Skipped("itertools has no records")
        if scenario.name in ENUMERATORS:
            return enumerator(scenario)
        by_name = {"tee": tee, "groupby": groups, "listing": listing}
        return by_name.get(scenario.name, adapter)(scenario)
    except Skipped as skipped:
        return [f"skipped: {skipped}"]


def main():
    if sys.version_info[:2] != (3, 12):
        sys.exit("cpython.py: CPython 3.12 is wanted")
    for line in sys.stdin.buffer.read().split(b"\n"):
        if not is_silent(line):
            print(*answer_line(line, answers), ".", sep="\n")


if __name__ == "__main__":
    main()
