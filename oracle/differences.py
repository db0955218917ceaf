"""What the other programs are to answer to each scenario, where that is not what we answer: the
intended differences.

A rule does not say that answers may differ, but what they are. The first rule that fits a scenario
foretells the other's answer, whole, and any other answer is a difference too many, ours among them;
where no rule fits, the other has to answer what we do. What it is not asked is foretold too: a
scenario that it has nothing for, and a call that only we refuse. Each rule names its entry in
docs/DIFFERENCES.md and the smallest scenario that shows it.
"""

from collections import namedtuple

import model
from model import END
from protocol import (
    BRANCHES, ENDS, ENUMERATORS, LARGEST, LONGEST, MAXSIZE, NO_BRANCH, OTHER_POOL, OTHER_STORE,
    PATIENCE,
    SHORT_BUFFER, STORE_FULL, TWO, UNASKED, Ahead, Fault, left, shown,
)

# entry: the row of docs/DIFFERENCES.md. smallest: a scenario that shows it. answers: what the other
# answers to a scenario, or None where the rule does not fit it.
Difference = namedtuple("Difference", "entry smallest answers")


def played_by_calls(step, sources):
    """The lines of calls until the end was said often enough, where a call may draw after an
    end."""
    lines = []
    while lines.count("end") < ENDS:
        s = step()
        lines.append("end" if s is END else shown(s))
    return lines + [left(sources)]


def played_to_an_end(step, sources):
    """The same where nothing is drawn after the first end."""
    return model.played(iter(step, END), sources)


def ahead(scenario):
    return [Ahead(listed) for listed in scenario.lists]


def of_form(name, answers):
    """A rule for the scenarios of one form."""

    def told(scenario):
        return answers(*scenario.given, *ahead(scenario)) if scenario.name == name else None

    return told


# -------------------------------------------------------------------------------------------------
# Limits, lent buffers and stores, and numbers of groups, which neither of the others has


def without_limits(refusal):
    def told(scenario):
        if scenario.name in ENUMERATORS:
            answers = model.row_calls
        elif scenario.name == "listing":
            answers = listed
        else:
            return None
        if scenario.given[0].refusal() != refusal:
            return None
        return answers(*scenario.given, *scenario.lists)

    return told


def listed(making, size):
    """A listing, but one that only we refuse is not put to the others."""
    lines = model.listing(making, size)
    return [UNASKED] if lines[0].startswith("refused") else lines


def in_too_short_a_buffer(scenario):
    if scenario.name != "listing" or listed(*scenario.given) != [UNASKED]:
        return None
    return [UNASKED]


def in_a_store_of_its_own(branches, places, steps, calls):
    """The tee keeps by itself what was drawn, and gives it whatever a step is lent."""
    return model.tee_calls(branches, places, steps, calls, borrowed=False)


def of_many_branches(scenario):
    if scenario.name != "tee" or (scenario.given[0] or 0) <= BRANCHES:
        return None
    return in_a_store_of_its_own(*scenario.given, *scenario.lists)


def with_another_store(scenario):
    """A step is lent another store, and of the right length, so that it is not refused."""
    if scenario.name != "tee":
        return None
    (branches, places), (steps, calls) = scenario.given, scenario.lists
    if not any(lent == [places] for _, _, *lent in calls):
        return None
    return in_a_store_of_its_own(TWO if branches is None else branches, places, steps, calls)


def without_such_groups(scenario):
    """An item call with a number that no group call gave before is not put to the others, which
    hand out groups."""
    if scenario.name != "groupby":
        return None
    lines, given = model.answers(scenario), 0
    for at, number in enumerate(scenario.lists[1]):
        if number is None:
            given += lines[at].startswith("group ")
        elif not 0 < number <= given:
            lines[at] = UNASKED
    return lines if UNASKED in lines else None


# What both of the others answer otherwise.
BOTH = [
    Difference("pools of more than 256 elements", "combinations 257 1 ; n", without_limits(1)),
    Difference(
        "more than 64 pools, or rows of more than 64 places", "combinations 3 65 ; n",
        without_limits(2)
    ),
    Difference(
        "a listing's buffer that is too short", "listing combinations 3 2 ; 804",
        in_too_short_a_buffer
    ),
    Difference("more than 16 branches", "tee 17 1 ; - ; s16", of_many_branches),
    Difference("a step that is lent another store", "tee 2 1 ; 5 ; s0 s1:1", with_another_store),
    Difference("a number that no group has", "groupby self ; - ; i1", without_such_groups),
]

# A call that only we refuse is not put to the others: `answers` is how our line begins.
REFUSED = [
    Difference("a lent pool of another length", "combinations 3 2 ; n:4:4:4",
               f"refused {OTHER_POOL} "),
    Difference("a lent buffer that is too short", "combinations 3 2 ; n:3:1:4",
               f"refused {SHORT_BUFFER} "),
    Difference("a store that is full", "tee 1 0 ; 1 ; s0", f"refused {STORE_FULL}"),
    Difference("no such branch, or no more of them", "tee 0 0 ; - ; s0", f"refused {NO_BRANCH}"),
    Difference("a store of another length", "tee 1 1 ; 1 ; s0:2", f"refused {OTHER_STORE}"),
]


# -------------------------------------------------------------------------------------------------
# The original


def bounds_with_any_step(arguments):
    """The bounds of a slice, where a step of 0 is taken for one of 1; None where the arguments are
    refused even so."""
    if len(arguments) == 3 and arguments[2] == 0:
        arguments = [*arguments[:2], 1]
    return model.slice_bounds(arguments)


def first_number(bounds, least):
    """The first of start, start + step, .. that is at least so much."""
    start, _, stride = bounds
    return start + max(0, -(-(least - start) // stride)) * stride


def sliced_to_the_next_number(arguments, source):
    """What is drawn reaches to the first number that is not below stop."""
    bounds = bounds_with_any_step(arguments)
    if bounds is None:
        return None
    start, stop, stride = bounds
    drawn = None if stop is None else first_number(bounds, stop)
    return model.played(model.islice(start, stop, stride, drawn, source), [source])


def step_of_nothing(arguments, source):
    return sliced_to_the_next_number(arguments, source) if arguments[2:] == [0] else None


def skipped_without_end(arguments, source):
    """The number to skip to lies so far behind the last item that one call asks the ended source
    too often."""
    bounds = bounds_with_any_step(arguments)
    if bounds is None:
        return None
    start, stop, _ = bounds
    items = sum(not isinstance(s, Fault) for s in source.listed)
    least = items if stop is None else min(items, stop)
    number = start if arguments[2:] == [0] else first_number(bounds, least)
    asked = number - items + (stop is None or number < stop)
    if asked <= PATIENCE:
        return None
    lines = sliced_to_the_next_number(arguments, source)
    return [*lines[: lines.index("end")], f"endless: an ended source was asked {PATIENCE} times"]


def selector_first(rule, items, selectors, calls=played_by_calls):
    """A selector is drawn, and then a datum whatever the selector says; nothing is drawn for a
    selector without a truth."""
    says = model.nonzero(rule)

    def step():
        for selector in selectors:
            said = selector if isinstance(selector, Fault) else says(selector)
            if isinstance(said, Fault):
                return said
            item = next(items, END)
            if said or isinstance(item, Fault):
                return item
        return END

    return calls(step, [items, selectors])


def selector_first_where(fits):
    """The same for the scenarios that fit."""

    def told(scenario):
        if scenario.name != "compress" or not fits(scenario):
            return None
        return selector_first(*scenario.given, *ahead(scenario))

    return told


def meets_a_fault_after_our_end(scenario):
    """Drawing selectors after the data have ended, it meets a fault that is not met by the
    rules."""
    theirs = selector_first(*scenario.given, *ahead(scenario))
    owed = model.answers(scenario)
    met, owed = (sum(line.startswith("fault") for line in lines) for lines in (theirs, owed))
    return met > owed


def has_a_fault_of_the_selectors(scenario):
    (rule,), (_, selectors) = scenario.given, scenario.lists
    return any(isinstance(s, Fault) or s == rule.bad for s in selectors)


def has_a_fault_of_the_data(scenario):
    return any(isinstance(s, Fault) for s in scenario.lists[0])


def draws_after_the_end(scenario):
    to_an_end = selector_first(*scenario.given, *ahead(scenario), played_to_an_end)
    return selector_first(*scenario.given, *ahead(scenario)) != to_an_end


ORIGINAL = [
    *BOTH,
    Difference("islice asks an ended source while it skips", "islice 1000,_ ; -",
               of_form("islice", skipped_without_end)),
    Difference("islice with a step of 0", "islice 0,1,0 ; 1", of_form("islice", step_of_nothing)),
    Difference("islice draws past its stop", "islice 0,1,2 ; 0 1",
               of_form("islice", sliced_to_the_next_number)),
    Difference("compress, a fault after its end", "compress nonzero ; - ; !1:0:0",
               selector_first_where(meets_a_fault_after_our_end)),
    Difference("compress, a fault of the selectors", "compress nonzero ; 7 ; !1:0:0",
               selector_first_where(has_a_fault_of_the_selectors)),
    Difference("compress, a fault of the data", "compress nonzero ; !1:0:0 ; 0",
               selector_first_where(has_a_fault_of_the_data)),
    Difference("compress draws after its end", "compress nonzero ; - ; 1 1",
               selector_first_where(draws_after_the_end)),
    Difference("compress draws the selector first", "compress nonzero ; 7 ; -",
               of_form("compress", selector_first)),
]


# -------------------------------------------------------------------------------------------------
# CPython


def uncut(first, second):
    return model.played((s for source in (first, second) for s in source), [first, second])


def ended_by_a_fault(name):
    """What the rules say up to the first fault, and then the end."""

    def told(scenario):
        if scenario.name != name:
            return None
        sources = ahead(scenario)
        given = model.given_by(name, scenario.given, sources)
        return None if given is None else model.played(up_to_a_fault(given), sources)

    return told


def up_to_a_fault(given):
    for s in given:
        yield s
        if isinstance(s, Fault):
            return


def datum_for_every_call(rule, items, selectors):
    """A datum is drawn by every call, also after the selectors have ended."""
    says = model.nonzero(rule)

    def step():
        for item in items:
            if isinstance(item, Fault):
                return item
            selector = next(selectors, END)
            said = selector if selector is END or isinstance(selector, Fault) else says(selector)
            if said is END or isinstance(said, Fault):
                return said
            if said:
                return item
        return END

    return played_by_calls(step, [items, selectors])


def number_wrapped(arguments, source):
    """Where the next number passes 2^63 - 1 and there is no stop, it is set to one below 0, so that
    the item after the first is given at once, and then none within reach."""
    bounds = model.slice_bounds(arguments)
    if bounds is None or bounds[1] is not None or bounds[0] + bounds[2] <= MAXSIZE:
        return None
    start = bounds[0]
    return model.played(up_to_a_fault(model.islice(start, start + 2, 1, None, source)), [source])


def unbounded(joining, initial, source):
    if joining != "sum":
        return None
    return model.played(model.accumulate(lambda total, item: total + item, initial, source),
                        [source])


CPYTHON = [
    *BOTH,
    Difference("CPython's chain goes on after an exception", "chain ; !1:0:0 ; 1",
               of_form("chain", uncut)),
    Difference("CPython's islice wraps its next number", f"islice 1,_,{MAXSIZE} ; 0 1 2",
               of_form("islice", number_wrapped)),
    Difference("CPython's islice ends at an exception", "islice _ ; !1:0:0 1",
               ended_by_a_fault("islice")),
    Difference("CPython's pairwise ends at an exception", "pairwise ; !1:0:0 1",
               ended_by_a_fault("pairwise")),
    Difference("CPython's zip_longest ends at an exception", "zip_longest 8 8 ; !1:0:0 1 ; -",
               ended_by_a_fault("zip_longest")),
    Difference("CPython's compress draws after its end", "compress nonzero ; 7 8 ; -",
               of_form("compress", datum_for_every_call)),
    Difference("sums have 64 bits", f"accumulate sum - ; {2**64 - 1} 1",
               of_form("accumulate", unbounded)),
]


# -------------------------------------------------------------------------------------------------
# What the others have nothing for


def reason_to_skip(scenario, original):
    """Why a scenario is not put to the original, or to CPython; None where it is."""
    if scenario.name == "records":
        return "itertools has no records"
    if scenario.name == "range" and original:
        return "itertools has no ranges"
    if scenario.name == "zip_longest" and scenario.given[0] != scenario.given[1]:
        return "itertools has one fill"
    if scenario.name in ENUMERATORS or scenario.name == "listing":
        making = scenario.given[0]
        too_often = original and making.name == "product" and making.count > LONGEST
        if too_often or max(making.width, *making.lengths, 0) > LARGEST:
            return "too large to run"
    if scenario.name == "tee":
        branches, store = scenario.given
        return "too large to run" if max(branches or 0, store) > LARGEST else None
    return None


def smallest():
    """The smallest scenarios of all rules, each once."""
    return [*dict.fromkeys(rule.smallest for rule in ORIGINAL + CPYTHON + REFUSED)]


# -------------------------------------------------------------------------------------------------
# Foretelling


def foretold(rules, scenario, ours):
    """What the other answers to a scenario that is put to it, and the entries by which that is not
    what we answer."""
    lines, entries = ours, set()
    for rule in rules:
        answers = rule.answers(scenario)
        if answers is not None:
            lines, entries = answers, {rule.entry} if answers != ours else set()
            break
    refused = [line for line in lines if line.startswith("refused")]
    rules = [rule for rule in REFUSED if any(line.startswith(rule.answers) for line in refused)]
    if not rules:
        return lines, entries
    begins = tuple(rule.answers for rule in rules)
    entries |= {rule.entry for rule in rules}
    return [UNASKED if line.startswith(begins) else line for line in lines], entries


def lines_of(scenario, ours, original):
    """What the original, or CPython, answers, also to a scenario that is not put to it."""
    reason = reason_to_skip(scenario, original)
    if reason is not None:
        return [f"skipped: {reason}"]
    return foretold(ORIGINAL if original else CPYTHON, scenario, ours)[0]
