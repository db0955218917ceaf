"""What the rules answer to a scenario: a model of each, written from the rules and not from any
program.

An adapter is a generator over lists of steps: one that has returned says end for ever and draws
nothing. The rows of an enumerator are those that grow place by place, the lowest place first. Tees
and groups answer call by call.
"""

import struct
import sys

from protocol import (
    BRANCHES, ENDS, ENUMERATORS, JOINING_FAULT, KEY_FAULT, MAXSIZE, NO_BRANCH, OTHER_STORE,
    PREDICATE_FAULT, SHORT_BUFFER, SLICE, STORE_FULL, TWO, UNTOUCHED, Ahead, Block, Fault,
    answer_line,
    left, listed_lines, shown, store_line, told,
)

END = object()

# a row grows by a call for each place
sys.setrecursionlimit(10_000)


def asked(rule, says):
    """A predicate: what `says` says of an item, but a fault of the item that the rule has no answer
    for."""
    return lambda item: PREDICATE_FAULT if item == rule.bad else says(item)


def below(rule):
    return asked(rule, lambda item: item < rule.number)


def nonzero(rule):
    return asked(rule, lambda item: item != 0)


def takewhile(says, source):
    for s in source:
        said = s if isinstance(s, Fault) else says(s)
        if isinstance(said, Fault):
            yield said
        elif said:
            yield s
        else:
            return


def dropwhile(says, source):
    for s in source:
        said = s if isinstance(s, Fault) else says(s)
        if isinstance(said, Fault):
            yield said
        elif not said:
            yield s
            yield from source


def chain(first, second):
    for source in (first, second):
        for s in source:
            yield s
            if isinstance(s, Fault):
                return


def islice(start, stop, stride, drawn, source):
    """Draws `drawn` items, or all, and gives those of start, start + stride, .. below stop."""
    position = 0
    while drawn is None or position < drawn:
        s = next(source, END)
        if s is END:
            return
        if isinstance(s, Fault):
            yield s
            continue
        within = position >= start and (stop is None or position < stop)
        if within and (position - start) % stride == 0:
            yield s
        position += 1


def compress(says, items, selectors):
    for item in items:
        if isinstance(item, Fault):
            yield item
            continue
        selector = next(selectors, END)
        if selector is END:
            return
        said = selector if isinstance(selector, Fault) else says(selector)
        if isinstance(said, Fault):
            yield said
        elif said:
            yield item


def larger(a, b):
    return max(a, b)


def added(a, b):
    return a + b if a + b < 2**64 else JOINING_FAULT


JOININGS = {"max": larger, "sum": added}


def accumulate(join, initial, source):
    total = initial
    if initial is not None:
        yield initial
    for s in source:
        if isinstance(s, Fault):
            yield s
            continue
        joined = s if total is None else join(total, s)
        yield joined
        if not isinstance(joined, Fault):
            total = joined


def pairwise(source):
    # `before` is the item before the next one. Until a first pair is given, a fault forgets it.
    before, paired = END, False
    for s in source:
        if isinstance(s, Fault):
            yield s
            if not paired:
                before = END
            continue
        if before is not END:
            yield (before, s)
            paired = True
        before = s


def zip_longest(left_fill, right_fill, first, second):
    while True:
        a = next(first, END)
        if isinstance(a, Fault):
            yield a
            continue
        b = next(second, END)
        if isinstance(b, Fault):
            yield b
            continue
        if a is END and b is END:
            return
        yield (left_fill if a is END else a, right_fill if b is END else b)


def records(data):
    at = 0
    while at < len(data):
        here = data[at:]
        if len(here) < 4:
            yield Fault((1, 1, at))
            return
        length, kind = struct.unpack("<HH", here[:4])
        payload = here[4 : 4 + length]
        if len(payload) < length:
            yield Fault((1, 2, at))
            return
        if kind != 0x0010:
            yield Fault((1, 3, at))
        elif length != 8:
            yield Fault((1, 4, at))
        else:
            block = Block(struct.unpack("<HHHH", payload))
            good = block[2] < block[3] <= 1440
            yield block if good else Fault((1, 5, at))
        at += 4 + length


def grown(width, choices, row=()):
    if len(row) == width:
        yield row
    else:
        for place in choices(row):
            yield from grown(width, choices, row + (place,))


def product_rows(lengths, width):
    if width == 0 or 0 not in lengths:
        yield from grown(width, lambda row: range(lengths[len(row) % len(lengths)]))


def combination_rows(n, r):
    if r <= n:
        # so many places have to come behind the next one, each above the one before it
        yield from grown(r, lambda row: range(row[-1] + 1 if row else 0, n - (r - len(row) - 1)))


def replacement_rows(n, r):
    yield from grown(r, lambda row: range(row[-1] if row else 0, n))


def permutation_rows(n, r):
    if r <= n:
        yield from grown(r, lambda row: (place for place in range(n) if place not in row))


def rows(making):
    if making.name == "product":
        return product_rows(making.lengths, making.width)
    rule = {"combinations": combination_rows, "replacement": replacement_rows,
            "permutations": permutation_rows}
    return rule[making.name](making.lengths[0], making.width)


def element(making, place, position):
    """The element at a position of the pool that the place of a row is in."""
    pool = place % len(making.lengths)
    return 1000 + sum(making.lengths[:pool]) + position


def row_call(making, ahead, lent):
    """The line of a call."""
    pool, places, elements = lent or making.fitting()
    refusal = making.refused(pool, places, elements)
    if refusal:
        return told(f"refused {refusal}", (), places, (), elements)
    row = next(ahead, END)
    if row is END:
        return told("end", (), places, (), elements)
    picked = [element(making, place, position) for place, position in enumerate(row)]
    return told("row", row, places, picked, elements)


def row_calls(making, lents):
    ahead = rows(making)
    return [row_call(making, ahead, lent) for lent in lents]


def listing(making, size):
    if size is not None and size < making.least_buffer():
        return [f"refused {SHORT_BUFFER}", "rest kept"]
    return listed_lines(rows(making))


def tee_calls(branches, places, steps, calls, borrowed=True, most=BRANCHES):
    """The lines of a tee of so many branches. A store that a step is `borrowed` is one of its own,
    whatever its length; where it is not, one of the tee's length is the tee's."""
    source, store = Ahead(steps), [UNTOUCHED] * places
    # how many items each branch has passed, and how many are stored in all
    passed, stored = [0] * branches, 0
    lines = []
    for call, branch, *lent in calls:
        if call == "c":
            if branch >= len(passed) or len(passed) >= most:
                lines.append(f"refused {NO_BRANCH}")
            else:
                lines.append(f"branch {len(passed)}")
                passed.append(passed[branch])
            continue
        length = places if lent == [None] else lent[0]
        if length != places:
            lines.append(f"refused {OTHER_STORE}")
            continue
        if branch >= len(passed):
            lines.append(f"refused {NO_BRANCH}")
            continue
        own = lent == [None] or not borrowed
        read = store if own else [UNTOUCHED] * places
        if passed[branch] == stored:
            if stored == places:
                lines.append(f"refused {STORE_FULL}")
                continue
            s = next(source, END)
            if s is END or isinstance(s, Fault):
                lines.append("end" if s is END else shown(s))
                continue
            read[stored] = s
            stored += 1
        lines.append(shown(read[passed[branch]]))
        passed[branch] += 1
    return [*lines, left([source]), store_line(store, places)]


def tee(branches, places, steps, calls):
    branches = TWO if branches is None else branches
    return [f"refused {NO_BRANCH}"] if branches > BRANCHES else tee_calls(branches, places, steps,
                                                                          calls)


class Groups:
    """Runs of items with equal keys, by group calls and item calls."""

    def __init__(self, key, steps):
        self.key, self.source = key, Ahead(steps)
        # the key of the run that was come to last, and how many groups were given
        self.run, self.given = END, 0
        # the number that item calls have to tell
        self.current = None
        # an item that was drawn and neither answered nor skipped, and whether it is the first of a
        # run
        # that no group call has given yet
        self.waiting, self.ahead = END, False

    def draw(self):
        """An item and its key; or a fault, of the source or of the key, which loses the item; or
        the end."""
        item = next(self.source, END)
        if item is END or isinstance(item, Fault):
            return item, item
        if self.key is None:
            return item, item
        return item, KEY_FAULT if item == self.key.bad else item % self.key.number

    def group(self):
        self.current = None
        while not self.ahead:
            item, key = self.draw()
            if key is END or isinstance(key, Fault):
                return key
            if self.run is END or key != self.run:
                self.waiting, self.run, self.ahead = item, key, True
        self.ahead = False
        self.given += 1
        self.current = self.given
        return self.run

    def item(self, number):
        if number != self.current:
            return END
        if self.waiting is not END:
            item, self.waiting = self.waiting, END
            return item
        item, key = self.draw()
        if key is END or isinstance(key, Fault):
            return key
        if key == self.run:
            return item
        self.waiting, self.run, self.ahead, self.current = item, key, True, None
        return END


def groupby(key, steps, calls):
    groups, lines = Groups(key, steps), []
    for number in calls:
        s = groups.group() if number is None else groups.item(number)
        if s is END or isinstance(s, Fault):
            lines.append("end" if s is END else shown(s))
        else:
            lines.append(f"group {s} {groups.given}" if number is None else shown(s))
    return [*lines, left([groups.source])]


def slice_bounds(arguments):
    """Start, stop and step, or None for arguments that are refused."""
    if len(arguments) not in (1, 2, 3) or any(a is not None and a > MAXSIZE for a in arguments):
        return None
    arguments = [None, *arguments] if len(arguments) == 1 else arguments
    start, stop, stride = [*arguments, None][:3]
    if stride == 0:
        return None
    return start or 0, stop, 1 if stride is None else stride


def played(given, sources):
    """The lines for an adapter: all that it gives, its ends, and what its sources have left."""
    return [shown(s) for s in given] + ["end"] * ENDS + ([left(sources)] if sources else [])


def given_by(name, given, sources):
    """What a source or an adapter gives, or None where its making is refused."""
    if name == "islice":
        bounds = slice_bounds(*given)
        if bounds is None:
            return None
        start, stop, stride = bounds
        return islice(start, stop, stride, None if stop is None else max(start, stop), *sources)
    if name == "accumulate":
        joining, initial = given
        return accumulate(JOININGS[joining], initial, *sources)
    makings = {
        "range": range,
        "records": records,
        "takewhile": lambda rule, source: takewhile(below(rule), source),
        "dropwhile": lambda rule, source: dropwhile(below(rule), source),
        "chain": chain,
        "compress": lambda rule, items, selectors: compress(nonzero(rule), items, selectors),
        "pairwise": pairwise,
        "zip_longest": zip_longest,
    }
    return makings[name](*given, *sources)


def answers(scenario):
    """The answers by the rules."""
    if scenario.name in ("tee", "groupby"):
        played_by = {"tee": tee, "groupby": groupby}[scenario.name]
        return played_by(*scenario.given, *scenario.lists)
    if scenario.name in ENUMERATORS or scenario.name == "listing":
        refusal = scenario.given[0].refusal()
        if refusal:
            return [f"refused {refusal}"]
        answers_of = listing if scenario.name == "listing" else row_calls
        return answers_of(*scenario.given, *scenario.lists)
    sources = [Ahead(listed) for listed in scenario.lists]
    given = given_by(scenario.name, scenario.given, sources)
    return [f"refused {SLICE}"] if given is None else played(given, sources)


def by_the_rules(line):
    return answer_line(line, answers)
