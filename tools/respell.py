#!/usr/bin/env python3
"""Brings the names of this repository's own definitions and lemmas to the spelling that Rattle's
library has.

usage: python3 tools/respell.py          at the top of the repository, once, behind Rattle's own
                                         porting script
       python3 tools/respell.py --look   prints the names that it would turn, and those that would
                                         fall together

Words are in snake case (`first-row` becomes `first_row`), and facts, which are definitions that
give a type, in camel case (`hex-digit` becomes `HexDigit`). A fact or a variant that a file of src/
had brought in under a lower-case name is called by its own name there. Functions, strings and what
programs read and write stay as they are. Where two names would fall together the script stops and
writes nothing.
"""

import pathlib
import re
import sys

FACTS = {"spelled": "Spelled", "hex-digit": "HexDigit", "Unless-given": "UnlessGiven"}
# the library's own word in these names is another today
WORDS = {"getD-positions": "get_or_positions", "getD-repeated": "get_or_repeated"}
# parameters of definitions
PARAMETERS = {"most-elements", "most-places"}
# functions of src/ have these names, in folders of proofs; the lemmas are of other modules
APART = {"every-history", "pool-by-pool"}
# what src/ goes on calling by another name, since its own name means a type or a variant there
ALIASED = {"Item", "Fault", "Step", "Result", "First"}
DEFINED = re.compile(
    r"^(?:(?:pub|abbrev|unfoldable|data|record|ruleset) )*([^\s:(){}=]+) :(?: |$)", re.M)
CLAUSED = re.compile(r"^([^\s:(){}=]+)(?: [^=\n]*)? =", re.M)
FIELD = re.compile(r"(?:^  (?:pub )?|[{;] ?|^ +)([a-z][\w']*(?:-[\w']+)+) (?::|=)(?= |$)", re.M)
ALIAS = re.compile(r"\b([A-Z]\w*) as ([a-z][\w'-]*)")


def dashed(name):
    return "-" in name and re.fullmatch(r"[A-Za-z][\w']*(?:-[\w'+*]+)+", name)


def snake(name):
    return FACTS.get(name) or WORDS.get(name) or name.replace("-", "_")


def one_of(names):
    """A pattern for these names, the longest first, that no letter follows."""
    longest_first = sorted(map(re.escape, names), key=len, reverse=True)
    return "(" + "|".join(longest_first) + r")(?![\w'\-])"


def whole(names):
    """A pattern for these names as whole words."""
    return re.compile(r"(?<![\w'\-.◌])" + one_of(names))


def read(top, pattern):
    paths = (path for path in sorted(top.glob(pattern)) if "out" not in path.parts)
    return {path: path.read_text(encoding="utf-8") for path in paths}


def answers(path):
    """Whether the file answers the goals of a function: their names are the toolkit's, not ours."""
    named = path.name in ("Answers.antt", "Invariants.antt", "Proof.antt")
    return named and path.parent.name != "proofs"


def names_of(logic):
    """The dashed names of definitions and lemmas, and those of the fields of records."""
    words, fields = FACTS.keys() | PARAMETERS, set()
    for path, text in logic.items():
        words |= {n for n in re.findall(r" as ([a-z][\w'-]*)", text) if dashed(n)}
        if not answers(path):
            words |= {n for n in DEFINED.findall(text) + CLAUSED.findall(text) if dashed(n)}
        fields |= {n for n in FIELD.findall(text) if dashed(n)}
    return words, fields


def turn_logic(text, words, fields):
    text = whole(words | fields).sub(lambda m: snake(m[1]), text)
    # fields behind a dot too
    return re.sub(r"(?<=\.)" + one_of(fields), lambda m: snake(m[1]), text)


def ghost_text(text, change):
    """The text with its ghost parts changed: imports, clauses, ghost members and laws, each to its
    last brace."""
    out, at = [], 0
    for m in re.finditer(r"^ *(?:pub )?(?:ghost|law|ensures\*?|requires\*?)\b", text, re.M):
        if m.start() < at:
            continue
        end = text.index("{", m.end())
        deep = 0
        if ";" in text[m.end() : end]:
            continue
        while True:
            deep += (text[end] == "{") - (text[end] == "}")
            end += 1
            if not deep:
                break
        out += [text[at : m.start()], change(text[m.start() : end])]
        at = end
    return "".join(out) + text[at:]


def turn_source(text, words, fields):
    aliases = {short: fact for fact, short in ALIAS.findall(text) if fact not in ALIASED}
    dashed_aliases = re.findall(r"\b\w+ as ([a-z][\w']*(?:-[\w']+)+)", text)
    dashes = set(dashed_aliases) - set(aliases)

    def change(line):
        for short, fact in aliases.items():
            line = re.sub(rf"\b{fact} as {re.escape(short)}(?![\w'-])", fact, line)
            line = re.sub(rf"(?<![\w'\-.]){re.escape(short)}(?![\w'-])", fact, line)
        return turn_logic(line, words | dashes, fields)

    return ghost_text(text, change)


def main():
    crates = pathlib.Path("crates")
    if not crates.is_dir():
        sys.exit("respell: run it at the top of the repository")
    logic = read(crates, "*/specs/**/*.antt") | read(crates, "*/proofs/**/*.antt")
    source = read(crates, "*/src/**/*.rt")
    words, fields = names_of(logic)
    every = set(re.findall(r"(?<![\w'\-])[A-Za-z][\w']*(?![\w'\-])", "\n".join(logic.values())))
    new = {}
    for name in sorted(words | fields):
        other = new.setdefault(snake(name), name)
        if other != name or (snake(name) in every and name not in APART):
            print(f"falls together: {name} and {other if other != name else snake(name)}")
            new[snake(name)] = None
    if None in new.values() and "--look" not in sys.argv:
        sys.exit("respell: nothing was written")
    if "--look" in sys.argv:
        print("\n".join(sorted(words | fields)))
        return
    for path, text in logic.items():
        path.write_text(turn_logic(text, words, fields), encoding="utf-8")
    for path, text in source.items():
        path.write_text(turn_source(text, words, fields), encoding="utf-8")
    print(f"respell: {len(words | fields)} names")


if __name__ == "__main__":
    main()
