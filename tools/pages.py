#!/usr/bin/env python3.12
"""Holds docs/ITERTOOLS.md to the code: `tools/pages.py` says how many blocks are as they are run.

- a block `rust` stands word for word in a file of crates/pages/src, at one indentation;
- a block `rust signature` has nothing but lines that stand in the source of a crate;
- the blocks `text`, one after another, are all that crates/pages/stdout holds;
- a block `python` prints, by CPython 3.12 and its itertools, what the next block `text` shows.

With an older Python the last is left out, and that is said.
"""

import contextlib
import io
import itertools
import re
import sys
import textwrap
from pathlib import Path

ROOT = Path(__file__).resolve().parent.parent
PAGE = ROOT / "docs" / "ITERTOOLS.md"
BLOCK = re.compile(r"^```(\w[\w ]*)\n(.*?)^```$", re.MULTILINE | re.DOTALL)


def sources(folder):
    """The source files below a folder, by their paths."""
    return [path.read_text() for path in sorted(folder.glob("src/*.rt"))]


def stands_in(block, texts):
    """Whether a text has the lines of the block in a row, all of them at one indentation."""
    for indent in ("", "    "):
        wanted = "\n" + textwrap.indent(block, indent)
        if any(wanted in "\n" + text for text in texts):
            return True
    return False


def lacking_lines(block, lines):
    """The lines of a signature that stand in no source of a crate."""
    return [line for line in map(str.strip, block.splitlines()) if line not in lines]


def printed(block):
    """What a block of Python prints, with all of itertools at hand."""
    names = {name: getattr(itertools, name) for name in dir(itertools) if name[0] != "_"}
    told = io.StringIO()
    with contextlib.redirect_stdout(told):
        exec(compile(block, str(PAGE), "exec"), names)
    return told.getvalue()


def flaws(blocks, with_python):
    """What is wrong, a line each."""
    examples = sources(ROOT / "crates" / "pages")
    lines = {line.strip() for crate in sorted((ROOT / "crates").iterdir())
             for text in sources(crate) for line in text.splitlines()}
    asked = None
    for kind, block in blocks:
        first = block.splitlines()[0]
        if kind == "rust" and not stands_in(block, examples):
            yield f"stands in no file of crates/pages/src: {first} .."
        elif kind == "rust signature":
            yield from (f"stands in no crate: {line}" for line in lacking_lines(block, lines))
        elif kind == "python":
            asked = printed(block) if with_python else None
        elif kind == "text":
            if asked not in (None, block):
                yield f"CPython prints otherwise than this page: {first} .."
            asked = None
    shown = "".join(block for kind, block in blocks if kind == "text")
    if shown != (ROOT / "crates" / "pages" / "stdout").read_text():
        yield "the answers are not, one after another, what crates/pages/stdout holds"


def main():
    with_python = sys.version_info >= (3, 12)
    blocks = BLOCK.findall(PAGE.read_text())
    found = [*flaws(blocks, with_python)]
    for flaw in found:
        print("docs/ITERTOOLS.md:", flaw)
    if found:
        sys.exit(1)
    print(f"{len(blocks)} blocks, as they are run")
    if not with_python:
        print("the Python was not run: CPython 3.12 is wanted for that")


if __name__ == "__main__":
    main()
