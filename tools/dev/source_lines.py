"""How the sources of a crate look, besides what `rt fmt` checks: each file has a head, and no line is too wide.

A *head* is the comment with which the file begins. It says why the file exists: `//! ..` in src, `-- ..` in specs.

A line has at most `COLUMNS` columns, except where it can't be broken:

- imports
- attributes
- a line that is one literal

Proofs aren't looked at."""
import re

COLUMNS = 120
# Which files are looked at, with the mark of a comment that is a head.
HEADS = {
    re.compile(r"crates/\w+/src/.+\.rt"): "//!",
    re.compile(r"crates/\w+/specs/.+\.antt"): "--",
}
# The lines that may be wider.
UNBROKEN = re.compile(r'\s*((ghost |pub )*use |#!?\[|"(\\.|[^"\\])*"[,;]?$)')


def mark_of(path: str) -> str | None:
    """The mark with which this file has to begin, or `None` if it is no source of a crate."""
    return next((mark for paths, mark in HEADS.items() if paths.fullmatch(path)), None)


def faults_of(path: str, text: str) -> list[str]:
    """What is wrong with this file, each fault with the number of its line."""
    mark = mark_of(path)
    if mark is None:
        return []
    lines = text.split("\n")
    begins = lines[0].startswith(mark + " ") and bool(lines[0].removeprefix(mark).strip())
    faults = [] if begins else [f"{path}:1: it has no head: begin with `{mark}`, and say why the file exists"]
    return faults + [
        f"{path}:{number}: {len(line)} columns, and at most {COLUMNS} are allowed"
        for number, line in enumerate(lines, 1)
        if len(line) > COLUMNS and not UNBROKEN.match(line)
    ]
