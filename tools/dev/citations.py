"""What CLAIMS and CONTRACTS cite runs: each function that they name is a law, or a body that is reached from `main` of
the program calls it (`called_functions.py` says how calls are read). CONTRACTS has a table of the functions that the
program doesn't run, each with what runs in its place. The two pages name those nowhere else.

A word in backticks names a function if it is `Type::name`, `crate::name` or `file::name`. A name alone does if it has
an underscore and isn't a method's. Functions of the crates of tests, and of the program `rows`, aren't looked at."""
import re
from collections.abc import Iterator
from typing import NamedTuple

from dev.called_functions import Body, Program
from dev.pages import NAME, SPAN, Page, read

PROGRAM = "nfs4state"
CITING, TABLE = ("docs/CLAIMS.md", "docs/CONTRACTS.md"), "docs/CONTRACTS.md"
SECTION = "## What is specified, and runs in another form"

# What the specification of the crates names, by types: those of these functions that don't run are in the table.
SPECIFIED = {
    "": "read_call write_reply write_recall_call write_null_call read_cb_reply read_compound write_results "
    "read_journal write_journal run_compound serve_connection serve_all serve_on run_once run_audit call_held "
    "sweep_held range_of",
    "Records": "feed next rest fed",
    "Tree": "from_toml lookup handle_of node_of",
    "Op": "has_entry",
    "Ranges": "reserve lock unlock first_conflict run_at is_empty",
    "FileShare": "try_open downgrade close delegate conflicts_of recall give_back reserve share_of denies delegations",
    "Clients": "set confirm live next_live replaced_by of mark remove",
    "Numbers": "next",
    "Owners": "judge known confirm keep remove",
    "Core": "new apply prepare expire mark_path revoke journal pending take_recall probe forget replaced_by",
    "PlainLeases": "look renew close open retire",
    "WordDesk": "look renew close open retire",
    "WordLeases": "look renew close open retire confer",
    "RecallQueue": "new put take",
    "Lent": "call renew room",
    "Desk": "call renew room",
    "Shared": "new call sweep take end probe callback mark_path mark_called",
}

# Calls whose names don't tell which function is called: the body, the name, and the function that is meant.
MEANT = {
    ("run", "end"): "Shared::end",
    ("Line::advance", "advance"): "Exchange::advance",
    ("FileLocks::is_full_for", "is_full_for"): "LockState::is_full_for",
    ("Locks::is_full_for", "is_full_for"): "FileLocks::is_full_for",
    ("downgrade_in", "downgrade"): "OpenState::downgrade",
}


class Row(NamedTuple):
    """A row of the table: its line, the functions that don't run, and those that run in their place."""

    line: int
    functions: list[str]
    others: list[str]


def rows_in(page: Page) -> list[Row]:
    """The table of the section, which may not be there."""
    before, heading, section = page.text.partition(f"\n{SECTION}\n")
    found, first = list[Row](), before.count("\n") + 3
    for at, line in enumerate(section.split("\n## ")[0].split("\n")):
        cells = line.strip().strip("|").split("|")
        if line.startswith("|") and len(cells) == 2 and (names := SPAN.findall(cells[0])):
            found.append(Row(first + at, names, SPAN.findall(cells[1])))
    return found if heading else []


class Citations:
    """The functions that the pages name, and what the program runs."""

    def __init__(self, program: Program) -> None:
        self.program = program
        self.runs, self.may_run = program.reached(False), program.reached(True)

    def named(self, word: str) -> list[Body]:
        """The functions that the word names, if it names some."""
        if not (found := NAME.fullmatch(word)):
            return []
        *path, name = found[1].split("::")
        bodies = self.program.named.get(name, [])
        if path:
            return [it for it in bodies if path[-1] in ((it.owner,) if it.owner else (it.crate, it.stem))]
        return [it for it in bodies if not it.owner] if "_" in name else []

    def guess(self, body: Body) -> str:
        """The call that may be the reason why the body runs."""
        while body not in self.runs:
            called, body = body, self.may_run[body]
        return f"does {body} call {called}? `MEANT` has to say which {called.name} is meant"

    def faults_of(self, page: Page, listed: set[str]) -> Iterator[tuple[int, str]]:
        """What the page names and the program doesn't run, outside of the table."""
        rows = {row.line for row in rows_in(page)}
        for line, word in page.spans:
            bodies = self.named(word)
            if line in rows or not bodies or any(it.is_law or it in self.runs for it in bodies):
                continue
            if word in listed:
                yield line, f"{word}: the program doesn't run it, as {TABLE} says"
            elif guessed := [it for it in bodies if it in self.may_run]:
                yield line, f"{word}: {self.guess(guessed[0])}"
            else:
                yield line, f"{word}: the program doesn't run it, and the table of {TABLE} hasn't got it"

    def faults_of_listed(self, word: str) -> Iterator[str]:
        """What is wrong with a function of the table."""
        bodies = self.named(word)
        if not bodies:
            yield f"{word}: no such function"
        for it in bodies:
            if it.is_law or it in self.runs:
                yield f"{word}: the program runs it"
            elif it in self.may_run:
                yield f"{word}: {self.guess(it)}"

    def faults_of_row(self, row: Row) -> Iterator[str]:
        for word in row.functions:
            yield from self.faults_of_listed(word)
        for other in row.others:
            bodies = self.named(other)
            if bodies and not any(it in self.runs for it in bodies):
                guessed = [it for it in bodies if it in self.may_run]
                yield f"{other}: " + (self.guess(guessed[0]) if guessed else "the program doesn't run it")

    def lacking(self, listed: set[str]) -> list[str]:
        """What is specified, isn't run, and isn't in the table."""
        specified = [
            f"{owner}::{name}" if owner else name for owner, names in SPECIFIED.items() for name in names.split()
        ]
        return [
            f"{TABLE}: the table hasn't got {word}, which is specified and which the program doesn't run"
            for word in specified
            if word not in listed
            and (bodies := self.named(word))
            and not any(it.is_law or it in self.may_run for it in bodies)
        ]

    def faults(self, pages: list[Page]) -> list[str]:
        rows = [row for page in pages if page.path == TABLE for row in rows_in(page)]
        names = [(row.line, it) for row in rows for it in row.functions]
        listed = {it for _, it in names}
        wrong = [(page.path, *fault) for page in pages for fault in self.faults_of(page, listed)]
        wrong += [(TABLE, row.line, fault) for row in rows for fault in self.faults_of_row(row)]
        wrong += [
            (TABLE, line, f"{it}: there already")
            for at, (line, it) in enumerate(names)
            if it in [name for _, name in names[:at]]
        ]
        needless = [
            f"MEANT: the call of {name} in {body} tells by itself what is meant, or isn't there"
            for body, name in sorted(set(self.program.meant) - self.program.guessed)
        ]
        return [f"{path}:{line}: {fault}" for path, line, fault in sorted(wrong)] + self.lacking(listed) + needless


def unused(citations: Citations) -> list[str]:
    """The public functions with a contract that the program doesn't run, laws aside."""
    return sorted(
        f"{it.path}  {it}"
        for bodies in citations.program.named.values()
        for it in bodies
        if re.match(r"(?:#\[.*\]\s*)*pub fn", it.head.strip())
        and "ensures" in it.head
        and not it.is_law
        and it not in citations.may_run
    )


def citing() -> list[Page]:
    return [Page(path, read(path)) for path in CITING]
