"""What came of rows that were sent: lines for people, a summary, and files in the forms of TAP and of JUnit, by which
other programs show tests. And the file of differences that are known."""
import re
from collections.abc import Iterator
from typing import NamedTuple
from xml.sax.saxutils import quoteattr

from nfs4tools.rows.differences import words_beside
from nfs4tools.rows.row import Row


class Failure(NamedTuple):
    """What is wrong, in words; and the bytes that were wanted and that came, where they are to be shown."""

    what: str
    wanted: bytes
    got: bytes


class Outcome(NamedTuple):
    """A row that was sent, with what is wrong, or None, and the seconds that it took; or one that was left out, with
    why. What is known of a row's difference is a text, or None."""

    row: Row
    failure: Failure | None
    seconds: float
    left_out: str | None
    known: str | None


class Unread(Exception):
    """A file of known differences that can't be read; the argument says why."""


def title(row: Row) -> str:
    """A row by its file's name and its own, which no other row has."""
    return f"{row.file.rpartition('/')[2]}: {row.name}"


def read_known(path: str) -> dict[str, str]:
    """By the titles of rows: what the lines say that have spaces before them, and stand below the row or below several
    that follow each other. A line that begins with # is a comment."""
    known: dict[str, str] = {}
    group: list[str] = []
    has_text = False
    with open(path, encoding="utf-8") as source:
        for place, line in enumerate(source.read().split("\n"), 1):
            text = line.strip()
            if text == "" or text.startswith("#"):
                continue
            is_row = line[0] != " "
            if is_row and not re.match(r"\S+\.rows: ", text):
                raise Unread(f"{path}:{place}: no row: `FILE.rows: NAME`")
            if is_row:
                group = [text] if has_text else [*group, text]
                known[text] = ""
            for title in [] if is_row else group:
                known[title] = f"{known[title]} {text}".strip()
            has_text = not is_row
    return known


def is_failed(outcome: Outcome) -> bool:
    return outcome.failure is not None and outcome.known is None


def is_better(outcome: Outcome) -> bool:
    """Whether it passes though it is known to differ."""
    return outcome.left_out is None and outcome.failure is None and outcome.known is not None


# Lines.


def lines_of(outcome: Outcome) -> Iterator[str]:
    """What is said of a row, if anything is: nothing of one that passes, or differs as is known."""
    row = outcome.row
    if is_better(outcome):
        yield f"{row.file}:{row.line}: {row.name}: it passes, though it is known to differ"
    elif outcome.failure is not None and outcome.known is None:
        yield f"{row.file}:{row.line}: {row.name}" + (f" ({row.sections})" if row.sections else "")
        yield from (f"    {rule}" for rule in row.rule)
        yield f"    {outcome.failure.what}"
        if outcome.failure.wanted != outcome.failure.got:
            yield from words_beside(outcome.failure.wanted, outcome.failure.got, "got")


def summary(outcomes: list[Outcome]) -> str:
    sent = [outcome for outcome in outcomes if outcome.left_out is None]
    told = [f"{len(sent)} rows: {sum(map(is_failed, sent))} failed"]
    known = sum(outcome.failure is not None and outcome.known is not None for outcome in sent)
    told += [f"{known} differ as is known"] * bool(known)
    for why in dict.fromkeys(outcome.left_out for outcome in outcomes if outcome.left_out is not None):
        told.append(f"{sum(outcome.left_out == why for outcome in outcomes)} {why}")
    return ", ".join(told)


# Files.


def tap_lines(outcomes: list[Outcome]) -> Iterator[str]:
    """TAP version 13: a known difference is a TODO, and a row that was left out a SKIP."""
    yield "TAP version 13"
    yield f"1..{len(outcomes)}"
    for number, outcome in enumerate(outcomes, 1):
        directive = ""
        if outcome.left_out is not None:
            directive = f" # SKIP {outcome.left_out}"
        elif outcome.known is not None:
            directive = f" # TODO {outcome.known}"
        name = title(outcome.row).replace("\\", "\\\\").replace("#", "\\#")
        yield f"{'not ok' if outcome.failure else 'ok'} {number} - {name}{directive}"
        if outcome.row.sections:
            yield f"# {outcome.row.sections}"
        if outcome.failure:
            yield f"# {outcome.failure.what}"


def case_of(outcome: Outcome) -> str:
    """A row as a case of JUnit's form. A known difference is told as one that was skipped."""
    row, told = outcome.row, ""
    if outcome.left_out is not None:
        told = f"<skipped message={quoteattr(outcome.left_out)}/>"
    elif outcome.failure is not None and outcome.known is not None:
        told = f"<skipped message={quoteattr(f'known to differ: {outcome.known} ({outcome.failure.what})')}/>"
    elif outcome.failure is not None:
        rule = " ".join(row.rule)
        told = f"<failure message={quoteattr(outcome.failure.what)}>{quoteattr(rule)[1:-1]}</failure>"
    sections = f'<properties><property name="sections" value={quoteattr(row.sections)}/></properties>'
    return (
        f"  <testcase classname={quoteattr(row.file.rpartition('/')[2])} name={quoteattr(row.name)} "
        f'time="{outcome.seconds:.3f}">{sections if row.sections else ""}{told}</testcase>'
    )


def junit_lines(outcomes: list[Outcome]) -> Iterator[str]:
    failed = sum(map(is_failed, outcomes))
    skipped = sum(
        outcome.left_out is not None or outcome.failure is not None and outcome.known is not None
        for outcome in outcomes
    )
    yield '<?xml version="1.0" encoding="UTF-8"?>'
    yield (
        f'<testsuite name="rows" tests="{len(outcomes)}" failures="{failed}" errors="0" skipped="{skipped}" '
        f'time="{sum(outcome.seconds for outcome in outcomes):.3f}">'
    )
    yield from map(case_of, outcomes)
    yield "</testsuite>"


def write(path: str, lines: Iterator[str]) -> None:
    with open(path, "w", encoding="utf-8") as out:
        out.writelines(f"{line}\n" for line in lines)
