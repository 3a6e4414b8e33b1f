"""Why a tree's document is refused, and on which line: the line before the fault, as the program has it."""
import re
import tomllib
from typing import Any, Iterator, NamedTuple

from nfs4tools.model.tree import (
    CALLBACKS,
    CLOSE_LOCKS,
    DELEGATIONS,
    DUPLICATE,
    NAME,
    PROFILES,
    TOO_MANY,
    Refused,
    Tree,
)

# How a refusal is told that is no matter of the document's form.
WORDS = {
    NAME: "a path is not 1 to 8 names",
    TOO_MANY: "a text, the files or the directories are above their limit",
    DUPLICATE: "a path is taken by another node",
}
NO_DOCUMENT = "the text is no document of a tree (1)"
EDITS_LIMIT = 2
KEYS = {
    "": ("directory", "file", "policy"),
    "directory": ("path",),
    "file": ("path", "text"),
    "policy": ("callbacks", "close_locks", "delegations", "profile"),
}
CHOICES = dict(zip(KEYS["policy"], (CALLBACKS, CLOSE_LOCKS, DELEGATIONS, PROFILES)))


class Place(NamedTuple):
    """A section, which is in this place among those of its name; and its key, or without that all of it."""

    section: str
    number: int
    key: str | None


class Misfit(NamedTuple):
    """What is wrong, and where."""

    place: Place
    reason: str


def reason_of(data: bytes, refusal: int) -> str:
    """What stands behind the file's name: `3: unknown key "txet"; did you mean "text"?`."""
    try:
        text = data.decode()
    except UnicodeDecodeError as error:
        return at_line(data.count(b"\n", 0, error.start) + 1, "a byte isn't UTF-8")
    if refusal in WORDS:
        return at_line(refused_section(text, refusal), f"{WORDS[refusal]} ({refusal})")
    try:
        document = tomllib.loads(text)
    except tomllib.TOMLDecodeError as error:
        message, _, at = str(error).rpartition(" (at ")
        number = re.match(r"line (\d+)", at)
        return at_line(int(number[1]) if number else text.count("\n") + 1, message)
    misfit = next(misfits(document), None)
    if misfit is None:
        return f" {NO_DOCUMENT}"
    return at_line(line_of(text, misfit.place), misfit.reason)


def at_line(number: int | None, reason: str) -> str:
    return f" {reason}" if number is None else f"{number}: {reason}"


def misfits(document: dict[str, Any]) -> Iterator[Misfit]:
    """What is wrong with the document, in this order: its keys, the directories, the files, the policy."""
    yield from unknown_keys("", 0, document)
    for section in "directory", "file":
        yield from misfits_of_listing(section, document.get(section, []))
    policy = document.get("policy", {})
    if not isinstance(policy, dict):
        yield not_a("", 0, "policy", "a table")
        return
    yield from unknown_keys("policy", 0, policy)
    for key, words in CHOICES.items():
        if key in policy and policy[key] not in words:
            yield not_a("policy", 0, key, quoted(words))


def misfits_of_listing(section: str, found: Any) -> Iterator[Misfit]:
    for index, table in enumerate(found if isinstance(found, list) else [None]):
        if not isinstance(table, dict):
            yield not_a("", 0, section, "an array of tables")
            return
        yield from misfits_of_entry(section, index, table)


def misfits_of_entry(section: str, index: int, table: dict[str, Any]) -> Iterator[Misfit]:
    yield from unknown_keys(section, index, table)
    if "path" not in table:
        yield Misfit(Place(section, index, None), f'[[{section}]] has to have a "path"')
    for key in KEYS[section]:
        if not isinstance(table.get(key, ""), str):
            yield not_a(section, index, key, "a string")


def unknown_keys(section: str, index: int, table: dict[str, Any]) -> Iterator[Misfit]:
    for key in sorted(table):
        if key not in KEYS[section]:
            yield Misfit(Place(section, index, key), f'unknown key "{key}"; {advice(key, KEYS[section])}')


def not_a(section: str, index: int, key: str, kind: str) -> Misfit:
    return Misfit(Place(section, index, key), f'"{key}" has to be {kind}')


def quoted(words: tuple[str, ...]) -> str:
    return " or ".join(f'"{word}"' for word in words)


def advice(key: str, known: tuple[str, ...]) -> str:
    meant = next((it for it in known if edits(key, it) <= EDITS_LIMIT), None)
    return f"there is {quoted(known)}" if meant is None else f'did you mean "{meant}"?'


def edits(one: str, other: str) -> int:
    """How many letters have to be put, left out, changed or swapped with the next one."""
    before: list[int] = []
    last = list(range(len(other) + 1))
    for row, letter in enumerate(one, 1):
        now = [row]
        for column, wanted in enumerate(other, 1):
            least = min(last[column] + 1, now[-1] + 1, last[column - 1] + (letter != wanted))
            is_swapped = row > 1 < column and (one[row - 2], letter) == (wanted, other[column - 2])
            now.append(min(least, before[column - 2] + 1) if is_swapped else least)
        before, last = last, now
    return last[-1]


def places_of(text: str) -> Iterator[tuple[int, Place]]:
    """The numbers of the lines that begin a section or a key, and which. What stands within a text of several lines begins none."""
    quotes, section, seen = None, "", {"": 1}
    for number, line in enumerate(text.split("\n"), 1):
        if quotes is not None:
            quotes = None if quotes in line else quotes
            continue
        quotes = next((it for it in ('"""', "'''") if line.count(it) % 2), None)
        if header := re.match(r"\s*\[\[?\s*([^\]]*?)\s*\]", line):
            section = header[1]
            seen[section] = seen.get(section, 0) + 1
            yield number, Place(section, seen[section] - 1, None)
        elif key := re.match(r'\s*"?([^"=]*?)"?\s*=', line):
            yield number, Place(section, seen[section] - 1, key[1])


def line_of(text: str, wanted: Place) -> int | None:
    """The number of its line, if the text has no inline tables or dotted keys there."""
    for number, place in places_of(text):
        is_header = place.key is None and wanted.section == "" and place.section == wanted.key
        if is_header or place == wanted:
            return number
    return None


def refused_section(text: str, refusal: int) -> int | None:
    """The line of the first section up to whose end the text is refused so."""
    rows = text.split("\n")
    headers = [number for number, place in places_of(text) if place.key is None]
    for header, end in zip(headers, [*headers[1:], len(rows) + 1]):
        try:
            Tree("\n".join(rows[: end - 1]))
        except Refused as refused:
            if refused.args[0] == refusal:
                return header
    return None
