"""Edits of crates that the prover must refuse: their files, and many of them in one copy of a crate."""
import os
import re
import shutil
from collections.abc import Iterable, Sequence
from typing import NamedTuple

PARTS = ("src", "specs", "proofs")
# The new lines, by the file's path and the line's number.
Changes = dict[tuple[str, int], str]


class Edit(NamedTuple):
    """The function is named by its path below the crate, as a check prints it. The changes are lines of files, by
    the file's path and the line's number from 0; or there are none, and `bad` says why the edit can't be
    applied."""

    crate: str
    name: str
    why: str
    function: str
    changes: Changes
    text: str
    bad: str | None


class BadEdit(Exception):
    """An edit that can't be applied."""


def read_edit(path: str, folder: str, crate: str) -> Edit:
    """The edit in the file, of the crate whose files lie in the folder."""
    with open(path, encoding="utf-8") as source:
        text = source.read()
    name = os.path.basename(path).removesuffix(".edit")
    functions = re.findall("(?m)^function: (.*)$", text)
    try:
        if len(functions) != 1:
            raise BadEdit(f"it has {len(functions)} lines `function: PATH`, and not one")
        changes: Changes = changes_of(text, folder)
        bad = None
    except BadEdit as error:
        changes, bad = {}, str(error)
    return Edit(crate, name, text.partition("\n")[0], functions[0] if functions else "", changes, text, bad)


def changes_of(text: str, folder: str) -> Changes:
    """The lines that the edit changes. A later pair of `old:` and `new:` applies to what the earlier ones made."""
    path, old = None, None
    before, after = dict[str, str](), dict[str, str]()
    for line in text.split("\n"):
        if line.startswith("file: "):
            path = line.removeprefix("file: ").strip()
            if path not in before:
                before[path] = after[path] = text_of(path, folder)
        elif line.startswith("old: "):
            old = line.removeprefix("old: ")
        elif line.startswith("new:"):
            if path is None or old is None:
                raise BadEdit("a line `new:` stands before any `file:` or `old:`")
            found = after[path].count(old)
            if found != 1:
                raise BadEdit(f"an `old:` text stands in {path} {found} times, and not once")
            after[path], old = after[path].replace(old, line.removeprefix("new:").removeprefix(" ")), None
    changes: Changes = {}
    for path, was in before.items():
        # Both texts of a pair are one line each, so each line keeps its number.
        pairs = zip(was.split("\n"), after[path].split("\n"), strict=True)
        changes |= {(path, number): new for number, (old, new) in enumerate(pairs) if old != new}
    if not changes:
        raise BadEdit("it changes nothing")
    return changes


def text_of(path: str, folder: str) -> str:
    if os.path.normpath(path) != path or path.split("/")[0] not in PARTS:
        raise BadEdit(f"a line `file:` names no file of {', '.join(PARTS)}: {path}")
    try:
        with open(os.path.join(folder, path), encoding="utf-8") as source:
            return source.read()
    except OSError as error:
        raise BadEdit(f"{path} can't be read: {error.strerror}") from error


def edits_of(folder: str, crate: str) -> list[Edit]:
    """The edits of a crate, in the order of their names."""
    top = os.path.join(folder, "mutants")
    names = sorted(name for name in os.listdir(top) if name.endswith(".edit")) if os.path.isdir(top) else []
    return [read_edit(os.path.join(top, name), folder, crate) for name in names]


def strays_of(folder: str) -> list[str]:
    """The files beside a crate's edits that nothing reads."""
    names = sorted(os.listdir(os.path.join(folder, "mutants")))
    return [os.path.join(folder, "mutants", name) for name in names if not name.endswith(".edit") and name != "control"]


def control_of(folder: str) -> str:
    """The function without an edit that each check of the crate also asks for."""
    with open(os.path.join(folder, "mutants", "control"), encoding="utf-8") as source:
        return source.read().strip()


def chosen(waiting: Sequence[Edit], calls: dict[str, set[str]]) -> list[Edit]:
    """As many of the edits as can be told apart in one copy: of different functions and lines, none of which is known
    to call another one. `calls` has the functions with edits that a function calls, as far as is known."""
    functions, lines, found = set[str](), set[tuple[str, int]](), list[Edit]()
    for edit in waiting:
        meets = {
            other
            for other in functions
            if other in calls.get(edit.function, ()) or edit.function in calls.get(other, ())
        }
        if edit.function not in functions and not meets and lines.isdisjoint(edit.changes):
            functions.add(edit.function)
            lines.update(edit.changes)
            found.append(edit)
    return found


def copy_with(edits: Iterable[Edit], folder: str, room: str) -> None:
    """Copies the crate's files to the folder `room`, with the lines that the edits change."""
    for part in PARTS:
        if os.path.isdir(os.path.join(folder, part)):
            shutil.copytree(os.path.join(folder, part), os.path.join(room, part))
    changes: dict[str, dict[int, str]] = {}
    for edit in edits:
        for (path, number), new in edit.changes.items():
            changes.setdefault(path, {})[number] = new
    for path, lines in changes.items():
        with open(os.path.join(room, path), encoding="utf-8") as source:
            text = source.read().split("\n")
        for number, new in lines.items():
            text[number] = new
        with open(os.path.join(room, path), "w", encoding="utf-8") as out:
            out.write("\n".join(text))
