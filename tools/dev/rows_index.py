"""Prints the index of the rows by operations, as crates/rows/INDEX has it. For each operation it has the number of
rows that send it, and the files with most of these rows.

With --write it writes crates/rows/INDEX. With --check it compares the index with that file: if they differ, the
status is 1.

An operation counts if it is in a call of COMPOUND, and its number can be read, whether or not it is run. Operations
after arguments that can't be read, or after an operation without a rule, don't count."""
import argparse
import os
import sys
from collections import Counter, defaultdict
from collections.abc import Iterator

from nfs4tools import wire
from nfs4tools.processes import TOP
from nfs4tools.rows.errors import UNREAD
from nfs4tools.rows.reading import File, files_of
from nfs4tools.rows.row import Row
from nfs4tools.send.replies import name_of
from nfs4tools.wire import CompoundCall, NFSPROC4_NULL, Unreadable, split_records

DATA, INDEX = os.path.join(TOP, "crates/rows/data"), os.path.join(TOP, "crates/rows/INDEX")
HEAD = "How many rows send each operation, and in which files they are: tools/dev/rows_index --write\n\n"
# So many files are named.
NAMED = 4
# What stands last: rows whose records have no operation, as those that are about records or trees.
NONE = "none"


def operations_of(record: bytes) -> Iterator[str]:
    """The names of the operations in a record, one after the other; that of NULL is its own."""
    call = wire.read_call(record)
    if not isinstance(call, CompoundCall):
        if call is not None and record[20:24] == wire.u32(NFSPROC4_NULL):
            yield "NULL"
        return
    try:
        for _ in range(call.count):
            number = call.operations.u32()
            yield name_of(number) if number in wire.ARGUMENTS or 3 <= number <= 39 else "ILLEGAL"
            wire.ARGUMENTS[number](call.operations)
    except (KeyError, Unreadable):
        return


def operations_of_row(row: Row) -> set[str]:
    records = (record for connection in row.connections for record in split_records(connection.sent)[0])
    return {name for record in records for name in operations_of(record)} or {NONE}


def counted() -> dict[str, Counter[str]]:
    """By the operations: how many rows of each file send them."""
    found: dict[str, Counter[str]] = defaultdict(Counter)
    for path in files_of(DATA):
        file = os.path.basename(path).removesuffix(".rows")
        for row in File(path).rows:
            for name in operations_of_row(row):
                found[name][file] += 1
    return found


def index() -> str:
    lines, found = [], counted()
    for name in sorted(found, key=lambda name: (name == NONE, name)):
        lines.append(f"{name} {found[name].total()}: {listed(found[name])}\n")
    return HEAD + "".join(lines)


def listed(counts: Counter[str]) -> str:
    """The files with the most of the rows, and what the others have together."""
    files = sorted(counts.items(), key=lambda item: (-item[1], item[0]))
    named, others = files[:NAMED], files[NAMED:]
    rest = f"; and {sum(count for _, count in others)} in {len(others)} others" if others else ""
    return ", ".join(f"{file} {count}" for file, count in named) + rest


def check(wanted: str) -> int:
    """Says which line of the file is the first that isn't right."""
    with open(INDEX, encoding="utf-8") as file:
        inside = file.read()
    if inside == wanted:
        return 0
    pairs = zip(inside.splitlines() + ["nothing"], wanted.splitlines() + ["nothing"])
    has, is_right = next(pair for pair in pairs if pair[0] != pair[1])
    print(
        f"rows_index: crates/rows/INDEX has\n    {has}\n  where it is\n    {is_right}\n"
        "  (tools/dev/rows_index --write puts it right)"
    )
    return 1


def main() -> int:
    parser = argparse.ArgumentParser(description=__doc__, formatter_class=argparse.RawDescriptionHelpFormatter)
    ways = parser.add_mutually_exclusive_group()
    ways.add_argument("--check", action="store_true", help="compare it with that of the file")
    ways.add_argument("--write", action="store_true", help="put it there")
    given = parser.parse_args()
    try:
        wanted = index()
    except UNREAD as error:
        sys.exit(f"rows_index: {error}")
    if given.check:
        return check(wanted)
    if not given.write:
        print(wanted, end="")
        return 0
    with open(INDEX, "w", encoding="utf-8") as out:
        out.write(wanted)
    return 0
