"""Files of rows, as tools/rows takes them: run by the program `rows`, with a report, or shown as bytes."""
import os
from collections.abc import Callable
from concurrent.futures import ThreadPoolExecutor

from nfs4tools.rows.errors import UNREAD, refusal
from nfs4tools.rows.reading import File
from nfs4tools.rows.row import Part, Row

# The rows of a file, and what is to be said where it can't be read.
RowFile = tuple[list[Row], str | None]


def read(path: str) -> RowFile:
    try:
        return File(path).rows, None
    except UNREAD as error:
        return [], refusal(path, error)


def show(found: list[Row]) -> None:
    """The bytes of rows, in hexadecimal."""
    for row in found:
        print(f"row {row.name}")
        for part in row.steps:
            if isinstance(part, Part):
                print(f"send {part.sent.hex()}\nwant {part.wanted.hex()}")


def report(row: Row, lines: list[str]) -> None:
    print(f"{row.file}:{row.line}: {row.name}")
    for line in [f"    {rule}" for rule in row.rule] + lines:
        print(line)


def run_all(files: list[RowFile], way: Callable[[Row], list[str]]) -> int:
    """Runs the rows of files, of which some may not have been read, and reports: the status."""
    count = failed = 0
    with ThreadPoolExecutor(os.cpu_count()) as pool:
        running = [(pool.map(way, found), found, why_unread) for found, why_unread in files]
        try:
            for came, found, why_unread in running:
                if why_unread is not None:
                    print(why_unread)
                for row, lines in zip(found, came):
                    if lines:
                        report(row, lines)
                    count, failed = count + 1, failed + bool(lines)
        except BaseException:
            pool.shutdown(cancel_futures=True)
            raise
    unread = sum(why_unread is not None for _, why_unread in files)
    print(f"{count} rows in {len(files)} files: {failed} failed, {unread} files not read")
    return 0 if count and not failed and not unread else 1


def show_all(files: list[RowFile]) -> int:
    """Shows the bytes of the rows of files: the status."""
    for found, why_unread in files:
        if why_unread is not None:
            print(why_unread)
        show(found)
    return 1 if any(why_unread is not None for _, why_unread in files) else 0
