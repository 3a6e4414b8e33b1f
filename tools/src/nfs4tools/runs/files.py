"""A run's file as the commands read it, which end with a line that says what is wrong."""
import gc
import sys
from collections.abc import Iterable, Iterator

from nfs4tools.journal.entries import NotJournal
from nfs4tools.journal.partial import end_without_journal, tell_end
from nfs4tools.runs.run import E, Entry, Piece, Reading, Run
from nfs4tools.runs.selection import Names, NoSuch, Selection


def pieces_of(reading: Reading[E]) -> Iterator[Piece[E]]:
    """The entries of each piece; or the end of the program."""
    try:
        yield from reading.pieces()
    except OSError:
        sys.exit("fault: file not read")
    except NotJournal as wrong:
        end_without_journal(str(wrong))


def reading_of(path: str, last: int | None = None, first: int = 0) -> tuple[Reading[Entry], list[Piece[Entry]]]:
    """The file as it was read, up to the last entry that is wanted, and its pieces; or the end of the program."""
    keep_all()
    reading = Reading(path, Entry, last, first)
    return reading, list(pieces_of(reading))


def keep_all() -> None:
    """Entries are kept to the end, so to look for what can be freed takes a fifth of the time and finds nothing."""
    gc.disable()


def run_of_file(path: str, last: int | None = None, is_json: bool = False, first: int = 0) -> Run[Entry]:
    """The run, up to the last entry that is wanted; or the end of the program, also if the file ends before its first
    entry."""
    reading, pieces = reading_of(path, last, first)
    if reading.growing.head is None:
        tell_end(reading.growing, is_json)
        sys.exit(0)
    return reading.run_of(pieces)


def expect(names: Names, selection: Selection) -> None:
    """Ends the program if the selection has a name that is none of these."""
    try:
        names.expect(selection)
    except NoSuch as wrong:
        sys.exit(f"fault: {wrong}")


def expect_names(selection: Selection, entries: Iterable[Entry]) -> None:
    """Ends the program if the selection has a name that no entry has."""
    if selection.has_names():
        names = Names()
        for entry in entries:
            names.add(entry)
        expect(names, selection)
