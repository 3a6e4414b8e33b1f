"""Prints each entry of a journal's file as a line, whether the journal is lawful or not.

A line has the entry's number, the moment, the principal, the current file, the operation and its answer. If the
journal has no entry, nothing is printed. docs/JOURNAL.md has the layout of the file.

- Operations and answers have the names of RFC 7531.
- A stateid is seqid:epoch:client:state, and a clientid is epoch:client.
- An owner is client/"name", with the epoch before it if that isn't 1.
- Flags come without the prefix of their field, for example without OPEN4_SHARE_ACCESS_.

With --words operations and answers are the words of a row (crates/rows/README.md).

Of the bytes of a READ or WRITE the first 64 are shown, and their number. With --whole all are shown.

FILE may also be the beginning of a journal (docs/JOURNAL.md). Then its whole entries are shown, and a last line says
how the file ends."""
import argparse
import sys
from collections.abc import Callable
from datetime import datetime, timedelta

from nfs4tools.page.writing import write_page
from nfs4tools.runs.options import add_selection, selection_of
from nfs4tools.runs.selection import Selection
from nfs4tools.show.lines import follow, judge, save, show


def wall(text: str) -> Callable[[int], str]:
    """How moments are shown as times, by the time of moment 0, as argparse's `type` of an option."""
    try:
        begin = datetime.fromisoformat(text)
    except ValueError:
        raise argparse.ArgumentTypeError(f"{text!r} is no time, such as 2026-11-30T21:30:00 or with Z") from None

    def time_of(moment: int) -> str:
        try:
            return (begin + timedelta(seconds=moment)).isoformat()
        except OverflowError:
            return str(moment)

    return time_of


def fault_of(given: argparse.Namespace) -> str | None:
    """What is wrong with options that don't go together, if anything."""
    ways = {"--lawful": given.lawful, "--save": given.save is not None, "--html": given.html is not None}
    forms = {"--json": given.json, "--words": given.words, "--whole": given.whole, "--wall": given.wall is not None}
    for way in [name for name, is_given in ways.items() if is_given]:
        for form in [name for name, is_given in forms.items() if is_given]:
            return f"{form} is for the list of entries, which {way} doesn't show: leave out one of them"
        if way != "--html" and selection_of(given) != Selection():
            return f"{way} takes the whole file: leave out the options that choose entries, or {way}"
    return None


def main() -> None:
    parser = argparse.ArgumentParser(description=__doc__, formatter_class=argparse.RawDescriptionHelpFormatter)
    ways = parser.add_mutually_exclusive_group()
    ways.add_argument(
        "--follow",
        action="store_true",
        help="read on while the file grows, until it is a whole journal or is removed, or until Ctrl-C",
    )
    ways.add_argument(
        "--lawful", action="store_true", help="instead of the entries, say up to which one they are lawful by the model"
    )
    ways.add_argument("--save", metavar="JOURNAL", help="instead, write the journal of the file's whole entries")
    ways.add_argument(
        "--html", metavar="PAGE", help="instead, write a page that shows the run as a picture, for a browser"
    )
    add_selection(parser)
    forms = parser.add_mutually_exclusive_group()
    forms.add_argument("--json", action="store_true", help="print each entry as a line of JSON (docs/run.schema.json)")
    forms.add_argument("--words", action="store_true", help="show operations and answers as the words of rows")
    parser.add_argument("--whole", action="store_true", help="show all bytes that READ and WRITE bring")
    parser.add_argument(
        "--wall",
        type=wall,
        metavar="TIME",
        help="show moments as times, if moment 0 was at TIME, such as 2026-11-30T21:30:00; the moments of rows are no "
        "times",
    )
    parser.add_argument("path", metavar="FILE", help="a journal, or a beginning of one")
    given = parser.parse_args()
    if fault := fault_of(given):
        parser.error(fault)
    try:
        show_as(given)
    except BrokenPipeError:
        sys.stderr.close()
    except KeyboardInterrupt:
        sys.exit(130)


def show_as(given: argparse.Namespace) -> None:
    """What the options ask for."""
    if given.follow:
        follow(given)
    elif given.lawful:
        judge(given.path)
    elif given.save is not None:
        save(given.path, given.save)
    elif given.html is not None:
        write_page(given.path, given.html, selection_of(given))
    else:
        show(given)
