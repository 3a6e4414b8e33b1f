"""The options that choose entries of a run, the same for each command that takes them."""
import argparse
import re

from nfs4tools.runs.selection import Selection, Span
from nfs4tools.wire import Status

SPAN = re.compile(r"(\d*)(-?)(\d*)")


def span(text: str) -> Span:
    """FROM-TO, FROM-, -TO or one number, as argparse's `type` of an option."""
    found = SPAN.fullmatch(text)
    if found is None or text in ("", "-"):
        raise argparse.ArgumentTypeError(f"{text!r} is no FROM-TO, such as 100-200, 100-, -200 or 150")
    first, is_open, last = found.groups()
    wanted = Span(int(first or 0), int(last) if last else None if is_open else int(first))
    if wanted.last is not None and wanted.last < wanted.first:
        raise argparse.ArgumentTypeError(f"{text!r} ends before it begins")
    return wanted


def status(text: str) -> Status:
    """A status by its name, with or without NFS4ERR_, as argparse's `type` of an option."""
    name = text.upper().removeprefix("NFS4ERR_").removeprefix("NFS4_")
    if name not in Status.__members__:
        raise argparse.ArgumentTypeError(f"{text!r} is no status, such as BAD_SEQID or NFS4ERR_BAD_SEQID")
    return Status[name]


def path(text: str) -> str:
    """A path from the root, as argparse's `type` of an option."""
    return "/" + text.strip("/")


def count(text: str) -> int:
    """A number of entries, as argparse's `type` of an option."""
    if not text.isdecimal():
        raise argparse.ArgumentTypeError(f"{text!r} is no number of entries, such as 3")
    return int(text)


def add_selection(parser: argparse.ArgumentParser) -> None:
    """The options by which entries are chosen."""
    group = parser.add_argument_group(
        "which entries", "If an option is given more than once, an entry has to match one of its values."
    )
    group.add_argument(
        "--client", action="append", default=[], metavar="NAME|NUMBER", help="of this client: its id, or its number"
    )
    group.add_argument("--file", action="append", default=[], type=path, metavar="PATH", help="about this file")
    group.add_argument("--owner", action="append", default=[], metavar="NAME", help="of this open owner or lock owner")
    group.add_argument(
        "--status", action="append", default=[], type=status, metavar="NAME", help="with this status, e.g. BAD_SEQID"
    )
    group.add_argument("--entries", default=Span(), type=span, metavar="FROM-TO", help="with these numbers")
    group.add_argument("--moments", default=Span(), type=span, metavar="FROM-TO", help="of these seconds of the run")
    group.add_argument("--context", default=0, type=count, metavar="N", help="and the N entries before and after each")


def selection_of(given: argparse.Namespace) -> Selection:
    """What the options choose."""
    return Selection(
        tuple(given.client),
        tuple(given.file),
        tuple(given.owner),
        tuple(given.status),
        given.entries,
        given.moments,
        given.context,
    )
