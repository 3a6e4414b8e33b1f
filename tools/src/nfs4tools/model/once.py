"""Takes the place of `nfs4state once`, with its options. It reads records on standard input to its end, and writes
replies to standard output and its journal to a file. So the other scripts can be tried without a built program."""
import argparse
import sys
from collections.abc import Callable
from typing import Any

from nfs4tools.journal.entries import MOMENT_LIMIT
from nfs4tools.journal.journal import LEASE_LIMIT, Recorder
from nfs4tools.model.journal_file import write_journal
from nfs4tools.model.lines import error_words
from nfs4tools.model.server import Server
from nfs4tools.model.tree import DEFAULT, Refused, SYNTAX, Tree
from nfs4tools.model.tree_reasons import reason_of

# The most bytes that a tree's file may have.
TREE_LIMIT = 8 << 20


class Options(argparse.ArgumentParser):
    """Refuses what the program refuses: an option that is given twice, and one that isn't written out."""

    def __init__(self, description: str) -> None:
        super().__init__(
            description=description, formatter_class=argparse.RawDescriptionHelpFormatter, allow_abbrev=False
        )

    def parse_args(self) -> argparse.Namespace:  # type: ignore[override]
        names = [word.partition("=")[0] for word in sys.argv[1:] if word.startswith("--")]
        for name in names:
            if names.count(name) > 1:
                self.error(f"argument {name}: it is given twice")
        return super().parse_args()


def within(first: int, last: int) -> Callable[[str], int]:
    """What reads a number from the first to the last one."""

    def read(word: str) -> int:
        if not (word.isascii() and word.isdecimal() and first <= int(word) <= last):
            raise argparse.ArgumentTypeError(f"{word!r} isn't a number from {first} to {last}")
        return int(word)

    return read


def options(description: str) -> Options:
    """What `once.py` and `serve.py` have in common."""
    parser = Options(description)
    parser.add_argument("--tree", metavar="FILE", help="the files to serve, as a TOML document (a small tree)")
    parser.add_argument(
        "--lease", metavar="SECONDS", type=within(1, LEASE_LIMIT), default=90, help="1 to 86400 (%(default)s)"
    )
    parser.add_argument(
        "--epoch",
        metavar="NUMBER",
        type=within(0, 2**32 - 1),
        default=1,
        help="the upper half of each clientid (%(default)s)",
    )
    return parser


def server_of(given: argparse.Namespace, kind: type[Any] = Server) -> Any:
    """A new server with these options; or the end of the program if its tree can't be read or is refused."""
    data = DEFAULT.encode() if given.tree is None else bytes_of(given.tree)
    try:
        return kind(Tree(text_of(data)), given.lease, given.epoch)
    except Refused as refused:
        sys.exit(f"{given.tree}:{reason_of(data, refused.args[0])}\nfault: tree refused ({refused.args[0]})")


def bytes_of(path: str) -> bytes:
    """The bytes of a tree's file; or the end of the program."""
    try:
        with open(path, "rb") as source:
            data = source.read(TREE_LIMIT + 1)
    except OSError as error:
        sys.exit(f"{path}: {error_words(error)}\nfault: file not read")
    if len(data) > TREE_LIMIT:
        sys.exit(f"{path}: a tree's file has at most 8 MiB\nfault: file not read")
    return data


def text_of(data: bytes) -> str:
    """The text of a file; one that isn't UTF-8 makes no tree."""
    try:
        return data.decode()
    except UnicodeDecodeError:
        raise Refused(SYNTAX) from None


def main() -> None:
    parser = options(__doc__)
    parser.add_argument(
        "--now", metavar="SECONDS", type=within(0, MOMENT_LIMIT - 1), default=0, help="the moment of all calls"
    )
    parser.add_argument("--journal", metavar="FILE", help="where to write the journal at the end, also after a fault")
    parser.add_argument("command", nargs="?", choices=["once"], help="may be left out")
    given = parser.parse_args()
    server = server_of(given, Recorder)
    server.moment = given.now
    replies, fault = server.converse(sys.stdin.buffer.read())
    sys.stdout.buffer.write(replies)
    sys.stdout.flush()
    if given.journal is not None:
        of_the_file = write_journal(given.journal, server.journal())
        fault = fault or of_the_file
    if fault:
        sys.exit(f"fault: {fault}")
