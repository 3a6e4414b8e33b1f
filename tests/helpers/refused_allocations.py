"""Programs to which allocations of memory are refused, by their numbers (`preloaded/refuse_allocation.c`): the memory
of a run, what is refused of it, and what a journal may be then. `tests/program/test_allocations_*.py` run them.

A run's files are in a folder of its `Memory`. `allocations_in` refuses each allocation in turn, until a run makes no
more."""
import os
from collections.abc import Callable
from concurrent.futures import ThreadPoolExecutor
from dataclasses import replace
from itertools import count, takewhile

from helpers.expecting_client import Wrong
from helpers.row_journals import rows_of
from nfs4tools.journal.journal import Recorder, journal_bytes
from nfs4tools.messages import GETATTR, PUTROOTFH, TYPE_SIZE_FILEID, compound, opening, words
from nfs4tools.model.server import Server
from nfs4tools.model.tree import DEFAULT, Tree
from nfs4tools.processes import TOP
from nfs4tools.program import bytes_of
from nfs4tools.rows.row import Part, Row
from nfs4tools.wire import opaque, split_records

# How a run ends if an allocation is refused that it can't do without.
REFUSALS = (b"fault: no memory\n", b"fault: tree refused (5)\n")
# How many runs there are at a time, each of which mostly waits.
AT_ONCE = 32


class Memory:
    """The memory of programs, and the files of their runs, in a folder."""

    def __init__(self, folder: str, environment: dict[str, str]) -> None:
        self.folder, self.environment, self.numbers = folder, environment, count()

    def new_path(self, ending: str) -> str:
        return os.path.join(self.folder, f"{next(self.numbers)}.{ending}")

    def refusal(self, allocation: int, since: bool = False, after: int | None = None) -> "Refusal":
        """Of this allocation, of those that come after so many bytes of the input, if that is said; and of all after
        it, if that is wanted."""
        others = {"REFUSED_SINCE": "1"} if since else {}
        if after is not None:
            others["REFUSED_AFTER"] = str(after)
        return Refusal(self, REFUSED_ALLOCATION=str(allocation), **others)

    def refusal_at_end(self) -> "Refusal":
        """Of each allocation after the end of the input."""
        return Refusal(self, REFUSED_END="1")


# When an allocation was refused: before the run began, which may leave no journal then. To begin is to read of the
# input, or to accept.
BEFORE = b""


class Refusal:
    """What is refused to one run, by its environment. A file is made when the first allocation is refused."""

    def __init__(self, memory: Memory, **variables: str) -> None:
        self.mark, self.variables = memory.new_path("mark"), variables
        self.environment = {**memory.environment, **variables, "REFUSED_MARK": self.mark}

    def when(self) -> bytes | None:
        """When the first allocation was refused. It is None if none was, and if this was asked before."""
        return taken(self.mark)

    def took_place(self) -> bool:
        return self.when() is not None

    def __str__(self) -> str:
        return " ".join(f"{name}={value}" for name, value in self.variables.items())


def taken(path: str) -> bytes | None:
    """The bytes of a file, which is then gone; or None if there is none."""
    data = bytes_of(path)
    if data is not None:
        os.remove(path)
    return data


def shown(data: bytes | None) -> str:
    """The bytes of a file in an error."""
    return "that isn't there" if data is None else data.hex()


def allocations_in(is_refused: Callable[[int], bool], first: int = 1, step: int = 1) -> int:
    """Refuses each allocation from this one on in turn, or each so many further, by a function that runs something and
    says whether there was such an allocation: how many there are."""
    return sum(1 for _ in takewhile(is_refused, count(first, step)))


def allocations_at_once(is_refused: Callable[[int], bool]) -> int:
    """Refuses each allocation in turn, many at a time: how many there are, at least."""
    with ThreadPoolExecutor(AT_ONCE) as pool:
        for first in count(1, AT_ONCE):
            if not any(list(pool.map(is_refused, range(first, first + AT_ONCE)))):
                break
    return first - 1


# Rows whose journals are written.

JOURNALED = (
    ("client_ids.rows", "each case of client ids that comes without opens"),
    ("lock.rows", "a write lock with a hole, as another owner meets it"),
)


def model_row(name: str, document: str | None, sent: bytes) -> Row:
    """A row of one connection that gets what the model gives."""
    wanted, fault = Server(Tree(document or DEFAULT)).converse(sent)
    return Row("", 0, name, document=document, steps=[Part(sent=sent, wanted=wanted, fault=fault)])


def named_row(number: int) -> Row:
    """The row of this number among those whose journals are written: behind those that are named is one with a tree and
    a fault of its connection."""
    file, name = JOURNALED[number % len(JOURNALED)]
    found = next(row for row in rows_of(file) if row.name == name)
    if number < len(JOURNALED):
        return found
    with open(os.path.join(TOP, "samples/letters.toml"), encoding="utf-8") as source:
        document = source.read()
    sent = found.connections[0].sent + words(0x80040001)
    return replace(found, document=document, steps=[Part(sent=sent, fault="record too long")])


def journal_after(row: Row, output: bytes) -> bytes:
    """The file of the journal that a server has after these replies, some of which may refuse an operation for want of
    memory."""
    server, replies = Recorder(Tree(row.document or DEFAULT), row.lease, row.epoch), split_records(output)[0]
    for message in split_records(row.connections[0].sent)[0]:
        # A record without a reply changes nothing.
        if replies and replies[0][:4] == message[:4] and not server.follows(message, replies.pop(0)):
            raise Wrong(f"{row.name}: no server may reply {output.hex()}")
    return journal_bytes(server.journal())


# Rows whose journals are long.

GET = compound(1, words(PUTROOTFH), *[words(GETATTR, 1, TYPE_SIZE_FILEID)] * 60)
# Its record has as many bytes as a record may have.
LARGE = compound(2, words(PUTROOTFH), opening(1, 3, 0, words(1, 1) + opaque(b"o"), b"n" * 262044))
# By the documents of their files, and by what they send.
LONG: dict[str, tuple[str | None, bytes]] = {
    "no entry": (None, b""),
    "many entries": (None, GET * 50),
    "large entries": (None, (LARGE * 2 + GET) * 3),
    "a large tree": ("".join(f'[[file]]\npath = "f{number}"\ntext = "{"t" * 65536}"\n' for number in range(64)), GET),
}
