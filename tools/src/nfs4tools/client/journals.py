"""A server's journal as values: each entry with its moment, client, file, request and result, or with its event."""
import os
from collections.abc import Iterator
from dataclasses import dataclass, field

from nfs4tools.client.operations import Request
from nfs4tools.client.replies import Result, result_of
from nfs4tools.journal.entries import Call, NotJournal
from nfs4tools.journal.journal import Journal as Lawful
from nfs4tools.journal.journal import verdict_on
from nfs4tools.runs.run import Entry as Recorded
from nfs4tools.runs.run import read_run
from nfs4tools.wire import OperationResult, Reader, read_result, u32


class JournalError(Exception):
    """The file is no journal and no beginning of one."""


class Entry(Recorded):
    """An entry, with the request and the result of a call as the library has them."""

    __slots__ = ()

    @property
    def request(self) -> Request | None:
        return Request(self.call.opnum, self.call.arguments) if self.call else None

    @property
    def result(self) -> Result | None:
        return result_of(answer_of(self.call), Request(self.call.opnum, self.call.arguments)) if self.call else None


@dataclass(frozen=True)
class Journal:
    """The entries of a run, with the epoch and the lease of its server. If the file isn't whole, `ending` says how it
    ends."""

    epoch: int
    lease: int
    entries: list[Entry]
    ending: str | None
    recorded: Lawful = field(repr=False)

    def __iter__(self) -> Iterator[Entry]:
        return iter(self.entries)

    def __len__(self) -> int:
        return len(self.entries)

    def calls(self, operation: str | None = None, client: str | None = None, status: int | None = None) -> list[Entry]:
        """The calls of this operation, by this client, with this status; None is any."""
        wanted = [("operation", operation), ("client", client), ("status", status)]
        return [
            it
            for it in self.entries
            if it.call and all(value is None or getattr(it, name) == value for name, value in wanted)
        ]

    def refusals(self) -> list[Entry]:
        """The calls that weren't answered NFS4_OK."""
        return [it for it in self.entries if it.is_refusal]

    def events(self) -> list[Entry]:
        return [it for it in self.entries if it.event]

    def audit(self) -> str:
        """`lawful: K entries`, or what is wrong and where, by the independent model."""
        return verdict_on(self.recorded)[1]

    @property
    def is_lawful(self) -> bool:
        return verdict_on(self.recorded)[0]


def answer_of(call: Call) -> OperationResult:
    return read_result(Reader(u32(call.answer.number, call.answer.status) + call.answer.rest))


def read_journal(path: "str | os.PathLike[str]") -> Journal:
    """The journal in this file; or the whole entries of its beginning, for example of FILE.part; or JournalError."""
    try:
        run = read_run(os.fspath(path), Entry)
    except NotJournal as wrong:
        raise JournalError(f"{path} is no journal: {wrong}") from None
    if run.growing.fault is not None:
        raise JournalError(f"{path} is no journal: {run.growing.fault}")
    return Journal(run.head.epoch, run.head.lease, run.entries, run.ending, run.journal)
