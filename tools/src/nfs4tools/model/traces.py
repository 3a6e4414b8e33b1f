"""What a server is asked and answers, a line a call, in the words in which `tools/show_journal` shows a journal: with
all operations, also those that make no entry."""
from collections.abc import Set
from dataclasses import dataclass, field

from nfs4tools import wire
from nfs4tools.journal.entries import Answer, Entry
from nfs4tools.journal.journal import Recorder
from nfs4tools.journal.words import STATUS_NAMES, answer_words, line_of, principal_words, words_read
from nfs4tools.model.state_parts import Filehandles, Result
from nfs4tools.wire import CompoundCall, Opnum

OPERATION_NAMES = {**{int(it): it.name for it in Opnum}, **{it: name for name, it in wire.OTHER_OPERATIONS.items()}}
ACCEPTED_NAMES = {
    wire.PROG_UNAVAIL: "PROG_UNAVAIL",
    wire.PROG_MISMATCH: "PROG_MISMATCH",
    wire.PROC_UNAVAIL: "PROC_UNAVAIL",
    wire.GARBAGE_ARGS: "GARBAGE_ARGS",
}
DENIED_NAMES = {wire.RPC_MISMATCH: "RPC_MISMATCH", wire.AUTH_ERROR: "AUTH_ERROR"}
# The most letters that are shown of an operation.
LETTERS = 1000


@dataclass
class Tracer(Recorder):
    """A server that keeps its journal, and the words of the operations of the call before."""

    steps: list[str] = field(default_factory=list)

    def run_compound(self, call: CompoundCall, refused: Set[int]) -> bytes:
        self.steps = []
        return super().run_compound(call, refused)

    def run_next(self, call: CompoundCall, handles: Filehandles, room: int, is_refused: bool) -> tuple[int, Result]:
        begin = call.operations.at
        number, result = super().run_next(call, handles, room, is_refused)
        self.steps.append(step_words(number, call.operations.data[begin + 4 : call.operations.at], result))
        return number, result


def step_words(number: int, arguments: bytes, result: Result) -> str:
    """An operation and its answer. The arguments are shown where they were read."""
    shown = " ".join([OPERATION_NAMES[number]] + argument_words(number, arguments))
    if len(shown) > LETTERS:
        shown = f"{shown[:LETTERS]} .."
    return f"{shown} -> {answer_words(Answer(number, result.status, result.rest)).partition(' ')[2]}"


def argument_words(number: int, arguments: bytes) -> list[str]:
    """The words of arguments that can be read, and were; or none."""
    try:
        return words_read(wire.ARGUMENTS[number], arguments)
    except (KeyError, wire.Unreadable):
        return []


def call_line(server: Tracer, record: bytes, reply: bytes | None) -> str:
    """The call of a record that the server has just answered so."""
    if reply is None:
        return f"moment {server.moment}: {len(record)} bytes -> no reply"
    call, head = wire.read_call(record), f"xid {int.from_bytes(record[:4], 'big')}, moment {server.moment}"
    if not isinstance(call, wire.CompoundCall):
        return f"{head}: {plain_words(reply)}"
    return f"{head}, {principal_words(call.principal)}: {compound_words(server, call, reply)}"


def compound_words(server: Tracer, call: CompoundCall, reply: bytes) -> str:
    if server.steps:
        return "; ".join(server.steps)
    # None was run: there are too many of them, or none, or it is of another minor version.
    return f"COMPOUND of {call.count} operations -> {STATUS_NAMES[int.from_bytes(reply[24:28], 'big')]}"


def plain_words(reply: bytes) -> str:
    """A call whose answer shows that it is NULL, or else why it isn't taken."""
    if reply[11] == wire.MSG_DENIED:
        return f"a call -> {DENIED_NAMES[int.from_bytes(reply[12:16], 'big')]}"
    state = int.from_bytes(reply[20:24], "big")
    return "NULL -> answered" if state == wire.SUCCESS else f"a call -> {ACCEPTED_NAMES[state]}"


def entry_line(server: Recorder, entry: Entry) -> str:
    """An entry that no call brought."""
    return line_of(entry, server.tree)
