"""The operations of a trace, each with its answer, and whom they name."""
import re
from collections.abc import Iterator, Mapping
from typing import NamedTuple

from nfs4tools.rows.row import EPOCH
from nfs4tools.trace.reader import Line, Step, Trace

# A connection, and where an operation stands: the line of its call, and its place in that.
Place = tuple[int | None, bool]
Where = tuple[int, int]

# Where operations name their client, by a clientid in an owner or by itself; and by a stateid.
OWNERS = "owner", "lock_owner"
STATEIDS = "open_stateid", "lock_stateid", "stateid", "deleg_stateid"
ESCAPED = re.compile(rb'\\(?:x([0-9a-f]{2})|(["\\]))')


class TracedOperation(NamedTuple):
    """An operation of a client. `line` is that of the reply that the client got, or None; `status` is None where the
    operation wasn't run or no reply came, and `result` has what follows it."""

    where: Where
    place: Place
    time: int
    step: Step
    line: int | None
    status: str | None
    result: Mapping[str, str]

    @property
    def values(self) -> dict[str, str]:
        return self.step.values

    @property
    def name(self) -> bytes | None:
        """The id of a SETCLIENTID."""
        word = self.values.get("id") if self.step.operation == "SETCLIENTID" else None
        return None if word is None else bytes_of_word(word)


def told_steps(trace: Trace) -> Iterator[TracedOperation]:
    """The operations of all calls that clients sent, in the order of the calls."""
    for call, reply in trace.exchanges():
        if not call.is_callback:
            yield from steps_of(call, None if reply is None or reply.fate in ("lost", "cut") else reply)


def steps_of(call: Line, reply: Line | None) -> Iterator[TracedOperation]:
    results = () if reply is None else reply.steps
    for index, step in enumerate(call.steps):
        result = results[index] if index < len(results) else None
        status, values = (None, {}) if result is None else (result.status, result.values)
        line = None if reply is None else reply.number
        yield TracedOperation((call.number, index), call.place, call.time, step, line, status, values)


def bytes_of_word(word: str) -> bytes:
    """The bytes of a name, which is in quotes, with its escapes."""
    return ESCAPED.sub(lambda it: bytes.fromhex(it[1].decode()) if it[1] else it[2], word[1:-1].encode())


def clientid_of(values: Mapping[str, str]) -> str | None:
    """The clientid that is named by itself, or in an owner, whose epoch isn't shown where it is that of most runs."""
    if "clientid" in values:
        return values["clientid"]
    owner = next((values[name] for name in OWNERS if name in values), None)
    if owner is None:
        return None
    clientid = owner.partition("/")[0]
    return clientid if ":" in clientid else f"{EPOCH}:{clientid}"


def state_of(values: Mapping[str, str]) -> str | None:
    """The state that is named by a stateid, whose seqid changes."""
    stateid = next((values[name] for name in STATEIDS if name in values), None)
    return None if stateid is None or ":" not in stateid else stateid.partition(":")[2]


def told_words(call: Line, reply: Line | None, begun: int) -> str:
    """A call as a line: when it came, in seconds of the trace, its connection and xid, and its operations with their
    answers."""
    callback = "callback " if call.is_callback else ""
    head = f"{(call.time - begun) / 1e6:.6f} s, {callback}connection {call.connection}, xid {call.xid}"
    return f"{head}: {'; '.join(map(step_words, steps_of(call, reply)))}"


def step_words(told: TracedOperation) -> str:
    answer = told.status or ("no answer" if told.line is None else "not run")
    result = " ".join([answer, *(f"{name}={value}" for name, value in told.result.items())])
    return f"{' '.join([told.step.operation, *told.step.words])} -> {result}"
