"""A trace is read, whoever wrote it: `tools/between --trace` or the model's. The beginning of a trace is one, too: what is
read goes up to the last whole line."""
import json
from collections.abc import Iterator
from typing import Any, NamedTuple

from nfs4tools.trace.form import VERSION


class NotTrace(Exception):
    """The file is no trace; the argument says where and why."""


class Step(NamedTuple):
    """An operation of a call, or a result of a reply, which has a status."""

    operation: str
    words: tuple[str, ...]
    status: str | None

    @property
    def values(self) -> dict[str, str]:
        """The words of the fields by their names; of those with one name the first."""
        return {name: value for name, _, value in (word.partition("=") for word in reversed(self.words))}

    def text(self) -> str:
        return " ".join([self.operation, *([self.status] if self.status else []), *self.words])


class Line(NamedTuple):
    """A line by its number, which begins with 1: when it was, what it is, and on which connection. `xid` is None where
    none was read, `steps` has the operations that were read, and `fields` all fields as they are in the file."""

    number: int
    time: int
    event: str
    connection: int | None
    is_callback: bool
    xid: str | None
    steps: tuple[Step, ...]
    fields: dict[str, Any]

    @property
    def status(self) -> str | None:
        """Of a reply to COMPOUND its status."""
        return self.fields.get("status")

    @property
    def fate(self) -> str:
        return str(self.fields.get("fate", ""))

    @property
    def place(self) -> tuple[int | None, bool]:
        return self.connection, self.is_callback


class Trace(NamedTuple):
    """The lines of a trace behind its head, when it began, what wrote it, the seconds of the lease, and how the file
    ends, if its last line isn't whole."""

    lines: list[Line]
    begun: int
    by: str
    lease: int
    ends: str | None

    def exchanges(self) -> Iterator[tuple[Line, Line | None]]:
        """Each call with its reply, or None where none came, in the order of the calls."""
        waiting: dict[tuple[Any, ...], list[int]] = {}
        found: list[tuple[Line, Line | None]] = []
        for line in self.lines:
            key = (*line.place, line.xid)
            if line.event == "call":
                waiting.setdefault(key, []).append(len(found))
                found.append((line, None))
            elif line.event == "reply" and waiting.get(key):
                # After a reply that is lost another one may come, to the same call.
                at = waiting[key][0] if line.fate == "lost" else waiting[key].pop(0)
                found[at] = found[at][0], line
        yield from found


def read_trace(path: str) -> Trace:
    """The trace in a file; or NotTrace, or OSError."""
    with open(path, "rb") as source:
        return trace_of(source.read())


def trace_of(data: bytes) -> Trace:
    *whole, rest = data.split(b"\n")
    ends = f"the trace ends in line {len(whole) + 1}, which isn't whole" if rest else None
    if not whole:
        raise NotTrace("it has no whole line")
    fields = fields_at(1, whole[0])
    head = line_of(1, fields) if "event" in fields else None
    if head is None or head.event != "trace":
        raise NotTrace('line 1 isn\'t that of a trace, which has "event":"trace"')
    if fields.get("version") != VERSION:
        raise NotTrace(f"line 1 has version {fields.get('version')}; this reader has {VERSION}")
    lease = fields.get("lease")
    if not isinstance(lease, int) or lease < 1:
        raise NotTrace("line 1 has no lease, which is a number of seconds")
    lines = [line_of(number, fields_at(number, text)) for number, text in enumerate(whole[1:], 2)]
    return Trace(lines, head.time, str(fields.get("by", "")), lease, ends)


def fields_at(number: int, text: bytes) -> dict[str, Any]:
    try:
        fields = json.loads(text)
    except (ValueError, RecursionError):
        raise NotTrace(f"line {number} is no JSON") from None
    if not isinstance(fields, dict):
        raise NotTrace(f"line {number} is no object of JSON")
    return fields


def line_of(number: int, fields: dict[str, Any]) -> Line:
    """A line by its fields, of which each that is read here has its type."""
    try:
        return Line(
            number,
            typed(fields, "time", int),
            typed(fields, "event", str),
            typed(fields, "connection", int, None),
            typed(fields, "callback", bool, False),
            typed(fields, "xid", str, None),
            tuple(map(step_of, typed(fields, "operations", list, []))),
            fields,
        )
    except KeyError as missing:
        raise NotTrace(f"line {number}: {missing.args[0]}") from None


def step_of(fields: dict[str, Any]) -> Step:
    if not isinstance(fields, dict):
        raise KeyError("an operation is no object of JSON")
    words = tuple(map(str, typed(fields, "words", list, [])))
    return Step(typed(fields, "operation", str), words, typed(fields, "status", str, None))


REQUIRED = object()


def typed(fields: dict[str, Any], name: str, kind: type[Any], default: Any = REQUIRED) -> Any:
    """The field of this name; or KeyError with what is wrong with it."""
    value = fields.get(name, default)
    if value is REQUIRED:
        raise KeyError(f'it has no "{name}"')
    if value is not default and type(value) is not kind:
        raise KeyError(f'"{name}" is no {kind.__name__}')
    return value
