"""Replies to COMPOUND as values, and what is raised if a reply isn't there or isn't the one that is needed.

The value of a result is a record of `nfs4tools.wire`, a stateid, or bytes; that of GETATTR are the attributes by their
names in RFC 7531. Errors name operations and statuses, and show requests with the names of their fields."""
from collections.abc import Iterator, Sequence
from dataclasses import dataclass
from typing import Any

from nfs4tools import wire
from nfs4tools.client.operations import Request, name_of
from nfs4tools.journal.named_words import attributes_word, fields_of, fields_of_result, words_of
from nfs4tools.journal.words import STATUS_NAMES
from nfs4tools.model.attributes import NAMES, numbers_of
from nfs4tools.model.traces import ACCEPTED_NAMES, DENIED_NAMES
from nfs4tools.send.replies import ATTRIBUTES
from nfs4tools.wire import Denied, Opnum, Reader, Status, Unreadable


class ClientError(Exception):
    """What goes wrong between a client and its server."""


class NoReply(ClientError):
    """The reply didn't come in time, or the connection ended before it."""


class BadReply(ClientError):
    """The record that came is no reply to the call, or can't be read."""


class CallRefused(ClientError):
    """The server has run nothing of the call. `reason` is the name in RFC 5531, for example PROG_MISMATCH."""

    def __init__(self, reason: str) -> None:
        super().__init__(f"the call was refused: {reason}")
        self.reason = reason


class StatusError(ClientError):
    """An operation was answered another status than NFS4_OK."""

    def __init__(self, result: "Result", reply: "Reply") -> None:
        super().__init__(f"{result!r}, for {result.request!r}")
        self.result, self.reply = result, reply

    @property
    def request(self) -> Request | bytes:
        return self.result.request

    @property
    def operation(self) -> str:
        """The name of the operation that was asked for."""
        return self.result.name

    @property
    def status(self) -> int:
        """A `Status`; or a number that RFC 7531 doesn't have."""
        return self.result.status

    @property
    def denied(self) -> Denied | None:
        """The lock that conflicts, if the status is NFS4ERR_DENIED."""
        return self.result.value if isinstance(self.result.value, Denied) else None


def status_name(status: int) -> str:
    """The name in RFC 7531, for example NFS4ERR_DENIED."""
    return STATUS_NAMES.get(status, f"status {status}")


def status_of(number: int) -> int:
    return Status(number) if number in STATUS_NAMES else number


class Attributes(dict[str, Any]):
    """Values of attributes by their names. It is printed with the names of RFC 7531."""

    def __init__(self, fattr: wire.Fattr) -> None:
        reader, self.fattr = Reader(fattr[1]), fattr
        super().__init__({NAMES[number]: ATTRIBUTES[number].read(reader) for number in sorted(numbers_of(fattr[0]))})

    def __repr__(self) -> str:
        return attributes_word(self.fattr)


@dataclass(frozen=True)
class Result:
    """What an operation was answered: its status, and the value after that, or None."""

    request: Request | bytes
    number: int
    status: int
    value: Any

    @property
    def is_ok(self) -> bool:
        return self.status == Status.OK

    @property
    def name(self) -> str:
        """That of the operation that was asked for; of one that was given as bytes, of the one that was answered."""
        return self.request.name if isinstance(self.request, Request) else name_of(self.number)

    def __repr__(self) -> str:
        return " ".join([name_of(self.number), status_name(self.status), *value_words(self)])


def value_words(result: Result) -> list[str]:
    """The value with the names of its fields."""
    if result.value is None:
        return []
    if isinstance(result.value, Attributes):
        return [f"obj_attributes={result.value}"]
    try:
        return words_of(fields_of_result(result.number, result.status, result.value), False)
    except KeyError:
        # RFC 7531 has one value there, or one of several kinds.
        return words_of(fields_of(result.value), False) if hasattr(result.value, "_asdict") else [repr(result.value)]


@dataclass(frozen=True)
class Reply:
    """The reply to a COMPOUND: its status and tag, and the results of the operations that were run."""

    status: int
    tag: bytes
    results: list[Result]

    def __iter__(self) -> Iterator[Result]:
        return iter(self.results)

    def __getitem__(self, place: int) -> Result:
        return self.results[place]

    def __len__(self) -> int:
        return len(self.results)

    @property
    def is_ok(self) -> bool:
        return self.status == Status.OK

    def of(self, opnum: int) -> Any:
        """The value of the last result of this operation; or LookupError."""
        for result in reversed(self.results):
            if result.number == opnum:
                return result.value
        raise LookupError(f"no result of {name_of(opnum)} in {self}")

    def check(self) -> "Reply":
        """This reply, if each operation was answered NFS4_OK; or StatusError, or BadReply."""
        for result in self.results:
            if not result.is_ok:
                raise StatusError(result, self)
        if not self.is_ok:
            raise BadReply(f"the COMPOUND has {status_name(self.status)}, and none of its operations has: {self}")
        return self

    def __repr__(self) -> str:
        return f"{status_name(self.status)}: {'; '.join(map(repr, self.results)) or 'no results'}"


# Reading.


def read_reply(data: bytes, xid: int) -> Reader | None:
    """What follows the head of a reply to the call with this xid: None if it is a reply to another call; or
    CallRefused, or BadReply. The data has no headers of fragments."""
    reader = Reader(data)
    try:
        if reader.u32() != xid:
            return None
        if reader.u32() != wire.REPLY:
            raise BadReply("a call came in the place of a reply")
        if reader.one_of(2) == wire.MSG_DENIED:
            raise CallRefused(reason_of(DENIED_NAMES, reader.u32()))
        reader.u32(), reader.opaque(wire.BODY_LIMIT)
        state = reader.u32()
    except Unreadable:
        raise BadReply(f"a record of {len(data)} bytes isn't a reply of RPC") from None
    if state != wire.SUCCESS:
        raise CallRefused(reason_of(ACCEPTED_NAMES, state))
    return reader


def reason_of(names: dict[int, str], number: int) -> str:
    return names.get(number, f"reason {number}")


def read_results(reader: Reader, requests: Sequence[Request | bytes]) -> Reply:
    """The results of a COMPOUND of these requests; or BadReply."""
    results: list[Result] = []
    try:
        status, tag, count = reader.u32(), reader.opaque(), reader.u32()
        if count > len(requests):
            raise BadReply(f"{count} results for {len(requests)} operations")
        for request in requests[:count]:
            results.append(read_result(reader, request))
    except Unreadable:
        raise BadReply(f"result {len(results)} can't be read, after {results}") from None
    if reader.at < len(reader.data):
        raise BadReply(f"{len(reader.data) - reader.at} bytes follow the last result, after {results}")
    return Reply(status_of(status), tag, results)


def read_result(reader: Reader, request: Request | bytes) -> Result:
    found = wire.read_result(reader)
    asked = request.number if isinstance(request, Request) else found.number
    if found.number not in (asked, Opnum.ILLEGAL):
        raise BadReply(f"{name_of(found.number)} is answered to {request!r}")
    return result_of(found, request)


def result_of(found: wire.OperationResult, request: Request | bytes) -> Result:
    value = found.value
    if found.number == Opnum.GETATTR and value is not None:
        value = read_attributes(value)
    return Result(request, found.number, status_of(found.status), value)


def read_attributes(fattr: wire.Fattr) -> Attributes:
    try:
        return Attributes(fattr)
    except KeyError as unknown:
        raise BadReply(f"attribute {unknown} has no form here") from None
