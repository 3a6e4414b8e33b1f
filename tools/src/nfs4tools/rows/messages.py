"""The messages of a row: what it sends, wants and takes, by the words of its lines."""
from dataclasses import dataclass, field

from nfs4tools import wire
from nfs4tools.rows.errors import NO_CREDENTIAL, NO_FORM, NO_TAKE, NO_XID, Wrong
from nfs4tools.rows.words import SPACES, expect_end, limited, number, spelled, split_word
from nfs4tools.wire import record, u32


@dataclass
class Message:
    """Its direction (send, want, take), its form (bytes, record, compound), its head, and the words of its lines."""

    direction: str
    form: str
    head: bytes = b""
    body: bytearray = field(default_factory=bytearray)
    lines: int = 0

    def spelled(self) -> bytes:
        whole = limited(self.head + self.body)
        if self.form == "bytes":
            return whole
        return record(self.head + u32(self.lines) + self.body if self.form == "compound" else whole)


def begin_message(direction: str, text: str) -> Message:
    """The message that begins with what is written after `send` or `want`."""
    kind, rest = split_word(text)
    if direction == "take" and kind != "record":
        raise Wrong(NO_TAKE)
    if kind in ("bytes", "record"):
        expect_end(rest)
        return Message(direction, kind)
    if direction == "send" and kind in ("null", "arguments", "compound"):
        head = call(wire.NFSPROC4_NULL if kind == "null" else wire.NFSPROC4_COMPOUND, rest)
        tag_and_minor = u32(0, 0) if kind == "compound" else b""
        return Message(direction, form_of(kind), head + tag_and_minor)
    if direction == "want" and kind in ("null", "results", "compound"):
        return Message(direction, form_of(kind), reply(kind, rest))
    raise Wrong(NO_FORM)


def form_of(kind: str) -> str:
    return "compound" if kind == "compound" else "record"


def split_xid(text: str) -> tuple[int, str]:
    word, rest = split_word(text)
    try:
        return number(word), rest
    except Wrong:
        raise Wrong(NO_XID) from None


def call(procedure: int, text: str) -> bytes:
    """The head of a call, by its xid and its credential."""
    xid, rest = split_xid(text)
    head = u32(xid, wire.CALL, 2, wire.NFS4_PROGRAM, wire.NFS_V4, procedure)
    return head + credential(rest.lstrip(SPACES)) + u32(wire.AUTH_NONE, 0)


def credential(text: str) -> bytes:
    """Nothing says AUTH_NONE with an empty body."""
    if text == "" or text.startswith("#"):
        return u32(wire.AUTH_NONE, 0)
    keyword, rest = split_word(text)
    if keyword != "credential":
        raise Wrong(NO_CREDENTIAL)
    flavor, words = split_word(rest)
    body = limited(spelled(words))
    return u32(number(flavor), len(body)) + body


def reply(kind: str, text: str) -> bytes:
    """The head of a reply to a call that was run; in a COMPOUND with its status and an empty tag."""
    xid, rest = split_xid(text)
    status, rest = split_word(rest) if kind == "compound" else (None, rest)
    expect_end(rest)
    head = u32(xid, wire.REPLY, wire.MSG_ACCEPTED, wire.AUTH_NONE, 0, wire.SUCCESS)
    return head if status is None else head + u32(number(status), 0)
