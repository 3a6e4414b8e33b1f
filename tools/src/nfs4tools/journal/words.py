"""Entries of a journal as text, with operations and answers in the words of rows (crates/rows/README.md), in the order
of RFC 7531; `nfs4tools.journal.named_words` has them by name. Of the bytes of files that READ and WRITE bring only the first are
shown, where there are many, unless they are wanted whole."""
from collections.abc import Callable
from typing import Any, TypeVar

from nfs4tools import wire
from nfs4tools.journal.entries import (
    ARGUMENT_BYTES,
    Answer,
    Call,
    Entry,
    Expire,
    Forget,
    Path,
    RESTS,
    Revoke,
    delegation_given,
)
from nfs4tools.model.state_parts import OwnerName, SLOTS, slot_of
from nfs4tools.model.tree import Tree
from nfs4tools.rows import words as rows
from nfs4tools.wire import OPEN_DELEGATE_WRITE, OpenOwner, Opnum, Principal, Status, opaque

STATUS_NAMES = {number: name for name, number in rows.NAMES.items() if name.startswith(("NFS4_OK", "NFS4ERR_"))}
FLAVOR_NAMES = {wire.AUTH_NONE: "AUTH_NONE", wire.AUTH_SYS: "AUTH_SYS"}
# Numbers up to this one are shown as decimals.
DECIMAL_LIMIT = 65535
# So many bytes of a file are shown.
SHOWN = 64
V = TypeVar("V")
# How a moment is shown.
Clock = Callable[[int], str]


class WordReader(wire.Reader):
    """Takes values, and has the words of all that it took; of a file's bytes those of all, or of the first."""

    def __init__(self, data: bytes, is_whole: bool = False) -> None:
        super().__init__(data)
        self.words: list[str] = []
        self.is_whole = is_whole

    def taken(self, words_of: Callable[[V], list[str]], take: Callable[..., V], *limits: int) -> V:
        """Takes a value, and puts its words in place of those of its parts."""
        begin = len(self.words)
        value = take(*limits)
        self.words[begin:] = words_of(value)
        return value

    def fixed(self, count: int) -> bytes:
        return self.taken(hex_words, super().fixed, count)

    def u32(self) -> int:
        return self.taken(lambda value: [number_word(value)], super().u32)

    def u64(self) -> int:
        return self.taken(lambda value: [f"u64:{value}"], super().u64)

    def opaque(self, limit: int = 2**32 - 1) -> bytes:
        return self.taken(opaque_words, super().opaque, limit)

    def file_bytes(self) -> bytes:
        words_of = opaque_words if self.is_whole else shortened_words
        return self.taken(words_of, super().opaque)

    def fixed_words(self, *words: int) -> None:
        for _ in words:
            self.u32()


def hex_words(value: bytes) -> list[str]:
    return [f"hex:{value.hex()}"]


def number_word(value: int) -> str:
    return str(value) if value <= DECIMAL_LIMIT else f"0x{value:08x}"


def opaque_words(value: bytes) -> list[str]:
    """A text, or the length and what follows it in fours."""
    if is_shown_as_text(value):
        return [f'"{value.decode()}"']
    data = opaque(value)
    return [number_word(len(value))] + [f"0x{data[at:at + 4].hex()}" for at in range(4, len(data), 4)]


def shortened_words(value: bytes) -> list[str]:
    """The same; of many bytes the first, and how many there are."""
    if len(value) <= SHOWN:
        return opaque_words(value)
    first = value[:SHOWN]
    return [f'"{first.decode()}"' if is_shown_as_text(first) else f"hex:{first.hex()}", "..", f"({len(value)} bytes)"]


def is_shown_as_text(value: bytes) -> bool:
    try:
        text = value.decode()
    except UnicodeDecodeError:
        return False
    return text.isprintable() and '"' not in text


def name_words(value: bytes) -> str:
    """A name, or other bytes, as a text, with an escape for each byte that can't stand in it."""
    text = value.decode(errors="surrogateescape")
    is_plain = text.isprintable() and '"' not in text and "\\" not in text
    return f'"{text if is_plain else "".join(map(letter_words, text))}"'


def letter_words(letter: str) -> str:
    if letter in '"\\':
        return f"\\{letter}"
    if letter.isprintable():
        return letter
    return "".join(f"\\x{byte:02x}" for byte in letter.encode(errors="surrogateescape"))


def words_read(read: Callable[[Any], Any], data: bytes, is_whole: bool = False) -> list[str]:
    """The words of what is read of these bytes, which are read to their end."""
    reader = WordReader(data, is_whole)
    read(reader)
    return reader.words


def operation_words(call: Call, is_whole: bool = False) -> str:
    data = ARGUMENT_BYTES[call.opnum](call.arguments)
    return " ".join([call.opnum.name] + words_read(wire.ARGUMENTS[call.opnum], data, is_whole))


def answer_words(answer: Answer, is_whole: bool = False) -> str:
    name = Opnum(answer.number).name if answer.number in set(Opnum) else str(answer.number)
    read = RESTS.get((answer.number, answer.status))
    rest = words_read(read, answer.rest, is_whole) if read else []
    return " ".join([name, STATUS_NAMES[answer.status]] + rest)


def principal_words(principal: Principal) -> str:
    flavor, uid = principal
    return FLAVOR_NAMES[flavor] + (f" {uid}" if flavor == wire.AUTH_SYS else "")


def place_words(node: int | None, tree: Tree) -> str:
    """The current filehandle, by the path from the root."""
    if node is None:
        return "no file"
    names: list[bytes] = []
    at = node
    while at != 0:
        names.insert(0, tree.nodes[at].name)
        at = tree.nodes[at].parent
    kind = "file" if tree.is_file(node) else "directory"
    return f"{kind} {name_words(b'/' + b'/'.join(names))}"


def line_of(entry: Entry, tree: Tree, is_whole: bool = False, clock: Clock = str) -> str:
    """An entry as a line."""
    if isinstance(entry, Call):
        words = f"{operation_words(entry, is_whole)} -> {answer_words(entry.answer, is_whole)}"
        return call_line(entry, tree, words, clock)
    return event_line(entry, clock)


def call_line(call: Call, tree: Tree, words: str, clock: Clock) -> str:
    """A call as a line that has these words of its operation and answer."""
    head = f"moment {clock(call.moment)}, {principal_words(call.principal)}, {place_words(call.filehandle, tree)}"
    return f"{head}: {words}{remark_on(call)}"


def event_line(entry: Expire | Revoke | Path | Forget, clock: Clock) -> str:
    """An entry that no call brought, as a line."""
    if isinstance(entry, Expire):
        return f"{client_words(entry.client)} expires, seen at {clock(entry.seen)}, now {clock(entry.now)}"
    if isinstance(entry, Revoke):
        return f"the delegation of state {entry.state} is revoked, now {clock(entry.now)}"
    if isinstance(entry, Forget):
        return f"{owner_words(entry.owner)} is forgotten, now {clock(entry.now)}"
    return f"the callback path of {client_words(entry.client)} is marked {'up' if entry.is_up else 'down'}"


def client_words(number: int) -> str:
    """A client by its number; and where its slot was given before, which one in the slot it is."""
    slot, which = slot_of(number), number // SLOTS + 1
    return f"client {number}" + (f" (slot {slot}, {ordinal(which)})" if slot and which > 1 else "")


def owner_words(owner: OwnerName) -> str:
    kind = "open" if isinstance(owner, OpenOwner) else "lock"
    return f"{kind} owner {name_words(owner.name)} of {client_words(owner.client)}"


def ordinal(number: int) -> str:
    ending = "th" if number // 10 % 10 == 1 else {1: "st", 2: "nd", 3: "rd"}.get(number % 10, "th")
    return {2: "second", 3: "third"}.get(number, f"{number}{ending}")


def purpose_of(kind: int) -> str:
    """What a delegation is for."""
    return "writing" if kind == OPEN_DELEGATE_WRITE else "reading"


def remark_on(call: Call) -> str:
    """What is easily overlooked in the words of a call, as a comment behind them, or nothing: which delegation it gives
    or returns; and that a client is the next one in its slot."""
    given = delegation_given(call)
    if given is not None:
        kind, stateid = given
        return f"  # gives {client_words(stateid.client)} state {stateid.number}, a delegation for {purpose_of(kind)}"
    if (call.opnum, call.answer.status) == (Opnum.SETCLIENTID, Status.OK):
        number = int.from_bytes(call.answer.rest[4:8], "big")
        return f"  # {client_words(number)}" if number >= SLOTS else ""
    if (call.opnum, call.answer.status) == (Opnum.DELEGRETURN, Status.OK):
        stateid = call.arguments.stateid
        return f"  # {client_words(stateid.client)} returns state {stateid.number}"
    return ""
