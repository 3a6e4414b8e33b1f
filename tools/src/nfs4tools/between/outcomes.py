"""The faults that were done, and what came of each: values, of which lines and reports are made."""
import time
from dataclasses import dataclass, field
from enum import Enum
from typing import TYPE_CHECKING

from nfs4tools.between.calls import ANSWERED, Call, Reply, Who
from nfs4tools.between.rules import Counted
from nfs4tools.between.vocabulary import ANY, Fault, LOSSES, RPC_ERRORS

if TYPE_CHECKING:
    from nfs4tools.between.links import Link


class Outcome(Enum):
    """What came of a fault."""

    # Of its call.
    AGAIN = "comes-again"
    SAME = "same-call"
    ANOTHER = "another-request"
    GOES_ON = "goes-on"
    MOVES = "sequence-id-moves-on"
    STAYS = "sequence-id-stays"
    NEVER = "never-comes-again"
    STANDING = "comes-again-on-its-connection"
    # Of the answer to a call that comes again.
    FIRST = "first-answer"
    HAD = "server-had-it-before"
    STORED = "stored-reply"
    CHANGED = "another-answer"
    ALIKE = "same-answer"
    FORGOTTEN = "forgotten-owner"
    WITHOUT = "without-its-operation"
    IN_ITS_PLACE = "answered-in-the-servers-place"
    # Of its connection.
    NEXT = "next-call"
    ENDED = "connection-ended"
    SILENT = "silence"
    # Of what an injected status calls gone.
    RECOVERS = "recovers"
    USED = "used-again"
    ANOTHER_VERIFIER = "another-verifier"
    MET = "met-by-another-client"


@dataclass(frozen=True)
class OutcomeLine:
    """A line on a fault: what came of it, and whether that is wrong, or counts with --strict."""

    outcome: Outcome
    text: str
    is_wrong: bool = False
    is_strict: bool = False


@dataclass(eq=False)
class Case:
    """A fault that a call meets. It has a number, of 1 or more, once it is done. `index` is that of the operation that
    the rule is about; `owner` is whose request the call has, or None if it has none, or several; `is_moving` is whether
    an answer in the server's place moves its id on, or None if that isn't known."""

    counted: Counted
    call: Call
    place: str
    index: int = 0
    owner: Who | None = None
    number: int = 0
    # The first answer that the server gave, as far as it is known, and the name of the status in its place.
    reply: Reply | None = None
    status: str | None = None
    is_moving: bool | None = None
    has_come: bool = False
    # How often the call was passed on; and when its reply was given, so that it needn't come again.
    passed: int = 0
    given: float | None = None
    # When the call came, and when the fault was done; how that is told, and what came of it.
    came: float = field(default_factory=time.monotonic)
    begun: float = 0
    done: str = ""
    told: list[OutcomeLine] = field(default_factory=list)

    @property
    def fault(self) -> Fault:
        return self.counted.rule.fault

    @property
    def words(self) -> str:
        """The call's operation that the rule is about."""
        return self.call.words(None if self.counted.rule.operation == ANY else self.index)

    @property
    def head(self) -> str:
        return f"{self.counted.rule}: {self.place}, {self.words}"

    @property
    def status_words(self) -> str:
        """The status in the server's place, of a case that has one."""
        return self.status if self.status is None or self.status in RPC_ERRORS else f"NFS4ERR_{self.status}"  # type: ignore

    @property
    def is_given(self) -> bool:
        return self.given is not None

    @property
    def is_loss(self) -> bool:
        return self.fault in LOSSES

    @property
    def since(self) -> str:
        return f"{time.monotonic() - self.begun:.2f} s later"


@dataclass(eq=False)
class Missed:
    """A call whose reply its client didn't get, or may not have read (`is_given`); the connection that it came on; the
    case that it is; and the case behind which its connection ended. Both may be None."""

    call: Call
    link: "Link"
    case: Case | None
    is_given: bool = False
    behind: Case | None = None

    def is_again(self, call: Call, link: "Link") -> bool:
        """Whether a call is this one again. Callbacks are, if they are for the same program at the same address."""
        if self.link.is_callback != link.is_callback or link.is_callback and self.link.target != link.target:
            return False
        if self.is_given:
            return self.call.record == call.record
        return self.call.is_again(call)


def answered_words(reply: Reply) -> str:
    return "answered" if reply.words() == ANSWERED else f"answered {reply.words()}"


def xid_words(xid: int) -> str:
    return f"0x{xid:08x}"


def counted_words(count: int, word: str) -> str:
    return f"{count} {word}{'s' * (count != 1)}"
