"""The rules of a run: each has a fault, the calls that it is about, and which of these calls meet it."""
import random
from collections.abc import Iterable
from dataclasses import dataclass
from enum import Enum

from nfs4tools.between.vocabulary import ANY, CB_NULL, Fault, NAMED, NULL, OF_CALLBACKS, OF_REPLIES, RPC_ERRORS, may_be
from nfs4tools.journal.words import name_words
from nfs4tools.wire import Status

# The most fragments of a reply, and the most seconds that a rule may say.
FRAGMENTS_LIMIT, SECONDS_LIMIT = 1000, 86400
NUMBER_LIMIT = 10**10
STATUS_NAMES = [it.name for it in Status]


class NoRule(ValueError):
    """This is no rule: the argument says which word of it is wrong, and what would be right."""


class Choice(Enum):
    """How a rule chooses of the calls that it counts."""

    NTH = ""
    EACH = "each "
    CHANCE = "1 in "


@dataclass(frozen=True)
class WhichCalls:
    """The third call, each third, or one of three by chance."""

    number: int
    choice: Choice = Choice.NTH

    def __str__(self) -> str:
        return f"{self.choice.value}{self.number}"


def each(number: int = 1) -> WhichCalls:
    """Each call, or each third."""
    return WhichCalls(number, Choice.EACH)


def one_in(number: int) -> WhichCalls:
    """One of so many calls, by chance."""
    return WhichCalls(number, Choice.CHANCE)


@dataclass(frozen=True)
class OfFile:
    """OPEN and LOOKUP by this name, and operations by a filehandle or a stateid that their replies gave."""

    name: bytes

    def __str__(self) -> str:
        return f" of {name_words(self.name)}"


@dataclass(frozen=True)
class OfConnection:
    """Calls on the connection with this number."""

    number: int

    def __str__(self) -> str:
        return f" of connection {self.number}"


@dataclass(frozen=True)
class OfClient:
    """Calls of the client whose SETCLIENTID has this id."""

    name: bytes

    def __str__(self) -> str:
        return f" of client {name_words(self.name)}"


@dataclass(frozen=True)
class OfOwner:
    """Operations of the open owner or lock owner with this name."""

    name: bytes

    def __str__(self) -> str:
        return f" of owner {name_words(self.name)}"


Aim = OfFile | OfConnection | OfClient | OfOwner


@dataclass(frozen=True, eq=False)
class Rule:
    """A fault, and which calls meet it: 3 is the third. `value` is the number of fragments of SPLIT, the seconds of HOLD and AWAY, or
    the status of ANSWER, such as "DELAY". With `status` the calls are counted whose reply has it."""

    fault: Fault
    operation: str
    which: WhichCalls | int = WhichCalls(1)
    value: int | float | str | None = None
    aim: Aim | None = None
    status: str | None = None
    # As it was written.
    text: str = ""

    def __post_init__(self) -> None:
        if self.operation not in NAMED:
            raise NoRule(f'"{self.operation}" is no operation')
        if self.status is not None and self.status not in STATUS_NAMES:
            raise NoRule(f'"{self.status}" is no status of RFC 7530')
        self.check_value()
        if not 0 < self.chosen.number < NUMBER_LIMIT:
            raise NoRule(f'"{self.which}" doesn\'t say which calls; 3, "each", "each 10" or "1 in 10" does')
        if self.status is not None and self.fault not in OF_REPLIES:
            can = ", ".join(it.value for it in OF_REPLIES)
            raise NoRule(f'"with status" is of a fault of replies ({can}), and {self.fault.value} is none')
        if self.status is not None and self.operation in (NULL, CB_NULL):
            raise NoRule(f"the reply to {self.operation} has no status")

    def check_value(self) -> None:
        """Refuses a value that doesn't fit the fault."""
        value, fault = self.value, self.fault
        if fault is Fault.SPLIT and not (isinstance(value, int) and 0 < value <= FRAGMENTS_LIMIT):
            raise NoRule(f'"{value}" is no number of fragments, which is 1 to {FRAGMENTS_LIMIT}')
        if fault in (Fault.HOLD, Fault.AWAY):
            if not (isinstance(value, (int, float)) and 0 < value <= SECONDS_LIMIT):
                raise NoRule(f'"{value}" is no number of seconds, which is above 0 and up to {SECONDS_LIMIT}')
        elif fault is Fault.ANSWER and not self.is_error_of_rpc:
            self.check_status(str(value))
        elif fault not in (Fault.SPLIT, Fault.ANSWER) and value is not None:
            raise NoRule(f"{fault.value} has no value, and {value} is given")

    def check_status(self, status: str) -> None:
        """Refuses a status that the operation may not have."""
        if self.operation in (ANY, NULL, CB_NULL):
            raise NoRule(f"{self.operation} can be answered an error of RPC alone, such as SYSTEM_ERR; not {status}")
        if not may_be(self.operation, status):
            table = "13.3" if self.is_of_callbacks else "13.2"
            raise NoRule(f"{self.operation} isn't answered NFS4ERR_{status} (RFC 7530, section {table})")

    def __eq__(self, other: object) -> bool:
        return isinstance(other, Rule) and self.parts == other.parts

    def __hash__(self) -> int:
        return hash(self.parts)

    @property
    def parts(self) -> tuple[object, ...]:
        """What it is, however it was written."""
        return self.fault, self.operation, self.chosen, self.value, self.aim, self.status

    def __str__(self) -> str:
        value = f"{self.value:g}" if isinstance(self.value, float) else self.value
        words = [self.fault.value, *([] if value is None else [str(value)]), self.operation, str(self.which)]
        status = f" with status {self.status}" if self.status else ""
        return self.text or " ".join(words) + (str(self.aim) if self.aim else "") + status

    @property
    def chosen(self) -> WhichCalls:
        """Which calls meet it."""
        return WhichCalls(self.which) if isinstance(self.which, int) else self.which

    @property
    def is_error_of_rpc(self) -> bool:
        return self.fault is Fault.ANSWER and self.value in RPC_ERRORS

    @property
    def is_of_callbacks(self) -> bool:
        return self.operation in OF_CALLBACKS


class Counted:
    """A rule in a run. It is due from the call that is to meet it on until one does; with each 10 and 1 in 10 it is so
    again and again."""

    def __init__(self, rule: Rule, seed: int) -> None:
        self.rule, self.count, self.met, self.is_due = rule, 0, 0, False
        self.chance = random.Random(f"{seed} {rule}")

    def take(self) -> None:
        """One more call that it is about."""
        self.count += 1
        self.is_due |= self.is_chosen()

    def is_chosen(self) -> bool:
        """Whether the call that was counted last is one of those that meet the rule."""
        which = self.rule.chosen
        if which.choice is Choice.CHANCE:
            return self.chance.randrange(which.number) == 0
        return self.count % which.number == 0 if which.choice is Choice.EACH else self.count == which.number


def counted(rules: Iterable[Rule], seed: int) -> list[Counted]:
    return [Counted(rule, seed) for rule in rules]
