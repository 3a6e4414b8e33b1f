"""The server that the quick tests judge, and what comes of their parts."""
import enum
import os
import shlex
import sys
from dataclasses import dataclass, field

from nfs4tools.processes import PROGRAM, TOP

# The command of the program that serves; its others take its place.
SERVE = "serve"


class Kind(enum.Enum):
    """What is known of the server; the value is the word for it."""

    RELEASE = "release"
    PROVED = "proved"
    UNPROVED = "unproved"
    MODEL = "model"
    UNKNOWN = "unknown"


# What is said of a server of each kind, if the caller has no words for it.
WORDS = {
    Kind.RELEASE: "a release",
    Kind.PROVED: "proved",
    Kind.UNPROVED: "not proved",
    Kind.MODEL: "the model, not proved",
    Kind.UNKNOWN: "perhaps not proved",
}


def model_command(name: str) -> list[str]:
    """Starts a script of the model."""
    return [sys.executable, os.path.join(TOP, "tools/model", name)]


@dataclass(frozen=True)
class JudgedServer:
    """A server: the command that starts it, of which the last word is `serve` if it isn't the model's."""

    command: list[str]
    kind: Kind

    @property
    def is_model(self) -> bool:
        return self.kind == Kind.MODEL

    def once(self) -> list[str]:
        """What answers records from standard input."""
        return model_command("once.py") if self.is_model else [*self.command[:-1], "once"]

    def audit(self) -> list[str] | None:
        """The program's own judge of journals, if it is the program."""
        return None if self.is_model else [*self.command[:-1], "audit"]


def server_of(words: str | None, kind: str | None) -> JudgedServer:
    """The server of these words and this kind. If there are no words, it is the program that is built here; or the
    model, if none is built, or the kind says so."""
    if words is not None:
        return JudgedServer(shlex.split(words), Kind(kind or Kind.UNKNOWN))
    if kind == Kind.MODEL.value or not os.path.isfile(PROGRAM):
        return JudgedServer(model_command("serve.py"), Kind.MODEL)
    return JudgedServer([PROGRAM, SERVE], Kind(kind or Kind.UNKNOWN))


@dataclass
class Outcome:
    """What comes of checks: how many there were and passed; of each other the lines that say what is wrong; what else
    there is to say; and the files of the journals that were left, each with what it is called."""

    passed: int = 0
    faults: list[list[str]] = field(default_factory=list)
    notes: list[str] = field(default_factory=list)
    journals: list[tuple[str, str]] = field(default_factory=list)

    def add(self, other: "Outcome") -> None:
        self.passed += other.passed
        self.faults += other.faults
        self.notes += other.notes
        self.journals += other.journals

    def check(self, fault: list[str] | str | None) -> bool:
        """Counts a check, of which these lines say what is wrong, or nothing does: whether it passed."""
        if fault:
            self.faults.append([fault] if isinstance(fault, str) else fault)
        else:
            self.passed += 1
        return not fault
