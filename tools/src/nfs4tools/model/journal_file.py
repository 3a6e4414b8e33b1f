"""How a run writes the file of its journal, and `FILE.part`, which one run at a time holds while it goes on."""
import fcntl
import os
import stat
from itertools import count

from nfs4tools.journal.journal import Journal, journal_bytes
from nfs4tools.model.lines import error_words
from nfs4tools.model.tcp import say
from nfs4tools.wire import Fault

NOT_WRITTEN = "file not written"


def write_journal(path: str, journal: Journal) -> str | None:
    """Writes the journal to this file, in place of what is there: the fault, behind a line with the reason, or None. A
    FIFO has to have a reader."""
    try:
        descriptor = os.open(path, os.O_WRONLY | os.O_CREAT | os.O_TRUNC | os.O_NONBLOCK, 0o666)
        os.set_blocking(descriptor, True)
        with open(descriptor, "wb") as file:
            file.write(journal_bytes(journal))
    except OSError as failed:
        return fault_of_file(path, error_words(failed))
    return None


def fault_of_file(path: str, why: str) -> str:
    """The fault of a file that can't be written, whose reason is told by a line."""
    say(f"{path}: {why}")
    return NOT_WRITTEN


def is_special(path: str) -> bool:
    """Whether there is something of this name that isn't a regular file: it is written in place."""
    try:
        return not stat.S_ISREG(os.lstat(path).st_mode)
    except OSError:
        return False


def part_of(journal: str) -> "PartFile | None":
    """The file `FILE.part` of this journal; or a Fault behind a line with the reason. If the journal is written in place
    there may be none, which is only told."""
    if os.path.isdir(journal):
        raise Fault(fault_of_file(journal, "Is a directory (os error 21)"))
    part = f"{journal}.part"
    try:
        return PartFile(journal)
    except BlockingIOError:
        raise Fault(fault_of_file(part, "another run keeps its journal there")) from None
    except OSError as failed:
        if not is_special(journal):
            raise Fault(fault_of_file(part, error_words(failed))) from None
        say(f"{part}: {error_words(failed)}; the run goes on without it")
    return None


class PartFile:
    """The file `FILE.part` of the journal FILE. It is new and empty, and this run holds it until its process ends."""

    def __init__(self, journal: str) -> None:
        self.journal, self.path = journal, f"{journal}.part"
        self.descriptor = held(self.path)

    def write_at(self, place: int, data: bytes) -> None:
        rest = memoryview(data)
        while rest:
            written = os.pwrite(self.descriptor, rest, place)
            rest, place = rest[written:], place + written

    def become_journal(self) -> None:
        os.rename(self.path, self.journal)

    def remove(self) -> None:
        os.remove(self.path)


def held(path: str) -> int:
    """A descriptor of the file of this path, which is empty, and locked for this process. What a killed run left there
    gets another name. If another run holds the file that is a BlockingIOError."""
    while True:
        descriptor = os.open(path, os.O_RDWR | os.O_CREAT, 0o666)
        try:
            fcntl.flock(descriptor, fcntl.LOCK_EX | fcntl.LOCK_NB)
            # Up to the lock the file may have become the journal of another run.
            is_here = os.path.exists(path) and os.path.samestat(os.stat(path), os.fstat(descriptor))
            if is_here and os.fstat(descriptor).st_size == 0:
                return descriptor
            if is_here:
                set_aside(path)
        except OSError:
            os.close(descriptor)
            raise
        os.close(descriptor)


def set_aside(path: str) -> None:
    """Gives the file the name `PATH.old`. What had that name gets `PATH.old.2`, and so on: nothing is lost."""
    free = next(number for number in count(1) if not os.path.lexists(old_name(path, number)))
    for number in range(free, 1, -1):
        os.rename(old_name(path, number - 1), old_name(path, number))
    os.rename(path, old_name(path, 1))


def old_name(path: str, number: int) -> str:
    return f"{path}.old" if number == 1 else f"{path}.old.{number}"
