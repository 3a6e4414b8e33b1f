"""The beginning of a journal that grows, kept in a file of its own while a run goes on, which the end makes the
journal."""
import threading
import time

from nfs4tools.journal.entries import entry_bytes
from nfs4tools.journal.journal import journal_bytes
from nfs4tools.model.journal_file import PartFile, fault_of_file, is_special, write_journal
from nfs4tools.model.lines import error_words
from nfs4tools.model.tcp import SharedServer, say
from nfs4tools.wire import u32

# The seconds between two updates, and those after a write that failed.
PERIOD, PAUSE = 0.1, 1.0
# The most entries of a piece.
PIECE = 1000


class Beginning:
    """The file `FILE.part` of the journal FILE: what stands before its entries, and then whole entries. A write that
    fails is told once, and tried again each second from the end of the last whole piece."""

    def __init__(self, file: PartFile, shared: SharedServer) -> None:
        self.file, self.shared, self.lock = file, shared, threading.Lock()
        self.head = journal_bytes(shared.server.journal()._replace(entries=[]))
        # How many entries the file has, where the last whole piece of it ends, and whether the run is over.
        self.count, self.place, self.is_over = 0, 0, False
        # Why the last write failed, and when; and whether that was told.
        self.failed: OSError | None = None
        self.failed_at, self.is_told = 0.0, False
        # A line on what fails here comes behind the first lines of the run.
        self.write_up_to(0)

    def keep(self) -> None:
        """Updates the file again and again, to the end of the run."""
        while not self.is_over:
            time.sleep(PERIOD)
            if self.failed is None or time.monotonic() - self.failed_at >= PAUSE:
                self.update()

    def update(self) -> int | None:
        """Writes what the file hasn't got yet: how many entries it has then; or None, if they can't be written."""
        with self.lock:
            if not self.is_over:
                with self.shared.turn:
                    count = len(self.shared.server.recorded)
                self.write_up_to(count)
                self.tell()
            return self.count if self.failed is None else None

    def write_up_to(self, count: int) -> None:
        """Writes the entries before this number that the file hasn't got yet, piece by piece."""
        self.failed = None
        try:
            self.write(self.head if self.place == 0 else b"", 0)
            while self.count < count:
                entries = self.shared.server.recorded[self.count : min(count, self.count + PIECE)]
                self.write(b"".join(map(entry_bytes, entries)), len(entries))
        except OSError as failed:
            self.failed, self.failed_at = failed, time.monotonic()

    def write(self, piece: bytes, entries: int) -> None:
        """Writes a piece with so many entries behind the last whole one, over what is there of another try."""
        self.file.write_at(self.place, piece)
        self.place, self.count = self.place + len(piece), self.count + entries

    def tell(self) -> None:
        if self.failed is not None and not self.is_told:
            say(f"{self.file.path}: {error_words(self.failed)}; entries are lacking until a write succeeds")
        self.is_told = self.failed is not None

    def stop(self) -> None:
        """Waits for an update that is under way. Others do nothing any more."""
        with self.lock:
            self.is_over = True

    def end(self) -> str | None:
        """Once it is stopped, and nothing changes any more: makes the file the journal; or the fault, behind a line
        with the reason. What is no regular file is written in place."""
        self.write_up_to(len(self.shared.server.recorded))
        if is_special(self.file.journal):
            return self.write_in_place()
        if self.failed is not None:
            return fault_of_file(self.file.journal, error_words(self.failed))
        try:
            self.file.write_at(len(self.head) - 4, u32(self.count))
            self.file.become_journal()
        except OSError as failed:
            return fault_of_file(self.file.journal, error_words(failed))
        return None

    def write_in_place(self) -> str | None:
        fault = write_journal(self.file.journal, self.shared.server.journal())
        if fault is None:
            try:
                self.file.remove()
            except OSError:
                pass
        return fault
