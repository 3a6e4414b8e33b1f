"""Lines of a run on standard error: those that may be many, and the words of errors."""
import errno
import threading
import time

from nfs4tools.model.tcp import say

# How many lines of a kind are told in a second.
MOST_LINES = 10


def error_words(failed: OSError) -> str:
    """What the system says of an error, as the program has it; and how a limit is lifted that is the reason."""
    if failed.errno == errno.EFBIG:
        return "File too large; `ulimit -f unlimited` lifts the limit"
    return f"{failed.strerror} (os error {failed.errno})"


class RatedLines:
    """Lines of a kind. So many of them are told each second, and then how many were left out."""

    def __init__(self, kind: str) -> None:
        self.kind, self.lock = kind, threading.Lock()
        self.second, self.told, self.left_out = 0, 0, 0

    def tell(self, line: str) -> None:
        with self.lock:
            self.turn()
            if self.told < MOST_LINES:
                self.told += 1
                say(line)
            else:
                self.left_out += 1

    def turn(self) -> None:
        """Begins another second, if the clock has."""
        second = int(time.monotonic())
        if second > self.second:
            self.second, self.told = second, 0
            self.tell_left_out()

    def tell_left_out(self) -> None:
        if self.left_out:
            say(f"{self.kind}: {self.left_out} more lines left out")
            self.left_out = 0

    def look(self) -> None:
        """Tells what was left out in the second before, if that is over."""
        with self.lock:
            self.turn()

    def end(self) -> None:
        """Tells what was left out up to now."""
        with self.lock:
            self.tell_left_out()
