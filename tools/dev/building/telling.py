"""Lines on standard error by which a build that takes minutes says what it does, at least every five seconds."""
import sys
import threading
import time
from collections.abc import Callable, Iterator
from contextlib import contextmanager

# The seconds between two lines.
PACE = 5


def tell(line: str) -> None:
    print(line, file=sys.stderr, flush=True)


@contextmanager
def telling(what: Callable[[], str]) -> Iterator[None]:
    """While this goes on, a line every few seconds has what is being done, and for how long."""
    begun, ended = time.monotonic(), threading.Event()

    def go_on() -> None:
        tell(what())
        while not ended.wait(PACE):
            tell(f"{what()}, {time.monotonic() - begun:.0f} s")

    teller = threading.Thread(target=go_on, daemon=True)
    teller.start()
    try:
        yield
    finally:
        ended.set()
        teller.join()
