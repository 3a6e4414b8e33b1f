"""A trace is written: a line of JSON for each call and reply, at once, so that a run that is killed leaves all lines but
maybe a part of its last."""
import json
import threading
import time
from io import RawIOBase
from typing import Any

from nfs4tools.model.tcp import address_text
from nfs4tools.trace.form import VERSION, fields_of
from nfs4tools.trace.watching import Address, Place, Watcher


class Clock:
    """Microseconds since 1970, which never go back."""

    def __init__(self) -> None:
        self.begun = time.time_ns() - time.monotonic_ns()

    def now(self) -> int:
        return (self.begun + time.monotonic_ns()) // 1000


class File:
    """A file that is written without a buffer. What goes wrong ends the writing, and is kept."""

    def __init__(self, path: str) -> None:
        self.path = path
        self.fault: str | None = None
        self.stream: RawIOBase = open(path, "wb", buffering=0)

    def write(self, data: bytes) -> None:
        rest = memoryview(data)
        try:
            while rest and self.fault is None:
                rest = rest[self.stream.write(rest) or 0 :]
        except OSError as failed:
            self.fault = f"{self.path} not written: {failed.strerror}"


class TraceWriter(Watcher):
    """Writes what passes to a file. `by` is the tool that writes, and `lease` the seconds of the server's lease."""

    def __init__(self, path: str, by: str, lease: int, clock: Clock | None = None) -> None:
        self.file, self.clock, self.lock = File(path), clock or Clock(), threading.Lock()
        self.ended: set[Place] = set()
        self.write("trace", version=VERSION, by=by, lease=lease)

    def write(self, event: str, place: Place | None = None, **fields: Any) -> None:
        """A line. The lock is held, or nobody else has the writer yet."""
        where = {} if place is None else {"connection": place.number, "callback": place.is_callback}
        line = {"time": self.clock.now(), "event": event, **where, **fields}
        self.file.write(json.dumps(line, ensure_ascii=False, separators=(",", ":")).encode() + b"\n")
        self.fault = self.file.fault

    def begin(self, place: Place, client: Address, server: Address) -> None:
        with self.lock:
            self.write("begin", place, client=address_text(client), server=address_text(server))

    def see(self, place: Place, is_reply: bool, body: bytes, fate: str = "") -> None:
        fates = {"fate": fate} if fate else {}
        with self.lock:
            fields = fields_of(body, is_reply, place.is_callback)
            self.write("reply" if is_reply else "call", place, **fates, length=len(body), **fields)

    def end(self, place: Place, who: str) -> None:
        with self.lock:
            if place not in self.ended:
                self.ended.add(place)
                self.write("end", place, by=who)

    def sweep(self, words: str) -> None:
        with self.lock:
            self.write("sweep", words=words)


class Watchers(Watcher):
    """Several watchers, each of which sees all."""

    def __init__(self, *watchers: Watcher) -> None:
        self.watchers = watchers

    @property
    def fault(self) -> str | None:  # type: ignore[override]
        return next((it.fault for it in self.watchers if it.fault is not None), None)

    def begin(self, place: Place, client: Address, server: Address) -> None:
        for it in self.watchers:
            it.begin(place, client, server)

    def see(self, place: Place, is_reply: bool, body: bytes, fate: str = "") -> None:
        for it in self.watchers:
            it.see(place, is_reply, body, fate)

    def see_bytes(self, place: Place, is_from_client: bool, data: bytes) -> None:
        for it in self.watchers:
            it.see_bytes(place, is_from_client, data)

    def end(self, place: Place, who: str) -> None:
        for it in self.watchers:
            it.end(place, who)
