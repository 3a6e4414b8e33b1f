"""The model on TCP: connections, each answered by a thread, to the end of a run. `serve.py` has the options.

A run ends when so many connections have come and ended; or it goes on, and ends when its stop flag is set. Nothing
waits for longer than a tick without a look at the stop flag. When it is set no connection is taken any more, and those
that are open get the replies to what has come by then, and are closed."""
import os
import re
import socket
import sys
import threading
import time
from collections.abc import Callable
from functools import partial
from typing import Any, TextIO

from nfs4tools import wire
from nfs4tools.model.server import CLIENTS_LIMIT
from nfs4tools.model.state import JOURNAL_LIMIT
from nfs4tools.model.sweeps import Swept
from nfs4tools.model.traces import call_line, entry_line
from nfs4tools.trace.watching import Place, Watcher
from nfs4tools.wire import Fault, records

# The seconds between two looks at the stop flag, and between two sweeps.
TICK, SWEEP = 0.25, 1
# Once the stop flag is set: the seconds in which a read has to bring something, and those in which there are any reads.
AT_ONCE, LATE = 0.001, 1
# The most bytes of a read.
PIECE = 16384
# The connections that wait for a worker: more than any system lets wait, so that its own limit holds.
QUEUE = 65535
# The kind of the line that a thread is refused.
NO_THREAD = "no thread"
# After a connection's end: the bytes that are still read of it, and the seconds, those of a silent peer and all.
LEFT, SILENT, LONGEST = 4 << 20, 0.5, 30


def say(line: str, stream: TextIO | None = None) -> None:
    """Writes a line of the run, on standard error if nothing else is said; nobody need read it."""
    try:
        stream = stream or sys.stderr
        stream.write(line + "\n")
        stream.flush()
    except OSError:
        pass


# Addresses.


def listen(text: str) -> socket.socket:
    """A socket that listens on this address: an IP address or a name, and a port; or a Fault, after its reason."""
    host, colon, port = text.rpartition(":")
    if colon == "":
        raise fault_of_address(text, "invalid socket address")
    if not re.fullmatch("[0-9]+", port) or int(port) > 65535:
        raise fault_of_address(text, "invalid port value")
    try:
        found = socket.getaddrinfo(host.strip("[]") or " ", int(port), type=socket.SOCK_STREAM)
    except (OSError, UnicodeError) as error:
        why = error.strerror if isinstance(error, OSError) else "no name"
        raise fault_of_address(text, f"failed to lookup address information: {why}") from None
    why = "no address"
    for family, _, _, _, address in found:
        try:
            return socket.create_server(address, family=family, backlog=QUEUE)
        except OSError as error:
            why = f"{os.strerror(error.errno or 0)} (os error {error.errno})"
    raise fault_of_address(text, why)


def fault_of_address(text: str, why: str) -> Fault:
    """The fault of a listener's address, whose reason is told by a line."""
    say(f"{text}: {why}")
    return Fault("socket")


def address_text(address: tuple[str, int]) -> str:
    host, port = address[:2]
    return f"[{host}]:{port}" if ":" in host else f"{host}:{port}"


class StopFlag:
    """What ends a run from outside. Setting it takes no lock, so a signal may do that at any time."""

    def __init__(self) -> None:
        self.set_at: float | None = None

    def set(self) -> None:
        self.set_at = self.set_at or time.monotonic()

    def is_set(self, seconds: float = 0) -> bool:
        """Whether it was set, so many seconds ago or more."""
        return self.set_at is not None and time.monotonic() - self.set_at >= seconds


class SharedServer:
    """One server for several connections, which answers one call at a time, and sweeps between two."""

    def __init__(
        self, server: Any, is_traced: bool = False, is_limit_told: bool = False, watcher: Watcher = Watcher()
    ) -> None:
        self.server, self.is_traced, self.watcher = server, is_traced, watcher
        self.turn, self.begun = threading.Lock(), time.monotonic()
        # The moment, if it doesn't move by itself.
        self.ordered_moment: int | None = None
        # What there is no more of when there is so much, each told once.
        limits: list[tuple[str, Callable[[], Any], int]] = [
            ("no client slot is left", lambda: len(server.renewals), CLIENTS_LIMIT),
            ("the journal is full", lambda: server.entries, JOURNAL_LIMIT),
        ]
        self.limits = limits if is_limit_told else []

    def moment(self) -> int:
        return int(time.monotonic() - self.begun) if self.ordered_moment is None else self.ordered_moment

    def answer(self, number: int, record: bytes) -> Any:
        """The reply to a record of the connection of this number, or None."""
        with self.turn:
            self.watcher.see(Place(number, False), False, record)
            self.server.moment = self.moment()
            reply = self.server.reply(record)
            if reply is not None:
                self.watcher.see(Place(number, False), True, reply)
            if self.is_traced:
                say(f"connection {number}, {call_line(self.server, record, reply)}", sys.stdout)
            self.tell_limits()
        return reply

    def sweep(self) -> Swept:
        with self.turn:
            return self.sweep_now()

    def advance(self, seconds: int) -> Swept:
        """Moves the moment on that doesn't move by itself, and sweeps."""
        with self.turn:
            self.ordered_moment = self.moment() + seconds
            return self.sweep_now()

    def sweep_now(self) -> Swept:
        """Sweeps, within a turn."""
        before = len(self.server.recorded)
        swept: Swept = self.server.sweep(self.moment())
        for entry in self.server.recorded[before:]:
            self.tell_entry(entry_line(self.server, entry))
        self.tell_limits()
        return swept

    def path_of(self, client: int) -> str | None:
        """What is known of the callback path of a client; of one that isn't live that is None."""
        with self.turn:
            if not self.server.is_live(client):
                return None
            path: str | None = self.server.live_record(client).path
            return path

    def mark(self, client: int, is_up: bool) -> None:
        """Marks a client's callback path, within a turn; or Unchanged."""
        self.server.mark_path(client, is_up)
        if self.is_traced:
            say(entry_line(self.server, self.server.recorded[-1]), sys.stdout)
        self.tell_limits()

    def tell_entry(self, line: str) -> None:
        """Tells of an entry that no call brought."""
        self.watcher.sweep(line)
        if self.is_traced:
            say(line, sys.stdout)

    def tell_limits(self) -> None:
        for limit in list(self.limits):
            words, count, most = limit
            if count() >= most:
                say(f"{words}: {most} of {most}")
                self.limits.remove(limit)


class Connection:
    """A connection that was taken."""

    def __init__(self, stream: socket.socket, answer: Callable[..., Any], stop_flag: StopFlag) -> None:
        self.socket, self.answer, self.stop_flag, self.rest = stream, answer, stop_flag, bytearray()

    def serve(self) -> None:
        """Answers its records up to its end; or the Fault that ends it."""
        for record in records(self.take):
            reply = self.answer(record)
            if reply is not None:
                self.send(wire.record(reply))

    def take(self, count: int) -> bytes:
        """The next so many bytes, or what there is before the end of the input."""
        while len(self.rest) < count:
            more = self.receive()
            if not more:
                break
            self.rest += more
        taken = bytes(self.rest[:count])
        del self.rest[:count]
        return taken

    def receive(self) -> bytes:
        """What comes next. There is nothing at the end of the input, which is also where the stop flag was set and no
        more has come by then."""
        while not self.stop_flag.is_set(LATE):
            is_over = self.stop_flag.is_set()
            try:
                self.socket.settimeout(AT_ONCE if is_over else TICK)
                return self.socket.recv(PIECE)
            except socket.timeout:
                if is_over:
                    break
            except OSError:
                raise Fault("input not read") from None
        return b""

    def send(self, data: bytes) -> None:
        rest = memoryview(data)
        while rest:
            if self.stop_flag.is_set(LATE):
                raise Fault("output not written")
            try:
                self.socket.settimeout(TICK)
                rest = rest[self.socket.send(rest) :]
            except socket.timeout:
                continue
            except OSError:
                raise Fault("output not written") from None

    def let_go(self) -> None:
        """Reads on until the peer ends it, too, so that the replies on their way reach the peer; but not for ever."""
        left, until = LEFT, time.monotonic() + LONGEST
        try:
            self.socket.shutdown(socket.SHUT_WR)
            self.socket.settimeout(SILENT)
            while left > 0 and time.monotonic() < until and not self.stop_flag.is_set(LATE):
                more = self.socket.recv(PIECE)
                left = left - len(more) if more else 0
        except OSError:
            pass
        self.socket.close()


class Run:
    """Connections, each by a thread: so many in all, or where the run goes on so many at once. `next_server` gives the
    server of the next connection."""

    def __init__(
        self,
        listener: socket.socket,
        next_server: Callable[[], SharedServer],
        stop_flag: StopFlag,
        most: int,
        goes_on: bool,
    ) -> None:
        self.listener, self.next_server, self.stop_flag = listener, next_server, stop_flag
        self.most, self.goes_on = most, goes_on
        # How many connections have come, and how many are there. Who changes that says so.
        self.come, self.there, self.changed = 0, 0, threading.Condition()
        # What was told once, and the faults of the run, by the connections that had them, of which the first is 1.
        self.told: set[str] = set()
        self.faults: dict[int, str] = {}

    def spawn(self, number: int, task: Callable[..., Any], *given: Any) -> bool:
        """Has a thread of its own do it. That there is none is a fault."""
        try:
            threading.Thread(target=task, args=given, daemon=True).start()
            return True
        except RuntimeError:
            self.faults[number] = "no memory"
            return False

    def spawn_patiently(self, number: int, task: Callable[..., Any], *given: Any) -> bool:
        """The same. In a run that goes on a thread that is refused is asked for again, until the run ends. That is no
        fault then, unless it is the first connection's, so that none was served."""
        is_refused = False
        while not self.spawn(number, task, *given):
            if self.goes_on and number > 1:
                del self.faults[number]
            if not self.goes_on or self.stop_flag.is_set():
                return False
            is_refused = True
            running = f"{self.there - 1} of {self.most} run"
            self.tell_once(f"no thread for a worker: {running}; it is tried again each second", NO_THREAD)
            self.wait_for_end(SWEEP)
        if is_refused:
            self.faults.pop(number, None)
        if is_refused and not self.stop_flag.is_set():
            self.tell_once("each connection has a worker again")
        return True

    def wait_for_end(self, seconds: float) -> None:
        """Waits so long, but not beyond the end of the run."""
        until = time.monotonic() + seconds
        while time.monotonic() < until and not self.stop_flag.is_set():
            time.sleep(TICK)

    def begin_sweeps(self, server: SharedServer) -> None:
        """Has a thread sweep about once a second. That there is no thread comes before the faults of connections."""

        def sweep() -> None:
            while True:
                time.sleep(SWEEP)
                server.sweep()

        self.spawn(0, sweep)

    def serve(self) -> str | None:
        """Takes connections, and waits until they have ended: the fault of the run, or None."""
        self.listener.settimeout(TICK)
        while not self.stop_flag.is_set() and (self.goes_on or self.come < self.most):
            if self.is_so(lambda: self.there < self.most):
                self.take_one()
        while not self.is_so(lambda: self.there == 0) and not self.stop_flag.is_set(3 * LATE):
            pass
        # Up to here the system takes connections that nobody answers.
        self.listener.close()
        return self.faults[min(self.faults)] if self.faults else None

    def is_so(self, condition: Callable[[], bool]) -> bool:
        """Whether it is so, or becomes so within a tick."""
        with self.changed:
            return self.changed.wait_for(condition, TICK)

    def take_one(self) -> None:
        """Takes a connection, if one comes within a tick."""
        try:
            stream, address = self.listener.accept()
        except socket.timeout:
            return
        except OSError:
            self.miss()
            return
        self.come += 1
        self.count(1)
        if not self.spawn_patiently(self.come, self.attend, self.come, stream, address):
            stream.close()
            self.count(-1)

    def count(self, change: int) -> None:
        with self.changed:
            self.there += change
            self.changed.notify_all()
        if self.goes_on and self.there == self.most:
            self.tell_once(f"no more connections: {self.most} of {self.most}")

    def miss(self) -> None:
        """Where a connection can't be accepted there is one less to be served; or if the run goes on it waits."""
        if self.goes_on:
            self.tell_once("a connection isn't accepted; it is tried again")
            time.sleep(TICK)
        else:
            self.come += 1
            self.faults[self.come] = "input not read"

    def tell_once(self, line: str, kind: str | None = None) -> None:
        """Says the first line of this kind, or of these words."""
        kind = kind or line
        if kind not in self.told:
            self.told.add(kind)
            say(line)

    def attend(self, number: int, stream: socket.socket, address: tuple[str, int]) -> None:
        server = self.next_server()
        connection, who = Connection(stream, partial(server.answer, number), self.stop_flag), "client"
        try:
            stream.setsockopt(socket.IPPROTO_TCP, socket.TCP_NODELAY, 1)
            server.watcher.begin(Place(number, False), address[:2], stream.getsockname()[:2])
            connection.serve()
            who = "server" if self.stop_flag.is_set() else who
        except Fault as fault:
            who = "server"
            if self.goes_on:
                say(f"connection {number} from {address_text(address)}: {fault}")
            else:
                self.faults[number] = fault.args[0]
        finally:
            server.watcher.end(Place(number, False), who)
            connection.let_go()
            self.count(-1)
