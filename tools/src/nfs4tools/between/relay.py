"""All connections through a relay: each that a caller makes has one of its own to who answers."""
import select
import socket
import threading
import time
from collections.abc import Sequence

from nfs4tools.between.callbacks import Callbacks
from nfs4tools.between.calls import Call
from nfs4tools.between.leaving import Leaving
from nfs4tools.between.links import Link, shut, start
from nfs4tools.between.passing import Passing
from nfs4tools.between.rules import Rule
from nfs4tools.between.tale import Print, Tale, print_line
from nfs4tools.model.tcp import TICK, address_text
from nfs4tools.trace.watching import Address, Place, Watcher

CONNECTIONS_LIMIT = 256
# The seconds in which a server has to take a connection.
PATIENCE = 10
# The most seconds in which connections come to their end when the run does, those between two looks at them, and the
# most in which an end that has come is told before a call of another connection.
SETTLING, GLANCE, LEAVING = 1, 0.01, 5


class Between:
    """All connections, and what is told of them."""

    def __init__(
        self,
        rules: Sequence[Rule],
        lease: int = 90,
        watcher: Watcher | None = None,
        seed: int = 0,
        print_it: Print = print_line,
    ) -> None:
        """By these rules, before a server with this lease. A watcher also sees the callbacks."""
        self.tale, self.lock, self.away_until = Tale(rules, lease, seed, print_it), threading.RLock(), 0.0
        self.watcher = watcher or Watcher()
        self.callbacks = Callbacks(self, watcher is not None or any(rule.is_of_callbacks for rule in rules))
        self.live: set[Link] = set()
        self.leaving = Leaving()
        self.listeners: list[socket.socket] = []
        self.is_closed = False
        # How many connections there are, with those that begin; how many were taken and haven't begun, or been closed; and
        # how many links there were, by whether of callbacks.
        self.there, self.beginning = 0, 0
        self.numbers = {False: 0, True: 0}

    def tell(self, line: str) -> None:
        """Tells what is of no fault."""
        with self.lock:
            self.tale.tell_other(line)

    def end(self) -> None:
        """Tells the end."""
        with self.lock:
            self.tale.tell_end(list(self.live))

    def close(self) -> None:
        """Takes no connection any more, and ends those that there are."""
        self.is_closed = True
        for listener in self.listeners:
            shut(listener, socket.SHUT_RDWR)
            listener.close()
        for link in list(self.live):
            link.end()

    def settle(self, listener: socket.socket, is_left: bool) -> None:
        """Waits until each connection that has come has begun, and each end of a caller is known; and where callers
        have left, for a second at most, until each has ended."""
        begun, quiet = time.monotonic(), 0
        while quiet < 2:
            time.sleep(GLANCE)
            is_coming = bool(select.select([listener], [], [], 0)[0])
            with self.lock:
                is_coming = is_coming or self.beginning > 0 or bool(self.leaving.links_left())
                is_busy = is_left and any(not link.is_callback for link in self.live)
            if time.monotonic() - begun > (PATIENCE if is_coming else SETTLING):
                return
            quiet = 0 if is_coming or is_busy else quiet + 1

    def end_left(self, call: Call) -> None:
        """Ends the connections on which this call is under way, and whose caller sends nothing more there."""
        for link in list(self.live):
            if link.is_left and any(link.is_standing(it.call, call) for it in link.asked):
                link.end()

    def wait_for_ends(self, link: Link) -> None:
        """Waits until each end of another connection that came before a call of this one is told. A connection whose
        own caller has left waits for none, so that no two wait for each other."""
        until = time.monotonic() + LEAVING
        while True:
            with self.lock:
                left = self.leaving.links_left()
                if not left or link in left:
                    return
                if time.monotonic() > until:
                    for stuck in left:
                        self.leaving.forget(stuck)
                    return
            time.sleep(GLANCE / 10)

    # Connections.

    def listen(self, listener: socket.socket, target: Address, is_callback: bool = False) -> None:
        """Takes connections, from now on, each of which belongs to one to the target."""
        self.listeners.append(listener)
        ready = select.poll()
        ready.register(listener, select.POLLIN)

        def take_all() -> None:
            while not self.is_closed:
                try:
                    ready.poll()
                    self.take(listener, target, is_callback)
                except (OSError, RuntimeError):
                    # There are no more files or threads; or it is closed.
                    time.sleep(0 if self.is_closed else TICK)

        start(take_all)

    def take(self, listener: socket.socket, target: Address, is_callback: bool) -> None:
        """Takes the connection that waits. Under the lock it either waits or is beginning, so that `settle` sees it."""
        with self.lock:
            near, caller = listener.accept()
            self.beginning += 1
        try:
            start(self.attend, near, caller, target, is_callback)
        except RuntimeError:
            self.note_begun()
            raise

    def note_begun(self) -> None:
        """A connection that was taken has begun, or been closed."""
        with self.lock:
            self.beginning -= 1

    def attend(self, near: socket.socket, caller: Address, target: Address, is_callback: bool) -> None:
        """Begins a link for a connection that was taken, unless the plan or the number of links forbids it."""
        try:
            far = self.connect(target) if self.take_place() else None
            link = None if far is None else self.join(near, far, target, is_callback)
            if link is None:
                near.close()
                return
            client, here = target if is_callback else caller, link.of_client.getsockname()
            self.watcher.begin(link.spot, client[:2], here[:2])
            link.begin()
        finally:
            self.note_begun()

    def take_place(self) -> bool:
        """Whether there may be one more connection, which has its place then."""
        with self.lock:
            if time.monotonic() < self.away_until:
                return False
            if self.there >= CONNECTIONS_LIMIT:
                self.tell(f"a connection is closed, because {CONNECTIONS_LIMIT} are open")
                return False
            self.there += 1
            return True

    def give_place(self, link: Link | None = None) -> None:
        """A connection has ended, or didn't begin."""
        with self.lock:
            if link is not None:
                self.live.discard(link)
            self.there -= 1

    def connect(self, target: Address) -> socket.socket | None:
        """A connection to the target, or None."""
        try:
            far = socket.create_connection(target, timeout=PATIENCE)
        except OSError:
            self.tell(f"a connection is closed, because {address_text(target)} can't be reached")
            self.give_place()
            return None
        far.settimeout(None)
        return far

    def join(self, near: socket.socket, far: socket.socket, target: Address, is_callback: bool) -> Link | None:
        """A link of the two, unless the plan forbids it by now."""
        for stream in (near, far):
            stream.setsockopt(socket.IPPROTO_TCP, socket.TCP_NODELAY, 1)
        with self.lock:
            if time.monotonic() < self.away_until:
                far.close()
                self.give_place()
                return None
            self.numbers[is_callback] += 1
            self.tale.connections += 1
            link = Passing(self, near, far, Place(self.numbers[is_callback], is_callback), target)
            self.live.add(link)
            if not is_callback:
                self.leaving.watch(link)
        return link
