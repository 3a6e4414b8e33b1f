"""The thread of the model that calls clients back: CB_RECALL for delegations, and CB_NULL if nothing is known of a
client's callback path (RFC 7530, sections 10.4.4 and 10.4.7). The rules are those of docs/RULES.md, Callbacks.

One callback of a client is under way at a time. Its recalls go in their order, and before a CB_NULL."""
import selectors
import time
from collections import deque
from dataclasses import dataclass, field

from nfs4tools.model.callback_calls import Errand, Exchange, Outcome, SocketRefused, Unreachable
from nfs4tools.model.callback_source import CallbackSource, NoRoom
from nfs4tools.trace.watching import Place, Watcher
from nfs4tools.wire import Callback

# The seconds that a look waits for a connection at most, and those between two rounds.
LOOK = 0.1
# How many callbacks are under way at most, and how many paths a round probes.
UNDER_WAY, PROBES = 512, 64
# The rounds for which a recall goes on if its client has another callback, and the seconds after which a reply is late.
ROUNDS_LEFT, LATE_REPLY = 10, 5


@dataclass
class Line:
    """The callbacks to a client: the one under way, and those that wait."""

    waiting: deque[Errand] = field(default_factory=deque)
    current: Exchange | None = None

    def push(self, errand: Errand) -> None:
        """Puts it at the end. A CB_NULL that waits is left out then: a recall tells as much of the path."""
        if self.waiting and self.waiting[0].recall is None:
            self.waiting.popleft()
        self.waiting.append(errand)


class Caller:
    """Calls clients back in looks, each of which does what can be done at once."""

    def __init__(self, source: CallbackSource, watcher: Watcher = Watcher()) -> None:
        self.source, self.watcher, self.selector = source, watcher, selectors.DefaultSelector()
        self.lines: dict[int, Line] = {}
        # The xid of the next callback, which is also the number of its connection in a trace.
        self.xid = 1
        # The clients that were called and probed last: the next ones are those behind them.
        self.begun = self.probed = 0
        self.last_round = 0.0
        # Whether paths can still be marked; and whether the system has refused no socket since the last round.
        self.can_mark = self.can_begin = True

    def look(self, seconds: float = LOOK) -> None:
        """Waits until a connection is ready, but no longer than this, and goes on with the callbacks."""
        for key, _ in self.selector.select(seconds):
            self.advance(key.data)
        while (recall := self.source.take_recall()) is not None:
            self.line_of(recall.stateid.client).push(Errand(recall.callback, recall))
        if time.monotonic() - self.last_round >= LOOK:
            self.last_round = time.monotonic()
            self.check_all()
            self.probe_all()
            self.can_begin = True
        self.begin_all()
        self.lines = {client: line for client, line in self.lines.items() if line.waiting or line.current}

    def line_of(self, client: int) -> Line:
        return self.lines.setdefault(client, Line())

    def in_turn(self, after: int) -> list[int]:
        """The clients that have lines, by their numbers, first those behind this one."""
        return sorted(self.lines, key=lambda client: (client <= after, client))

    # Callbacks that begin.

    def begin_all(self) -> None:
        """Begins the first callback of each client that waits, as far as there may be more under way."""
        room = UNDER_WAY - sum(line.current is not None for line in self.lines.values())
        for client in self.in_turn(self.begun):
            if not self.can_begin:
                return
            line = self.lines[client]
            while line.current is None and line.waiting:
                if room <= 0 and not self.give_place():
                    return
                self.begun = client
                if not self.begin(client, line):
                    return
            room = UNDER_WAY - sum(line.current is not None for line in self.lines.values())

    def begin(self, client: int, line: Line) -> bool:
        """Begins the first callback that waits, if it is still due. Returns whether the system refuses no socket."""
        errand = line.waiting[0]
        if self.is_due(client, errand):
            try:
                place = Place(self.xid, True)
                line.current = Exchange(client, errand, self.xid, self.last_round, self.watcher, place)
            except SocketRefused:
                self.can_begin = False
                return False
            except Unreachable as why:
                self.settle(client, errand, Outcome(why.args[0]))
            else:
                self.xid = (self.xid + 1) % 2**32
                self.selector.register(line.current.stream, line.current.events(), client)
        line.waiting.popleft()
        return True

    def give_place(self) -> bool:
        """Cancels a callback whose client isn't live any more. Returns whether there was one."""
        for client, line in self.lines.items():
            if line.current is not None and not self.source.is_live(client):
                self.end(line)
                return True
        return False

    def is_due(self, client: int, errand: Errand) -> bool:
        """Whether there is still reason for the callback. A recall goes to the callback that it names, also if its
        client has another one by now."""
        if errand.recall is not None:
            return self.source.has_delegation(errand.recall)
        return self.source.has_callback(client, errand.callback)

    # Callbacks that are under way.

    def advance(self, client: int) -> None:
        """Goes on with the client's callback. If it is over, the client's path is marked."""
        line = self.lines[client]
        if line.current is None:
            return
        outcome, errand = line.current.advance(), line.current.errand
        if outcome is None:
            self.selector.modify(line.current.stream, line.current.events(), client)
            return
        self.end(line)
        if self.is_due(client, errand):
            self.settle(client, errand, outcome)

    def end(self, line: Line) -> None:
        """Ends the connection of the callback that is under way."""
        if line.current is not None:
            self.selector.unregister(line.current.stream)
            line.current.close()
            line.current = None

    def settle(self, client: int, errand: Errand, outcome: Outcome) -> None:
        """Marks the client's path by what came of a callback."""
        try:
            self.source.mark(client, errand.callback, outcome.fault)
        except NoRoom:
            self.can_mark = False

    def check_all(self) -> None:
        """Cancels the callbacks that aren't due any more, and tells which replies are late."""
        for client, line in self.lines.items():
            if line.current is not None and not self.may_go_on(client, line.current):
                self.end(line)
            if line.current is not None:
                self.tell_late(client, line.current)

    def may_go_on(self, client: int, current: Exchange) -> bool:
        """Whether the callback goes on. If the client has another callback, a recall does for some rounds."""
        if not self.is_due(client, current.errand):
            return False
        if not self.source.has_callback(client, current.errand.callback):
            current.replaced += 1
        return current.replaced <= ROUNDS_LEFT

    def tell_late(self, client: int, current: Exchange) -> None:
        if not current.is_late_told and self.last_round - current.begun >= LATE_REPLY:
            current.is_late_told = True
            self.source.tell_late(client, current.errand.callback)

    # Paths of which nothing is known.

    def probe_all(self) -> None:
        """Has CB_NULL sent to clients whose path is unknown, if no other callback to them waits or is under way."""
        for _ in range(PROBES if self.can_mark else 0):
            found: tuple[int, Callback] | None = self.source.probe(self.probed)
            if found is None:
                self.probed = 0
                return
            self.probed, callback = found
            if self.probed not in self.lines:
                self.line_of(self.probed).push(Errand(callback))
