"""What the thread that calls clients back asks of the state that threads share, and tells it."""
from nfs4tools.model.lines import RatedLines
from nfs4tools.model.state_parts import Recall, Unchanged
from nfs4tools.model.tcp import SharedServer
from nfs4tools.wire import Callback


class NoRoom(Exception):
    """The journal is full, so that no path can be marked any more."""


class CallbackSource:
    """The state of a shared server. Each question and each mark has a turn of its own there. `lines` takes the lines on
    callbacks, or is None."""

    def __init__(self, shared: SharedServer, lines: RatedLines | None = None) -> None:
        self.shared, self.lines = shared, lines

    def take_recall(self) -> Recall | None:
        """The next recall, if there is one."""
        with self.shared.turn:
            found: Recall | None = self.shared.server.take_recall()
            return found

    def probe(self, after: int) -> tuple[int, Callback] | None:
        """The live client of the least number above `after` of whose path nothing is known, and its callback."""
        with self.shared.turn:
            number = self.shared.server.probe(after)
            return None if number is None else (number, self.shared.server.live_record(number).callback)

    def is_live(self, client: int) -> bool:
        with self.shared.turn:
            return bool(self.shared.server.is_live(client))

    def has_callback(self, client: int, callback: Callback) -> bool:
        """Whether the client is live, and this is its callback."""
        with self.shared.turn:
            return self.is_called_by(client, callback)

    def is_called_by(self, client: int, callback: Callback) -> bool:
        """The same, within a turn."""
        server = self.shared.server
        return bool(server.is_live(client) and server.live_record(client).callback == callback)

    def has_delegation(self, recall: Recall) -> bool:
        """Whether the delegation is still there, and its client's own."""
        named = recall.stateid
        with self.shared.turn:
            held = self.shared.server.delegations
            return any((it.client, it.number) == (named.client, named.number) for it in held)

    def mark(self, client: int, callback: Callback, fault: str | None) -> None:
        """Marks the client's path as up, or as down for this reason. If the client isn't live, or has another callback,
        nothing is marked. If the journal is full, that is NoRoom."""
        with self.shared.turn:
            if not self.is_called_by(client, callback):
                return
            try:
                self.shared.mark(client, fault is None)
            except Unchanged:
                raise NoRoom from None
        if fault is not None:
            self.tell(client, callback, f" failed: {fault}")

    def tell_late(self, client: int, callback: Callback) -> None:
        """Tells that the client hasn't replied for long."""
        self.tell(client, callback, ": no reply for 5 s yet")

    def tell(self, client: int, callback: Callback, words: str) -> None:
        if self.lines is not None:
            netid, address = shown(callback.netid), shown(callback.address)
            self.lines.tell(f"client {client}: callback to {netid} {address}{words}")


# The bytes that a line escapes by a letter.
LETTERS = {9: "\\t", 10: "\\n", 13: "\\r", 34: '\\"', 39: "\\'", 92: "\\\\"}


def shown(data: bytes) -> str:
    """Bytes that a client gave, as one word that prints."""
    return "".join(map(shown_byte, data)) or '""'


def shown_byte(byte: int) -> str:
    """Blanks, quotation marks, backslashes and what doesn't print are escaped."""
    return LETTERS.get(byte) or (chr(byte) if 33 <= byte <= 126 else f"\\x{byte:02x}")
