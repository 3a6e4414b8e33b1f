"""A listener for the callbacks of a server (RFC 7530, section 16), which answers them as a test chooses, and keeps what
came."""
from collections.abc import Callable
from typing import Any, NamedTuple

from nfs4tools.callbacks.listener import Heard, Listener, RecallArguments, accept, callback_at
from nfs4tools.client.replies import ClientError
from nfs4tools.processes import REPLY_PATIENCE
from nfs4tools.wire import Principal, Stateid

# What is done with a call that came: `nfs4tools.callbacks.listener` has several.
Behaviour = Callable[[Heard], Any]


class NoCallback(ClientError):
    """The callback didn't come in time."""


class Recall(NamedTuple):
    """A CB_RECALL: which delegation the server wants, and when it came, by `time.monotonic`."""

    stateid: Stateid
    filehandle: bytes
    truncate: bool
    ident: int
    principal: Principal
    moment: float


class CallbackListener:
    """Listens at an address, of which port 0 is any that is free. It answers CB_NULL and CB_RECALL by one behaviour
    each, which may be changed while it listens."""

    def __init__(
        self,
        host: str = "127.0.0.1",
        port: int = 0,
        on_null: Behaviour = accept,
        on_recall: Behaviour = accept,
        ident: int = 1,
    ) -> None:
        self.on_null, self.on_recall = on_null, on_recall
        self.listener = Listener(self.answer, (host, port))
        self.callback = callback_at(self.listener.address, ident)
        # How many recalls `wait_for_recall` has given, and how many calls of CB_NULL `wait_for_null`.
        self.recalls_given = self.nulls_given = 0

    def __enter__(self) -> "CallbackListener":
        return self

    def __exit__(self, *_: Any) -> None:
        self.listener.__exit__()

    @property
    def address(self) -> tuple[str, int]:
        host, port = self.listener.address[:2]
        return host, port

    def answer(self, heard: Heard) -> None:
        """What is no callback has no answer; it is in `heard`."""
        if heard.call is not None:
            (self.on_null if heard.call.recall is None else self.on_recall)(heard)

    # What came.

    @property
    def heard(self) -> list[Heard]:
        """All records that came, in their order."""
        with self.listener.changed:
            return list(self.listener.heard)

    @property
    def nulls(self) -> list[Heard]:
        """The calls of CB_NULL."""
        return [it for it in self.heard if it.call is not None and it.call.recall is None]

    @property
    def recalls(self) -> list[Recall]:
        return [recall_of(it, it.call.principal, it.call.recall) for it in self.heard if it.call and it.call.recall]

    def wait_for_null(self, timeout: float = REPLY_PATIENCE) -> Heard:
        """The next CB_NULL that this method hasn't given yet; or NoCallback."""
        self.wait_until(lambda: len(self.nulls) > self.nulls_given, timeout, "CB_NULL")
        self.nulls_given += 1
        return self.nulls[self.nulls_given - 1]

    def wait_for_recall(self, timeout: float = REPLY_PATIENCE) -> Recall:
        """The next CB_RECALL that this method hasn't given yet; or NoCallback."""
        self.wait_until(lambda: len(self.recalls) > self.recalls_given, timeout, "CB_RECALL")
        self.recalls_given += 1
        return self.recalls[self.recalls_given - 1]

    def wait_until(self, is_there: Callable[[], bool], timeout: float, what: str) -> None:
        with self.listener.changed:
            if not self.listener.changed.wait_for(is_there, timeout):
                came = len(self.listener.heard)
                raise NoCallback(f"no {what} came in {timeout} s at port {self.address[1]}; other records: {came}")


def recall_of(heard: Heard, principal: Principal, recall: RecallArguments) -> Recall:
    return Recall(recall.stateid, recall.filehandle, bool(recall.truncate), recall.ident, principal, heard.moment)
