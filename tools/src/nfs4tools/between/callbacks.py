"""Callbacks that come through the relay: the address of a client in SETCLIENTID is replaced by the relay's."""
import socket
from typing import TYPE_CHECKING

from nfs4tools.between.calls import Call, Change
from nfs4tools.callbacks.listener import universal_address
from nfs4tools.trace.watching import Address
from nfs4tools.wire import opaque

if TYPE_CHECKING:
    from nfs4tools.between.links import Link
    from nfs4tools.between.relay import Between


class Callbacks:
    """The addresses that stand for those of clients, if callbacks come through the relay."""

    def __init__(self, between: "Between", is_called: bool) -> None:
        self.between, self.is_called = between, is_called
        self.addresses: dict[Address, Address] = {}

    def changes(self, call: Call, link: "Link") -> list[Change]:
        """The change of a SETCLIENTID by which the server calls the relay back."""
        found = call.callback() if self.is_called else None
        if found is None or found.target is None:
            return []
        here = self.address_for(found.target, link.far.getsockname()[0])
        if here is None:
            return []
        names = self.between.tale.names.called
        names.setdefault((found.target, found.program), set()).add(found.client)
        return [(found.begin, found.end, opaque(universal_address(here).encode()))]

    def address_for(self, target: Address, host: str) -> Address | None:
        """The address that stands for this one; it is at the host that the server sees. None if there can be none."""
        if ":" in host:
            return None
        if target not in self.addresses:
            try:
                listener = socket.create_server((host, 0), backlog=128)
            except OSError:
                return None
            self.addresses[target] = listener.getsockname()
            self.between.listen(listener, target, True)
        return self.addresses[target]
