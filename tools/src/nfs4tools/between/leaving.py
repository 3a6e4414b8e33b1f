"""The connections whose callers have ended them. The system knows of an end before the thread that reads the connection
comes to it."""
import select
from typing import TYPE_CHECKING

if TYPE_CHECKING:
    from nfs4tools.between.links import Link

# What the system says of a socket whose peer sends nothing more. Only Linux has it; elsewhere only a reset is seen.
ENDED = getattr(select, "POLLRDHUP", 0)


class Leaving:
    """Callers that have left, on connections whose threads don't know it yet. The relay's lock is held meanwhile."""

    def __init__(self) -> None:
        self.ends = select.poll()
        self.links: "dict[int, Link]" = {}

    def watch(self, link: "Link") -> None:
        """From now on the end of this connection is seen."""
        self.links[link.near.fileno()] = link
        self.ends.register(link.near, ENDED)

    def forget(self, link: "Link") -> None:
        """Its end is known, or isn't waited for."""
        number = link.near.fileno()
        if self.links.get(number) is link:
            del self.links[number]
            self.ends.unregister(number)

    def links_left(self) -> "list[Link]":
        """The connections whose callers have left, though their threads don't know it yet."""
        ended = [self.links[number] for number, _ in self.ends.poll(0)]
        return [link for link in ended if not link.has_ended]
