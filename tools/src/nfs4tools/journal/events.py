"""What entries of a journal do about delegations: which they give, and which of them end; and the marks of clients'
paths, by which clients get any. What conflicts with an operation is told as its reason, by `reasons`."""
from collections.abc import Iterator

from nfs4tools.journal.entries import Entry, Path, Revoke, delegation_given
from nfs4tools.journal.history import History
from nfs4tools.journal.words import client_words, place_words, purpose_of
from nfs4tools.model.state_parts import Delegation


class Events:
    """What an entry does to the state of a server that follows a journal. `begin` is called before it does, and `texts`
    afterwards."""

    def __init__(self, server: History) -> None:
        self.server = server
        # The delegations before the entry. If one ends the server gets another list.
        self.held: list[Delegation] = []
        # What the path of a Path's client was, and which entry marked it so.
        self.path: tuple[str | None, int] | None = None

    def begin(self, entry: Entry) -> None:
        self.held = self.server.delegations
        if isinstance(entry, Path):
            is_live, client = self.server.is_live(entry.client), entry.client
            self.path = (self.server.live_record(client).path, self.server.path_marks[client]) if is_live else None

    def texts(self, number: int, entry: Entry) -> Iterator[str]:
        """Of the entry of this number."""
        given = delegation_given(entry)
        if given is not None:
            yield self.gift_words(number, given[1].number)
        for found in self.ended():
            yield self.end_words(found, entry)
        if isinstance(entry, Path) and self.path is not None:
            was, since = self.path
            yield f"the callback path of {client_words(entry.client)} was {was} since {self.server.entry_words(since)}"

    def ended(self) -> list[Delegation]:
        """The delegations that the entry ended."""
        if self.held is self.server.delegations:
            return []
        left = {it.number for it in self.server.delegations}
        return [it for it in self.held if it.number not in left]

    def delegation_words(self, found: Delegation) -> str:
        place = place_words(found.file, self.server.tree)
        return f"state {found.number}, a delegation of {place} for {purpose_of(found.kind)}"

    def gift_words(self, number: int, state: int) -> str:
        found, begun = self.server.given[state], self.server.begun[state]
        assert isinstance(found, Delegation)
        client, delegation = client_words(found.client), self.delegation_words(found)
        if begun == number:
            return f"{client} gets {delegation}"
        return f"{client} gets {delegation} again, which entry {begun} granted"

    def end_words(self, found: Delegation, entry: Entry) -> str:
        """How a delegation ends by the entry."""
        client, delegation = client_words(found.client), self.delegation_words(found)
        ended = f"{client} returns {delegation}"
        if isinstance(entry, Revoke):
            ended = f"{client} loses {delegation}, because it is revoked"
        elif not self.server.is_live(found.client):
            ended = f"{client} loses {delegation}, because the client is removed"
        since = self.server.recalled.get(found.number)
        if since is None:
            return f"{ended}; it wasn't recalled"
        marked, is_up = self.server.recall_marks.get(found.number, (None, True))
        failed = "" if is_up else f", but the recall could not be delivered (entry {marked})"
        return f"{ended}; it was recalled by {self.server.entry_words(since)}, at {found.recalled}{failed}"
