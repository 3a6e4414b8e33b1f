"""Why an operation on the bytes or attributes of a file, a listing, or DELEGRETURN is refused."""
from collections.abc import Sequence

from nfs4tools.explain.common import Reasons, reason
from nfs4tools.explain.kinds import (
    AccessFacts,
    AttributeFacts,
    Kind,
    ListingFacts,
    Nothing,
    RoomFacts,
    SizeFacts,
    ValueFacts,
)
from nfs4tools.explain.of_locks import OfLocks
from nfs4tools.model.attributes import FIRST_COOKIE, FIXED, SET_ONLY, SIZE, WRITABLE, numbers_of
from nfs4tools.model.operations.readdir import LISTING_ENDS, LISTING_LIMIT, NO_VERIFIER, room_of_entries
from nfs4tools.model.state_parts import Delegation, KeptState, LockState, OpenState, Refusal, is_special
from nfs4tools.model.tree import TEXT_LIMIT
from nfs4tools.wire import (
    BOTH,
    Delegreturn,
    Getattr,
    OPEN_DELEGATE_WRITE,
    READ,
    Read,
    Readdir,
    Setattr,
    Stateid,
    Status,
    WRITE,
    Write,
)


class OfTransfers(OfLocks):
    """The causes that lie in files."""

    def of_read(self, arguments: Read, file: int) -> Reasons:
        return self.of_access(arguments.stateid, file, READ, "READ")

    def of_write(self, arguments: Write, file: int) -> Reasons:
        yield from self.of_access(arguments.stateid, file, WRITE, "WRITE")
        if arguments.offset + len(arguments.data) > TEXT_LIMIT:
            yield reason(Kind.TOO_LARGE, Status.FBIG, "WRITE", SizeFacts(arguments.offset, len(arguments.data)))

    def of_access(self, stateid: Stateid, file: int, wanted: int, heading: str) -> Reasons:
        """What is wrong with a stateid by which a file is to be read, or written."""
        yield from self.of_filehandle(file)
        yield from self.of_node(file, Status.ISDIR, heading)
        if is_special(stateid):
            yield from self.of_access_of_nobody(file, wanted, heading)
            return
        yield from self.of_stateid_client(stateid)
        yield from self.of_stateid(stateid, (OpenState, LockState, Delegation), file)
        found = self.server.looked_up(stateid)
        assert found is not None
        yield from self.of_own_access(found, wanted, heading)

    def of_access_of_nobody(self, file: int, wanted: int, heading: str) -> Reasons:
        opens = [it for it in self.server.opens_of(file) if it.share()[1] & wanted]
        yield from self.of_other_opens(opens, (wanted, 0), heading)
        held = [it for it in self.server.delegations if it.file == file]
        yield from self.of_delegations(held, (wanted, 0), is_special=True)

    def of_own_access(self, found: KeptState, wanted: int, heading: str) -> Reasons:
        """A state that doesn't give this access."""
        given: OpenState | Delegation = found.open if isinstance(found, LockState) else found
        if isinstance(given, Delegation):
            access = BOTH if given.kind == OPEN_DELEGATE_WRITE else READ
        else:
            access = given.share()[0]
        if access & wanted == 0:
            facts = AccessFacts(heading, wanted, access, given.number, found.number)
            yield reason(Kind.ACCESS_LACKING, Status.OPENMODE, heading, facts, (), [given.number])

    def of_delegreturn(self, arguments: Delegreturn, file: int) -> Reasons:
        yield from self.of_filehandle(file)
        yield from self.of_stateid_client(arguments.stateid)
        yield from self.of_stateid(arguments.stateid, Delegation, file)

    # Attributes, and listings.

    def of_getattr(self, arguments: Getattr, filehandle: int) -> Reasons:
        yield from self.of_filehandle(filehandle)
        yield from self.of_set_only(arguments.mask, "GETATTR")

    def of_set_only(self, mask: Sequence[int], heading: str) -> Reasons:
        asked = numbers_of(mask) & SET_ONLY
        if asked and self.server.is_for_clients():
            facts = AttributeFacts(tuple(sorted(asked)))
            yield reason(Kind.ATTRIBUTES_TO_SET_ONLY, Status.INVAL, heading, facts)

    def of_readdir(self, arguments: Readdir, directory: int) -> Reasons:
        yield from self.of_filehandle(directory)
        yield from self.of_node(directory, Status.NOTDIR, "READDIR")
        yield from self.of_set_only(arguments.mask, "READDIR")
        children, cookie = self.server.tree.children(directory), arguments.cookie
        facts = ListingFacts(directory, cookie, arguments.verifier)
        if cookie != 0 and cookie - FIRST_COOKIE not in children:
            yield reason(Kind.COOKIE_UNKNOWN, Status.BAD_COOKIE, "READDIR", facts)
        if cookie != 0 and arguments.verifier != NO_VERIFIER:
            yield reason(Kind.VERIFIER_OTHER, Status.NOT_SAME, "READDIR", facts)
        yield from self.of_room(arguments, [child for child in children if child + FIRST_COOKIE > cookie])

    def of_room(self, arguments: Readdir, left: list[int]) -> Reasons:
        """That not even the first of the children that are left fits into a listing; or its ends alone don't."""
        most, room = min(arguments.maxcount, LISTING_LIMIT), room_of_entries(arguments.maxcount)
        needed, name = LISTING_ENDS, None
        if left:
            needed += len(self.server.listing_entry(left[0], arguments.mask))
            name = self.server.tree.nodes[left[0]].name
        if room < needed - LISTING_ENDS:
            yield reason(Kind.LISTING_TOO_SMALL, Status.TOOSMALL, "READDIR", RoomFacts(name, needed, most))

    def of_setattr(self, arguments: Setattr, file: int) -> Reasons:
        mask, values = arguments.attributes
        yield from self.of_filehandle(file)
        asked = numbers_of(mask)
        for kind, status, numbers in (
            (Kind.ATTRIBUTES_NOT_SUPPORTED, Status.ATTRNOTSUPP, asked - self.server.supported()),
            (Kind.ATTRIBUTES_TO_READ_ONLY, Status.INVAL, asked - WRITABLE),
            (Kind.ATTRIBUTES_FIXED, Status.ROFS, asked & FIXED),
        ):
            if numbers:
                yield reason(kind, status, "SETATTR", AttributeFacts(tuple(sorted(numbers))))
        yield from self.of_values(asked, values)
        if asked:
            yield from self.of_access(arguments.stateid, file, WRITE, "SETATTR")
        size = int.from_bytes(values[:8], "big") if SIZE in asked else 0
        if size > TEXT_LIMIT:
            yield reason(Kind.TOO_LARGE, Status.FBIG, "SETATTR", SizeFacts(None, size))

    def of_values(self, asked: set[int], values: bytes) -> Reasons:
        try:
            self.server.size_of(asked, values)
        except Refusal as refusal:
            if refusal.status == Status.ROFS:
                yield reason(Kind.TIME_OF_CLIENT, refusal.status, "SETATTR", Nothing())
            else:
                facts = ValueFacts(tuple(sorted(asked)), len(values))
                yield reason(Kind.VALUES_UNREADABLE, refusal.status, "SETATTR", facts)
