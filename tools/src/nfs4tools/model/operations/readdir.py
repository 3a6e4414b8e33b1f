"""READDIR (section 16.24). The verifier that it gives is zero for good, as no cookie ever means another child."""
from collections.abc import Sequence

from nfs4tools.model.attributes import Attributes, FIRST_COOKIE
from nfs4tools.model.state_parts import Refusal, expect_filehandle
from nfs4tools.wire import Readdir, Status, u32

# The most bytes of an answer behind its status, and how many of them are no entries: the verifier, the end of the list,
# and whether no child is left.
LISTING_LIMIT, LISTING_ENDS = 65536, 16
NO_VERIFIER = bytes(8)


def room_of_entries(maxcount: int) -> int:
    """How many bytes the entries of a listing may have, of one that may have so many in all; below 0 it may be none."""
    return min(maxcount, LISTING_LIMIT) - LISTING_ENDS


def rule(server: Attributes, arguments: Readdir, filehandle: int | None) -> bytes:
    directory = expect_filehandle(filehandle)
    if server.tree.is_file(directory):
        raise Refusal(Status.NOTDIR)
    server.expect_readable(arguments.mask)
    children = server.tree.children(directory)
    if arguments.cookie not in [0, *(child + FIRST_COOKIE for child in children)]:
        raise Refusal(Status.BAD_COOKIE)
    if arguments.cookie != 0 and arguments.verifier != NO_VERIFIER:
        raise Refusal(Status.NOT_SAME)
    left = [child for child in children if child + FIRST_COOKIE > arguments.cookie]
    room = room_of_entries(arguments.maxcount)
    entries = entries_within(server, left, arguments.mask, room)
    if room < 0 or left and not entries:
        raise Refusal(Status.TOOSMALL)
    return NO_VERIFIER + b"".join(entries) + u32(0, len(entries) == len(left))


def entries_within(server: Attributes, children: list[int], mask: Sequence[int], room: int) -> list[bytes]:
    """The entries of as many of these children as fit whole, one behind the other, up to the first that doesn't."""
    entries = []
    for child in children:
        entry = server.listing_entry(child, mask)
        room -= len(entry)
        if room < 0:
            break
        entries.append(entry)
    return entries
