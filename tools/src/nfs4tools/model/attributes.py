"""The attributes of files and directories (RFC 7530, section 5), which `Server` has with its others: which there
are under each profile, what they are, and which can be set. Sections are those of RFC 7530."""
from collections.abc import Sequence

from nfs4tools import wire
from nfs4tools.model.state import State
from nfs4tools.model.state_parts import Refusal, handle_of
from nfs4tools.model.tree import FILES, NAME_LIMIT, TEXT_LIMIT
from nfs4tools.wire import Status, u32, u64

# Those that there are, here or to be set, by their numbers (sections 5.6 and 5.7).
NAMES = {
    0: "supported_attrs",
    1: "type",
    2: "fh_expire_type",
    3: "change",
    4: "size",
    5: "link_support",
    6: "symlink_support",
    7: "named_attr",
    8: "fsid",
    9: "unique_handles",
    10: "lease_time",
    11: "rdattr_error",
    19: "filehandle",
    20: "fileid",
    21: "files_avail",
    22: "files_free",
    23: "files_total",
    27: "maxfilesize",
    29: "maxname",
    30: "maxread",
    31: "maxwrite",
    33: "mode",
    35: "numlinks",
    36: "owner",
    37: "owner_group",
    42: "space_avail",
    43: "space_free",
    44: "space_total",
    45: "space_used",
    47: "time_access",
    48: "time_access_set",
    52: "time_metadata",
    53: "time_modify",
    54: "time_modify_set",
}
SIZE = 4
MODE = 33
OWNER = 36
OWNER_GROUP = 37
TIME_ACCESS_SET = 48
TIME_MODIFY_SET = 54
# Those that can only be set, and are no attributes to be asked for (section 5.5).
SET_ONLY = {TIME_ACCESS_SET, TIME_MODIFY_SET}
# Those that can be set, here or by any server; but of a file nobody changes who may do what with it, and whose it is.
WRITABLE = {SIZE, MODE, OWNER, OWNER_GROUP, TIME_MODIFY_SET}
FIXED = {MODE, OWNER, OWNER_GROUP}
# How a time is set (settime4).
SET_TO_SERVER_TIME, SET_TO_CLIENT_TIME = 0, 1

# Whoever comes may read and write a file, and read and search a directory: rw-rw-rw-, and r-xr-xr-x.
FILE_MODE, DIRECTORY_MODE = 0o666, 0o555
# The bytes that all files may have together.
SPACE = FILES * TEXT_LIMIT
# A child's cookie is its node's number and this: 0 is the beginning, and 1 and 2 are nobody's.
FIRST_COOKIE = 2


def numbers_of(mask: Sequence[int]) -> set[int]:
    """The numbers of the attributes that a mask has."""
    return {32 * place + bit for place, word in enumerate(mask) for bit in range(32) if word >> bit & 1}


def mask_of(numbers: list[int] | set[int]) -> list[int]:
    """The words of a mask with these attributes: as many as the highest one needs."""
    words = [0] * (max(numbers, default=-1) // 32 + 1)
    for number in numbers:
        words[number // 32] |= 1 << number % 32
    return words


class Attributes(State):
    """What a server says of its files and directories, beside their bytes."""

    def attributes(self, node: int) -> dict[int, bytes]:
        """By their numbers, the values that can be read."""
        is_file, size, change = self.tree.is_file(node), len(self.text_of(node)), self.changes.get(node, 0)
        found = {
            1: u32(1 if is_file else 2),
            2: u32(0),
            3: u64(change),
            4: u64(size),
            5: u32(0),
            6: u32(0),
            7: u32(0),
            8: u64(1) + u64(0),
            9: u32(1),
            10: u32(self.lease),
            11: u32(0),
            19: wire.opaque(handle_of(node)),
            20: u64(node + 1),
        }
        set_only: set[int] = set()
        if self.is_for_clients():
            found |= self.attributes_for_clients(is_file, size, change)
            set_only = {TIME_MODIFY_SET}
        found[0] = wire.bitmap(mask_of({0, *found, *set_only}))
        return found

    def attributes_for_clients(self, is_file: bool, size: int, change: int) -> dict[int, bytes]:
        """Nobody's time is kept: that of the last change is the number of the changes, in seconds (section 5.8)."""
        changed, nobody, nothing = u64(change) + u32(0), wire.opaque(b"0"), u64(0)
        return {
            # Files and bytes that are left: none can be made.
            21: nothing,
            22: nothing,
            23: u64(len(self.tree.nodes)),
            42: nothing,
            43: nothing,
            44: u64(SPACE),
            45: u64(size),
            # What a file, a name, a READ and a WRITE may have at most.
            27: u64(TEXT_LIMIT),
            29: u32(NAME_LIMIT),
            30: u64(TEXT_LIMIT),
            31: u64(TEXT_LIMIT),
            MODE: u32(FILE_MODE if is_file else DIRECTORY_MODE),
            35: u32(1),
            OWNER: nobody,
            OWNER_GROUP: nobody,
            47: u64(0) + u32(0),
            52: changed,
            53: changed,
        }

    def supported(self) -> set[int]:
        """The numbers of those that supported_attrs names."""
        return numbers_of(wire.Reader(self.attributes(0)[0]).bitmap())

    def values_asked(self, node: int, mask: Sequence[int]) -> bytes:
        """A fattr4: of the attributes that the mask has those that there are."""
        values = self.attributes(node)
        asked = sorted(numbers_of(mask) & set(values))
        return wire.bitmap(mask_of(asked)) + wire.opaque(b"".join(values[number] for number in asked))

    def listing_entry(self, child: int, mask: Sequence[int]) -> bytes:
        """A child in a listing of its directory: that it is one, its cookie and name, and its own attributes."""
        name = wire.opaque(self.tree.nodes[child].name)
        return u32(1) + u64(child + FIRST_COOKIE) + name + self.values_asked(child, mask)

    def expect_readable(self, mask: Sequence[int]) -> None:
        """Under the profile "clients" what can only be set can't be asked for; under the other it is left out."""
        if self.is_for_clients() and numbers_of(mask) & SET_ONLY:
            raise Refusal(Status.INVAL)

    def settable(self, mask: Sequence[int]) -> set[int]:
        """The numbers of the attributes that are to be set, each of which can be."""
        asked = numbers_of(mask)
        if not asked <= self.supported():
            raise Refusal(Status.ATTRNOTSUPP)
        if not asked <= WRITABLE:
            raise Refusal(Status.INVAL)
        if asked & FIXED:
            raise Refusal(Status.ROFS)
        return asked

    def size_of(self, asked: set[int], values: bytes) -> int | None:
        """The size that is to be set, or None where it isn't. A time is the server's own, which can't be chosen."""
        reader, how = wire.Reader(values), SET_TO_SERVER_TIME
        size: int | None = None
        try:
            if SIZE in asked:
                size = reader.u64()
            if TIME_MODIFY_SET in asked:
                how = reader.one_of(2)
            if how == SET_TO_CLIENT_TIME:
                reader.u64(), reader.u32()
        except wire.Unreadable:
            raise Refusal(Status.BADXDR) from None
        if reader.at < len(values):
            raise Refusal(Status.BADXDR)
        if how == SET_TO_CLIENT_TIME:
            raise Refusal(Status.ROFS)
        return size
