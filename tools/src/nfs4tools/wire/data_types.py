"""Types that the arguments and results of several operations have, and their limits in bytes."""
from collections.abc import Sequence
from typing import Annotated, NamedTuple

from nfs4tools.wire.enums import READ_LT
from nfs4tools.wire.forms import Bool, Form, Long, Word, bytes_up_to, form_of, one_of
from nfs4tools.wire.xdr import bitmap, opaque

OWNER_LIMIT = 1024
FILEHANDLE_LIMIT = 128

Name = Annotated[bytes, bytes_up_to(OWNER_LIMIT)]
Filehandle = Annotated[bytes, bytes_up_to(FILEHANDLE_LIMIT)]
LockType = Annotated[int, one_of(4, first=READ_LT)]


class Stateid(NamedTuple):
    """By the parts that this server gives its 12 bytes of `other`."""

    seqid: Word
    epoch: Word
    client: Word
    number: Word


class OpenOwner(NamedTuple):
    """An owner of opens: a clientid by its two halves, and the owner's bytes."""

    epoch: Word
    client: Word
    name: Name


class LockOwner(NamedTuple):
    """An owner of locks, likewise."""

    epoch: Word
    client: Word
    name: Name


# Values of attributes: the mask, and all of them behind one another.
FATTR = Form(lambda reader: (reader.bitmap(), reader.opaque()), lambda pair: bitmap(pair[0]) + opaque(pair[1]))
Fattr = Annotated[tuple[Sequence[int], bytes], FATTR]


class Change(NamedTuple):
    """A directory before and after a change, and whether nothing came between."""

    is_atomic: Bool
    before: Long
    after: Long


STATEID, CHANGE = form_of(Stateid), form_of(Change)
