"""OPEN (sections 9.9 to 9.11, and 16.16)."""
from nfs4tools.model.delegations import Delegating
from nfs4tools.model.state_parts import OpenState, Refusal, conflict, expect_share, next_seqid
from nfs4tools.wire import (
    CLAIM_DELEGATE_CUR,
    CLAIM_DELEGATE_PREV,
    CLAIM_PREVIOUS,
    EXCLUSIVE4,
    GUARDED4,
    OPEN4_CREATE,
    OPEN_DELEGATE_NONE,
    Open,
    Status,
    bitmap,
    u32,
    u64,
)

# What rflags have.
CONFIRM, LOCKTYPE_POSIX = 2, 4
# The change of the directory, of which there is none, and the attributes that were set.
NO_CHANGE, NO_ATTRIBUTES = u32(1) + u64(0) + u64(0), bitmap([])


def rule(server: Delegating, arguments: Open, directory: int) -> bytes:
    owner, share = arguments.owner, (arguments.access, arguments.deny)
    if arguments.claim.kind == CLAIM_PREVIOUS:
        raise Refusal(Status.NO_GRACE)
    if arguments.claim.kind == CLAIM_DELEGATE_PREV:
        raise Refusal(Status.NOTSUPP)
    expect_share(share)
    file = opened_file(server, arguments, directory)
    if arguments.claim.kind == CLAIM_DELEGATE_CUR:
        server.expect_claimed(arguments.claim.delegation, owner.client, file)
    opens = server.opens_of(file)
    if any(it.owner != owner and conflict(it.share(), share) for it in opens):
        raise Refusal(Status.SHARE_DENIED)
    server.expect_none_in_the_way(server.delegations_of_others(owner.client, file), share)
    is_confirmed = owner in server.open_owners
    kind = server.kind_given(arguments, file) if is_confirmed else OPEN_DELEGATE_NONE
    own = next((it for it in opens if it.owner == owner), None)
    server.expect_room((own is None) + (kind != OPEN_DELEGATE_NONE), not is_confirmed)
    found = OpenState(owner, file, server.next_number(), [share]) if own is None else joined(own, share)
    if own is None:
        server.opens.append(found)
    flags = LOCKTYPE_POSIX if is_confirmed else CONFIRM | LOCKTYPE_POSIX
    return server.spelled(found) + NO_CHANGE + u32(flags) + NO_ATTRIBUTES + server.delegate(owner.client, file, kind)


def opened_file(server: Delegating, arguments: Open, directory: int) -> int:
    """The file that the OPEN names."""
    create = arguments.how.create == OPEN4_CREATE
    file = server.named(directory, arguments.claim.name, Status.ACCESS if create else Status.NOENT)
    if not server.tree.is_file(file):
        raise Refusal(Status.ISDIR)
    if create and arguments.how.mode in (GUARDED4, EXCLUSIVE4):
        raise Refusal(Status.EXIST)
    return file


def joined(own: OpenState, share: tuple[int, int]) -> OpenState:
    """Adds the pair to the owner's open on the file (section 9.11)."""
    if share not in own.pairs:
        own.pairs.append(share)
    own.seqid = next_seqid(own.seqid)
    return own
