"""Clients with one fault each. The suite fails for each of them, and `tools/judge` names its fault:

    SUITE_CLIENT=broken_clients:NeverRenews python3 -m pytest samples/suite
"""
from my_client import MyClient

from nfs4tools import NONE, BOTH, KnownLocker, OpenFile, WRITE_LT, operations
from nfs4tools.client.sequences import key_of
from nfs4tools.wire import CLAIM_PREVIOUS, Claim


class SkipsIdAfterDelay(MyClient):
    """It leaves out a sequence id after NFS4ERR_DELAY."""

    def after_delay(self) -> None:
        super().after_delay()
        owner = self.nfs.open_owner()
        self.nfs.sequences.next[key_of(owner)] = self.nfs.next_seqid(owner) + 1


class KeepsFirstLockStateid(MyClient):
    """It sends the stateid of its first LOCK with each later one."""

    def lock(self, file: OpenFile, offset: int, length: int) -> None:
        owner = self.nfs.lock_owner()
        if self.nfs.sequences.lock_state(file.filehandle, owner) is None:
            self.first = self.nfs.lock(file, offset, length)
            return
        locker = KnownLocker(self.first, self.nfs.next_seqid(owner))
        self.nfs.on(file.filehandle, operations.lock(WRITE_LT, offset, length, locker))


class NeverRenews(MyClient):
    """It renews no lease."""

    def renew(self) -> None:
        pass


class IgnoresRecalls(MyClient):
    """It answers a recall, and keeps the delegation."""

    def give_back(self, file: OpenFile) -> None:
        pass


class Reclaims(MyClient):
    """When it begins anew, it reclaims its files, though the server hasn't restarted."""

    def recover(self) -> None:
        files = list(self.opened)
        super().recover()
        for file in files:
            self.reclaim(file)

    def reclaim(self, file: OpenFile, access: int = BOTH) -> None:
        owner = self.nfs.open_owner()
        claim = Claim(CLAIM_PREVIOUS, None, 0)
        opening = operations.open_by(self.nfs.next_seqid(owner), owner, claim, access, NONE)
        self.nfs.on(file.filehandle, opening)
