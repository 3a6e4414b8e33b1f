"""The bytes of files, and who may read and write them (RFC 7530, sections 9.1.4.3 and 9.1.6)."""
from nfs4tools.model.attributes import Attributes
from nfs4tools.model.delegations import Delegating
from nfs4tools.model.state_parts import Delegation, LockState, OpenState, Refusal, expect_seqid, is_special
from nfs4tools.model.tree import TEXT_LIMIT
from nfs4tools.wire import BOTH, OPEN_DELEGATE_WRITE, READ, Stateid, Status


class Files(Attributes, Delegating):
    """What a server does with the bytes of its files."""

    def resize(self, file: int, size: int) -> None:
        """The file gets so many bytes: its first ones, and behind these zeros."""
        if size > TEXT_LIMIT:
            raise Refusal(Status.FBIG)
        self.change_text(file, self.text_of(file)[:size].ljust(size, b"\0"))

    def change_text(self, file: int, text: bytes) -> None:
        """The file has these bytes from here on."""
        self.texts[file] = text
        self.changes[file] = self.changes.get(file, 0) + 1

    def expect_access(self, stateid: Stateid, file: int, wanted: int) -> None:
        """The file may be read, or written, by whoever has this stateid."""
        if not self.tree.is_file(file):
            raise Refusal(Status.ISDIR)
        if is_special(stateid):
            self.expect_access_of_nobody(file, wanted)
        elif self.access_by(stateid, file) & wanted == 0:
            raise Refusal(Status.OPENMODE)

    def expect_access_of_nobody(self, file: int, wanted: int) -> None:
        """No open denies it; and it is in the way of no delegation, whoever has that, as an open of nobody would be."""
        if any(it.share()[1] & wanted for it in self.opens_of(file)):
            raise Refusal(Status.LOCKED)
        self.expect_none_in_the_way([it for it in self.delegations if it.file == file], (wanted, 0))

    def access_by(self, stateid: Stateid, file: int) -> int:
        """What the open may do to the file that the stateid names, or whose lock state it does; or the delegation."""
        found = self.state_of((OpenState, LockState, Delegation), stateid, file)
        if isinstance(found, OpenState) and not self.open_owners[found.owner].is_confirmed:
            raise Refusal(Status.BAD_STATEID)
        expect_seqid(stateid, found)
        if isinstance(found, Delegation):
            return BOTH if found.kind == OPEN_DELEGATE_WRITE else READ
        opened: OpenState = found.open if isinstance(found, LockState) else found
        return opened.share()[0]
