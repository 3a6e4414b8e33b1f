"""NFSv4.0 messages as bytes (RFC 5531, RFC 7531): built by hand for tests and measurements; `wire` has the types."""
from nfs4tools.wire import Opnum, Status, opaque, record, u32

# The numbers by the names of RFC 7531, and words as they are sent.
NULL, COMPOUND = 0, 1
CLOSE = Opnum.CLOSE
COMMIT = Opnum.COMMIT
DELEGRETURN = Opnum.DELEGRETURN
GETATTR = Opnum.GETATTR
GETFH = Opnum.GETFH
LOCK = Opnum.LOCK
LOCKT = Opnum.LOCKT
LOCKU = Opnum.LOCKU
LOOKUP = Opnum.LOOKUP
OPEN, OPEN_CONFIRM, OPEN_DOWNGRADE = Opnum.OPEN, Opnum.OPEN_CONFIRM, Opnum.OPEN_DOWNGRADE
PUTFH = Opnum.PUTFH
PUTROOTFH = Opnum.PUTROOTFH
READ = Opnum.READ
READDIR = Opnum.READDIR
RENEW = Opnum.RENEW
SETATTR, SETCLIENTID, SETCLIENTID_CONFIRM = Opnum.SETATTR, Opnum.SETCLIENTID, Opnum.SETCLIENTID_CONFIRM
WRITE, RELEASE_LOCKOWNER = Opnum.WRITE, Opnum.RELEASE_LOCKOWNER
NFS4_OK, NFS4ERR_NOENT, NFS4ERR_BADHANDLE = Status.OK, Status.NOENT, Status.BADHANDLE
NFS4ERR_RESOURCE, NFS4ERR_STALE_CLIENTID = Status.RESOURCE, Status.STALE_CLIENTID
words = u32

# Masks of attributes: type, size and fileid, and lease_time.
TYPE_SIZE_FILEID, LEASE_TIME = 0x100012, 0x400


def call(xid: int, procedure: int, arguments: bytes = b"", uid: int | None = None) -> bytes:
    """A record: a call with no credential, or that of this uid."""
    credential = words(0, 0) if uid is None else words(1) + opaque(words(0, 0, uid, 0, 0))
    return record(words(xid, 0, 2, 100003, 4, procedure) + credential + words(0, 0) + arguments)


def reply(xid: int, results: bytes = b"") -> bytes:
    """A record: an accepted reply with SUCCESS."""
    return record(words(xid, 1, 0, 0, 0, 0) + results)


def compound(xid: int, *operations: bytes, uid: int | None = None) -> bytes:
    """A call of COMPOUND with an empty tag and minor version 0."""
    return call(xid, COMPOUND, words(0, 0, len(operations)) + b"".join(operations), uid)


def results(xid: int, status: int, *each: bytes) -> bytes:
    """The reply to a COMPOUND with an empty tag."""
    return reply(xid, words(status, 0, len(each)) + b"".join(each))


def opening(seqid: int, access: int, deny: int, owner: bytes, name: bytes) -> bytes:
    """OPEN by a name, without a creation; the owner is a clientid and what `opaque` makes of the owner's bytes."""
    return words(OPEN, seqid, access, deny) + owner + words(0, 0) + opaque(name)


def lookup(name: bytes) -> bytes:
    return words(LOOKUP) + opaque(name)


def handle(node: int) -> bytes:
    """The filehandle of a node: the letters `nfh1`, and its number."""
    return opaque(b"nfh1" + words(node))


def setclientid(verifier: bytes, client: bytes, address: bytes = b"127.0.0.1.3.232", ident: int = 1) -> bytes:
    """SETCLIENTID with the program 0x40000000, and an address over tcp, which is one where nobody listens if none is
    given."""
    callback = words(0x40000000) + opaque(b"tcp") + opaque(address) + words(ident)
    return words(SETCLIENTID) + verifier + opaque(client) + callback


def given(epoch: int, number: int, confirm: int) -> bytes:
    """The answer to SETCLIENTID: the clientid, and the confirm value in eight bytes."""
    return words(SETCLIENTID, NFS4_OK, epoch, number, 0, confirm)


def confirmation(epoch: int, number: int, confirm: int) -> bytes:
    return words(SETCLIENTID_CONFIRM, epoch, number, 0, confirm)


def split(data: bytes) -> tuple[list[bytes], bytes]:
    """The whole records of these bytes, and the rest."""
    found, start, at = [], 0, 0
    while at + 4 <= len(data):
        header = int.from_bytes(data[at : at + 4], "big")
        at += 4 + (header & 0x7FFFFFFF)
        if at > len(data):
            break
        if header >> 31:
            found.append(data[start:at])
            start = at
    return found, data[start:]


def xid(data: bytes) -> bytes:
    """The first word of a record, which is the xid of a call or a reply, without the headers of its fragments."""
    body, at = b"", 0
    while len(body) < 4 and at + 4 <= len(data):
        length = int.from_bytes(data[at : at + 4], "big") & 0x7FFFFFFF
        body += data[at + 4 : at + 4 + length]
        at += 4 + length
    return body[:4]
