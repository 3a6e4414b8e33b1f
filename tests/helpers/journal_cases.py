"""Journals for test_journals.py: one with each operation, and files written out. Some are of the version of the file
before this one. `journal_cases_broken.py` has files that are no journals."""
from collections.abc import Iterable, Iterator
from typing import Any

from nfs4tools import wire
from nfs4tools.journal.entries import Expire, Forget, Path, Revoke, entry_bytes
from nfs4tools.journal.journal import EARLIER, HEAD_OF, Journal, Recorder, head_bytes, journal_bytes
from nfs4tools.model.tree import CLIENTS, DEFAULT, Node, Policy, ROOT, Tree
from nfs4tools.wire import (
    Callback,
    Claim,
    KnownLocker,
    LockOwner,
    NewLocker,
    OpenOwner,
    Openhow,
    Opnum,
    Stateid,
    u32,
    u64,
)

CLIENTS_POLICY = Tree().policy._replace(profile=CLIENTS)


NOT_JOURNAL = "fault: not a journal"


def with_words(data: bytes, place: int, *words: int) -> bytes:
    """The file with these words in place of those from the place on."""
    return data[:place] + u32(*words) + data[place + 4 * len(words) :]


def file(parent: int, name: bytes = b"a", text: bytes = b"") -> Node:
    return Node(parent, name, True, text)


# An operation with its arguments and the current filehandle; a name and a file; and the same with the reason why it is
# no journal.
Asked = tuple[Opnum, Any, int | None]


Named = tuple[str, bytes]


LAST = 2**32 - 1


# A journal with each operation, and with each form of its arguments and answers that the model gives.
CALLBACK = Callback(0x40000000, b"tcp", b"127.0.0.1.8.1", 1)


NOBODY, SOMEBODY = (0, 0), (1, 500)


OWNER, LOCKER, OTHER = OpenOwner(1, 1, b"A"), LockOwner(1, 1, b"x"), LockOwner(1, 1, b"yy")


OPENED, LOCKED = Stateid(1, 1, 1, 1), Stateid(1, 1, 1, 2)


NOTHING, EVERYTHING = Stateid(0, 0, 0, 0), Stateid(LAST, LAST, LAST, LAST)


NO_CREATE, EXCLUSIVE = Openhow(0, None, None), Openhow(1, 2, bytes(8))


BY_NAME, FILE = Claim(0, b"a", None), 1


def introduce(server: Recorder) -> None:
    server.apply(Opnum.SETCLIENTID, wire.Setclientid(bytes(range(1, 9)), b"c1", CALLBACK), None, NOBODY)
    server.apply(Opnum.SETCLIENTID_CONFIRM, wire.SetclientidConfirm(1, 1, 1), None, NOBODY)


def opening(seqid: int, how: Openhow = NO_CREATE, claim: Claim = BY_NAME) -> Asked:
    return Opnum.OPEN, wire.Open(seqid, 3, 0, OWNER, how, claim), 0


def calls() -> Iterator[Asked]:
    """Operations with their arguments and the current filehandle."""
    yield opening(1)
    yield Opnum.OPEN_CONFIRM, wire.OpenConfirm(OPENED, 2), FILE
    yield opening(3, Openhow(1, 0, ((2,), b"12345")))
    yield opening(4, EXCLUSIVE)
    yield opening(5, NO_CREATE, Claim(1, None, 1))
    yield opening(6, NO_CREATE, Claim(2, b"a", OPENED))
    yield opening(6, NO_CREATE, Claim(3, b"a", None))
    opened = OPENED._replace(seqid=3)
    yield Opnum.LOCK, wire.Lock(2, 0, 0, 9, NewLocker(7, opened, 1, LOCKER)), FILE
    yield Opnum.LOCK, wire.Lock(1, 0, 20, 9, KnownLocker(LOCKED, 2)), FILE
    yield Opnum.LOCK, wire.Lock(2, 0, 0, 2**64 - 1, NewLocker(8, opened, 1, OTHER)), FILE
    yield Opnum.LOCKT, wire.Lockt(4, 0, 2**64 - 1, OTHER), FILE
    yield Opnum.LOCKT, wire.Lockt(3, 10, 10, OTHER), FILE
    yield Opnum.LOCKU, wire.Locku(1, 3, LOCKED._replace(seqid=2), 0, 2**64 - 1), FILE
    yield Opnum.RELEASE_LOCKOWNER, wire.ReleaseLockowner(LOCKER), None
    # Names that not all can be shown as texts.
    for name in (b"", b" #", b"a*b", b'"', b"\n", b"\xff", b"\xc3\xa9"):
        yield Opnum.RELEASE_LOCKOWNER, wire.ReleaseLockowner(LockOwner(1, 1, name)), None
    yield from calls_on_bytes(opened)
    yield Opnum.OPEN_DOWNGRADE, wire.OpenDowngrade(opened, 9, 3, 0), FILE
    yield Opnum.GETATTR, wire.Getattr((0x00100012, 7)), FILE
    yield Opnum.GETATTR, wire.Getattr(()), None


def calls_on_bytes(opened: Stateid) -> Iterator[Asked]:
    """READ and WRITE: of texts and of other bytes, few and many, by special stateids and by that of an open."""
    texts = (b"", b"!", b"\0\xff", b'a "quote"', b"t" * 64, b"t" * 65, bytes(range(256)))
    for stable, text in enumerate(texts):
        yield Opnum.WRITE, wire.Write(opened, 5, stable % 3, text), FILE
        yield Opnum.READ, wire.Read(NOTHING, 5, len(text)), FILE
    yield Opnum.WRITE, wire.Write(EVERYTHING, 10, 2, b"x"), FILE + 1
    yield Opnum.READ, wire.Read(EVERYTHING, 0, LAST), FILE + 1
    yield Opnum.READ, wire.Read(opened, 2**64 - 1, 0), FILE
    yield Opnum.READ, wire.Read(opened, 0, 1), None
    yield Opnum.READ, wire.Read(opened, 0, 1), FILE + 2
    yield Opnum.WRITE, wire.Write(opened, 2**64 - 1, 0, b"x"), FILE
    yield Opnum.WRITE, wire.Write(LOCKED, 0, 0, b"x"), FILE


def open_by(server: Recorder, client: int, seqid: int, access: int = 3, name: bytes = b"a") -> None:
    """An OPEN by the owner A of the client."""
    arguments = wire.Open(seqid, access, 0, OpenOwner(1, client, b"A"), NO_CREATE, Claim(0, name, None))
    server.apply(Opnum.OPEN, arguments, 0, NOBODY)


def give_back(server: Recorder, state: int) -> None:
    """By client 1, which has it on file a."""
    server.apply(Opnum.DELEGRETURN, wire.Delegreturn(Stateid(1, 1, 1, state)), FILE, NOBODY)


def introduce_other(server: Recorder) -> None:
    """Client 2."""
    ask_for_number(server, b"c2")
    confirm(server, 2)


def ask_for_number(server: Recorder, name: bytes) -> None:
    server.apply(Opnum.SETCLIENTID, wire.Setclientid(bytes(8), name, CALLBACK), None, NOBODY)


def confirm(server: Recorder, number: int) -> None:
    """The client whose SETCLIENTID was the last one."""
    server.apply(Opnum.SETCLIENTID_CONFIRM, wire.SetclientidConfirm(1, number, server.last_confirm), None, NOBODY)


def lend(server: Recorder, seqid: int) -> None:
    """Once client 1 can be called, its owner A, whose next sequence id this is, gets a delegation of file a for
    reading, which it gives back; and one for writing, which an OPEN of client 2 calls back, and which is taken."""
    server.mark_path(1, True)
    open_by(server, 1, seqid, 1)
    give_back(server, server.last_state)
    open_by(server, 1, seqid + 1)
    introduce_other(server)
    open_by(server, 2, 1)
    server.mark_path(1, False)
    server.revoke(server.moment + server.lease + 1)
    give_back(server, server.last_state)


def lent() -> Recorder:
    """Ten entries: client 1 has state 2, a delegation of a for writing, and state 4, one of b. Client 2 asks for b at
    200, and for a at 210."""
    server = Recorder(Tree('policy.callbacks = "assume"\n' + DEFAULT))
    introduce(server)
    open_by(server, 1, 1)
    server.apply(Opnum.OPEN_CONFIRM, wire.OpenConfirm(OPENED, 2), FILE, NOBODY)
    open_by(server, 1, 3)
    open_by(server, 1, 4, name=b"b")
    introduce_other(server)
    server.moment = 200
    open_by(server, 2, 1, name=b"b")
    server.moment = 210
    open_by(server, 2, 1)
    return server


def idle() -> Recorder:
    """Ten entries: client 1, whose owners A and B open, confirm and close file a, A at 100 and B at 101."""
    server = Recorder(Tree())
    introduce(server)
    for moment, name, number in ((100, b"A", 1), (101, b"B", 2)):
        server.moment = moment
        live_and_close(server, name, number)
    return server


def live_and_close(server: Recorder, name: bytes, number: int) -> None:
    """An open owner of client 1 comes, and has file a open for a while, by the state of this number."""
    arguments = wire.Open(1, 1, 0, OpenOwner(1, 1, name), NO_CREATE, BY_NAME)
    server.apply(Opnum.OPEN, arguments, 0, NOBODY)
    stateid = Stateid(1, 1, 1, number)
    server.apply(Opnum.OPEN_CONFIRM, wire.OpenConfirm(stateid, 2), FILE, NOBODY)
    server.apply(Opnum.CLOSE, wire.Close(3, stateid._replace(seqid=2)), FILE, NOBODY)


def holding() -> Recorder:
    """Five entries, under a policy by which a CLOSE is refused: client 1, whose owner A has file a open, and whose lock
    owner x holds its first nine bytes."""
    server = Recorder(Tree('policy.close_locks = "refuse"\n' + DEFAULT))
    introduce(server)
    server.apply(*opening(1), NOBODY)
    server.apply(Opnum.OPEN_CONFIRM, wire.OpenConfirm(OPENED, 2), FILE, NOBODY)
    locker = NewLocker(3, OPENED._replace(seqid=2), 1, LOCKER)
    server.apply(Opnum.LOCK, wire.Lock(2, 0, 0, 9, locker), FILE, NOBODY)
    return server


def close_by_a(server: Recorder, seqid: int) -> None:
    server.apply(Opnum.CLOSE, wire.Close(seqid, OPENED._replace(seqid=2)), FILE, NOBODY)


def sample() -> Journal:
    server = Recorder(Tree())
    introduce(server)
    for call in calls():
        server.apply(*call, NOBODY)
    server.moment = 100
    # Another principal asks for the id of a client that has an open.
    server.apply(Opnum.SETCLIENTID, wire.Setclientid(bytes(8), b"c1", CALLBACK), None, SOMEBODY)
    lend(server, 10)
    server.apply(Opnum.CLOSE, wire.Close(12, OPENED._replace(seqid=6)), FILE, NOBODY)
    server.forget(server.moment + server.lease + 1)
    return server.journal()


# What is asked and answered under the profile "clients".
FOR_CLIENTS = 'policy.profile = "clients"\n' + DEFAULT


NO_VERIFIER = bytes(8)


def calls_for_clients() -> Iterator[Asked]:
    """Listings, and attributes that are asked for and set, each with the refusals that it has of its own."""
    everything = 0xFFFFFFFF, 0xFFBEFFFF
    listing = wire.Readdir(0, NO_VERIFIER, 0, LAST, everything)
    yield Opnum.READDIR, listing, 0
    for other in (
        listing._replace(mask=()),
        listing._replace(cookie=4),
        listing._replace(maxcount=500),
        listing._replace(cookie=5),
        listing._replace(cookie=2),
        listing._replace(mask=(0, 1 << 22)),
        listing._replace(cookie=3, verifier=b"\xff" * 8),
        listing._replace(maxcount=15),
    ):
        yield Opnum.READDIR, other, 0
    yield Opnum.READDIR, listing, 3
    yield Opnum.READDIR, listing, FILE
    yield Opnum.READDIR, listing, None
    yield Opnum.GETATTR, wire.Getattr(everything), FILE
    yield Opnum.GETATTR, wire.Getattr((0, 1 << 16)), FILE
    size, time = u64(2), u32(0)
    for mask, values in (
        ((16,), size),
        ((16, 1 << 22), size + time),
        ((0, 1 << 22, 0), time),
        ((0, 0), b""),
        ((16,), size + time),
        ((16,), u64(65537)),
        ((0, 2), u32(0o600)),
        ((24,), size + size),
        ((0, 1 << 22), u32(1, 0, 9, 0)),
        ((0, 1 << 16), time),
        ((0, 0, 1), b""),
        ((16,), b"8 letter"),
    ):
        yield Opnum.SETATTR, wire.Setattr(NOTHING, (mask, values)), FILE
    yield Opnum.SETATTR, wire.Setattr(NOTHING, ((16,), size)), 0
    yield Opnum.SETATTR, wire.Setattr(NOTHING, ((16,), size)), None
    yield Opnum.SETATTR, wire.Setattr(OPENED, ((16,), size)), FILE
    yield Opnum.READ, wire.Read(NOTHING, 0, 9), FILE


def sample_for_clients() -> Journal:
    server = Recorder(Tree(FOR_CLIENTS))
    introduce(server)
    for call in calls_for_clients():
        server.apply(*call, NOBODY)
    return server.journal()


def listed_and_set() -> Journal:
    """Four entries: a listing of `d`, an attribute that can only be set, and of file a its size and its mode."""
    server = Recorder(Tree(FOR_CLIENTS))
    server.apply(Opnum.READDIR, wire.Readdir(0, NO_VERIFIER, 0, 56, (16,)), 3, NOBODY)
    server.apply(Opnum.GETATTR, wire.Getattr((0, 1 << 22)), FILE, NOBODY)
    server.apply(Opnum.SETATTR, wire.Setattr(NOTHING, ((16,), u64(0))), FILE, NOBODY)
    server.apply(Opnum.SETATTR, wire.Setattr(NOTHING, ((0, 2), u32(0o600))), FILE, NOBODY)
    return server.journal()


def earlier(journal: Journal) -> Journal:
    """The journal as one of the version before: it has no Forget, and frees."""
    entries = [entry for entry in journal.entries if not isinstance(entry, Forget)]
    return journal._replace(entries=entries, head=EARLIER)


def small() -> Journal:
    """A client id, its confirmation, and the confirmation again."""
    server = Recorder(Tree())
    introduce(server)
    server.apply(Opnum.SETCLIENTID_CONFIRM, wire.SetclientidConfirm(1, 1, 1), None, NOBODY)
    return server.journal()


# Files written out, in words of four bytes: of a server with the one empty file b, also after it was written and read;
# of `small`; and of the entries that are no calls.
NO_ENTRY = """4e46534a 524e3033 00000001 0000005a 00000002 00000000 00000000
    00000001 00000000 00000001 00000001 62000000 00000000 00000000"""


OF_BYTES = """4e46534a 524e3033 00000007 0000005a 00000002 00000000 00000000
    00000001 00000000 00000001 00000001 62000000 00000000
    00000002
    00000001 00000000 00000005 00000000 00000000 00000001 00000001
    00000026 00000000 00000000 00000000 00000000 00000000 00000008 00000000 00000001 78000000
    00000026 00000000 00000001 00000002 00000007 00000000
    00000001 00000000 00000005 00000000 00000000 00000001 00000001
    00000019 ffffffff ffffffff ffffffff ffffffff 00000000 00000000 00000014
    00000019 00000000 00000001 00000009 00000000 00000000 78000000"""


LISTED_AND_SET = """4e46534a 52433033 00000001 0000005a 00000002 00000000 00000000
    00000004
    00000000 00000001 00000001 61000000 00000005 68656c6c 6f000000
    00000000 00000001 00000001 62000000 00000000
    00000000 00000000 00000001 64000000
    00000003 00000001 00000001 63000000 00000000
    00000004
    00000001 00000000 00000000 00000000 00000000 00000001 00000003
    0000001a 00000000 00000000 00000000 00000000 00000000 00000038 00000001 00000010
    0000001a 00000000 00000000 00000000
    00000001 00000000 00000006 00000001 63000000 00000001 00000010 00000008 00000000 00000000 00000000 00000001
    00000001 00000000 00000000 00000000 00000000 00000001 00000001
    00000009 00000002 00000000 00400000 00000009 00000016
    00000001 00000000 00000000 00000000 00000000 00000001 00000001
    00000022 00000000 00000000 00000000 00000000 00000001 00000010 00000008 00000000 00000000
    00000022 00000000 00000001 00000010
    00000001 00000000 00000000 00000000 00000000 00000001 00000001
    00000022 00000000 00000000 00000000 00000000 00000002 00000000 00000002 00000004 00000180
    00000022 0000001e 00000000"""


EARLIER_HEAD = "4e46534a 524e3032 00000001 0000005a 00000002 00000000"


THREE_ENTRIES = """4e46534a 524e3033 00000001 0000005a 00000002 00000000 00000000
    00000004
    00000000 00000001 00000001 61000000 00000005 68656c6c 6f000000
    00000000 00000001 00000001 62000000 00000000
    00000000 00000000 00000001 64000000
    00000003 00000001 00000001 63000000 00000000
    00000003
    00000001 00000000 00000000 00000000 00000000 00000000 00000000
    00000023 01020304 05060708 00000002 63310000 40000000 00000003 74637000
    0000000d 3132372e 302e302e 312e382e 31000000 00000001
    00000023 00000000 00000001 00000001 00000000 00000001
    00000001 00000000 00000000 00000000 00000000 00000000 00000000
    00000024 00000001 00000001 00000000 00000001 00000024 00000000
    00000001 00000000 00000000 00000000 00000000 00000000 00000000
    00000024 00000001 00000001 00000000 00000001 00000024 00000000"""


def of_bytes() -> Journal:
    """A WRITE behind the end of the one file b, and a READ of all."""
    tree = Tree("")
    tree.nodes = [ROOT, file(0, b"b")]
    server = Recorder(tree, epoch=7)
    server.moment = 5
    server.apply(Opnum.WRITE, wire.Write(NOTHING, 8, 0, b"x"), FILE, NOBODY)
    server.apply(Opnum.READ, wire.Read(EVERYTHING, 0, 20), FILE, NOBODY)
    return server.journal()


def written_out() -> Iterator[tuple[bytes, str]]:
    """What the model writes, and what it should."""
    yield file_of([], [file(0, b"b")]), NO_ENTRY
    yield journal_bytes(of_bytes()), OF_BYTES
    yield journal_bytes(small()), THREE_ENTRIES
    yield journal_bytes(earlier(small())), EARLIER_HEAD + THREE_ENTRIES[62:]
    yield journal_bytes(listed_and_set()), LISTED_AND_SET
    ends = [Expire(1, 100, 191), Revoke(2, 2**32), Path(3, 1), Path(4, 0)]
    words = """00000002 00000001 00000000 00000064 00000000 000000bf 00000003 00000002 00000001 00000000
        00000004 00000003 00000001 00000004 00000004 00000000"""
    yield journal_bytes(earlier(journal_of(ends, []))), f"{EARLIER_HEAD} 00000000 00000004 {words}"
    refusing = Tree().policy._replace(close_locks="refuse")
    data = journal_bytes(journal_of([*ends, Forget(OpenOwner(1, 257, b"ABCDE"), 2**32 + 7)], [], refusing))
    yield data, f"""4e46534a 524e3033 00000001 0000005a 00000002 00000000 00000001 00000000 00000005 {words}
        00000005 00000001 00000101 00000005 41424344 45000000 00000001 00000007"""


# Beginnings of journals.
def beginning_of(journal: Journal) -> bytes:
    """Its file with 0 as the number of entries."""
    return with_words(journal_bytes(journal), len(head_bytes(journal)), 0)


def beginnings() -> Iterator[Named]:
    """A name and a file, none of which is a journal."""
    data = beginning_of(small())
    yield "a beginning", data
    yield "a beginning that is cut", data[:-4]
    yield "a beginning with one entry", data[: places_of(small())[1]]
    yield "a beginning of the earlier version", beginning_of(earlier(small()))
    yield 'a beginning under "clients"', beginning_of(listed_and_set())


def places_of(journal: Journal) -> list[int]:
    """Where the first entry begins in the file, and where each ends."""
    places = [len(head_bytes(journal)) + 4]
    for entry in journal.entries:
        places.append(places[-1] + len(entry_bytes(entry)))
    return places


def journal_of(entries: list[Any], nodes: Iterable[Node] = Tree().nodes[1:], policy: Policy = Tree().policy) -> Journal:
    """A journal of these entries, lawful or not, over these nodes."""
    tree = Tree("")
    tree.nodes, tree.policy = [ROOT, *nodes], policy
    return Journal(1, 90, tree, entries, HEAD_OF[policy.profile])


def file_of(*given: Any) -> bytes:
    """The file of such a journal."""
    return journal_bytes(journal_of(*given))
