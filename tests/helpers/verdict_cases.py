"""Journals with what is said of each, for test_journals.py: entries that may come next, and entries that can't follow
those before them; of this version of the file, and of the one before."""
from collections.abc import Iterable, Iterator
from typing import Any

from helpers.journal_cases import (
    CALLBACK,
    FILE,
    NOBODY,
    NOTHING,
    NOT_JOURNAL,
    OPENED,
    SOMEBODY,
    ask_for_number,
    close_by_a,
    confirm,
    earlier,
    file_of,
    give_back,
    holding,
    idle,
    introduce,
    journal_of,
    lent,
    listed_and_set,
    small,
)
from nfs4tools import wire
from nfs4tools.journal.entries import Answer, Call, Expire, Forget, MOMENT_LIMIT, Path, Revoke
from nfs4tools.journal.journal import EARLIER, Recorder, journal_bytes
from nfs4tools.model.tree import Tree
from nfs4tools.wire import OpenOwner, Opnum, Status, opaque, u32, u64

LAST = 2**32 - 1
# A name, a file, and what is said of it.
Judged = tuple[str, bytes, str]


def wrong(number: int) -> str:
    return f"fault: wrong answer at entry {number}"


def verdicts() -> Iterator[Judged]:
    """A name, a file, and what is said of it."""
    entries, data = small().entries, journal_bytes(small())
    yield "three entries", data, "lawful: 3 entries"
    yield "no entries", file_of([]), "lawful: 0 entries"
    yield "another confirm value", file_of([with_rest(entries[0], u32(1, 1) + u64(2)), *entries[1:]]), wrong(0)
    yield "a confirmation first", file_of([entries[1], *entries]), wrong(0)
    yield "the first entry again", file_of([*entries, entries[0]]), wrong(3)
    yield "an expiry at the edge", file_of([*entries, Expire(1, 100, 190)]), wrong(3)
    yield "an expiry", file_of([*entries, Expire(1, 100, 191)]), "lawful: 4 entries"
    yield "an expiry again", file_of([*entries, Expire(1, 100, 191), Expire(1, 100, 191)]), wrong(4)
    yield "an expiry of nobody", file_of([*entries, Expire(2, 100, 191)]), wrong(3)
    yield "a confirmation after the expiry", file_of([*entries, Expire(1, 100, 191), entries[2]]), wrong(4)
    stale = entries[2]._replace(answer=Answer(Opnum.SETCLIENTID_CONFIRM, Status.STALE_CLIENTID, b""))
    yield "its refusal", file_of([*entries, Expire(1, 100, 191), stale]), "lawful: 5 entries"
    late = [*entries, Expire(1, MOMENT_LIMIT - 92, MOMENT_LIMIT - 1)]
    yield "an expiry at the last moment", file_of(late), "lawful: 4 entries"
    late[-1] = Expire(1, MOMENT_LIMIT - 91, MOMENT_LIMIT - 1)
    yield "an expiry at the last moment, at the edge", file_of(late), wrong(3)
    yield "an expiry before it was seen", file_of([*entries, Expire(1, 200, 100)]), wrong(3)
    yield from verdicts_on_bytes()
    yield from verdicts_on_paths(entries)
    yield from verdicts_on_revocations()
    yield from verdicts_on_forgets()
    yield from verdicts_on_locks_held()
    yield from verdicts_on_the_earlier_version()
    yield from verdicts_on_numbers()
    yield from verdicts_for_clients()
    yield "moments that go down", file_of([entries[0]._replace(moment=5), *entries[1:]]), "lawful: 3 entries"
    yield "the last moment of a call", file_of([entries[0]._replace(moment=MOMENT_LIMIT - 1)]), "lawful: 1 entries"
    yield "another principal", file_of([entries[0], entries[1]._replace(principal=SOMEBODY)]), wrong(1)
    yield "uid 0 under AUTH_SYS", file_of([entries[0], entries[1]._replace(principal=(1, 0))]), wrong(1)
    yield "a filehandle that isn't asked", file_of([entries[0]._replace(filehandle=4)]), "lawful: 1 entries"
    refused = entries[0]._replace(answer=Answer(Opnum.SETCLIENTID, Status.RESOURCE, b""))
    yield "RESOURCE", file_of([refused]), wrong(0)
    far = wire.Setclientid(bytes(8), b"c1", CALLBACK._replace(netid=bytes(129)))
    yield "RESOURCE that the rules give", file_of([refused._replace(arguments=far)]), wrong(0)
    other = with_number(entries[1], Opnum.RELEASE_LOCKOWNER)
    yield "an answer to another operation", file_of([entries[0], other]), wrong(1)
    wrong_first = [with_rest(entries[0], u32(1, 1) + u64(2)), *entries[1:]]
    yield "a wrong answer, and a byte after the last entry", file_of(wrong_first) + b"\0", NOT_JOURNAL
    outside = [*wrong_first, entries[2]._replace(filehandle=5)]
    yield "a wrong answer, and a node that isn't there later", file_of(outside), NOT_JOURNAL


def verdicts_on_bytes() -> Iterator[Judged]:
    """Of `hello`, which is read, gets a byte more, and is read again; and of more than a file has."""
    server = Recorder(Tree())
    for opnum, arguments in (
        (Opnum.READ, wire.Read(NOTHING, 0, LAST)),
        (Opnum.WRITE, wire.Write(NOTHING, 5, 0, b"!")),
        (Opnum.READ, wire.Read(NOTHING, 0, LAST)),
        (Opnum.GETATTR, wire.Getattr((0x18,))),
    ):
        server.apply(opnum, arguments, FILE, NOBODY)
    first, written, second, attributes = entries = server.recorded
    yield "a file that is read and written", file_of(entries), "lawful: 4 entries"
    yield "a file that is read before it is written", file_of([first, second]), wrong(1)
    yield "attributes before it is written", file_of([first, attributes]), wrong(1)
    yield "a file that is written, and read as before", file_of([written, first]), wrong(1)
    yield "a change too many", file_of([written, *entries]), wrong(1)
    yield "attributes after two changes", file_of([written, written, attributes]), wrong(2)
    rests = {
        "no end": u32(0) + opaque(b"hello"),
        "a byte fewer": u32(1) + opaque(b"hell"),
        "a byte more": u32(1) + opaque(b"hello!"),
        "70,000 bytes": u32(1) + opaque(bytes(70000)),
    }
    for name, rest in rests.items():
        yield f"a READ with {name}", file_of([with_rest(first, rest)]), wrong(0)
    rests = {
        "another count": u32(2, 2, 1, 0),
        "UNSTABLE4": u32(1, 0, 1, 0),
        "another epoch": u32(1, 2, 2, 0),
        "another verifier": u32(1, 2, 1, 1),
    }
    for name, rest in rests.items():
        yield f"a WRITE with {name}", file_of([with_rest(written, rest)]), wrong(0)


def verdicts_on_paths(entries: list[Any]) -> Iterator[Judged]:
    """After those of a client that is confirmed; and with the grant of a delegation."""
    yield "a path", file_of([*entries, Path(1, 1), Path(1, 1), Path(1, 0)]), "lawful: 6 entries"
    yield "a path of nobody", file_of([*entries, Path(2, 1)]), wrong(3)
    yield "a path of client 0", file_of([*entries, Path(0, 0)]), wrong(3)
    yield "a path before the confirmation", file_of([entries[0], Path(1, 1), *entries[1:]]), wrong(1)
    yield "a path after the expiry", file_of([*entries, Expire(1, 100, 191), Path(1, 1)]), wrong(4)
    yield "a path after a wrong answer", file_of([entries[1], Path(1, 1)]), wrong(0)
    journal = lent().journal()
    before, after = journal.entries[:4], journal.entries[4:]
    cases: list[tuple[list[int], str]] = [([], "lawful: 10 entries"), ([0], wrong(5)), ([0, 1], "lawful: 12 entries")]
    for marks, said in cases:
        marked = journal._replace(entries=[*before, *[Path(1, is_up) for is_up in marks], *after])
        yield f"paths {marks} before a delegation is given", journal_bytes(marked), said


def verdicts_on_revocations() -> Iterator[Judged]:
    """After the delegations 2 and 4 were called back, the second at 200 and the first at 210."""
    journal = lent().journal()
    again = [call for call in journal.entries if isinstance(call, Call)][-2]
    returned = lent()
    give_back(returned, 2)
    more = {
        "nothing that is due": ([Revoke(4, 290)], 10),
        "one that is due": ([Revoke(4, 291)], None),
        "one that isn't": ([Revoke(2, 291)], 10),
        "one at the edge": ([Revoke(2, 300)], 10),
        "the least of two": ([Revoke(2, 301)], None),
        "not the least of two": ([Revoke(4, 301)], 10),
        "one after the other": ([Revoke(2, 301), Revoke(4, 301)], None),
        "the oldest first": ([Revoke(4, 300), Revoke(2, 301)], None),
        "one twice": ([Revoke(4, 291), Revoke(4, 291)], 11),
        "an open": ([Revoke(1, 400)], 10),
        "state 0": ([Revoke(0, 400)], 10),
        "what isn't": ([Revoke(5, 400)], 10),
        "what was given back": ([*returned.recorded[10:], Revoke(2, 400)], 11),
        "what is left": ([*returned.recorded[10:], Revoke(4, 400)], None),
        "what went with its client": ([Expire(1, 0, 91), Revoke(2, 400)], 11),
        "what still is in the way": ([again], None),
        "what isn't any longer": ([Revoke(4, 291), again], 11),
    }
    for name, (entries, number) in more.items():
        said = f"lawful: {10 + len(entries)} entries" if number is None else wrong(number)
        yield f"a revocation: {name}", journal_bytes(journal._replace(entries=journal.entries + entries)), said


def verdicts_on_forgets() -> Iterator[Judged]:
    """After A was closed at 100 and B at 101, with a lease of 90."""
    server = idle()
    entries, (a, b) = server.recorded, (OpenOwner(1, 1, b"A"), OpenOwner(1, 1, b"B"))
    again = entries[4]._replace(moment=150)
    stale = again._replace(moment=200, answer=Answer(Opnum.CLOSE, Status.BAD_STATEID, b""))
    begins = entries[2]._replace(moment=200, arguments=entries[2].arguments._replace(seqid=7))
    begun = with_rest(begins, entries[2].answer.rest.replace(u32(1, 1, 1, 1), u32(1, 1, 1, 3), 1))
    known = begins._replace(answer=Answer(Opnum.OPEN, Status.BAD_SEQID, b""))
    more = {
        "nothing that is due": ([Forget(a, 190)], 0),
        "one that is due": ([Forget(a, 191)], None),
        "one that isn't": ([Forget(b, 191)], 0),
        "the first of two": ([Forget(a, 192)], None),
        "not the first of two": ([Forget(b, 192)], 0),
        "one after the other": ([Forget(a, 192), Forget(b, 192)], None),
        "one twice": ([Forget(a, 191), Forget(a, 191)], 1),
        "nobody": ([Forget(OpenOwner(1, 1, b"C"), 400)], 0),
        "one of another client": ([Forget(OpenOwner(1, 2, b"A"), 400)], 0),
        "one of another epoch": ([Forget(OpenOwner(2, 1, b"A"), 400)], 0),
        "one whose CLOSE came again": ([again, Forget(a, 191)], None),
        "a CLOSE that comes again": ([again], None),
        "a CLOSE that comes too late": ([Forget(a, 191), stale], None),
        "a CLOSE that is answered too late": ([Forget(a, 191), again], 1),
        "one that is kept": ([stale], 0),
        "one that comes again": ([Forget(a, 191), begun], None),
        "one that comes again as a known one": ([Forget(a, 191), known], 1),
        "one that is known": ([known], None),
        "one that comes again too early": ([begun], 0),
        "one with an open": ([Forget(a, 191), begun, Forget(a, 400)], 2),
        "one that went with its client": ([Expire(1, 0, 91), Forget(a, 191)], 1),
        "one before its client goes": ([Forget(a, 191), Expire(1, 101, 192)], None),
        "one before the other of an earlier moment": ([Forget(a, 400), Forget(b, 192)], None),
    }
    for name, (added, number) in more.items():
        said = f"lawful: {8 + len(added)} entries" if number is None else wrong(8 + number)
        yield f"a forgetting: {name}", file_of([*entries, *added]), said
    yield "a forgetting of one that has the file open", file_of([*entries[:4], Forget(a, 400)]), wrong(4)
    yield "a forgetting of one that isn't confirmed", file_of([*entries[:3], Forget(a, 400)]), wrong(3)


def verdicts_on_locks_held() -> Iterator[Judged]:
    """A CLOSE beside bytes that are locked, under both policies; and what is its owner's next request then."""
    server = holding()
    close_by_a(server, 4)
    held = server.recorded[-1]
    freed = held._replace(answer=Answer(Opnum.CLOSE, Status.OK, u32(3, 1, 1, 1)))
    close_by_a(server, 4)
    close_by_a(server, 5)
    entries, free = server.recorded, Tree().policy
    for name, policy, added, number in (
        ("refused", "refuse", [held], None),
        ("refused, and again", "refuse", [held, held], None),
        ("refused, and with the next id", "refuse", entries[5:], None),
        ("refused, and with the next id at once", "refuse", [entries[7]], 0),
        ("refused, and freed by the same id", "refuse", [held, freed], 1),
        ("freed though it is refused", "refuse", [freed], 0),
        ("freed", "free", [freed], None),
        ("refused though it frees", "free", [held], 0),
    ):
        said = f"lawful: {5 + len(added)} entries" if number is None else wrong(5 + number)
        given = [*entries[:5], *added], Tree().nodes[1:], free._replace(close_locks=policy)
        yield f"a CLOSE beside locks, {name}", file_of(*given), said


def verdicts_on_the_earlier_version() -> Iterator[Judged]:
    """The same entries in a file of the version before, and a CLOSE that frees."""
    yield "three entries of the earlier version", journal_bytes(earlier(small())), "lawful: 3 entries"
    none = earlier(small()._replace(entries=[]))
    yield "no entries of the earlier version", journal_bytes(none), "lawful: 0 entries"
    for name, server, count in (("delegations", lent(), 10), ("owners without opens", idle(), 8)):
        yield f"{name} in the earlier version", journal_bytes(earlier(server.journal())), f"lawful: {count} entries"
    server = holding()
    held = journal_of(server.recorded)._replace(head=EARLIER)
    freed = Call(
        0,
        NOBODY,
        FILE,
        Opnum.CLOSE,
        wire.Close(4, OPENED._replace(seqid=2)),
        Answer(Opnum.CLOSE, Status.OK, u32(3, 1, 1, 1)),
    )
    refused = freed._replace(answer=Answer(Opnum.CLOSE, Status.LOCKS_HELD, b""))
    for name, entry, said in (("frees", freed, "lawful: 6 entries"), ("is refused", refused, wrong(5))):
        data = journal_bytes(held._replace(entries=[*held.entries, entry]))
        yield f"a CLOSE beside locks that {name} in the earlier version", data, said


def verdicts_for_clients() -> Iterator[Judged]:
    """Listings and sizes that are set, under the profile "clients"; and what the profile is in entries of both."""
    journal = listed_and_set()
    yield "a listing, and what is set", journal_bytes(journal), "lawful: 4 entries"
    for head in (b"NFSJRN03", b"NFSJRC01", b"NFSJRC02"):
        yield f"the same behind {head.decode()}", head + journal_bytes(journal)[8:], NOT_JOURNAL
    listing, attributes, cut, mode = journal.entries

    def said_of(*entries: Any) -> bytes:
        return journal_bytes(journal._replace(entries=list(entries)))

    read = Call(0, NOBODY, FILE, Opnum.READ, wire.Read(NOTHING, 0, 9), Answer(Opnum.READ, Status.OK, u32(1, 0)))
    changes = Call(0, NOBODY, FILE, Opnum.GETATTR, wire.Getattr((24,)), Answer(Opnum.GETATTR, Status.OK, b""))
    yield "what is read behind a cut", said_of(cut, read), "lawful: 2 entries"
    yield "what is read before it", said_of(read, cut), wrong(0)
    yield "what is read as before it", said_of(cut, with_rest(read, u32(1) + opaque(b"hello"))), wrong(1)
    lawful = "lawful: 2 entries"
    for name, change, size, said in (
        ("its size and change", 1, 0, lawful),
        ("its old size", 1, 5, wrong(1)),
        ("its old change", 0, 0, wrong(1)),
    ):
        told = with_rest(changes, u32(1, 24) + opaque(u64(change) + u64(size)))
        yield f"{name} behind a cut", said_of(cut, told), said
    longer = cut._replace(arguments=cut.arguments._replace(attributes=((16,), u64(9))))
    for name, data, said in (
        ("zeros", bytes(9), "lawful: 3 entries"),
        ("the old bytes", b"hello" + bytes(4), wrong(2)),
    ):
        again = with_rest(read, u32(1) + opaque(data))
        yield f"{name} where it is longer again", said_of(cut, longer, again), said
    for name, rest in (("nothing set", u32(0)), ("a zero word more", u32(2, 16, 0)), ("another bit", u32(1, 8))):
        yield f"a size, and {name}", said_of(with_rest(cut, rest)), wrong(0)
    yield "a mode that is refused, and set", said_of(with_rest(mode, u32(2, 0, 2))), wrong(0)
    for status in (Status.NOTSUPP, Status.OK, Status.ATTRNOTSUPP):
        other = mode._replace(answer=mode.answer._replace(status=status))
        yield f"a mode with {status.name}", said_of(other), wrong(0)
    rest = listing.answer.rest
    for name, other in (
        ("without its entry", bytes(8) + u32(0, 1)),
        ("without its entry, not at its end", bytes(8) + u32(0, 0)),
        ("not at its end", rest[:-4] + u32(0)),
        ("with another verifier", b"verifier" + rest[8:]),
        ("with its entry twice", rest[:-8] + rest[8:]),
        ("with the directory's number", rest.replace(u64(6), u64(5), 1)),
        ("with another name", rest.replace(opaque(b"c"), opaque(b"d"), 1)),
    ):
        yield f"a listing {name}", said_of(with_rest(listing, other)), wrong(0)
    small_room = listing._replace(arguments=listing.arguments._replace(maxcount=55))
    yield "a listing that has no room", said_of(small_room), wrong(0)
    refused = small_room._replace(answer=Answer(Opnum.READDIR, Status.TOOSMALL, b""))
    yield "its refusal", said_of(refused), "lawful: 1 entries"
    yield "its refusal where there is room", said_of(refused._replace(arguments=listing.arguments)), wrong(0)
    yield "what can only be set, under the other profile", file_of([attributes]), wrong(0)
    left_out = with_rest(attributes, u32(0, 0))._replace(answer=Answer(Opnum.GETATTR, Status.OK, u32(0, 0)))
    yield "the same, left out", file_of([left_out]), "lawful: 1 entries"
    yield 'the same, left out under "clients"', said_of(left_out), wrong(0)
    for number in (6, 11, 28, 29):
        other = attributes._replace(answer=Answer(number, Status.ROFS, b""))
        yield f"an answer to {number}", said_of(other), wrong(0)


def verdicts_on_numbers() -> Iterator[Judged]:
    """Of what a further id gets where a client has ended, and where 255 ids have a number each."""
    ended = Recorder(Tree())
    introduce(ended)
    ended.expire(1, 0, 91)
    yield from verdicts_on_number("behind a client that has ended", ended, 257, (0, 1, 2, 256, 257, 513))
    waiting, live = with_ids(confirmed=1), with_ids(confirmed=255)
    # Client 1 is live, and client 2 is the first that isn't.
    yield from verdicts_on_number("behind 255 ids", waiting, 258, (0, 1, 2, 256, 257, 258, 259, 511, 514))
    yield from verdicts_on_number("behind 255 live clients", live, None, (1, 256, 257, 511))
    ask_for_number(waiting, b"late")
    for status, said in (Status.STALE_CLIENTID, "lawful: 258 entries"), (Status.OK, wrong(257)):
        late = Answer(Opnum.SETCLIENTID_CONFIRM, status, b"")
        call = Call(0, NOBODY, None, Opnum.SETCLIENTID_CONFIRM, wire.SetclientidConfirm(1, 2, 2), late)
        yield f"{status.name} for a client that gave way", file_of([*waiting.recorded, call]), said


def with_ids(confirmed: int) -> Recorder:
    """A server with 255 ids, of which the first ones are confirmed."""
    server = Recorder(Tree())
    for number in range(1, 256):
        ask_for_number(server, b"c%d" % number)
        if number <= confirmed:
            confirm(server, number)
    return server


def verdicts_on_number(where: str, server: Recorder, right: int | None, numbers: Iterable[int]) -> Iterator[Judged]:
    """Each of these numbers as the next one that the server gives."""
    asked = wire.Setclientid(bytes(8), b"late", CALLBACK)
    for number in numbers:
        answer = Answer(Opnum.SETCLIENTID, Status.OK, u32(1, number) + u64(server.last_confirm + 1))
        entries = [*server.recorded, Call(0, NOBODY, None, Opnum.SETCLIENTID, asked, answer)]
        said = f"lawful: {len(entries)} entries" if number == right else wrong(len(entries) - 1)
        yield f"number {number} {where}", file_of(entries), said


def with_rest(call: Call, rest: bytes) -> Call:
    return call._replace(answer=call.answer._replace(rest=rest))


def with_number(call: Call, number: int) -> Call:
    return call._replace(answer=call.answer._replace(number=number))
