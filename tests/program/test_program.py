"""The program as the gate has proved and built it: with each fault of a connection, up to its limits, behind pipes, and
audits of files. Expected bytes were worked out by hand. Options, trees and full disks have files of their own."""
import os
import resource
import socket

import pytest

from helpers.expecting_client import done, expect
from nfs4tools.messages import (
    GETATTR,
    NFS4ERR_RESOURCE,
    NFS4_OK,
    NULL,
    RENEW,
    SETCLIENTID,
    SETCLIENTID_CONFIRM,
    call,
    confirmation,
    given,
    reply,
    setclientid,
    words,
)
from nfs4tools.processes import PROGRAM, Piped
from program.program_runs import (
    CLIENT_IDS,
    CONFIRMED,
    INTRODUCTION,
    NODE_B,
    PATIENCE,
    ROOT,
    SAMPLE,
    SYNTAX,
    client_ids,
    entry_of,
    exchange,
    journal_of,
    look,
    node_is,
    want,
    want_journal,
)
from program.test_trees import file

pytestmark = [pytest.mark.needs("nfs4state"), pytest.mark.quick]


def test_null():
    for arguments in [], ["once"]:
        want(arguments)
        want(arguments, call(7, NULL), reply(7))


def test_faults(path_of):
    """Faults of a connection, after a record that was answered, and alone."""
    null, inside = call(7, NULL), words(0x80000028, 8, 0)
    want(["once"], null + inside, reply(7), "fault: input ends inside a record")
    want(["once"], null[:24], fault="fault: input ends inside a record")
    want(["once"], null + words(0x80040001), reply(7), "fault: record too long")
    want(["once"], words(0x80040001), fault="fault: record too long")
    with open("/dev/full", "wb") as full:
        want(["once"], null, fault="fault: output not written", stdout=full)
    folder = os.open(path_of(""), os.O_RDONLY)
    want(["once"], fault="fault: input not read", stdin=folder)
    os.close(folder)


def test_random_seed(path_of, file_of, preloaded):
    """Without random bytes of the system nothing is read, served or judged. Before they are asked for, the tree's file
    is read, or the file of an audit; and after that comes the address."""
    how = {"env": preloaded("refuse_random.c")}
    fault, unread = "fault: no random seed", "fault: file not read"
    missing, journal = path_of("missing"), path_of("unseeded.journal")
    tree = file_of("tree.toml", b"file")
    want([], call(7, NULL), fault=fault, **how)
    for command in ["once"], ["serve", "--listen", "nowhere"]:
        command += ["--journal", journal]
        want(command, call(7, NULL), fault=fault, **how)
        want([*command, "--tree", SAMPLE], fault=fault, **how)
        want([*command, "--tree", tree], fault=SYNTAX, what=tree, **how)
        want([*command, "--tree", missing], fault=unread, what=missing, **how)
    assert not os.path.exists(journal)
    for data in journal_of(*CLIENT_IDS), b"":
        want(["audit", file_of("other.journal", data)], fault=fault, **how)
    want(["audit", missing], fault=unread, what=missing, **how)


def test_client_slots():
    """255 clients have a slot each, and there is none for another one, nor for one of them that begins anew; one that
    asks again keeps its own."""
    first, again, anew = b"\1" * 8, setclientid(b"\1" * 8, b"9"), setclientid(b"\2" * 8, b"9")
    full, confirmed = done(SETCLIENTID, status=NFS4ERR_RESOURCE), done(SETCLIENTID_CONFIRM)
    script = []
    for number in range(1, 256):
        script += [(setclientid(first, b"%d" % number), given(7, number, number))]
        script += [(confirmation(7, number, number), confirmed)]
    script += [(setclientid(first, b"more"), full), (anew, full), (again, given(7, 9, 256)), (anew, full)]
    script += [(confirmation(7, 9, 256), confirmed), (words(RENEW, 7, 9), done(RENEW))]
    sent, answers = zip(*(exchange(xid, pair, uid=1) for xid, pair in enumerate(script)))
    want(["once", "--epoch", "7"], b"".join(sent), b"".join(answers))


def test_journal(file_of):
    """A COMPOUND's 63 GETATTRs have an entry each: sent 15,873 times, and once more, the 1,000,000th entry is the
    last, and in a file of more the next one is wrong."""
    get = words(GETATTR, 0), words(GETATTR, NFS4_OK, 0, 0)
    sent, answered = exchange(1, ROOT, *[get] * 63)
    full = exchange(1, ROOT, get, (get[0], done(GETATTR, status=NFS4ERR_RESOURCE)))[1]
    path = file_of("full.journal", b"")
    want(["once", "--journal", path], sent * 15874, answered * 15873 + full)
    want(["audit", path], output=b"lawful: 1000000 entries\n")
    more = journal_of(*[entry_of(*get, filehandle=(1, 0))] * 1000001)
    want(["audit", file_of("full.journal", more)], fault="fault: wrong answer at entry 1000000")


def test_journal_file(path_of, file_of):
    """The journal of a run as a file, which the program finds lawful. It is written also after a fault."""
    sent, replies = client_ids()
    path = path_of("run.journal")
    want_journal(path, journal_of(*CLIENT_IDS), [], sent, replies)
    want(["audit", path], output=b"lawful: 3 entries\n")
    for rest, fault in (words(0x80000028, 8, 0), "input ends inside a record"), (words(0x80040001), "record too long"):
        want_journal(path, journal_of(*CLIENT_IDS), [], sent + rest, replies, f"fault: {fault}")
    tree = file_of("tree.toml", file("b"))
    want_journal(path, journal_of(nodes=NODE_B), ["--tree", tree], b"", b"")
    want(["audit", path], output=b"lawful: 0 entries\n")
    # Each field of the opening and of a Call.
    document = file("b") + '[policy]\ndelegations = "read"\ncallbacks = "assume"\nclose_locks = "refuse"\n'
    options = ["--epoch", "7", "--lease", "86400", "--now", "1099511627773", "--tree"]
    asked = node_is(1, 0, 2)
    entry = entry_of(*asked, (0xFF, 0xFFFFFFFD), (1, 5), (1, 1))  # type: ignore[call-arg]
    wanted = journal_of(entry, epoch=7, lease=86400, policy=(1, 1, 1), nodes=NODE_B)
    want_journal(path, wanted, [*options, file_of("tree.toml", document)], *exchange(1, ROOT, look(b"b"), asked, uid=5))
    want(["audit", path], output=b"lawful: 1 entries\n")


def test_audit(path_of, file_of):
    """Files that aren't lawful journals, and others that are; also of the version before."""
    ended, forgotten = lambda now: words(2, 1, 0, 100, 0, now), words(5, 1, 1, 1, 0x41000000, 0, 191)
    earlier = lambda *entries: journal_of(*entries, policy=(2, 0))
    other_value = entry_of(INTRODUCTION, given(1, 1, 2))
    resource = entry_of(INTRODUCTION, words(SETCLIENTID, NFS4ERR_RESOURCE))
    renewed = entry_of(words(RENEW, 1, 1), words(RENEW, NFS4_OK))
    padded = entry_of(INTRODUCTION.replace(b"c1\0\0", b"c1\0\1"), given(1, 1, 1))
    whole, no_journal = journal_of(*CLIENT_IDS), "fault: not a journal"
    for data, fault in [
        (journal_of(other_value, CONFIRMED, CONFIRMED), "fault: wrong answer at entry 0"),
        (journal_of(*CLIENT_IDS, ended(190)), "fault: wrong answer at entry 3"),
        (journal_of(resource), "fault: wrong answer at entry 0"),
        (journal_of(renewed), no_journal),
        (journal_of(padded, CONFIRMED, CONFIRMED), no_journal),
        (whole[:-4], no_journal),
        (whole + words(0), no_journal),
        (b"", no_journal),
        (journal_of(other_value, renewed), no_journal),
        (journal_of(*CLIENT_IDS, forgotten), "fault: wrong answer at entry 3"),
        (earlier(*CLIENT_IDS, forgotten), no_journal),
        (journal_of(*CLIENT_IDS, words(6)), no_journal),
        (journal_of(*CLIENT_IDS, policy=(2, 0, 2)), no_journal),
        (earlier(*CLIENT_IDS, ended(190)), "fault: wrong answer at entry 3"),
        (whole.replace(b"NFSJRN03", b"NFSJRN01"), no_journal),
        (whole.replace(b"NFSJRN03", b"NFSJRN04"), no_journal),
    ]:
        path = file_of("other.journal", data)
        want(["audit", path], fault=fault, what=path if fault == no_journal else None)
    for data, count in (journal_of(*CLIENT_IDS, ended(191)), 4), (earlier(*CLIENT_IDS), 3), (earlier(), 0):
        want(["audit", file_of("other.journal", data)], output=b"lawful: %d entries\n" % count)
    for path in path_of("missing"), path_of(""), "":
        want(["audit", path], fault="fault: file not read", what=path)
    with open("/dev/full", "wb") as full:
        want(["audit", file_of("other.journal", whole)], fault="fault: output not written", stdout=full)


def test_peer():
    """A peer that sends more only when it has the reply to what it sent: NULL, and NULL again and again with a part of
    the next record, cut anywhere, and then its rest."""
    # One that waits for a reply in vain is ended at last.
    peer, record = Piped([PROGRAM, "once"]), call(9, NULL)

    def ask(sent, xid):
        peer.send(sent)
        expect("a reply behind pipes", peer.receive(PATIENCE), reply(xid))

    ask(call(7, NULL), 7)
    for cut in range(len(record)):
        ask(call(8, NULL) + record[:cut], 8)
        ask(record[cut:], 9)
    output, errors = peer.program.communicate()
    expect("the end behind pipes", (peer.program.returncode, output, errors), (0, b"", b""))


def test_writes():
    """100 records that come in one read: their replies go out in at most two writes. Each write is a message of its
    own to a socket that keeps messages apart."""
    near, far = socket.socketpair(socket.AF_UNIX, socket.SOCK_SEQPACKET)
    sent = b"".join(call(xid, NULL) for xid in range(100))
    with near, far:
        want(["once"], sent, stdout=far)
        far.close()
        writes = list(iter(lambda: near.recv(65536), b""))
    expect("the replies", b"".join(writes), b"".join(reply(xid) for xid in range(100)))
    assert len(writes) <= 2


def test_empty_fragments():
    """A record that never ends takes no memory: 100 MB of empty fragments, with 32 MB of memory."""
    limit = lambda: resource.setrlimit(resource.RLIMIT_AS, (1 << 25, 1 << 25))
    want(["once"], bytes(100000000), fault="fault: input ends inside a record", preexec_fn=limit)
