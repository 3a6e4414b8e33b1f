"""The parts of the library for suites (docs/SUITES.md) beside its client: how it keeps sequence ids, what it says of
servers that answer oddly, its listener for callbacks, its journals, its server, and its names."""
import os
import socket
import subprocess
import sys
import threading
from contextlib import contextmanager

import pytest

import nfs4tools
from nfs4tools import (
    BadReply,
    CallRefused,
    CallbackListener,
    Client,
    Clientid,
    JournalError,
    KnownLocker,
    LockOwner,
    NewLocker,
    NoCallback,
    NoReply,
    OPEN_DELEGATE_READ,
    OPEN_DELEGATE_WRITE,
    OpenOwner,
    OrderedServer,
    READ,
    Reply,
    Result,
    Server,
    ServerError,
    Stateid,
    Status,
    StatusError,
    WRITE,
    answer_status,
    keep_silent,
    operations as op,
    read_journal,
    refuse_credential,
    refuse_program,
    reset_connection,
)
from nfs4tools.client.sequences import Sequences
from nfs4tools.client.server import MODEL, environment
from nfs4tools.journal.entries import Expire, Forget, Path, Revoke
from nfs4tools.messages import OPEN, PUTROOTFH, results, words
from nfs4tools.processes import NO_CALLBACKS, PROGRAM, TOP
from nfs4tools.wire import Change, Opened, accepted, denied, record, split_records

pytestmark = pytest.mark.quick

# Files of which clients get delegations once callbacks reach them; and from the beginning.
PROBED, LENDING = os.path.join(TOP, "samples/files.toml"), os.path.join(TOP, "samples/lending.toml")
OWNER, LOCKER = OpenOwner(1, 1, b"o"), LockOwner(1, 1, b"o")
OPENED, LOCKED = Stateid(1, 1, 1, 1), Stateid(1, 1, 1, 2)


# Sequence ids.

# The statuses of section 9.1.7 after which the sequence id stays.
NOT_COUNTED = {
    "STALE_CLIENTID",
    "STALE_STATEID",
    "BAD_STATEID",
    "BAD_SEQID",
    "BADXDR",
    "RESOURCE",
    "NOFILEHANDLE",
    "MOVED",
}


def learned(sequences, request, status, value=None):
    """Has the sequences learn from a COMPOUND of this request."""
    sequences.learn(Reply(status, b"", [Result(request, request.number, status, value)]))


@pytest.fixture
def sequences():
    """Those of an open owner and a lock owner of the same name, which have an open and a lock."""
    sequences = Sequences()
    opened = Opened(OPENED, Change(1, 0, 0), 0, (), None)
    learned(sequences, op.open(10, OWNER, "a"), Status.OK, opened)
    learned(sequences, op.lock(1, 0, 1, NewLocker(11, OPENED, 20, LOCKER)), Status.OK, LOCKED)
    return sequences


def ids_of(sequences):
    return sequences.next_of(OWNER), sequences.next_of(LOCKER)


@pytest.mark.parametrize("status", Status, ids=lambda status: status.name)
def test_counted(sequences, status):
    """Each status counts, but for those of section 9.1.7; a LOCK by a lock owner counts for that one alone."""
    moves = int(status.name not in NOT_COUNTED)
    assert ids_of(sequences) == (12, 21)
    if status != Status.OK:
        learned(sequences, op.open(12, OWNER, "b"), status)
        learned(sequences, op.lock(1, 1, 1, KnownLocker(LOCKED, 21)), status)
        assert ids_of(sequences) == (12 + moves, 21 + moves)
        learned(sequences, op.lock(1, 1, 1, NewLocker(12 + moves, OPENED, 21 + moves, LOCKER)), status)
        assert ids_of(sequences) == (12 + 2 * moves, 21 + 2 * moves)


@pytest.mark.parametrize(
    "request_, owners",
    [
        (op.open_confirm(OPENED, 12), (13, 21)),
        (op.open_downgrade(OPENED, 12, 1, 0), (13, 21)),
        (op.close(12, OPENED), (13, 21)),
        (op.locku(1, 21, LOCKED, 0, 1), (12, 22)),
        (op.lock(1, 0, 1, KnownLocker(LOCKED, 21)), (12, 22)),
        (op.lockt(1, 0, 1, LOCKER), (12, 21)),
        (op.read(OPENED), (12, 21)),
        (op.release_lockowner(LOCKER), (12, 21)),
        (op.delegreturn(OPENED), (12, 21)),
    ],
    ids=lambda value: value.name if isinstance(value, op.Request) else "",
)
def test_whose_requests(sequences, request_, owners):
    """Which owner a request counts for, if any."""
    learned(sequences, request_, Status.OK, OPENED._replace(seqid=2))
    assert ids_of(sequences) == owners


def test_last_stateid(sequences):
    learned(sequences, op.open_confirm(OPENED, 12), Status.OK, OPENED._replace(seqid=2))
    assert sequences.stateids[OPENED[1:]].seqid == 2
    assert (sequences.owner_of(OPENED), sequences.owner_of(LOCKED)) == (OWNER, LOCKER)
    assert sequences.owner_of(Stateid(1, 1, 1, 3)) is None


# Servers that answer oddly.


@contextmanager
def answering(*answers):
    """A client of a server that answers its calls with these records in turn, each of which may be a function of the
    call's xid. With None it answers nothing, and with "end" it ends the connection."""

    def serve():
        stream, _ = listening.accept()
        with stream:
            for answer in answers:
                call = split_records(stream.recv(65536))[0][0]
                if answer == "end":
                    return
                if answer is not None:
                    stream.sendall(answer(int.from_bytes(call[:4], "big")))
            stream.recv(1)

    with socket.create_server(("127.0.0.1", 0)) as listening:
        threading.Thread(target=serve, daemon=True).start()
        host, port = listening.getsockname()
        with Client(host, port, "c1", timeout=0.2) as client:
            yield client


def answered(*each, status=0):
    return lambda xid: results(xid, status, *each)


ROOT_IS_OK = answered(words(PUTROOTFH, 0))
ODD = [
    ("the connection ended before the reply", NoReply, "end"),
    ("no reply in 0.2 s", NoReply, None),
    ("the call was refused: PROG_MISMATCH", CallRefused, lambda xid: record(accepted(xid, 2, words(4, 4)))),
    ("the call was refused: GARBAGE_ARGS", CallRefused, lambda xid: record(accepted(xid, 4))),
    ("the call was refused: AUTH_ERROR", CallRefused, lambda xid: record(denied(xid, 1, 1))),
    ("a reply has xid 9, and that of the call is 1", BadReply, lambda xid: record(accepted(9, 0))),
    ("a call came in the place of a reply", BadReply, lambda xid: record(words(xid, 0))),
    ("a record of 8 bytes isn't a reply of RPC", BadReply, lambda xid: record(words(xid, 1))),
    ("2 results for 1 operations", BadReply, answered(words(PUTROOTFH, 0), words(PUTROOTFH, 0))),
    ("OPEN is answered to PUTROOTFH", BadReply, answered(words(OPEN, 10008))),
    ("result 0 can't be read", BadReply, answered(words(PUTROOTFH))),
    ("8 bytes follow the last result", BadReply, answered(words(PUTROOTFH, 0, 1, 1))),
]


@pytest.mark.parametrize("what, kind, answer", ODD, ids=[what for what, _, _ in ODD])
def test_odd_answers(what, kind, answer):
    with answering(answer) as client, pytest.raises(kind, match=what):
        client.compound([op.putrootfh()])


def test_status_of_no_operation():
    """A COMPOUND that says DELAY though each of its operations is OK."""
    with answering(answered(words(PUTROOTFH, 0), status=10008)) as client:
        with pytest.raises(BadReply, match="the COMPOUND has NFS4ERR_DELAY"):
            client.compound([op.putrootfh()]).check()


def test_other_statuses():
    """Statuses that this server doesn't give have names; and so has one that RFC 7531 doesn't have, by its number."""
    with answering(answered(words(PUTROOTFH, 10013)), answered(words(PUTROOTFH, 4))) as client:
        with pytest.raises(StatusError) as caught:
            client.compound([op.putrootfh()]).check()
        assert (caught.value.status, str(caught.value)) == (Status.GRACE, "PUTROOTFH NFS4ERR_GRACE, for PUTROOTFH")
        assert repr(client.compound([op.putrootfh()])[0]) == "PUTROOTFH status 4"


def test_late_reply():
    """A reply that comes after the client has given up is left out."""
    waiting: list[int] = []

    def nothing(xid):
        waiting.append(xid)
        return b""

    def late(xid):
        return results(waiting[0], 0, words(PUTROOTFH, 0)) + results(xid, 0, words(PUTROOTFH, 0))

    with answering(nothing, late) as client:
        with pytest.raises(NoReply):
            client.compound([op.putrootfh()])
        assert client.compound([op.putrootfh()]).is_ok


def test_nobody_listens():
    with socket.socket() as bound:
        bound.bind(("127.0.0.1", 0))
        host, port = bound.getsockname()
        with pytest.raises(NoReply, match="can't be reached"):
            Client(host, port, "c1").null()


# Callbacks.


@contextmanager
def probed(command, **behaviours):
    """A server that tries callbacks, a listener, a client that has it, and another client."""
    with (
        Server("--tree", PROBED, command=command) as server,
        CallbackListener(**behaviours) as listener,
        Client(*server.address, "c1", callback=listener, uid=500) as client,
        Client(*server.address, "c2") as other,
    ):
        client.begin()
        other.begin()
        yield listener, client, other


def delayed(other, path="a"):
    """Another client's OPEN is answered NFS4ERR_DELAY."""
    with pytest.raises(StatusError) as caught:
        other.open(path, READ)
    assert caught.value.status == Status.DELAY


def test_recall(command):
    """A delegation for writing is recalled by the uid of its client, returned, and then the file is free."""
    with probed(command, ident=7) as (listener, client, other):
        call = listener.wait_for_null().call
        assert (call.program, call.principal, call.recall) == (0x40000000, (0, 0), None)
        file = client.open_lent("a")
        assert file.delegation.kind == OPEN_DELEGATE_WRITE
        delayed(other)
        recall = listener.wait_for_recall()
        assert (recall.stateid, recall.filehandle) == (file.delegation.stateid, file.filehandle)
        assert (recall.ident, recall.principal, recall.truncate) == (7, (1, 500), False)
        client.return_delegation(recall)
        assert other.read(other.open("a", READ)).data == b"hello"
        assert [recall] == listener.recalls and len(listener.heard) == 2
        with pytest.raises(NoCallback, match="no CB_RECALL came in 0.1 s"):
            listener.wait_for_recall(0.1)


@pytest.mark.parametrize(
    "behaviour", [answer_status(Status.BADHANDLE), refuse_credential, refuse_program, keep_silent, reset_connection]
)
def test_recall_that_is_refused(command, behaviour):
    """The delegation stays as it is, and is returned by the client's own value."""
    with probed(command) as (listener, client, other):
        file = client.open_lent("a", READ)
        assert file.delegation.kind == OPEN_DELEGATE_READ
        listener.on_recall = behaviour
        with pytest.raises(StatusError) as caught:
            other.open("a", WRITE)
        assert caught.value.status == Status.DELAY
        assert listener.wait_for_recall().stateid == file.delegation.stateid
        client.return_delegation(file.delegation)
        other.open("a", WRITE)


@pytest.mark.parametrize("behaviour", [refuse_credential, refuse_program, reset_connection])
def test_null_that_is_refused(command, behaviour, tmp_path):
    """The client gets no delegation, as the path is marked down."""
    path = tmp_path / "run.journal"
    with Server("--tree", PROBED, journal=path, command=command) as server:
        with CallbackListener(on_null=behaviour) as listener, Client(*server.address, "c1", listener) as client:
            client.begin()
            listener.wait_for_null()
            with pytest.raises(TimeoutError, match="no delegation"):
                client.open_lent("a", seconds=0.3)
    assert [(entry.client, entry.event) for entry in read_journal(path).events()] == [("c1", Path(1, 0))]


def test_recall_without_callbacks(command, tmp_path):
    """If no recall reaches the client, the delegation is revoked after a lease, and then the file is free."""
    path = tmp_path / "run.journal"
    with OrderedServer("--tree", LENDING, journal=path, command=command) as server:
        with Client(*server.address, "c1") as client, Client(*server.address, "c2") as other:
            client.begin()
            other.begin()
            lent = client.open_lent("a")
            for seconds, revoked in ((45, 0), (45, 0), (1, 1)):
                delayed(other)
                assert server.advance(seconds).revoked == revoked
                client.renew()
                other.renew()
            assert other.compound(opening(other)).is_ok
            with pytest.raises(StatusError) as caught:
                client.return_delegation(lent.delegation)
            assert caught.value.status == Status.BAD_STATEID
    journal = read_journal(path)
    assert journal.is_lawful
    assert [entry.client for entry in journal.events() if isinstance(entry.event, Revoke)] == ["c1"]


def opening(client):
    """OPEN of the file a for reading, by the owner's next sequence id."""
    owner = client.open_owner()
    return [op.putrootfh(), op.open(client.next_seqid(owner), owner, "a", READ)]


# Journals.


@pytest.fixture(
    params=[
        pytest.param([PROGRAM, "serve"], id="program", marks=pytest.mark.needs("nfs4state")),
        pytest.param(MODEL, id="model"),
    ]
)
def command(request):
    return request.param


@pytest.fixture
def run(command, tmp_path):
    """The journal's path of a run of two clients."""
    path = tmp_path / "run.journal"
    with Server("--tree", NO_CALLBACKS, journal=path, command=command) as server:
        with Client(*server.address, "c1", uid=500) as client, Client(*server.address, "c2") as other:
            client.begin()
            other.begin()
            file = client.open("d/c", deny=WRITE)
            client.lock(file, 0, 10)
            with pytest.raises(StatusError):
                other.open("d/c", WRITE)
            other.attributes("a", "size")
            client.close(file)
    return path


def test_journal(run):
    journal = read_journal(run)
    assert (journal.epoch, journal.lease, journal.ending, journal.is_lawful) == (1, 90, None, True)
    assert journal.audit() == f"lawful: {len(journal)} entries"
    assert [(it.client, it.operation, it.file, it.status) for it in journal] == [
        ("c1", "SETCLIENTID", None, 0),
        ("c1", "SETCLIENTID_CONFIRM", None, 0),
        ("c2", "SETCLIENTID", None, 0),
        ("c2", "SETCLIENTID_CONFIRM", None, 0),
        ("c1", "OPEN", "/d", 0),
        ("c1", "OPEN_CONFIRM", "/d/c", 0),
        ("c1", "LOCK", "/d/c", 0),
        ("c2", "OPEN", "/d", Status.SHARE_DENIED),
        (None, "GETATTR", "/a", 0),
        ("c1", "CLOSE", "/d/c", 0),
    ]
    [refused] = journal.refusals()
    assert refused == journal.calls("OPEN", "c2")[0] == journal.calls(status=Status.SHARE_DENIED)[0]
    assert (refused.number, refused.principal, refused.event) == (7, (0, 0), None)
    assert refused.request == op.open(1, OpenOwner(1, 2, b"owner"), "c", WRITE)
    assert journal.calls("LOCK")[0].result.value == Stateid(1, 1, 1, 2)
    assert journal.calls("GETATTR")[0].result.value == {"size": 5}
    assert journal.calls("SETCLIENTID")[1].result.value[:2] == Clientid(1, 2)
    assert journal.calls("OPEN")[0].principal == (1, 500)
    assert all(0 <= it.moment < 90 for it in journal) and not journal.events()
    assert repr(refused).startswith("7: moment ") and repr(refused).endswith(" -> NFS4ERR_SHARE_DENIED")


def test_beginning_of_a_journal(run, tmp_path):
    data = run.read_bytes()
    part = tmp_path / "run.journal.part"
    part.write_bytes(data[:-1])
    journal = read_journal(part)
    assert len(journal) == 9 and journal.ending.startswith("the file ends inside entry 9")
    assert journal.is_lawful
    for wrong in b"", data[:20], b"NFSJRN09", data + b"\0\0\0\7":
        part.write_bytes(wrong)
        with pytest.raises(JournalError, match="is no journal"):
            read_journal(part)
    with pytest.raises(FileNotFoundError):
        read_journal(tmp_path / "missing")


def test_events(command, tmp_path):
    """A lease that ends, and an owner that is forgotten, are events of their clients."""
    path = tmp_path / "run.journal"
    with OrderedServer("--tree", NO_CALLBACKS, journal=path, command=command) as server:
        with Client(*server.address, "c1") as client, Client(*server.address, "c2") as other:
            client.begin()
            other.begin()
            client.close(client.open("a"))
            server.advance(90)
            client.renew()
            assert server.advance(1) == (91, 1, 0, 1, 0, False)
    found = {type(entry.event): entry for entry in read_journal(path).events()}
    assert {kind: entry.client for kind, entry in found.items()} == {Forget: "c1", Expire: "c2"}
    assert all(entry.moment == getattr(entry.event, "now") for entry in found.values())


# The server and the names.


def test_server_that_has_no_file(tmp_path, command):
    with pytest.raises(ServerError, match="status 1: (?s:.*)fault: file not read"):
        Server("--tree", str(tmp_path / "missing"), command=command)


def test_server_that_can_not_write(tmp_path, command):
    """A journal that nobody reads at the end, and one that can't be written from the beginning."""
    path = tmp_path / "run.journal"
    os.mkfifo(path)
    server = Server("--tree", NO_CALLBACKS, journal=path, command=command)
    with pytest.raises(ServerError, match="status 1"), server:
        Client(*server.address, "c1").null()
    assert not server.served.is_running()
    with pytest.raises(ServerError, match="no server, and status 1: .*: Is a directory"):
        Server("--tree", NO_CALLBACKS, journal=tmp_path, command=command)


def test_server_of_a_failed_test(command):
    with pytest.raises(KeyError), Server("--tree", NO_CALLBACKS, command=command) as server:
        raise KeyError
    assert not server.served.is_running()


def test_names():
    """The package has each name of the library."""
    names = nfs4tools.client.__all__
    assert all(getattr(nfs4tools, name) is getattr(nfs4tools.client, name) for name in names)
    with pytest.raises(AttributeError):
        getattr(nfs4tools, "missing")


def test_names_are_imported_late():
    """The tools of the package don't load the library."""
    code = "import sys, nfs4tools; assert 'nfs4tools.client' not in sys.modules; nfs4tools.Client"
    subprocess.run([sys.executable, "-c", code], check=True, env=environment())
