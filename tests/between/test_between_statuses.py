"""Statuses in the server's place, each with a client that does right behind it and one that does wrong: what RFC 7530 says
of the sequence id (section 9.1.7), and of what the status calls gone."""
import re
from collections.abc import Callable
from typing import Any, NamedTuple

import pytest

from helpers.between_runs import uids
from nfs4tools import Client, NoRule, Relay, RelayError, Status, StatusError, operations as op
from nfs4tools.between.reading import rule_of
from nfs4tools.wire import KnownLocker

# Behind these the sequence id stays (RFC 7530, section 9.1.7).
STAYING = "STALE_CLIENTID STALE_STATEID BAD_STATEID BAD_SEQID BADXDR RESOURCE NOFILEHANDLE MOVED".split()
# What table 7 of RFC 7530 has for these operations, and table 8 for CB_RECALL.
LOCKS = """ACCESS ADMIN_REVOKED BADHANDLE BAD_RANGE BAD_SEQID BAD_STATEID BADXDR DEADLOCK DELAY DENIED EXPIRED FHEXPIRED
    GRACE INVAL ISDIR LEASE_MOVED LOCK_NOTSUPP LOCK_RANGE MOVED NOFILEHANDLE NO_GRACE OLD_STATEID OPENMODE RECLAIM_BAD
    RECLAIM_CONFLICT RESOURCE SERVERFAULT STALE STALE_CLIENTID STALE_STATEID""".split()
RENEWS = "ACCESS BADXDR CB_PATH_DOWN EXPIRED LEASE_MOVED RESOURCE SERVERFAULT STALE_CLIENTID".split()
TABLE = {
    "LOCK": LOCKS,
    "RENEW": RENEWS,
    "PUTROOTFH": "DELAY SERVERFAULT WRONGSEC".split(),
    "SETCLIENTID": "BADXDR CLID_INUSE DELAY INVAL RESOURCE SERVERFAULT".split(),
    "RELEASE_LOCKOWNER": "BADXDR EXPIRED LEASE_MOVED LOCKS_HELD RESOURCE SERVERFAULT STALE_CLIENTID".split(),
    # RESOURCE is of a CB_COMPOUND (section 13.1.3.4).
    "CB_RECALL": "BADHANDLE BAD_STATEID BADXDR DELAY SERVERFAULT RESOURCE".split(),
}


class Session:
    """A client with a file that is open and locked, through a relay by a rule."""

    def __init__(self, relay: Relay, name: str = "c") -> None:
        number = next(uids)
        # Bytes that no other session locks.
        self.begin = 1000 * number
        self.client = Client(*relay.address, f"{name}{number}")
        self.client.begin()
        self.file = self.client.open("a", owner="o")
        self.lock = self.client.lock(self.file, self.begin, 10, owner="l")

    def __enter__(self) -> "Session":
        return self

    def __exit__(self, *_: Any) -> None:
        self.client.disconnect()

    def refuse(self, status: str, act: Callable[["Session"], object]) -> None:
        """The call has this status, for which something stands in the server's place."""
        with pytest.raises(StatusError) as refused:
            act(self)
        assert refused.value.status == Status[status]

    def next_lock(self) -> object:
        return self.client.lock(self.file, self.begin + 20, 10, owner="l")

    def lock_by(self, further: int) -> object:
        """A LOCK whose sequence id is so much higher than the next one."""
        seqid = self.client.next_seqid(self.client.lock_owner("l")) + further
        locker = KnownLocker(self.lock, seqid)
        return self.client.raw([op.putfh(self.file.filehandle), op.lock(2, self.begin + 20, 10, locker)])


def relayed(server: Any, *rules: str, **how: Any) -> Relay:
    return Relay(server, *rules, **how)


def test_table():
    """What tables 7 and 8 have for an operation is a rule, and nothing else is."""
    for operation, statuses in TABLE.items():
        for status in [it.name for it in Status if it is not Status.OK]:
            if status in statuses:
                assert rule_of(f"answer {status} {operation} 1").value == status
            else:
                with pytest.raises(NoRule, match=r"isn't answered NFS4ERR_.*section 13\.[23]\)"):
                    rule_of(f"answer {status} {operation} 1")


@pytest.mark.parametrize("status", LOCKS)
def test_sequence_id(status, server):
    """Behind each status of LOCK a client whose sequence id does as section 9.1.7 says goes on, and nothing is WRONG."""
    with relayed(server, f"answer {status} LOCK 2") as relay, Session(relay) as session:
        session.refuse(status, Session.next_lock)
        session.client.renew()
        session.next_lock()
        session.client.unlock(session.file, owner="l")
        session.client.close(session.file)
    assert any(f"after NFS4ERR_{status} its owner goes on with LOCK" in line for line in relay.lines) or any(
        "the same call comes" in line for line in relay.lines
    )


@pytest.mark.parametrize("status", LOCKS)
def test_wrong_sequence_id(status, server):
    """A client whose sequence id does the other thing is WRONG."""
    staying = status in STAYING
    moves = "moves on" if staying else "doesn't move on"
    with pytest.raises(RelayError, match=rf"WRONG 1: after NFS4ERR_{status} the sequence id {moves}: LOCK .*9\.1\.7"):
        with relayed(server, f"answer {status} LOCK 2") as relay, Session(relay) as session:
            session.refuse(status, Session.next_lock)
            session.client.renew()
            session.lock_by(1 if staying else -1)


class Gone(NamedTuple):
    """A rule; what meets it; how a right client goes on; what a wrong one does; and the words of the WRONG line."""

    rule: str
    meet: Callable[[Session], object]
    right: Callable[[Session], object]
    wrong: Callable[[Session], object]
    words: str

    @property
    def status(self) -> str:
        return self.rule.split()[1]


def read(session: Session) -> object:
    return session.client.read(session.file)


def read_again(session: Session) -> object:
    return session.client.raw([op.putfh(session.file.filehandle), op.read(session.file.stateid)])


def renew(session: Session) -> Any:
    return session.client.raw([op.renew(session.client.clientid)])


def probe(session: Session) -> object:
    session.client.renew()
    return read_again(session)


def reopen(session: Session) -> object:
    session.client.open("a", owner="o")
    return read_again(session)


def restart(session: Session) -> object:
    session.client.restart()
    session.file = session.client.open("a", owner="o")
    return session.client.read(session.file)


def give_up(session: Session) -> object:
    session.client.close(session.file)
    return None


def open_next(session: Session) -> object:
    return session.client.open("b", owner="p")


def path_again(session: Session) -> object:
    return session.client.begin()


STATEID = r"its stateid is used again: READ .*\(RFC 7530, section "
CLIENTID = r"its client ID is used again: {} .*\(RFC 7530, section "
GONE = [
    *(
        Gone(f"answer {status} READ 1", read, right, read_again, STATEID + section)
        for status, section in (
            ("EXPIRED", r"9\.6\.3\.3"),
            ("STALE_STATEID", r"9\.1\.1"),
            ("BAD_STATEID", r"9\.6\.3\.3"),
            ("ADMIN_REVOKED", r"9\.8"),
        )
        for right in (probe, reopen, restart, give_up)
    ),
    *(
        Gone(f"answer {status} RENEW 1", renew, right, renew, CLIENTID.format("RENEW") + section)
        for status, section in (("EXPIRED", r"9\.6\.3\.3"), ("STALE_CLIENTID", r"9\.1\.1"))
        for right in (restart, path_again)
    ),
    *(
        Gone(f"answer {status} OPEN 2", lambda it: it.client.open("b", owner="q"), right, open_next, words)
        for status, words in (
            ("STALE_CLIENTID", CLIENTID.format("OPEN") + r"9\.1\.1"),
            ("EXPIRED", CLIENTID.format("OPEN") + r"9\.6\.3\.3"),
        )
        for right in (restart, renew)
    ),
    *(
        Gone("answer CB_PATH_DOWN RENEW 1", renew, right, restart, r"SETCLIENTID has another verifier.*16\.28\.5")
        for right in (path_again, renew, read)
    ),
]


@pytest.mark.parametrize("gone", GONE, ids=lambda it: f"{it.status} {it.rule.split()[2]} {it.right.__name__}")
def test_right_behind(gone, server):
    """A client that recovers, asks, or gives up what it has lost does nothing WRONG."""
    with relayed(server, gone.rule) as relay, Session(relay) as session:
        if gone.meet is renew:
            assert renew(session).status == Status[gone.status]
        else:
            session.refuse(gone.status, gone.meet)
        gone.right(session)
    assert relay.lines[-1].endswith(" 1 faults, 0 wrong")


WRONG = {(it.rule, it.words): it for it in GONE}.values()


@pytest.mark.parametrize("gone", WRONG, ids=lambda it: f"{it.status} {it.rule.split()[2]}")
def test_wrong_behind(gone, server):
    """A client that uses again what is gone is WRONG once, by the section that says so."""
    with pytest.raises(RelayError, match=f"WRONG 1: after NFS4ERR_{gone.status} {gone.words}") as told:
        with relayed(server, gone.rule) as relay, Session(relay) as session:
            gone.meet(session) if gone.meet is renew else session.refuse(gone.status, gone.meet)
            gone.wrong(session)
            gone.wrong(session)
    assert str(told.value).count("WRONG") == 1


def test_recovery_is_told(server):
    with relayed(server, "answer EXPIRED READ 1") as relay, Session(relay) as session:
        session.refuse("EXPIRED", read)
        restart(session)
    assert any(
        re.match("1: after NFS4ERR_EXPIRED its client sends SETCLIENTID .* on connection 1$", it) for it in relay.lines
    )


def test_retransmission_is_no_use(server):
    """The same call by the same xid on another connection may have had no answer, and isn't WRONG."""
    with relayed(server, "answer EXPIRED READ 1") as relay, Session(relay) as session:
        session.refuse("EXPIRED", read)
        session.client.disconnect()
        session.client.again()
    assert any("1: the same call comes" in line for line in relay.lines)


def test_what_stands(server):
    """Another client's LOCK meets the lock that a status called gone, and a line says that it stands at the server."""
    with relayed(server, "answer EXPIRED WRITE 1") as relay, Session(relay) as one:
        with Client(*relay.address, f"c{next(uids)}") as two:
            one.refuse("EXPIRED", lambda it: it.client.write(it.file, b"x"))
            two.begin()
            file = two.open("a", owner="other")
            with pytest.raises(StatusError) as refused:
                two.lock(file, one.begin, 5)
            assert refused.value.status == Status.DENIED
            two.close(file)
        one.client.renew()
    found = [it for it in relay.lines if "meets what NFS4ERR_EXPIRED calls gone; it stands at the server" in it]
    assert len(found) == 1 and re.match("1: connection 2, LOCK .* -> NFS4ERR_DENIED: ", found[0])


def test_what_another_state_meets(server):
    """A LOCK that meets a lock of somebody else isn't told so."""
    with relayed(server, 'answer EXPIRED WRITE 1 of owner "w"') as relay, Session(relay) as holder:
        with Client(*relay.address, f"c{next(uids)}") as one, Client(*relay.address, f"c{next(uids)}") as two:
            one.begin(), two.begin()
            lost, file = one.open("b", owner="w"), two.open("a", owner="other")
            with pytest.raises(StatusError):
                one.write(lost, b"x")
            with pytest.raises(StatusError) as refused:
                two.lock(file, holder.begin, 5)
            assert refused.value.status == Status.DENIED
    assert not any("calls gone" in line for line in relay.lines)


def test_rest_of_a_result(server):
    """A status that has more behind it comes in the form of RFC 7531: a lock that conflicts, and who uses a client."""
    with relayed(server, "answer DENIED LOCKT 1", "answer CLID_INUSE SETCLIENTID 2") as relay, Session(
        relay
    ) as session:
        denied = session.client.lock_test(session.file, 3, 4, owner="x")
        assert denied is not None and (denied.offset, denied.length, denied.owner.name) == (3, 4, b"between")
        with pytest.raises(StatusError) as refused:
            session.client.begin()
        assert refused.value.status == Status.CLID_INUSE
