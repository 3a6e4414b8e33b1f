"""What clients and servers make of faults, also where they don't do as RFC 7530 says, and what `tools/between` has to
tell of it. Each case has rules, separated by |, a client and its peer, and what a server answers to calls that come
again, if it isn't what it should; then the words of the lines that are told as WRONG, each of which has one here, words
that come in others, a status, if it isn't 1 where something is wrong and else 0, and options."""
from collections.abc import Sequence
from typing import NamedTuple

from helpers.between_peers import (
    Ahead,
    Change,
    Content,
    GivingUp,
    Hurrying,
    Impatient,
    Late,
    Patient,
    Renumbering,
    Resender,
    Resetting,
    Respelling,
    Stuck,
    Wandering,
    forgets_a_close,
    gives_another_stateid,
)


class Case(NamedTuple):
    name: str
    rules: str
    client: type[Patient] = Patient
    peer: type[Resender] = Resender
    change: Change | None = None
    wrong: Sequence[str] = ()
    told: Sequence[str] = ()
    status: int | None = None
    options: Sequence[str] = ()


AGAIN, ORDER, KEPT = (rf" \(RFC 7530, section {section}\)$" for section in (r"3\.1\.1", r"9\.1\.7", r"9\.1\.8"))
FORGOTTEN = rf"WRONG 1: answered \S*BAD_STATEID, another answer than \S*OK{KEPT}"
ANOTHER = rf"^WRONG 1: answered \S*OK, another answer than \S*OK{KEPT}"
STANDS = rf"comes again on .*connection.*, which is still open{AGAIN}"
IN_ITS_PLACE = rf"^WRONG 1: another request comes instead: OPEN_DOWNGRADE.* s later, on connection 2{ORDER}"
A_SECOND = "--lease", "1"
CASES = [
    Case("no rule", "", told=["11 calls, 0 faults, 0 wrong"]),
    Case(
        "faults one after the other",
        "lose-reply SETCLIENTID 1 | lose-reply OPEN_CONFIRM 1 | lose-call LOCK 1 | lose-reply LOCK 2 | "
        "cut-reply LOCK 3 | cut-call WRITE 1 | hold 0.4 READ 1 | twice LOCKU 1 | lose-reply CLOSE 1",
        told=[
            f"^{number}: {words}"
            for number, words in enumerate(
                (
                    "lose-reply SETCLIENTID 1: connection 1, SETCLIENTID.*: the reply is lost; the connection is ended$",
                    "lose-reply OPEN_CONFIRM 1: connection 2, .*: the reply is lost; the connection is ended$",
                    "lose-call LOCK 1: connection 3, LOCK.*: the call is lost; the connection is ended$",
                    "lose-reply LOCK 2: connection 4, LOCK.* -> .*OK.*: the reply is lost; the connection is ended$",
                    "cut-reply LOCK 3: connection 5, LOCK.*: half of the reply is given; the connection is ended$",
                    "cut-call WRITE 1: connection 6, WRITE.*: half of the call is passed on; the connection is ended$",
                    r"hold 0\.4 READ 1: connection 7, READ.*: the reply is held for 0\.4 s$",
                    "twice LOCKU 1: connection 7, LOCKU.*: the call is sent again$",
                    "lose-reply CLOSE 1: connection 7, CLOSE.*: the reply is lost; the connection is ended$",
                ),
                1,
            )
        ]
        + [
            "^2: answered .*OK, the stored reply",
            "^3: answered .*OK, the first answer",
            "^8: answered .*the stored reply",
            r"^1: comes again [0-9.]+ s later, on connection 2, with the same xid 0x00000001$",
            "9 faults, 0 wrong",
        ],
    ),
    Case(
        "a DELAY and one never met",
        "answer DELAY OPEN 1 | split 3 READ 2",
        status=1,
        told=["never met: split 3 READ 2", r"\b1 faults, 0 wrong"],
    ),
    Case("fragments", "split 7 any each 1", told=["is given in 7 fragments", "11 faults, 0 wrong"]),
    Case("each fourth", "split 2 any each 4", told=[r"\b2 faults, 0 wrong"]),
    Case("all twice", "twice any each 1", told=["LOCK .*sent again\n.*the stored reply", "11 faults, 0 wrong"]),
    Case("each reply lost", "lose-reply any each 1", told=["the same xid", "the stored reply", "11 faults, 0 wrong"]),
    Case("each call lost", "lose-call any each 1", told=["the same xid", "the first answer", "11 faults, 0 wrong"]),
    Case("each reply cut", "cut-reply any each 1", told=["the stored reply", "11 faults, 0 wrong"]),
    Case("each call cut", "cut-call any each 1", told=["the first answer", "11 faults, 0 wrong"]),
    Case(
        "answers",
        "answer DELAY OPEN 1 | answer GRACE LOCK 2 | answer RESOURCE LOCK 4 | answer DELAY CLOSE 1 | "
        "answer DELAY PUTFH 3 | answer RESOURCE WRITE 1",
        told=["answered in the server's place", "6 faults, 0 wrong"],
    ),
    Case(
        "answers before the state is known",
        "answer DELAY SETCLIENTID 1 | answer RESOURCE SETCLIENTID_CONFIRM 1 | "
        "answer GRACE OPEN 1 | answer RESOURCE OPEN_CONFIRM 1 | answer DELAY PUTROOTFH 1",
        told=["5 faults, 0 wrong"],
    ),
    Case(
        "ahead of the server",
        "answer DELAY LOCK 2 | lose-reply LOCKU 1 | answer DELAY CLOSE 1",
        told=["LOCKU.*-> .*OK.*: the reply is lost", "the stored reply", "3 faults, 0 wrong"],
    ),
    Case("GRACE at a lock", "answer GRACE LOCK 2", told=[r"^1: after \S*GRACE its owner goes on with LOCK"]),
    Case("stuck before its owner is known", "answer DELAY OPEN 1", Stuck, told=[r"\b1 faults, 0 wrong"]),
    Case("ahead before its owner is known", "answer RESOURCE OPEN 1", Ahead, told=[r"\b1 faults, 0 wrong"]),
    Case("away", "away 1 READ 1", told=["all connections are ended, for 1 s", r"comes again [1-9]\d*\.\d+ s later"]),
    Case("never", "lose-reply LOCK 9", status=1, told=[r"^never met: lose-reply LOCK 9 \(3 such calls\)$"]),
    Case(
        "other operations before it",
        "lose-reply CLOSE 1",
        Respelling,
        GivingUp,
        told=["comes again", "the stored reply", "0 wrong"],
    ),
    Case(
        "another xid",
        "lose-reply LOCK 1 | lose-call WRITE 1",
        peer=Renumbering,
        told=[
            "^1: comes again.*, with xid 0x00010005 in place of 0x00000005$",
            "^2: comes again.*, with xid 0x00010008 in place of 0x00000008$",
        ],
    ),
    Case("gives up a READ", "lose-reply READ 1", peer=GivingUp, told=["^1: never comes again: READ", "0 wrong"]),
    Case("ends a connection", "hold 12 READ each 1", peer=Impatient, told=["^1: comes again", r"\b1 faults, 0 wrong"]),
    Case(
        "resets a connection", "hold 12 READ each 1", peer=Resetting, told=["^1: comes again", r"\b1 faults, 0 wrong"]
    ),
    Case("resets one at a LOCK", "hold 12 LOCK 2", peer=Resetting, told=["^1: answered .*OK, the stored reply"]),
    Case(
        "an owner that is forgotten",
        "lose-reply CLOSE 1",
        Content,
        Late,
        forgets_a_close,
        options=A_SECOND,
        told=[r"^1: answered \S*BAD_STATEID, as for a forgotten owner$", r"\b1 faults, 0 wrong"],
    ),
    Case("moves on", "lose-reply CLOSE 1", Wandering, GivingUp, wrong=[IN_ITS_PLACE]),
    Case("moves on behind a cut reply", "cut-reply CLOSE 1", Wandering, GivingUp, wrong=[IN_ITS_PLACE]),
    Case("moves on behind a lost call", "lose-call CLOSE 1", Wandering, GivingUp, wrong=[IN_ITS_PLACE]),
    Case("gives up", "lose-reply CLOSE 1", peer=GivingUp, wrong=["^WRONG 1: never comes again: CLOSE"]),
    Case("gives up a lost call", "lose-call LOCK 2", peer=GivingUp, wrong=["^WRONG 1: never comes again: LOCK"]),
    Case("hurries", "hold 8 READ 1", peer=Hurrying, wrong=[STANDS]),
    Case("hurries with a LOCK", "hold 8 LOCK 2", peer=Hurrying, wrong=[STANDS]),
    Case(
        "stuck behind DELAY",
        "answer DELAY CLOSE 1",
        Stuck,
        wrong=[rf"^WRONG 1: after \S*DELAY the sequence id doesn't move on: CLOSE.*{ORDER}"],
    ),
    Case(
        "stuck behind GRACE",
        "answer GRACE LOCK 2",
        Stuck,
        wrong=[rf"^WRONG 1: after \S*GRACE the sequence id doesn't move on: .*{ORDER}"],
    ),
    Case(
        "ahead behind RESOURCE",
        "answer RESOURCE LOCK 2",
        Ahead,
        wrong=[rf"^WRONG 1: after \S*RESOURCE the sequence id moves on: LOCK.*{ORDER}"],
    ),
    Case(
        "ahead of what wasn't run",
        "answer DELAY PUTFH 3",
        Ahead,
        wrong=[rf"^WRONG 1: its LOCK wasn't run, but the sequence id moves on: .*{ORDER}"],
    ),
    Case("forgetful", "lose-reply CLOSE 1", change=forgets_a_close, wrong=[FORGOTTEN]),
    Case("forgetful, of a cut reply", "cut-reply CLOSE 1", change=forgets_a_close, wrong=[FORGOTTEN]),
    Case("forgetful within a lease", "lose-reply CLOSE 1", peer=Late, change=forgets_a_close, wrong=[FORGOTTEN]),
    Case("forgetful, twice", "twice CLOSE 1", change=forgets_a_close, wrong=[FORGOTTEN]),
    Case("another stateid", "lose-reply LOCK 2", change=gives_another_stateid, wrong=[ANOTHER]),
    Case(
        "another stateid a lease later",
        "lose-reply LOCK 2",
        peer=Late,
        change=gives_another_stateid,
        wrong=[ANOTHER],
        options=A_SECOND,
    ),
]
