"""Rules that aim: at a connection, a client, an owner, a file, and replies of a status."""
import re
from typing import Any

import pytest

from helpers.between_runs import serving, uids
from nfs4tools import (
    CallbackListener,
    Client,
    NoRule,
    OfClient,
    OfConnection,
    OfFile,
    OfOwner,
    Relay,
    Rule,
    Status,
    StatusError,
    each,
    one_in,
    operations as op,
)
from nfs4tools.between.reading import rule_of, rules_of
from nfs4tools.between.vocabulary import Fault
from nfs4tools.messages import NULL, call, reply
from nfs4tools.processes import Peer


class Two:
    """Two clients on connections 1 and 2, each with the files a and b open by owners of their own."""

    def __init__(self, relay):
        self.clients = [Client(relay.host, relay.port, f"client {name} {next(uids)}") for name in "xy"]
        self.files = []
        for name, client in zip("xy", self.clients):
            client.begin()
            self.files.append({path: client.open(path, owner=f"{name}{path}", access=3) for path in "ab"})

    def __enter__(self):
        return self

    def __exit__(self, *_):
        for client in self.clients:
            client.disconnect()

    def lock_all(self):
        """Four LOCKs: a and b of each client, the first before the second."""
        for number, (client, files) in enumerate(zip(self.clients, self.files)):
            for path in "ab":
                client.lock(files[path], 100 * number, 5, owner=f"{'xy'[number]}{path} locker")

    def unlock_all(self):
        for number, (client, files) in enumerate(zip(self.clients, self.files)):
            for path in "ab":
                client.unlock(files[path], owner=f"{'xy'[number]}{path} locker")


def struck(relay, count=1):
    """Of each fault its connection, and the operation's words."""
    found = [re.match(r"\d+: .*?: connection (\d+), (.*?): the call is sent again$", line) for line in relay.lines]
    told = [(int(it[1]), it[2]) for it in found if it]
    assert len(told) == count, relay.lines
    return told


def test_connection(server):
    """Counts run over what is aimed at: the second LOCK of connection 2 is the fourth of all."""
    with Relay(server, "twice LOCK 2 of connection 2") as relay, Two(relay) as two:
        two.lock_all()
        two.unlock_all()
    assert struck(relay)[0][0] == 2 and "yb locker" in struck(relay)[0][1]


def test_client(server):
    with Relay(server, Rule(Fault.TWICE, "LOCK", each(), aim=OfClient(b"client y"))) as relay:
        with Client(*relay.address, "client x") as one, Client(*relay.address, "client y") as other:
            for client in (one, other):
                client.begin()
                file = client.open("a", owner="o")
                client.lock(file, 0, 5)
                client.unlock(file)
                client.close(file)
    assert struck(relay)[0][0] == 2
    assert relay.faults[0].counted.count == 1


@pytest.mark.parametrize("operation", ["SETCLIENTID", "SETCLIENTID_CONFIRM", "OPEN", "LOCK", "LOCKT", "READ", "LOCKU"])
def test_operations_of_a_client(operation, server):
    """Operations by a client ID, by a stateid, and by an owner are of the client whose id SETCLIENTID has."""
    name = f"aimed {next(uids)}"
    with Relay(server, f'twice {operation} each of client "{name}"') as relay:
        with Client(*relay.address, f"other {next(uids)}") as other, Client(*relay.address, name) as client:
            for number, it in enumerate((other, client)):
                it.begin()
                file = it.open("a", owner="o")
                it.lock(file, 10 * number, 5)
                it.lock_test(file, 100, 5)
                it.read(file)
                it.unlock(file)
                it.close(file)
                it.renew()
    assert {connection for connection, _ in struck(relay, len(relay.faults))} == {2}


def test_client_by_its_connection(server):
    """An operation that names no client is of the client that its connection named before."""
    name = f"aimed {next(uids)}"
    with Relay(server, f'twice GETATTR 1 of client "{name}"') as relay:
        with Client(*relay.address, f"other {next(uids)}") as other, Client(*relay.address, name) as client:
            for it in (other, client):
                it.begin()
                it.attributes("a", "size")
    assert struck(relay)[0][0] == 2


def test_owner(server):
    """Of an open owner and of a lock owner: operations that name it, or a stateid of it."""
    rules = [
        'twice OPEN_CONFIRM each of owner "yb"',
        'twice LOCK 1 of owner "yb"',
        'twice LOCKU each of owner "xa locker"',
    ]
    with Relay(server, *rules) as relay, Two(relay) as two:
        two.lock_all()
        two.unlock_all()
    assert [it[0] for it in struck(relay, 3)] == [2, 2, 1]


def test_file(server):
    """OPEN by a name, and what its answer gave: READ by the stateid, GETATTR by the filehandle."""
    rules = ['twice OPEN 2 of "b"', 'twice LOCK 2 of "b"', 'twice READ 1 of "b"', 'twice GETATTR 1 of "b"']
    with Relay(server, *rules) as relay, Two(relay) as two:
        two.lock_all()
        two.unlock_all()
        for path in "ab":
            two.clients[0].raw([op.putfh(two.files[0][path].filehandle), op.getattr("size")])
            two.clients[1].read(two.files[1][path])
        handle = two.files[0]["b"].filehandle
    found = struck(relay, 4)
    assert [connection for connection, _ in found] == [2, 2, 1, 2]
    assert '"b"' in found[0][1] and "yb locker" in found[1][1] and handle


def test_file_by_lookup(server):
    with Relay(server, 'twice GETATTR 1 of "b"') as relay, Client(*relay.address, f"c{next(uids)}") as client:
        client.attributes("a", "size")
        client.attributes("b", "size")
        client.attributes("b", "size")
    assert relay.faults[0].counted.count == 2


def test_any_of_a_file(server):
    """`any` counts calls with an operation of the file."""
    with Relay(server, 'twice any 2 of "b"') as relay, Two(relay):
        pass
    assert '"b"' in struck(relay)[0][1] or "OPEN_CONFIRM" in struck(relay)[0][1]


def test_names_in_quotes(server):
    name = b'a "client" \\ \xff # 1'
    rule = rule_of('twice RENEW each of client "a \\"client\\" \\\\ \\xff # 1" # A comment.')
    assert rule == Rule(Fault.TWICE, "RENEW", each(), aim=OfClient(name))
    with Relay(server, rule) as relay, Client(*relay.address, name) as client:
        client.begin()
        client.renew()
    assert len(relay.faults) == 1


@pytest.mark.needs("nfs4state")
def test_callbacks_of_a_client():
    """A callback is of the client that is called at its address."""
    with serving("program", tree=None) as server, CallbackListener() as home, CallbackListener() as other_home:
        with Relay(server, 'twice CB_NULL 1 of client "aimed"') as relay:
            with Client(*relay.address, "other", callback=other_home) as other:
                with Client(*relay.address, "aimed", callback=home) as client:
                    other.begin()
                    other_home.wait_for_null()
                    client.begin()
                    home.wait_until(lambda: len(home.nulls) > 1, 20, "no second CB_NULL")
        assert len(other_home.nulls) == 1
    assert relay.faults[0].place == "callback connection 2"


# Which calls.

# By --help, which of seven calls meet a rule.
WHICH = {
    "1": [1],
    "3": [3],
    "each": [1, 2, 3, 4, 5, 6, 7],
    "each 1": [1, 2, 3, 4, 5, 6, 7],
    "each 2": [2, 4, 6],
    "each 3": [3, 6],
    "each 7": [7],
    "1 in 1": [1, 2, 3, 4, 5, 6, 7],
}


@pytest.mark.parametrize("which", WHICH)
def test_which_calls(which, server):
    """Of seven calls by these xids."""
    with Relay(server, f"twice NULL {which}") as relay, Peer(relay.address) as peer:
        ask_all(peer, range(1, 8))
    assert [it.call.xid for it in relay.faults] == WHICH[which]


@pytest.mark.parametrize("which", ["each", "each 2", "each 3"])
def test_which_calls_of_a_connection(which, server):
    """Counts run over the calls of the second connection alone, whose xids are above 100."""
    with Relay(server, f"twice NULL {which} of connection 2") as relay, Peer(relay.address) as one:
        # The first connection is there before the second one.
        ask_all(one, [50])
        with Peer(relay.address) as other:
            for number in range(1, 8):
                ask_all(one, [number])
                ask_all(other, [100 + number])
    assert [it.call.xid for it in relay.faults] == [100 + number for number in WHICH[which]]


def ask_all(peer, numbers):
    """NULL by each of these xids."""
    for number in numbers:
        peer.send(call(number, NULL))
        assert peer.receive() == reply(number)


# Replies of a status.


def denied(client, file):
    with pytest.raises(StatusError) as refused:
        client.lock(file, 0, 5, owner="denied")
    assert refused.value.status == Status.DENIED


@pytest.mark.parametrize("fault", ["split 3", "hold 0.2"])
def test_with_status(fault, server):
    """Only replies of the status count: the second LOCK that is denied is the fourth of all."""
    with Relay(server, f"{fault} LOCK 2 with status DENIED") as relay:
        with Client(*relay.address, f"x{next(uids)}") as one, Client(*relay.address, f"y{next(uids)}") as other:
            one.begin(), other.begin()
            file, its = one.open("a"), other.open("a")
            one.lock(file, 0, 10)
            denied(other, its)
            other.lock(its, 50, 5)
            denied(other, its)
            other.unlock(its)
            one.unlock(file)
    assert "-> NFS4ERR_DENIED: " in relay.lines[0] and relay.faults[0].counted.count == 2


@pytest.mark.parametrize("fault", ["lose-reply", "cut-reply"])
def test_loss_with_status(fault, server):
    with Relay(server, f'{fault} LOCK each of "a" with status DENIED') as relay:
        with Client(*relay.address, f"x{next(uids)}") as one, Client(*relay.address, f"y{next(uids)}") as other:
            other.tries = 2
            one.begin(), other.begin()
            file, its = one.open("a"), other.open("a")
            one.lock(file, 0, 10)
            denied(other, its)
            one.unlock(file)
    assert any("answered NFS4ERR_DENIED, the stored reply" in line for line in relay.lines)


def test_any_with_status(server):
    with Relay(server, "split 2 any 1 with status NOENT") as relay, Client(*relay.address, f"x{next(uids)}") as client:
        client.attributes("a", "size")
        client.raw([op.putrootfh(), op.lookup("none")])
    assert "-> NFS4ERR_NOENT: the reply is given in 2 fragments" in relay.lines[0]


def test_a_status_of_another_operation(server):
    """The status is that of the rule's operation: what fails behind it doesn't count."""
    relay = Relay(server, "split 2 PUTROOTFH 1 with status NOENT")
    with Client(*relay.address, f"x{next(uids)}") as client:
        client.raw([op.putrootfh(), op.lookup("none")])
    relay.close()
    assert "never met: split 2 PUTROOTFH 1 with status NOENT (0 such calls)" in relay.lines
    with Relay(server, "split 2 PUTROOTFH 1 with status OK") as relay, Client(*relay.address, "x") as client:
        client.raw([op.putrootfh(), op.lookup("none")])


# Words.

TEXTS = {
    "OPEN 2 of connection 3": Rule(Fault.TWICE, "OPEN", 2, aim=OfConnection(3)),
    'LOCK 1 of "b"': Rule(Fault.TWICE, "LOCK", 1, aim=OfFile(b"b")),
    'CLOSE each of client "NAME"': Rule(Fault.TWICE, "CLOSE", each(), aim=OfClient(b"NAME")),
    'CLOSE each 3 of owner "o"': Rule(Fault.TWICE, "CLOSE", each(3), aim=OfOwner(b"o")),
    "READ 1 in 3": Rule(Fault.TWICE, "READ", one_in(3)),
}


def test_values_and_texts():
    """A rule as a value has its text, and the text its rule."""
    for text, rule in TEXTS.items():
        assert rule_of(f"twice {text}") == rule
        assert rule_of(str(rule)) == rule
    for rule in (
        Rule(Fault.SPLIT, "READ", 1, value=7, status="OK"),
        Rule(Fault.HOLD, "READ", 1, value=0.5),
        Rule(Fault.ANSWER, "READ", 1, value="DELAY", aim=OfFile(b'"\\\xff')),
        Rule(Fault.ANSWER, "NULL", 1, value="SYSTEM_ERR"),
    ):
        assert rule_of(str(rule)) == rule
    assert rules_of(["# No rule.", "", "twice OPEN 1 # One.", '  twice OPEN 1 of "#"']) == [
        Rule(Fault.TWICE, "OPEN"),
        Rule(Fault.TWICE, "OPEN", aim=OfFile(b"#")),
    ]


WHY = {
    "lose-reply LOKC 1": '"LOKC" is no operation, but LOCK is; in: lose-reply LOKC 1',
    "lose-replies LOCK 1": '"lose-replies" is no fault, but lose-reply is',
    "answer DELAI OPEN 1": '"DELAI" is no status of RFC 7530 and no error of RPC, but DELAY is',
    "answer DELAY RENEW 1": r"RENEW isn't answered NFS4ERR_DELAY (RFC 7530, section 13.2)",
    "answer GRACE CB_RECALL 1": r"CB_RECALL isn't answered NFS4ERR_GRACE (RFC 7530, section 13.3)",
    "answer DELAY any 1": "any can be answered an error of RPC alone, such as SYSTEM_ERR; not DELAY",
    "twice OPEN": 'which calls (3, "each", "each 10" or "1 in 10") is missing',
    "twice OPEN 2 in 3": '"2 in 3" doesn\'t say which calls; 3, "each", "each 10" or "1 in 10" does',
    "twice OPEN each 0": '"each 0" doesn\'t say which calls',
    "split 0 OPEN 1": '"0" is no number of fragments, which is 1 to 1000',
    "hold x OPEN 1": '"x" is no number of seconds, which is above 0 and up to 86400',
    "twice OPEN 1 2": '"2" is more than a rule has',
    "twice OPEN 1 of": 'what it is aimed at ("NAME", connection N, client "NAME" or owner "NAME") is missing',
    "twice OPEN 1 of b": '"of b" aims at nothing; "of" stands before "NAME"',
    "twice OPEN 1 of connection x": '"of connection x" aims at nothing',
    "twice OPEN 1 of client x": '"of client x" aims at nothing',
    'twice OPEN 1 of "b': "a quote has no end",
    "twice OPEN 1 with status OK": '"with status" is of a fault of replies (lose-reply, cut-reply, split, hold, other-xid), '
    "and twice is none",
    "split 2 OPEN 1 with status X": '"X" is no status of RFC 7530',
    "split 2 OPEN 1 with": '"status" is missing',
    "split 2 OPEN 1 with OK": '"with" stands before "status" alone',
    "split 2 NULL 1 with status OK": "the reply to NULL has no status",
}


@pytest.mark.parametrize("text", WHY)
def test_why_no_rule(text):
    """What is no rule says which word is wrong, and what would be right."""
    with pytest.raises(NoRule) as refused:
        rule_of(text)
    assert WHY[text] in str(refused.value)
    assert str(refused.value).endswith(f"in: {text}")


NO_VALUES: list[dict[str, Any]] = [
    dict(fault=Fault.TWICE, operation="OPEN", value=3),
    dict(fault=Fault.TWICE, operation="OPEN", which=0),
    dict(fault=Fault.ANSWER, operation="OPEN"),
    dict(fault=Fault.HOLD, operation="OPEN", value="3"),
    dict(fault=Fault.TWICE, operation="OPENS"),
    dict(fault=Fault.TWICE, operation="OPEN", status="OK"),
    dict(fault=Fault.SPLIT, operation="OPEN", value=2, status="OKAY"),
]


@pytest.mark.parametrize("given", NO_VALUES, ids=str)
def test_values_that_are_no_rules(given):
    with pytest.raises(NoRule):
        Rule(**given)
