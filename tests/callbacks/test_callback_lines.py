"""The lines of `nfs4state serve` that tell why a callback failed, or that its reply is missing."""
import pytest

from callbacks.callback_runs import ON_CALLBACK, expect_null_call
from helpers.callback_client import Borrower
from helpers.callback_peers import IDENT, answer_another, nobody
from helpers.expecting_client import done, expect
from nfs4tools.callbacks.listener import (
    CALLBACK_PROGRAM,
    Listener,
    accept,
    keep_silent,
    refuse_credential,
    refuse_program,
    universal_address,
)
from nfs4tools.messages import NFS4_OK, SETCLIENTID_CONFIRM, compound, results
from nfs4tools.wire import Callback

pytestmark = pytest.mark.quick

# The lines of a kind that come in a second at most.
LINES_A_SECOND = 10

# The seconds after which a reply that is missing is told.
MISSED = 5

# What a listener does with CB_NULL, and what the line says.
REASONS = {
    "refuses the program": (refuse_program, "PROG_UNAVAIL"),
    "refuses the credential": (refuse_credential, "AUTH_ERROR"),
    "answers another call": (answer_another, "reply of another xid"),
    "closes behind the call": (lambda heard: heard.stream.close(), "connection closed before a reply"),
}


@pytest.mark.parametrize("answer, reason", REASONS.values(), ids=REASONS)
def test_reason(run, answer, reason):
    """Why a path is down is told once, with the client and the address."""
    with Listener(answer) as home, run() as server:
        client = server.client(1, home)
        expect("the marks", server.marks(client, 1), [False])
        server.end()
        address = b"tcp " + universal_address(home.address).encode()
        expect(
            "the lines",
            server.told,
            [b"client %d: callback to %s failed: %s\n" % (client.number, address, reason.encode())],
        )


def test_missing_reply(run):
    """A reply that is missing for five seconds is told once, while the call goes on; and it may come after that."""
    with Listener(keep_silent) as home, run() as server:
        client = server.client(1, home)
        hanging = expect_null_call(home)
        server.served.errors += server.served.next_line()
        accept(hanging)
        expect("the marks", server.marks(client, 1), [True])
        server.end()
        expect("the reasons", server.reasons(client), [f"no reply for {MISSED} s yet"])


def test_odd_address(run):
    """The bytes of an address that don't print are escaped: whatever a client gives, its line is one."""
    lines = []
    with run() as server:
        clients = [
            server.client(uid, Callback(CALLBACK_PROGRAM, *address, IDENT))
            for uid, address in ((1, (b"t\x1b[2J\n", b'\xff"\\\r a')), (2, (b"", b"")))
        ]
        for client, shown in zip(clients, (rb"t\x1b[2J\n \xff\"\\\r\x20a", rb'"" ""')):
            expect("the marks", server.marks(client, 1), [False])
            lines.append(b"client %d: callback to %s failed: no usable address\n" % (client.number, shown))
        server.end()
        expect("the lines", sorted(server.told), sorted(lines))


def test_many_reasons(run):
    """Of many reasons at once ten a second are told, and then how many were left out."""
    with nobody() as callback, run() as server:
        peer = server.peer()
        clients = [Borrower(peer, uid) for uid in range(1, 4 * LINES_A_SECOND + 1)]
        # All are confirmed at once, and called back then.
        confirmations = [compound(client.uid, client.identify(callback), uid=client.uid) for client in clients]
        peer.send(b"".join(confirmations))
        for client in clients:
            expect("a confirmation", peer.receive(), results(client.uid, NFS4_OK, done(SETCLIENTID_CONFIRM)))
        for client in clients:
            expect("the marks", server.marks(client, 1), [False])
        server.end()
        found = [ON_CALLBACK.fullmatch(line) for line in server.told]
        left_out = sum(int(line["left_out"]) for line in found if line["left_out"])
        told = sum(line["client"] is not None for line in found)
        expect("the sum", told + left_out, len(clients))
        expect("whether some were left out", left_out > 0, True)
