"""100 delegations of ten clients that are recalled at once. Two of the clients never answer a recall. The others get
theirs in time, and in order."""
import time
from contextlib import ExitStack

import pytest

from callbacks.callback_runs import SOON, expect_recall, expect_time
from helpers.callback_peers import accept_null, nobody
from helpers.expecting_client import done, expect
from helpers.server_helpers import tried_again
from nfs4tools.callbacks.listener import Listener, accept
from nfs4tools.messages import NFS4_OK, OPEN, PUTROOTFH, compound, results, words
from nfs4tools.wire import READ, Status, WRITE

pytestmark = pytest.mark.quick

# The clients whose delegations are recalled at once, those of them that never answer a recall, and the files.
HOLDERS, MUTE, NAMES = 10, (0, 5), [b"file %d" % number for number in range(10)]


@pytest.mark.alone
@tried_again
def test_many_recalls(run, path_of, tell):
    """Each of ten clients has a delegation of each of ten files, and all are recalled at once. Two clients don't answer
    recalls; each of the others gets all of its own in time, once, and in the order of the OPENs."""
    tree = path_of("many.toml")
    with open(tree, "w", encoding="utf-8") as file:
        file.writelines(f'[[file]]\npath = "{name.decode()}"\n' for name in [b"own", *NAMES])
    with ExitStack() as stack:
        homes = [stack.enter_context(Listener(accept_null if place in MUTE else accept)) for place in range(HOLDERS)]  # type: ignore[arg-type]
        callback, server = stack.enter_context(nobody()), stack.enter_context(run("--tree", tree))
        holders = [server.client(place + 1, home) for place, home in enumerate(homes)]
        lent = [[holder.borrow(name, READ) for name in NAMES] for holder in holders]
        begun = open_all(server.client(HOLDERS + 1, callback))
        moments = [expect_all_recalls(*each, place in MUTE) for place, each in enumerate(zip(homes, holders, lent))]
        seconds = [moment - begun for place, moment in enumerate(moments) if place not in MUTE]
        for place, holder in enumerate(holders):
            expect("the marks", server.marks(holder, 1 if place in MUTE else 11), [True] * (1 if place in MUTE else 11))
        server.end(seconds=SOON)
        expect(
            "how many calls came",
            [len(home.heard) for home in homes],
            [2 if place in MUTE else 11 for place in range(HOLDERS)],
        )
        expect_time("all recalls", max(seconds), SOON)
        tell(
            f"{HOLDERS * len(NAMES)} delegations of {HOLDERS} clients were recalled at once, of which {len(MUTE)} "
            f"never answered: the others had theirs after {min(seconds):.2f} to {max(seconds):.2f} seconds"
        )


def open_all(writer):
    """Opens all files to write, by calls that are sent at once, and all are DELAY: when they were sent."""
    expect("an OPEN of its own file", writer.open_by_name(b"own", READ).status, NFS4_OK)
    calls = [
        compound(place, words(PUTROOTFH), writer.words_of_open(name, WRITE), uid=writer.uid)
        for place, name in enumerate(NAMES)
    ]
    begun = time.monotonic()
    writer.peer.send(b"".join(calls))
    delay = done(PUTROOTFH), done(OPEN, status=Status.DELAY)
    for place in range(len(NAMES)):
        expect("an OPEN of all files", writer.peer.receive(), results(place, Status.DELAY, *delay))
    return begun


def expect_all_recalls(home, holder, lent, is_mute):
    """The recalls of these delegations came in their order, or of one that doesn't answer the first: when the last one
    did."""
    wanted = lent[:1] if is_mute else lent
    return [expect_recall(home, holder, each, place) for place, each in enumerate(wanted, 1)][-1].moment
