"""Counts the instructions of an OPEN and its CLOSE after 10,000 owners were forgotten, and in a run without other
owners. A built `nfs4state serve` answers, and valgrind's callgrind counts.

The owners are of one client: each opens, confirms and closes a file. A lease later all are forgotten, which their
CLOSEs show. Then another owner of the client opens and closes a file, 1,000 times, and only this is counted.

It prints the instructions of a call in both runs. If the first are more than 1.05 times the second, the status is 1.
It takes some minutes."""
import tempfile
import time

from bench.callgrind import Callgrind
from bench.script import parser_of, run
from bench.servers import serving
from helpers.expecting_client import Client, done, under, Wrong
from helpers.server_helpers import peer_of
from nfs4tools.messages import CLOSE
from nfs4tools.processes import NO_CALLBACKS
from nfs4tools.wire import Status

# The owners that are forgotten.
OWNERS = 10_000
# The pairs of OPEN and CLOSE that are counted, and those before them.
PAIRS = 1000
BEFORE = 100
# How many times the instructions without these owners a call may take.
MOST = 1.05
# The lease, and the seconds in which all have to be forgotten, on however busy a machine.
LEASE, PATIENCE = 2, 120
FILE = 1


def turn(client: Client, times: int) -> None:
    """OPEN and CLOSE, so many times."""
    for _ in range(times):
        client.open_file(FILE)
        client.sequenced(CLOSE, client.close_words(client.last + 1))


def come_and_go(client: Client, number: int) -> bytes:
    """An owner of the client: the operation of its CLOSE."""
    client.owner, client.last, client.is_confirmed = b"process %d" % number, 0, False
    client.open_file(FILE)
    operation = client.close_words(client.last + 1)
    client.sequenced(CLOSE, operation)
    return operation


def expect_forgotten(client: Client, operations: list[bytes]) -> None:
    """These CLOSEs, of owners from the first on, get no kept answer any longer, soon after a lease."""
    until = time.monotonic() + PATIENCE
    for operation in operations:
        while client.ask(*(words for words, _ in under(FILE, operation, b"")))[6] != Status.BAD_STATEID:
            if time.monotonic() > until:
                raise Wrong(f"an owner isn't forgotten in {PATIENCE} seconds")
            time.sleep(0.2)
        client.expect(Status.BAD_STATEID, under(FILE, operation, done(CLOSE, status=Status.BAD_STATEID)))


def measured(program: str, owners: int) -> float:
    """The instructions of a call beside so many owners that were forgotten."""
    with tempfile.TemporaryDirectory() as folder:
        callgrind = Callgrind(folder)
        serve = [*callgrind.words, program, "serve", "--lease", str(LEASE), "--tree", NO_CALLBACKS]
        with serving(serve) as served, peer_of(served) as peer:
            client = Client(peer, 1)
            client.introduce()
            operations = [come_and_go(client, number) for number in range(owners)]
            expect_forgotten(client, [operations[0], operations[-1]] if operations else [])
            come_and_go(client, owners)
            turn(client, BEFORE)
            return callgrind.instructions(served.program, lambda: turn(client, PAIRS)) / (2 * PAIRS)


def work() -> bool:
    program = parser_of(__doc__).parse_args().program
    beside, alone = measured(program, OWNERS), measured(program, 0)
    print(
        f"OPEN+CLOSE: {beside:,.0f} instructions a call beside {OWNERS:,} owners that were forgotten; {alone:,.0f} "
        f"in a new run: {beside / alone:.3f} times, at most {MOST}"
    )
    return bool(beside > MOST * alone)


def main() -> None:
    run(work)
