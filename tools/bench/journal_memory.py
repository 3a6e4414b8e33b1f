"""Measures how much memory a run of `nfs4state serve --journal` has in use at most, and how long it takes.

One connection sends 1,000,000 GETATTRs of type, change and size, 50 in a COMPOUND. With --of it sends 100,000 READs
or WRITEs of the 4 KiB of a file, with a special stateid, 40 in a COMPOUND. Each is an entry of the journal. It
prints:

- the seconds up to the last reply
- the most memory that the process had in use up to then
- the most memory that it had in use at all, which is after it has made the journal's file
- the length of that file

If GETATTRs take more than 450 MB, the status is 1."""
import os
import tempfile
import time
from resource import RUSAGE_CHILDREN, getrusage
from typing import NamedTuple

from bench.script import parser_of, run
from bench.servers import serving
from helpers.expecting_client import done, Wrong
from helpers.server_helpers import peer_of
from nfs4tools.messages import GETATTR, NFS4_OK, PUTFH, READ, WRITE, compound, handle, results, words
from nfs4tools.processes import Peer
from nfs4tools.wire import opaque

# Calls under way.
BATCH = 40
# In kilobytes.
BOUND = 450 << 10
# Type, change and size, and those of the file.
MASK, VALUES = words(1, 0x1A), words(20, 1, 0, 0, 0, 4096)
# The file's node, its bytes, and what stands before the count of a READ or the bytes of a WRITE: no state, offset 0.
FILE, BLOCK, PLACE = 1, b"x" * 4096, bytes(16) + words(0, 0)
# The answer of a WRITE: how many bytes, FILE_SYNC, and the verifier of epoch 1.
WRITTEN = words(len(BLOCK), 2, 1, 0)


class Kind(NamedTuple):
    """An operation and its result, how many of them a COMPOUND has, and how many are sent in all."""

    operation: bytes
    result: bytes
    each: int
    calls: int


KINDS = {
    "GETATTR": Kind(words(GETATTR) + MASK, done(GETATTR, MASK + VALUES), 50, 1_000_000),
    "READ": Kind(words(READ) + PLACE + words(len(BLOCK)), done(READ, words(1) + opaque(BLOCK)), 40, 100_000),
    "WRITE": Kind(words(WRITE) + PLACE + words(0) + opaque(BLOCK), done(WRITE, WRITTEN), 40, 100_000),
}


def send_calls(peer: Peer, kind: Kind, count: int) -> None:
    """So many calls, of which each reply has to be right."""
    sent = compound(1, words(PUTFH) + handle(FILE), *[kind.operation] * kind.each)
    wanted = results(1, NFS4_OK, done(PUTFH), *[kind.result] * kind.each)
    for first in range(0, count, BATCH):
        some = min(BATCH, count - first)
        for _ in range(some):
            peer.send(sent)
        for _ in range(some):
            got = peer.receive()
            if got != wanted:
                raise Wrong(f"a call gets {got[:400].hex(' ', 4)}, wanted {wanted[:400].hex(' ', 4)}")


def measure(program: str, kind: Kind, calls: int, folder: str) -> tuple[float, int, int, int]:
    """The seconds; and the most kilobytes that the server has in use while it is called, and at all."""
    tree, journal = os.path.join(folder, "tree.toml"), os.path.join(folder, "journal")
    with open(tree, "w", encoding="utf-8") as file:
        file.write(f'[[file]]\npath = "a"\ntext = "{BLOCK.decode()}"\n')
    serve = [program, "serve", "--tree", tree, "--journal", journal]
    with serving(serve) as served, peer_of(served) as peer:
        begun = time.monotonic()
        send_calls(peer, kind, -(-calls // kind.each))
        seconds, called = time.monotonic() - begun, served.most_kilobytes("VmHWM")
    # It is the one process that this one has waited for.
    return seconds, called, getrusage(RUSAGE_CHILDREN).ru_maxrss, os.path.getsize(journal)


def work() -> int:
    parser = parser_of(__doc__)
    parser.add_argument("--of", choices=KINDS, default="GETATTR", help="[default: GETATTR]")
    parser.add_argument("--calls", type=int, metavar="N", help="how many [default: 1000000, or 100000]")
    given = parser.parse_args()
    kind = KINDS[given.of]
    calls = given.calls or kind.calls
    with tempfile.TemporaryDirectory() as folder:
        seconds, called, most, length = measure(given.program, kind, calls, folder)
    print(
        f"{calls} {given.of}s: {seconds:.1f} s; {called >> 10} MB in use at most up to the last reply, "
        f"{most >> 10} MB at all; the journal's file has {length >> 20} MB"
    )
    return 1 if given.of == "GETATTR" and most > BOUND else 0


def main() -> None:
    run(work)
