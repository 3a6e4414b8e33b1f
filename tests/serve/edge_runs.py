"""Runs of `nfs4state serve` at their edges: entries that are made, what stands in the file of the journal meanwhile, disks
that are small, and kills."""
import os
import time
from resource import RLIM_INFINITY, RLIMIT_FSIZE, prlimit, setrlimit

from helpers.expecting_client import Wrong, done, expect
from helpers.server_helpers import peer_of
from nfs4tools.journal.journal import Growing, verdict_on
from nfs4tools.messages import GETATTR, NFS4_OK, PUTROOTFH, compound, opening, results, words
from nfs4tools.program import bytes_of
from serve.ongoing_runs import NOBODY, part_name

# The seconds in which something has to come, on however busy a machine.
PATIENT = 60
# The GETATTRs of a call, and the bytes of the name in a long entry.
OF_A_CALL, LONG = 60, 60000
KIB = 1024
NO_ROOM = "No space left on device (os error 28)"


def make_entries(served, calls, uid=1):
    """Makes 60 entries by each of so many calls over a connection, each of which is answered right: how many."""
    sent = compound(1, words(PUTROOTFH), *[words(GETATTR, 0)] * OF_A_CALL, uid=uid)
    wanted = results(1, NFS4_OK, done(PUTROOTFH), *[done(GETATTR, words(0, 0))] * OF_A_CALL)
    with peer_of(served) as peer:
        for _ in range(calls):
            peer.send(sent)
            expect("the reply", peer.receive(), wanted)
    return calls * OF_A_CALL


def make_long_entries(served, count, uid=1):
    """Makes so many entries of some 60,000 bytes over a connection: their number."""
    sent = compound(1, words(PUTROOTFH), opening(0, 3, 0, NOBODY, bytes(LONG)), uid=uid)
    with peer_of(served) as peer:
        for _ in range(count):
            peer.send(sent)
            expect("whether a reply comes", peer.receive() != b"", True)
    return count


def wait_until(is_so, what):
    """Waits until it is so."""
    until = time.monotonic() + PATIENT
    while not is_so():
        if time.monotonic() > until:
            raise Wrong(f"not within {PATIENT} seconds: {what}")
        time.sleep(0.05)


def entries_in(path):
    """The entries in the journal's file as it goes, or in a whole one: they are lawful, and at most the last is cut. The
    number that the file says is 0, or theirs."""
    data, growing = bytes_of(path), Growing()
    if data is None:
        raise Wrong(f"there is no {path}")
    entries = growing.take(data)
    expect("what is wrong with the beginning", growing.fault, None)
    if growing.head is None:
        return []
    if growing.count != 0:
        expect("a whole journal", growing.is_whole(), True)
    expect("the verdict", verdict_on(growing.head._replace(entries=entries))[0], True)
    return entries


def wait_for_entries(path, count):
    """Waits until the journal's file as it goes has so many entries."""
    wait_until(lambda: len(entries_in(part_name(path))) == count, f"{count} entries in {part_name(path)}")


def expect_left(path):
    """What a run left that was killed at any moment: a beginning of its journal, or the journal."""
    if not os.path.exists(part_name(path)):
        expect("the journal is whole", len(entries_in(path)) > 0, True)
    else:
        entries_in(part_name(path))
        expect("the journal is there already", os.path.exists(path), False)


# Files that take no more.


def limit_files(most):
    """What a new process does first: its files take no more than so many bytes, until the limit is lifted."""
    return lambda: setrlimit(RLIMIT_FSIZE, (most, RLIM_INFINITY))


def lift_limit(served):
    prlimit(served.program.pid, RLIMIT_FSIZE, (RLIM_INFINITY, RLIM_INFINITY))


def fill(folder, left):
    """Fills the disk of this folder with a file, but for so many bytes: the file's path."""
    path, found = os.path.join(folder, "ballast"), os.statvfs(folder)
    with open(path, "wb") as file:
        file.write(bytes(found.f_bavail * found.f_frsize - left))
    return path
