"""Where the file of a run's journal takes no more: a small disk, and a limit on the size of files.

The end of a run needs no room for a second copy. A write that failed is told once and tried again each second, so that the
file has all entries once there is room again. The run itself is served on. However it is killed, before, in or after
that, there is a beginning of the journal."""
import os
import random
import signal
import time

import pytest

from helpers.expecting_client import expect
from helpers.server_helpers import SERVERS, lawful_journal
from nfs4tools.processes import PROGRAM
from nfs4tools.program import bytes_of
from serve.edge_runs import (
    KIB,
    NO_ROOM,
    PATIENT,
    entries_in,
    expect_left,
    fill,
    lift_limit,
    limit_files,
    make_entries,
    make_long_entries,
    wait_for_entries,
)
from serve.memory_runs import wait_for_line
from serve.ongoing_runs import expect_end, expect_no_part, part_name, serve

pytestmark = pytest.mark.quick

TOO_LARGE = "File too large.*ulimit -f unlimited.*"
FAULT = "fault: file not written"
# The bytes that the limit leaves to a file, and the calls of 60 entries that are more than that.
LIMIT, CALLS = 100 * KIB, 50


@pytest.fixture(params=SERVERS)
def command(request):
    """How a server is started: the program, then the model."""
    return request.param


def told(path, why):
    """The line that tells of a failed write."""
    return rf".*{os.path.basename(path)}(\.part)?: {why}.*"


def test_no_second_copy(command, disk_of):
    """A journal of 240,000 bytes fits on a disk of 400 KiB, beside an older one that it replaces."""
    path = os.path.join(disk_of(400), "run.journal")
    with open(path, "wb") as file:
        file.write(bytes(20 * KIB))
    with serve("--journal", path, command=command) as served:
        made = make_long_entries(served, 4) + make_entries(served, 2)
        # Until then there is no first copy.
        wait_for_entries(path, made)
        expect_end(served)
    expect("the entries", len(lawful_journal(PROGRAM, path).entries), made)
    expect_no_part(path)


def test_full_end(command, disk_of):
    """A journal that has no room at the end is a fault. An older one stays as it was, and what there was room for is
    in the file of this one."""
    path = os.path.join(disk_of(400), "run.journal")
    with open(path, "wb") as file:
        file.write(b"an older one")
    fill(os.path.dirname(path), 100 * KIB)
    with serve("--journal", path, command=command) as served:
        make_long_entries(served, 4)
        line = told(path, r"No space left on device \(os error 28\)")
        wait_for_line(served, line)
        expect_end(served, line, line, FAULT, status=1)
    expect("the older one", bytes_of(path), b"an older one")
    expect("the entries", len(entries_in(part_name(path))), 1)


def test_room_again(command, disk_of):
    """Once there is room again the file has all entries, also those that came meanwhile, and those that come then."""
    path = os.path.join(disk_of(KIB), "run.journal")
    ballast = fill(os.path.dirname(path), 100 * KIB)
    with serve("--journal", path, command=command, until="--until-killed") as served:
        made = make_entries(served, 1)
        wait_for_entries(path, made)
        made += make_long_entries(served, 3)
        wait_for_line(served, told(path, r"No space left on device \(os error 28\)"))
        made += make_entries(served, 1)
        expect("whether all entries are there", len(entries_in(part_name(path))) < made, True)
        os.remove(ballast)
        wait_for_entries(path, made)
        made += make_entries(served, 1)
        wait_for_entries(path, made)
        served.program.kill()
        status, output, errors = served.end()
        expect("the end", (status, output), (-signal.SIGKILL, b""))
        expect("how often it is told", errors.count(NO_ROOM.encode()), 1)
    expect("the entries", len(entries_in(part_name(path))), made)


def test_orders_without_room(command, disk_of):
    """The order to write the journal fails while there is no room, and then brings all entries."""
    path = os.path.join(disk_of(KIB), "run.journal")
    ballast = fill(os.path.dirname(path), 100 * KIB)
    with serve("--journal", path, command=command, until="--orders") as served:
        made = make_long_entries(served, 3)
        served.program.stdin.write(b"journal\n")
        expect("the answer without room", served.next_answer(PATIENT)[:6], b"error:")
        os.remove(ballast)
        answer, until = b"", time.monotonic() + PATIENT
        while not answer.startswith(b"journal") and time.monotonic() < until:
            time.sleep(0.2)
            served.program.stdin.write(b"journal\n")
            answer = served.next_answer(PATIENT)
        expect("the answer with room", answer, b"journal %d entries\n" % made)
        expect("the entries", len(entries_in(part_name(path))), made)
        served.end_input()
        expect("the status", served.end()[0], 0)
    expect("the entries", len(lawful_journal(PROGRAM, path).entries), made)


def test_limit(command, path_of):
    """A limit on the size of files ends no run and no connection. The line says how to lift it, and the fault comes at
    the end."""
    path = path_of("run.journal")
    with serve("--journal", path, command=command, preexec_fn=limit_files(LIMIT)) as served:
        made = make_entries(served, CALLS)
        line = told(path, TOO_LARGE)
        wait_for_line(served, line)
        made += make_entries(served, 1)
        expect_end(served, line, line, FAULT, status=1)
    expect("a journal", os.path.exists(path), False)
    expect("the bytes that were written", os.path.getsize(part_name(path)) <= LIMIT, True)
    expect("some of the entries are there", 0 < len(entries_in(part_name(path))) < made, True)


def test_lifted_limit(command, path_of):
    """When the limit is lifted, the file goes on, and the journal is whole."""
    path = path_of("run.journal")
    with serve("--journal", path, command=command, preexec_fn=limit_files(LIMIT)) as served:
        made = make_entries(served, CALLS)
        line = told(path, TOO_LARGE)
        wait_for_line(served, line)
        lift_limit(served)
        wait_for_entries(path, made)
        expect_end(served, line)
    expect("the entries", len(lawful_journal(PROGRAM, path).entries), made)
    expect_no_part(path)


# Kills.


def be_killed(served, draw, calls, then=lambda: None):
    """Makes entries by some calls, does something, waits for a moment, and is killed."""
    make_entries(served, draw.randrange(calls))
    then()
    time.sleep(draw.uniform(0, 0.4))
    served.program.kill()
    expect("the end", served.end()[0], -signal.SIGKILL)


@pytest.mark.parametrize("seed", range(3))
def test_killed_by_a_limit(command, path_of, seed):
    """Kills before, in and after the moment when the limit is met, and when it is lifted."""
    draw = random.Random(seed)
    for turn in range(4):
        path = path_of(f"{turn}.journal")
        with serve("--journal", path, command=command, until="--until-killed", preexec_fn=limit_files(LIMIT)) as served:
            then = (lambda: None) if turn % 2 else lambda: lift_limit(served)
            be_killed(served, draw, CALLS, then)
        expect_left(path)


@pytest.mark.parametrize("seed", range(3))
def test_killed_on_a_full_disk(command, disk_of, seed):
    """Kills before, in and after the moment when there is no room, and when there is room again."""
    draw = random.Random(seed)
    for turn in range(4):
        path = os.path.join(disk_of(KIB), "run.journal")
        ballast = fill(os.path.dirname(path), 100 * KIB)
        with serve("--journal", path, command=command, until="--until-killed") as served:
            then = (lambda: None) if turn % 2 else lambda: os.remove(ballast)
            be_killed(served, draw, CALLS, then)
        expect_left(path)


@pytest.mark.parametrize("seed", range(3))
def test_killed_at_the_end(command, path_of, seed):
    """Kills while the run ends: there is its journal, or a beginning of it that is as long."""
    draw = random.Random(seed)
    for turn in range(4):
        path = path_of(f"{turn}.journal")
        with serve("--journal", path, command=command) as served:
            made = make_entries(served, CALLS)
            wait_for_entries(path, made)
            served.end_input()
            time.sleep(draw.uniform(0, 0.3))
            served.program.kill()
            served.end()
        expect_left(path)
        left = path if os.path.exists(path) else part_name(path)
        expect("the entries", len(entries_in(left)), made)
