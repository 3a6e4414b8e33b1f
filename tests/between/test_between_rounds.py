"""`tools/between` before the model's server and the built program; the tests are the clients on its other side.

Without a plan the rows pass through it by names. A client that sends its calls again gets its exact replies with each
call or reply of its own lost, cut, split, held or sent twice, one after the other; so do four at once with all these
mixed. What a client or a server does that RFC 7530 doesn't let it is told as WRONG, each by its own words, and nothing
else is. The same plan, seed and client give the same lines. The servers' journals are lawful."""
import os
import re
import subprocess
import sys
from functools import partial

import pytest

from helpers.between_cases import CASES
from helpers.between_peers import GaveUp, GivingUp, Patient, Relay, Resender
from helpers.between_runs import (
    Between,
    FAULTS,
    ROUND,
    in_turn,
    one_round,
    rules_of,
    serving,
    uids,
)
from helpers.expecting_client import Wrong, expect
from nfs4tools.processes import TOP


def test_rows(kind):
    """All rows but those that need a server that has just been started pass, of which some lock whole files."""
    with serving(kind, tree=None) as server, Between(server) as between:
        ran = subprocess.run(
            [
                sys.executable,
                os.path.join(TOP, "tools/send_rows"),
                "--names",
                *between_words(between),
                os.path.join(TOP, "crates/rows/data"),
            ],
            capture_output=True,
            text=True,
            timeout=300,
        )
        found = re.search(r"(\d+) rows: 0 failed", ran.stdout)
        expect("the rows", (ran.returncode, ran.stderr, found and int(found[1]) > 450), (0, "", True))
    between.expect_told(told=[" 0 faults, 0 wrong"])


def between_words(between):
    return [between.address[0], str(between.address[1])]


@pytest.mark.parametrize("fault", FAULTS)
def test_each_in_turn(fault, server):
    """The first call of one client meets a fault, the second of another, and so on, up to the last."""
    with Between(server, f"{fault} any each {ROUND + 1}") as between:
        again = [one_round(between.address) for _ in range(ROUND + 1)]
        expect("how often each sends again", again, [0] + [int(FAULTS[fault])] * ROUND)
    between.expect_told(told=[rf"\b{ROUND} faults, 0 wrong"])


def test_four_at_once(server):
    """Faults of all kinds, by chance, to four clients."""
    rules = [f"{fault} any 1 in {chance}" for fault, chance in zip(FAULTS, (9, 8, 9, 8, 5, 7, 5))]
    with Between(server, *rules, options=["--seed", "7"]) as between:
        in_turn([partial(one_round, between.address, file, 6) for file in (1, 1, 2, 4)])
    between.expect_told(told=[r"\b[0-9]{2,} faults, 0 wrong"])


def test_four_put_off(server):
    """The same, with answers in the server's place, and all connections ended at times, to clients that ask again."""
    rules = [f"{fault} any 1 in {chance}" for fault, chance in zip(FAULTS, (15, 14, 15, 14, 9, 9, 9))]
    rules += [
        "answer DELAY LOCK 1 in 3",
        "answer GRACE WRITE 1 in 2",
        "answer RESOURCE READ 1 in 2",
        "answer DELAY PUTFH 1 in 9",
        "answer GRACE LOCKU 1 in 3",
        "answer RESOURCE CLOSE 1 in 4",
        "away 0.3 any each 70",
    ]

    def sessions():
        for _ in range(4):
            with Resender(between.address) as peer:
                Patient(peer, next(uids)).session()

    with Between(server, *rules, options=["--seed", "7"]) as between:
        in_turn([sessions] * 4)
    between.expect_told(told=["all connections are ended", r"\b[0-9]{2,} faults, 0 wrong"])


@pytest.mark.parametrize("case", CASES, ids=lambda case: case.name)
def test_case(case, server):
    with Relay(server, case.change) as relay, Between(
        relay.address, *rules_of(case.rules), options=case.options
    ) as between:
        with case.peer(between.address) as peer:
            try:
                case.client(peer, next(uids)).session()
            except (GaveUp, Wrong):
                # A client that does something wrong, or meets it, may not come to the end.
                if not case.wrong and case.peer is not GivingUp:
                    raise
    status = case.status if case.status is not None else int(bool(case.wrong))
    between.expect_told(status, case.wrong, case.told)


CHANCES = (
    "lose-reply any 1 in 4",
    "twice any 1 in 5",
    "split 3 any 1 in 3",
    "cut-call any 1 in 6",
    "answer DELAY LOCK 1 in 3",
)


def told_of(kind, seed):
    """What is told of three clients, one after the other, before a server that has just been started."""
    with serving(kind) as server, Between(server, *CHANCES, options=["--seed", str(seed)]) as between:
        for uid in range(1, 4):
            with Resender(between.address) as peer:
                Patient(peer, uid).session()
    return [re.sub(r"[0-9.]+ s later", "T s later", line) for line in between.lines]


def test_same_lines(kind):
    """The same plan, seed and client have the same told, but times; by another seed it is something else."""
    first, second, other = (told_of(kind, seed) for seed in (3, 3, 4))
    if first != second:
        raise Wrong("\n".join(["two runs differ:", *first, "and:", *second]))
    expect("another seed tells the same", first == other, False)
    expect("what is told", len(first) > 20 and all("WRONG" not in line for line in first), True)
