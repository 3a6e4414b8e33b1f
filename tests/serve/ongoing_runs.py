"""Runs of `nfs4state serve` that go on until their input ends."""
import os
import re
import subprocess
import time

from helpers.expecting_client import FILES, Client, expect, Wrong
from helpers.server_helpers import PROGRAM_SERVES, peer_of
from nfs4tools.messages import words
from nfs4tools.processes import NO_CALLBACKS, Served
from nfs4tools.wire import opaque

# The seconds in which a run has to end with its input, on however busy a machine, and in which one with busy
# connections has to; and those after which what came is in its journal as it goes.
SOON, BUSY_SOON, LATELY = 30, 2, 2.5
# An owner of a client that isn't there.
NOBODY = words(1, 7) + opaque(b"o")


def serve(*options, command=PROGRAM_SERVES, until="--until-input-ends", **how):
    """A server that has begun. Its input is a pipe, unless another one is given."""
    how = {"stdin": subprocess.PIPE, **how}
    return Served([*command, "--listen", "127.0.0.1:0", "--tree", NO_CALLBACKS, until, *options], **how)


def expect_end(served, *lines, status=0, ends_input=True):
    """It ends with its input, and soon, with this status, and has told these lines, in any order."""
    begun = time.monotonic()
    if ends_input:
        served.end_input()
    got, output, errors = served.end()
    took = time.monotonic() - begun
    expect("the status", got, status)
    expect("the output", output, b"")
    said = errors.decode().splitlines()
    if len(said) != len(lines) or not all(any(re.fullmatch(line, one) for one in said) for line in lines):
        raise Wrong(f"it tells {said}, wanted {lines}")
    if took > SOON:
        raise Wrong(f"it ends after {took:.1f} seconds")
    return took


def part_name(path):
    """Where the journal of a run is written as it goes: what has to be there, and what must not, have one name here."""
    return path + ".part"


def expect_no_part(path):
    expect("the journal as it goes is there", os.path.exists(part_name(path)), False)


def be_client(served, uid, rounds):
    """A client over a connection of its own."""
    with peer_of(served) as peer:
        client = Client(peer, uid)
        client.introduce()
        for turn in range(rounds):
            client.round(list(FILES)[(uid + turn) % len(FILES)])
    return client
