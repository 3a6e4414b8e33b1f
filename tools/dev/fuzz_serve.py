"""Sends random calls to a built `nfs4state serve`, over several connections, and compares each reply with the model's
(`helpers/random_calls.py`). It does so under both profiles, or under the profile that is given.

At a difference it prints the seed of the run and the call, and the status is 1."""
import argparse
import multiprocessing
import os
import sys
from collections import Counter
from functools import partial
from typing import Any

from dev.fuzz import tell
from dev.fuzz_calls import IDS
from helpers.expecting_client import Wrong
from helpers.random_calls import CALLED_BACK, CONNECTIONS, missing, run
from nfs4tools.built import expect_program
from nfs4tools.model.tree import PROFILES
from nfs4tools.processes import PROGRAM


def main() -> None:
    parser = argparse.ArgumentParser(description=__doc__, formatter_class=argparse.RawDescriptionHelpFormatter)
    parser.add_argument("program", nargs="?", default=PROGRAM, help="a built `nfs4state`")
    parser.add_argument("--seed", type=int, default=0)
    parser.add_argument("--runs", type=int, default=30)
    parser.add_argument("--calls", type=int, default=200)
    parser.add_argument("--jobs", type=int, default=1)
    parser.add_argument("--ids", type=int, default=IDS, help="ids of clients")
    parser.add_argument("--profile", choices=PROFILES, help="the one of all runs (either)")
    given = parser.parse_args()
    expect_program(given.program)
    run_seed = partial(run, os.path.abspath(given.program), count=given.calls, ids=given.ids, profile=given.profile)
    with multiprocessing.Pool(given.jobs) as pool:
        try:
            counts = sum(pool.imap(run_seed, range(given.seed, given.seed + given.runs)), Counter[Any]())
        except Wrong as wrong:
            sys.exit(f"fuzz_serve: {wrong}")
    lacking = missing(counts, given.ids, given.profile)
    if lacking:
        sys.exit(f"fuzz_serve: no {', '.join(lacking)}, so that the runs show too little")
    print(f"fuzz_serve: called back {counts.pop(CALLED_BACK, 0)} times; {CONNECTIONS} connections")
    tell(counts, given.runs, given.calls)
