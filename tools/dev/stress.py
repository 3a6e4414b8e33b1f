"""Sends random COMPOUNDs on a few files over 64 connections at once, in memory.

Meanwhile another thread sweeps: it ends leases, revokes delegations that aren't returned, and forgets idle owners.
One connection runs before the others. In the last runs threads are refused. `helpers/stress_plan.py` has what is sent,
and `helpers/stress_runs.py` what has to come.

The inputs are made from the seed, and are the same for the same seed. The order of the connections isn't. With
`--runs` it goes on with the next seeds.

`--last-moment [SECONDS]` does something else, for a minute if no time is given. Clients of two servers `nfs4state
serve`, with leases of 1 and of 2 seconds, renew them about when the sweeps come (`helpers/late_renewals.py`)."""
import argparse
import sys
from typing import Any

from helpers import late_renewals
from helpers.expecting_client import Wrong
from helpers.stress_runs import run_all
from nfs4tools.built import expect_program
from nfs4tools.processes import PROGRAM
from nfs4tools.program import Program
from nfs4tools.rows.driver import PROGRAM as ROWS


def main() -> None:
    parser = argparse.ArgumentParser(description=__doc__, formatter_class=argparse.RawDescriptionHelpFormatter)
    parser.add_argument("--seed", type=int, default=1)
    parser.add_argument("--runs", type=int, default=1)
    parser.add_argument("--program", default=ROWS, help="a built `rows`")
    parser.add_argument("--audit", default=PROGRAM, help="a built `nfs4state`")
    parser.add_argument("--last-moment", type=int, nargs="?", const=60, metavar="SECONDS")
    parser.add_argument("--counts", action="store_true", help="also how often each answer came")
    given = parser.parse_args()
    expect_program(given.audit)
    if given.last_moment is None:
        expect_program(given.program)
    program = Program(given.audit)
    try:
        if given.last_moment is None:
            tally: Any = run_all(given, program)
        else:
            tally = late_renewals.run(program, given.last_moment, given.seed)
            print(f"stress: {tally.words()}")
    except Wrong as wrong:
        sys.exit(f"stress: {wrong}")
    missing = tally.missing()
    if missing:
        sys.exit(f"stress: nothing, or little, of {', '.join(missing)}, so that the runs show too little")
