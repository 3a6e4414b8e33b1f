"""Builds nfs4state, or another program of this repository, natively and WITHOUT a proof, in some two minutes. It
needs the toolchain. `nfs4state --version` of this program says `NOT proved`."""
import argparse
import os
import signal
import sys
import time

from dev.building.copies import Unbuildable
from dev.building.telling import tell
from dev.building.unproved import build_unproved
from nfs4tools.processes import TOP


def main() -> None:
    parser = argparse.ArgumentParser(description=__doc__)
    parser.add_argument("out", metavar="OUT", nargs="?", help="the file to build (default: out/unproved/CRATE)")
    parser.add_argument("--crate", default="nfs4state", help="the program: nfs4state (default) or rows")
    parser.add_argument("--optimize", action="store_true", help="by -O3, as proved programs are: for measurements")
    given = parser.parse_args()
    # However it is ended, its folder goes.
    for number in (signal.SIGTERM, signal.SIGHUP):
        signal.signal(number, lambda *_: sys.exit(1))
    begun = time.monotonic()
    try:
        out = os.path.abspath(given.out or os.path.join(TOP, "out/unproved", given.crate))
        build_unproved(given.crate, out, "-O3" if given.optimize else "-O0")
    except Unbuildable as error:
        sys.exit(f"build_unproved: {error}")
    tell(f"it took {time.monotonic() - begun:.0f} s")
