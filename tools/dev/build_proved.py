"""Proves nfs4state and all crates below it, and builds it. It needs the toolchain, and takes some 90 minutes from
nothing on four cores. If the gate has proved the libraries of these sources here, only the program is proved, in some
minutes. It leaves the program, its stamp, its commit and the log of the proof in a folder."""
import argparse
import os
import signal
import sys

from dev.building.copies import Unbuildable
from dev.building.proved import PROVED_HERE, build_proved, take_from_gate


def main() -> None:
    parser = argparse.ArgumentParser(description=__doc__)
    parser.add_argument("out", metavar="OUT", nargs="?", default=PROVED_HERE, help="the folder (default: out/proved)")
    parser.add_argument(
        "--after-ci",
        action="store_true",
        help="take the program and the libraries that `rt ci` has just proved in the checkout",
    )
    given = parser.parse_args()
    for number in (signal.SIGTERM, signal.SIGHUP):
        signal.signal(number, lambda *_: sys.exit(1))
    try:
        out = os.path.abspath(given.out)
        take_from_gate(out) if given.after_ci else build_proved(out)
    except Unbuildable as error:
        sys.exit(f"build_proved: {error}")
