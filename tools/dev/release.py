"""Makes the next release.

1. It proves the program in a copy of the sources, in which `--version` names the commit.
2. It packs the program with pages, samples, rows, tools and the model as dist/nfs4state-VERSION-x86_64-linux.tar.gz.
3. It sets the version of the sources.

Commit what it changes, and nothing else with it. The tree has to be clean, and the gate green for its commit."""
import argparse
import sys

from dev.building.archive import is_version
from dev.building.copies import Unbuildable
from dev.building.release import Wanted, check_again, faults_here, release


def main() -> None:
    parser = argparse.ArgumentParser(description=__doc__)
    parser.add_argument("version", metavar="VERSION", nargs="?", help="the next number, as 0.3")
    parser.add_argument(
        "--log",
        action="append",
        default=[],
        metavar="FILE",
        dest="logs",
        help="what `rt ci` said of crates that were proved before, for the file PROOF",
    )
    parser.add_argument("--gate-elsewhere", action="store_true", help="the gate was green on another machine")
    parser.add_argument(
        "--check",
        action="store_true",
        help="look at the release in dist/, prove its commit again, and compare the program",
    )
    given = parser.parse_args()
    if given.check == (given.version is not None):
        parser.error("a VERSION, or --check")
    if given.version and not is_version(given.version):
        parser.error(f"{given.version} is no version: 0.NUMBER")
    try:
        if given.check:
            faults = faults_here() or check_again()
            sys.exit("\n".join(f"release: {fault}" for fault in faults) or 0)
        release(Wanted(given.version, given.logs, given.gate_elsewhere))
    except Unbuildable as error:
        sys.exit(f"release: {error}")
