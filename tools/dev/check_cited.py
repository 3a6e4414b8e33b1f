"""Checks that the functions that docs/CLAIMS.md and docs/CONTRACTS.md name are laws, or are called by what runs from
`main` of nfs4state on. CONTRACTS lists those that the program doesn't run, and what runs in their place.
tools/dev/citations.py says what names a function, and tools/dev/called_functions.py how calls are read. If there is a
fault, the status is 1."""
import argparse

from dev.called_functions import program_of
from dev.citations import MEANT, PROGRAM, Citations, citing, unused


def main() -> int:
    parser = argparse.ArgumentParser(description=__doc__, formatter_class=argparse.RawDescriptionHelpFormatter)
    parser.add_argument(
        "--unused",
        action="store_true",
        help="print the public functions with a contract that the program doesn't run; check nothing",
    )
    given = parser.parse_args()
    citations = Citations(program_of(PROGRAM, MEANT))
    if given.unused:
        print(*unused(citations), sep="\n")
        return 0
    faults = citations.faults(citing())
    print(*faults, f"check_cited: {len(faults)} faults", sep="\n")
    return 1 if faults else 0
