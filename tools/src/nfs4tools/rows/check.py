"""Runs rows through the model, and compares its replies with the replies that the rows want.

The status is 1 if a row differs, or if a file can't be read. A row without orders must also get the same replies from
a server that reaches nobody at the callback addresses: over TCP it may send callbacks at any time."""
import argparse

from nfs4tools.rows.by_model import check


def main() -> int:
    parser = argparse.ArgumentParser(description=__doc__, formatter_class=argparse.RawDescriptionHelpFormatter)
    parser.add_argument("paths", nargs="+", metavar="FOLDER|FILE.rows")
    return check(parser.parse_args().paths)
