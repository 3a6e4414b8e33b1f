"""Runs the independent model in place of the program: `nfs4-model once` reads records on standard input, and
`nfs4-model serve` is a server on TCP. Each takes the options of `nfs4state once` and `nfs4state serve`."""
import argparse
import sys

from nfs4tools.model import once, serve

COMMANDS = {"once": once.main, "serve": serve.main}


def main() -> None:
    parser = argparse.ArgumentParser(prog="nfs4-model", description=__doc__)
    parser.add_argument(
        "command", choices=COMMANDS, help="`nfs4-model once --help` and `nfs4-model serve --help` have the options"
    )
    name = parser.parse_args(sys.argv[1:2]).command
    sys.argv[:2] = [f"nfs4-model {name}"]
    COMMANDS[name]()
