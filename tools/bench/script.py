"""What the scripts of this folder have in common: their words, how they end, and what they have run."""
import argparse
import os
import subprocess
import sys
from collections.abc import Callable, Collection, Sequence
from typing import Any, NoReturn

from helpers.expecting_client import Wrong
from nfs4tools.processes import PROGRAM


class Failure(Exception):
    """What went wrong, as a line."""


def parser_of(text: str | None, has_program: bool = True, **how: Any) -> argparse.ArgumentParser:
    """For the words of a script that says this of itself: without options, and with a built program if it has one."""
    parser = argparse.ArgumentParser(description=text, formatter_class=argparse.RawDescriptionHelpFormatter, **how)
    if has_program:
        parser.add_argument(
            "program", nargs="?", default=PROGRAM, metavar="PROGRAM", help="[default: the one built here]"
        )
    return parser


def some_of(names: Collection[str]) -> Callable[[str], list[str]]:
    """Reads a list of these names."""

    def read(text: str) -> list[str]:
        if not set(text.split(",")) <= set(names):
            raise argparse.ArgumentTypeError(f"can be of {','.join(names)}")
        return text.split(",")

    return read


def expect_program(path: str) -> None:
    if not os.access(path, os.X_OK):
        raise Failure(f"there is no program {os.path.normpath(path)}: README.md says how to build it")


def said_by(words: Sequence[str], what: str) -> str:
    """What a command prints, which ends well."""
    ran = subprocess.run(words, capture_output=True, text=True)
    if ran.returncode != 0:
        raise Failure(f"{what}: {ran.stderr.strip()}")
    return ran.stdout


def run(main: Callable[[], object]) -> NoReturn:
    """Ends the script with the status that this gives, or with a line of what went wrong."""
    name = os.path.basename(sys.argv[0])
    try:
        sys.exit(int(bool(main())))
    except Failure as failure:
        sys.exit(f"{name}: {failure}")
    except (Wrong, TimeoutError, OSError) as wrong:
        sys.exit(f"{name}: {type(wrong).__name__}: {wrong}")
