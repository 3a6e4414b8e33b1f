"""Where the built programs are, and what is said if a program isn't there. Nothing here builds or proves a program."""
import os
import sys

# The repository's folder.
TOP = os.path.dirname(os.path.dirname(os.path.dirname(os.path.dirname(os.path.abspath(__file__)))))
# The programs that are built: the server, and the driver of rows.
SERVER, ROWS = "nfs4state", "rows"


def proved_path(name: str) -> str:
    """Where a proof leaves the program of this crate."""
    return os.path.join(TOP, "crates", name, "out", name)


def program_path(name: str) -> str:
    """The program of this name: the file that the environment names (`NFS4STATE`, `ROWS`); as a proof left it; as it
    was built without a proof. If there is none, this is where a proof would leave it."""
    named, proved = os.environ.get(name.upper()), proved_path(name)
    unproved = os.path.join(TOP, "out", "unproved", name)
    if named:
        return os.path.abspath(named)
    return unproved if os.path.isfile(unproved) and not os.path.isfile(proved) else proved


def command_to_build(name: str) -> str:
    """What builds the program of this name without a proof."""
    return "./start --build" + (f" {name}" if name != SERVER else "")


def lack_of(path: str) -> str | None:
    """If no program is at this path, a line that says what is missing, and what to do."""
    if os.path.isfile(path):
        return None
    name = os.path.basename(path)
    if path == proved_path(name):
        shown = os.path.relpath(path, TOP)
        return f"{shown} is not built: {command_to_build(name)}, or `rt run` in crates/{name} (a proof)"
    named = [it.upper() for it in (SERVER, ROWS) if os.environ.get(it.upper()) and program_path(it) == path]
    return f"there is no program {path}" + (f", which {named[0]} names" if named else "")


def expect_program(path: str) -> None:
    """Ends the tool with status 2 and this line, if no program is at this path."""
    if lack := lack_of(os.path.abspath(path)):
        print(f"{os.path.basename(sys.argv[0])}: {lack}", file=sys.stderr)
        sys.exit(2)
