"""The version of Python that the tools need. An older Python can read this file, and each file that comes before it."""
import os
import sys

NEEDED = (3, 11)


def require_python() -> None:
    """Ends the tool with status 2 and a line that says what is needed, if this is an older Python."""
    found = tuple(sys.version_info[:2])
    if found < NEEDED:
        tool = os.path.basename(sys.argv[0])
        needed = "Python {}.{} or later is needed; this is {}.{}".format(*(NEEDED + found))
        sys.stderr.write("{}: {}\n".format(tool, needed))
        sys.exit(2)
