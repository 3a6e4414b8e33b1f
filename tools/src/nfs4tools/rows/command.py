"""Runs rows against this repository's server, and reports which rows fail. Without a name it runs the rows of the
repository.

The program `rows` runs each row on a server of its own, in memory. Without an option a row's input comes whole, and
then, each time to another server, in pieces of 1,000 bytes. Input of up to 10,000 bytes also comes in pieces of 3 and
of 1.

- With --again the input comes once, and a part or a sweep that fails is taken a second time.
- With --shared a thread serves each part, and the threads share the state. The journal has to be the journal of a run
  without --shared.
- With --again and --shared another thread takes a part that fails a second time, and the journal isn't compared.
- With --hex nothing runs: it prints each row's name, and the bytes that its parts send and want.

The status is:

- 0 if every row passes
- 1 if a row fails or a file can't be read
- 2, with a line on standard error, if a folder can't be read, or the program isn't built or doesn't run to its end

The program is the file that the environment variable ROWS names. Without it, it is crates/rows/out/rows, or else
out/unproved/rows. This command builds no program. tools/model/check_rows.py needs none: it runs rows by the
independent model."""
import argparse
import os
import sys

from nfs4tools.built import TOP, expect_program
from nfs4tools.rows.driver import Failed, PROGRAM
from nfs4tools.rows.files import read, run_all, show_all
from nfs4tools.rows.reading import files_of
from nfs4tools.rows.running import way_of


def main() -> int:
    parser = argparse.ArgumentParser(
        description=__doc__,
        formatter_class=argparse.RawDescriptionHelpFormatter,
        usage="%(prog)s [--again] [--shared] [--hex] [--program PATH] [FOLDER|FILE.rows]..",
    )
    parser.add_argument("--again", action="store_true")
    parser.add_argument("--shared", action="store_true")
    parser.add_argument("--hex", action="store_true")
    parser.add_argument("--program", default=PROGRAM, help="a built `rows`")
    parser.add_argument("paths", nargs="*", metavar="FOLDER|FILE.rows")
    given = parser.parse_args()
    paths = given.paths or [os.path.relpath(os.path.join(TOP, "crates/rows/data"))]
    try:
        files = [read(file) for path in paths for file in files_of(path)]
        if given.hex:
            return show_all(files)
        expect_program(given.program)
        return run_all(files, way_of(given.shared, given.again, path=given.program))
    except (Failed, OSError) as error:
        print(f"rows: {error}", file=sys.stderr)
        return 2
