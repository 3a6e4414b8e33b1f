"""Draws docs/run.png: the page of a run, as `tools/show_journal --html` writes it, for CLIENTS. The run is that of
samples/lent_file.rows by the model, and a refusal is chosen. It needs Debian's chromium.

With --to it writes another file."""
import argparse
import os
import sys
from tempfile import TemporaryDirectory

from helpers.browser import BROWSER, browser
from helpers.row_journals import journal_of
from nfs4tools.journal.journal import journal_bytes
from nfs4tools.page.data import page_values
from nfs4tools.page.writing import page_text
from nfs4tools.processes import TOP
from nfs4tools.rows.reading import File
from nfs4tools.runs.run import Entry, read_run

SAMPLE, PICTURE = os.path.join(TOP, "samples/lent_file.rows"), os.path.join(TOP, "docs/run.png")
# Of the window in pixels; and of the picture in bytes.
WIDTH, HEIGHT, LIMIT = 1000, 520, 100_000
# The OPEN that is answered NFS4ERR_DELAY, as the delegation is recalled.
CHOSEN = "#entry=9"


def picture() -> bytes:
    """The picture, as PNG."""
    journal = journal_of(File(SAMPLE).rows[0])
    assert journal is not None
    with TemporaryDirectory() as folder, browser() as page:
        path, target = os.path.join(folder, "run.journal"), os.path.join(folder, "run.html")
        with open(path, "wb") as file:
            file.write(journal_bytes(journal))
        with open(target, "w", encoding="utf-8") as page_file:
            page_file.write(page_text(page_values(read_run(path, Entry), "run.journal")))
        page.size(WIDTH, HEIGHT)
        page.look()
        page.open(target, CHOSEN)
        return page.picture()


def main() -> None:
    parser = argparse.ArgumentParser(description=__doc__, formatter_class=argparse.RawDescriptionHelpFormatter)
    parser.add_argument("--to", metavar="FILE", default=PICTURE, help="the file that is written (docs/run.png)")
    given = parser.parse_args()
    if BROWSER is None:
        sys.exit("run_picture: no browser: apt-get install chromium")
    data = picture()
    if len(data) >= LIMIT:
        sys.exit(f"run_picture: the picture has {len(data)} bytes, and may have less than {LIMIT}")
    with open(given.to, "wb") as file:
        file.write(data)
