"""The rows of `crates/rows/data`, and the journals that the model makes of them."""
import os

from nfs4tools.journal.journal import Journal, Recorder
from nfs4tools.model.tree import DEFAULT, Refused, Tree
from nfs4tools.processes import TOP
from nfs4tools.rows.by_model import converse
from nfs4tools.rows.reading import File, files_of
from nfs4tools.rows.row import Row

# The files, by their names.
ROW_FILES = {os.path.basename(path): path for path in files_of(os.path.join(TOP, "crates/rows/data"))}


def rows_of(name: str) -> list[Row]:
    """The rows of the file of this name."""
    return File(ROW_FILES[name]).rows


def journal_of(row: Row) -> Journal | None:
    """The journal of the row's calls, or None where the row's tree is refused."""
    try:
        tree = Tree(DEFAULT if row.document is None else row.document)
    except Refused:
        return None
    server = Recorder(tree, row.lease, row.epoch)
    for connection in row.connections:
        converse(server, connection)
    return server.journal()
