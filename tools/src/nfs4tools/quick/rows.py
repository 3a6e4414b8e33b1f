"""Rows as the quick tests run them: by the model, and over TCP by the server that is judged. Each row goes to a server
of its own, as `send_rows --serve` starts it, if that is the program. The model starts slowly: so one server of it gets
the rows by names, one after the other."""
import os
import shlex
import subprocess
from collections.abc import Iterator
from dataclasses import dataclass

from nfs4tools.processes import REPLY_PATIENCE, Served
from nfs4tools.quick.judged_server import JudgedServer, Outcome
from nfs4tools.rows.by_model import check_file
from nfs4tools.rows.errors import UNREAD, refusal
from nfs4tools.rows.reading import File, files_of
from nfs4tools.rows.row import Row
from nfs4tools.rows.reports import Outcome as Sent, lines_of, title
from nfs4tools.send.names import NoSite, learn
from nfs4tools.send.servers import ALONE, ORDERING, Listener, failure_alone, named_sender, outcomes_of

# How many rows a task has of those that get a server of their own each.
TOGETHER = 16


def by_model(file: str) -> Outcome:
    """The rows of a file by the model."""
    counts, faults = check_file(file)
    return Outcome(counts.agreed, faults)


def read_all(folder: str) -> tuple[list[Row], Outcome]:
    """The rows of a folder; and what is wrong with files that can't be read."""
    rows: list[Row] = []
    outcome = Outcome()
    for file in files_of(folder):
        try:
            rows += File(file).rows
        except UNREAD as error:
            outcome.check(refusal(file, error))
    return rows, outcome


@dataclass(frozen=True)
class Batch:
    """Rows that are sent by one task, and how the paths of the journals begin that they leave."""

    judged: JudgedServer
    rows: list[Row]
    journals: str


def batches(judged: JudgedServer, rows: list[Row], journals: str) -> Iterator[Batch]:
    """The tasks of sending these rows."""
    size = len(rows) if judged.is_model else TOGETHER
    for first in range(0, len(rows), size):
        yield Batch(judged, rows[first : first + size], os.path.join(journals, str(first)))


def sendable(judged: JudgedServer, rows: list[Row]) -> tuple[list[Row], str]:
    """The rows that can be sent, and a note on the others."""
    found = [row for row in rows if not (row.is_alone if judged.is_model else row.is_ordering)]
    return found, f"{len(rows) - len(found)} {ALONE if judged.is_model else ORDERING}"


def send(batch: Batch) -> Outcome:
    """What comes of rows that are sent."""
    return send_by_names(batch) if batch.judged.is_model else send_alone(batch)


def send_alone(batch: Batch) -> Outcome:
    """Each row to a server of its own, whose journal is kept."""
    outcome = Outcome()
    for number, row in enumerate(batch.rows):
        path = f"{batch.journals}.{number}.journal"
        failure = failure_alone(shlex.join([*batch.judged.command, "--journal", path]), row)
        outcome.check(list(lines_of(Sent(row, failure, 0, None, None))))
        if os.path.exists(path):
            outcome.journals.append((title(row), path))
    return outcome


def send_by_names(batch: Batch) -> Outcome:
    """All rows to one server, which goes on until its input ends."""
    path = f"{batch.journals}.journal"
    options = ["--listen", "127.0.0.1:0", "--until-input-ends", "--journal", path]
    with Served([*batch.judged.command, *options], stdin=subprocess.PIPE) as served:
        if served.port is None:
            return Outcome(faults=[[f"the server begins otherwise: {served.end()}"]])
        address = "127.0.0.1", served.port
        try:
            server = Listener(address, named_sender(REPLY_PATIENCE, learn(address)))
        except (NoSite, OSError) as error:
            return Outcome(faults=[[f"rows can't be sent: {error}"]])
        outcome = Outcome()
        for sent in outcomes_of(batch.rows, {}, lambda _: None, server.failure_of, 1):
            outcome.check(list(lines_of(sent)))
        served.end_input()
        # On standard error it says how connections ended.
        ending = served.end()
    outcome.check(None if ending[:2] == (0, b"") else f"the server ends with {ending}")
    outcome.journals.append(("all rows", path))
    return outcome
