"""The samples as docs/CLIENTS.md runs them: rows to a server with the files that they are for; records to `once`."""
import os
import re
import subprocess
import sys
import time
from collections.abc import Iterator
from dataclasses import dataclass

from nfs4tools.journal.journal import Recorder
from nfs4tools.model.tree import DEFAULT, Tree
from nfs4tools.processes import PATIENCE, Process, Served, TOP, is_silent
from nfs4tools.quick.judged_server import JudgedServer, Outcome
from nfs4tools.rows.differences import words_beside
from nfs4tools.rows.reading import File
from nfs4tools.rows.row import Row
from nfs4tools.rows.reports import Outcome as Sent, lines_of
from nfs4tools.send import exchange
from nfs4tools.send.exchange import Plain

# The address in the rows of a client that is called back, and what the listener there has to tell.
CALLED_BACK = "127.0.0.1.80.11"
TOLD = ("CB_NULL", "CB_RECALL 1 1 1 3,", "DELEGRETURN 1 1 1 3 -> NFS4_OK")
# The seconds after which a lease of a second is over, and its end is seen; and those in which the program has done what
# follows on a callback's answer.
BEYOND_LEASE, MARKED = 4, 1
# How the names of the samples' journals begin.
SAMPLE = "sample."


@dataclass(frozen=True)
class Sample:
    """Rows that go to one server, one file after the other, and how that server is started; or records."""

    files: tuple[str, ...]
    tree: str | None = None
    lease: int = 90
    # The seconds between two files.
    pause: float = 0
    is_called_back: bool = False

    def options(self, folder: str) -> list[str]:
        tree = ["--tree", os.path.join(folder, self.tree)] if self.tree else []
        return ["--lease", str(self.lease), *tree]


SAMPLES = [
    Sample(("two_owners.rows", "after_the_lease.rows"), "no_callbacks.toml", lease=1, pause=BEYOND_LEASE),
    Sample(("called_back.rows", "recalled_file.rows"), is_called_back=True),
    Sample(("two_owners.rows",), "no_callbacks.toml"),
    Sample(("two_faults.rows",), "no_callbacks.toml"),
    Sample(("cut_file.rows",), "clients.toml"),
    Sample(("lent_file.rows",), "lending.toml"),
    Sample(("two_owners.records",)),
    Sample(("client_ids.records",)),
    Sample(("letters.records",), "letters.toml"),
]


@dataclass(frozen=True)
class Run:
    """A sample that is run by one task, from this folder; and where its journal goes."""

    judged: JudgedServer
    sample: Sample
    folder: str
    journal: str

    def path(self, name: str) -> str:
        return os.path.join(self.folder, name)


def runs(judged: JudgedServer, folder: str, journals: str) -> tuple[list[Run], Outcome]:
    """The tasks; and whether each sample of the folder is run. A sample that the folder hasn't got is left out."""
    known = {name for sample in SAMPLES for name in sample.files}
    found = {name for name in os.listdir(folder) if re.search(r"\.(?:rows|records)$", name)}
    outcome = Outcome()
    for name in sorted(found - known):
        outcome.check(f"{os.path.join(folder, name)}: no quick test runs this sample")
    outcome.notes += [f"{name} isn't there" for name in sorted(known - found)]
    wanted = [sample for sample in SAMPLES if found.issuperset(sample.files)]
    if judged.is_model and any(sample.is_called_back for sample in wanted):
        wanted = [sample for sample in wanted if not sample.is_called_back]
        outcome.notes.append("those with callbacks left out, as the model makes none")
    return [
        Run(judged, sample, folder, os.path.join(journals, f"{SAMPLE}{number}.journal"))
        for number, sample in enumerate(wanted)
    ], outcome


def is_left_by_sample(journal: str) -> bool:
    return os.path.basename(journal).startswith(SAMPLE)


def run_sample(run: Run) -> Outcome:
    """What comes of a sample, whose journal is kept."""
    outcome = Outcome()
    name = " and ".join(run.sample.files)
    try:
        if name.endswith(".records"):
            outcome.check(fault_of_records(run, name))
        else:
            for fault in faults_of_rows(run):
                outcome.check(fault)
    except (OSError, exchange.NoReply) as error:
        outcome.check(f"{name}: {type(error).__name__}: {error}")
    if os.path.exists(run.journal):
        outcome.journals.append((name, run.journal))
    return outcome


# Records.


def fault_of_records(run: Run, name: str) -> list[str]:
    """The lines on what is wrong with what `once` answers and how it ends, which are none if nothing is."""
    with open(run.path(name), "rb") as source:
        sent = source.read()
    command = [*run.judged.once(), "--journal", run.journal, *run.sample.options(run.folder)]
    ran = subprocess.run(command, input=sent, capture_output=True, timeout=PATIENCE)
    wanted = replies_to(run, sent)
    if (ran.returncode, ran.stdout, ran.stderr) == (0, wanted, b""):
        return []
    ending = f"{name}: `once` ends with status {ran.returncode}, {ran.stderr!r}"
    return [ending, *(words_beside(wanted, ran.stdout, "got") if ran.stdout != wanted else ())]


def replies_to(run: Run, sent: bytes) -> bytes:
    """What is wanted for records: what a row says that sends the same, if one does; or else what the model answers."""
    for path in map(run.path, sorted(os.listdir(run.folder))):
        for row in File(path).rows if path.endswith(".rows") else ():
            if [connection.sent for connection in row.connections] == [sent]:
                return row.connections[0].wanted
    document = DEFAULT
    if run.sample.tree:
        with open(run.path(run.sample.tree), encoding="utf-8") as source:
            document = source.read()
    return Recorder(Tree(document)).converse(sent)[0]


# Rows.


def faults_of_rows(run: Run) -> Iterator[list[str] | str | None]:
    """What is wrong with each row, or None, and with the end of the server."""
    files = [File(run.path(name)).rows for name in run.sample.files]
    count = sum(len(row.connections) for rows in files for row in rows) + run.sample.is_called_back
    options = ["--listen", "127.0.0.1:0", "--connections", str(count), "--journal", run.journal]
    with Served([*run.judged.command, *options, *run.sample.options(run.folder)]) as served:
        if served.port is None:
            yield f"{run.sample.files[0]}: the server begins otherwise: {served.end()}"
        elif run.sample.is_called_back:
            yield from faults_with_callbacks(run, served.port)
        else:
            for number, rows in enumerate(files):
                time.sleep(run.sample.pause if number else 0)
                yield from faults_of_file(rows, served.port)
        if served.port is not None:
            ending = served.end()
            yield None if ending == (0, b"", b"") else f"{run.sample.files[0]}: the server ends with {ending}"


def faults_of_file(rows: list[Row], port: int) -> Iterator[list[str]]:
    """The lines on what is wrong with each row that is sent there, which are none if it is right."""
    for row in rows:
        failure = exchange.failure_of(("127.0.0.1", port), row, Plain())
        yield list(lines_of(Sent(row, failure, 0, None, None)))


def faults_with_callbacks(run: Run, port: int) -> Iterator[list[str] | str | None]:
    """The same of the rows of a client that is called back. tools/listen_callbacks takes the callbacks, and gives the
    file back. It listens at a port of its own, which takes the place of the rows' address."""
    command = [sys.executable, os.path.join(TOP, "tools/listen_callbacks"), "--return", f"127.0.0.1:{port}"]
    with Process([*command, "127.0.0.1:0"]) as listener:
        address = line_of(listener).rpartition(" r_addr ")[2]
        lines = []
        for number, name in enumerate(run.sample.files):
            yield from faults_of_file(rows_called_at(run, name, address), port)
            lines += [line_of(listener) for _ in (TOLD[1:] if number else TOLD[:1])]
            time.sleep(0 if number else MARKED)
    for line, wanted in zip(lines, TOLD):
        yield None if wanted in line else f"the listener tells {line!r}, wanted {wanted!r}"


def line_of(listener: Process) -> str:
    """The next line that it tells, if it comes in time."""
    if is_silent(listener.program.stdout, PATIENCE):
        return ""
    return bytes(listener.program.stdout.readline()).decode(errors="replace").strip()


def rows_called_at(run: Run, name: str, address: str) -> list[Row]:
    """The rows of this file, whose client is called back at this address."""
    path = f"{run.journal}.{name}"
    with open(run.path(name), encoding="utf-8") as source, open(path, "w", encoding="utf-8") as out:
        out.write(source.read().replace(CALLED_BACK, address))
    return File(path).rows
