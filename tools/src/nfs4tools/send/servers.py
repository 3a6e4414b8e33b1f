"""Rows to servers on TCP, as tools/send_rows sends them: to one that runs, or each to one of its own; and what comes of
each."""
import argparse
import itertools
import os
import shlex
import sys
import tempfile
import time
from collections.abc import Callable
from concurrent.futures import ThreadPoolExecutor

from nfs4tools.processes import REPLY_PATIENCE, Served
from nfs4tools.rows.reading import File, files_of
from nfs4tools.rows.row import Row
from nfs4tools.rows.reports import (
    Failure,
    Outcome,
    is_failed,
    junit_lines,
    lines_of,
    read_known,
    summary,
    tap_lines,
    title,
    write,
)
from nfs4tools.send import exchange
from nfs4tools.send.exchange import Named, Plain
from nfs4tools.send.names import Site, learn

USAGE = """%(prog)s [OPTIONS] [--names [--path PATH] [--uid UID]] HOST PORT FOLDER|FILE.rows..
       %(prog)s [OPTIONS] --serve COMMAND FOLDER|FILE.rows..
OPTIONS: [--portable] [--only NAME].. [--known FILE] [--patience SECONDS] [--tap FILE] [--junit FILE]"""
# Why rows are left out, behind their number.
ORDERING, ALONE = "with orders left out", "that need a server that has just been started are left out"
GONE = "not sent any longer"
# With how many words the ids of a run's clients end, in turn: each may be that of a live client for a lease.
WORDS = 32


def is_refused(row: Row) -> bool:
    """Whether it wants its tree refused."""
    return any((connection.fault or "").startswith("tree refused") for connection in row.connections)


def failure_alone(command: str, row: Row) -> Failure | None:
    """What is wrong with a row by a server of its own, which has to end as the row says."""
    with tempfile.NamedTemporaryFile("w", suffix=".toml", encoding="utf-8") as tree:
        options = [
            "--listen",
            "127.0.0.1:0",
            "--connections",
            str(len(row.connections)),
            "--lease",
            str(row.lease),
            "--epoch",
            str(row.epoch),
        ]
        if row.document is not None:
            tree.write(row.document)
            tree.flush()
            options += ["--tree", tree.name]
        with Served([*shlex.split(command), *options]) as served:
            return failure_with(served, row)


def failure_with(served: Served, row: Row) -> Failure | None:
    if (served.port is None) != is_refused(row):
        ending = served.end() if served.port is None else "no end"
        return Failure(f"the server begins otherwise: {ending}", b"", b"")
    wrong = None
    try:
        if served.port is not None:
            wrong = exchange.failure_of(("127.0.0.1", served.port), row, Plain(), is_to_end=True)
    except OSError as error:
        return Failure(f"the connection fails: {error}", b"", b"")
    if wrong is not None:
        return wrong
    faults = [connection.fault for connection in row.connections if connection.fault is not None]
    wanted = (1, b"", f"fault: {faults[0]}\n".encode()) if faults else (0, b"", b"")
    status, output, errors = served.end()
    # A line before the fault may say what is wrong with the tree's file.
    ending = status, output, errors.splitlines(True)[-1] if is_refused(row) and errors else errors
    return None if ending == wanted else Failure(f"the server ends with {ending}, wanted {wanted}", b"", b"")


class Listener:
    """A server that runs. Where nothing listens there any longer, the rows that follow aren't sent."""

    def __init__(self, address: tuple[str, int], sender_of: Callable[[Row], Plain]) -> None:
        self.address, self.sender_of = address, sender_of
        self.was_reached = self.is_gone = False

    def failure_of(self, row: Row) -> Failure | None:
        try:
            failure = exchange.failure_of(self.address, row, self.sender_of(row))
        except ConnectionRefusedError:
            if not self.was_reached:
                raise
            self.is_gone = True
            return Failure("nothing listens any longer", b"", b"")
        except OSError as error:
            return Failure(f"the connection fails: {error}", b"", b"")
        self.was_reached = True
        return failure


def named_sender(seconds: int, site: Site) -> Callable[[Row], Plain]:
    """What sends a row to a server that goes on, by the next word of this run, which no other run has."""
    run, numbers = os.urandom(4).hex(), itertools.cycle(range(1, WORDS + 1))
    return lambda row: Named(seconds, site, row, f".{run}.{next(numbers)}".encode())


def outcomes_of(
    found: list[Row],
    known: dict[str, str],
    why_left_out: Callable[[Row], str | None],
    failure_of_row: Callable[[Row], Failure | None],
    jobs: int,
) -> list[Outcome]:
    """What comes of the rows, in their order, where so many are sent at a time."""

    def outcome_of(row: Row) -> Outcome:
        why, begin = why_left_out(row), time.monotonic()
        failure = None if why else failure_of_row(row)
        return Outcome(row, failure, time.monotonic() - begin, why, known.get(title(row)))

    with ThreadPoolExecutor(jobs) as pool:
        return list(pool.map(outcome_of, found))


def send(given: argparse.Namespace, found: list[Row], known: dict[str, str], host: str, port: int) -> list[Outcome]:
    """What came of the rows."""

    def why_left_out(row: Row) -> str | None:
        return ALONE if given.names and row.is_alone else ORDERING if row.is_ordering else None

    if given.serve:
        jobs = 2 * (os.cpu_count() or 1)
        return outcomes_of(found, known, why_left_out, lambda row: failure_alone(given.serve, row), jobs)
    address = host, port
    sender_of: Callable[[Row], Plain] = lambda row: Plain(given.patience)
    if given.names:
        path = [name.encode() for name in given.path.split("/") if name]
        sender_of = named_sender(given.patience, learn(address, path, given.uid))
    server = Listener(address, sender_of)
    return outcomes_of(
        found, known, lambda row: why_left_out(row) or (GONE if server.is_gone else None), server.failure_of, 1
    )


def read_options(description: str) -> tuple[argparse.Namespace, str, int, list[str]]:
    """The options, the host and the port of the server, if it runs, and the files and folders."""
    parser = argparse.ArgumentParser(
        description=description, formatter_class=argparse.RawDescriptionHelpFormatter, usage=USAGE
    )
    parser.add_argument("--portable", action="store_true", help=argparse.SUPPRESS)
    parser.add_argument("--names", action="store_true", help=argparse.SUPPRESS)
    parser.add_argument("--serve", help=argparse.SUPPRESS)
    parser.add_argument("--known", help=argparse.SUPPRESS)
    parser.add_argument("--tap", help=argparse.SUPPRESS)
    parser.add_argument("--junit", help=argparse.SUPPRESS)
    parser.add_argument("--only", action="append", help=argparse.SUPPRESS)
    parser.add_argument("--path", default="", help=argparse.SUPPRESS)
    parser.add_argument("--uid", type=int, help=argparse.SUPPRESS)
    parser.add_argument("--patience", type=int, default=REPLY_PATIENCE, help=argparse.SUPPRESS)
    parser.add_argument("words", nargs="*", help=argparse.SUPPRESS)
    given = parser.parse_args()
    if given.names and given.serve:
        parser.error("--names is for a server that runs")
    if not given.names and (given.path or given.uid is not None):
        parser.error("--path and --uid want --names")
    words = ["", "0"] * bool(given.serve) + given.words
    if len(words) < 3:
        parser.error("a host, a port and rows are needed" if not given.serve else "rows are needed")
    host, port, *files = words
    if not port.isdecimal() or int(port) > 65535:
        parser.error(f"{port} is no port")
    for path in files:
        if not os.path.exists(path):
            parser.error(f"there is no {path}")
    return given, host, int(port), files


def rows_of(given: argparse.Namespace, files: list[str]) -> list[Row]:
    """The rows that are to be sent."""
    read = [row for path in files for file in files_of(path) for row in File(file).rows]
    for name in given.only or ():
        if all(row.name != name for row in read):
            sys.exit(f"send_rows: there is no row '{name}'")
    return [
        row
        for row in read
        if (row.is_portable or not given.portable) and (given.only is None or row.name in given.only)
    ]


def run(given: argparse.Namespace, host: str, port: int, files: list[str]) -> list[Outcome]:
    """Sends the rows, and writes the files that are asked for: what came of the rows."""
    found, known = rows_of(given, files), read_known(given.known) if given.known else {}
    outcomes = send(given, found, known, host, port)
    for path, lines in ((given.tap, tap_lines), (given.junit, junit_lines)):
        if path is not None:
            write(path, lines(outcomes))
    return outcomes


def report(given: argparse.Namespace, outcomes: list[Outcome]) -> int:
    """Prints what came of the rows: the status."""
    for outcome in outcomes:
        for line in lines_of(outcome):
            print(line)
    refused = sum(is_refused(outcome.row) for outcome in outcomes if outcome.left_out is None) if given.serve else 0
    print(summary(outcomes) + (f"; {refused} of them want their tree refused" if refused else ""))
    return 1 if any(map(is_failed, outcomes)) else 0
