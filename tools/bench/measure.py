"""Measures the speed of `nfs4state serve` beside nfs-ganesha and a server that only echoes, and prints it as
Markdown.

It builds the load and the echo with rustc in a folder of its own, and starts the servers on 127.0.0.1. It sends each
workload to each server in turn, with each number of connections (C) and of calls under way on each (P). It does so in
rounds, and each round begins with another server. Each reply is judged. At the first wrong reply, or if a server
doesn't end as it should, it stops with a line and status 1. README.md in this folder has more."""
import argparse
import json
import signal
import subprocess
import sys
import tempfile
from collections.abc import Iterator
from contextlib import ExitStack
from itertools import product

from bench.script import Failure, expect_program, parser_of, run, said_by, some_of
from bench.servers import Counted, Ganesha, build, end, plugins
from bench.table import ALONE, Line, NAMES, tables
from nfs4tools.processes import NO_CALLBACKS, PROGRAM

SERVERS = ["nfs4state", "nfs-ganesha", "echo"]
CONNECTIONS, UNDER_WAY = [1, 4], [1, 16]
MARKS = "<!-- the tables begin -->\n", "<!-- the tables end -->\n"


def numbers(text: str) -> list[int]:
    return [int(word) for word in text.split(",")]


def arguments() -> argparse.Namespace:
    parser = parser_of(__doc__, has_program=False)
    parser.add_argument("--quick", action="store_true", help="3 rounds of 0.2 s, in about a minute")
    parser.add_argument("--rounds", type=int, metavar="N", help="how many [default: 9]")
    parser.add_argument("--seconds", type=float, metavar="S", help="of each load [default: 1]")
    parser.add_argument(
        "--servers", type=some_of(SERVERS), default=SERVERS, metavar="LIST", help=f"[default: {','.join(SERVERS)}]"
    )
    parser.add_argument(
        "--workloads", type=some_of(NAMES), default=list(NAMES), metavar="LIST", help=f"[default: {','.join(NAMES)}]"
    )
    parser.add_argument("--connections", type=numbers, metavar="LIST", help="[default: 1,4]")
    parser.add_argument(
        "--under-way",
        type=numbers,
        metavar="LIST",
        help="[default: 1,16; where neither is given, also 64 on one connection]",
    )
    parser.add_argument(
        "--pairs",
        type=int,
        metavar="N",
        help="lock: after how many LOCKs and LOCKUs to CLOSE and OPEN [default: never]",
    )
    parser.add_argument(
        "--bytes", type=int, default=4096, metavar="N", help="read, write: how many bytes a call has [default: 4096]"
    )
    parser.add_argument("--program", default=PROGRAM, metavar="FILE", help="[default: the one built here]")
    parser.add_argument("--page", metavar="FILE", help="the page to put the tables into [default: standard output]")
    parser.add_argument("--raw", metavar="FILE", help="where to write a line of JSON for each load [default: nowhere]")
    given = parser.parse_args()
    given.rounds = given.rounds or (3 if given.quick else 9)
    given.seconds = given.seconds or (0.2 if given.quick else 1)
    alone = [] if given.connections or given.under_way else [ALONE]
    given.shapes = sorted({*product(given.connections or CONNECTIONS, given.under_way or UNDER_WAY), *alone})
    return given


Server = Counted | Ganesha


class Bench:
    """What was built and started, in a folder that goes with it."""

    def __init__(self, given: argparse.Namespace, stack: ExitStack) -> None:
        self.given = given
        self.folder = stack.enter_context(tempfile.TemporaryDirectory())
        self.expect_all()
        self.load = build("load/main.rs", self.folder)
        self.servers = [self.server(name, stack) for name in given.servers]

    def expect_all(self) -> None:
        """What is missing is said before anything is built."""
        if "nfs-ganesha" in self.given.servers:
            plugins()
        if "nfs4state" in self.given.servers:
            expect_program(self.given.program)

    def server(self, name: str, stack: ExitStack) -> Server:
        if name == "nfs4state":
            return Counted(name, [self.given.program, "serve", "--tree", NO_CALLBACKS])
        if name == "echo":
            return Counted(name, [build("echo.rs", self.folder)])
        ganesha = Ganesha(self.folder)
        stack.callback(end, ganesha.process)
        ganesha.wait(self.is_served)
        return ganesha

    def is_served(self, port: int) -> bool:
        words = [self.load, "null", "--server", f"127.0.0.1:{port}", "--calls", "1"]
        return subprocess.run(words, capture_output=True).returncode == 0

    def measure(self, server: Server, workload: str, connections: int, under_way: int) -> Line:
        """One load, and what it told."""
        with server.serving(connections) as (port, pid):
            words = [
                self.load,
                workload,
                "--server",
                f"127.0.0.1:{port}",
                "--connections",
                str(connections),
                "--under-way",
                str(under_way),
                "--seconds",
                str(self.given.seconds),
                "--pid",
                str(pid),
            ]
            words += ["--bytes", str(self.given.bytes), *server.load_options]
            words += ["--pairs", str(self.given.pairs)] if self.given.pairs else []
            told: Line = json.loads(said_by(words, f"{server.name}, {workload}, C{connections} P{under_way}"))
            return told

    def name_of(self, workload: str) -> str:
        """Blocks of another length than the tables speak of have a name of their own, and no bounds."""
        is_other = workload in ("read", "write") and self.given.bytes != 4096
        return f"{workload.upper()} of {self.given.bytes:,} bytes" if is_other else workload

    def turns(self) -> Iterator[tuple[int, str, int, int, Server]]:
        """The loads in turn: in each round all of them, to each server that can answer them."""
        given, count = self.given, len(self.servers)
        for round in range(given.rounds):
            print(f"round {round + 1} of {given.rounds}", file=sys.stderr)
            order = (self.servers * 2)[round % count :][:count]
            for workload, pair, server in product(given.workloads, given.shapes, order):
                # The echo has replies to NULL alone.
                if workload == "null" or server.name != "echo":
                    yield round, workload, pair[0], pair[1], server

    def lines(self) -> Iterator[Line]:
        """What each load told."""
        for round, workload, connections, under_way, server in self.turns():
            told = self.measure(server, workload, connections, under_way)
            yield {
                "round": round,
                "workload": self.name_of(workload),
                "connections": connections,
                "under_way": under_way,
                "server": server.name,
                **told,
            }


def parts_of(path: str) -> tuple[str, str]:
    """The page up to where the tables are, and from there on."""
    with open(path) as file:
        page = file.read()
    before, begin, rest = page.partition(MARKS[0])
    _, close, after = rest.partition(MARKS[1])
    if not close:
        raise Failure(f"{path} has no lines {MARKS[0].strip()} and {MARKS[1].strip()}")
    return before + begin, close + after


def publish(path: str, text: str) -> None:
    before, after = parts_of(path)
    with open(path, "w") as file:
        file.write(f"{before}\n{text}\n{after}")


def work() -> None:
    given = arguments()
    if given.page:
        parts_of(given.page)
    # So that what was started is ended.
    for number in signal.SIGTERM, signal.SIGINT:
        signal.signal(number, lambda number, _: sys.exit(128 + number))
    lines = []
    with ExitStack() as stack:
        raw = stack.enter_context(open(given.raw, "w")) if given.raw else None
        for line in Bench(given, stack).lines():
            lines.append(line)
            if raw:
                print(json.dumps(line), file=raw, flush=True)
    how = f"Rounds: {given.rounds}, of loads of {given.seconds:g} s."
    if given.pairs:
        how += f" LOCK+LOCKU has a CLOSE and an OPEN after every {given.pairs} of both, which count as calls."
    text = tables(lines, given.servers, how)
    if given.page:
        publish(given.page, text)
    else:
        print(text)


def main() -> None:
    run(work)
