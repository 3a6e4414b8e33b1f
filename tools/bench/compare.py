"""Compares the calls a second of two programs, which get each load in turn, in rounds of one run.

Each kind of call comes over C connections with P calls under way on each. RENEW comes over three connections, beside
a connection that sends OPEN and CLOSE, or NULL.

It prints, in thousands, the medians of both programs. It also prints the medians of the rounds' ratios, each with the
least and the greatest:

- AFTER by BEFORE
- each program's RENEW beside OPEN and CLOSE, by its own RENEW beside NULL

The status is 1 if AFTER has less than 0.95 of BEFORE, or its RENEW less than 0.85 of its RENEW beside NULL."""
import argparse
import json
import sys
import tempfile
from collections import defaultdict
from itertools import product
from statistics import median

from bench.script import parser_of, run, said_by, some_of
from bench.servers import Counted, build
from bench.table import NAMES, quotients, spread
from nfs4tools.processes import NO_CALLBACKS, PROGRAM

# By C and P; and RENEW's connections beside one other, with P of both.
SHAPES, BESIDE, UNDER_WAY = [(1, 1), (1, 16), (4, 16)], 3, 16
LEAST, LEAST_BESIDE = 0.95, 0.85
NAMES_OF_BOTH = "before", "after"
# Thousands of calls a second, by the names of the load and of the server.
Rates = dict[tuple[str, str], list[float]]


class Load:
    """How it is called in what is printed, over how many connections it comes, and the words for it."""

    def __init__(self, workload: str, connections: int, under_way: int, other: str | None = None) -> None:
        self.name, self.connections = f"{NAMES[workload]}, C{connections} P{under_way}", connections
        self.words = [workload, "--connections", str(connections), "--under-way", str(under_way)]
        if other:
            self.name, self.connections = f"{self.name}, beside {NAMES[other]}", connections + 1
            self.words += ["--beside", other, "--connections", "1"]

    def rate(self, load: str, server: Counted, seconds: float) -> float:
        """The calls a second of what is named first."""
        with server.serving(self.connections) as (port, _):
            words = [load, *self.words, "--server", f"127.0.0.1:{port}", "--seconds", str(seconds)]
            return float(json.loads(said_by(words, f"{server.name}, {self.name}").splitlines()[0])["rate"])


def rounds(loads: list[Load], servers: list[Counted], given: argparse.Namespace) -> Rates:
    """For each load and server the rates, as they come."""
    rates: Rates = defaultdict(list)
    with tempfile.TemporaryDirectory() as folder:
        load = build("load/main.rs", folder)
        for round in range(given.rounds):
            print(f"round {round + 1} of {given.rounds}", file=sys.stderr)
            for one, server in product(loads, servers if round % 2 else servers[::-1]):
                rates[one.name, server.name].append(one.rate(load, server, given.seconds) / 1000)
    return rates


def is_missed(what: str, ratios: list[float], least: float) -> bool:
    """Prints the ratio, too."""
    missed = median(ratios) < least
    print(f"{what} {spread(ratios)}, at least {least}{': missed' if missed else ''}")
    return missed


def tell(rates: Rates, loads: list[Load], beside: list[Load]) -> bool:
    """Whether a ratio is missed."""
    missed = []
    for load in loads:
        before, after = (rates[load.name, name] for name in NAMES_OF_BOTH)
        ratios = quotients(after, before)
        missed.append(is_missed(f"{load.name}: {spread(before)}, then {spread(after)}, ratio", ratios, LEAST))
    if beside:
        before, after = (quotients(*(rates[load.name, name] for load in beside)) for name in NAMES_OF_BOTH)
        missed.append(
            is_missed(f"RENEW beside OPEN+CLOSE by RENEW beside NULL: {spread(before)}, then", after, LEAST_BESIDE)
        )
    return any(missed)


def arguments() -> argparse.Namespace:
    parser = parser_of(__doc__, has_program=False)
    parser.add_argument("--rounds", type=int, default=9, metavar="N", help="[default: 9]")
    parser.add_argument("--seconds", type=float, default=0.4, metavar="S", help="of each load [default: 0.4]")
    parser.add_argument(
        "--workloads", type=some_of(NAMES), default=list(NAMES), metavar="LIST", help=f"[default: {','.join(NAMES)}]"
    )
    parser.add_argument("before", metavar="BEFORE")
    parser.add_argument("after", nargs="?", default=PROGRAM, metavar="AFTER", help="[default: the one built here]")
    return parser.parse_args()


def work() -> bool:
    given = arguments()
    servers = [Counted(name, [getattr(given, name), "serve", "--tree", NO_CALLBACKS]) for name in NAMES_OF_BOTH]
    loads = [Load(workload, *shape) for workload, shape in product(given.workloads, SHAPES)]
    beside = [Load("renew", BESIDE, UNDER_WAY, other) for other in ("open", "null") if "renew" in given.workloads]
    return tell(rounds(loads + beside, servers, given), loads, beside)


def main() -> None:
    run(work)
