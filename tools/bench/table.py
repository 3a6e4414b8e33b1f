"""What was measured, as tables in Markdown."""
import os
import platform
import subprocess
import textwrap
import time
from collections import defaultdict
from collections.abc import Callable, Collection, Iterable, Sequence
from statistics import median
from typing import Any

HERE = os.path.dirname(os.path.abspath(__file__))
# What the load says of itself, as a line of JSON.
Line = dict[str, Any]
OURS, THEIRS, ECHO = "nfs4state", "nfs-ganesha", "echo"
NAMES = {
    "null": "NULL",
    "getattr": "GETATTR",
    "renew": "RENEW",
    "open": "OPEN+CLOSE",
    "lock": "LOCK+LOCKU",
    "read": "READ 4 KiB",
    "write": "WRITE 4 KiB",
}

# How many times the calls a second of nfs-ganesha are wanted, by connections and calls under way on each.
OF_STATES = {(1, 1): 2, (1, 16): 5, (4, 1): 2.4, (4, 16): 6}
LEAST_RATES = {
    "null": {(1, 1): 1.5, (1, 16): 11, (4, 1): 3, (4, 16): 30},
    "getattr": {(1, 1): 2.2, (1, 16): 8, (4, 1): 2.6, (4, 16): 10},
    "renew": {(1, 1): 1.6, (1, 16): 10, (4, 1): 3, (4, 16): 20},
    "open": OF_STATES,
    "lock": OF_STATES,
    "read": {**OF_STATES, (4, 16): 4.5},
    "write": OF_STATES,
}
# And which part of its processor time a call may take, by calls under way.
MOST_PROCESSOR = {"getattr": {1: 0.25, 16: 0.1}}
# As many calls are under way in both, once on many connections and once on one alone; and how many times the calls a
# second of the latter are wanted from the former.
MANY, ALONE = (4, 16), (1, 64)
LEAST_OF_MANY = {"getattr": 1.8, "open": 1, "lock": 1}
# How many times the processor time that NULL takes the echo a call may take, by connections and calls under way.
MOST_OF_ECHO = {"getattr": {(1, 1): 1.15}}
# Of these the page has the rates alone.
OF_RATES = {"read", "write"}
# The percent of the processors that others may have on a machine that counts as quiet.
QUIET = 5


def number(value: float) -> str:
    """Three digits, or all before the point."""
    digits = 0 if value >= 100 else 1 if value >= 10 else 2
    return f"{value:,.{digits}f}"


def spread(values: list[float]) -> str:
    return f"{number(median(values))} [{number(min(values))}..{number(max(values))}]"


def quotients(values: list[float], others: list[float]) -> list[float]:
    """The one by the other, round by round."""
    return [value / other for value, other in zip(values, others) if other > 0]


class Cell:
    """A workload with so many connections and calls under way: the rounds of each server."""

    def __init__(self, workload: str, connections: int, under_way: int) -> None:
        self.workload, self.connections, self.under_way = workload, connections, under_way
        self.rounds: dict[str, list[Line]] = defaultdict(list)

    def values(self, server: str, field: str) -> list[float]:
        return [line[field] for line in self.rounds[server]]

    def ratios(self, field: str) -> list[float]:
        """Ours by theirs."""
        return quotients(self.values(OURS, field), self.values(THEIRS, field))

    def both(self, field: str, scale: int = 1) -> str:
        """The medians of what is compared, one behind the other."""
        return "/".join(
            number(median(self.values(server, field)) / scale) for server in (OURS, THEIRS) if self.rounds[server]
        )

    def latency(self, server: str) -> str:
        return "/".join(number(median(self.values(server, field))) for field in ("p50", "p99"))

    def pair(self) -> tuple[int, int]:
        return self.connections, self.under_way

    def bound(self, bounds: dict[str, dict[Any, float]], key: object) -> float | None:
        return bounds.get(self.workload, {}).get(key)


class Cells:
    """All that was measured, by workload, connections and calls under way."""

    def __init__(self, lines: Sequence[Line]) -> None:
        self.found: dict[tuple[str, int, int], Cell] = {}
        for line in lines:
            key = (str(line["workload"]), int(line["connections"]), int(line["under_way"]))
            self.found.setdefault(key, Cell(*key)).rounds[str(line["server"])].append(line)

    def shapes(self) -> list[tuple[int, int]]:
        return sorted({cell.pair() for cell in self.found.values()})

    def workloads(self) -> list[str]:
        return list(dict.fromkeys(cell.workload for cell in self.found.values()))

    def values(self, server: str, field: str, workload: str, pair: tuple[int, int]) -> list[float]:
        cell = self.found.get((workload, *pair))
        return cell.values(server, field) if cell else []

    def of_many(self, cell: Cell) -> list[float]:
        """Our calls a second on many connections by those on one alone."""
        alone = self.values(OURS, "rate", cell.workload, ALONE)
        return quotients(cell.values(OURS, "rate"), alone) if cell.pair() == MANY else []

    def of_echo(self, cell: Cell) -> list[float]:
        """Our processor time by that of the echo for NULL."""
        return quotients(cell.values(OURS, "processor"), self.values(ECHO, "processor", "null", cell.pair()))


def beside(
    ratios: list[float],
    least: float | None = None,
    most: float | None = None,
    say: Callable[[list[float]], str] = spread,
) -> str:
    """A ratio, and if it misses its bound, that, both in bold."""
    if not ratios:
        return ""
    ratio, bound = median(ratios), most if least is None else least
    is_missed = least is not None and ratio < least or most is not None and ratio > most
    return f"**{say(ratios)}, wanted {bound:g}**" if is_missed else say(ratios)


def of_median(values: list[float]) -> str:
    return number(median(values))


def markdown(head: list[str], rows: Iterable[list[str]]) -> str:
    lines = [head, ["---"] + ["--:"] * (len(head) - 1), *rows]
    return "".join(f"| {' | '.join(line)} |\n" for line in lines)


def table(
    cells: Cells, say: Callable[[Cell], str], of_echo: Callable[[Cell], str], without: Collection[str] = ()
) -> str:
    """A line for each kind of call, and one for the echo, with a column for each shape: what these say of a cell."""
    rows = []
    for workload in (it for it in cells.workloads() if it not in without):
        of_workload = [cells.found.get((workload, *pair)) for pair in cells.shapes()]
        name = NAMES.get(workload, workload)
        if any(cell and (cell.rounds[OURS] or cell.rounds[THEIRS]) for cell in of_workload):
            rows.append([name] + [say(cell) if cell else "" for cell in of_workload])
        if any(cell and cell.rounds[ECHO] for cell in of_workload):
            rows.append([f"{name} of the echo"] + [of_echo(cell) if cell else "" for cell in of_workload])
    return markdown(["Calls", *(f"{connections}×{under_way}" for connections, under_way in cells.shapes())], rows)


def rate(cell: Cell) -> str:
    ratios = beside(cell.ratios("rate"), least=cell.bound(LEAST_RATES, cell.pair()))
    return f"{cell.both('rate', 1000)} {ratios}".strip()


def latency(cell: Cell) -> str:
    return " ".join(cell.latency(server) for server in (OURS, THEIRS) if cell.rounds[server])


def processor(cell: Cell) -> str:
    ratios = beside(cell.ratios("processor"), most=cell.bound(MOST_PROCESSOR, cell.under_way), say=of_median)
    return f"{cell.both('processor')} {ratios}".strip()


def told(head: str, ratios: Iterable[tuple[str, str]]) -> list[str]:
    """A line of ratios by their names, if there are any."""
    said = ", ".join(f"{name} {ratio}" for name, ratio in ratios if ratio)
    return [filled(f"{head}: {said}.")] if said else []


def of_many(cells: Cells) -> list[str]:
    """Many connections by one alone, where as many calls are under way."""
    many, alone = ("×".join(map(str, pair)) for pair in (MANY, ALONE))
    return told(
        f"The rate of {OURS} with {many} by its own with {alone}",
        (
            (NAMES[cell.workload], beside(cells.of_many(cell), least=LEAST_OF_MANY[cell.workload], say=of_median))
            for cell in cells.found.values()
            if cell.workload in LEAST_OF_MANY
        ),
    )


def of_echo(cells: Cells) -> list[str]:
    """Processor time by the echo's."""
    return told(
        f"Of {OURS} by what NULL takes the echo",
        (
            (
                f"{NAMES[cell.workload]} with {cell.connections}×{cell.under_way}",
                beside(cells.of_echo(cell), most=cell.bound(MOST_OF_ECHO, cell.pair()), say=of_median),
            )
            for cell in cells.found.values()
            if cell.bound(MOST_OF_ECHO, cell.pair())
        ),
    )


def tables(lines: Sequence[Line], servers: Sequence[str], how: str) -> str:
    """The text for docs/MEASURED.md. A cell has the figures of nfs4state and of nfs-ganesha, and their ratio; a bold
    one misses the bound behind it."""
    cells, compared = Cells(lines), [server for server in (OURS, THEIRS) if server in servers]
    pair = "/".join(compared or servers) + (", and the ratio" if len(compared) == 2 else "")
    parts = [
        filled(f"{how} {machine()} {others(lines)}"),
        filled(f"Thousands of calls a second, {pair}, medians of the rounds [least..greatest]:"),
        table(cells, rate, lambda cell: number(median(cell.values(ECHO, "rate")) / 1000)).rstrip(),
        *of_many(cells),
        filled("Latency in microseconds, of half of the calls at most/of 99 in 100 at most:"),
        table(cells, latency, lambda cell: cell.latency(ECHO), OF_RATES).rstrip(),
        filled(f"The server's processor time for a call in microseconds, {pair}:"),
        table(cells, processor, lambda cell: of_median(cell.values(ECHO, "processor")), OF_RATES).rstrip(),
        *of_echo(cells),
    ]
    return "\n\n".join(parts) + "\n"


def filled(text: str) -> str:
    return textwrap.fill(text, 120)


def others(lines: Sequence[Line]) -> str:
    shares = [line["others"] for line in lines]
    quiet = "was quiet" if max(shares) <= QUIET else "wasn't quiet"
    return (
        f"The machine {quiet}: other processes had {median(shares):.0f} % of it in the median of the loads, and"
        f" {max(shares):.0f} % at most."
    )


def machine() -> str:
    with open("/proc/cpuinfo") as file:
        models = [line.partition(":")[2].strip() for line in file if line.startswith("model name")]
    commit = said(["git", "-C", HERE, "describe", "--always", "--dirty"])
    ganesha = said(["dpkg-query", "-W", "-f", "${Version}", "nfs-ganesha"])
    return (
        f"Measured on {time.strftime('%Y-%m-%d')} at commit {commit}, beside nfs-ganesha {ganesha}, on"
        f" {os.cpu_count()} processors ({models[0] if models else platform.machine()}), Linux"
        f" {platform.release()}."
    )


def said(words: Sequence[str]) -> str:
    try:
        return subprocess.run(words, capture_output=True, text=True).stdout.strip() or "unknown"
    except OSError:
        return "unknown"
