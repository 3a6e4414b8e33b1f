"""What `tools/bench/cost --in-hold` reads of callgrind, and the table that it makes (tools/bench/in_hold.py): by parts
that are made by hand, in the form that callgrind 3.19 writes. No test starts valgrind."""
import subprocess
import sys
from os.path import join

import pytest

from bench.in_hold import RELEASES, TAKES, Figure, Hold, Part, figure_of, holds_of, misses, parts_of, table
from bench.script import Failure
from nfs4tools.processes import TOP

pytestmark = pytest.mark.quick

# The worker, and the thread of the sweeper.
WORKER, SWEEPER = 4, 2
TAKEN, RELEASED = f"--dump-after={TAKES}<#38789dae78f3db55>", f"--dump-after={RELEASES}<#38789dae78f3db55>"
# Of callgrind's text the lines that come before the parts, and a part.
BEGINNING = """# callgrind format
version: 1
creator: callgrind-3.19.0
pid: 9636
cmd:  nfs4state serve --listen 127.0.0.1:0 --connections 1
"""
PART = """part: {number}
thread: {thread}


desc: I1 cache: 

desc: Timerange: Basic block 0 - 223991
desc: Trigger: {trigger}

positions: line
events: Ir
summary: {count}


fl=(166) nfs_shared.rt
fn=(880) nfs_shared::shared::Shared::hold::<#38789dae78f3db55>
94 1
+74 {count}

totals: {count}

"""
TABLE = """| Calls | In the hold | In the longest hold | In all |
| --- | --: | --: | --: |
| READ 64 KiB | {read} | 7,000 | 20,000 |
| WRITE 64 KiB | 9,000 | 9,000 | {write} |
"""


def text_of(*parts: tuple[int, str, int]) -> str:
    """What callgrind writes of parts: a thread, how the part ends, and its instructions."""
    return BEGINNING + "".join(
        PART.format(number=number, thread=thread, trigger=trigger, count=count)
        for number, (thread, trigger, count) in enumerate(parts, 1)
    )


def held_parts(*counts: int, thread: int = WORKER) -> list[Part]:
    """Parts of a thread that are no hold and a hold in turn."""
    return [Part(thread, bool(place % 2), count) for place, count in enumerate(counts)]


def test_parts_are_read():
    text = text_of(
        (WORKER, TAKEN, 79706),
        (SWEEPER, TAKEN, 680),
        (SWEEPER, RELEASED, 14),
        (WORKER, RELEASED, 4062),
        (WORKER, "Program termination", 100),
    )
    assert parts_of(text) == [
        Part(WORKER, False, 79706),
        Part(SWEEPER, False, 680),
        Part(SWEEPER, True, 14),
        Part(WORKER, True, 4062),
    ]


def test_end_of_the_program_is_no_part():
    assert parts_of(text_of((WORKER, "Program termination", 100))) == []


@pytest.mark.parametrize("line", [f"thread: {WORKER}\n", "totals: 680\n"])
def test_part_without_a_line(line):
    text = text_of((WORKER, TAKEN, 680))
    assert line in text
    with pytest.raises(Failure, match="a part without its thread or its sum"):
        parts_of(text.replace(line, ""))


def test_holds_are_those_of_the_worker():
    sweeps = held_parts(680, 14, thread=SWEEPER)
    parts = [*sweeps, *held_parts(5000, 3000, 4000, 3500), *sweeps, *held_parts(100, 200)]
    assert holds_of(parts, 3) == [Hold(5000, 3000), Hold(4000, 3500), Hold(100, 200)]


@pytest.mark.parametrize(
    "parts",
    [
        # Neither function is there, as if both were inlined.
        [],
        # One of them isn't.
        [Part(WORKER, False, 5), Part(WORKER, False, 6)],
        [Part(WORKER, True, 5), Part(WORKER, True, 6)],
        # A hold begins, and doesn't end.
        held_parts(5, 6, 7),
        # A call has no hold, or two.
        held_parts(5, 6),
        held_parts(5, 6, 7, 8, 9, 10),
    ],
)
def test_holds_that_cannot_be_told(parts):
    with pytest.raises(Failure, match="2 calls: this program's holds can't be told by these functions"):
        holds_of(parts, 2)


def test_figure():
    assert figure_of([Hold(10, 4), Hold(20, 8), Hold(30, 3)]) == Figure(5, 8, 25)


@pytest.mark.parametrize(
    "read, write, told_read, told_write",
    [
        (6500, 110000, "6,500", "110,000"),
        (6501, 110000, "**6,501, wanted 6,500**", "110,000"),
        (6500, 143158.2, "6,500", "**143,158, wanted 110,000**"),
    ],
)
def test_table(read, write, told_read, told_write):
    figures = {"READ 64 KiB": Figure(read, 7000, 20000), "WRITE 64 KiB": Figure(9000, 9000, write)}
    assert table(figures) == TABLE.format(read=told_read, write=told_write)
    assert misses(figures) == ("*" in told_read + told_write)


@pytest.mark.parametrize("others", [["--table"], ["--of", "READ"]])
def test_options_that_do_not_go_together(others):
    command = [sys.executable, join(TOP, "tools/bench/cost"), "--in-hold", *others]
    ran = subprocess.run(command, stdout=subprocess.PIPE, stderr=subprocess.STDOUT, text=True)
    assert ran.returncode == 2 and "--in-hold goes without --of and --table" in ran.stdout
