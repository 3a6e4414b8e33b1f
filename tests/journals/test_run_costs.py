"""What it costs to search a long run: processor time, and memory for each entry. The run has four clients; one of them is
bad, so a third of the entries are refusals."""
import os
import subprocess
import sys

import pytest

from helpers.page_runs import busy
from nfs4tools.journal.journal import journal_bytes
from nfs4tools.processes import TOP

pytestmark = pytest.mark.alone
EXPLAIN, SHOW = (os.path.join(TOP, "tools", name) for name in ("explain", "show_journal"))
# The entries of a run, and the bytes that each may take.
LONG, EACH = 100_000, 2048
# The entries of the longest run, and the bytes that it may take.
LONGEST, MOST = 1_000_000, 1_500_000_000
PAGE = "@PAGE@"
# Commands, and the seconds that they may take.
OF_LONG = [
    ([EXPLAIN, "--summary", "--no-reasons"], 6),
    ([EXPLAIN, "--summary"], 16),
    ([EXPLAIN, "--client", "delta"], 15),
    ([EXPLAIN, "--status", "DENIED"], 15),
    ([SHOW, "--client", "alpha"], 15),
    ([SHOW, "--html", PAGE], 20),
    # As small a part as of the longest run. On a quiet machine each takes half as long.
    ([EXPLAIN, "--entries", "99000-"], 10),
    ([SHOW, "--entries", "99000-"], 10),
    ([SHOW, "--html", PAGE, "--entries", "99000-"], 10),
]
OF_LONGEST = [
    ([EXPLAIN, "--entries", "990000-"], 60),
    ([SHOW, "--entries", "990000-"], 60),
    ([SHOW, "--html", PAGE, "--entries", "990000-"], 60),
]


def cost(words):
    """The seconds of processor time of a command by this Python, and the bytes that it takes at most."""
    process = subprocess.Popen([sys.executable, *words], stdout=subprocess.DEVNULL)
    _, status, usage = os.wait4(process.pid, 0)
    process.returncode = os.waitstatus_to_exitcode(status)
    assert process.returncode == 0
    return usage.ru_utime + usage.ru_stime, 1024 * usage.ru_maxrss


def expect_cost(words, journal, seconds, most, tell):
    """The median of three times is within the bound, and so is the memory."""
    page = os.path.join(os.path.dirname(journal), "run.html")
    costs = [cost([page if it == PAGE else it for it in words] + [journal]) for _ in range(3)]
    taken, memory = sorted(it[0] for it in costs)[1], max(it[1] for it in costs)
    tell(f"{' '.join(map(os.path.basename, words))}: {taken:.1f} s of {seconds} s, {memory >> 20} MiB")
    assert taken <= seconds and memory <= most


def written(folder, count):
    """The path of a busy run's journal."""
    path = folder / "run.journal"
    path.write_bytes(journal_bytes(busy(count)))
    return str(path)


@pytest.fixture(scope="module")
def long(tmp_path_factory):
    return written(tmp_path_factory.mktemp("long"), LONG)


@pytest.fixture(scope="module")
def longest(tmp_path_factory):
    return written(tmp_path_factory.mktemp("longest"), LONGEST)


@pytest.mark.parametrize("words, seconds", OF_LONG)
def test_a_long_run(long, tell, words, seconds):
    expect_cost(words, long, seconds, LONG * EACH + cost([EXPLAIN, "--help"])[1], tell)


@pytest.mark.by_hand
@pytest.mark.parametrize("words, seconds", OF_LONGEST)
def test_the_longest_run(longest, tell, words, seconds):
    """A range at the end of a run that has as many entries as a journal may have."""
    expect_cost(words, longest, seconds, MOST, tell)
