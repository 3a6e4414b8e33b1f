"""The commands of README.md and of docs/CLIENTS.md that have a `$` before them: each section by itself, in their
order, with what they print compared to the page. Each is run in a folder where `./start` finds the program, and in one
where it finds the model alone.

The section on libnfs is left out if `gcc` or `libnfs-dev` isn't installed. That on tshark is run by hand alone, since
it needs the right to capture on the loopback interface. By hand it is an error if something for them isn't there.

The sample of records has to be what its row sends."""
import os
import re
import subprocess

import pytest

from helpers.expecting_client import expect
from helpers.page_sessions import NAMED, PAGES, PATIENCE, Session, sections
from helpers.server_helpers import tried_again
from helpers.start_folders import is_named, room_for
from nfs4tools.processes import PROGRAM, TOP
from nfs4tools.rows.reading import File
from nfs4tools.wire import Status

SAMPLE = os.path.join(TOP, "samples/two_owners")
# Words in the headings of the sections that need what may not be there.
LIBNFS, CAPTURE = "libnfs", "wire"


BY_PAGE = [sections(path) for path in PAGES]
SECTIONS = {heading: commands for found in BY_PAGE for heading, commands in found}


def has_libnfs():
    """Whether there are a compiler and the headers of libnfs."""
    asking = "#if !__has_include(<nfsc/libnfs.h>)\n#error\n#endif\n"
    try:
        ran = subprocess.run(
            ["gcc", "-fsyntax-only", "-x", "c", "-"],
            input=asking,
            stderr=subprocess.DEVNULL,
            text=True,
            timeout=PATIENCE,
        )
    except FileNotFoundError:
        return False
    return ran.returncode == 0


@pytest.fixture(
    params=[pytest.param(PROGRAM, id="program", marks=pytest.mark.needs("nfs4state")), pytest.param(None, id="model")]
)
def room(request, tmp_path):
    """A folder where `./start` finds the program, or the model alone."""
    folder = tmp_path / "room"
    folder.mkdir()
    return room_for(str(folder), request.param)


def test_pages(tell):
    """Both pages have commands, in sections of different names."""
    counts = [sum(len(commands) for _, commands in found) for found in BY_PAGE]
    expect("that each page has some", 0 in counts, False)
    expect("the headings", len(SECTIONS), sum(map(len, BY_PAGE)))
    tell(f"{sum(counts)} commands in {len(SECTIONS)} sections, each by the program and by the model")


def test_sample():
    """The records are what the row sends, so that both show the same session."""
    with open(f"{SAMPLE}.records", "rb") as file:
        sent = [connection.sent for row in File(f"{SAMPLE}.rows").rows for connection in row.connections]
        expect("what the row sends", sent, [file.read()])


def test_statuses():
    """Each status that CLIENTS has in a table has its number."""
    with open(os.path.join(TOP, "docs/CLIENTS.md"), encoding="utf-8") as page:
        shown = re.findall(r"^\| ([A-Z_]+) \| ([0-9]+) \|", page.read(), re.M)
    expect("that there are some", len(shown) > 10, True)
    expect(
        "their numbers",
        [(name, int(number)) for name, number in shown],
        [(name, Status[name].value) for name, _ in shown],
    )


def test_first_command(room, request):
    """The command of README that has a reply of the server runs as it stands."""
    with open(os.path.join(TOP, "README.md"), encoding="utf-8") as page:
        commands = re.findall(r"^    (\./start -- .*)$", page.read(), re.M)
    expect("how many there are", len(commands), 1)
    ran = subprocess.run(
        ["bash", "-c", commands[0]],
        stdin=subprocess.DEVNULL,
        capture_output=True,
        text=True,
        timeout=PATIENCE,
        cwd=room,
    )
    expect("its output", (ran.returncode, ran.stdout), (0, "1 rows: 0 failed\n"))
    expect("the server's name", bool(NAMED.match(ran.stderr)), True)
    expect("which server it is", is_named(ran.stderr, request.node.callspec.params["room"]), True)
    expect("the audit's line", "start: lawful: 5 entries\n" in ran.stderr, True)
    expect("the verdict", ran.stderr.splitlines()[-1].startswith("verdict: right"), True)


@pytest.mark.parametrize(
    "heading",
    [pytest.param(heading, marks=[pytest.mark.by_hand] if CAPTURE in heading else []) for heading in SECTIONS],
)
# A lease of a second ends too early if the machine has no time.
@tried_again
def test_section(tmp_path, pytestconfig, heading, room):
    needs_libnfs = any("libnfs" in command for command, _ in SECTIONS[heading])
    if needs_libnfs and not pytestconfig.getoption("--by-hand") and not has_libnfs():
        pytest.skip("gcc or libnfs-dev isn't installed")
    session = Session(str(tmp_path), room)
    try:
        for command, shown in SECTIONS[heading]:
            session.run(command, shown)
        session.end_server()
    finally:
        session.end()
