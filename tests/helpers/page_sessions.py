"""The commands of README.md and of docs/CLIENTS.md that have a `$` before them, run as a reader runs them, with what
they print compared to the page.

A port of the system's choice takes the place of the page's, and a folder of the test that of /tmp. A server or a
capture goes on while the commands after it run. A server's input ends before its journal is read, or another server
begins, and a capture is ended before it is read."""
import os
import re
import signal
import socket
import subprocess
import time
from collections.abc import Sequence
from typing import Any

from helpers.expecting_client import Wrong
from helpers.server_helpers import Late
from nfs4tools.processes import TOP

# A heading, and its commands with the lines that are shown below each.
Section = tuple[str, list[tuple[str, list[str]]]]
PAGES = "README.md", "docs/CLIENTS.md"
PORT = "20490"
# How a command begins that starts a server, which goes on as it has no command of its own.
SERVER = re.compile(r"\./start(?!.* -- )")
# The line by which `start` says which server it is: pages show it once, and say so.
NAMED = re.compile(r"start: (?:nfs4state|the independent model)\b.*; files: \S+\n")
# How a run of a server ends that goes on, behind the lines that the page shows.
LAWFUL = re.compile(r"start: lawful: [1-9][0-9]* entries\n")
# The seconds that a command has, on however busy a machine.
PATIENCE = 120
# What may differ from run to run: moments, uids, the numbers of frames, and a journal's file.
VARYING: list[tuple[str | re.Pattern[str], str]] = [
    (NAMED, ""),
    (r"moment 0 at \S+Z", "moment 0 at TIME"),
    (r"moment \d+", "moment N"),
    (r"AUTH_SYS \d+", "AUTH_SYS N"),
    (r"In \d+", "In N"),
    (r"seen at \d+, now \d+", "seen at N, now N"),
    (r"start: journal: [^\s;]+", "start: journal: FILE"),
]


def sections(path: str) -> list[Section]:
    """Each heading of a page with its commands, each of which is a pair of the command and the lines shown below it.
    Lines of a block without `$` are no commands."""
    found: list[Section] = []
    is_shown = False
    with open(os.path.join(TOP, path), encoding="utf-8") as page:
        lines = page.read().split("\n")
    for line in lines:
        if line.startswith("#"):
            found.append((line.lstrip("# "), []))
        if line.startswith("    $ "):
            found[-1][1].append((line[6:], []))
            is_shown = True
        elif not line.startswith("    "):
            is_shown = False
        elif is_shown:
            found[-1][1][-1][1].append(line[4:])
    return [(heading, commands) for heading, commands in found if commands]


def plain(text: str) -> str:
    """The text with what may vary taken out, and without empty lines at the end."""
    for pattern, name in VARYING:
        text = re.sub(pattern, name, text)
    return text.rstrip("\n")


def free_port() -> str:
    """A port that is free now."""
    with socket.socket() as taken:
        taken.bind(("127.0.0.1", 0))
        return str(taken.getsockname()[1])


class Session:
    """A run of the commands in a room: the server and the capture that go on meanwhile, if there are any, and the port
    that takes the place of the page's. Files of /tmp are in a folder of the test."""

    def __init__(self, folder: str, room: str) -> None:
        self.folder, self.room = folder, room
        self.server: tuple[str, Any] | None = None
        self.capture: Any = None
        self.port = free_port()

    def words(self, command: str) -> str:
        """The command of the page with this run's folder and port."""
        return re.sub(r"/tmp(?=/)", self.folder, command).replace(PORT, self.port)

    def start(self, command: str, **how: Any) -> Any:
        """Starts a command in a group of its own, so that it can be ended with all that it starts."""
        return subprocess.Popen(
            ["bash", "-c", self.words(command)], text=True, cwd=self.room, start_new_session=True, **how
        )

    def serve(self, command: str, shown: Sequence[str]) -> None:
        """Begins a server that goes on, whose port the system chooses."""
        self.port = "0"
        if "--listen" not in command:
            command = command.replace("./start", f"./start --listen 127.0.0.1:{PORT}", 1)
        server = self.start(command, stdin=subprocess.PIPE, stdout=subprocess.PIPE, stderr=subprocess.STDOUT)
        self.server = (command, server)
        printed = line = ""
        # What is served stands on the last line.
        while not line.startswith("serving "):
            line = server.stdout.readline()
            printed += line
            if not line:
                raise Wrong(f"`{command}` prints first:\n{printed}")
        self.port = re.findall(r"^listening on 127\.0\.0\.1:(\d+)$", printed, re.M)[0]
        compare(command, shown, printed.replace(self.port, PORT))

    def begin_capture(self, command: str) -> None:
        """Begins a capture, and waits until it goes on."""
        log = os.path.join(self.folder, "capture")
        with open(log, "w") as errors:
            self.capture = self.start(
                command.replace("tshark", "exec tshark", 1), stdin=subprocess.DEVNULL, stdout=errors, stderr=errors
            )
        for _ in range(10 * PATIENCE):
            with open(log, encoding="utf-8") as told:
                if "Capture started" in told.read():
                    time.sleep(1)
                    return
            if self.capture.poll() is not None:
                break
            time.sleep(0.1)
        with open(log, encoding="utf-8") as told:
            raise Wrong("no capture: " + told.read())

    def end_server(self) -> None:
        """Ends the input of the server that goes on, if there is one: its journal has to be lawful."""
        if self.server is not None:
            command, server = self.server
            self.server = None
            try:
                rest, _ = server.communicate(timeout=PATIENCE)
            except subprocess.TimeoutExpired:
                os.killpg(server.pid, signal.SIGKILL)
                raise Wrong(f"`{command}` doesn't end") from None
            if server.returncode != 0 or not LAWFUL.fullmatch(rest):
                raise Wrong(f"`{command}` ends with status {server.returncode}:\n{rest}")

    def end_capture(self) -> None:
        if self.capture is not None:
            time.sleep(2)
            os.killpg(self.capture.pid, signal.SIGINT)
            self.capture.wait(timeout=PATIENCE)
            self.capture = None

    def run(self, command: str, shown: Sequence[str]) -> Any:
        """Runs a command of the page to its end, or begins one that goes on."""
        if SERVER.match(command):
            self.end_server()
            return self.serve(command, shown)
        if command.startswith("tshark") and " -i " in command:
            return self.begin_capture(command)
        if "journal" in command:
            self.end_server()
        if command.startswith("tshark"):
            self.end_capture()
        # Of `start` the page shows what a terminal does, of other commands the output.
        errors = subprocess.STDOUT if command.startswith("./start") else subprocess.PIPE
        ran = subprocess.run(
            ["bash", "-c", self.words(command)],
            stdin=subprocess.DEVNULL,
            stdout=subprocess.PIPE,
            stderr=errors,
            text=True,
            timeout=PATIENCE,
            cwd=self.room,
        )
        if ran.returncode != 0:
            raise Late(f"`{command}` ends with status {ran.returncode}:\n{ran.stdout}{ran.stderr}")
        compare(command, shown, ran.stdout)

    def end(self) -> None:
        """Ends what is still running."""
        for process in (self.server and self.server[1], self.capture):
            if process is not None and process.poll() is None:
                os.killpg(process.pid, signal.SIGKILL)


def compare(command: str, shown: Sequence[str], printed: str) -> None:
    if plain("".join(f"{line}\n" for line in shown)) != plain(printed):
        raise Late(f"`{command}` prints\n{printed}\nand shown is\n" + "\n".join(shown))
