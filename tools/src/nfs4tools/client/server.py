"""A server as a process for one test. It listens at a free port, and ends with the test."""
import os
import subprocess
import sys
from collections.abc import Sequence
from typing import Any, TypeVar

from nfs4tools.client.replies import ClientError
from nfs4tools.processes import PATIENCE, PROGRAM, Served

MODEL = [sys.executable, "-c", "from nfs4tools.model.serve import main; main()"]
# The folder that has the package.
FOLDER = os.path.dirname(os.path.dirname(os.path.dirname(os.path.abspath(__file__))))
L = TypeVar("L", bound="Listening")


class ServerError(ClientError):
    """The process didn't begin, or ended with a fault."""


def command_here() -> list[str]:
    """The program, if it is built here or NFS4STATE names it; or the independent model."""
    return [PROGRAM, "serve"] if os.path.isfile(PROGRAM) else MODEL


def environment() -> dict[str, str]:
    """That of this process, in which also a new one finds the package."""
    paths = [os.environ["PYTHONPATH"]] if os.environ.get("PYTHONPATH") else []
    return {**os.environ, "PYTHONPATH": os.pathsep.join([FOLDER, *paths])}


class Listening:
    """A process that prints `listening on` and its address, and goes on until its input ends."""

    def __init__(self, *words: str) -> None:
        self.served, self.has_ended = Served([*words], stdin=subprocess.PIPE, env=environment()), False
        # What it has printed on standard output by its end.
        self.lines: list[str] = []
        if self.served.port is None:
            status, _, errors = self.served.end()
            self.served.__exit__()
            raise ServerError(f"{' '.join(words)}: no server, and status {status}: {errors.decode().strip()}")
        self.host, self.port = "127.0.0.1", self.served.port

    def __enter__(self: L) -> L:
        return self

    def __exit__(self, kind: type[BaseException] | None, *_: Any) -> None:
        """Ends the process; if the test has failed, without looking at how."""
        try:
            if kind is None:
                self.end()
        finally:
            self.served.__exit__()

    @property
    def address(self) -> tuple[str, int]:
        return self.host, self.port

    def end(self) -> None:
        """Ends the input, and waits for the end; or ServerError, if the status isn't 0."""
        if self.has_ended:
            return
        self.has_ended = True
        self.served.end_input()
        status, output, errors = self.served.end(PATIENCE)
        self.lines = output.decode(errors="replace").splitlines()
        if status != 0:
            said = "\n".join([*self.lines, errors.decode(errors="replace").strip()])
            raise ServerError(f"the process ended with status {status}: {said}")


class Server(Listening):
    """A server with these options, for example "--lease", "2"; by default the program or the model. The command has to
    take the options of `nfs4state serve`. The journal is written at the end of the `with` block, or by `end`."""

    def __init__(
        self, *options: str, journal: "str | os.PathLike[str] | None" = None, command: Sequence[str] | None = None
    ) -> None:
        file = ["--journal", os.fspath(journal)] if journal else []
        super().__init__(*(command or command_here()), "--listen", "127.0.0.1:0", "--until-input-ends", *options, *file)
