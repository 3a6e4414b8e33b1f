"""A built nfs4state, to be judged by the model: what it says of files of journals, and the journals that it writes."""
import os
import subprocess
import tempfile
from itertools import count

from nfs4tools.rows.row import Row

# The seconds that a run has, on however busy a machine.
PATIENCE = 300
# A run's status, which is None where it has no end, and what it writes on standard output and on standard error.
Ending = tuple[int | None, bytes, bytes]


class Program:
    def __init__(self, path: str) -> None:
        self.path = os.path.abspath(path)
        self.room, self.numbers = tempfile.TemporaryDirectory(), count()

    def new_path(self) -> str:
        return os.path.join(self.room.name, str(next(self.numbers)))

    def file_of(self, data: bytes) -> str:
        """The path of a new file with these bytes."""
        path = self.new_path()
        with open(path, "wb") as file:
            file.write(data)
        return path

    def run(self, words: list[str], sent: bytes = b"", environment: dict[str, str] | None = None) -> Ending:
        """Its status, and what it writes on standard output and on standard error."""
        try:
            ran = subprocess.run(
                [self.path, *words], env=environment, input=sent, capture_output=True, timeout=PATIENCE
            )
        except subprocess.TimeoutExpired:
            return None, b"", b"no end"
        return ran.returncode, ran.stdout, ran.stderr

    def audit(self, data: bytes) -> Ending:
        """How an audit of these bytes ends, but for a line that says where they are no journal."""
        path = self.file_of(data)
        status, output, errors = self.run(["audit", path])
        os.remove(path)
        return status, output, without_reason(path, errors)

    def once(self, row: Row, environment: dict[str, str] | None = None) -> tuple[Ending, bytes | None]:
        """How `once` ends for the row, but for a line that says what is wrong with its tree; and the bytes of the
        journal that it leaves."""
        path, connection = self.new_path(), row.connections[0]
        options = [f"--lease={row.lease}", f"--epoch={row.epoch}", f"--now={connection.moment}"]
        tree = None if row.document is None else self.file_of(row.document.encode())
        if tree is not None:
            options += ["--tree", tree]
        status, output, errors = self.run(["once", "--journal", path, *options], connection.sent, environment)
        return (status, output, errors if tree is None else without_reason(tree, errors)), bytes_of(path)

    def wrong_once(self, row: Row, data: bytes) -> str | None:
        """What is wrong with how `once` carries the row, or None."""
        ending, got = self.once(row)
        if ending != ending_of_once(row):
            return f"{row.file}:{row.line}: {row.name}: `once --journal` ends with {ending}"
        if got != data:
            return f"{row.file}:{row.line}: {row.name}: `once --journal` writes another file than the model"
        return None


def without_reason(path: str, errors: bytes) -> bytes:
    """These lines, but for a first one that says what is wrong with the file."""
    first, _, rest = errors.partition(b"\n")
    return rest if first.startswith(f"{path}:".encode()) else errors


def can_run_once(row: Row) -> bool:
    """Whether `once` can carry the row: it is one connection, at one moment, and nothing is swept."""
    return len(row.connections) == 1 and not row.connections[0].stops


def ending_of_once(row: Row) -> Ending:
    """How `once` ends that carries the row."""
    connection = row.connections[0]
    if connection.fault is None:
        return 0, connection.wanted, b""
    return 1, connection.wanted, f"fault: {connection.fault}\n".encode()


def ending_of(verdict: tuple[bool, str]) -> Ending:
    """How a run ends that says this of a journal."""
    is_lawful, text = verdict
    line = text.encode() + b"\n"
    return (0, line, b"") if is_lawful else (1, b"", line)


def bytes_of(path: str) -> bytes | None:
    """The bytes of a file, or None where there is none."""
    if not os.path.exists(path):
        return None
    with open(path, "rb") as file:
        return file.read()
