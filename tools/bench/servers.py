"""The servers that are measured. Each listens on 127.0.0.1 alone, and is a child of this process, which ends it."""
import os
import shutil
import socket
import subprocess
import time
from collections.abc import Callable, Iterator, Sequence
from contextlib import contextmanager

from bench.script import Failure, said_by
from nfs4tools.processes import Served

HERE = os.path.dirname(os.path.abspath(__file__))
# The seconds that a server has to listen, or to end.
PATIENCE = 30


def build(source: str, folder: str) -> str:
    """The path of a program of this folder's, built in that one."""
    if shutil.which("rustc") is None:
        raise Failure("there is no rustc to build the load with: https://rustup.rs")
    path = os.path.join(folder, source.partition(".")[0].partition("/")[0])
    said_by(["rustc", "-O", "--edition", "2021", "-o", path, os.path.join(HERE, source)], f"{source} can't be built")
    return path


def end(process: subprocess.Popen[bytes]) -> None:
    if process.poll() is None:
        process.terminate()
        try:
            process.wait(PATIENCE)
        except subprocess.TimeoutExpired:
            process.kill()
            process.wait()


@contextmanager
def serving(words: Sequence[str], connections: int = 1, name: str = "nfs4state") -> Iterator[Served]:
    """A server by its command, which takes so many connections, and ends by itself when these have ended."""
    with Served([*words, "--listen", "127.0.0.1:0", "--connections", str(connections)]) as served:
        if served.port is None:
            raise Failure(f"{name} doesn't listen: {served.end()}")
        yield served
        if (ending := served.end()) != (0, b"", b""):
            raise Failure(f"{name} ends with {ending}")


class Counted:
    """A server that is started for each load."""

    def __init__(self, name: str, words: Sequence[str]) -> None:
        self.name, self.words = name, words
        self.load_options: list[str] = []

    @contextmanager
    def serving(self, connections: int) -> Iterator[tuple[int, int]]:
        """The port and the process's number."""
        with serving(self.words, connections, self.name) as served:
            assert served.port is not None
            yield served.port, served.program.pid


class Ganesha:
    """nfs-ganesha with its memory back end, which runs until it is ended."""

    name = "nfs-ganesha"
    load_options = ["--path", "export/load", "--create"]

    def __init__(self, folder: str) -> None:
        self.folder, self.port = os.path.join(folder, "ganesha"), free_port()
        os.mkdir(self.folder)
        self.log = os.path.join(self.folder, "log")
        words = ["ganesha.nfsd", "-F", "-f", self.configuration(), "-L", self.log, "-p", f"{self.folder}/pid"]
        self.process = subprocess.Popen(
            words, stdin=subprocess.DEVNULL, stdout=subprocess.DEVNULL, stderr=subprocess.DEVNULL
        )

    def wait(self, is_served: Callable[[int], bool]) -> None:
        """Until the port is served."""
        limit = time.monotonic() + PATIENCE
        while not is_served(self.port):
            if self.process.poll() is not None or time.monotonic() > limit:
                raise Failure(f"nfs-ganesha doesn't start: {last_line(self.log)}")
            time.sleep(0.2)

    def configuration(self) -> str:
        path = os.path.join(self.folder, "configuration")
        with open(os.path.join(HERE, "ganesha.conf")) as source, open(path, "w") as file:
            text = source.read().replace("@PORT@", str(self.port)).replace("@FOLDER@", self.folder)
            file.write(text.replace("@PLUGINS@", plugins()))
        return path

    @contextmanager
    def serving(self, _connections: int) -> Iterator[tuple[int, int]]:
        yield self.port, self.process.pid
        if self.process.poll() is not None:
            raise Failure(f"nfs-ganesha ended with status {self.process.returncode}")


def plugins() -> str:
    """The folder of nfs-ganesha's back ends."""
    if shutil.which("ganesha.nfsd") and shutil.which("dpkg"):
        listed = subprocess.run(["dpkg", "-L", "nfs-ganesha-mem"], capture_output=True, text=True)
        for path in listed.stdout.split():
            if path.endswith("/libfsalmem.so"):
                return os.path.dirname(path)
    raise Failure("nfs-ganesha with its memory back end isn't here: apt-get install nfs-ganesha nfs-ganesha-mem")


def free_port() -> int:
    with socket.socket() as listener:
        listener.bind(("127.0.0.1", 0))
        return int(listener.getsockname()[1])


def last_line(path: str) -> str:
    if not os.path.exists(path):
        return "it has no log"
    with open(path, errors="replace") as file:
        return (file.read().splitlines() or ["its log is empty"])[-1]
