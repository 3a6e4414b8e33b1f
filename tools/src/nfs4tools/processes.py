"""A server that listens on TCP as a process, and connections to it, for tools and tests. Nothing here waits
without an end: a server that doesn't end is killed, and what doesn't come in time is a TimeoutError."""
import os
import re
import select
import signal
import socket
import struct
import subprocess
import time
from collections.abc import Iterator
from typing import Any, TypeVar

from nfs4tools.built import TOP as TOP, program_path
from nfs4tools.messages import split

PROGRAM = program_path("nfs4state")
LISTENING = re.compile(rb"listening on 127\.0\.0\.1:([0-9]+)\n")
# The next line: what is served, and the wall time of moment 0. Release 0.2 and a clock that can't be read tell no time.
SERVING = re.compile(rb"serving [0-9]+ files, lease [0-9]+ s, epoch [0-9]+(, moment 0 at [-0-9T:.]+Z)?\n")
# The files that a server has without a document, by a policy with which it calls no client back: so that its journal
# has an entry for each call, and for what its sweeps end, and no other.
NO_CALLBACKS = os.path.join(TOP, "samples/no_callbacks.toml")
# The files by which a server of this program waits for the sockets of its callbacks, and for its end.
CALLER_FILES = {"anon_inode:[eventpoll]", "anon_inode:[eventfd]"}
# The seconds that a server has to begin or to end, and those in which a reply has to come, on however busy a machine.
PATIENCE, REPLY_PATIENCE = 180, 20


def tree_for_clients(folder: str) -> str:
    """The document of the same files and policy, but under the profile "clients", as a file in this folder."""
    path = os.path.join(folder, "clients.toml")
    with open(NO_CALLBACKS, encoding="utf-8") as plain, open(path, "w", encoding="utf-8") as file:
        file.write(plain.read().replace("[policy]", '[policy]\nprofile = "clients"'))
    return path


def link_of(entry: os.DirEntry[str]) -> str | None:
    """What a symbolic link leads to, or None where it is gone."""
    try:
        return os.readlink(entry)
    except FileNotFoundError:
        return None


def is_silent(stream: Any, seconds: float) -> bool:
    """Whether the stream neither brings a byte nor ends in so many seconds."""
    return not select.select([stream], [], [], seconds)[0]


def line_from(stream: Any, seconds: float) -> bytes:
    """The next line of a stream; or what comes before its end, or in so many seconds."""
    line, until = b"", time.monotonic() + seconds
    while not line.endswith(b"\n") and not is_silent(stream, max(0, until - time.monotonic())):
        more = os.read(stream.fileno(), 1)
        if not more:
            break
        line += more
    return line


P = TypeVar("P", bound="Process")


class Process:
    """A program that runs."""

    def __init__(self, command: list[str], **how: Any) -> None:
        pipes = dict[str, Any](stdin=subprocess.PIPE, stdout=subprocess.PIPE, stderr=subprocess.PIPE, bufsize=0)
        self.program: Any = subprocess.Popen(command, **(pipes | how))

    def __enter__(self: P) -> P:
        return self

    def __exit__(self, *_: Any) -> None:
        """However it comes to this, the program is gone then."""
        if self.program.poll() is None:
            self.program.kill()
            self.program.wait()
        for stream in (self.program.stdin, self.program.stdout, self.program.stderr):
            if stream is not None:
                stream.close()


class Served(Process):
    """A server, from its start to its end: a command that prints `listening on 127.0.0.1:PORT` on standard error. Where
    it prints another line, or ends before it has printed one, it has no port."""

    def __init__(self, command: list[str], **how: Any) -> None:
        super().__init__(command, **{"stdin": subprocess.DEVNULL} | how)
        try:
            self.errors = self.next_line()
        except BaseException:
            # Nobody else ends it then.
            self.__exit__()
            raise
        found = LISTENING.fullmatch(self.errors)
        self.port = int(found[1]) if found else None
        if found:
            self.errors = b""

    def next_line(self) -> bytes:
        """The next line on standard error other than that of what is served; or what comes before its end, or in
        time."""
        line = self.read_line()
        return self.read_line() if SERVING.fullmatch(line) else line

    def read_line(self) -> bytes:
        return line_from(self.program.stderr, PATIENCE)

    def next_answer(self, seconds: float = PATIENCE) -> bytes:
        """The next line on standard output; or what comes before its end, or in time."""
        return line_from(self.program.stdout, seconds)

    def end(self, seconds: float = PATIENCE) -> tuple[int | None, bytes, bytes]:
        """How it ends by itself: its status, and what it has written on standard output and, behind the lines with the
        port and of what is served, on standard error. The status is None where it doesn't end in time, and is killed.
        """
        try:
            output, errors = self.program.communicate(timeout=seconds)
            status = self.program.returncode
        except subprocess.TimeoutExpired:
            self.program.kill()
            output, errors = self.program.communicate()
            status = None
        return status, output, self.errors + SERVING.sub(b"", errors, count=1)

    def end_input(self) -> None:
        """Ends its input, which was a pipe."""
        self.program.stdin.close()
        self.program.stdin = None

    def is_running(self) -> bool:
        return self.program.poll() is None

    def has_caller(self, seconds: float = 5) -> bool:
        """Of a server that runs: whether its thread that calls clients back has begun within so many seconds, and has
        the two files that it always has open."""
        until = time.monotonic() + seconds
        while not (found := CALLER_FILES.issubset(self.open_files())) and time.monotonic() < until:
            time.sleep(0.01)
        return found

    def open_files(self) -> list[str]:
        """What it has open."""
        with os.scandir(f"/proc/{self.program.pid}/fd") as files:
            return [name for name in map(link_of, files) if name is not None]

    def processor_seconds(self) -> float:
        """Of a server that runs: what it has taken so far, in its own code and in the kernel, in whole ticks."""
        with open(f"/proc/{self.program.pid}/stat", encoding="utf-8") as source:
            fields = source.read().rpartition(")")[2].split()
        return (int(fields[11]) + int(fields[12])) / os.sysconf("SC_CLK_TCK")

    def most_kilobytes(self, what: str) -> int:
        """Of a server that runs: VmHWM, the most memory that it ever had in use, or VmPeak, its most addresses."""
        with open(f"/proc/{self.program.pid}/status", encoding="utf-8") as source:
            return int(re.findall(rf"{what}:\s*([0-9]+) kB", source.read())[0])

    def addresses(self) -> int:
        """Of a server that runs: how many bytes of addresses it has now."""
        with open(f"/proc/{self.program.pid}/statm", encoding="utf-8") as source:
            return int(source.read().split()[0]) * os.sysconf("SC_PAGE_SIZE")


class Peer:
    """A connection to a server on TCP. A connection that the server resets is one that it ends."""

    def __init__(
        self, address: tuple[str, int], receive_buffer: int | None = None, patience: float = REPLY_PATIENCE
    ) -> None:
        self.socket, self.rest, self.patience = socket.socket(), b"", patience
        if receive_buffer is not None:
            self.socket.setsockopt(socket.SOL_SOCKET, socket.SO_RCVBUF, receive_buffer)
        self.socket.setsockopt(socket.IPPROTO_TCP, socket.TCP_NODELAY, 1)
        self.socket.settimeout(patience)
        self.socket.connect(address)

    def __enter__(self) -> "Peer":
        return self

    def __exit__(self, *_: Any) -> None:
        self.socket.close()

    def send(self, data: bytes) -> None:
        self.socket.settimeout(self.patience)
        try:
            self.socket.sendall(data)
        except (BrokenPipeError, ConnectionResetError):
            # What the server has sent before is still to be received.
            pass

    def receive(self, seconds: float = REPLY_PATIENCE) -> bytes:
        """The next record; or what comes before the end of the connection, which may be nothing."""
        while not (found := split(self.rest)[0]):
            if not self.take_more(seconds):
                found = [self.rest]
                break
        self.rest = self.rest[len(found[0]) :]
        return found[0]

    def receive_each(self, seconds: float = REPLY_PATIENCE) -> Iterator[bytes]:
        """The records that come, each looked at once, however many there are together."""
        is_more = True
        while is_more:
            found, self.rest = split(self.rest)
            yield from found
            is_more = self.take_more(seconds)

    def receive_all(self, seconds: float = REPLY_PATIENCE) -> bytes:
        """All that comes up to the end of the connection."""
        while self.take_more(seconds):
            pass
        got, self.rest = self.rest, b""
        return got

    def take_more(self, seconds: float | int) -> bool:
        """Whether more came; or the end of the connection."""
        self.socket.settimeout(seconds)
        try:
            more = self.socket.recv(1 << 20)
        except ConnectionResetError:
            more = b""
        self.rest += more
        return bool(more)

    def fill(self, data: bytes, seconds: float = 0.3) -> int:
        """Sends this again and again until, for so many seconds, nothing is taken any more: how many bytes were."""
        sent, until = 0, time.monotonic() + REPLY_PATIENCE
        self.socket.settimeout(seconds)
        while time.monotonic() < until:
            try:
                sent += self.socket.send(data[sent % len(data) :])
            except TimeoutError:
                return sent
        raise TimeoutError("a server takes more and more of a peer that doesn't read")

    def finish(self) -> None:
        """Says that no more is sent, and goes on reading."""
        try:
            self.socket.shutdown(socket.SHUT_WR)
        except OSError:
            # It was reset.
            pass

    def reset(self) -> None:
        """Ends the connection by a reset."""
        self.socket.setsockopt(socket.SOL_SOCKET, socket.SO_LINGER, struct.pack("ii", 1, 0))
        self.socket.close()


class Piped(Process):
    """A program behind pipes, which reads records and writes replies."""

    def send(self, data: bytes) -> None:
        rest = memoryview(data)
        try:
            # A write to a pipe may take less than all.
            while rest:
                rest = rest[self.program.stdin.write(rest) :]
        except BrokenPipeError:
            pass

    def receive(self, seconds: float) -> bytes:
        """A record, or less at the end of the output. A program that writes nothing for so long is ended."""
        got, length = b"", 4
        while len(got) < length:
            if is_silent(self.program.stdout, seconds):
                self.program.kill()
            more = self.program.stdout.read(length - len(got))
            if not more:
                break
            got += more
            if len(got) == 4:
                length += int.from_bytes(got, "big") & 0x7FFFFFFF
        return got


def with_interrupts() -> None:
    """In a new process: an interrupt ends it, also where the script itself was started without them, as a shell does in
    the background."""
    signal.signal(signal.SIGINT, signal.SIG_DFL)
