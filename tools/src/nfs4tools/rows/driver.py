"""The program `rows` as a process: it takes orders, and answers each before it reads the next one. Nothing here waits
without an end: a program that doesn't answer in time is killed, and one that ends early is told by its status and its
line. These are the bytes of both.

A number has four bytes, and a moment eight, the highest first; bytes and texts stand behind their length, which is such
a number. The input begins with a head:

- way: 0: each connection is served alone, with a core of its own. 1: by threads, with a state that they share
- lease, epoch: seconds, 1 to 86,400; the upper half of each clientid
- seats: how many connections there may be in all; in the first way it isn't looked at
- document: the TOML document of the files

The answer is a 0; or the number for which the tree is refused, with which the program ends. Orders follow until the
input ends:

- 1, serve: moment; pace, piece, swept, and how many connections there are; of each, room and the bytes that are sent.
  Serves these connections, in the first way one after the other, in the second at once: each by a thread and a seat of
  its own, and the seats are taken in order. The clock of them all shows the moment, and a second more for each so many
  calls of this order as the pace is (0: it stands). A read gives as many bytes as the piece is, at most, but for one,
  which it gives at least, and lets other threads go on before. Room for so many bytes of replies is made before
  anything is served. With 1 for swept, which only the second way has, another thread sweeps meanwhile, once at each
  new moment and once at the end
- 2, sweep: moment. Looks through the leases, as at that moment
- 3, mark: client, up (1, or 0 for down). Marks the path of the client's callbacks
- 4, revoke: moment. Revokes the delegation that is due at that moment, if one is. The first way alone has it
- 5, take: xid. Takes the first recall that waits, if one does. In the second way it is the first in the queue, which
  has room for 1,024, and the lock isn't held
- 6, pending: Counts the recalls that wait. In the second way these are the ones for which the queue had no room at the
  end of the last hold of the lock; at the end of the hold in which they are counted, they go into the queue as far as
  it has room by then
- 7, probe: client. Tells of whose path nothing is known: of the live clients with a number above this one, of the one
  with the least number
- 8, forget: moment. Forgets the open owner that is due at that moment, if one is. The first way alone has it

The answers are

- to serve: of each connection: the number of an error, or 0; how many bytes are left behind its last whole record,
  where there is no error; its replies, behind their length; and the numbers of its receipts, behind how many they are
  (in the first way there are none). Then how many sweeps there were meanwhile, and how many clients they removed
- to sweep: how many clients it removed; how many have a lease that isn't over, how many renewed it meanwhile, and how
  many stay since the journal had no room; how many delegations were revoked, and how many owners forgotten; and 1
  where the sweep stopped before it had come to each of these, else 0
- to mark: 0; or the number of an error, by which nothing is marked
- to revoke, to forget: the number of an error, or 0; how many delegations were revoked, or owners forgotten, which is
  0 or 1; and the number of the entry that this made in the journal, or 0
- to take: the record by which the recall is sent, with this xid, behind its length; or a length of 0 where none waits
- to pending: how many recalls wait
- to probe: the client's number, or 0 where there is none
- at the end of the input: the file of the journal, behind its length. Seats that weren't used are handed in with the
  others

An error is 1 where the input can't be read, 2 where the output can't be written, 3 at a record that is too long, 4
where memory runs out for the connection, or no thread is to be had, and 5 at an input that is too long. An error of a
mark, a revocation or a forgetting is 1 where the client isn't live, 3 where the journal is full, and 4 where memory
runs out for the entry.

The status is 0, or with a line on standard error 2: `rows: out of memory`, `rows: output not written`, or `rows:
invalid input`, as it is with another way or order, an end within the head or an order, a lease or a moment (2^40 - 2
and above) out of bounds, a document that isn't UTF-8, more connections than there are seats left, swept in the first
way, revoke or forget in the second, and a number that is to be 0 or 1 and isn't."""
import os
import select
import subprocess
import time
from typing import Any, BinaryIO, NamedTuple

from nfs4tools.built import ROWS, program_path
from nfs4tools.model.tree import DEFAULT
from nfs4tools.processes import Process
from nfs4tools.wire import u32, u64


PROGRAM = program_path(ROWS)
# The ways to keep the state: each connection is served alone, with a core of its own; or each by a thread and a seat of
# its own, with a state that they share.
ALONE, SHARED = 0, 1
SERVE, SWEEP, MARK, REVOKE, TAKE, PENDING, PROBE, FORGET = range(1, 9)
# The seconds in which an order has to be answered, on however busy a machine.
PATIENCE = 300
# By the number of an error: the fault with which a connection ends.
FAULTS = {1: "input not read", 2: "output not written", 3: "record too long", 4: "no memory", 5: "input too long"}
INSIDE = "input ends inside a record"


class Ended(NamedTuple):
    """What came of a connection: the fault that ended it, or None; its replies; and the numbers of its receipts."""

    fault: str | None
    replies: bytes
    receipts: list[int]


class Served(NamedTuple):
    """What came of those that were served at once; and of the sweeps meanwhile: how many they were, and how many
    clients they removed."""

    ended: list[Ended]
    sweeps: int
    expired: int


class Swept(NamedTuple):
    """What came of a sweep; of a mark, the number of an error, or 0; of a revocation this, how many delegations
    were revoked (0 or 1), and the number of the entry, or 0; and the same of a forgetting, with how many owners
    were forgotten."""

    expired: int
    kept: int
    changed: int
    refused: int
    revoked: int
    forgotten: int
    stopped: int


class Marked(NamedTuple):
    error: int


class Revoked(NamedTuple):
    error: int
    revoked: int
    entry: int


class Forgotten(NamedTuple):
    error: int
    forgotten: int
    entry: int


Came = Ended | Swept | Marked | Revoked | Forgotten | bytes | int
# The errors of changes that no call asks for: the client isn't live, the journal is full, memory is refused.
NOT_LIVE, FULL, MEMORY = 1, 3, 4


class Failed(Exception):
    """The program ends otherwise than it should."""


class NoMemory(Failed):
    """The program says that it is out of memory."""


def part(data: bytes) -> bytes:
    """Bytes behind their length."""
    return u32(len(data)) + data


def head(way: int, lease: int = 90, epoch: int = 1, seats: int = 0, document: str = DEFAULT) -> bytes:
    """The first bytes of the program's input. There are at most so many connections as seats where the state is
    shared."""
    return u32(way, lease, epoch, seats) + part(document.encode())


class Driver(Process):
    """A program that runs. All that it was sent, and all that it sent, is kept."""

    def __init__(self, path: str = PROGRAM, environment: dict[str, str] | None = None) -> None:
        super().__init__([path], env=environment)
        self.orders, self.answers, self.at = bytearray(), bytearray(), 0
        # The numbers of all receipts so far.
        self.receipts: list[int] = []
        os.set_blocking(self.program.stdin.fileno(), False)

    # The orders.

    def begin(self, way: int, **given: Any) -> int:
        """Sends the head: 0, or the number for which its tree is refused, and then the program has ended."""
        self.send(head(way, **given))
        refused = self.word()
        if refused:
            self.expect_end()
        return refused

    def serve(
        self,
        sent: list[bytes],
        moment: int,
        piece: int,
        pace: int = 0,
        is_swept: bool = False,
        rooms: list[int] | None = None,
    ) -> Served:
        """Serves connections at once, on which these bytes are sent, of which a read gives so many at most. The clock
        begins at the moment, and shows a second more after each so many calls as the pace is; room for so many bytes of
        replies is made before."""
        links = zip(rooms or [0] * len(sent), sent)
        order = u32(SERVE) + u64(moment) + u32(pace, piece, is_swept, len(sent))
        self.send(order + b"".join(u32(room) + part(data) for room, data in links))
        return Served([self.ended() for _ in sent], self.word(), self.word())

    def sweep(self, moment: int) -> Swept:
        """Looks through the leases, as at this moment."""
        self.send(u32(SWEEP) + u64(moment))
        return Swept(*[self.word() for _ in Swept._fields])

    def mark(self, client: int, is_up: bool) -> Marked:
        """Says that a client can be called back, or that it can't."""
        self.send(u32(MARK, client, is_up))
        return Marked(self.word())

    def revoke(self, moment: int) -> Revoked:
        """Takes the delegation that is due at this moment, if one is; only where each connection is served alone."""
        self.send(u32(REVOKE) + u64(moment))
        return Revoked(*[self.word() for _ in Revoked._fields])

    def forget(self, moment: int) -> Forgotten:
        """Forgets the open owner that is due at this moment, if one is; only where each connection is served alone."""
        self.send(u32(FORGET) + u64(moment))
        return Forgotten(*[self.word() for _ in Forgotten._fields])

    def take_recall(self, xid: int) -> bytes:
        """The record of the first recall that waits, with this xid; or nothing where none waits. Where threads share
        the state it is the first in the queue, and no lock is held."""
        self.send(u32(TAKE, xid))
        return self.part()

    def pending(self) -> int:
        """How many recalls wait. Where threads share the state: for how many the queue had no room when the lock was
        held last; then they go there, as far as it has."""
        self.send(u32(PENDING))
        return self.word()

    def probe(self, after: int) -> int:
        """The least number above this one of a client of whose path nothing is known; or 0."""
        self.send(u32(PROBE, after))
        return self.word()

    def end(self) -> bytes:
        """Ends the input: the file of the journal."""
        self.program.stdin.close()
        journal = self.part()
        self.expect_end()
        return journal

    # The bytes.

    def send(self, data: bytes) -> None:
        self.orders += data
        rest, until = memoryview(data), time.monotonic() + PATIENCE
        try:
            while rest:
                self.wait([], [self.program.stdin], until)
                rest = rest[os.write(self.program.stdin.fileno(), rest) :]
        except BrokenPipeError:
            raise self.failure() from None

    def take(self, count: int) -> bytes:
        """The next so many bytes of the answer."""
        until = time.monotonic() + PATIENCE
        while len(self.answers) < self.at + count:
            if not self.take_more(until):
                raise self.failure()
        self.at += count
        return bytes(self.answers[self.at - count : self.at])

    def take_more(self, until: float) -> bool:
        """Whether more came; or the end of the output."""
        self.wait([self.program.stdout], [], until)
        more = os.read(self.program.stdout.fileno(), 1 << 16)
        self.answers += more
        return more != b""

    def wait(self, reading: list[BinaryIO], writing: list[BinaryIO], until: float) -> None:
        if not any(select.select(reading, writing, [], max(0, until - time.monotonic()))):
            self.program.kill()
            raise Failed(f"the program doesn't answer in {PATIENCE} seconds")

    def word(self) -> int:
        return int.from_bytes(self.take(4), "big")

    def part(self) -> bytes:
        return self.take(self.word())

    def ended(self) -> Ended:
        error, rest, replies = self.word(), self.word(), self.part()
        fault = FAULTS.get(error, f"error {error}") if error else INSIDE if rest else None
        receipts = [self.word() for _ in range(self.word())]
        self.receipts += receipts
        return Ended(fault, replies, receipts)

    def expect_end(self) -> None:
        """Nothing more comes, and the status is 0."""
        if self.take_more(time.monotonic() + PATIENCE):
            raise Failed("the program's output goes on after its end")
        status, errors = self.ending()
        if (status, errors) != (0, ""):
            raise failure_of(status, errors)

    def failure(self) -> Failed:
        """What there is to say where the output ends too early."""
        return failure_of(*self.ending())

    def ending(self) -> tuple[int | None, str]:
        """The status, or None where the program doesn't end by itself; and what it wrote on standard error."""
        try:
            status = self.program.wait(PATIENCE)
        except subprocess.TimeoutExpired:
            self.program.kill()
            status = None
        return status, self.program.stderr.read().decode(errors="replace")


def failure_of(status: int | None, errors: str) -> Failed:
    if (status, errors) == (2, "rows: out of memory\n"):
        return NoMemory("out of memory")
    return Failed(f"the program ends with status {status}: {errors.strip()}")
