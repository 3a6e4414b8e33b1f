"""Counts the instructions that a built nfs4state takes for a call, by valgrind. The counts hardly depend on other
loads of the machine.

Without options it also counts allocations, if nothing else is measured:

- NULL
- PUTROOTFH, LOOKUP and GETATTR
- RENEW
- PUTFH and a READ of 4 KiB, or a WRITE, with a special stateid
- an OPEN on PUTROOTFH and its CLOSE, and a LOCK on PUTFH and its LOCKU, of the only owner
- a SETCLIENTID of one id with the same verifier, and its confirmation

Each call has AUTH_SYS. A cost is the difference between 4,000 calls and 2,000, divided by 2,000. It is measured on
the records of a file (`once`), and over a connection (`serve`), on which a call is sent after the reply to the call
before. Some of the cost isn't the call's: reading, writing, and the allocations of the journal. Over a connection the
list of receipts and a sweep each second cost, too.

With --of calls are counted in `once`, beside what --beside says, and beside nothing. Each kind has a client of its
own, which came after all others. The server has the file that is measured and 63 others, and grants read delegations
of them.

With --in-hold instructions of calls in `serve` are counted: those in the hold, while the worker has the lock of the
state, and those of the worker in all. A call is sent after the reply to the call before. The last 1,000 of 1,100 calls
are counted. tools/bench/README.md says what the counts leave out. If a bound is missed, the status is 1.
"""
import argparse
import os
import re
import shutil
import subprocess
import tempfile
from collections.abc import Callable, Sequence
from concurrent.futures import ThreadPoolExecutor

from bench.scenes import KINDS as BESIDE, read_besides, spelled
from bench.calls import KINDS as CALLS
from bench.figures import Figures, table
from bench.in_hold import Figure, counted_in_hold, figure_of, misses, table as table_in_hold
from bench.script import Failure, expect_program, parser_of, run, some_of
from bench.servers import serving
from helpers.expecting_client import Client
from helpers.server_helpers import peer_of
from nfs4tools.messages import (
    CLOSE,
    GETATTR,
    LOCK,
    LOCKU,
    NULL,
    PUTFH,
    PUTROOTFH,
    READ,
    RENEW,
    WRITE,
    call,
    compound,
    confirmation,
    handle,
    lookup,
    setclientid,
    words,
)
from nfs4tools.processes import NO_CALLBACKS
from nfs4tools.wire import opaque

FEW, MANY = 2000, 4000
# The calls that are counted in the hold, and those before them.
COUNTED, UNCOUNTED = 1000, 100
UID = 1000
SERVE = ["serve", "--tree", NO_CALLBACKS]
# Type, change, size and fileid.
ATTRIBUTES = 0x10001A
# The node of the file a, and how many of its bytes are read or written.
FILE, BLOCK, LONG_BLOCK = 1, 4096, 65536
# A tool of valgrind, with what it says of the whole run.
COUNTS = {"callgrind": r"Collected : (\d+)", "memcheck": r"total heap usage: ([\d,]+) allocs"}
ON_FILE = words(PUTFH) + handle(FILE)


def read_of(size: int) -> list[bytes]:
    """A READ at 0, by the stateid of all zeros."""
    return [ON_FILE, words(READ, 0, 0, 0, 0, 0, 0, size)]


def write_of(size: int) -> list[bytes]:
    """A WRITE at 0, to be safe at once, by the stateid of all zeros."""
    return [ON_FILE, words(WRITE, 0, 0, 0, 0, 0, 0, 2) + opaque(bytes(size))]


# The operations of each call, and of those before them. The first client of a run has the clientid 1, 1 and the confirm
# value 1.
Kinds = dict[str, tuple[list[bytes], list[list[bytes]]]]
KINDS: Kinds = {
    "NULL": ([], []),
    "GETATTR": ([words(PUTROOTFH), lookup(b"a"), words(GETATTR, 1, ATTRIBUTES)], []),
    "RENEW": ([words(RENEW, 1, 1)], [[setclientid(bytes(8), b"c1")], [confirmation(1, 1, 1)]]),
    "READ 4 KiB": (read_of(BLOCK), [write_of(BLOCK)]),
    "WRITE 4 KiB": (write_of(BLOCK), []),
}
LONG_KINDS: Kinds = {
    "READ 64 KiB": (read_of(LONG_BLOCK), [write_of(LONG_BLOCK)]),
    "WRITE 64 KiB": (write_of(LONG_BLOCK), []),
}
# The calls that are counted in the hold. Each has a hold.
IN_HOLD = ["GETATTR", "OPEN+CLOSE", "LOCK+LOCKU", "READ 4 KiB", "WRITE 4 KiB", *LONG_KINDS]


def calls(operations: list[bytes], before: list[list[bytes]], count: int) -> list[bytes]:
    """So many calls, with AUTH_SYS, behind those before them; NULL is the call without operations."""
    each = [*before, *[operations] * count]
    return [compound(xid, *it, uid=UID) if it else call(xid, NULL, uid=UID) for xid, it in enumerate(each)]


def open_and_close(client: Client) -> None:
    client.open_file(1)
    client.sequenced(CLOSE, client.close_words(client.last + 1))


def lock_and_unlock(client: Client) -> None:
    client.lock_again(LOCK, client.next_lock_words(client.lock_last + 1))
    client.lock_again(LOCKU, client.locku_words(client.lock_last + 1))


def begin_with_a_lock(client: Client) -> None:
    client.open_file(1)
    client.lock_first()


def introduce_again(client: Client) -> None:
    client.introduce()


# What a client does first, and then for each two calls.
PAIRS: dict[str, tuple[Callable[[Client], None], Callable[[Client], None]]] = {
    "OPEN+CLOSE": (open_and_close, open_and_close),
    "LOCK+LOCKU": (begin_with_a_lock, lock_and_unlock),
    "SETCLIENTID+CONFIRM": (introduce_again, introduce_again),
}


def pairs(program: str, begin: Callable[[Client], None], again: Callable[[Client], None], count: int) -> list[bytes]:
    """What a client sends to `serve` that does this: another run gives it the same numbers."""
    with serving([program, *SERVE]) as served, peer_of(served) as peer:
        client = Client(peer, UID)
        client.introduce()
        begin(client)
        for _ in range(count // 2):
            again(client)
        return client.sent


def records_of(program: str, name: str, count: int) -> list[bytes]:
    return pairs(program, *PAIRS[name], count) if name in PAIRS else calls(*(KINDS | LONG_KINDS)[name], count)


def once(command: list[str], records: list[bytes]) -> None:
    """Has the command take these records as its input."""
    ran = subprocess.run([*command, "once"], input=b"".join(records), stdout=subprocess.DEVNULL, stderr=subprocess.PIPE)
    if ran.returncode != 0:
        raise Failure(f"once ends with status {ran.returncode}")


def serve(command: list[str], records: list[bytes]) -> None:
    """Has the command answer these records on a connection."""
    with serving([*command, *SERVE]) as served, peer_of(served) as peer:
        for record in records:
            peer.send(record)
            if not peer.receive():
                raise Failure("serve doesn't answer a call")


WAYS = {"once": once, "serve": serve}


def counted(program: str, way: str, tool: str, records: list[bytes]) -> int:
    with tempfile.TemporaryDirectory() as room:
        log = os.path.join(room, "log")
        options = [f"--tool={tool}", f"--log-file={log}"] + ["--callgrind-out-file=/dev/null"] * (tool == "callgrind")
        wrong = None
        try:
            WAYS[way](["valgrind", *options, program], records)
        except Failure as failure:
            wrong = failure
        with open(log, encoding="utf-8") as source:
            said = source.read()
    found = re.search(COUNTS[tool], said)
    if wrong or not found:
        raise Failure(f"a run of {way} under valgrind fails: {wrong}: {said}")
    return int(found[1].replace(",", ""))


def count_alone(program: str) -> None:
    kinds = [(way, name) for way in WAYS for name in (*KINDS, *PAIRS)]
    records = {(name, count): records_of(program, name, count) for _, name in kinds for count in (FEW, MANY)}
    runs = [(way, tool, records[name, count]) for way, name in kinds for tool in COUNTS for count in (FEW, MANY)]
    with ThreadPoolExecutor(os.cpu_count()) as pool:
        counts = list(pool.map(lambda run: counted(program, *run), runs))
    for place, (way, name) in enumerate(kinds):
        few, many, few_blocks, many_blocks = counts[4 * place : 4 * place + 4]
        instructions, allocations = (many - few) / (MANY - FEW), (many_blocks - few_blocks) / (MANY - FEW)
        print(f"{way}, {name}: {instructions:,.0f} instructions, {allocations:.1f} allocations a call")


def count_beside(program: str, names: Sequence[str], beside: str) -> None:
    figures = Figures(program)
    alone = {name: figures.of_one_alone(name) for name in names}
    for name, count in figures.counts(beside, names).items():
        print(
            f"{name}: {count:,.0f} instructions a call beside {spelled(beside)}; {alone[name]:,.0f} beside "
            f"{spelled(CALLS[name].alone)}"
        )


def count_in_hold(program: str) -> bool:
    """Prints the figures, and says whether a bound is missed."""

    def figure(name: str) -> Figure:
        records = records_of(program, name, UNCOUNTED + COUNTED)
        holds = counted_in_hold(program, len(records), lambda command: serve(command, records))
        return figure_of(holds[-COUNTED:])

    with ThreadPoolExecutor(os.cpu_count()) as pool:
        figures = dict(zip(IN_HOLD, pool.map(figure, IN_HOLD)))
    print(table_in_hold(figures), end="")
    return misses(figures)


def besides(text: str) -> str:
    try:
        read_besides(text)
    except (KeyError, ValueError):
        raise argparse.ArgumentTypeError(f"{text} isn't of {','.join(name + '=N' for name in BESIDE)}") from None
    return text


def arguments() -> argparse.Namespace:
    there = "\n".join(f"  {name:12}{what}" for name, (_, what) in BESIDE.items())
    told = "\n".join(f"  {name:26}{kind.what}" for name, kind in CALLS.items())
    parser = parser_of(__doc__, epilog=f"WHAT=N is so many\n{there}\nCALL is\n{told}")
    parser.add_argument("--of", type=some_of(CALLS), metavar="CALL,..", help="which calls, one kind after the other")
    parser.add_argument(
        "--beside",
        type=besides,
        default="",
        metavar="WHAT=N,..",
        help="what there is before, made in this order [default: nothing]",
    )
    parser.add_argument("--table", action="store_true", help="those of figures.py, as a table in Markdown")
    parser.add_argument("--in-hold", action="store_true", help="in the hold of calls, as a table in Markdown")
    given = parser.parse_args()
    if given.beside and not given.of:
        parser.error("--beside goes with --of")
    if given.in_hold and (given.of or given.table):
        parser.error("--in-hold goes without --of and --table")
    return given


def work() -> bool:
    given = arguments()
    if shutil.which("valgrind") is None:
        raise Failure("there is no valgrind: apt-get install valgrind")
    expect_program(given.program)
    if given.in_hold:
        return count_in_hold(given.program)
    if given.table:
        print(table(given.program), end="")
    elif given.of:
        count_beside(given.program, given.of, given.beside)
    else:
        count_alone(given.program)
    return False


def main() -> None:
    run(work)
