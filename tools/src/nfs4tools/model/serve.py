"""Takes the place of `nfs4state serve`, with its options, its lines and its statuses: the independent model as a TCP
server. It serves all connections with one state, whose leases end. It needs only Python, and gives the same replies.
It isn't proved, and it is slow.

Before the first connection it prints the address that it listens on, on standard error. It ends when so many
connections have come and ended, or goes on with --until-input-ends or --until-killed. SIGTERM and Ctrl-C end it, too.
Then connected clients get the replies to what they have sent, their connections are closed, and the journal is
written. After that the signal ends the process, so its status is that of a program that doesn't handle the signal.

A run that goes on says on standard error what ended a connection, unless the client closed it (`connection 17 from
127.0.0.1:40022: input not read`). It says once what has run out (`no more connections: 64 of 64`). Its status is 1
only if the run itself had a fault, for example if the journal can't be written."""
import os
import signal
import time
from datetime import UTC, datetime
from typing import Any

from nfs4tools.journal.journal import Recorder
from nfs4tools.model.beginning import Beginning
from nfs4tools.model.callback_source import CallbackSource
from nfs4tools.model.caller import Caller, LOOK
from nfs4tools.model.journal_file import NOT_WRITTEN, fault_of_file, part_of, write_journal
from nfs4tools.model.lines import RatedLines, error_words
from nfs4tools.model.once import options, server_of, within
from nfs4tools.model.order_queue import Answers, OrderQueue, read_lines
from nfs4tools.model.orders import Orders
from nfs4tools.model.tcp import StopFlag, SharedServer, Run, address_text, listen, say
from nfs4tools.model.traces import Tracer
from nfs4tools.trace.watching import Watcher
from nfs4tools.trace.writer import TraceWriter
from nfs4tools.wire import Fault

# The seconds that a call has to come to its end when the run does.
PATIENCE = 5
# The seconds that the reader of answers has at the end of the run.
READING = 1


def read_options() -> Any:
    parser = options(__doc__)
    parser.add_argument(
        "--listen",
        metavar="ADDR",
        default="127.0.0.1:2049",
        help="an IP address or a name, and a port, of which 0 is any that is free (%(default)s)",
    )
    parser.add_argument(
        "--connections",
        metavar="NUMBER",
        type=within(1, 64),
        help="how many there are, 1 to 64 (4); or in a run that goes on, how many at once (64)",
    )
    parser.add_argument("--journal", metavar="FILE", help="where to write the journal at the end")
    ends = parser.add_mutually_exclusive_group()
    ends.add_argument("--until-input-ends", action="store_true", help="go on until standard input ends")
    ends.add_argument("--until-killed", action="store_true", help="go on until a signal ends it")
    parser.add_argument(
        "--trace",
        nargs="?",
        const=True,
        metavar="FILE",
        help="write each call and reply, and what sweeps end, to FILE as JSON Lines (docs/JOURNAL.md); or without FILE "
        "tell each call in a line on standard output",
    )
    parser.add_argument("--each", action="store_true", help="a new server for each connection; no lease ends")
    parser.add_argument(
        "--orders",
        action="store_true",
        help="as --until-input-ends; time moves by orders, a line each on standard input, each answered by a line "
        "on standard output (docs/PROGRAM.md)",
    )
    given = parser.parse_args()
    if given.each and given.journal is not None:
        parser.error("--each has no journal")
    expect_orders(parser, given)
    given.goes_on = given.until_input_ends or given.until_killed
    given.connections = given.connections or (64 if given.goes_on else 4)
    return given


def expect_orders(parser: Any, given: Any) -> None:
    """Refuses what can't stand beside --orders."""
    if given.orders and given.until_killed:
        parser.error("--orders reads standard input, and --until-killed doesn't look at it")
    if given.orders and (given.each or given.trace is True):
        parser.error("--orders doesn't go with --each, and --trace wants a FILE beside it")
    given.until_input_ends = given.until_input_ends or given.orders


def stop_at_end(stop_flag: StopFlag) -> None:
    """Rings when standard input has ended."""
    try:
        while os.read(0, 4096):
            pass
    except OSError:
        pass
    stop_flag.set()


def stop_at_signals(stop_flag: StopFlag) -> list[Any]:
    """Rings at SIGTERM and SIGINT: a list that gets the signals. A shell that starts a command in the background has
    it ignore SIGINT, and so it does."""
    heard = []

    def hear(number: int, _frame: Any) -> None:
        heard.append(number)
        stop_flag.set()

    for number in signal.SIGTERM, signal.SIGINT:
        if signal.getsignal(number) != signal.SIG_IGN:
            signal.signal(number, hear)
    return heard


def wall_time_of_start(served: SharedServer) -> str:
    """The wall time of moment 0, in UTC to the millisecond."""
    begun = datetime.fromtimestamp(time.time() - (time.monotonic() - served.begun), UTC)
    return begun.isoformat(timespec="milliseconds").replace("+00:00", "Z")


def watcher_of(path: str | None, lease: int) -> Watcher:
    """What writes a trace to this file; or sees nothing where there is none."""
    try:
        return Watcher() if path is None else TraceWriter(path, "tools/model/serve.py", lease)
    except OSError as failed:
        raise Fault(fault_of_file(str(path), error_words(failed))) from None


class Service:
    """A run by these options."""

    def __init__(self, given: Any) -> None:
        self.given, self.stop_flag = given, StopFlag()
        self.is_told = given.trace is True
        self.kind = Tracer if self.is_told else Recorder
        self.first = server_of(given, self.kind)
        self.watcher = watcher_of(None if self.is_told else given.trace, self.first.lease)
        self.served, self.listener = self.shared(self.first), listen(given.listen)
        self.heard = stop_at_signals(self.stop_flag)
        self.beginning: Beginning | None = None
        self.orders: Orders | None = None
        self.lines = RatedLines("callbacks") if given.goes_on else None
        self.links = Run(self.listener, self.next_server, self.stop_flag, given.connections, given.goes_on)

    def shared(self, server: Recorder) -> SharedServer:
        return SharedServer(server, self.is_told, self.given.goes_on, self.watcher)

    def next_server(self) -> SharedServer:
        """The server of the next connection."""
        if not self.given.each:
            return self.served
        return self.shared(self.kind(self.first.tree, self.first.lease, self.first.epoch))

    def begin_threads(self) -> None:
        """Those of sweeps or orders, of callbacks and of the journal's file, whose faults come before those of
        connections; and that of the input."""
        if self.given.orders:
            self.begin_orders()
        else:
            self.links.begin_sweeps(self.served)
        if not self.given.each:
            self.links.spawn(0, self.call_back)
        if self.beginning is not None:
            self.links.spawn(0, self.beginning.keep)
        reads_input = self.given.until_input_ends and self.orders is None
        if reads_input and not self.links.spawn(0, stop_at_end, self.stop_flag):
            self.stop_flag.set()

    def begin_orders(self) -> None:
        """Has orders read, done and answered, at moments that they move."""
        queue, answers = OrderQueue(), Answers()
        self.served.ordered_moment = 0
        self.orders = Orders(self.served, queue, answers, self.stop_flag, self.beginning)
        if not all([self.links.spawn(0, task) for task in (self.orders.run, answers.write_all)]):
            self.stop_flag.set()
        if not self.links.spawn(0, read_lines, queue):
            self.stop_flag.set()

    def call_back(self) -> None:
        """Calls clients back until the stop flag is set."""
        caller = None
        while not self.stop_flag.is_set():
            try:
                caller = caller or Caller(CallbackSource(self.served, self.lines), self.watcher)
            except OSError:
                # The system refuses the selector.
                time.sleep(LOOK)
                continue
            caller.look()
            if self.lines is not None:
                self.lines.look()

    def say_first(self) -> None:
        """The two lines with which a run begins."""
        files, begun = sum(node.is_file for node in self.first.tree.nodes), wall_time_of_start(self.served)
        say(f"listening on {address_text(self.listener.getsockname())}")
        say(f"serving {files} files, lease {self.first.lease} s, epoch {self.first.epoch}, moment 0 at {begun}")

    def run(self) -> tuple[list[Any], str | None]:
        """The signals that it heard, and its fault, or None."""
        if self.given.goes_on and self.given.journal is not None:
            part = part_of(self.given.journal)
            self.beginning = None if part is None else Beginning(part, self.served)
        self.say_first()
        self.begin_threads()
        fault = self.links.serve()
        if self.given.until_input_ends and self.orders is None and not self.heard and self.links.come == 0:
            say("the input ended before a connection came; `--until-killed` doesn't look at it")
        if self.lines is not None:
            self.lines.end()
        of_the_file = self.end_journal()
        if self.orders is not None:
            self.end_orders(self.orders)
        return self.heard, of_the_file if self.heard else fault or of_the_file

    def end_orders(self, orders: Orders) -> None:
        """Answers the order to end, if it came, and waits for the reader of answers, but not for long."""
        if orders.is_end_ordered:
            orders.answers.give("ended")
        orders.answers.end(READING)

    def end_journal(self) -> str | None:
        """Writes the journal: the fault of a file, or None."""
        if self.beginning is not None:
            self.beginning.stop()
        # Nothing changes any more, whatever a connection does that isn't let go yet. One that has no room for its line
        # of the trace keeps the turn.
        self.served.turn.acquire(timeout=PATIENCE)
        path, fault = self.given.journal, None
        if self.beginning is not None:
            fault = self.beginning.end()
        elif path is not None:
            fault = write_journal(path, self.served.server.journal())
        return fault or (NOT_WRITTEN if self.watcher.fault else None)


def main() -> None:
    try:
        heard, fault = Service(read_options()).run()
    except Fault as refused:
        heard, fault = [], refused.args[0]
    if fault is not None:
        say(f"fault: {fault}")
    if heard and fault is None:
        signal.signal(heard[0], signal.SIG_DFL)
        os.kill(os.getpid(), heard[0])
    # Threads that wait, as for standard input, are left behind.
    os._exit(0 if fault is None else 1)
