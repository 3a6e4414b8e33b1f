"""The command `tools/between`: its options, and a run from its beginning to its end."""
import argparse
import socket
import subprocess
import time

from nfs4tools.between.help import HELP, USAGE
from nfs4tools.between.links import start
from nfs4tools.between.reading import rules_of
from nfs4tools.between.relay import Between
from nfs4tools.between.reports import REPORTS, Result
from nfs4tools.between.rules import NoRule, Rule
from nfs4tools.model.serve import stop_at_end, stop_at_signals
from nfs4tools.model.tcp import StopFlag, address_text, listen, say
from nfs4tools.trace.files import watchers_of
from nfs4tools.trace.watching import Address
from nfs4tools.trace.writer import Watchers
from nfs4tools.wire import Fault

# The seconds between two looks at what ends a run, and those in which a command has to end once it is told to.
TICK, PATIENCE = 0.02, 5


def report(path: str) -> str:
    """The name of a report's file, as argparse's `type` of an option."""
    if not path.endswith(tuple(REPORTS)):
        raise argparse.ArgumentTypeError(f"{path}: a report ends in {' or '.join(REPORTS)}")
    return path


def read_options() -> tuple[argparse.ArgumentParser, argparse.Namespace]:
    parser = argparse.ArgumentParser(
        description=HELP, formatter_class=argparse.RawDescriptionHelpFormatter, usage=USAGE.strip()
    )
    add = parser.add_argument
    add("--to", metavar="ADDR", required=True, help="the server: an IP address or a name, and a port")
    add("--listen", metavar="ADDR", default="127.0.0.1:0", help="where clients connect (%(default)s: any free port)")
    add("--rule", action="append", default=[], help="a rule; may be given several times")
    add("--plan", metavar="FILE", help="a file with a rule on each line")
    add("--seed", type=int, default=0, help="a number for the chances of `1 in` (%(default)s)")
    add("--lease", type=int, default=90, help="the seconds of the server's lease (%(default)s)")
    add("--strict", action="store_true", help="status 1 if a connection ends after split, or a client falls silent")
    add("--no-calls", action="store_true", help="allow that no call passes")
    add("--report", type=report, metavar="FILE", help="also write the outcomes: as JSON for .json, as JUnit for .xml")
    add("--trace", metavar="FILE", help="also write each call and reply: as JSON Lines, for `tools/judge --trace FILE`")
    add("--pcap", metavar="FILE", help="also write their bytes: as a capture for tshark; nobody has to be root")
    add("command", nargs="*", metavar="COMMAND", help="what is run, after --")
    return parser, parser.parse_args()


def read_rules(parser: argparse.ArgumentParser, given: argparse.Namespace) -> list[Rule]:
    """The rules of the options and then of the plan."""
    try:
        lines = list(given.rule)
        if given.plan is not None:
            with open(given.plan, encoding="utf-8") as plan:
                lines += plan.read().splitlines()
        return rules_of(lines)
    except NoRule as error:
        parser.error(f"no rule: {error}")
    except (OSError, UnicodeDecodeError) as error:
        parser.error(f"{given.plan}: {error}")


def read_address(parser: argparse.ArgumentParser, text: str) -> Address:
    """The host and the port of a server, which needn't listen yet."""
    host, _, port = text.rpartition(":")
    host = host.strip("[]")
    try:
        if not host or not port.isdecimal() or not 0 < int(port) < 65536:
            raise ValueError
        socket.getaddrinfo(host, int(port), type=socket.SOCK_STREAM)
    except (OSError, ValueError):
        parser.error(f"no address: {text}")
    return host, int(port)


def read_watchers(parser: argparse.ArgumentParser, given: argparse.Namespace) -> Watchers:
    """What writes the files of --trace and --pcap."""
    try:
        return watchers_of(given.trace, given.pcap, "tools/between", given.lease)
    except OSError as error:
        parser.error(f"{error.filename}: not written: {error.strerror}")


def run_command(command: list[str], address: Address, stop_flag: StopFlag) -> int:
    """Runs a command to its end, or until the stop flag is set; its status."""
    host, port = address[:2]
    words = [word.replace("{host}", host).replace("{port}", str(port)) for word in command]
    with subprocess.Popen(words) as process:
        while process.poll() is None and not stop_flag.is_set():
            time.sleep(TICK)
        if process.poll() is None:
            process.terminate()
            try:
                process.wait(PATIENCE)
            except subprocess.TimeoutExpired:
                process.kill()
    return process.returncode


def wait_for_end(
    parser: argparse.ArgumentParser, command: list[str], between: Between, listener: socket.socket, stop_flag: StopFlag
) -> int | None:
    """Waits until the command has ended, or without one until the stop flag is set: the command's status, or None."""
    if not command:
        start(stop_at_end, stop_flag)
        while not stop_flag.is_set():
            time.sleep(TICK)
        between.settle(listener, is_left=False)
        return None
    try:
        status = run_command(command, listener.getsockname(), stop_flag)
    except OSError as error:
        parser.error(f"no command: {command[0]}: {error.strerror}")
    between.settle(listener, is_left=True)
    between.tell(f"the command ended with status {status}")
    return status


def run(parser: argparse.ArgumentParser, given: argparse.Namespace) -> int:
    """Stands between client and server to the end of a run, and tells what came of it: the status."""
    rules, target = read_rules(parser, given), read_address(parser, given.to)
    try:
        listener = listen(given.listen)
    except Fault:
        parser.error(f"no address to listen at: {given.listen}")
    watchers, stop_flag = read_watchers(parser, given), StopFlag()
    between = Between(rules, given.lease, watchers if watchers.watchers else None, given.seed)
    stop_at_signals(stop_flag)
    between.listen(listener, target)
    say(f"listening on {address_text(listener.getsockname())}")
    status = wait_for_end(parser, given.command, between, listener, stop_flag)
    between.end()
    result = Result(between.tale, status, given.strict, given.no_calls)
    try:
        write_report(given.report, result)
    except OSError as error:
        say(f"{given.report}: {error.strerror}")
        return 1
    if watchers.fault is not None:
        say(f"fault: {watchers.fault}")
    return 0 if result.is_right and watchers.fault is None else 1


def write_report(path: str | None, result: Result) -> None:
    if path is not None:
        write = next(write for ending, write in REPORTS.items() if path.endswith(ending))
        with open(path, "w", encoding="utf-8") as file:
            file.write(write(result))


def main() -> int:
    return run(*read_options())
