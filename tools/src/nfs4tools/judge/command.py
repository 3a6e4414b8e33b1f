"""Says whether the clients of a journal are right.

The verdict says what each client did wrong by RFC 7530, what it left at the end, and with --tried what it never
tried. The journal may also be the beginning of a journal, such as FILE.part of a run that goes on.

For each client, by the id of its SETCLIENTID, it prints a line on what the client did, and then its findings in the
order of their first entries. Findings on calls that name no client come below `of no client`:

    client "NAME": N calls on the state, N opens, N locks, N delegations, N retransmissions
      error FINDING (RFC 7530, SECTION), entry N, with entry N: what happened
        N: the entry, as tools/show_journal shows it
        what a right client does
    verdict: right

The entries after `with` conflicted with the call, or made what was left. A warning may be a fault of the client, or a
fault whose cause the journal doesn't show. If a file isn't a whole journal, a line says how it ends.

With --trace it also judges a trace, as `tools/between --trace` and the model's --trace write it. A trace has RENEW, which
no journal has. Its findings name lines of the trace in place of entries. The trace may come without a journal, and from
any server:

    client "NAME": N operations in the trace, N of them RENEW
      error FINDING (RFC 7530, SECTION), line N of the trace, with line N: what happened
        N: the call, with its time in seconds of the trace, its connection and xid

The last line is `verdict: right`, with the number of warnings, or `verdict: N errors, N warnings`. The status is:

- 0 without errors
- 1 with errors
- 2 for a file that is no journal or no trace, for an entry that can't follow the entries before it, and for a wrong
  option"""
import argparse
import sys

from nfs4tools.journal.named_words import named_line_of
from nfs4tools.journal.words import line_of
from nfs4tools.judge.files import Judged, NoVerdict, judge_files
from nfs4tools.judge.findings import SORTS, Severity, Sort, TRACE_SORTS
from nfs4tools.judge.reports import json_of, junit_of, lines_of, tried_lines
from nfs4tools.judge.situations import listing, situation_name
from nfs4tools.judge.terms import Terms, allowance
from nfs4tools.judge.verdicts import Verdict

# The ways to write a report, by the ending of its file's name.
REPORTS = {".json": json_of, ".xml": junit_of}


def options() -> argparse.ArgumentParser:
    parser = argparse.ArgumentParser(
        description=__doc__, epilog=finding_names(), formatter_class=argparse.RawDescriptionHelpFormatter
    )
    parser.add_argument("--warnings", action="store_true", help="let warnings count as errors do")
    parser.add_argument(
        "--allow",
        action="append",
        default=[],
        type=allowance,
        metavar="FINDING[=CLIENT]",
        help="leave a finding out, of all clients or of one; nothing after `=` means `of no client`",
    )
    parser.add_argument(
        "--require",
        action="append",
        default=[],
        type=situation_name,
        metavar="SITUATION",
        help="make it an error if no client met this situation",
    )
    parser.add_argument("--tried", action="store_true", help="also print how often each client met each situation")
    parser.add_argument("--situations", action="store_true", help="list all situations, and judge nothing")
    parser.add_argument("--json", action="store_true", help="print the verdict as JSON (docs/verdict.schema.json)")
    parser.add_argument(
        "--report",
        type=report,
        metavar="FILE",
        help="also write the verdict to FILE: as JSON if it ends in .json, as JUnit if in .xml",
    )
    parser.add_argument(
        "--words",
        action="store_true",
        help="show entries by the words of rows, in the order of RFC 7531, in place of names",
    )
    parser.add_argument("--trace", metavar="FILE", help="also judge this trace, or without JOURNAL the trace alone")
    parser.add_argument("journal", nargs="?", metavar="JOURNAL", help="a journal, or a beginning of one")
    return parser


def finding_names() -> str:
    """All findings, as the help lists them."""
    lines = []
    for where, sorts in ("", SORTS), (" of a trace", TRACE_SORTS):
        for severity in Severity:
            lines += [f"{severity.value}s{where}:", *(f"    {it.name}" for it in named(sorts, severity))]
    return "\n".join(lines)


def named(sorts: dict[str, Sort], severity: Severity) -> list[Sort]:
    return [it for it in sorts.values() if it.severity == severity]


def report(path: str) -> str:
    """The path of a report, as argparse's `type` of an option."""
    if not path.endswith(tuple(REPORTS)):
        raise argparse.ArgumentTypeError(f"{path!r} ends neither in .json nor in .xml")
    return path


def run() -> int:
    """The status of the command."""
    parser = options()
    given = parser.parse_args()
    if given.situations:
        print("\n".join(listing()))
        return 0
    if given.journal is None and given.trace is None:
        parser.error("JOURNAL is missing, and so is --trace FILE")
    if given.journal is None and (given.tried or given.require):
        parser.error("--tried and --require need JOURNAL: no trace shows situations")
    try:
        judged = judge_files(given.journal, given.trace, line_of if given.words else named_line_of)
    except NoVerdict as fault:
        return end(fault.args[0])
    verdict, terms = judged.verdict, Terms(tuple(given.allow), given.warnings, tuple(given.require))
    print_verdict(judged, terms, given)
    if given.report is not None:
        try:
            write_report(given.report, verdict, terms)
        except OSError as failed:
            return end(f"fault: {given.report} not written: {failed.strerror}")
    return terms.status(verdict) if verdict.fault is None else end(verdict.fault)


def end(fault: str) -> int:
    """The status of a command that can't judge."""
    sys.stdout.flush()
    print(fault, file=sys.stderr)
    return 2


def print_verdict(judged: Judged, terms: Terms, given: argparse.Namespace) -> None:
    if given.json:
        print(json_of(judged.verdict, terms), end="")
        return
    if given.tried:
        print("\n".join(tried_lines(judged.verdict)))
    for line in lines_of(judged.verdict, terms, judged.show_entry, judged.show_line):
        print(line)


def write_report(path: str, verdict: Verdict, terms: Terms) -> None:
    text = next(write for ending, write in REPORTS.items() if path.endswith(ending))(verdict, terms)
    with open(path, "w", encoding="utf-8") as out:
        out.write(text)


def main() -> int:
    try:
        return run()
    except BrokenPipeError:
        sys.stderr.close()
        return 0
