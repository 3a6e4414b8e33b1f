"""Prints each refusal of a journal, and below it why the call was refused; and each callback path that is marked down.

The cause comes from the independent model: it replays the entries before the refusal. After the cause come the
heading of docs/RULES.md that has the rule, and the section of RFC 7530. Answers of OK aren't shown. Why a callback
failed isn't in the journal: the run's standard error has a line on it.

Equal refusals are shown once, with a line that says how often they came. Refusals are equal if they have one cause,
and their requests differ only in sequence ids and stateids. With --each all refusals are shown.

With --delegations it also prints what becomes of delegations:

- each entry that grants or ends a delegation: which delegation, how it ends, and when it was recalled
- each entry that marks a client's callback path, which decides whether the client is granted delegations

With --again it prints only replays: entries in which an owner's last request came again and got the stored reply. A
line has the operation, the owner, and the entry of the first reply.

Of the bytes of a READ or WRITE the first 64 are shown, and their number. With --whole all are shown.

FILE may also be the beginning of a journal (docs/JOURNAL.md). Then the last line says how the file ends. If an entry
can't follow the entries before it, explain ends there with status 1: nothing is known of the state after it."""
import argparse
import sys

from nfs4tools.explain.lines import explain
from nfs4tools.runs.options import add_selection, count, selection_of
from nfs4tools.runs.selection import Selection


def fault_of(given: argparse.Namespace) -> str | None:
    """What is wrong with options that don't go together, if anything."""
    if given.no_reasons and not given.summary:
        each = ", and not --each" if given.each else ""
        return f"--no-reasons is for the summary: give --summary --no-reasons{each}"
    for name in others_of(given):
        if given.each or given.words or given.whole:
            option = "--each" if given.each else "--words" if given.words else "--whole"
            return f"{option} is for the list of refusals, which {name} doesn't show: leave out one of them"
    if given.json and (given.summary or given.diff is not None or given.at is not None):
        return "--json is for refusals, and for --again and --delegations"
    selection = selection_of(given)
    named = Selection(selection.clients, selection.paths, selection.owners)
    if given.at is not None and selection != named:
        return "--at goes with --client, --owner and --file alone"
    return None


def others_of(given: argparse.Namespace) -> list[str]:
    """The option that shows something else than a list, if it is given."""
    asked = {"--summary": given.summary, "--at": given.at is not None, "--diff": given.diff is not None}
    return [name for name, is_given in asked.items() if is_given]


def main() -> None:
    parser = argparse.ArgumentParser(description=__doc__, formatter_class=argparse.RawDescriptionHelpFormatter)
    kinds = parser.add_mutually_exclusive_group()
    kinds.add_argument("--delegations", action="store_true", help="say what becomes of delegations, too")
    kinds.add_argument("--again", action="store_true", help="show the entries that have a kept answer, alone")
    kinds.add_argument("--summary", action="store_true", help="show how often each client got each status instead")
    kinds.add_argument(
        "--at", type=count, metavar="N", help="show the state after entry N instead, also of one client, owner or file"
    )
    kinds.add_argument("--diff", metavar="OTHER", help="show where FILE and this journal part, client by client")
    parser.add_argument(
        "--no-reasons", action="store_true", help="with --summary: leave out the first refusal of each kind"
    )
    add_selection(parser)
    parser.add_argument("--each", action="store_true", help="show each refusal, also if an earlier one is equal")
    forms = parser.add_mutually_exclusive_group()
    forms.add_argument(
        "--json", action="store_true", help="print each entry with its reason as a line of JSON (docs/run.schema.json)"
    )
    forms.add_argument("--words", action="store_true", help="show operations and answers as the words of rows")
    parser.add_argument("--whole", action="store_true", help="show all bytes that READ and WRITE bring")
    parser.add_argument("path", metavar="FILE", help="a journal, or a beginning of one")
    given = parser.parse_args()
    if fault := fault_of(given):
        parser.error(fault)
    try:
        explain(given)
    except BrokenPipeError:
        sys.stderr.close()
