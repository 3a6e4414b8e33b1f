"""A journal's file as the tools that show it read it: whole, or as far as it goes."""
import json
import sys
from typing import NoReturn

from nfs4tools.journal.entries import Entry, NotJournal
from nfs4tools.journal.journal import Growing


def read_file(path: str) -> tuple[Growing, list[Entry]]:
    """The file as far as it can be read, and its whole entries; or the end of the program where it is no journal and no
    beginning of one."""
    growing = Growing()
    try:
        with open(path, "rb") as source:
            return growing, growing.take(source.read())
    except OSError:
        sys.exit("fault: file not read")
    except NotJournal as wrong:
        end_without_journal(str(wrong))


def end_without_journal(wrong: str) -> NoReturn:
    """Ends the program, as its file is no journal and no beginning of one."""
    print(f"fault: not a journal: {wrong}", file=sys.stderr)
    sys.exit(2)


def tell_end(growing: Growing, is_json: bool = False) -> None:
    """Says how a file ends that is no whole journal. The program ends here if what follows is no entry, or if the file
    is no beginning of a journal either, as it was cut."""
    sys.stdout.flush()
    fault = None if growing.fault is None else f"fault: not a journal: {growing.fault}"
    if is_json and (fault is not None or not growing.is_whole()):
        print(end_line(None if fault else growing.ending(), fault), flush=True)
    elif fault is None and not growing.is_whole():
        print(growing.ending(), flush=True)
    if growing.fault is not None:
        end_without_journal(growing.fault)
    if not (growing.is_whole() or growing.is_beginning()):
        sys.exit(2)


def end_line(ending: str | None, fault: str | None) -> str:
    """The last line of JSON if a file is no whole journal, or no lawful one."""
    return json.dumps({"ending": ending, "fault": fault})
