"""The opens, lock states and delegations of a run: each from the entry that gave it to the one that ended it, with what
it was meanwhile."""
from dataclasses import dataclass, field
from functools import cache, partial
from itertools import islice

from nfs4tools.explain import Reason, ExplainedEntry
from nfs4tools.journal.entries import Call, Entry
from nfs4tools.journal.history import History
from nfs4tools.model.ranges import LAST_BYTE, READ_MODE, Run
from nfs4tools.model.state_parts import Delegation, KeptState, LockState, OpenState
from nfs4tools.page.names import name_of
from nfs4tools.runs.parties import path_of
from nfs4tools.wire import OPEN_DELEGATE_WRITE, Opnum, Status

# The operations whose answers begin with the stateid of the state that they change.
CHANGING = {Opnum.OPEN, Opnum.OPEN_DOWNGRADE, Opnum.LOCK, Opnum.LOCKU}
KINDS = {OpenState: "open", LockState: "lock", Delegation: "delegation"}
MODES = ["", "R", "W", "RW"]
# So many ranges of a lock state are named.
NAMED = 4


@dataclass
class Bar:
    """A state. `end` is the entry that ended it, or None. Each part has the entry since which it is so, what it gives
    and what it denies (`part_of`). `recalled` is the entry that recalled a delegation, and `undelivered` the mark which
    says that the recall could not be delivered."""

    kind: str
    state: int
    client: int
    file: str
    owner: str
    begin: int
    end: int | None = None
    parts: list[tuple[int, str, str]] = field(default_factory=list)
    recalled: int | None = None
    undelivered: int | None = None


class Bars:
    """Looks at a replay, and has a bar for each state."""

    def __init__(self, server: History) -> None:
        self.server = server
        self.of: dict[int, Bar] = {}
        self.path_of = cache(partial(path_of, tree=server.tree))
        # How many states have ended, and how many were recalled and marked, by the last entry.
        self.ended = self.recalled = self.marked = 0

    def before(self, number: int, entry: Entry, reason: Reason | None) -> None:
        """Nothing: all that is asked for is there afterwards."""

    def after(self, told: ExplainedEntry) -> None:
        server, entry = self.server, told.entry
        if server.last_state > len(self.of):
            self.begin_new(told.number)
        changed = changed_by(entry)
        if changed in self.of:
            self.note(told.number, server.given[changed])
        if len(server.recalled) > self.recalled or len(server.recall_marks) > self.marked:
            self.note_recalls()
        if len(server.ended) > self.ended:
            self.note_ends(told.number)

    def begin_new(self, number: int) -> None:
        """The states that the entry of this number gave."""
        for state in range(len(self.of) + 1, self.server.last_state + 1):
            self.begin(number, self.server.given[state])

    def begin(self, number: int, state: KeptState) -> None:
        owner = "" if isinstance(state, Delegation) else name_of(state.owner.name)
        path = self.path_of(state.file)
        self.of[state.number] = Bar(KINDS[type(state)], state.number, state.client, path, owner, number)
        self.note(number, state)

    def note(self, number: int, state: KeptState) -> None:
        """What the state is by now, if that is new."""
        parts = self.of[state.number].parts
        access, deny = part_of(state)
        if not parts or parts[-1][1:] != (access, deny):
            parts.append((number, access, deny))

    def note_ends(self, number: int) -> None:
        ended = self.server.ended
        for state in islice(reversed(ended), len(ended) - self.ended):
            self.of[state].end = number
        self.ended = len(ended)

    def note_recalls(self) -> None:
        server = self.server
        for state in islice(reversed(server.recalled), len(server.recalled) - self.recalled):
            self.of[state].recalled = server.recalled[state]
        for state in islice(reversed(server.recall_marks), len(server.recall_marks) - self.marked):
            marked, is_up = server.recall_marks[state]
            self.of[state].undelivered = None if is_up else marked
        self.recalled, self.marked = len(server.recalled), len(server.recall_marks)


def changed_by(entry: Entry) -> int | None:
    """The number of the state whose stateid the answer has, or None."""
    if not isinstance(entry, Call) or entry.opnum not in CHANGING or entry.answer.status != Status.OK:
        return None
    return int.from_bytes(entry.answer.rest[12:16], "big")


def part_of(state: KeptState) -> tuple[str, str]:
    """What a state gives: an open's access and deny, the bytes of a lock, what a delegation is for."""
    if isinstance(state, OpenState):
        access, deny = state.share()
        return MODES[access], MODES[deny]
    if isinstance(state, LockState):
        return ranges_words(state.ranges.held()), ""
    return ("W" if state.kind == OPEN_DELEGATE_WRITE else "R"), ""


def ranges_words(held: list[Run]) -> str:
    """The first ranges, and how many others there are."""
    words = [range_word(run) for run in held[:NAMED]]
    more = [f"and {len(held) - NAMED} more"] if len(held) > NAMED else []
    return ", ".join(words + more)


def range_word(run: Run) -> str:
    mode = "R" if run.mode == READ_MODE else "W"
    return f"{mode} {run.first}-{'' if run.last == LAST_BYTE else run.last}"
