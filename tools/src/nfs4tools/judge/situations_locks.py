"""Situations of byte-range locks (RFC 7530, sections 9.2 to 9.4, 16.10 and 16.11), and of lock owners (16.10.5 and
16.37)."""
from collections.abc import Hashable, Iterator

from nfs4tools.journal.entries import Call
from nfs4tools.journal.history import History
from nfs4tools.judge.situations_watched import StateGroups, Watcher, state_given
from nfs4tools.model.ranges import ALL_ONES, READ_MODE, Ranges, WRITE_MODE, range_of
from nfs4tools.model.state_parts import LockState, mode_of
from nfs4tools.wire import Lock, LockOwner, NewLocker, Opnum, READW_LT, Status, WRITEW_LT

# The last byte that a signed offset of 64 bits reaches.
LAST_SIGNED = 2**63 - 1


class LockWatcher(Watcher):
    """Watches lock states and lock owners."""

    def __init__(self, server: History) -> None:
        super().__init__(server)
        self.notes = {
            Opnum.LOCK: self.note_lock,
            Opnum.LOCKU: self.note_locku,
            Opnum.CLOSE: self.note_close,
            Opnum.RELEASE_LOCKOWNER: self.note_release,
        }
        self.rules = {
            Opnum.LOCK: self.of_lock,
            Opnum.LOCKU: self.of_locku,
            Opnum.CLOSE: self.of_close,
            Opnum.LOCKT: self.of_lockt,
            Opnum.RELEASE_LOCKOWNER: self.of_release,
        }
        # Before a call: what its lock state holds, whether its lock owner is known, and whether a CLOSE finds bytes
        # held.
        self.ranges, self.is_known, self.has_locks = Ranges(), False, False
        # By the numbers of opens: the lock states that they got.
        self.states: dict[int, list[LockState]] = {}
        # The locks that were denied, and not given since.
        self.denied: set[Hashable] = set()
        self.locks = StateGroups(server)

    def note_lock(self, call: Call) -> None:
        locker = call.arguments.locker
        if isinstance(locker, NewLocker):
            self.ranges, self.is_known = Ranges(), locker.owner in self.server.lock_owners
        else:
            self.note_ranges(self.state(locker.lock_stateid))

    def note_locku(self, call: Call) -> None:
        self.note_ranges(self.state(call.arguments.stateid))

    def note_ranges(self, found: object) -> None:
        """A call that changes them makes new ones."""
        self.ranges = found.ranges if isinstance(found, LockState) else Ranges()

    def note_close(self, call: Call) -> None:
        states = self.states.get(call.arguments.stateid.number, [])
        self.has_locks = any(not it.ranges.is_empty() for it in states)

    def note_release(self, call: Call) -> None:
        self.is_known = call.arguments.owner in self.server.lock_owners

    def of_lock(self, _number: int, call: Call) -> Iterator[str]:
        if call.answer.status == Status.DENIED:
            self.denied.add(self.request_of(call))
            yield "lock-denied"
            if call.arguments.locktype in (READW_LT, WRITEW_LT):
                yield "blocking-lock-denied"
        elif call.answer.status == Status.OK:
            yield from self.of_given(call)

    def request_of(self, call: Call) -> Hashable:
        """What a LOCK that comes again after DENIED has in common with it: its owner may have a lock state by then."""
        arguments = call.arguments
        return (
            self.owner_of(arguments),
            call.filehandle,
            arguments.offset,
            arguments.length,
            mode_of(arguments.locktype),
        )

    def owner_of(self, arguments: Lock) -> LockOwner | None:
        if isinstance(arguments.locker, NewLocker):
            return arguments.locker.owner
        found = self.state(arguments.locker.lock_stateid)
        return found.owner if isinstance(found, LockState) else None

    def of_given(self, call: Call) -> Iterator[str]:
        """Of a LOCK that is answered OK."""
        arguments, request = call.arguments, self.request_of(call)
        if request in self.denied:
            self.denied.discard(request)
            yield "lock-denied-then-given"
        if arguments.length == ALL_ONES:
            yield "lock-to-end-of-file"
        elif arguments.offset + arguments.length - 1 > LAST_SIGNED:
            yield "lock-past-signed-offsets"
        found = self.server.given[state_given(call)]
        assert isinstance(found, LockState)
        if not self.ranges.is_empty():
            yield from self.of_bytes(arguments, found.ranges)
        if isinstance(arguments.locker, NewLocker):
            yield from self.of_begun(found)

    def of_bytes(self, arguments: Lock, ranges: Ranges) -> Iterator[str]:
        """What the bytes of a LOCK were to its owner before, and are now."""
        asked, mode = range_of(arguments.offset, arguments.length), mode_of(arguments.locktype)
        assert asked is not None
        modes = modes_within(self.ranges, *asked)
        if READ_MODE in modes and mode == WRITE_MODE:
            yield "lock-upgraded"
        if WRITE_MODE in modes and mode == READ_MODE:
            yield "lock-downgraded"
        if is_split(self.ranges, *asked, mode):
            yield "lock-split"
        first, last, _ = ranges.run_at(asked[0])
        modes = modes_within(self.ranges, first, last)
        if mode in modes and len(modes) > 1:
            yield "lock-merged"

    def of_begun(self, found: LockState) -> Iterator[str]:
        """Of a lock state that begins."""
        if self.is_known:
            yield "known-lock-owner-as-new"
        self.states.setdefault(found.open.number, []).append(found)
        if self.locks.joins((found.client, found.file), found.number):
            yield "two-lock-owners"

    def of_locku(self, _number: int, call: Call) -> Iterator[str]:
        asked = range_of(call.arguments.offset, call.arguments.length)
        if call.answer.status == Status.OK and asked is not None and is_split(self.ranges, *asked, None):
            yield "lock-split"

    def of_lockt(self, _number: int, call: Call) -> Iterator[str]:
        if call.answer.status == Status.DENIED:
            yield "lock-test-denied"

    def of_close(self, _number: int, call: Call) -> Iterator[str]:
        if call.answer.status == Status.OK:
            self.states.pop(call.arguments.stateid.number, None)
            if self.has_locks:
                yield "close-frees-locks"

    def of_release(self, _number: int, call: Call) -> Iterator[str]:
        if call.answer.status == Status.OK and self.is_known:
            yield "lock-owner-released"


def modes_within(ranges: Ranges, first: int, last: int) -> set[int | None]:
    """How the bytes from the first to the last are held; None is not at all."""
    found: set[int | None] = set()
    while first <= last:
        run = ranges.run_at(first)
        found.add(run.mode)
        first = run.last + 1
    return found


def is_split(ranges: Ranges, first: int, last: int, mode: int | None) -> bool:
    """Whether these bytes are in the middle of a run that another mode for them divides."""
    run = ranges.run_at(first)
    return run.mode not in (None, mode) and run.first < first and last < run.last
