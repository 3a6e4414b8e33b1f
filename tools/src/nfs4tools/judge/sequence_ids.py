"""The faults that lie in a sequence id (RFC 7530, section 9.1.7), each with the last entry of the owner that counted
and each later one that did not."""
from collections.abc import Iterator
from dataclasses import replace

from nfs4tools.explain import Kind, Reason
from nfs4tools.explain.kinds import Facts, KeptFacts, KnownLocker, SequenceFacts
from nfs4tools.explain.sentences import listed
from nfs4tools.journal.history import Uncounted, key_of
from nfs4tools.journal.words import STATUS_NAMES, owner_words
from nfs4tools.judge.refusals_faults import Fault, Finder, IDS, Refused, answer_words, fault, request_of
from nfs4tools.model.state_parts import LockState, next_sequence_id
from nfs4tools.wire import Status

# From this time on the kept answer of a refusal is given once more than two lost replies account for.
TOO_OFTEN = 3


class SequenceIds(Finder):
    """These faults."""

    def faults(self, refused: Refused, reason: Reason) -> Iterator[Fault]:
        facts = reason.facts
        if isinstance(facts, KeptFacts):
            yield from self.of_kept_answer(refused, reason, facts)
        elif isinstance(facts, KnownLocker) and (reason.also is None or wraps(reason.also.facts)):
            # Of a lock_seqid that isn't the next one, that is the fault.
            yield self.of_known_locker(refused, reason, facts)
        elif isinstance(facts, SequenceFacts) and not wraps(facts):
            yield self.of_sequence_id(refused, reason, facts)

    def of_kept_answer(self, refused: Refused, reason: Reason, facts: KeptFacts) -> Iterator[Fault]:
        """A refusal that counted, once more than two lost replies account for."""
        if facts.times < TOO_OFTEN:
            return
        text = (
            f"{answer_words(refused.call)} again: it is the request of {self.entry(facts.entry)}, which is sent "
            f"for the {ordinal(facts.times + 1)} time; its answer counted, and {facts.next_id} is the next "
            f"sequence id of {owner_words(facts.owner)}"
        )
        found = fault("sequence-id-kept-after-counted-refusal", refused, reason, text)
        yield replace(found, key=(key_of(facts.owner), facts.entry))

    def of_known_locker(self, refused: Refused, reason: Reason, facts: KnownLocker) -> Fault:
        """A new lock owner that has a lock state of the file. By another open of the file section 9.1.4.1 has another
        lock state, though this server hasn't."""
        found, locker = self.server.given[facts.state], refused.call.arguments.locker
        assert isinstance(found, LockState)
        is_same = found.open.number == locker.open_stateid.number
        doubt = "" if is_same else f"that is a lock state of another open, state {found.open.number}"
        return self.fault("new-lock-owner-again", refused, reason, doubt)

    def of_sequence_id(self, refused: Refused, reason: Reason, facts: SequenceFacts) -> Fault:
        """Another id than the next one."""
        if facts.given == (facts.expected - 1) % IDS:
            return self.of_last_id(refused, reason, facts)
        moved = self.moved_after(facts)
        if moved is not None:
            return self.of_moved(refused, reason, facts, moved)
        is_later = (facts.given - facts.expected) % IDS < IDS // 2
        if is_later:
            return self.of_id("sequence-id-skipped", refused, reason, facts, self.uncounted_words(facts))
        return self.of_earlier_id(refused, reason, facts)

    def of_last_id(self, refused: Refused, reason: Reason, facts: SequenceFacts) -> Fault:
        """The id of the last request that counted, with another request."""
        kept = self.server.recorded[facts.entry]
        more = f"; that entry had it with another {differing_words(facts.differs)}"
        if kept.answer.status == Status.OK:
            return self.of_id("other-request-with-last-id", refused, reason, facts, more)
        more += f", and its answer {STATUS_NAMES[kept.answer.status]} counts"
        return self.of_id("sequence-id-kept-after-counted-refusal", refused, reason, facts, more)

    def of_moved(self, refused: Refused, reason: Reason, facts: SequenceFacts, moved: Uncounted) -> Fault:
        """The id behind one that was used and didn't count."""
        more = self.uncounted_words(facts)
        if moved.owner is None or key_of(moved.owner) != key_of(facts.owner):
            more += f"; entry {moved.entry} doesn't lead to this owner, and was probably a request of it"
        return self.of_id("sequence-id-moved-after-uncounted-refusal", refused, reason, facts, more)

    def of_earlier_id(self, refused: Refused, reason: Reason, facts: SequenceFacts) -> Fault:
        """An id that was used before the last one. The last request but one may come again on another connection, whose
        reply was lost; that is rare, and twice it is none of the network's."""
        found = self.of_id("sequence-id-reused", refused, reason, facts, self.uncounted_words(facts))
        if not self.memory.is_late_copy(refused):
            return found
        key, copies = request_of(refused.call), self.memory.late_copies
        copies[key] = copies.get(key, 0) + 1
        text = f"{found.text}; it is the request of entry {self.memory.counted[key]}, sent again"
        doubt = "it may be a copy that came late" if copies[key] == 1 else ""
        return replace(found, key=key, text=text, doubt=doubt)

    def moved_after(self, facts: SequenceFacts) -> Uncounted | None:
        """The refusal behind whose id this one comes: it had the next id, or that behind another such refusal, and
        didn't count. It is one of this owner, or one of its client that leads to no owner, or by a stateid of another
        kind to another one."""
        found, due = None, facts.expected
        for it in self.uncounted(facts):
            if it.sequence_id == due:
                found, due = it, next_sequence_id(due)
        return found if facts.given == due else None

    def uncounted(self, facts: SequenceFacts) -> list[Uncounted]:
        """The refusals behind the last request that counted, which didn't: of this owner, or maybe of it."""
        others = self.memory.ownerless.get(facts.owner.client, ())
        found = {it.entry: it for it in (*others, *facts.uncounted) if it.entry > facts.entry}
        return [found[entry] for entry in sorted(found)]

    # Words.

    def of_id(self, name: str, refused: Refused, reason: Reason, facts: SequenceFacts, more: str) -> Fault:
        """With the entry of the owner that counted last, and those behind it that don't count."""
        which = "lock_seqid" if reason.kind == Kind.LOCK_SEQID_OTHER else "sequence id"
        due = f"{facts.expected} is the next sequence id of {owner_words(facts.owner)}, after {self.entry(facts.entry)}"
        text = f"{answer_words(refused.call)}: {due}, but the {which} is {facts.given}{more}"
        others = facts.entry, *(it.entry for it in self.uncounted(facts))
        key = key_of(facts.owner), facts.entry, facts.given
        return replace(fault(name, refused, reason, text), key=key, others=others)

    def uncounted_words(self, facts: SequenceFacts) -> str:
        """The entries that didn't count, and why."""
        texts = [
            f"{self.entry(it.entry)} had {it.sequence_id}, and {STATUS_NAMES[it.status]} doesn't count"
            for it in self.uncounted(facts)
        ]
        return f"; {listed(texts)}" if texts else ""

    def entry(self, number: int) -> str:
        return self.server.entry_words(number)


def wraps(facts: Facts) -> bool:
    """Whether an id is the one that section 9.1.3 has behind the last of all, in whose place this server takes 0. It
    isn't if the client has sent 0, too: then it knows what this server takes."""
    if not isinstance(facts, SequenceFacts) or (facts.expected, facts.given) != (0, 1):
        return False
    last = facts.last_uncounted
    refused = [*facts.uncounted, *([last] if last is not None and last.owner is None else [])]
    return all(it.sequence_id != 0 for it in refused)


def ordinal(number: int) -> str:
    """From the fourth on."""
    ending = {1: "st", 2: "nd", 3: "rd"}.get(number % 10, "th") if number // 10 % 10 != 1 else "th"
    return f"{number}{ending}"


def differing_words(differs: tuple[str, ...]) -> str:
    """What tells two requests apart."""
    names = ["current filehandle" if name == "filehandle" else name for name in differs]
    return " and ".join([", ".join(names[:-1]), names[-1]] if len(names) > 1 else names)
