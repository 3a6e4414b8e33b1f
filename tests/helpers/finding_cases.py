"""Refusals, each with the finding that it has to be in a verdict, or with none; for test_refusal_findings.py. Beside
each mistake stands what a right client does in the same place: many refusals are nobody's fault. What is one is as RFC
7530 has it; the sections are its."""
from collections.abc import Callable
from typing import Any

from helpers.journal_cases import SOMEBODY
from helpers.reason_stories import DIRECTORY, ONES, OTHER_FILE, Story, ZEROS, state
from nfs4tools.model.tree import DEFAULT
from nfs4tools.wire import CLAIM_DELEGATE_CUR, Claim, LockOwner, OpenDowngrade, Opnum, ReleaseLockowner, Stateid, Write

ERROR, WARNING = "error", "warning"
X, Y = LockOwner(1, 1, b"x"), LockOwner(1, 1, b"y")
StoryMaker = Callable[[], "FindingStory"]


class FindingStory(Story):
    """Calls to a server, and the findings that refusals among them are to be."""

    def __init__(self, policy: str = "") -> None:
        super().__init__(policy + DEFAULT)
        # Severities and names of findings with the numbers of entries; and refusals that are none.
        self.marks: set[tuple[str, str, int]] = set()
        self.right: set[int] = set()

    def error(self, name: str) -> "FindingStory":
        """The next entry is to be this error."""
        self.marks.add((ERROR, name, self.server.entries))
        return self

    def warning(self, name: str) -> "FindingStory":
        self.marks.add((WARNING, name, self.server.entries))
        return self

    def spared(self) -> "FindingStory":
        """The next entry is to be a refusal, and no finding."""
        self.right.add(self.server.entries)
        return self

    def at(self, moment: int) -> "FindingStory":
        self.server.moment = moment
        return self

    def downgrade(self, seqid: int, stateid: Stateid, access: int, deny: int = 0) -> None:
        self.call(Opnum.OPEN_DOWNGRADE, OpenDowngrade(stateid, seqid, access, deny))

    def release(self, owner: LockOwner = X) -> None:
        self.call(Opnum.RELEASE_LOCKOWNER, ReleaseLockowner(owner), None, None)

    def claim(self, seqid: int, stateid: Stateid, **more: Any) -> None:
        """An OPEN by a delegation of `a`."""
        self.open(seqid, claim=Claim(CLAIM_DELEGATE_CUR, b"a", stateid), **more)


def begun(policy: str = "") -> FindingStory:
    """Client 1, live; and state 1, its open of `a` by A for both, confirmed: entries 0 to 3. A's next id is 3."""
    story = FindingStory(policy)
    story.introduce()
    story.confirm_client(1, 1)
    story.open(1)
    story.confirm(2, state(1))
    return story


def lent(policy: str = 'close_locks = "free"') -> FindingStory:
    """Client 1 has state 1, its open of `a` by A, and state 2, a delegation for writing. A's next id is 4. Client 2 is
    live."""
    story = begun(f'policy.callbacks = "assume"\npolicy.{policy}\n')
    story.open(3)
    story.introduce(b"c2")
    story.confirm_client(2, 2)
    return story


def locked() -> FindingStory:
    """As begun, with state 2: X has bytes 0 to 9. A's next id is 4, that of X 2."""
    story = begun()
    story.lock_first(3, state(1, 2), 1)
    return story


# Stateids.


def other_kind() -> FindingStory:
    story = locked()
    # The owner that an open's stateid leads to is A, whatever X's next id is; also where it fits by chance.
    story.error("stateid-of-other-kind").unlock(2, state(1, 2))
    story.error("stateid-of-other-kind").unlock(4, state(1, 2))
    story.error("stateid-of-other-kind").close(2, state(2))
    story.error("stateid-of-other-kind").give_back(state(1, 2))
    story.unlock(2, state(2))
    story.close(4, state(1, 2))
    return story


def other_file() -> FindingStory:
    story = begun()
    story.error("stateid-of-other-file").read(state(1, 2), filehandle=OTHER_FILE)
    story.error("stateid-of-other-file").close(3, state(1, 2), filehandle=OTHER_FILE)
    story.error("stateid-of-other-file").close(9, state(1, 2), filehandle=OTHER_FILE)
    story.error("stateid-of-other-file").write(state(1, 2), filehandle=DIRECTORY)
    story.spared().read(ZEROS, filehandle=DIRECTORY)
    story.read(state(1, 2))
    return story


def unknown() -> FindingStory:
    story = begun()
    story.error("stateid-unknown").open(3, client=0, epoch=0)
    for stateid in (
        state(7),
        state(1, 3),
        state(1, 0),
        state(1, 2, client=5),
        ONES._replace(seqid=1),
        ZEROS._replace(seqid=1),
    ):
        story.error("stateid-unknown").read(stateid)
    story.error("stateid-unknown").close(3, ZEROS)
    story.error("stateid-unknown").close(3, ONES)
    # A number of another client's.
    story.introduce(b"c2")
    story.confirm_client(2, 2)
    story.error("stateid-unknown").read(state(1, 2, client=2))
    # A client that was never live has no state.
    story.introduce(b"c3")
    story.error("stateid-unknown").read(state(1, 2, client=3))
    # Those of another run aren't unknown to the client.
    story.spared().read(state(1, 2, epoch=2))
    return story


def of_a_run_before() -> FindingStory:
    """With the same epoch: nobody has introduced himself yet."""
    story = FindingStory()
    story.warning("stateid-unknown").read(state(4))
    story.warning("stateid-unknown").open(3)
    story.introduce()
    story.confirm_client(1, 1)
    story.open(1)
    return story


def closed() -> FindingStory:
    story = locked()
    story.unlock(2, state(2))
    story.close(4, state(1, 2))
    # The CLOSE again is answered as before; by the next id it is another one.
    story.repeat(6)
    story.error("stateid-closed").close(5, state(1, 2))
    # Behind another request of the owner the CLOSE may come again as well, on another connection.
    story.open(5, name=b"b")
    story.warning("stateid-closed").repeat(6)
    story.error("stateid-closed").unlock(3, state(2, 2))
    # Also the last LOCKU.
    story.warning("stateid-closed").repeat(5)
    return story


def transfers_behind_a_close() -> FindingStory:
    """They may have been under way, for less than two moments, if the client asks again by another stateid."""
    story = locked()
    story.unlock(2, state(2))
    story.close(4, state(1, 2))
    story.at(1).error("stateid-closed").write(state(1, 2), offset=9)
    story.warning("stateid-closed").write(state(1, 2))
    story.error("stateid-closed").write(state(2, 2), offset=7)
    story.open(5)
    story.write(state(3))
    story.at(2).error("stateid-closed").write(state(1, 2))
    story.write(state(3))
    story.close(6, state(3))
    # A special stateid names nobody but the one who sends the call.
    story.warning("stateid-closed").read(state(3))
    story.read(ZEROS)
    story.error("stateid-closed").write(state(3), offset=7)
    story.call(Opnum.WRITE, Write(ZEROS, 7, 2, b"bytes"), principal=SOMEBODY)
    # Nobody knows what comes behind the last entry.
    story.warning("stateid-closed").write(state(3), offset=8)
    return story


def transfers_of_another_client() -> FindingStory:
    """Another client makes the same one."""
    story = lent()
    story.give_back(state(2))
    story.close(4, state(1, 3))
    story.error("delegation-used-after-return").read(state(2))
    story.error("stateid-closed").read(state(1, 3))
    story.open(1, client=2)
    story.confirm(2, state(3, client=2))
    story.read(state(3, 2, client=2))
    return story


def released() -> FindingStory:
    story = locked()
    story.unlock(2, state(2))
    story.release()
    story.error("stateid-closed").unlock(3, state(2, 2))
    story.warning("stateid-closed").read(state(2, 2))
    story.read(state(1, 2))
    story.at(5).error("stateid-closed").read(state(2, 2))
    story.read(state(1, 2))
    story.lock_first(4, state(1, 2), 1)
    return story


def forgotten() -> FindingStory:
    """An owner that the server has forgotten: its CLOSE comes again, as its reply was lost."""
    story = begun()
    story.close(3, state(1, 2))
    story.server.forget(91)
    story.at(91).warning("stateid-closed").repeat(4)
    story.error("stateid-closed").close(4, state(1, 2))
    story.open(4)
    return story


def returned() -> FindingStory:
    story = lent()
    story.give_back(state(2))
    story.warning("delegation-used-after-return").give_back(state(2))
    story.at(1).warning("delegation-used-after-return").read(state(2))
    story.error("delegation-used-after-return").claim(4, state(2))
    story.error("delegation-used-after-return").write(state(2))
    story.read(state(1, 3))
    story.at(2).error("delegation-used-after-return").read(state(2))
    story.read(state(1, 3))
    # It is never too late for what may come again.
    story.at(60).warning("delegation-used-after-return").give_back(state(2))
    story.error("delegation-used-after-return").give_back(state(2), filehandle=OTHER_FILE)
    return story


def old() -> FindingStory:
    """A READ by an open's stateid, behind an OPEN that joins it."""
    story = begun()
    story.at(10).open(3, access=1)
    story.at(11).warning("stateid-old").read(state(1, 2))
    story.at(12).error("stateid-old").read(state(1, 2))
    story.error("stateid-old").write(state(1, 1))
    story.error("stateid-old").downgrade(4, state(1, 2), 1)
    story.read(state(1, 3))
    return story


def old_as_a_reply_was_lost() -> FindingStory:
    """The OPEN that joins comes again at 40: until then the client doesn't know the newer seqid."""
    story = begun()
    story.at(10).open(3, access=1)
    story.at(30).warning("stateid-old").read(state(1, 2))
    story.at(40).repeat(4)
    story.at(41).warning("stateid-old").read(state(1, 2))
    story.at(42).error("stateid-old").read(state(1, 2))
    return story


def other_client() -> FindingStory:
    story = lent()
    story.error("stateid-of-other-client").lock_first(4, state(1, 3), 1, owner=LockOwner(1, 2, b"x"))
    # Also with an id that isn't the open owner's next.
    story.error("stateid-of-other-client").lock_first(9, state(1, 3), 1, owner=LockOwner(1, 2, b"x"))
    story.error("stateid-of-other-client").claim(1, state(2), owner=b"B", client=2)
    # READ names no client beside the stateid's.
    story.read(state(2))
    story.claim(5, state(2))
    return story


# Confirmations.


def confirmations_of_owners() -> FindingStory:
    story = begun()
    # It comes again, as a reply was lost: before the next request, and behind it.
    story.repeat(3)
    story.open(3, name=b"b")
    story.warning("sequence-id-reused").repeat(3)
    story.error("confirm-of-nothing").confirm(4, state(1, 2))
    story.error("confirm-of-nothing").confirm(4, state(1, 1))
    story.error("confirm-of-nothing").confirm(7, state(1, 2))
    # Those of owners that aren't confirmed.
    story.open(1, owner=b"B")
    story.error("stateid-unknown").confirm(2, state(9))
    story.confirm(2, state(3))
    return story


def confirmations_of_clients() -> FindingStory:
    name = "confirm-of-nothing"
    story = FindingStory()
    story.introduce()
    story.error(name).confirm_client(1, 7)
    story.error(name).confirm_client(4, 1)
    story.error(name).confirm_client(0, 0, epoch=0)
    story.confirm_client(1, 1)
    story.confirm_client(1, 1)
    # A new value for the same client: the old one is confirmed again, as the reply was lost.
    story.at(10).introduce()
    story.confirm_client(1, 2)
    story.spared().confirm_client(1, 1)
    # The SETCLIENTID came twice, and the answer to the first is confirmed.
    story.at(20).introduce(verifier=2)
    story.introduce(verifier=2)
    story.at(30).spared().confirm_client(2, 3)
    # It is confirmed by the value of an earlier one.
    story.introduce(verifier=3)
    story.at(31).warning(name).confirm_client(258, 4)
    story.at(32).error(name).confirm_client(258, 4)
    story.spared().confirm_client(3, 5, epoch=2)
    return story


def confirmations_of_what_is_gone() -> FindingStory:
    """The client is removed before a new callback of it is confirmed, and when its confirmation comes again."""
    story = begun()
    story.introduce()
    story.expire(1)
    story.at(91).spared().confirm_client(1, 2)
    story.spared().confirm_client(1, 1)
    story.error("confirm-of-nothing").confirm_client(1, 9)
    return story


def probes() -> FindingStory:
    """Whether two servers that gave the same clientid are one is found out by a confirmation (RFC 7931)."""
    story = begun()
    story.warning("confirm-of-nothing").confirm_client(1, 9)
    story.introduce()
    story.error("confirm-of-nothing").confirm_client(1, 9)
    story.confirm_client(1, 2)
    return story


def unconfirmed() -> FindingStory:
    story = FindingStory()
    story.introduce()
    story.confirm_client(1, 1)
    story.open(1)
    name = "owner-not-confirmed"
    story.error(name).read(state(1))
    story.error(name).close(2, state(1))
    story.error(name).lock_first(2, state(1), 1)
    story.error(name).close(3, state(1))
    story.confirm(2, state(1))
    story.read(state(1, 2))
    # An open that is lost by a second OPEN.
    story.open(1, owner=b"B", name=b"b")
    story.open(2, owner=b"B", access=1)
    story.error(name).confirm(2, state(2), filehandle=OTHER_FILE)
    story.error(name).close(2, state(2), filehandle=OTHER_FILE)
    story.confirm(3, state(3))
    return story


def compounds_again() -> FindingStory:
    """A COMPOUND with two requests whose reply was lost: LOCKU and CLOSE, and two of one owner."""
    story = locked()
    story.unlock(2, state(2))
    story.close(4, state(1, 2))
    story.warning("stateid-closed").repeat(5)
    story.open(5)
    story.open(6, access=1)
    story.downgrade(7, state(3, 2), 1)
    story.close(8, state(3, 3))
    story.warning("sequence-id-reused").repeat(10)
    return story


STATEIDS: list[StoryMaker] = [
    other_kind,
    other_file,
    unknown,
    of_a_run_before,
    closed,
    transfers_behind_a_close,
    transfers_of_another_client,
    released,
    forgotten,
    returned,
    old,
    old_as_a_reply_was_lost,
    other_client,
    confirmations_of_owners,
    confirmations_of_clients,
    confirmations_of_what_is_gone,
    probes,
    unconfirmed,
    compounds_again,
]
