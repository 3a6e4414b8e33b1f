"""The same as finding_cases.py, of what requests ask for: access, shares, ranges and so on; and what right clients meet
without a fault."""
from helpers.journal_cases import SOMEBODY
from helpers.reason_stories import ALL, DIRECTORY, OTHER_FILE, ZEROS, state
from helpers.finding_cases import StoryMaker, FindingStory, Y, begun, lent, locked
from nfs4tools.wire import Claim, GUARDED4, Lockt, OPEN4_CREATE, Openhow, Opnum, u32, u64


def access() -> FindingStory:
    story = lent()
    story.give_back(state(2))
    story.open(4, access=1, name=b"b")
    reads = state(3)
    story.error("write-without-access").write(reads, filehandle=OTHER_FILE)
    story.error("lock-without-access").lock_first(5, reads, 1, filehandle=OTHER_FILE)
    story.lock_first(6, reads, 2, locktype=1, filehandle=OTHER_FILE)
    story.error("write-beyond-delegation").write(state(4), filehandle=OTHER_FILE)
    story.open(1, owner=b"B", access=2, client=2)
    story.confirm(2, state(6, client=2))
    story.error("read-without-access").read(state(6, 2, client=2))
    story.write(state(6, 2, client=2))
    return story


def access_that_was_taken() -> FindingStory:
    """A WRITE by a lock's stateid may have been under way while its open was downgraded, if it comes by another."""
    story = locked()
    story.open(4, access=1)
    story.open(1, owner=b"B")
    story.confirm(2, state(3))
    story.at(10).downgrade(5, state(1, 3), 1)
    story.at(11).warning("write-without-access").write(state(2))
    story.error("write-without-access").write(state(2), offset=7)
    story.write(state(3, 2))
    story.at(12).error("write-without-access").write(state(2))
    story.write(state(3, 2))
    return story


def attributes() -> FindingStory:
    """A SETATTR of the size takes access, one of the time doesn't by sections 9.1.4.6 and 9.1.6."""
    story = lent('profile = "clients"')
    story.give_back(state(2))
    story.open(4, access=1, name=b"b")
    size, time = ((1 << 4,), u64(3)), ((0, 1 << 54 - 32), u32(0))
    story.error("write-without-access").set(*size, filehandle=OTHER_FILE, stateid=state(3))
    story.error("write-beyond-delegation").set(*size, filehandle=OTHER_FILE, stateid=state(4))
    story.spared().set(*time, filehandle=OTHER_FILE, stateid=state(3))
    story.spared().set(*time, filehandle=OTHER_FILE, stateid=state(4))
    story.set(*time, stateid=state(1, 3))
    return story


def held() -> FindingStory:
    story = begun('policy.close_locks = "refuse"\n')
    story.lock_first(3, state(1, 2), 1)
    story.error("release-of-held-lock-owner").release()
    story.error("close-with-locks").close(4, state(1, 2))
    story.unlock(2, state(2))
    story.release()
    story.close(5, state(1, 2))
    return story


def shares() -> FindingStory:
    story = begun()
    story.error("share-invalid").open(3, access=0)
    story.error("share-invalid").open(4, deny=4)
    story.error("downgrade-without-open").downgrade(5, state(1, 2), 1)
    story.error("share-invalid").downgrade(6, state(1, 2), 0)
    story.open(7, access=1)
    story.downgrade(8, state(1, 3), 1)
    return story


def ranges() -> FindingStory:
    story = locked()
    story.error("range-invalid").unlock(2, state(2), length=0)
    story.error("range-invalid").lock_first(4, state(1, 2), 1, owner=Y, offset=2, length=ALL - 1)
    story.error("range-invalid").call(Opnum.LOCKT, Lockt(1, 0, 0, Y))
    story.unlock(3, state(2), length=ALL)
    return story


def filehandles() -> FindingStory:
    story = begun()
    story.error("no-filehandle").ask_for((2,), filehandle=None)
    story.error("no-filehandle").close(3, state(1, 2), filehandle=None)
    story.error("no-filehandle").read(ZEROS, filehandle=None)
    story.close(3, state(1, 2))
    return story


def principals() -> FindingStory:
    story = begun()
    story.error("client-id-of-two-principals").introduce(principal=SOMEBODY)
    story.introduce(b"c2")
    story.error("client-id-of-two-principals").confirm_client(2, 2, principal=SOMEBODY)
    story.confirm_client(2, 2)
    return story


# What a right client may meet.


def met_by_right_clients() -> FindingStory:
    """NOENT, ACCESS, EXIST, ISDIR, NOTSUPP, FBIG; another's share, lock and delegation; another run's client, and one
    that is gone."""
    story = lent()
    story.spared().open(4, name=b"e")
    story.spared().open(5, name=b"e", how=Openhow(OPEN4_CREATE, 0, ((), b"")))
    story.spared().open(6, how=Openhow(OPEN4_CREATE, GUARDED4, ((), b"")))
    story.spared().open(7, name=b"d")
    story.spared().open(8, claim=Claim(3, b"a", None))
    story.spared().open(9, claim=Claim(1, None, 0))
    story.spared().open(1, client=2)
    story.spared().open(10, epoch=2)
    story.spared().write(state(1, 3), offset=65532)
    story.give_back(state(2))
    story.lock_first(10, state(1, 3), 1)
    story.spared().lock_first(11, state(1, 3), 1, owner=Y)
    story.spared().call(Opnum.LOCKT, Lockt(1, 0, 1, Y))
    story.spared().open(1, owner=b"B", access=1, deny=2)
    story.spared().call(Opnum.LOCKT, Lockt(1, 0, 1, Y), filehandle=DIRECTORY)
    story.expire(1)
    story.spared().open(12)
    story.spared().read(state(1, 3))
    return story


def revoked() -> FindingStory:
    """What comes of a delegation that isn't given back is told by another finding."""
    story = lent()
    story.spared().open(1, client=2)
    story.server.revoke(91)
    story.spared().read(state(2))
    story.spared().give_back(state(2))
    return story


REQUESTS: list[StoryMaker] = [
    access,
    access_that_was_taken,
    attributes,
    held,
    shares,
    ranges,
    filehandles,
    principals,
    met_by_right_clients,
    revoked,
]
