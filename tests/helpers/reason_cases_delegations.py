"""Stories about delegations for test_reasons.py, as `reason_cases.py` has them of opens and locks."""
from helpers.journal_cases import SOMEBODY
from helpers.reason_stories import (
    DELEGATIONS,
    NO_HANDLE,
    ONES,
    OPEN_A,
    OPEN_BY_A,
    OTHER_FILE,
    OWNERS,
    STATEIDS,
    Story,
    ZEROS,
    state,
)
from nfs4tools.model.tree import DEFAULT
from nfs4tools.wire import Claim

A_DELEGATION, TO_READ = 'a delegation of file "/a" for writing', 'a delegation of file "/b" for reading'


def lent() -> Story:
    """Client 1 has state 1, its open of `a` by A, and state 2, a delegation for writing: entries 0 to 4. A's next
    sequence id is 4. Client 2 is live: entries 5 and 6."""
    story = Story('policy.callbacks = "assume"\n' + DEFAULT)
    story.introduce()
    story.confirm_client(1, 1)
    story.open(1)
    story.confirm(2, state(1))
    story.tell(f"client 1 gets state 2, {A_DELEGATION}")
    story.open(3)
    story.introduce(b"c2")
    story.confirm_client(2, 2)
    return story


def bytes_of_lent_files() -> Story:
    """READ and WRITE by delegations, and by special stateids beside them."""
    story = lent()
    story.write(state(2))
    story.read(state(2))
    bars = (
        f"state 2, {A_DELEGATION} to client 1 since entry 4 (OPEN), conflicts with READs and WRITEs with a special "
        "stateid, from every client, and "
    )
    story.read(ZEROS, (bars + "is recalled now", DELEGATIONS))
    story.write(ONES, (bars + "was recalled by entry 9 (READ)", DELEGATIONS))
    story.tell(f"client 1 gets state 4, {TO_READ}")
    story.open(4, None, access=1, name=b"b")
    # Theirs are the opens 3 and 5, with the delegations 4 and 6.
    story.open(1, owner=b"B", access=1, client=2, name=b"b")
    story.confirm(2, state(5, client=2), filehandle=OTHER_FILE)
    story.tell(f"client 2 gets state 6, {TO_READ}")
    story.open(3, None, b"B", 1, client=2, name=b"b")
    story.read(ZEROS, filehandle=OTHER_FILE)
    mode = f"WRITE needs access to WRITE, but the stateid is that of state 6, {TO_READ} to client 2"
    story.write(state(6, client=2), (mode, "WRITE"), OTHER_FILE)
    bars = "conflicts with WRITEs with a special stateid, from every client, and is recalled now"
    both = (
        f"state 4, {TO_READ} to client 1 since entry 11 (OPEN), {bars}; state 6, {TO_READ} to client 2 since entry "
        f"14 (OPEN), {bars}"
    )
    story.write(ZEROS, (both, DELEGATIONS), OTHER_FILE)
    story.tell(f"client 1 returns state 2, {A_DELEGATION}; it was recalled by entry 9 (READ), at 0")
    story.give_back(state(2))
    ended = f"state 2, {A_DELEGATION} to client 1, was ended by entry 18 (DELEGRETURN)"
    story.write(state(2), (ended, STATEIDS))
    return story


def delays() -> Story:
    """OPENs that conflict with delegations of others, recalled by them or before."""
    story = lent()
    bars = (
        f"state 2, {A_DELEGATION} to client 1 since entry 4 (OPEN), conflicts with every open of another client, "
        "and "
    )
    story.open(1, (bars + "is recalled now", DELEGATIONS), b"B", 1, client=2)
    story.open(1, (bars + "was recalled by entry 7 (OPEN)", DELEGATIONS), b"B", 2, client=2)
    story.tell(f"client 1 gets state 4, {TO_READ}")
    story.open(4, None, access=1, name=b"b")
    story.open(1, owner=b"B", access=1, client=2, name=b"b")
    story.confirm(2, state(5, client=2), filehandle=OTHER_FILE)
    story.tell(f"client 2 gets state 6, {TO_READ}")
    story.open(3, None, b"B", 1, client=2, name=b"b")
    story.introduce(b"c3")
    story.confirm_client(3, 3)
    both = (
        f"state 4, {TO_READ} to client 1 since entry 9 (OPEN), conflicts with opens of other clients that write "
        f"or deny READ, and is recalled now; state 6, {TO_READ} to client 2 since entry 12 (OPEN), conflicts with "
        "opens of other clients that write or deny READ, and is recalled now"
    )
    story.open(1, (both, DELEGATIONS), b"C", 2, client=3, name=b"b")
    return story


def many_delays() -> Story:
    """Of many that conflict some are named, in the order of their numbers."""
    story, named = Story('policy.callbacks = "assume"\n' + DEFAULT), []
    for client in range(1, 6):
        story.introduce(b"c%d" % client)
        story.confirm_client(client, client)
        story.open(1, owner=b"A", access=1, client=client)
        story.confirm(2, state(2 * client - 1, client=client))
        story.tell(f'client {client} gets state {2 * client}, a delegation of file "/a" for reading')
        named.append(
            f'state {2 * client}, a delegation of file "/a" for reading to client {client} since entry '
            f"{story.server.entries} (OPEN), conflicts with opens of other clients that write or deny READ, "
            "and is recalled now"
        )
        story.open(3, owner=b"A", access=1, client=client)
    story.introduce(b"c6")
    story.confirm_client(6, 6)
    story.open(1, ("; ".join(named[:3]) + "; and 2 more", DELEGATIONS), b"B", 2, client=6)
    return story


def delegation_stateids() -> Story:
    """Of delegations, in the operations that work on them and in those that don't."""
    story, other = lent(), "the stateid is that of state 2, "
    story.close(4, state(2), (f"{other}{A_DELEGATION} to client 1; an open is wanted here, such as state 1", OWNERS))
    wanted = f"the stateid is that of state 1, an {OPEN_A}; a delegation is wanted here, such as state 2"
    story.give_back(state(1, 3), (wanted, STATEIDS))
    place = f'{other}{A_DELEGATION} to client 1, but the current filehandle is that of file "/b"'
    story.give_back(state(2), (place, STATEIDS), OTHER_FILE)
    stands = "state 2 has seqid 1 since entry 4 (OPEN), but the stateid has the "
    story.give_back(state(2, 0), (stands + "earlier 0", STATEIDS))
    story.give_back(state(2, 2), (stands + "later 2", STATEIDS))
    story.give_back(state(2), NO_HANDLE, None)
    strange = "the stateid has epoch 2, but this server has epoch 1"
    story.give_back(state(2, epoch=2), (strange, STATEIDS))
    whose = "state 2 was given to client 1, but the stateid names client 2"
    story.give_back(state(2, client=2), (whose, STATEIDS))
    claim, of = Claim(2, b"a", state(2)), "of the delegation's stateid: "
    # It isn't looked for what conflicts.
    theirs = f"it is that of state 2, {A_DELEGATION} to client 1, but the OPEN is one of client 2"
    story.open(1, (of + theirs, "OPEN"), b"B", 1, client=2, claim=claim)
    story.open(4, (of + stands + "earlier 0", STATEIDS), claim=Claim(2, b"a", state(2, 0)))
    story.open(5, (of + stands + "later 2", STATEIDS), claim=Claim(2, b"a", state(2, 2)))
    story.open(
        5,
        (of + place.replace("the current filehandle is that of", "the OPEN names"), STATEIDS),
        name=b"b",
        claim=Claim(2, b"b", state(2)),
    )
    story.tell(f"client 1 returns state 2, {A_DELEGATION}; it wasn't recalled")
    story.give_back(state(2))
    ended = f"state 2, {A_DELEGATION} to client 1, was ended by entry 19 (DELEGRETURN)"
    story.give_back(state(2), (ended, STATEIDS))
    story.open(5, (of + ended, STATEIDS), claim=claim)
    return story


def ends_of_delegations() -> Story:
    """Returned after a recall, revoked, and gone with their clients."""
    story = lent()
    bars = (
        f"state 2, {A_DELEGATION} to client 1 since entry 4 (OPEN), conflicts with every open of another client, "
        "and "
    )
    called = (bars + "is recalled now", DELEGATIONS)
    story.open(1, called, b"B", 1, client=2)
    story.tell(f"client 1 returns state 2, {A_DELEGATION}; it was recalled by entry 7 (OPEN), at 0")
    story.give_back(state(2))
    story.tell(f"client 1 gets state 3, {A_DELEGATION}")
    story.open(4)
    # The same OPEN again gives nothing.
    story.tell(f"client 1 gets state 3, {A_DELEGATION} again, which entry 9 granted")
    story.repeat(9, OPEN_BY_A)
    bars = (
        f"state 3, {A_DELEGATION} to client 1 since entry 9 (OPEN), conflicts with every open of another client, "
        "and "
    )
    story.server.moment = 10
    story.open(1, (bars + "is recalled now", DELEGATIONS), b"B", 1, client=2)
    lost = f"client 1 loses state 3, {A_DELEGATION}, because it is revoked; it was recalled by "
    story.tell(lost + "entry 11 (OPEN), at 10")
    story.server.revoke(101)
    ended = f"state 3, {A_DELEGATION} to client 1, was ended by entry 12, because it wasn't returned in time"
    story.give_back(state(3), (ended, STATEIDS))
    story.tell("the callback path of client 1 was up since entry 1 (SETCLIENTID_CONFIRM)")
    story.server.mark_path(1, False)
    story.open(5)
    story.tell("the callback path of client 1 was down since entry 14")
    story.server.mark_path(1, True)
    story.tell(f"client 1 gets state 4, {A_DELEGATION}")
    story.open(6)
    story.tell(f"client 1 loses state 4, {A_DELEGATION}, because the client is removed; it wasn't recalled")
    story.expire(1)
    gone = "client 1 was removed by entry 18, because its lease had expired"
    story.give_back(state(4), (gone, STATEIDS))
    return story


def clients_with_delegations() -> Story:
    """A delegation is state of its client, and goes where another one takes its place."""
    story = lent()
    story.close(4, state(1, 3))
    used = (
        f'the id "c1" is that of client 1, by AUTH_NONE, which has state: state 2, {A_DELEGATION} to client 1, '
        "since entry 4 (OPEN)"
    )
    story.introduce(verifier=2, because=(used, "SETCLIENTID"), principal=SOMEBODY)
    story.introduce(verifier=2)
    story.tell(f"client 1 loses state 2, {A_DELEGATION}, because the client is removed; it wasn't recalled")
    story.confirm_client(3, 3)
    gone = "client 1 was removed by entry 10 (SETCLIENTID_CONFIRM), because client 3 took its place"
    story.give_back(state(2), (gone, STATEIDS))
    return story


def clients_of_slots() -> Story:
    """Clients 257 and 258, live, each the second in its slot: entries 3 to 7. The first has a delegation."""
    story = Story('policy.callbacks = "assume"\n' + DEFAULT)
    one, other = "client 257 (slot 1, second)", "client 258 (slot 2, second)"
    story.introduce()
    story.confirm_client(1, 1)
    story.expire(1)
    story.introduce()
    story.confirm_client(257, 2)
    story.introduce(b"c2")
    story.introduce(b"c2")
    story.confirm_client(258, 4)
    story.open(1, client=257)
    story.confirm(2, state(1, client=257))
    story.tell(f"{one} gets state 2, {A_DELEGATION}")
    story.open(3, client=257)
    used = (
        f'the id "c1" is that of {one}, by AUTH_NONE, which has state: state 1, an open of file "/a" by open owner '
        f'"A" of {one}, since entry 8 (OPEN)'
    )
    story.introduce(verifier=2, because=(used, "SETCLIENTID"), principal=SOMEBODY)
    value = f"entry 3 (SETCLIENTID) gave confirm verifier 2 to {one}"
    story.confirm_client(258, 2, (value, "SETCLIENTID_CONFIRM"))
    whose = f"state 2 was given to {one}, but the stateid names {other}"
    story.give_back(state(2, client=258), (whose, STATEIDS))
    theirs = (
        f"of the delegation's stateid: it is that of state 2, {A_DELEGATION} to {one}, but the OPEN is one of "
        f"{other}"
    )
    story.open(1, (theirs, "OPEN"), b"B", 1, client=258, claim=Claim(2, b"a", state(2, client=257)))
    story.tell(f"the callback path of {one} was up since entry 4 (SETCLIENTID_CONFIRM)")
    story.server.mark_path(257, False)
    story.tell(f"{one} returns state 2, {A_DELEGATION}; it wasn't recalled")
    story.give_back(state(2, client=257))
    return story


STORIES_OF_DELEGATIONS = (
    bytes_of_lent_files,
    delays,
    many_delays,
    delegation_stateids,
    ends_of_delegations,
    clients_with_delegations,
    clients_of_slots,
)
