"""The verdicts of `tools/judge` on many journals: random series of right calls have no error, such with one mistake
have the error that names it and no other, and each of forty bugs, put into a client that does right, is found by its
name. Journals of any calls, right or wrong, are judged to their ends.

Series are judged in memory: a few of them in the gate, and 1,000 with --by-hand. The bugs are those of clients over the
model in memory, and with --by-hand of clients over the program by TCP."""
from collections import Counter
from functools import partial

import pytest

from dev.fuzz_calls import Caller
from helpers.bug_sessions import with_delegations, with_files, with_locks, with_pauses
from helpers.buggy_clients import BUGS, LENDING, MORE, NOT_TOLD, REFUSING
from helpers.judge_servers import ROOMS, Setting, guest
from helpers.mistaken_series import MISTAKES, bent
from helpers.right_client import RightClient
from helpers.right_series import Series
from nfs4tools.journal.journal import audit, read_journal
from nfs4tools.judge.findings import Severity
from nfs4tools.judge.verdicts import judge
from nfs4tools.program import bytes_of

pytestmark = pytest.mark.quick
# Series of a test, and how many tests there are of them: in the gate, and by hand.
EACH, IN_GATE, BY_HAND = 20, 3, 50
# How many calls and orders a journal of any calls has, and how many entries are made of them at least.
STEPS, LEAST = 80, 20
# How many series each mistake is put into.
BENT_IN_GATE, BENT_BY_HAND = 2, 30
# How often a mistake has to find its place among these.
PLACES = 1 / 8
# Of the forty bugs so many are found.
FOUND = 36
by_hand = pytest.mark.by_hand
PLACES_OF_SERIES = [*range(IN_GATE), *[pytest.param(place, marks=by_hand) for place in range(IN_GATE, BY_HAND)]]
program = pytest.param("program", marks=[by_hand, pytest.mark.needs("nfs4state")])


def found_in(journal, *clients):
    """The findings of a journal, which is judged to its end: of these clients, or of all."""
    verdict = judge(journal)
    assert (verdict.fault, verdict.entries) == (None, len(journal.entries))
    return [
        finding for client in verdict.clients if not clients or client.client in clients for finding in client.findings
    ]


def errors_in(journal):
    return [finding for finding in found_in(journal) if finding.severity == Severity.ERROR]


def names_of(findings):
    return sorted(finding.sort.name for finding in findings)


@pytest.mark.parametrize("place", PLACES_OF_SERIES)
def test_right_series(place, add_up):
    for seed in range(EACH * place, EACH * place + EACH):
        journal = Series(seed).run().journal()
        audit(journal)
        errors = errors_in(journal)
        assert errors == [], f"seed {seed}: {errors}"
        add_up(len(journal.entries), "entries of right calls have no error")


def test_series_do_all():
    """What the series of the gate have to have done."""
    done = Counter()
    for seed in range(EACH * IN_GATE):
        done += Series(seed).run().done
    wanted = [
        "comes",
        "opens",
        "closes",
        "downgrades",
        "locks",
        "unlocks",
        "tests",
        "releases",
        "moves bytes",
        "looks",
        "gives back",
        "crashes",
        "begins anew",
        "moves its callback",
        "sleeps",
        "wakes",
        "renews",
        "comes late",
        "SHARE_DENIED",
        "DELAY",
        "NOENT",
        "LOCK DENIED",
        "bytes OLD_STATEID",
    ]
    assert [what for what in wanted if not done[what]] == []


@pytest.mark.parametrize("count", [BENT_IN_GATE, pytest.param(BENT_BY_HAND, marks=by_hand)])
@pytest.mark.parametrize("mistake", sorted(MISTAKES))
def test_bent_series(mistake, count, add_up):
    """Of the seeds some give no place to a mistake; so the first that do are taken."""
    made = 0
    for seed in range(int(count / PLACES)):
        series = bent(seed, mistake)
        if series is not None and made < count:
            made += 1
            errors = errors_in(series.series.journal())
            assert names_of(errors) == sorted(series.findings), f"seed {seed}: {errors}"
    assert made > 0
    add_up(made, "series with a mistake have just the error that names it")


def any_calls(seed):
    caller = Caller(seed)
    for _ in range(STEPS):
        caller.next_step()
    return caller.server.journal()


@pytest.mark.parametrize("place", PLACES_OF_SERIES)
def test_any_journal(place, add_up):
    """What clients do that make any calls is judged to the end, and so is a beginning of it."""
    for seed in range(EACH * place, EACH * place + EACH):
        journal = any_calls(seed)
        assert len(journal.entries) >= LEAST
        add_up(len(found_in(journal)), "findings in journals of any calls")
        found_in(journal._replace(entries=journal.entries[: len(journal.entries) // 2]))


def played(room, path, kind, session, setting):
    """The journal of a session with a client of this kind, beside one that does right."""
    with ROOMS[room](path, setting) as server:
        peer, stranger = guest(server, b"peer"), server.stranger(b"client")
        client = kind(stranger.link, stranger.name, stranger.uid, stranger.callback)
        client.do(client.introducing())
        session(server, client, peer)
    journal = read_journal(bytes_of(path))
    audit(journal)
    return journal


@pytest.mark.parametrize("room", ["model", program])
@pytest.mark.parametrize("setting", [Setting(), LENDING, REFUSING], ids=["plain", "lending", "refusing"])
@pytest.mark.parametrize("session", [with_files, with_locks, with_delegations, with_pauses])
def test_session_of_right_client(session, setting, room, path_of):
    journal = played(room, path_of("run.journal"), RightClient, session, setting)
    assert names_of(found_in(journal)) == []


@pytest.mark.parametrize("room", ["model", program])
@pytest.mark.parametrize("bug", BUGS + MORE, ids=lambda bug: f"{bug.client.__name__}-{bug.finding}")
def test_bug(bug, room, path_of):
    """It is found by its name, and the peer has none."""
    journal = played(room, path_of("run.journal"), bug.client, bug.session, bug.setting)
    assert names_of(found_in(journal, b"peer")) == []
    findings = names_of(found_in(journal, b"client", None))
    assert bug.finding in findings if bug.finding != NOT_TOLD else findings == []


def test_how_many_bugs_are_found(path_of, tell):
    """So many of the forty are found by their names, as errors."""
    play, missed = partial(played, "model", path_of("run.journal")), []
    for bug in BUGS:
        names = names_of(errors_in(play(bug.client, bug.session, bug.setting)))
        missed += [bug.client.__name__] if bug.finding not in names else []
    tell(f"{len(BUGS) - len(missed)} of {len(BUGS)} bugs are found by their names; not {', '.join(missed)}")
    assert len(BUGS) == 40 and len(BUGS) - len(missed) >= FOUND
