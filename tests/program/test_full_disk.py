"""A file that can't be written, as on a full disk: the journal is cut at some byte, or isn't written at all, and the
run says so. And how a long journal is written."""
import os
import resource
import signal

import pytest

from helpers.expecting_client import done, expect
from nfs4tools.journal.journal import verdict
from nfs4tools.messages import NFS4ERR_STALE_CLIENTID, OPEN, words
from nfs4tools.wire import opaque
from program.program_runs import ROOT, SYNTAX, client_ids, entry_of, exchange, journal_of, node_is, want, want_journal

pytestmark = [pytest.mark.needs("nfs4state"), pytest.mark.quick]


def test_journal_faults(path_of, file_of):
    """A file that can't be written is the last fault of a run, and leaves its replies. Without a run there is no
    file."""
    sent, replies = client_ids()
    missing = path_of("missing/run.journal")
    for path in missing, path_of(""), "/dev/full", "":
        want(["once", "--journal", path], sent, replies, "fault: file not written", what=path)
        want(["once", "--journal", path], sent + b"\0", replies, "fault: input ends inside a record", what=path)
    path = path_of("refused.journal")
    tree = file_of("tree.toml", b"file")
    want(["once", "--journal", path, "--tree", tree], sent, fault=SYNTAX, what=tree)
    assert not os.path.exists(path)


def long_run():
    """Records whose journal is long, with entries of 250,000 bytes among 3,600 small ones; their replies; and the
    journal."""
    get = node_is(2, 0, 1)
    # By a clientid that nobody has.
    opening = words(OPEN, 1, 3, 0, 1, 1) + opaque(b"o") + words(0, 0) + opaque(b"n" * 250000)
    refused = opening, done(OPEN, status=NFS4ERR_STALE_CLIENTID)
    small = *exchange(1, ROOT, *[get] * 60), [entry_of(*get, filehandle=(1, 0))] * 60
    large = *exchange(2, ROOT, refused), [entry_of(*refused, filehandle=(1, 0))]
    calls = [small] * 30 + [large] + [small] * 20 + [large] * 2 + [small] * 10
    sent, replies, entries = zip(*calls)
    return b"".join(sent), b"".join(replies), journal_of(*sum(entries, []))


def test_long_journal(path_of, preloaded):
    """A long journal, also where each write takes a part of it only. Where its file takes no more bytes after a while,
    a beginning of it stands there, and that is the fault, unless the connection had one before."""
    (sent, replies, wanted), path, line = long_run(), path_of("run.journal"), "lawful: 3603 entries"
    want_journal(path, wanted, [], sent, replies)
    want(["audit", path], output=f"{line}\n".encode())
    expect("the model's verdict", verdict(wanted), (True, line))
    for most in "1000", "65537":
        want_journal(path, wanted, [], sent, replies, env=preloaded("short_writes.c", MOST_WRITTEN=most))
    want_journal(
        path,
        b"",
        [],
        sent,
        replies,
        "fault: file not written",
        what=path,
        env=preloaded("short_writes.c", MOST_WRITTEN="0"),
    )
    for limit in 1, 65536, 100001, 600000, len(wanted) - 1:
        for rest, fault in (b"", "file not written"), (b"\0", "input ends inside a record"):
            want_journal(
                path,
                wanted[:limit],
                [],
                sent + rest,
                replies,
                f"fault: {fault}",
                what=path,
                preexec_fn=lambda: limit_files(limit),
            )


# The bytes that are written together, and those of the buffer that they are gathered in.
PIECE, BUFFER = 65536, 524288


def test_pieces(path_of, preloaded):
    """A long journal's file is written in pieces, none of which is longer than the buffer; and they aren't many."""
    (sent, replies, wanted), path = long_run(), path_of("writes")
    want_journal(path_of("run.journal"), wanted, [], sent, replies, env=preloaded("short_writes.c", WRITES=path))
    with open(path, encoding="utf-8") as lines:
        lengths = [int(line) for line in lines]
    most = 2 * len(wanted) // PIECE
    assert sum(lengths) == len(wanted) and max(lengths) <= BUFFER and 4 <= len(lengths) <= most


def limit_files(most):
    """In a new process: what is written to a file beyond so many bytes fails."""
    signal.signal(signal.SIGXFSZ, signal.SIG_IGN)
    resource.setrlimit(resource.RLIMIT_FSIZE, (most, most))
