"""Runs of the program, each with the output, the status and the fault that are wanted of it; and calls, replies and
journals as bytes, made by hand."""
import os
import subprocess
from tempfile import TemporaryFile


from helpers.expecting_client import Wrong, done
from nfs4tools.messages import (
    GETATTR,
    GETFH,
    LOOKUP,
    NFS4_OK,
    PUTFH,
    PUTROOTFH,
    SETCLIENTID_CONFIRM,
    TYPE_SIZE_FILEID,
    compound,
    confirmation,
    given,
    handle,
    lookup,
    results,
    setclientid,
    words,
)
from nfs4tools.processes import PROGRAM, TOP
from nfs4tools.program import bytes_of


SAMPLE = os.path.join(TOP, "samples/files.toml")


# The seconds that a run has, on however busy a machine.
PATIENCE = 300


def shown(data):
    """Bytes in hexadecimal, shortened where they are many."""
    return f"{len(data)} bytes, {data[:1024].hex(' ', 4)}"


def want(arguments, sent=b"", output=b"", fault=None, status=None, what=None, **how):
    """The program, with these words and this input as a file, writes these bytes and, on standard error, this line, and
    has this status, or 1 after a fault. Before the line comes one that says what is wrong with this file, if one is
    named."""
    pipe = subprocess.PIPE
    with TemporaryFile() as source:
        source.write(sent)
        source.seek(0)
        how = {"stdin": source, "stdout": pipe, "stderr": pipe, "timeout": PATIENCE, **how}
        ran = subprocess.run([PROGRAM, *arguments], **how)
    errors = b"" if fault is None else fault.encode() + b"\n"
    wanted = (1 if fault else 0) if status is None else status
    said, got = ran.stderr, ran.stdout or b""
    if what is not None and said.startswith(what.encode() + b":"):
        said = said.partition(b"\n")[2]
    elif what is not None:
        errors = what.encode() + b": .. and " + errors
    if (ran.returncode, got, said) != (wanted, output, errors):
        raise Wrong(
            f"nfs4state {arguments}: status {ran.returncode}, wanted {wanted}; output {shown(got)}, wanted "
            f"{shown(output)}; errors {ran.stderr}, wanted {errors}"
        )


# An operation, and its result.
ROOT = words(PUTROOTFH), done(PUTROOTFH)


def look(name, status=NFS4_OK):
    return lookup(name), done(LOOKUP, status=status)


def put(node, status=NFS4_OK):
    return words(PUTFH) + handle(node), done(PUTFH, status=status)


def handle_is(node):
    return words(GETFH), done(GETFH, handle(node))


def node_is(kind, size, fileid):
    """The type, the size and the fileid of the current node."""
    return (
        words(GETATTR, 1, TYPE_SIZE_FILEID),
        words(GETATTR, NFS4_OK, 1, TYPE_SIZE_FILEID, 20, kind, 0, size, 0, fileid),
    )


def exchange(xid, *pairs, uid=None):
    """A call of operations, and the reply with their results. The last result has its status."""
    sent, got = zip(*pairs)
    return compound(xid, *sent, uid=uid), results(xid, int.from_bytes(got[-1][4:8], "big"), *got)


SYNTAX, NAME, TOO_MANY, DUPLICATE = (f"fault: tree refused ({number})" for number in (1, 2, 3, 4))


# Nodes as a journal's file has them, with their number: those of the default tree, and one file `b`.
NODES = words(
    4,
    0,
    1,
    1,
    0x61000000,
    5,
    0x68656C6C,
    0x6F000000,
    0,
    1,
    1,
    0x62000000,
    0,
    0,
    0,
    1,
    0x64000000,
    3,
    1,
    1,
    0x63000000,
    0,
)


NODE_B = words(1, 0, 1, 1, 0x62000000, 0)


def journal_of(*entries, epoch=1, lease=90, policy=(2, 0, 0), nodes=NODES):
    """The file of a journal: `NFSJRN03`, what the server began with, and its entries. A policy of two words is that of
    the version before."""
    opening = words(0x4E46534A, 0x524E3030 + len(policy), epoch, lease, *policy) + nodes
    return opening + words(len(entries)) + b"".join(entries)


def entry_of(operation, answer, moment=(0, 0), principal=(0, 0), filehandle=(0, 0)):
    """A Call: the operation and its answer, as in a COMPOUND and its reply."""
    return words(1, *moment, *principal, *filehandle) + operation + answer


# The entries of the sample: SETCLIENTID, and twice SETCLIENTID_CONFIRM.
INTRODUCTION = setclientid(bytes(range(1, 9)), b"c1", b"127.0.0.1.8.1")


CONFIRMED = entry_of(confirmation(1, 1, 1), words(SETCLIENTID_CONFIRM, NFS4_OK))


CLIENT_IDS = [entry_of(INTRODUCTION, given(1, 1, 1)), CONFIRMED, CONFIRMED]


def client_ids():
    """The sample's records, and their replies."""
    with open(os.path.join(TOP, "samples/client_ids.records"), "rb") as records:
        sent = records.read()
    with open(os.path.join(TOP, "crates/nfs4state/stdout"), "rb") as replies:
        return sent, replies.read()


def want_journal(path, wanted, arguments, sent, output, fault=None, **how):
    """The program writes this file too, in place of a longer one."""
    with open(path, "wb") as out:
        out.write(bytes(len(wanted) + 100))
    want(["once", *arguments, "--journal", path], sent, output, fault, **how)
    if (got := bytes_of(path)) != wanted:
        raise Wrong(f"the journal has {shown(got)}, wanted {shown(wanted)}")
