"""Runs of `nfs4state serve` whose memory is bounded: the lines that they tell, and calls of one operation on a file."""
import os
import re
import time
from collections import Counter


from helpers.expecting_client import Wrong, expect
from nfs4tools.messages import (
    LOCKT,
    OPEN,
    PUTFH,
    READ,
    READDIR,
    RELEASE_LOCKOWNER,
    SETATTR,
    WRITE,
    compound,
    handle,
    words,
)
from nfs4tools.model.attributes import SIZE
from nfs4tools.processes import PATIENCE, PROGRAM
from nfs4tools.program import Program
from nfs4tools.wire import GUARDED4, OPEN4_CREATE, SYSTEM_ERR, Status, opaque, u64


MIB = 1 << 20


# The most bytes that a file has.
FILE_LIMIT = 65536


WORKERS = 12


# How a call ends.
OK, RESOURCE, ENDED = "NFS4_OK", "NFS4ERR_RESOURCE", "the end of its connection"


# The file that is read and written, a stateid by which nobody opened it, and an attribute's number.
FILE, ANYBODY, FILEID = 1, words(0, 0, 0, 0), 20


# What a run tells.
CONNECTION = re.compile(r"connection [0-9]+ from 127\.0\.0\.1:[0-9]+: (.*)")


LEFT_OUT = re.compile(r"connections: ([0-9]+) more lines left out")


LOST = re.compile(r"([0-9]+) lines lost: standard error took no more")


class Lines:
    """The lines of a run: by what words connections ended that are told; how many more are, since they were left out or
    lost; and the others."""

    def __init__(self, errors):
        self.ended, self.more, self.others = Counter(), 0, []
        for line in errors.decode(errors="replace").splitlines():
            if found := CONNECTION.fullmatch(line):
                self.ended[found[1]] += 1
            elif found := LEFT_OUT.fullmatch(line) or LOST.fullmatch(line):
                self.more += int(found[1])
            else:
                self.others.append(line)

    def expect_ended(self, count, words_of_it):
        """So many connections ended so, and none otherwise; and no kind of line came more than ten times a second."""
        if sum(self.ended.values()) + self.more != count or set(self.ended) - {words_of_it}:
            raise Wrong(
                f"lines tell of {dict(self.ended)} connections and {self.more} more; {count} ended, wanted "
                f"'{words_of_it}'"
            )

    def expect_memory(self, bound, is_full):
        """How near the memory came to its bound of so many MiB: each tenth once at most, in order, up to the last one;
        and that it is full, once, where it is. No other line."""
        found = [re.fullmatch(f"memory: ([0-9]+) of {bound} MiB", line) for line in self.others]
        near = [int(one[1]) for one in found if one]
        others = [line for line, one in zip(self.others, found) if not one]
        expect("the other lines", others, [f"the memory is full: {bound} of {bound} MiB"] * is_full)
        # With a bound of a few MiB several tenths look the same.
        tenths = [min(10 * mib // bound, 9) for mib in near]
        is_rising = all(a < b for a, b in zip(tenths, tenths[1:])) if bound >= 10 else near == sorted(near)
        is_whole = bound < 10 or 0 not in tenths and (not is_full or tenths[-1:] == [9])
        if not is_rising or not is_whole or len(near) > 9:
            raise Wrong(f"lines tell of {near} of {bound} MiB")
        return tenths


def expect_end(served):
    """It ends with its input: its lines."""
    if served.program.stdin is not None:
        served.end_input()
    # A journal of some hundred MiB takes its time on a busy disk.
    status, output, errors = served.end(3 * PATIENCE)
    if (status, output) != (0, b""):
        raise Wrong(f"it ends with {status}, and with these lines at last: {errors[-2000:].decode()}")
    return Lines(errors)


def wait_for_line(served, pattern):
    """Waits until it tells a line like this, which its end gives with those before it."""
    begun = len(served.errors)
    while line := served.next_line():
        served.errors += line
        if re.fullmatch(pattern, line.decode().rstrip("\n")):
            return
    raise Wrong(f"it tells no {pattern}, but {served.errors[begun:]}")


def threads_of(served):
    """How many threads it has, once that doesn't change any more."""
    folder, until = f"/proc/{served.program.pid}/task", time.monotonic() + PATIENCE
    seen = []
    while time.monotonic() < until:
        seen.append(len(os.listdir(folder)))
        if len(seen) > 5 and len(set(seen[-5:])) == 1:
            return seen[-1]
        time.sleep(0.1)
    raise Wrong(f"its threads come and go: {seen[-10:]}")


def entries_of(path):
    """How many entries the journal in this file has, which the program finds lawful. It may be a large one."""
    status, output, errors = Program(PROGRAM).run(["audit", path])
    found = re.fullmatch(rb"lawful: ([0-9]+) entries\n", output)
    if (status, errors) != (0, b"") or not found:
        raise Wrong(f"an audit ends with {status, output, errors}")
    return int(found[1])


# Calls, each of one operation on a file.
def read_words(count, offset=0):
    return words(READ) + ANYBODY + u64(offset) + words(count)


def write_words(data, offset=0):
    return words(WRITE) + ANYBODY + u64(offset) + words(0) + opaque(data)


def open_words(owner, name, clientid=words(1, 77)):
    return words(OPEN, 1, 3, 0) + clientid + opaque(owner) + words(0, 0) + opaque(name)


def setattr_words(size, more=0):
    """A size, by a mask of so many words more."""
    return words(SETATTR) + ANYBODY + words(1 + more, 1 << SIZE, *[0] * more) + opaque(u64(size))


def readdir_words(maxcount, mask=()):
    return words(READDIR) + u64(0) + bytes(8) + words(0, maxcount, len(mask), *mask)


def create_words(owner, values, clientid):
    """An OPEN that wants a new file, with attributes of no name, beside a mask of one word."""
    how = words(OPEN4_CREATE, GUARDED4, 1, 0) + opaque(values)
    return words(OPEN, 1, 3, 0) + clientid + opaque(owner) + how + words(0) + opaque(b"a")


def lockt_words(owner, clientid=words(1, 77)):
    return words(LOCKT, 2) + u64(0) + u64(1) + clientid + opaque(owner)


def release_words(owner, clientid=words(1, 77)):
    return words(RELEASE_LOCKOWNER) + clientid + opaque(owner)


def under(operation, node=FILE, uid=None):
    """A call of this operation on a node."""
    return compound(1, words(PUTFH) + handle(node), operation, uid=uid)


def status_of(got):
    """The status of a reply, or SYSTEM_ERR, or None where the connection ended in place of it."""
    if len(got) < 28:
        return None
    accepted = int.from_bytes(got[24:28], "big")
    return "SYSTEM_ERR" if accepted == SYSTEM_ERR else Status(int.from_bytes(got[28:32], "big"))
