"""Runs of `nfs4state serve` that serve so many connections and then end, for the tests beside this file."""
from helpers.expecting_client import Wrong
from nfs4tools.messages import NULL, call
from nfs4tools.processes import NO_CALLBACKS, PROGRAM, Served

# How many seconds after its time a lease has ended: moments are whole seconds, and a sweep comes about once a second.
# And how many there are for what else has to come, on however busy a machine.
SOON, PATIENT = 4, 20


def begin(*options, **how):
    """A server that has begun, with these options alone."""
    return Served([PROGRAM, "serve", *options], **how)


def serve(*options, connections=1, listen="127.0.0.1:0", tree=NO_CALLBACKS, **how):
    return begin("--listen", listen, "--connections", str(connections), "--tree", tree, *options, **how)


def expect_end(served, *faults, what=None):
    """It ends by itself, with one of these faults; with none given, without a fault. Before the fault's line comes one
    that says what is wrong with this address or file, if one is named."""
    status, output, errors = served.end()
    if what is not None and errors.startswith(what.encode() + b": "):
        errors = errors.partition(b"\n")[2]
    elif what is not None:
        raise Wrong(f"it says {errors}, and not what is wrong with {what}")
    got = status, output, errors
    if got not in ([(1, b"", f"fault: {fault}\n".encode()) for fault in faults] or [(0, b"", b"")]):
        raise Wrong(f"it ends with {got}, wanted {faults or 'no fault'}")


def expect_no_reply(peer):
    peer.send(call(7, NULL))
    try:
        raise Wrong(f"a connection too many is served: {peer.receive(0.5)}")
    except TimeoutError:
        pass
