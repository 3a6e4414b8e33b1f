"""What `tools/between` and the model write of calls and replies: the trace, and the capture.

What becomes of calls and replies by each fault, callbacks, and runs that are killed are seen through between, before the
model and the program. A reader of captures that is made for this test, and tshark if it is there, find the bytes that the
client sent and got, in packets that are right."""
import os
import random
import shutil
import subprocess
import sys
import time
from contextlib import contextmanager

import pytest

from helpers.captures import captures_of
from nfs4tools.client import operations as op
from nfs4tools.client.client import Client
from nfs4tools.client.listener import CallbackListener
from nfs4tools.client.ordered import OrderedServer
from nfs4tools.client.replies import StatusError
from nfs4tools.client.server import Listening, MODEL, Server
from nfs4tools.messages import NULL, RENEW, call, compound, setclientid, words
from nfs4tools.processes import PATIENCE, PROGRAM, Peer, TOP
from nfs4tools.trace.pcap import PcapWriter
from nfs4tools.trace.reader import read_trace
from nfs4tools.trace.watching import Place

BETWEEN = [sys.executable, os.path.join(TOP, "tools/between")]
SERVERS = {"model": MODEL, "program": [PROGRAM, "serve"]}
KINDS = [pytest.param("model"), pytest.param("program", marks=pytest.mark.needs("nfs4state"))]


# Through between.


@contextmanager
def relayed(kind, path_of, *rules, options=()):
    """Between, which writes run.trace and run.pcap, before a server."""
    with Server(*options, command=SERVERS[kind]) as server:
        words_of_rules = [word for rule in rules for word in ("--rule", rule)]
        files = "--trace", path_of("run.trace"), "--pcap", path_of("run.pcap")
        to = "--listen", "127.0.0.1:0", "--to", "%s:%d" % server.address
        with Listening(*BETWEEN, *to, *files, *words_of_rules) as between:
            yield between
            wait_for_ends(path_of("run.trace"))


def wait_for_ends(path):
    """Waits until each connection that has begun has ended, also on a busy machine."""
    until = time.monotonic() + PATIENCE
    while events_in(path, "begin") != events_in(path, "end"):
        assert time.monotonic() < until, "a connection doesn't end"
        time.sleep(0.05)


def events_in(path, event):
    return sum(line.event == event for line in read_trace(path).lines)


def one_round(client):
    client.begin()
    file = client.open("a")
    client.write(file, b"H")
    client.renew()
    client.close(file)


def names_in(line):
    return [step.operation for step in line.steps]


CLOSED = ["PUTFH", "CLOSE"]


@pytest.mark.parametrize("kind", KINDS)
def test_calls(kind, path_of):
    """Each call and reply, in order, with connection, xid, operations, statuses and words."""
    with relayed(kind, path_of) as between, Client(between.host, between.port, "c1") as client:
        client.null()
        one_round(client)
        client.disconnect()
        client.renew()
        address = between.address
    trace = read_trace(path_of("run.trace"))
    assert (trace.by, trace.lease, trace.ends) == ("tools/between", 90, None)
    times = [line.time for line in trace.lines]
    assert times == sorted(times) and abs(times[0] / 1e6 - time.time()) < 600
    # The end of a connection may be seen after the next one has begun.
    for connection, count in ((1, 8), (2, 1)):
        events = [line.event for line in trace.lines if line.connection == connection]
        assert events == ["begin", *["call", "reply"] * count, "end"]
    assert trace.lines[0].fields["server"] == "%s:%d" % address and trace.lines[-1].fields["by"] == "client"
    exchanges = list(trace.exchanges())
    assert [call.xid for call, _ in exchanges] == [f"0x{number:08x}" for number in range(1, 10)]
    assert all(reply is not None and reply.fields["answer"] == "SUCCESS" for _, reply in exchanges)
    assert exchanges[0][0].fields["procedure"] == "NULL" and exchanges[0][1].status is None
    assert [names_in(call)[-1] for call, _ in exchanges[1:]] == [
        "SETCLIENTID", "SETCLIENTID_CONFIRM", "GETFH", "OPEN_CONFIRM", "WRITE", "RENEW", "CLOSE", "RENEW"
    ]  # fmt: skip
    assert all(reply.status == "NFS4_OK" for _, reply in exchanges[1:])
    renewed = exchanges[6][0].steps[0]
    assert renewed.text() == "RENEW clientid=1:1" and renewed.values == {"clientid": "1:1"}
    assert exchanges[5][0].steps[-1].values["data"] == '"H"'


@pytest.mark.parametrize("kind", KINDS)
@pytest.mark.parametrize(
    "rule, lines",
    [
        ("lose-call WRITE 1", ["1 call lost", "2 call", "2 reply"]),
        ("cut-call WRITE 1", ["1 call cut", "2 call", "2 reply"]),
        ("lose-reply WRITE 1", ["1 call", "1 reply lost", "2 call", "2 reply"]),
        ("cut-reply WRITE 1", ["1 call", "1 reply cut", "2 call", "2 reply"]),
        ("hold 0.2 WRITE 1", ["1 call", "1 reply held"]),
        ("split 3 WRITE 1", ["1 call", "1 reply"]),
        ("twice WRITE 1", ["1 call", "1 reply lost", "1 reply"]),
        ("answer DELAY WRITE 1", ["1 call changed", "1 reply made"]),
        ("answer RESOURCE RENEW 1", ["1 call answered", "1 reply made"]),
    ],
)
def test_fates(kind, rule, lines, path_of):
    """What becomes of a call, and of its reply; and the capture has what the client has."""
    name = rule.split()[-2]
    with relayed(kind, path_of, rule) as between, Client(between.host, between.port, "c1") as client:
        client.tries = 2
        client.begin()
        file = client.open("a")
        try:
            client.write(file, b"H")
            client.renew()
        except StatusError as refused:
            assert rule.startswith("answer") and refused.operation == name
        client.close(file)
    trace = read_trace(path_of("run.trace"))
    found = [it for it in trace.lines if name in names_in(it)]
    assert [f"{it.connection} {it.event} {it.fate}".strip() for it in found] == lines
    whole = [it for it in trace.lines if it.event == "reply" and it.fate not in ("lost", "cut")]
    last = [reply for call, reply in trace.exchanges() if name in names_in(call)][-1]
    assert last in whole
    captures = captures_of(bytes_in(path_of("run.pcap")))
    first = captures[0]
    assert first.ended_by == (first.taker if "call" in lines[0] and len(captures) == 2 else first.caller)
    half = sum(
        it.fields["length"] + 4 for it in trace.lines if it.event == "reply" and it.fate == "cut" and it.connection == 1
    )
    got = sum(it.fields["length"] + 4 for it in whole if it.connection == 1) + half // 2 + 8 * rule.startswith("split")
    assert len(first.sent_by(first.taker)) == got


def bytes_in(path):
    with open(path, "rb") as source:
        return source.read()


@pytest.mark.needs("nfs4state")
def test_callbacks(path_of):
    """Callbacks pass through between when they are watched, and are in both files; the server has begun their
    connections."""
    with relayed("program", path_of) as between:
        with CallbackListener() as listener, Client(between.host, between.port, "c1", callback=listener) as one:
            with Client(between.host, between.port, "c2") as two:
                one.begin()
                two.begin()
                file = one.open_lent("a")
                with pytest.raises(StatusError):
                    two.open("a")
                recall = listener.wait_for_recall(timeout=PATIENCE)
                one.return_delegation(recall)
            port = listener.address[1]
    trace = read_trace(path_of("run.trace"))
    told = [it for it in trace.lines if it.is_callback]
    calls = [
        (call.fields["procedure"], reply.fields["answer"]) for call, reply in trace.exchanges() if call.is_callback
    ]
    assert calls == [("CB_NULL", "SUCCESS"), ("CB_COMPOUND", "SUCCESS")]
    recalled = next(it for it in told if names_in(it) == ["CB_RECALL"]).steps[0]
    assert recalled.values["stateid"] == ":".join(map(str, file.delegation.stateid))
    assert next(it for it in told if it.status is not None).status == "NFS4_OK"
    assert {it.fields["client"] for it in told if it.event == "begin"} == {f"127.0.0.1:{port}"}
    called_back = [it for it in captures_of(bytes_in(path_of("run.pcap"))) if it.taker[1] == port]
    assert len(called_back) == 2 and all(it.pieces[0][0] == it.caller for it in called_back)


@pytest.mark.parametrize("kind", KINDS)
def test_killed(kind, path_of):
    """All that the client got before between was killed is in both files."""
    with Server(command=SERVERS[kind]) as server:
        files = "--trace", path_of("run.trace"), "--pcap", path_of("run.pcap")
        between = Listening(*BETWEEN, "--listen", "127.0.0.1:0", "--to", "%s:%d" % server.address, *files)
        with Client(between.host, between.port, "c1") as client:
            one_round(client)
            between.served.program.kill()
            between.served.program.wait()
        between.served.__exit__()
    trace = read_trace(path_of("run.trace"))
    assert [reply is not None for _, reply in trace.exchanges()] == [True] * 7
    (capture,) = captures_of(bytes_in(path_of("run.pcap")))
    assert len(capture.pieces) == 14


def test_both_writers(path_of):
    """The model's own trace has the same calls and replies as that of between before it, and who ends connections."""
    options = "--trace", path_of("model.trace")
    with relayed("model", path_of, options=options) as between, Client(
        between.host, between.port, "c1", uid=500
    ) as client:
        client.null()
        one_round(client)
        client.raw([op.lookup("a"), b"\0\0\0\x63"])
    model, between_trace = read_trace(path_of("model.trace")), read_trace(path_of("run.trace"))
    assert (model.by, model.lease) == ("tools/model/serve.py", 90)
    assert list(map(without_places, model.lines)) == list(map(without_places, between_trace.lines))
    assert model.lines[-1].fields["event"] == "end" and "unread" in between_trace.lines[-3].fields


def without_places(line):
    """The fields of a line but for its time, addresses, and the callback's address, which between has changed."""
    fields = {
        name: value for name, value in line.fields.items() if name not in ("time", "client", "server", "fate", "length")
    }
    for step in fields.get("operations", []):
        step["words"] = [word for word in step["words"] if not word.startswith("r_addr=")]
    return fields


def test_model_sweeps(path_of):
    """What a sweep ends is a line of its own."""
    with OrderedServer("--trace", path_of("run.trace"), command=MODEL) as server:
        with Client(*server.address, "c1") as client:
            client.begin()
            server.advance(91)
    found = [it for it in read_trace(path_of("run.trace")).lines if it.event == "sweep"]
    assert [it.fields["words"] for it in found] == ["client 1 expires, seen at 0, now 91"]


# Files that can't be written.


@pytest.mark.parametrize("option", ["--trace", "--pcap"])
def test_files_of_between(option, path_of):
    """A file that can't be made is a wrong option; one that isn't whole is told at the end."""
    with Server(command=MODEL) as server:
        to = "--listen", "127.0.0.1:0", "--to", "%s:%d" % server.address
        path = path_of("no folder/file")
        ran = subprocess.run([*BETWEEN, *to, option, path], capture_output=True)
        assert ran.returncode == 2 and f"{path}: not written: No such file".encode() in ran.stderr
        if not os.path.exists("/dev/full"):
            return
        client = [
            sys.executable,
            os.path.join(TOP, "tools/send_rows"),
            "{host}",
            "{port}",
            os.path.join(TOP, "samples/two_owners.rows"),
        ]
        command = [*BETWEEN, *to, option, "/dev/full", "--", *client]
        ran = subprocess.run(command, capture_output=True, timeout=300)
    assert ran.returncode == 1 and ran.stderr.endswith(b"fault: /dev/full not written: No space left on device\n")
    assert b"1 rows: 0 failed" in ran.stdout


def test_files_of_the_model(path_of):
    command = [sys.executable, os.path.join(TOP, "tools/model/serve.py"), "--listen", "127.0.0.1:0", "--trace"]
    path = path_of("no folder/file")
    ran = subprocess.run([*command, path], capture_output=True, text=True)
    reason = f"{path}: No such file or directory (os error 2)\n"
    assert (ran.returncode, ran.stderr) == (1, f"{reason}fault: file not written\n")


# Captures.


def exchange_bytes(peer, records):
    """What is sent, and what comes, as bytes of the connection."""
    got = b""
    for record in records:
        peer.send(record)
        got += peer.receive()
    return b"".join(records), got


RECORDS = [
    call(1, NULL),
    compound(2, setclientid(b"a client", b"verifier")),
    compound(3, words(RENEW, 1, 1), uid=500),
    compound(4, *[words(24)] * 2, words(25) + bytes(16) + bytes(8) + words(5)),
]


@pytest.mark.parametrize("kind", KINDS)
def test_capture(kind, path_of):
    """The bytes of two connections, each in the order in which it came, with times between those of the test."""
    begun = time.time()
    with relayed(kind, path_of) as between:
        wanted = []
        for _ in range(2):
            with Peer(between.address) as peer:
                here = peer.socket.getsockname()
                wanted.append((here, *exchange_bytes(peer, RECORDS)))
        server = between.address
    captures = captures_of(bytes_in(path_of("run.pcap")))
    found = [(it.caller, it.sent_by(it.caller), it.sent_by(it.taker)) for it in captures]
    assert found == wanted and {it.taker for it in captures} == {server}
    assert {it.ended_by for it in captures} <= {it.caller for it in captures}
    times = [at for it in captures for _, _, at in it.pieces]
    assert begun - 1 < times[0] / 1e6 <= times[-1] / 1e6 < time.time() + 1 and times == sorted(times)


@pytest.mark.quick
@pytest.mark.parametrize("host", ["10.0.0.1", "::1", "fe80::1%eth0"])
def test_packets(host, path_of):
    """Long records, IPv6, a connection that the server begins, and bytes that come too late."""
    writer, ends = PcapWriter(path_of("run.pcap")), ((host, 40000), (host, 2049))
    data = random.Random(3).randbytes(100001)
    for is_callback in (False, True):
        place = Place(1, is_callback)
        writer.begin(place, *ends)
        writer.see_bytes(place, True, data)
        writer.see_bytes(place, False, data[:3])
        writer.see_bytes(place, True, data[3:])
        writer.end(place, "relay")
        writer.end(place, "client")
        writer.see_bytes(place, True, b"late")
    writer.see_bytes(Place(9, False), True, b"nobody's")
    plain = host.partition("%")[0]
    for is_callback, capture in enumerate(captures_of(bytes_in(path_of("run.pcap")))):
        client, server = (plain, 40000), (plain, 2049)
        assert (capture.caller, capture.taker) == ((server, client) if is_callback else (client, server))
        assert capture.sent_by(client) == data + data[3:] and capture.sent_by(server) == data[:3]
        assert capture.ended_by == server


@pytest.mark.skipif(shutil.which("tshark") is None, reason="tshark isn't there")
@pytest.mark.parametrize("kind", KINDS)
def test_tshark(kind, path_of):
    """tshark reads the operations, finds each call's reply, and nothing wrong with checksums or sequence numbers."""
    with relayed(kind, path_of) as between, Client(between.host, between.port, "c1") as client:
        one_round(client)
        client.disconnect()
        client.renew()
        port = between.port
    fields = "rpc.msgtyp", "rpc.xid", "nfs.main_opcode", "frame.number", "rpc.repframe"
    told = [line.split("\t") for line in tshark(path_of("run.pcap"), port, "nfs.opcode", *fields)]
    calls, replies = ([it for it in told if it[0] == kind_of_message] for kind_of_message in "01")
    xids = [int(call.xid, 16) for call, _ in read_trace(path_of("run.trace")).exchanges()]
    assert [int(it[1], 16) for it in calls] == xids == [int(it[1], 16) for it in replies]
    assert [int(it[2]) for it in calls] == [35, 36, 18, 20, 38, 30, 4, 30]
    assert [it[4] for it in replies] == [it[3] for it in calls]
    wrong = "tcp.checksum.status == 0 || ip.checksum.status == 0 || tcp.analysis.flags || _ws.malformed"
    assert tshark(path_of("run.pcap"), port, wrong, "frame.number") == []


def tshark(path, port, shown, *fields):
    """The fields of the frames that are shown."""
    options = ["-o", "tcp.check_checksum:TRUE", "-o", "ip.check_checksum:TRUE", "-d", f"tcp.port=={port},rpc"]
    words_of_fields = [word for name in fields for word in ("-e", name)]
    command = ["tshark", "-n", "-2", "-r", path, *options, "-Y", shown, "-T", "fields", *words_of_fields]
    ran = subprocess.run(command, capture_output=True, text=True, timeout=300)
    assert ran.returncode == 0, ran.stderr
    return ran.stdout.splitlines()
