"""The options, rules, statuses and ends of `tools/between`."""
import signal
import socket
import sys
from functools import partial


from helpers.between_runs import (
    Between,
    FAULTS,
    between_ends,
    in_turn,
)
from helpers.expecting_client import expect
from nfs4tools.messages import (
    NULL,
    call,
    reply,
)
from nfs4tools.processes import Peer

NO_RULES = [
    "drop LOCK 1",
    "hold x READ 1",
    "answer STALE_STATEID OPEN 1",
    "lose-call OPENS 1",
    "twice OPEN",
    "split 0 OPEN 1",
    "answer GRACE CLOSE 1",
    "twice OPEN each 0",
    "twice OPEN 0",
    "twice OPEN -1",
    "twice OPEN 1 in 0",
    "twice OPEN 2 in 3",
    "twice OPEN every 3",
    "hold -1 READ 1",
    "hold nan READ 1",
    "hold inf READ 1",
    "split 2.5 READ 1",
    "split READ 1",
    "away READ 1",
    "answer READ 1",
    "lose-call 3 READ 1",
    "twice OPEN 1 2",
    "lose-reply",
    "answer DELAY any 1",
    "answer RESOURCE NULL 1",
    "answer RESOURCE PUTFH 1",
    "answer RESOURCE PUTROOTFH 1",
    "answer DELAY RENEW 1",
    "answer GRACE CB_RECALL 1",
    "answer DELAY CB_NULL 1",
    "answer 10008 OPEN 1",
    "Twice OPEN 1",
    "twice open 1",
    "answer GRACE ACCESS 1",
    "twice CB_GETATTR 1",
    "twice ILLEGAL 1",
]


CHANGES = "OPEN LOCK LOCKT LOCKU READ WRITE SETATTR REMOVE RENAME".split()


DELAYED = (
    "ACCESS CLOSE COMMIT CREATE DELEGRETURN GETATTR LINK LOOKUP OPEN_DOWNGRADE PUTFH PUTROOTFH READDIR "
    "SETCLIENTID SETCLIENTID_CONFIRM CB_RECALL"
).split()


FREELY = (
    "ACCESS CLOSE COMMIT CREATE DELEGPURGE DELEGRETURN GETATTR GETFH LINK LOOKUP LOOKUPP NVERIFY OPENATTR "
    "OPEN_CONFIRM OPEN_DOWNGRADE READDIR READLINK RENEW RESTOREFH SAVEFH SECINFO SETCLIENTID SETCLIENTID_CONFIRM "
    "VERIFY RELEASE_LOCKOWNER"
).split()


def refuse(*words):
    status, output, errors = between_ends(*words)
    expect(f"the status of {words}", status, 2)
    expect(
        f"{words}: standard output, and whether it says why",
        (output, bool(errors), "Traceback" in errors),
        ("", True, False),
    )


def test_refused_words(model_server, tmp_path):
    """What is no rule, plan, option or address has status 2."""
    to, plan = ["--to", "%s:%d" % model_server], str(tmp_path / "plan")
    (tmp_path / "plan").write_text("# A plan.\n\nlose-reply READ 1 # The first.\ndrop READ 1\n")
    tasks = [partial(refuse, *to, "--rule", rule) for rule in NO_RULES]
    tasks += [
        partial(refuse, *words)
        for words in (
            [],
            ["--to", "nowhere"],
            ["--to", "127.0.0.1:x"],
            ["--to", "127.0.0.1:99999"],
            [*to, "--plan", plan],
            [*to, "--plan", plan + ".none"],
            [*to, "--seed", "x"],
            [*to, "--listen", "%s:%d" % model_server],
            [*to, "--listen", "nowhere"],
            [*to, "--no-such-option"],
        )
    ]
    in_turn(tasks)


def test_rules(model_server, tmp_path):
    """All that may be answered is a rule, and each such rule is told as never met."""
    lines = []
    for status, operations in (("GRACE", CHANGES), ("DELAY", CHANGES + DELAYED), ("RESOURCE", CHANGES + FREELY)):
        lines += [f"answer {status} {operation} 1" for operation in operations]
    lines += [
        f"{fault} {operation} each 2"
        for fault in (*FAULTS, "away 0.5")
        for operation in ("any", "NULL", "CB_NULL", "CB_RECALL", "OPEN")
    ]
    (tmp_path / "plan").write_text("# A plan.\n\n" + "".join(f"  {line}  # So.\n" for line in lines))
    words = ["--listen", "127.0.0.1:0", "--to", "%s:%d" % model_server, "--plan", tmp_path / "plan"]
    status, output, errors = between_ends(*words)
    wanted = [f"never met: {line} (0 such calls)" for line in lines] + ["no call passed"]
    expect(f"what is told of rules that are never met\n{errors}", (status, output.splitlines()[:-1]), (1, wanted))


def test_commands(server):
    """It ends with its command, whose words have its address, and fails where that does."""
    to = ["--listen", "127.0.0.1:0", "--no-calls", "--to", "%s:%d" % server]
    code = "import socket, sys; socket.create_connection((sys.argv[1], int(sys.argv[2]))); sys.exit(int(sys.argv[3]))"
    for number, wanted, rules in (("0", 0, []), ("3", 1, []), ("0", 1, ["--rule", "twice READ 1"])):
        status, output, errors = between_ends(*to, *rules, "--", sys.executable, "-c", code, "{host}", "{port}", number)
        expect(f"the status behind {output}{errors}", status, wanted)
        expect("the line of the command", f"the command ended with status {number}\n" in output, True)
        expect("the counts", "\nbetween: 1 connections, 0 calls, 0 faults, 0 wrong\n" in output, True)


def test_ends(server):
    """Signals end it in order, as the end of its input does, also with connections open."""
    for number in signal.SIGTERM, signal.SIGINT, None:
        with Between(server, "lose-reply NULL 2") as between, Peer(between.address) as peer:
            peer.send(call(1, NULL))
            expect("NULL", peer.receive(), reply(1))
            if number is not None:
                between.served.program.send_signal(number)
                between.wait()
        between.expect_told(
            1,
            told=[
                "^never met: lose-reply NULL 2 \\(1 such calls\\)$",
                "^between: 1 connections, 1 calls, 0 faults, 0 wrong$",
            ],
        )
        with socket.socket() as late:
            expect("a connection behind its end", late.connect_ex(between.address) != 0, True)
