"""The options of the program: each with its values, words that it doesn't take, `--help` and `--version`. The texts of
help are in files of this folder."""
import os
import re
import subprocess

import pytest

from dev.building.copies import version_here
from helpers.expecting_client import done
from nfs4tools.messages import (
    GETATTR,
    LEASE_TIME,
    NFS4ERR_STALE_CLIENTID,
    NFS4_OK,
    RENEW,
    SETCLIENTID_CONFIRM,
    confirmation,
    given,
    setclientid,
    words,
)
from nfs4tools.processes import PROGRAM, TOP
from program.program_runs import ROOT, SAMPLE, exchange, want

pytestmark = [pytest.mark.needs("nfs4state"), pytest.mark.quick]


def decline(message, usage, *arguments):
    """These words aren't taken, and this message says why."""
    text = f"error: {message}\n\n" + (f"Usage: {usage}\n\n" if usage else "") + "For more information, try '--help'."
    want(arguments, fault=text, status=2)


def test_lease_and_epoch():
    for options, lease in [([], 90), (["--lease", "1"], 1), (["--lease", "86400"], 86400), (["--lease=0090"], 90)]:
        has = words(GETATTR, 1, LEASE_TIME), words(GETATTR, NFS4_OK, 1, LEASE_TIME, 4, lease)
        want(["once", *options], *exchange(1, ROOT, has))
    coming = setclientid(bytes(range(1, 9)), b"c1")
    others = ["--lease", "7", "--tree", SAMPLE]
    for options, epoch in [([], 1), (["--epoch", "0"], 0), (["--epoch", "4294967295", *others], 4294967295)]:
        want(["once", *options], *exchange(1, (coming, given(epoch, 1, 1))))


def test_now():
    """At whatever moment the calls come, a client that was confirmed is live, and another isn't."""
    pairs = [
        (setclientid(bytes(range(1, 9)), b"c1"), given(1, 1, 1)),
        (confirmation(1, 1, 1), done(SETCLIENTID_CONFIRM)),
        (words(RENEW, 1, 1), done(RENEW)),
        (words(RENEW, 1, 2), done(RENEW, status=NFS4ERR_STALE_CLIENTID)),
    ]
    for options in [], ["--now", "0"], ["--now=1"], ["--now", "4294967296"], ["--now", "1099511627773"]:
        want(["once", *options], *exchange(1, *pairs))


def test_help():
    for name, arguments in (
        ("help", []),
        ("help_once", ["once"]),
        ("help_serve", ["serve"]),
        ("help_audit", ["audit"]),
    ):
        with open(os.path.join(TOP, f"tests/program/{name}.txt"), "rb") as file:
            text = file.read()
        for word in "--help", "-h":
            want([*arguments, word], output=text)


@pytest.mark.needs("rt")
def test_version():
    """It names its version, and claims no proof if it is of no release."""
    said = subprocess.run([PROGRAM, "--version"], stdout=subprocess.PIPE, text=True, check=True).stdout
    assert re.fullmatch(
        rf"nfs4state {re.escape(version_here())}(, of no release| \([0-9a-f]{{8}}\+?\), NOT proved)\n", said
    )
    want(["--version"], output=said.encode())
    decline("unexpected argument '--version' found", "nfs4state once [OPTIONS]", "once", "--version")


# What options take: the name of the value, and of a number its limits.
OPTIONS = {
    "--tree": ("FILE", None),
    "--lease": ("SECONDS", (1, 86400)),
    "--epoch": ("NUMBER", (0, 2**32 - 1)),
    "--now": ("SECONDS", (0, 2**40 - 3)),
    "--journal": ("FILE", None),
    "--listen": ("ADDR", None),
    "--connections": ("NUMBER", (1, 64)),
    "--memory": ("MIB", (1, 1048576)),
}


COMMON = ["--tree", "--lease", "--epoch", "--journal"]


@pytest.mark.parametrize(
    "command, names",
    [("once", [*COMMON, "--now"]), ("serve", [*COMMON, "--listen", "--connections", "--memory"])],
    ids=["once", "serve"],
)
def test_options(command, names):
    """Numbers outside their limits or in another spelling, and options given twice or without a value. None of these
    runs begins to serve."""
    usage = f"nfs4state {command} [OPTIONS]"
    for name in names:
        value_name, limits = OPTIONS[name]
        option = f"{name} <{value_name}>"
        if limits is not None:
            least, most = limits
            above = str(most + 1), str(2**64 + 1), str(2**32 if most < 2**32 else 2**64)
            for value in (*above, *["0"] * least, "ten", "+1", "-1", "-0", "0x10", "1 ", ""):
                reason = f"invalid value '{value}' for '{option}': not a number from {least} to {most}"
                decline(reason, usage, command, f"{name}={value}")
        decline(f"the argument '{option}' cannot be used multiple times", usage, command, name, "9", name, "9")
        decline(f"a value is required for '{option}' but none was supplied", None, command, name)


def test_words(path_of):
    """Options that aren't taken, an audit without a file, and other words."""
    once, alone = "nfs4state once [OPTIONS]", "nfs4state [COMMAND]"
    for name in OPTIONS:
        decline(f"unexpected argument '{name}' found", alone, name, "9")
    for command, other in ("once", "--connections"), ("once", "--memory"), ("serve", "--now"):
        for word in other, "--unknown", "file":
            decline(f"unexpected argument '{word}' found", f"nfs4state {command} [OPTIONS]", command, word)
    similar = "unexpected argument '--listen' found\n\n  tip: a similar argument exists: '--lease'"
    decline(similar, "nfs4state once --lease <SECONDS>", "once", "--listen", "127.0.0.1:0")
    decline("unexpected argument '-1' found", once, "once", "--epoch", "-1")
    audit = "nfs4state audit <FILE>"
    decline("the following required arguments were not provided:\n  <FILE>", audit, "audit")
    decline("unexpected argument 'more' found", audit, "audit", "file", "more")
    decline(
        "unexpected argument '--lease' found\n\n  tip: to pass '--lease' as a value, use '-- --lease'",
        audit,
        "audit",
        "--lease",
        "9",
    )
    decline("unrecognized subcommand 'help'", alone, "help")
    decline("unrecognized subcommand 'twice'", alone, "twice")
    want(["once", "--tree", b"\xff"], fault="error: a word isn't UTF-8", status=2)
    # Words come before the tree's file, and before the address.
    reason = "invalid value '0' for '--lease <SECONDS>': not a number from 1 to 86400"
    decline(reason, once, "once", "--tree", path_of("missing"), "--lease", "0")
    serve = "nfs4state serve [OPTIONS]"
    for flag in "--until-input-ends", "--orders":
        reason_of_flags = f"the argument '{flag}' cannot be used with '--until-killed'"
        decline(reason_of_flags, serve, "serve", flag, "--until-killed")
    for flag in "--until-input-ends", "--until-killed", "--orders":
        decline(f"the argument '{flag}' cannot be used multiple times", serve, "serve", flag, flag)
        decline(
            f"unexpected value '1' for '{flag}' found; no more were expected",
            f"nfs4state serve {flag}",
            "serve",
            f"{flag}=1",
        )
    decline(reason, serve, "serve", "--tree", path_of("missing"), "--listen", "nowhere", "--lease", "0")
