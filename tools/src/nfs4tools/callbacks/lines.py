"""The callbacks that tools/listen_callbacks hears, as lines; and the delegations that it gives back."""
import argparse
import threading
from datetime import datetime

from nfs4tools.callbacks.listener import CallbackCall, Heard, RecallArguments, accept, keep_silent
from nfs4tools.client import operations
from nfs4tools.client.connection import Connection
from nfs4tools.client.replies import ClientError, status_name
from nfs4tools.journal.words import number_word, opaque_words, principal_words
from nfs4tools.model.tcp import address_text
from nfs4tools.wire import AUTH_SYS, Stateid

# Whose turn it is to print.
turn = threading.Lock()


def read_address(word: str) -> tuple[str, int]:
    host, _, port = word.rpartition(":")
    if host == "" or not (port.isascii() and port.isdecimal()) or int(port) > 65535:
        raise argparse.ArgumentTypeError(f"{word!r} isn't a host and a port")
    return host, int(port)


# The lines.


def say(line: str) -> None:
    with turn:
        print(line, flush=True)


def say_now(line: str) -> None:
    say(f"{datetime.now().time().isoformat('milliseconds')} {line}")


def line_of(heard: Heard) -> str:
    peer, call = address_text(heard.peer), heard.call
    if call is None:
        return f"{peer}: a record of {len(heard.data)} bytes that is no callback: {heard.data[:40].hex(' ', 4)}"
    caller = f"{peer}, xid {call.xid}, program {number_word(call.program)}, {principal_words(call.principal)}"
    return f"{caller}: {'CB_NULL' if call.recall is None else recall_words(call.recall)}"


def recall_words(recall: RecallArguments) -> str:
    truncate = ", truncate" if recall.truncate else ""
    return (
        f"CB_RECALL {stateid_words(recall.stateid)}, callback_ident {number_word(recall.ident)}, "
        f"filehandle {' '.join(opaque_words(recall.filehandle))}{truncate}"
    )


def stateid_words(stateid: Stateid) -> str:
    return " ".join(map(number_word, stateid))


# The calls.


class Answering:
    """What is done with a record that came, by the options."""

    def __init__(self, is_silent: bool, server: tuple[str, int] | None) -> None:
        self.answer, self.server = keep_silent if is_silent else accept, server

    def __call__(self, heard: Heard) -> None:
        say_now(line_of(heard))
        self.answer(heard)
        call = heard.call
        if self.server is not None and call is not None and call.recall is not None:
            say_now(f"DELEGRETURN {stateid_words(call.recall.stateid)} -> {give_back(call, call.recall, self.server)}")


def give_back(call: CallbackCall, recall: RecallArguments, server: tuple[str, int]) -> str:
    """Gives the delegation back that this call recalls: what came of it, in words."""
    flavor, uid = call.principal
    with Connection(server, uid if flavor == AUTH_SYS else None) as connection:
        try:
            reply = connection.run([operations.putfh(recall.filehandle), operations.delegreturn(recall.stateid)])
        except ClientError as error:
            return str(error)
    return status_name(reply.status)
