"""Takes the callbacks of an NFSv4.0 server, answers each OK, and prints each as a line.

The first line has the address, with the r_netid and the r_addr that a client gives to the server in SETCLIENTID. The
cb_program and the callback_ident may be any. A line for a call has:

- the time, the address of the peer, the xid, the program and the credential
- CB_NULL, or CB_RECALL with the delegation's stateid: its seqid, and the three words of its other
- for CB_RECALL also the callback_ident, and the file's handle: its length and its words

With --silent no call is answered. With --return a CB_RECALL is answered OK, and then the delegation is returned. For
that it connects to the server at HOST:PORT, and sends PUTFH and DELEGRETURN with the credential of the recall. The
status of the answer is a line, too.

It goes on until a signal ends it, for example Ctrl-C. If it can't listen at the address, the status is 1."""
import argparse
import sys
import threading

from nfs4tools.callbacks.lines import Answering, read_address, say
from nfs4tools.callbacks.listener import Listener, universal_address
from nfs4tools.model.tcp import address_text


def read_options() -> argparse.Namespace:
    parser = argparse.ArgumentParser(description=__doc__, formatter_class=argparse.RawDescriptionHelpFormatter)
    ways = parser.add_mutually_exclusive_group()
    ways.add_argument("--silent", action="store_true", help="answer nothing")
    ways.add_argument(
        "--return",
        dest="server",
        metavar="HOST:PORT",
        type=read_address,
        help="give each delegation back that is recalled, to this server",
    )
    parser.add_argument(
        "address",
        metavar="ADDRESS",
        nargs="?",
        type=read_address,
        default="127.0.0.1:0",
        help="an IPv4 address or a name, and a port, of which 0 is any that is free (%(default)s)",
    )
    return parser.parse_args()


def main() -> None:
    given = read_options()
    try:
        listener = Listener(Answering(given.silent, given.server), given.address)
    except OSError as error:
        sys.exit(f"listen_callbacks: {address_text(given.address)}: {error.strerror}")
    say(f"listening on {address_text(listener.address)}: r_netid tcp, r_addr {universal_address(listener.address)}")
    try:
        threading.Event().wait()
    except KeyboardInterrupt:
        sys.exit(130)
