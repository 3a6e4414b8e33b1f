"""Sends rows to a server over TCP, one record at a time, and compares the replies.

send_rows HOST PORT FOLDER|FILE.rows..

A row may fail if it needs a server that has just been started, with the row's tree, lease and epoch.

send_rows --names HOST PORT FOLDER|FILE.rows..

The server may be any server, and may run already. The first answer that has a server's choice binds it, and the rows
use it from then on: clientids, confirm verifiers, stateids, filehandles, and attributes such as fileid. The ids of a
row's clients end with one of 32 words of this run, which rows take in turn. At a row's end its clients restart, so
that they lose what they have. Rows that need a server that has just been started are left out.

The server needs the files a (`hello`), b and d/c, below --path. If --path isn't the root, PUTFH with its filehandle
takes the place of PUTROOTFH. With --uid, calls without a credential have a credential of AUTH_SYS with this uid.

send_rows --serve COMMAND FOLDER|FILE.rows..

Each row gets a server of its own. COMMAND starts it, with `--listen`, `--connections`, `--lease`, `--epoch` and
`--tree` as 'crates/nfs4state/out/nfs4state serve' takes them. The server says on standard error on which port it
listens. It has to end by itself when all connections of the row have ended, with the fault that the row names. If a
row wants its tree refused, it sends nothing: the server has to end with this fault before it listens.

    --portable    only rows with this mark: every server of NFSv4.0 that takes AUTH_NONE should pass them
    --only NAME   only rows of this name; it may be given several times
    --known FILE  rows that are known to differ, and don't count as failures: a line `FILE.rows: NAME` for each, and
                  below it lines that begin with blanks and say why; # begins a comment
    --patience SECONDS  how long a reply may take (20)
    --tap FILE, --junit FILE  also write what came of each row, as TAP or as JUnit

Each connection of a row is a connection of its own. If the row wants a reply to a record, the next record is sent
after the reply. A record without a reply gets a quarter of a second. With --serve each connection is read to its end
instead.

Rows with orders, such as sweeps of leases, are left out, because no call asks for these. The moments of a row can't
be sent, but they show in no reply without a sweep. If a row fails, its sections of RFCs are printed, its rule, and
the first difference in words. Without --names the words of the reply are printed, too."""
import signal
import sys

from nfs4tools.rows.errors import UNREAD
from nfs4tools.rows.reports import Unread
from nfs4tools.send.exchange import NoReply
from nfs4tools.send.names import NoSite
from nfs4tools.send.servers import read_options, report, run


def main() -> int:
    given, host, port, files = read_options(__doc__)
    # Where this is ended, so are the servers.
    signal.signal(signal.SIGTERM, lambda *_: sys.exit(1))
    try:
        outcomes = run(given, host, port, files)
    except ConnectionRefusedError:
        sys.exit(f"send_rows: nothing listens on {host} port {port}")
    except (*UNREAD, NoSite, NoReply, Unread) as error:
        sys.exit(f"send_rows: {error}")
    return report(given, outcomes)
