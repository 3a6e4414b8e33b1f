"""What `tools/between --help` says."""
import textwrap

from nfs4tools.between.vocabulary import ACCEPT_ERRORS, AUTH_ERRORS, Gone, JUDGED, MEANINGS, STAYING

USAGE = """%(prog)s --to 127.0.0.1:2049 --rule 'lose-reply LOCK 1' -- ./client {host} {port}
       %(prog)s --listen 127.0.0.1:20490 --to 127.0.0.1:2049 --plan faults.plan --seed 7
       %(prog)s --to 127.0.0.1:2049 --rule 'split 6 LOCK 1 of "b"' --report faults.xml -- ./client {host} {port}
"""

ABOUT = """Passes calls between clients and a server of NFSv4.0 over TCP, and makes faults as rules say.

It prints each fault, and what the client and the server made of it. It needs only the server's address, and the
seconds of the server's lease if they aren't 90.

It prints `listening on ADDR` on standard error, and goes on until COMMAND ends. {host} and {port} in COMMAND mean
that address. Without COMMAND it goes on until its input ends, or until SIGTERM or Ctrl-C. A plan has a rule on each
line, and comments after `#`. Rules of --rule come before the rules of the plan:

    FAULT OPERATION WHICH [of AIM] [with status STATUS]
                              as: lose-reply LOCK 3; hold 2 READ each 10; answer DELAY OPEN 1 in 4 of client "c1"

    FAULT     lose-call       the call is lost, and its connection is ended
              cut-call        half of the call is passed on, and its connection is ended
              lose-reply      the server has answered; the reply is lost, and the connection is ended
              cut-reply       the server has answered; half of the reply is given, and the connection is ended
              split N         the reply comes in N fragments, of a byte at least
              hold SECONDS    the reply comes so much later; other replies of its connection overtake it
              other-xid       the reply comes with the xid of no call, so that its call has no reply
              twice           the call is sent again after its reply; the client gets the second reply
              away SECONDS    the call is lost, all connections end, and new connections are closed, for so long
              answer STATUS   a status in the server's place, after the operations before it have run
              answer ERROR    an error of RPC in the server's place; nothing of the call has run
    OPERATION an operation of RFC 7531 that the call has; NULL; any: each call of the client that can be read; for
              calls to the client CB_NULL and CB_RECALL
    WHICH     3: the third such call; each: each of them; each 10: every tenth; 1 in 10: one of ten, by --seed
    AIM       "NAME"          OPEN and LOOKUP by this last name of a file, and operations by a filehandle or a stateid
                              that their replies gave
              connection N    calls on this connection; of CB_NULL and CB_RECALL it is a callback connection
              client "NAME"   the client whose SETCLIENTID has this id, once that has passed: operations by its client
                              ID and stateids. An operation that names no client is of the client that its connection
                              named before. A callback is of the client that is called back at its address
              owner "NAME"    operations of this open owner or lock owner, or by a stateid of it
    with status DENIED        for lose-reply, cut-reply, split, hold and other-xid: only replies count in which the
                              operation has this status. With `any` it is the status of the whole reply

In quotes a backslash stands before a quote, before a backslash, and before xNN for a byte. A rule counts the calls that
it is about, over all connections as they come. A call that comes again doesn't count, and meets no fault. Such a call
repeats a call whose reply the client didn't get, or that was answered in the server's place. Its bytes after the xid
are equal, or its only sequenced operation is. If several rules meet a call, the first is done. Each other rule is
done at the next call that it counts.

"""

BEHIND = """
Sections are those of RFC 7530. After these statuses and all others the sequence id is judged (9.1.7). An
operation can be answered the statuses that sections 13.2 and 13.3 have for it. A status in the server's place changes
nothing at the server: what it calls gone still stands there. If a call of another client meets that, a line says so.
CLOSE, LOCKU, DELEGRETURN and RELEASE_LOCKOWNER give something up, so after another operation's status they aren't
WRONG. The sequence id stays after an error of RPC.
"""

LINES = """
Calls and replies are passed on byte for byte, with two exceptions:

- the sequence ids of an owner whose answer in the server's place moved its id on, which is ahead of the server
- the address for callbacks in SETCLIENTID, if a rule names CB_NULL or CB_RECALL, or with --trace or --pcap: callbacks
  then come through here

The files of --trace and --pcap show the connections of the client, and those of callbacks. Each line and packet is
written at once. docs/JOURNAL.md, "A trace", has the fields. The TCP headers of the capture are invented.

On standard output, N is the number of a fault, and C the number of a connection. A connection that the server makes
is `callback connection C`. CALL is the operation in the words of `serve --trace`. STATUS is the status of the whole
reply, or `answered` if the reply has none, as the reply to NULL:

    N: RULE: connection C, CALL: the call is lost; the connection is ended
    N: RULE: connection C, CALL: half of the call is passed on; the connection is ended
    N: RULE: connection C, CALL: the call is lost; all connections are ended, for S s
    N: RULE: connection C, CALL -> STATUS: the reply is lost; the connection is ended
    N: RULE: connection C, CALL -> STATUS: half of the reply is given; the connection is ended
    N: RULE: connection C, CALL -> STATUS: the reply is given in P fragments
    N: RULE: connection C, CALL -> STATUS: the reply is held for S s
    N: RULE: connection C, CALL -> STATUS: the reply is given with xid X in place of X
    N: RULE: connection C, CALL -> STATUS: the call is sent again
    N: RULE: connection C, CALL -> STATUS: answered in the server's place
    RULE: connection C, CALL -> STATUS: passed on unchanged; the fault waits  not done: an operation before it isn't OK

If other calls of a connection are under way when it is ended, the line ends with `, with K other calls under way`.
Then comes what came of the fault. X is an xid in hexadecimal:

    N: comes again T s later, on connection C, with the same xid X
    N: comes again T s later, on connection C, with xid X in place of X
    N: the same call comes T s later, ..                    after an answer in the server's place
    N: CALL comes again T s later, on connection C          another call of a connection that the client ended
    N: answered STATUS, the first answer                    the server didn't have the call before
    N: answered STATUS; the server had the call before, and its first answer isn't known
    N: answered STATUS, the stored reply                    to a sequenced operation, by the server or in its place
    WRONG N: answered STATUS, another answer than STATUS (RFC 7530, section 9.1.8)
    N: answered STATUS, as for a forgotten owner            BAD_STATEID to a CLOSE that came more than a lease ago (RFC
                                                            7530, section 9.1.10)
    N: answered STATUS, without its OPERATION               the operation before it isn't OK now, or wasn't at first
    N: answered STATUS, the same answer                     to a call without a sequenced operation, or with several
    N: answered STATUS, another answer
    WRONG N: another request comes instead: CALL, T s later, on connection C (RFC 7530, section 9.1.7)
    N: after STATUS its owner goes on with CALL, T s later, on connection C
    WRONG N: after STATUS the sequence id moves on: CALL, T s later, on connection C (RFC 7530, section 9.1.7)
    WRONG N: after STATUS the sequence id doesn't move on: CALL, T s later, on connection C (RFC 7530, section 9.1.7)
                                                            or: doesn't move on by one
    WRONG N: its OPERATION wasn't run, but the sequence id moves on: CALL, T s later, on connection C (RFC 7530,
             section 9.1.7)                                 in one line
    N: answered NFS4ERR_BAD_SEQID in the server's place     to another request with the id that has moved on
    N: after STATUS its client sends CALL, T s later, on connection C          it recovers, or asks whether it has to
    WRONG N: after STATUS its stateid is used again: CALL, T s later, on connection C (RFC 7530, section ..)
    WRONG N: after STATUS its client ID is used again: CALL, T s later, on connection C (RFC 7530, section ..)
    WRONG N: after STATUS SETCLIENTID has another verifier, though the lease goes on: CALL, T s later, on connection C
             (RFC 7530, section 16.28.5)                    in one line
    N: connection C, CALL -> STATUS: meets what STATUS calls gone; it stands at the server        by another client
    WRONG N: comes again on connection C, which is still open (RFC 7530, section 3.1.1)
    WRONG connection C, CALL: comes again on its connection, which is still open (RFC 7530, section 3.1.1)

What a client does to a connection that a fault has left open:

    N: connection C is ended by the client, T s later, with K calls under way
    N: the client says nothing more since                   at the end: a call is under way, or for a second after split

With --strict the status is 1 after the second line. It is so after the first line, and if the call comes again, if the
fault is `split`. A client that ends its connection within a second after a whole reply, with no call under way, has
no line: so ends a client that has no more to ask. After a long `hold` a client may end its connection. The end of a
connection is told before a call that comes after it on another connection.

These lines are about connections, which are closed then:

    connection C: closed, because its client sends a record of more than 16777216 bytes      or its server
    a connection is closed, because 256 are open
    a connection is closed, because ADDR can't be reached

These lines come at the end:

    the command ended with status STATUS
    WRONG N: never comes again: CALL                        a sequenced call that was lost; any other without WRONG
    never met: RULE (K such calls)
    no call passed
    between: K connections, K calls, K faults, K wrong      callbacks' connections and calls count, too

The status is:

- 0 if nothing is WRONG, each rule was met, a call passed, and COMMAND ended with status 0
- 1 if something is WRONG, a rule was never met, or COMMAND failed; if no call passed, without --no-calls; and with
  --strict as above
- 2 if an option or a rule is wrong, or it can't listen at the address

A report of --report has each rule, how often it was met, and each fault with its outcomes (docs/between.schema.json).
In JUnit each rule is a test case."""


def wrapped(head: str, text: str) -> str:
    """A row whose last column is wrapped."""
    return textwrap.fill(text, 120, initial_indent=head, subsequent_indent=" " * len(head), break_on_hyphens=False)


def table() -> str:
    """The statuses in the server's place after which something is judged; and the errors of RPC."""
    rows = [
        "After a status in the server's place a client is judged:",
        "",
        "    STATUS          SEQUENCE ID      WRONG IF",
    ]
    for name in JUDGED:
        meaning = MEANINGS.get(name)
        place = "stays" if name in STAYING else "moves on"
        if meaning is None:
            rows.append(f"    {name:<15} {place:<15}  the sequence id does the other (9.1.7)")
        else:
            place = "-" if meaning.gone is Gone.NOTHING else place
            rows.append(wrapped(f"    {name:<15} {place:<15}  ", f"{meaning.wrong} ({meaning.section})"))
    errors = wrapped("    ERROR           ", ", ".join([*ACCEPT_ERRORS, "RPC_MISMATCH", *AUTH_ERRORS]))
    return "\n".join([*rows, "", errors, ""])


HELP = ABOUT + table() + BEHIND + LINES
