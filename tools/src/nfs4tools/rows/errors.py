"""Why a line or a file of rows can't be read."""

# Why a line can't be read.
NO_ROW = "no row has begun: a line `row NAME` comes first"
NO_MESSAGE = "no message has begun: a line `send ..` or `want ..` comes first"
NO_WANT = "the row wants nothing: write `want nothing` if no reply comes"
OPEN_QUOTE = "a text has no closing quote"
NO_WORD = "a word is no number, no name of the protocol, no `hex:`, no `u64:` and no `N*WORD`"
TOO_LONG = "a message above 1,048,576 bytes"
NO_FORM = "no message: `compound`, `null`, `arguments`, `results`, `record`, `bytes` or `nothing`"
NO_XID = "a message has no xid, or a number that is none"
NO_CREDENTIAL = "after the xid of a call only `credential FLAVOR WORDS` can follow"
NO_END = "the line goes on after its message"
NO_NUMBER = "a lease is 1 to 86,400 seconds, an epoch below 2^32, a moment below 2^40 - 2"
NO_SWEEP = (
    "no sweep: `sweep SECONDS expired COUNT kept COUNT`, and after it, if need be, `revoked COUNT`, and then "
    "`forgotten COUNT`"
)
NO_MARK = "no mark of a path: `mark CLIENT up` or `mark CLIENT down`, and then `done` or `not live`"
NO_REVOCATION = "no revocation: `revoke SECONDS none` or `revoke SECONDS state NUMBER`"
NO_FORGETTING = 'no forgetting: `forget SECONDS none` or `forget SECONDS owner CLIENT "NAME"`'
NO_TAKE = "no recall that is taken: `take record` with its words, of which the first is its xid, or `take nothing`"
NO_PENDING = "no number of recalls: `pending COUNT`"
NO_PROBE = "no client to be tried: `probe CLIENT none` or `probe CLIENT client NUMBER`"
NO_FAULT = "no fault of a connection"
NO_SECTIONS = "no sections: `sections RFC NUMBER, SECTION, SECTION`, and after a semicolon those of another RFC"


class Wrong(Exception):
    """Why a line can't be read."""


class BadLine(Exception):
    """A line that can't be read: its file, its number and why. `text` is the line."""

    def __init__(self, path: str, line: int, reason: Wrong, text: str) -> None:
        super().__init__(f"{path}:{line}: {reason}")
        self.text = text


# Why a file can't be read.
UNREAD = (BadLine, OSError, UnicodeDecodeError)


def refusal(path: str, error: Exception) -> str:
    """What is to be said of a file that can't be read: also the line, where one is at fault."""
    if isinstance(error, BadLine):
        return f"{error}\n    {error.text}"
    return f"{path}: {error.strerror if isinstance(error, OSError) else error}"
