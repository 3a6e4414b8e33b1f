"""The words of a row's lines, as numbers and bytes."""
import re
from collections.abc import Iterator

from nfs4tools import wire
from nfs4tools.rows.errors import NO_END, NO_WORD, OPEN_QUOTE, TOO_LONG, Wrong
from nfs4tools.wire import Opnum, Status, opaque, u32, u64

# What may stand round a line, and round a word.
SPACES = " \t\r"
# The most bytes of a message.
MESSAGE_LIMIT = 1 << 20

# The words of the messages of ONC RPC that a row may name.
MESSAGE_WORDS = (
    "CALL",
    "REPLY",
    "MSG_ACCEPTED",
    "MSG_DENIED",
    "SUCCESS",
    "PROG_UNAVAIL",
    "PROG_MISMATCH",
    "PROC_UNAVAIL",
    "GARBAGE_ARGS",
    "SYSTEM_ERR",
    "RPC_MISMATCH",
    "AUTH_ERROR",
    "AUTH_BADCRED",
    "AUTH_NONE",
    "AUTH_SYS",
    "AUTH_SHORT",
    "RPCSEC_GSS",
    "NFS4_PROGRAM",
    "NFSPROC4_NULL",
    "NFSPROC4_COMPOUND",
)


def names() -> dict[str, int]:
    """The names of operations, statuses and messages with their numbers."""
    operations = {item.name: item.value for item in Opnum} | wire.OTHER_OPERATIONS
    named = {"NFS4_OK" if item.name == "OK" else f"NFS4ERR_{item.name}": item.value for item in Status}
    return {name: getattr(wire, name) for name in MESSAGE_WORDS} | operations | named


NAMES = names()


def split_word(line: str) -> tuple[str, str]:
    """A line up to its first space, and what follows that."""
    word, _, rest = line.partition(" ")
    return word, rest


def next_word(line: str) -> tuple[str, str] | None:
    """The first word of a line, of a text with its opening quote alone, and what follows it; or None where there is
    none before the end or a comment."""
    line = line.lstrip(SPACES)
    if line == "" or line.startswith("#"):
        return None
    if not line.startswith('"'):
        return split_word(line)
    text, quote, rest = line[1:].partition('"')
    if not quote:
        raise Wrong(OPEN_QUOTE)
    return f'"{text}', rest


def words_of(line: str) -> Iterator[str]:
    """The words up to one that begins with #."""
    while (found := next_word(line)) is not None:
        word, line = found
        yield word


def expect_end(line: str) -> None:
    """Nothing but a comment may follow on the line."""
    if next_word(line) is not None:
        raise Wrong(NO_END)


def decimal(text: str, limit: int, reason: str) -> int:
    """The number below the limit that these digits are."""
    digits = re.fullmatch("0*([0-9]{1,20})", text)
    if digits is None or int(digits[1]) >= limit:
        raise Wrong(reason)
    return int(digits[1])


def number(word: str) -> int:
    """The number that a word is: decimal, hexadecimal after `0x`, or a name of the protocol."""
    if word in NAMES:
        return NAMES[word]
    digits = re.fullmatch("0x0*([0-9a-fA-F]{1,8})", word)
    return int(digits[1], 16) if digits else decimal(word, 2**32, NO_WORD)


def bytes_of(word: str) -> bytes:
    if word.startswith('"'):
        return limited(opaque(word[1:].encode()))
    times, star, single = word.partition("*")
    if not star:
        return bytes_of_single(word)
    count, unit = number(times), bytes_of_single(single)
    if count * len(unit) > MESSAGE_LIMIT:
        raise Wrong(TOO_LONG)
    return count * unit


def bytes_of_single(word: str) -> bytes:
    if word.startswith("hex:"):
        if not re.fullmatch("([0-9a-fA-F]{2})*", word[4:]):
            raise Wrong(NO_WORD)
        return bytes.fromhex(word[4:])
    if word.startswith("u64:"):
        return u64(decimal(word[4:], 2**64, NO_WORD))
    return u32(number(word))


def limited(data: bytes) -> bytes:
    if len(data) > MESSAGE_LIMIT:
        raise Wrong(TOO_LONG)
    return data


def spelled(line: str) -> bytes:
    """The bytes of the words of a line."""
    return b"".join(bytes_of(word) for word in words_of(line))
