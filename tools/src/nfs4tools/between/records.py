"""Records on a connection (RFC 5531, section 11): read whole, and written in fragments."""
import socket
from collections.abc import Iterable, Sequence
from typing import NamedTuple

from nfs4tools.wire import u32

RECORD_LIMIT = 16 << 20
PIECE = 1 << 20


class Record(NamedTuple):
    """A record without headers, and the sizes of the fragments in which it came."""

    body: bytes
    sizes: Sequence[int]


class Ends(Exception):
    """A connection ends; the argument is what came of a record before."""


class TooLong(Exception):
    """A record is too long."""


def take(stream: socket.socket, count: int) -> bytes:
    """The next so many bytes, or what there is before the end."""
    data = bytearray()
    while len(data) < count:
        more = stream.recv(min(count - len(data), PIECE))
        if not more:
            break
        data += more
    return bytes(data)


def next_record(stream: socket.socket) -> Record:
    """The next record; or Ends, or TooLong."""
    body = bytearray()
    sizes: list[int] = []
    while True:
        header = take(stream, 4)
        length = int.from_bytes(header, "big") & 0x7FFFFFFF
        if len(header) == 4 and (len(body) + length > RECORD_LIMIT or len(sizes) > RECORD_LIMIT // 4):
            raise TooLong
        part = take(stream, length) if len(header) == 4 else b""
        if len(header) < 4 or len(part) < length:
            raise Ends(fragments(body, sizes) + header + part)
        body += part
        sizes.append(length)
        if header[0] >> 7:
            return Record(bytes(body), sizes)


def fragments(body: bytes, sizes: Iterable[int]) -> bytes:
    """Fragments of these sizes, none of which is the last."""
    data, at = bytearray(), 0
    for size in sizes:
        part = body[at : at + size]
        data += u32(len(part)) + part
        at += size
    return bytes(data)


def framed(body: bytes, sizes: Sequence[int] = (0,)) -> bytes:
    """A record in fragments of these sizes, of which the last has what is left."""
    rest = body[sum(sizes[:-1]) :]
    return fragments(body, sizes[:-1]) + u32(0x80000000 + len(rest)) + rest


def pieces_of(body: bytes, number: int) -> list[bytes]:
    """The fragments of a record in so many pieces, or one for each byte."""
    number = max(1, min(number, len(body)))
    places = [place * len(body) // number for place in range(number + 1)]
    parts = [body[begin:end] for begin, end in zip(places, places[1:])]
    return [u32(len(part)) + part for part in parts[:-1]] + [u32(0x80000000 + len(parts[-1])) + parts[-1]]
