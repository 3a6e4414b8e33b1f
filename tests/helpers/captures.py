"""A reader of captures that has nothing in common with what writes them: it takes the packets of a file apart, wants each
checksum and each sequence number to be right, and puts the bytes of connections together."""
from dataclasses import dataclass, field
from ipaddress import ip_address

from helpers.expecting_client import Wrong, expect

End = tuple[str, int]
FIN, SYN, ACK = 1, 2, 16


@dataclass
class Capture:
    """A connection: who began and who took it, who ended it first, and the pieces of bytes in their order, each with who
    sent it and when, in microseconds."""

    caller: End
    taker: End
    pieces: list[tuple[End, bytes, int]] = field(default_factory=list)
    ended_by: End | None = None
    next: dict[End, int] = field(default_factory=dict)

    def sent_by(self, end: End) -> bytes:
        return b"".join(data for sender, data, _ in self.pieces if sender == end)


def number(data: bytes, at: int, count: int, order: str = "big") -> int:
    return sum(byte << 8 * place for place, byte in enumerate(data[at : at + count][:: 1 if order == "little" else -1]))


def is_whole_sum(data: bytes) -> bool:
    """Whether the words of 16 bits, with their checksum, have the sum of ones (RFC 1071)."""
    total = sum(number(data + b"\0", at, 2) for at in range(0, len(data), 2))
    while total > 0xFFFF:
        total = (total & 0xFFFF) + (total >> 16)
    return total == 0xFFFF


def packets_of(data: bytes) -> list[tuple[int, bytes]]:
    """The times and bytes of the packets of a file, which ends behind a packet."""
    order = {b"\xa1\xb2\xc3\xd4": "big", b"\xd4\xc3\xb2\xa1": "little"}[data[:4]]
    expect("the version", (number(data, 4, 2, order), number(data, 6, 2, order)), (2, 4))
    expect("the link type", number(data, 20, 4, order), 101)
    found, at = [], 24
    while at < len(data):
        seconds, micros, kept, length = (number(data, at + 4 * place, 4, order) for place in range(4))
        expect("what is kept of a packet", (kept, at + 16 + kept <= len(data)), (length, True))
        found.append((seconds * 1000000 + micros, data[at + 16 : at + 16 + kept]))
        at += 16 + kept
    return found


def segment_of(packet: bytes) -> tuple[End, End, bytes]:
    """Who sends a packet, who gets it, and its segment of TCP."""
    if packet[0] >> 4 == 4:
        expect("the IPv4 header", (packet[0] & 15, number(packet, 2, 2), packet[9]), (5, len(packet), 6))
        expect("the checksum of the header", is_whole_sum(packet[:20]), True)
        addresses, segment = packet[12:20], packet[20:]
    else:
        expect("the IPv6 header", (packet[0] >> 4, number(packet, 4, 2), packet[6]), (6, len(packet) - 40, 6))
        addresses, segment = packet[8:40], packet[40:]
    pseudo = addresses + len(segment).to_bytes(4, "big") + b"\0\0\0\6"
    expect("the checksum of a segment", is_whole_sum(pseudo + segment), True)
    half = len(addresses) // 2
    source, target = (str(ip_address(addresses[at : at + half])) for at in (0, half))
    return (source, number(segment, 0, 2)), (target, number(segment, 2, 2)), segment


def captures_of(data: bytes) -> list[Capture]:
    """The connections of a file, in the order in which they began."""
    found: list[Capture] = []
    for time, packet in packets_of(data):
        sender, other, segment = segment_of(packet)
        if segment[13] & (SYN | ACK) == SYN:
            found.append(Capture(sender, other))
        capture = next((it for it in reversed(found) if {it.caller, it.taker} == {sender, other}), None)
        if capture is None:
            raise Wrong(f"{sender} sends to {other} without SYN")
        take(capture, sender, other, segment, time)
    return found


def take(capture: Capture, sender: End, other: End, segment: bytes, time: int) -> None:
    """A segment continues what its sender has sent, and acknowledges all that came."""
    flags, rest = segment[13], segment[4 * (segment[12] >> 4) :]
    expect("the sequence number", number(segment, 4, 4), capture.next.get(sender, number(segment, 4, 4)))
    if flags & ACK:
        expect("what is acknowledged", number(segment, 8, 4), capture.next.get(other))
    expect("a SYN at the beginning alone", bool(flags & SYN), sender not in capture.next)
    capture.next[sender] = (number(segment, 4, 4) + len(rest) + bool(flags & (SYN | FIN))) % 2**32
    if rest:
        expect("no bytes behind the end", capture.ended_by, None)
        capture.pieces.append((sender, rest, time))
    if flags & FIN and capture.ended_by is None:
        capture.ended_by = sender
