"""A capture of what passes, as tshark reads it: the bytes as they passed, in IP and TCP headers that are invented. The
file is pcap's first form (draft-ietf-opsawg-pcap), of raw IP packets; nobody has to be root for it."""
import struct
import threading
from dataclasses import dataclass
from ipaddress import ip_address

from nfs4tools.trace.watching import Address, Place, Watcher
from nfs4tools.trace.writer import Clock, File

# The first word of a file with microseconds, the version, and the link type of raw IP packets.
MAGIC, MAJOR, MINOR, LINKTYPE_RAW, SNAPLEN = 0xA1B2C3D4, 2, 4, 101, 65535
# The most bytes of a segment.
SEGMENT = 32768
FIN, SYN, PSH, ACK = 1, 2, 8, 16
WINDOW, HOPS, TCP = 65535, 64, 6
# The first sequence numbers of both sides.
FIRST = 1000
IPV4, IPV6 = 4, 6


@dataclass
class Side:
    """An end of a connection: its address, and the sequence number of its next byte."""

    host: str
    port: int
    next: int = FIRST

    def advance(self, count: int) -> None:
        self.next = (self.next + count) % 2**32


@dataclass
class Flow:
    """A connection, and whether it has ended."""

    client: Side
    server: Side
    is_over: bool = False

    def sides(self, is_from_client: bool) -> tuple[Side, Side]:
        """Who sends, and who gets it."""
        return (self.client, self.server) if is_from_client else (self.server, self.client)


class PcapWriter(Watcher):
    """Writes packets to a file, each at once, so that a run that is killed leaves all whole packets."""

    def __init__(self, path: str) -> None:
        self.file, self.clock, self.lock = File(path), Clock(), threading.Lock()
        self.flows: dict[Place, Flow] = {}
        self.packets = 0
        self.file.write(struct.pack("<IHHiIII", MAGIC, MAJOR, MINOR, 0, 0, SNAPLEN, LINKTYPE_RAW))

    def begin(self, place: Place, client: Address, server: Address) -> None:
        with self.lock:
            flow = Flow(Side(*client[:2]), Side(*server[:2]))
            self.flows[place] = flow
            caller, other = flow.sides(not place.is_callback)
            self.write(caller, other, SYN)
            self.write(other, caller, SYN | ACK)
            self.write(caller, other, ACK)

    def see_bytes(self, place: Place, is_from_client: bool, data: bytes) -> None:
        with self.lock:
            flow = self.flows.get(place)
            if flow is None or flow.is_over:
                return
            sender, other = flow.sides(is_from_client)
            for at in range(0, len(data), SEGMENT):
                self.write(sender, other, PSH | ACK, data[at : at + SEGMENT])

    def end(self, place: Place, who: str) -> None:
        with self.lock:
            flow = self.flows.get(place)
            if flow is None or flow.is_over:
                return
            flow.is_over = True
            sender, other = flow.sides(who == "client")
            self.write(sender, other, FIN | ACK)
            self.write(other, sender, FIN | ACK)
            self.write(sender, other, ACK)

    def write(self, sender: Side, other: Side, flags: int, data: bytes = b"") -> None:
        """A packet. A SYN and a FIN count as a byte each."""
        acknowledged = other.next if flags & ACK else 0
        head = struct.pack(
            ">HHIIBBHHH", sender.port, other.port, sender.next, acknowledged, 5 << 4, flags, WINDOW, 0, 0
        )
        packet = packet_of(sender.host, other.host, head + data, self.packets)
        now = self.clock.now()
        self.file.write(struct.pack("<IIII", now // 1000000, now % 1000000, len(packet), len(packet)) + packet)
        self.fault = self.file.fault
        sender.advance(len(data) + bool(flags & (SYN | FIN)))
        self.packets += 1


def packet_of(source: str, target: str, segment: bytes, number: int) -> bytes:
    """An IP packet with a TCP segment, whose checksum is put in."""
    ends = [ip_address(host.partition("%")[0]) for host in (source, target)]
    addresses = b"".join(end.packed for end in ends)
    is_long = ends[0].version == IPV6
    pseudo = struct.pack(">II", len(segment), TCP) if is_long else struct.pack(">HH", TCP, len(segment))
    segment = segment[:16] + struct.pack(">H", checksum(addresses + pseudo + segment)) + segment[18:]
    if is_long:
        return struct.pack(">IHBB", IPV6 << 28, len(segment), TCP, HOPS) + addresses + segment
    head = struct.pack(">BBHHHBBH", IPV4 << 4 | 5, 0, 20 + len(segment), number % 65536, 0, HOPS, TCP, 0) + addresses
    return head[:10] + struct.pack(">H", checksum(head)) + head[12:] + segment


def checksum(data: bytes) -> int:
    """The Internet checksum (RFC 1071)."""
    padded = data + bytes(len(data) % 2)
    return ~(int.from_bytes(padded, "big") % 0xFFFF) & 0xFFFF
