"""Values of XDR as bytes (RFC 4506): a reader, and what it reads, written."""
import struct
from collections.abc import Sequence


class Unreadable(Exception):
    """The bytes are no value of the form."""


class Reader:
    """Takes values of XDR from the front of bytes."""

    def __init__(self, data: bytes) -> None:
        self.data = data
        self.at = 0

    def fixed(self, count: int) -> bytes:
        if len(self.data) - self.at < count:
            raise Unreadable
        self.at += count
        return self.data[self.at - count : self.at]

    def u32(self) -> int:
        return int.from_bytes(self.fixed(4), "big")

    def u32s(self, count: int) -> Sequence[int]:
        """So many numbers."""
        return [self.u32() for _ in range(count)]

    def u64(self) -> int:
        return int.from_bytes(self.fixed(8), "big")

    def opaque(self, limit: int = 2**32 - 1) -> bytes:
        """Its length, its bytes, and padding of any value up to a multiple of four."""
        length = self.u32()
        if length > limit:
            raise Unreadable
        value = self.fixed(length)
        self.fixed(-length % 4)
        return value

    def file_bytes(self) -> bytes:
        """Bytes of a file, as an operation brings them: as many as there are."""
        return self.opaque()

    def one_of(self, count: int, first: int = 0) -> int:
        """One of so many numbers from the first on: a bool, or an enumeration."""
        number = self.u32()
        if not first <= number < first + count:
            raise Unreadable
        return number

    def bitmap(self) -> tuple[int, ...]:
        count = self.u32()
        if count > len(self.data) // 4:
            raise Unreadable
        return tuple(self.u32() for _ in range(count))


# How few numbers are packed, by how many they are.
PACKS = [struct.Struct(f">{count}I").pack for count in range(9)]


def u32(*numbers: int) -> bytes:
    """Each number in four bytes, the highest first."""
    count = len(numbers)
    return PACKS[count](*numbers) if count < len(PACKS) else struct.pack(f">{count}I", *numbers)


def u64(number: int) -> bytes:
    return number.to_bytes(8, "big")


def opaque(value: bytes) -> bytes:
    """The length, the bytes, and zeros up to a multiple of four."""
    return u32(len(value)) + value + bytes(-len(value) % 4)


def bitmap(words: Sequence[int]) -> bytes:
    return u32(len(words), *words)
