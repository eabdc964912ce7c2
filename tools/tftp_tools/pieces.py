"""What a recording in a file consists of: the header and the records of a pcap, or the blocks of a pcapng."""
from __future__ import annotations

from collections.abc import Iterator
from typing import Literal, NamedTuple, Optional

Order = Literal["little", "big"]
# Of a pcap the order of its numbers and the nanoseconds of its units of time, by its first four bytes.
CLASSIC: dict[bytes, tuple[Order, int]] = {
    b"\xa1\xb2\xc3\xd4": ("big", 1000), b"\xa1\xb2\x3c\x4d": ("big", 1),
    b"\xd4\xc3\xb2\xa1": ("little", 1000), b"\x4d\x3c\xb2\xa1": ("little", 1),
}
# What a section of a pcapng begins with, and the order of its numbers, by the four bytes that say it.
SECTION = b"\x0a\x0d\x0d\x0a"
ORDERS: dict[bytes, Order] = {b"\x1a\x2b\x3c\x4d": "big", b"\x4d\x3c\x2b\x1a": "little"}
MAGICS = (*CLASSIC, SECTION)
PCAP_HEADER, RECORD_HEADER, LEAST_BLOCK = 24, 16, 12
# The blocks that hold a frame: the older one, the simple and the enhanced.
FRAMES = (2, 3, 6)


class Piece(NamedTuple):
    """A header, a record or a block: the order of its numbers, the type of a block, how many bytes it has by its own
    length, those that are there, and whether it holds a frame."""

    order: Order
    kind: Optional[int]
    size: int
    content: bytes
    is_frame: bool

    def number(self, at: int, size: int = 4) -> int:
        return int.from_bytes(self.content[at : at + size], self.order)


def records(recording: bytes) -> Iterator[Piece]:
    """The header of a pcap, then its records; of what is cut at the end all bytes that there are."""
    order, _ = CLASSIC[recording[:4]]
    yield Piece(order, None, PCAP_HEADER, recording[:PCAP_HEADER], False)
    at = PCAP_HEADER
    while at < len(recording):
        header = recording[at : at + RECORD_HEADER]
        size = RECORD_HEADER + int.from_bytes(header[8:12], order)
        is_whole = len(header) == RECORD_HEADER
        yield Piece(order, None, size, recording[at : at + size] if is_whole else header, is_whole)
        at += size


def blocks(recording: bytes) -> Iterator[Piece]:
    """The blocks of a pcapng; of what is cut at the end, or is no block, all bytes that there are."""
    order: Order = "little"
    at = 0
    while at < len(recording):
        if recording[at : at + 4] == SECTION:
            order = ORDERS.get(recording[at + 8 : at + 12], order)
        kind, size = (int.from_bytes(recording[at + place : at + place + 4], order) for place in (0, 4))
        is_block = size >= LEAST_BLOCK and at + 8 <= len(recording)
        end = at + size if is_block else len(recording)
        yield Piece(order, kind, size, recording[at:end], is_block and kind in FRAMES)
        at = end


def pieces(recording: bytes) -> Iterator[Piece]:
    """Those of a recording in either format."""
    return blocks(recording) if recording.startswith(SECTION) else records(recording)
