"""Block numbers that begin again after 65535: of which block each is, as tftp-audit takes it."""
from __future__ import annotations

from dataclasses import replace
from typing import Optional

from .capture import Capture, packet_of, read_capture
from .history import History
from .packets import Ack, Data, read_packet

ROUND, HALF_ROUND = 65_536, 32_767
# What may come after block 65535.
FIRSTS = ("0", "1")


def near(first: int, highest: int, number: int) -> int:
    """The one block of this number that is at most half a round older than the highest, or less than a round newer than
    what is so old; `first` comes after 65535."""
    low = max(first, highest - HALF_ROUND)
    return number if number < first else low + (number - low) % (ROUND - first)


def number_in(payload: bytes) -> Optional[int]:
    """The number of a block or of an ACK."""
    packet = read_packet(payload)
    return packet.block if isinstance(packet, (Ack, Data)) else None


def take_blocks(capture: Capture, first: int) -> Capture:
    """Notes of each datagram of which block it is, by the highest of the transfer that passed before it."""
    capture.rollover, highest, history = first, 0, History(capture)
    for place, datagram in enumerate(capture.datagrams):
        number = number_in(datagram.payload)
        block = near(first, highest, number) if number is not None else None
        if block != number or datagram.block is not None:
            datagram = replace(datagram, block=block if block != number else None)
            capture.datagrams[place] = datagram
        packet = packet_of(datagram)
        if history.take(datagram).place == "main" and isinstance(packet, Data):
            highest = max(highest, packet.block)
    return capture


def capture_by(text: bytes, rollover: str, is_between: bool = False) -> Capture:
    """The datagrams of a text, where this comes after block 65535, or nothing does."""
    capture = read_capture(text, is_between)
    return take_blocks(capture, int(rollover)) if rollover else capture
