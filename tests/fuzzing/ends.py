"""One end of a transfer: what it has sent and taken, and so what it may send (RFC 1350, 2347 and 7440).
"""
from __future__ import annotations

from typing import Literal, NamedTuple

from normal import Meaning

Kind = Literal["request", "oack", "data", "ack", "error"]


class Packet(NamedTuple):
    """What a packet is; the rest of what it says is the meaning's. The number is a block's, or an ERROR's code."""

    kind: Kind
    number: int = 0
    message: bytes = b""



class End:
    def __init__(self, meaning: Meaning, wire: bytes, is_client: bool) -> None:
        self.meaning, self.is_client = meaning, is_client
        self.is_read = meaning.side == "get"
        self.is_sender = is_client != self.is_read
        self.window, self.blocks = meaning.window, len(wire) // meaning.size + 1
        # the kinds that it has sent and taken, and its own ERROR
        self.sent: set[str] = set()
        self.taken: set[str] = set()
        self.told: Packet | None = None
        # of a sender: its highest block, and the acknowledgements that it took; it begins as if ACK 0 had come
        self.top, self.acknowledged = 0, {0}
        # of a receiver: the blocks that it took, those before the first that is missing, and its highest ACK
        self.held: set[int] = set()
        self.front, self.last_ack = 0, 0
        self.is_complete = False

    def may_send(self, packet: Packet) -> bool:
        """Whether this end may send this packet now."""
        if packet.kind == "error":
            return self.may_end() and self.told in (None, packet)
        if self.told:
            return False
        if packet.kind == "request":
            return self.may_request()
        if packet.kind == "oack":
            return self.may_agree()
        return self.may_data(packet.number) if packet.kind == "data" else self.may_ack(packet.number)

    def may_end(self) -> bool:
        # a client learns from the first answer to which port its ERROR goes
        return bool(self.taken) and (not self.is_client or "request" in self.sent)

    def may_request(self) -> bool:
        return self.is_client and not {"ack", "data"} & self.sent

    def may_agree(self) -> bool:
        is_early = not (self.is_read and "data" in self.sent)
        return not self.is_client and bool(self.meaning.agreed) and "request" in self.taken and is_early

    def is_started(self) -> bool:
        if self.is_read:
            return ("ack 0" if self.meaning.agreed else "request") in self.taken
        return ("oack" if self.meaning.agreed else "ack 0") in self.taken

    def may_data(self, block: int) -> bool:
        if not (self.is_sender and 1 <= block <= self.blocks and self.is_started() and block <= self.top + 1):
            return False
        is_in_window = any(base in self.acknowledged for base in range(max(0, block - self.window), block))
        return is_in_window and (self.window > 1 or block >= self.top)

    def may_ack(self, block: int) -> bool:
        if self.is_sender:
            return False
        if block:
            return block <= self.front
        if self.is_read:
            return bool(self.meaning.agreed) and "oack" in self.taken
        return ("data" if self.meaning.agreed else "request") in self.taken

    def send(self, packet: Packet) -> None:
        """Notes a packet that it may send."""
        self.sent.add(packet.kind)
        if packet.kind == "data":
            self.top = max(self.top, packet.number)
        elif packet.kind == "ack":
            self.last_ack = max(self.last_ack, packet.number)
            self.is_complete |= packet.number == self.blocks
        elif packet.kind == "error":
            self.told = packet

    def take(self, packet: Packet) -> None:
        """Notes a packet that has come."""
        self.taken.add(packet.kind)
        if packet.kind == "data":
            self.held.add(packet.number)
            while self.front + 1 in self.held:
                self.front += 1
        elif packet.kind == "ack":
            self.acknowledged.add(packet.number)
            self.is_complete |= packet.number == self.blocks
            if packet.number == 0:
                self.taken.add("ack 0")
