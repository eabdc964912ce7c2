"""What had passed before a datagram: the facts that the rules speak of (docs/SPECIFICATION.md, "The rules").

All datagrams before it are lawful, so each of them has its place; nothing is judged here.
"""
from __future__ import annotations

from collections.abc import Iterator
from dataclasses import dataclass, field
from typing import Optional

from .capture import Capture, Datagram, packet_of
from .packets import Ack, Data, Error, Oack, Options, Packet, Request, is_request, number_of

Peer = tuple[str, int]


@dataclass(frozen=True)
class Passed:
    """A datagram, what it says, and whether it is of the transfer, a stray or an answer to one."""

    datagram: Datagram
    packet: Packet
    place: str


@dataclass
class History:
    capture: Capture
    passed: list[Passed] = field(default_factory=list)
    request: Optional[Passed] = None
    # the named end's port, and the other end's host and port; at the client the host that was asked
    local: Optional[int] = None
    peer: Optional[Peer] = None
    asked: Optional[str] = None
    oack: Optional[Passed] = None
    reply: Optional[Passed] = None
    blocks: dict[int, Passed] = field(default_factory=dict)
    # the highest block, and the highest ACK, that went out or came in; what went out after an ERROR came in is apart
    high: dict[tuple[str, str], Passed] = field(default_factory=dict)
    errors: list[Passed] = field(default_factory=list)
    front: int = 0

    def at_client(self) -> bool:
        return self.capture.end == "client"

    def is_between(self) -> bool:
        return self.capture.is_between

    def kind(self) -> str:
        """Whether it reads or writes: get, put, or nothing before a request."""
        packet = self.request.packet if self.request else None
        return packet.kind if isinstance(packet, Request) else ""

    def is_receiver(self) -> bool:
        return (self.kind() == "get") == self.at_client()

    def receiver_way(self) -> str:
        """Which way the ACKs go."""
        return "out" if self.is_receiver() else "in"

    def options(self) -> Options:
        """What was asked for."""
        packet = self.request.packet if self.request else None
        return packet.options if isinstance(packet, Request) else ()

    def agreed(self) -> Options:
        packet = self.oack.packet if self.oack else None
        return packet.options if isinstance(packet, Oack) else ()

    def number(self, name: str) -> Optional[int]:
        """The number that was agreed for an option."""
        value = dict(self.agreed()).get(name)
        return number_of(value) if value is not None else None

    def block_size(self) -> int:
        return self.number("blksize") or 512

    def window(self) -> int:
        return self.number("windowsize") or 1

    def size(self) -> Optional[int]:
        """The agreed size, which counts in octet mode alone."""
        packet = self.request.packet if self.request else None
        is_octet = isinstance(packet, Request) and packet.mode == "octet"
        return self.number("tsize") if is_octet else None

    def highest(self, what: str, way: str) -> Optional[Passed]:
        """The datagram with the highest block or ACK that went that way."""
        return self.high.get((what, way))

    def error(self, way: str) -> Optional[Passed]:
        return next((error for error in self.errors if error.datagram.way == way), None)

    def last_block(self) -> Optional[int]:
        """The number of the last block, if it is known."""
        size = self.size()
        if size is not None:
            return size // self.block_size() + 1
        short = [number for number, at in self.blocks.items() if len(content_of(at)) < self.block_size()]
        return min(short, default=None)

    def place_of(self, datagram: Datagram) -> str:
        """Of the transfer (main), a stray, an answer to a stray, or of none of these."""
        if self.local is None:
            return "none"
        requests = is_request(datagram.payload)
        if self.at_client():
            return self.place_at_client(datagram, requests)
        if requests and not datagram.goes_out() and datagram.local == self.capture.service:
            return "main" if datagram.peer() == self.peer else "none"
        if datagram.peer() == self.peer:
            return "main"
        return "answer" if datagram.goes_out() else "stray"

    def place_at_client(self, datagram: Datagram, requests: bool) -> str:
        if datagram.local != self.local:
            return "none"
        if requests and datagram.goes_out():
            return "main"
        if self.peer is None or datagram.peer() == self.peer:
            return "main"
        return "answer" if datagram.goes_out() else "stray"

    def take(self, datagram: Datagram) -> Passed:
        packet = packet_of(datagram)
        if self.request is None and isinstance(packet, Request):
            self.begin(datagram)
        place = self.place_of(datagram)
        passed = Passed(datagram, packet, place)
        if self.request is None and place == "main":
            self.request = passed
        self.passed.append(passed)
        if place == "main":
            self.take_main(passed)
        return passed

    def begin(self, datagram: Datagram) -> None:
        """The first request fixes the client's endpoint, and the host that is asked."""
        if datagram.goes_out() == self.at_client():
            self.local = datagram.local
            self.asked = datagram.host if self.at_client() else None
            self.peer = None if self.at_client() else datagram.peer()
        if self.is_between():
            self.peer = server_of(self.capture)

    def take_main(self, passed: Passed) -> None:
        datagram, packet = passed.datagram, passed.packet
        if self.at_client() and self.peer is None and not datagram.goes_out():
            self.peer = datagram.peer()
        if not self.at_client() and datagram.goes_out():
            self.local = datagram.local
        if isinstance(packet, Error):
            self.errors.append(passed)
        elif isinstance(packet, Data):
            self.raise_to("DATA", passed, packet.block)
            self.blocks.setdefault(packet.block, passed)
            while self.front + 1 in self.blocks:
                self.front += 1
        elif isinstance(packet, Ack):
            self.raise_to("ACK", passed, packet.block)
        if isinstance(packet, Oack) and self.oack is None:
            self.oack = passed
        if self.reply is None and not isinstance(packet, (Request, Error)):
            self.reply = passed

    def raise_to(self, what: str, passed: Passed, block: int) -> None:
        way = passed.datagram.way
        if way == "out" and self.error("in") and not self.is_between():
            way = "out after the ERROR"
        highest = self.high.get((what, way))
        if highest is None or block_of(highest) < block:
            self.high[what, way] = passed


def block_of(passed: Passed) -> int:
    packet = passed.packet
    return packet.block if isinstance(packet, (Ack, Data)) else 0


def content_of(passed: Passed) -> bytes:
    return passed.packet.content if isinstance(passed.packet, Data) else b""


def server_of(capture: Capture) -> Optional[Peer]:
    """Between the ends, the server: the one with which the client went on, or else the first from which something
    came."""
    went_on = (it for it in capture.datagrams if it.goes_out() and not is_request(it.payload))
    came = (it for it in capture.datagrams if not it.goes_out())
    found = next((it for it in went_on if it.payload[:2] != b"\0\5"), None) or next(came, None)
    return found.peer() if found else None


def history_before(capture: Capture, number: int) -> History:
    """What the datagrams before this one tell, or all of them for a number past the last."""
    history = History(capture)
    for datagram in capture.datagrams[: number - 1]:
        history.take(datagram)
    return history


def before_error(history: History, way: str) -> History:
    """What had passed before the first ERROR that went this way, or all that has passed."""
    error = history.error(way)
    return history_before(history.capture, error.datagram.number) if error else history


def earlier(capture: Capture) -> Iterator[Optional[int]]:
    """Of each datagram the place at which the same one last passed, if it did."""
    last: dict[tuple[str, int, str, int, bytes, Optional[int]], int] = {}
    for place, it in enumerate(capture.datagrams):
        key = (it.way, it.local, it.host, it.remote, it.payload, it.block)
        yield last.get(key)
        last[key] = place


def repeats(capture: Capture) -> Iterator[bool]:
    """Of each datagram, whether it is one that passed before."""
    return (place is not None for place in earlier(capture))
