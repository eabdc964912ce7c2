"""Transfers that are captured at both ends: lawful, lost and repeated on the way, changed, and refused."""
from __future__ import annotations

from captures import Capture, EndName, Packet, ack, blocks, data, error, oack, read_request

READ = "accepted get octet blocks 1 bytes 2"


class Both:
    """A transfer, captured at both ends."""

    def __init__(self) -> None:
        self.client, self.server = Capture("client"), Capture("server")

    def at(self, end: EndName) -> Capture:
        return self.client if end == "client" else self.server

    def put(self, sender: EndName, *packets: Packet, sent: int = 1, taken: int = 1) -> None:
        """The packets are sent and taken so often, each time all of them."""
        other: EndName = "server" if sender == "client" else "client"
        for _ in range(sent):
            self.at(sender).put(sender, *packets)
        for _ in range(taken):
            self.at(other).put(sender, *packets)

    def texts(self) -> tuple[bytes, bytes]:
        return self.client.text(), self.server.text()


def read_of_two_bytes(content: bytes = b"hi") -> Both:
    """A read of one block, which says this at the client."""
    both = Both()
    both.put("client", read_request("a", "octet"))
    both.server.put("server", data(1, b"hi"))
    both.client.put("server", data(1, content))
    both.put("client", ack(1))
    return both


def repeated(sent: int, taken: int) -> Both:
    """The same, where the block is sent and taken so often."""
    both = Both()
    both.put("client", read_request("a", "octet"))
    both.put("server", data(1, b"hi"), sent=sent, taken=taken)
    both.put("client", ack(1))
    return both


def windowed(changed: int = -1) -> Both:
    """A read in windows of four blocks of 8 bytes, of which one may be changed at the client."""
    sizes, both = {"blksize": 8, "windowsize": 4}, Both()
    wire = blocks(b"0123456789" * 4, 8)
    both.put("client", read_request("boot.img", "octet", **sizes))
    both.put("server", oack(**sizes))
    both.put("client", ack(0))
    for at in range(0, len(wire), 4):
        for number, packet in enumerate(wire[at : at + 4], start=at):
            both.server.put("server", packet)
            both.client.put("server", data(number + 1, b"changed!") if number == changed else packet)
        both.put("client", ack(min(at + 4, len(wire))))
    return both


def strayed() -> Both:
    """A datagram from another port at the client, and its answer, and one at the server."""
    both = Both()
    both.put("client", read_request("a", "octet"))
    both.put("server", data(1, b"hi"))
    both.client.put("server", data(1, b"no"), server=42_000)
    both.client.put("client", error(5, "unknown"), server=42_000)
    both.server.put("client", ack(7), client=43_000)
    both.put("client", ack(1))
    return both


def ahead() -> Both:
    """The client acknowledges a block that it never took."""
    both = Both()
    both.put("client", read_request("a", "octet"))
    both.put("server", data(1, b"hi"))
    both.client.put("client", ack(2))
    both.server.put("client", ack(1))
    return both
