"""Capture texts, made from packets by the formats alone, and what `show` prints of them."""
from __future__ import annotations

from collections.abc import Mapping
from typing import Literal, Union

EndName = Literal["client", "server"]
# A payload and what `show` says of it.
Packet = tuple[bytes, str]
# What an option is given as.
Value = Union[int, str]


def zeroed(*words: str) -> bytes:
    return b"".join(word.encode() + b"\0" for word in words)


def number(value: int) -> bytes:
    return value.to_bytes(2, "big")


def pairs(options: Mapping[str, Value]) -> bytes:
    return zeroed(*(word for name, value in options.items() for word in (name, str(value))))


def read_request(name: str, mode: str, **options: Value) -> Packet:
    return b"\0\1" + zeroed(name, mode) + pairs(options), "RRQ"


def write_request(name: str, mode: str, **options: Value) -> Packet:
    return b"\0\2" + zeroed(name, mode) + pairs(options), "WRQ"


def data(block: int, content: bytes) -> Packet:
    return b"\0\3" + number(block) + content, f"DATA {block} {len(content)}"


def ack(block: int) -> Packet:
    return b"\0\4" + number(block), f"ACK {block}"


def error(code: int, message: str) -> Packet:
    return b"\0\5" + number(code) + zeroed(message), f"ERROR {code}"


def oack(**options: Value) -> Packet:
    return b"\0\6" + pairs(options), "OACK"


def netascii(file: bytes) -> bytes:
    """The text of a file on the wire: LF as CR LF, and CR as CR NUL."""
    return file.replace(b"\r", b"\r\0").replace(b"\n", b"\r\n")


def blocks(wire: bytes, size: int) -> list[Packet]:
    """The DATA packets of a whole wire text; the last one is shorter than a block."""
    return [data(at // size + 1, wire[at : at + size]) for at in range(0, len(wire) + 1, size)]


class Capture:
    """A transfer at one end, datagram by datagram. A text of version 2 names the other host of each."""

    SERVICE, CLIENT, SERVER = 69, 40_000, 41_000
    OTHER_HOST, THIRD_HOST = "192.0.2.1", "2001:db8::9"

    def __init__(self, end: EndName, version: int = 1) -> None:
        self.end, self.version = end, version
        self.lines: list[str] = []
        self.rows: list[bytes] = []

    def put(
        self, sender: EndName, *packets: Packet, client: int = CLIENT, server: int = SERVER, host: str = OTHER_HOST
    ) -> None:
        """The packets pass, sent by the client or by the server, at these ports and with this other host."""
        for payload, said in packets:
            way = "out" if sender == self.end else "in"
            port = self.SERVICE if said in ("RRQ", "WRQ") else server
            local, remote = (client, port) if self.end == "client" else (port, client)
            peer = f"{host} {remote}" if self.version == 2 else remote
            self.lines.append(f"{way} {local} {peer} {payload.hex()}")
            self.rows.append(f"{len(self.rows) + 1} {way} {said}\n".encode())

    def text(self, count: int | None = None) -> bytes:
        """The capture text of the first so many datagrams, or of all."""
        lines = self.lines[:count]
        head = (f"tftp-capture {self.version}", f"end {self.end}", f"service {self.SERVICE}")
        return "".join(f"{line}\n" for line in (*head, *lines, f"total {len(lines)}")).encode()
