"""The capture text (docs/SPECIFICATION.md, "The capture text"): read as far as it can be read, and its lines written.

Whether a text is sound is the program's to say; what cannot be read here ends the list of datagrams.
"""
from __future__ import annotations

import re
from dataclasses import dataclass, field, replace
from typing import Optional

from .packets import Ack, Data, Packet, read_packet

ENDPOINTS = re.compile(rb"# transfer [0-9]+ .*, at the (?:client|server); client ([!-~]+), server ([!-~]+)")
FRAME = re.compile(rb"# frame ([0-9]+)(?: time ([0-9]+\.[0-9]+))?")
DATAGRAM = re.compile(rb"(in|out) ([1-9][0-9]{0,4})(?: ([!-~]{1,45}))? ([1-9][0-9]{0,4}) ([0-9A-Fa-f]+|-)")
NANOSECONDS = 1_000_000_000


def nanoseconds(time: str) -> int:
    """Those since 1970 of a time in seconds, which is written with some decimals."""
    whole, _, part = time.partition(".")
    return int(whole) * NANOSECONDS + int(part[:9].ljust(9, "0"))


@dataclass(frozen=True)
class Datagram:
    number: int
    line: int
    way: str
    local: int
    host: str
    remote: int
    payload: bytes
    # where it stands in a recording, if the comment before it says so
    frame: Optional[int] = None
    time: Optional[str] = None
    # the block that it is of, where numbers began again before it
    block: Optional[int] = None

    def goes_out(self) -> bool:
        return self.way == "out"

    def peer(self) -> tuple[str, int]:
        return self.host, self.remote

    def seconds_since(self, first: Datagram) -> Optional[float]:
        """How long after another one it passed, where both have times."""
        if self.time is None or first.time is None:
            return None
        return (nanoseconds(self.time) - nanoseconds(first.time)) / NANOSECONDS

    def place(self) -> str:
        """How a person finds it."""
        frame = f", frame {self.frame}" if self.frame is not None else ""
        return f"datagram {self.number} (line {self.line}{frame})"


@dataclass
class Capture:
    version: int = 1
    end: str = "client"
    service: int = 69
    # whether it is judged between the ends, as what passed there, though the text is the client's
    is_between: bool = False
    # where the named end is, if the comment before the header says so
    here: Optional[str] = None
    # what comes after block 65535, where anything does
    rollover: Optional[int] = None
    datagrams: list[Datagram] = field(default_factory=list)

    def other_end(self) -> str:
        return "server" if self.end == "client" else "client"

    def sender(self, datagram: Datagram) -> str:
        return self.end if datagram.goes_out() else self.other_end()

    def place(self) -> str:
        """Where it is judged."""
        return "between the ends" if self.is_between else f"at the {self.end}"

    def name(self, end: str) -> str:
        """What an end is called above its line."""
        return f"{end} (recorded here)" if end == self.end and not self.is_between else end

    def way(self, datagram: Datagram) -> str:
        """Which way a datagram went."""
        if not self.is_between:
            return datagram.way
        return "from the client" if datagram.goes_out() else "to the client"


def packet_of(datagram: Datagram) -> Packet:
    """What a datagram says, with its block in the place of the number."""
    packet = read_packet(datagram.payload)
    if datagram.block is None or not isinstance(packet, (Ack, Data)):
        return packet
    return replace(packet, block=datagram.block, number=packet.block)


def read_head(capture: Capture, line: bytes, at: int) -> bool:
    """Takes line `at` of the three of the header; whether it is that."""
    if at == 0 and line in (b"tftp-capture 1", b"tftp-capture 2"):
        capture.version = int(line[-1:])
    elif at == 1 and line in (b"end client", b"end server"):
        capture.end = line[4:].decode()
    elif at == 2 and re.fullmatch(rb"service [1-9][0-9]{0,4}", line):
        capture.service = int(line[8:])
    else:
        return False
    return True


def read_datagram(capture: Capture, line: bytes, number: int, frame: Optional[re.Match[bytes]]) -> bool:
    """Takes the line of a datagram; whether it is one."""
    found = DATAGRAM.fullmatch(line)
    if not found or (found[3] is None) != (capture.version == 1):
        return False
    try:
        payload = b"" if found[5] == b"-" else bytes.fromhex(found[5].decode())
    except ValueError:
        return False
    seen = (int(frame[1]), frame[2].decode() if frame[2] else None) if frame else (None, None)
    host = found[3].decode() if found[3] else "-"
    ports = int(found[2]), int(found[4])
    place = len(capture.datagrams) + 1, number
    capture.datagrams.append(Datagram(*place, found[1].decode(), ports[0], host, ports[1], payload, *seen))
    return True


def told_endpoint(endpoint: str) -> str:
    """An address and a port in words."""
    host, _, port = endpoint.rpartition(":")
    return f"{host.strip('[]')} port {port}"


def read_capture(text: bytes, is_between: bool = False) -> Capture:
    """The datagrams of a text up to its total line, or up to what cannot be read."""
    capture, heads, frame, ends = Capture(is_between=is_between), 0, None, None
    for number, line in enumerate(text.split(b"\n"), 1):
        if number > 1 and (not line or line.startswith(b"#")):
            ends = ENDPOINTS.fullmatch(line) or ends
            frame = FRAME.fullmatch(line) or frame
            continue
        if heads < 3:
            if not read_head(capture, line, heads):
                break
            heads += 1
        elif not read_datagram(capture, line, number, frame):
            break
        else:
            frame = None
    if ends:
        capture.here = told_endpoint(ends[1 if capture.end == "client" else 2].decode())
    return capture
