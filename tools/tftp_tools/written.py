"""Recordings that are written: datagrams of UDP in packets of IP (RFC 768, RFC 791, RFC 8200), and these in a pcapng
(draft-ietf-opsawg-pcapng)."""
from __future__ import annotations

import dataclasses
import ipaddress
import struct
from collections.abc import Iterable
from typing import NamedTuple, Optional

# Packets of IP without a link, and UDP among what IP carries.
RAW, UDP = 101, 17
# The types of blocks, and the options of a section and of an interface: who wrote it, and its unit of time.
SECTION, INTERFACE, STATISTICS, PACKET = 0x0A0D0D0A, 1, 5, 6
WRITER, UNIT, NANOSECONDS = 4, 9, 9
# The options of what an interface dropped, and the operating system (section 4.6).
IF_DROP, OS_DROP = 5, 7
DO_NOT_FRAGMENT = 0x4000
# Of the identifications of IPv4, 0 says nothing (RFC 6864, section 4.1).
IDENTIFICATIONS = 65_535


@dataclasses.dataclass(frozen=True)
class Datagram:
    """A UDP datagram, as it was sent."""

    source: str
    source_port: int
    target: str
    target_port: int
    payload: bytes

    @property
    def version(self) -> int:
        return ipaddress.ip_address(self.source).version

    def packed(self) -> tuple[bytes, bytes]:
        return ipaddress.ip_address(self.source).packed, ipaddress.ip_address(self.target).packed


class Timed(NamedTuple):
    """A datagram, and when it passed, in nanoseconds since 1970."""

    time: int
    datagram: Datagram


def sum_of(content: bytes) -> int:
    """The ones' complement of the ones' complement sum of words of 16 bits (RFC 1071, section 4.1)."""
    content += bytes(len(content) % 2)
    total = sum(int.from_bytes(content[at : at + 2], "big") for at in range(0, len(content), 2))
    while total >> 16:
        total = (total & 0xFFFF) + (total >> 16)
    return ~total & 0xFFFF


def pseudo_header(it: Datagram, size: int) -> bytes:
    """What the checksum of a datagram of this size has of its packet."""
    return b"".join(it.packed()) + struct.pack("!HH", UDP, size)


def udp(it: Datagram, length: Optional[int] = None) -> bytes:
    """The header, which may name another length, and the payload (RFC 768)."""
    size = 8 + len(it.payload) if length is None else length
    front = struct.pack("!HHH", it.source_port, it.target_port, size)
    checksum = sum_of(pseudo_header(it, size) + front + bytes(2) + it.payload) or 0xFFFF
    return front + struct.pack("!H", checksum) + it.payload


def ipv4(
    it: Datagram, content: bytes, protocol: int = UDP, place: int = DO_NOT_FRAGMENT, options: bytes = b"", id: int = 7
) -> bytes:
    """A packet of IPv4, of whole words of options, with flags and place of a fragment (RFC 791, section 3.1)."""
    head = 5 + len(options) // 4
    first = struct.pack("!BBHHHBB", 0x40 | head, 0, 4 * head + len(content), id, place, 64, protocol)
    rest = b"".join(it.packed()) + options
    return first + struct.pack("!H", sum_of(first + bytes(2) + rest)) + rest + content


def ipv6(it: Datagram, content: bytes, kind: int = UDP) -> bytes:
    """A packet of IPv6, the kind of what comes first in its content named (RFC 8200, section 3)."""
    return struct.pack("!IHBB", 6 << 28, len(content), kind, 64) + b"".join(it.packed()) + content


def packet_of(it: Datagram, number: int) -> bytes:
    """A datagram in a packet of IP; no two neighbours have one identification."""
    return ipv6(it, udp(it)) if it.version == 6 else ipv4(it, udp(it), id=1 + number % IDENTIFICATIONS)


def block(order: str, kind: int, body: bytes) -> bytes:
    """A block of pcapng: its type, its length, its body to a whole word, its length again."""
    body += bytes(-len(body) % 4)
    size = struct.pack(f"{order}I", 12 + len(body))
    return struct.pack(f"{order}I", kind) + size + body + size


def options(order: str, *pairs: tuple[int, bytes], is_ended: bool = True) -> bytes:
    """Options, each to a whole word, and their end; none where there is none."""
    padded = ((code, len(value), value + bytes(-len(value) % 4)) for code, value in pairs)
    told = b"".join(struct.pack(f"{order}HH", code, length) + value for code, length, value in padded)
    return told + bytes(4) if pairs and is_ended else told


def section_header(order: str, writer: bytes) -> bytes:
    """What a section begins with, whose length is not told."""
    return block(order, SECTION, struct.pack(f"{order}IHHq", 0x1A2B3C4D, 1, 0, -1) + options(order, (WRITER, writer)))


def packet_body(order: str, interface: int, ticks: int, content: bytes, original: int) -> bytes:
    """The body of an enhanced packet block, without options."""
    high, low = divmod(ticks, 1 << 32)
    sizes = len(content), original
    return struct.pack(f"{order}IIIII", interface, high, low, *sizes) + content + bytes(-len(content) % 4)


def statistics(order: str, place: int, *counts: tuple[int, int], is_ended: bool = True) -> bytes:
    """A statistics block of an interface, with counts by the codes of their options, and perhaps no end of these: what
    the interface or the operating system dropped since the capture began (section 4.6)."""
    told = options(order, *((code, struct.pack(f"{order}Q", count)) for code, count in counts), is_ended=is_ended)
    return block(order, STATISTICS, struct.pack(f"{order}III", place, 0, 0) + told)


def pcapng(passed: Iterable[Timed], writer: bytes, missed: int = 0) -> bytes:
    """A recording of packets of IP at one interface, in nanoseconds; so many are missing in it."""
    interface = struct.pack("<HHI", RAW, 0, 0) + options("<", (UNIT, bytes([NANOSECONDS])))
    parts = [section_header("<", writer), block("<", INTERFACE, interface)]
    for number, it in enumerate(passed):
        packet = packet_of(it.datagram, number)
        parts.append(block("<", PACKET, packet_body("<", 0, it.time, packet, len(packet))))
    if missed:
        parts.append(statistics("<", 0, (OS_DROP, missed)))
    return b"".join(parts)
