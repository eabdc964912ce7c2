"""Recordings made from datagrams by the formats alone: frames of each link type, IPv4 and IPv6, fragments, and files in
the formats pcap and pcapng. What they hold is known before anything has read them.
"""
from __future__ import annotations

import dataclasses
import random
import struct
from typing import Literal, Optional, Union

import repository  # noqa: F401
from tftp_tools import written
from tftp_tools.written import DO_NOT_FRAGMENT, section_header
from tftp_tools.written import IF_DROP as IF_DROP
from tftp_tools.written import OS_DROP as OS_DROP
from tftp_tools.written import RAW as RAW
from tftp_tools.written import UDP as UDP
from tftp_tools.written import Datagram as Datagram
from tftp_tools.written import block as block
from tftp_tools.written import options as options
from tftp_tools.written import statistics as statistics
from tftp_tools.written import sum_of as sum_of

ETHERNET, NULL, LOOP, COOKED, COOKED_2 = 1, 0, 108, 113, 276
LINKS = (ETHERNET, NULL, RAW, LOOP, COOKED, COOKED_2)
IPV4, IPV6, ARP = 0x0800, 0x86DD, 0x0806
TCP, ICMP = 6, 1
HOP_BY_HOP, ROUTING, FRAGMENT, DESTINATION = 0, 43, 44, 60
# Tags of IEEE 802.1Q and 802.1ad, and what was used before: none, one, two, three.
TAGGED = ((), (0x8100,), (0x88A8, 0x8100), (0x9100, 0x88A8, 0x8100))
Direction = Literal["unknown", "in", "out"]
# What the checksums of a datagram say.
Sum = Literal["right", "absent", "partial", "wrong"]
DIRECTIONS: dict[Direction, int] = {"unknown": 0, "in": 1, "out": 2}
# What Linux writes of a packet's way: to us, to all, to some, to another host, from us.
COOKED_TYPES = {"in": (0,), "unknown": (1, 2, 3), "out": (4,)}
FIRST_TIME = 1_700_000_000_000_000_000
MILLISECOND = 1_000_000
# What each fragment but the last carries is a multiple of this (RFC 791, section 3.2; RFC 8200, section 4.5).
EIGHT = 8


@dataclasses.dataclass(frozen=True)
class Fragment:
    """Where a part stands in what was sent, in bytes, and whether more follow."""

    id: int
    place: int
    more: bool


@dataclasses.dataclass
class Frame:
    """A frame as it was recorded: its bytes, how many it had, its time in nanoseconds since 1970, its direction,
    whether it was received with a wrong checksum of its link, how many packets were lost before it, what the checksums
    say of the datagram that it ends, and the frames of that one's other parts."""

    link: int
    content: bytes
    time: int
    direction: Direction = "unknown"
    original: Optional[int] = None
    flags: Direction = "unknown"
    is_timed: bool = True
    is_damaged: bool = False
    missed: int = 0
    sum: Sum = "right"
    others: list[Frame] = dataclasses.field(default_factory=list)


def udp(it: Datagram, length: Optional[int] = None, surplus: bytes = b"", kind: Sum = "right") -> bytes:
    """The header, the payload, and what stands behind it in IP (RFC 768), with a checksum of that kind: a partial one
    is the sum of the pseudo header, as a sender leaves it to its network card."""
    whole, size = written.udp(it, length), 8 + len(it.payload) if length is None else length
    made, partial = int.from_bytes(whole[6:8], "big"), sum_of(written.pseudo_header(it, size)) ^ 0xFFFF
    checksum = {"right": made, "absent": 0, "partial": partial, "wrong": made ^ 0x1234}[kind]
    return whole[:6] + struct.pack("!H", checksum) + whole[8:] + surplus


def ipv4(
    it: Datagram, content: bytes, protocol: int = UDP, part: Optional[Fragment] = None, options: bytes = b"",
    id: int = 7, header_sum: Optional[int] = None,
) -> bytes:
    """A packet of IPv4, of whole words of options (RFC 791, section 3.1); a part has its own identification. Its
    checksum is the right one, unless another is given."""
    place = part.place // EIGHT | (0x2000 if part.more else 0) if part else DO_NOT_FRAGMENT
    packet = written.ipv4(it, content, protocol, place, options, part.id if part else id)
    return packet if header_sum is None else packet[:10] + struct.pack("!H", header_sum) + packet[12:]


def ipv6(
    it: Datagram, content: bytes, protocol: int = UDP, part: Optional[Fragment] = None, kinds: tuple[int, ...] = ()
) -> bytes:
    """A packet of IPv6 with extension headers of these kinds, of different sizes (RFC 8200)."""
    headers, body = [(kind, bytes(6 + EIGHT * place)) for place, kind in enumerate(kinds)], b""
    chain = [kind for kind, _ in headers] + ([FRAGMENT] if part else []) + [protocol]
    for place, (_, rest) in enumerate(headers):
        body += struct.pack("!BB", chain[place + 1], (len(rest) - 6) // EIGHT) + rest
    if part:
        body += struct.pack("!BBHI", protocol, 0, part.place | part.more, part.id)
    return written.ipv6(it, body + content, chain[0])


def carried(
    link: int, packet: bytes, chance: random.Random, direction: Direction, kind: Optional[int], tags: tuple[int, ...]
) -> bytes:
    """A frame of a link type that carries a packet of IP, or of another kind."""
    is_four = packet[:1] and packet[0] >> 4 == 4
    kind = (IPV4 if is_four else IPV6) if kind is None else kind
    if link == ETHERNET:
        front = bytes(range(12)) + b"".join(struct.pack("!HH", tag, 5) for tag in tags)
        frame = front + struct.pack("!H", kind) + packet
        return frame + bytes(max(0, 60 - len(frame)))
    way = chance.choice(COOKED_TYPES[direction])
    if link == COOKED:
        return struct.pack("!HHH8sH", way, 1, 6, bytes(8), kind) + packet
    if link == COOKED_2:
        return struct.pack("!HHIHBB8s", kind, 0, 2, 1, way, 6, bytes(8)) + packet
    family = 2 if is_four else chance.choice((24, 28, 30))
    if link == LOOP:
        return struct.pack("!I", family) + packet
    if link == NULL:
        return struct.pack(chance.choice("<>") + "I", family) + packet
    return packet


def parts_of(content: bytes, size: int, id: int) -> list[tuple[Fragment, bytes]]:
    """What is sent in fragments of so many bytes, a multiple of eight."""
    cuts = range(0, len(content), size)
    return [(Fragment(id, at, at + size < len(content)), content[at : at + size]) for at in cuts]


def pcap(frames: list[Frame], order: str = "<", is_nano: bool = False, snaplen: int = 262_144) -> bytes:
    """A file of frames of one link type."""
    link = frames[0].link if frames else ETHERNET
    return header(link, order, is_nano, snaplen) + b"".join(record(it, order, is_nano) for it in frames)


def header(link: int, order: str = "<", is_nano: bool = False, snaplen: int = 262_144) -> bytes:
    """What a file of frames of a link type begins with."""
    return struct.pack(f"{order}IHHiIII", 0xA1B23C4D if is_nano else 0xA1B2C3D4, 2, 4, 0, 0, snaplen, link)


def record(it: Frame, order: str = "<", is_nano: bool = False) -> bytes:
    """A frame as it stands in a file, in nanoseconds or microseconds."""
    seconds, fraction = divmod(it.time, 1_000_000_000)
    head = seconds, fraction // (1 if is_nano else 1000), len(it.content), it.original or len(it.content)
    return struct.pack(f"{order}IIII", *head) + it.content


def other_block(order: str, chance: random.Random) -> bytes:
    """A block that holds no frame: of names, of statistics, or of a type that nobody knows."""
    counted = struct.pack(f"{order}III", 0, 0, 0) + options(order, (2, bytes(8)))
    bodies = {4: bytes(4), 5: counted, 0x0BADB10C: chance.randbytes(4 * chance.randrange(9))}
    kind = chance.choice(tuple(bodies))
    return block(order, kind, bodies[kind])


@dataclasses.dataclass
class Interface:
    """An interface of a section: its link type, its unit of time by the option's byte, its offset in seconds."""

    link: int
    unit: Optional[int] = None
    offset: int = 0
    snaplen: int = 0

    def body(self, order: str) -> bytes:
        told: list[tuple[int, bytes]] = [(2, b"eth0")]
        if self.unit is not None:
            told.append((9, bytes([self.unit])))
        if self.offset:
            told.append((14, struct.pack(f"{order}q", self.offset)))
        return struct.pack(f"{order}HHI", self.link, 0, self.snaplen) + options(order, *told)

    def ticks(self, time: int) -> int:
        """A time in this interface's units since its offset: of units that are powers of two the next one."""
        unit = 6 if self.unit is None else self.unit
        since = time - self.offset * 1_000_000_000
        if unit & 128:
            return -(-(since << (unit & 127)) // 1_000_000_000)
        return since * int(10**unit) // 1_000_000_000


Block = Union[Frame, bytes]
# The flag of a packet that was received with a wrong checksum of Ethernet (draft-ietf-opsawg-pcapng, section 4.3.1).
CRC_ERROR = 1 << 24
# In an obsolete packet block the count of what was lost, where nobody counted.
NO_COUNT = 0xFFFF


def section(order: str, interfaces: list[Interface], blocks: list[tuple[int, Block]], chance: random.Random) -> bytes:
    """A section of pcapng: its interfaces, and blocks: a frame of an interface, or another block's bytes."""
    file = section_header(order, b"a recorder")
    file += b"".join(block(order, 1, it.body(order)) for it in interfaces)
    for place, it in blocks:
        file += it if isinstance(it, bytes) else packet_block(order, place, interfaces[place], it, chance)
    return file


def packet_block(order: str, place: int, interface: Interface, it: Frame, chance: random.Random) -> bytes:
    """An enhanced packet block, or the obsolete or the simple one."""
    content = it.content + bytes(-len(it.content) % 4)
    original = it.original or len(it.content)
    if not it.is_timed:
        return block(order, 3, struct.pack(f"{order}I", original) + content)
    high, low = divmod(interface.ticks(it.time), 1 << 32)
    sizes = high, low, len(it.content), original
    if it.flags == "unknown" and chance.random() < 0.2:
        return block(order, 2, struct.pack(f"{order}HHIIII", place, it.missed or NO_COUNT, *sizes) + content)
    flags = DIRECTIONS[it.flags] | (CRC_ERROR if it.is_damaged else 0)
    told = [(2, struct.pack(f"{order}I", flags))] if it.flags != "unknown" else []
    told += [(4, struct.pack(f"{order}Q", it.missed))] if it.missed else []
    told += [(1, b"seen")] if chance.random() < 0.2 else []
    body = written.packet_body(order, place, interface.ticks(it.time), it.content, original)
    return block(order, 6, body + options(order, *told))
