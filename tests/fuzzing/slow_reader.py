"""A slow reader of recordings, written from the formats' descriptions alone: which frames a file holds, which of them
are datagrams of UDP, and which are left out. What the program lists is compared with it.
"""
from __future__ import annotations

import dataclasses
import ipaddress
from typing import NamedTuple, Optional, Union

from tftp_tools.pieces import CLASSIC, ORDERS, PCAP_HEADER, RECORD_HEADER, SECTION, Order, Piece, blocks, records

LONGEST_FRAME, LONGEST_BLOCK, MOST_INTERFACES = 262_144, 16_777_216, 65_536
SECOND, PATIENCE, MOST_TIME = 1_000_000_000, 30_000_000_000, 1 << 64
# A copy of a packet is at another interface, among so many after it, and no more nanoseconds from it.
NEXT, NEAR = 16, 1_000_000
ROOM, LONGEST_PACKET = 1 << 26, 65_535
IPV4, IPV6 = 4, 6
UDP = 17
EXTENSIONS, ROUTING, FRAGMENT_HEADER, AUTHENTICATION = (0, 43, 60, 51), 43, 44, 51
# IPv4 and IPv6 in IP, and GRE; and in GRE IPv4, IPv6, Ethernet and MPLS, and ERSPAN of types I and II, and of type III.
GRE = 47
TUNNELS: dict[int, Optional[int]] = {4: IPV4, 41: IPV6, GRE: None}
IN_GRE = (0x0800, 0x86DD, 0x6558, 0x8847, 0x8848)
MIRROR, MIRROR_THREE = 0x88BE, 0x22EB
# The ports of tunnels over UDP, and how a header of VXLAN begins: the flag of a number alone (RFC 7348, section 5).
VXLAN, GENEVE, VXLAN_HEAD = 4789, 6081, bytes((8, 0, 0, 0))
# What they carry is not read; by their names.
HIDING = {
    50: "ESP (RFC 4303)", 55: "minimal encapsulation (RFC 2004)", 97: "Ethernet in IP (RFC 3378, RFC 8986)",
    108: "IPComp (RFC 3173)", 115: "L2TP (RFC 3931)", 137: "MPLS in IP (RFC 4023)",
    143: "Ethernet in IP (RFC 3378, RFC 8986)",
}
# What may hold another packet: no fragment of it is read.
WRAPPING = (*TUNNELS, *HIDING, AUTHENTICATION)
# These are not read either, nor is a routing header that leads on.
UNREAD = {135: "a mobility header (RFC 6275)", 139: "HIP (RFC 7401)", 140: "Shim6 (RFC 5533)", **HIDING}
ROUTED_ON = "a routing header with segments left (RFC 8200)"
TAGS, LABELS, SESSION, BRIDGED = (0x8100, 0x88A8, 0x9100), (0x8847, 0x8848), 0x8864, 0x6558
# The tags of HSR and FRER; and those behind which nothing is read, by their names.
NUMBERED = (0x892F, 0xF1C1)
SEALED = {
    0x88E5: "MACsec (IEEE 802.1AE)", 0x88E7: "IEEE 802.1ah", 0x893F: "IEEE 802.1BR", 0x22F3: "TRILL (RFC 6325)",
    0x894F: "NSH (RFC 8300)", 0xDADA: "a tag of Marvell's switches",
}
# LLC and SNAP of the organization 0, behind a length.
SNAP, LONGEST_LENGTH = bytes.fromhex("aaaa03000000"), 1500
# The version and code of PPPoE; protocols of PPP, and the first of those that carry no datagrams; a type of nothing.
PPPOE, PPP, CONTROL, NO_TYPE = 0x1100, {0x21: 0x0800, 0x57: 0x86DD}, 0x4000, 0xFFFF
TYPES = {0x0800: IPV4, 0x86DD: IPV6}
FAMILIES = {2: IPV4, 24: IPV6, 28: IPV6, 30: IPV6}
COOKED = {0: "in", 4: "out"}
FLAGS = {1: "in", 2: "out"}


class Frame(NamedTuple):
    """What a recording says of a frame; where is its section and the number of its interface there; is_damaged, whether
    it was received with an error."""

    where: tuple[int, int]
    link: int
    time: Optional[int]
    way: str
    content: bytes
    is_damaged: bool = False


class Fault(Exception):
    """A recording, a frame or a content that is none."""


class Sealed(Fault):
    """A frame in which nothing is read behind a type, and the name of what that type is of."""

    def __init__(self, kind: int) -> None:
        super().__init__("Frame")
        self.name = SEALED[kind]


class Listing(NamedTuple):
    """The lines of datagrams, the frames that are left out with the reason, the fault at the end, the frames that were
    received with an error, how many packets the recorder lost, the datagrams whose checksums are not right, and the
    frames with a header that is not read, with its name."""

    rows: list[str]
    left: list[tuple[int, str]]
    fault: str
    damaged: list[int]
    lost: int
    sums: list[tuple[int, str]]
    unread: list[tuple[int, str]]


# ---- files


def frames_of(file: bytes) -> tuple[list[Frame], str, int]:
    """The frames of a file, the fault that it ends with, and how many packets the recorder lost."""
    frames: list[Frame] = []
    counts = Counts()
    try:
        if file[:4] == SECTION:
            read_blocks(file, frames, counts)
        elif file[:4] in CLASSIC:
            read_classic(file, frames)
        else:
            raise Fault("NotARecording")
    except Fault as fault:
        return frames, str(fault), counts.lost()
    return frames, "", counts.lost()


class Counts:
    """How many packets were lost, by interface: the greatest count of its statistics, and the sum of its packets'
    counts."""

    def __init__(self) -> None:
        self.reported: dict[tuple[int, int], int] = {}
        self.missed: dict[tuple[int, int], int] = {}

    def report(self, where: tuple[int, int], count: int) -> None:
        self.reported[where] = max(self.reported.get(where, 0), count)

    def miss(self, where: tuple[int, int], count: int) -> None:
        self.missed[where] = self.missed.get(where, 0) + count

    def lost(self) -> int:
        places = self.reported.keys() | self.missed.keys()
        return min(MOST_TIME - 1, sum(max(self.reported.get(it, 0), self.missed.get(it, 0)) for it in places))


def read_classic(file: bytes, frames: list[Frame]) -> None:
    """A header, which names one link for all records."""
    header, *rest = records(file)
    if len(header.content) < PCAP_HEADER:
        raise Fault("Truncated")
    if header.number(4, 2) != 2:
        raise Fault("Bad")
    link, (_, unit) = header.number(20) % 65_536, CLASSIC[file[:4]]
    for it in rest:
        if len(it.content) < RECORD_HEADER:
            raise Fault("Truncated")
        if it.size - RECORD_HEADER > LONGEST_FRAME:
            raise Fault("TooLong")
        if len(it.content) < it.size:
            raise Fault("Truncated")
        time = it.number(0) * SECOND + it.number(4) * unit
        frames.append(Frame((0, 0), link, time, "unknown", it.content[RECORD_HEADER:]))


class Interface(NamedTuple):
    """An interface: its section and its number there, its link type, how many bytes it keeps, units of time in a second
    (0: none), seconds to add."""

    where: tuple[int, int]
    link: int
    snaplen: int
    units: int
    offset: int

    def time(self, ticks: int) -> Optional[int]:
        if not self.units:
            return None
        moment = ticks * SECOND // self.units + self.offset * SECOND
        return moment if 0 <= moment < MOST_TIME else None


def body_of(it: Piece) -> bytes:
    """What a block says between its lengths, where it is one."""
    if len(it.content) < 12:
        raise Fault("Truncated")
    if it.content[:4] == SECTION and it.content[8:12] not in ORDERS:
        raise Fault("Bad")
    if it.size > LONGEST_BLOCK:
        raise Fault("TooLong")
    if it.size < 12 or it.size % 4:
        raise Fault("Bad")
    if len(it.content) < it.size:
        raise Fault("Truncated")
    if it.number(it.size - 4) != it.size:
        raise Fault("Bad")
    return it.content[8:-4]


def read_blocks(file: bytes, frames: list[Frame], counts: Counts) -> None:
    """Blocks, one after another; the first one is a section header."""
    sections, interfaces = 0, list[Interface]()
    for it in blocks(file):
        body = body_of(it)
        if it.content[:4] != SECTION:
            read_block(it, body, sections, interfaces, frames, counts)
            continue
        if len(body) < 16 or int.from_bytes(body[4:6], it.order) != 1:
            raise Fault("Bad")
        interfaces, sections = [], sections + 1


def read_block(
    it: Piece, body: bytes, section: int, interfaces: list[Interface], frames: list[Frame], counts: Counts
) -> None:
    """A block that is no section header: an interface, a frame, what an interface lost, or what is skipped."""
    kind, order = it.kind, it.order
    if kind == 1:
        if len(interfaces) == MOST_INTERFACES:
            raise Fault("Bad")
        interfaces.append(interface_of(order, (section, len(interfaces)), body))
    elif kind == 6:
        need(body, 4)
        interface = named(interfaces, int.from_bytes(body[:4], order))
        frame, told = timed(order, interface, body[4:])
        frames.append(frame)
        counts.miss(interface.where, counter_of(order, told, 4))
    elif kind == 2:
        need(body, 4)
        interface, count = named(interfaces, int.from_bytes(body[:2], order)), int.from_bytes(body[2:4], order)
        frame, _ = timed(order, interface, body[4:])
        frames.append(frame)
        counts.miss(interface.where, count if count != 0xFFFF else 0)
    elif kind == 5:
        need(body, 12)
        interface = named(interfaces, int.from_bytes(body[:4], order))
        told = options_of(order, body[12:])
        both = counter_of(order, told, 5) + counter_of(order, told, 7)
        counts.report(interface.where, min(MOST_TIME - 1, both))
    elif kind == 3:
        need(body, 4)
        first, size = named(interfaces, 0), int.from_bytes(body[:4], order)
        kept = min(size, first.snaplen) if first.snaplen else size
        need(body, 4 + kept + -kept % 4)
        if kept > LONGEST_FRAME:
            raise Fault("Bad")
        frames.append(Frame(first.where, first.link, None, "unknown", body[4 : 4 + kept]))


def need(body: bytes, size: int) -> None:
    if len(body) < size:
        raise Fault("Bad")


def named(interfaces: list[Interface], place: int) -> Interface:
    if place >= len(interfaces):
        raise Fault("Bad")
    return interfaces[place]


def options_of(order: Order, rest: bytes) -> list[tuple[int, bytes]]:
    """Options to the code 0, or to the end."""
    told: list[tuple[int, bytes]] = []
    while rest:
        need(rest, 4)
        code, size = int.from_bytes(rest[:2], order), int.from_bytes(rest[2:4], order)
        if not code:
            break
        need(rest, 4 + size + -size % 4)
        told.append((code, rest[4 : 4 + size]))
        rest = rest[4 + size + -size % 4 :]
    return told


def first_of(told: list[tuple[int, bytes]], code: int, size: int) -> Optional[bytes]:
    """The first value of an option of so many bytes."""
    return next((value for it, value in told if it == code and len(value) == size), None)


def counter_of(order: Order, told: list[tuple[int, bytes]], code: int) -> int:
    """A counter of 64 bits; 0 where it is not there."""
    return int.from_bytes(first_of(told, code, 8) or b"", order)


def interface_of(order: Order, where: tuple[int, int], body: bytes) -> Interface:
    need(body, 8)
    told = options_of(order, body[8:])
    unit, offset = first_of(told, 9, 1), first_of(told, 14, 8)
    units = 1_000_000
    if unit:
        units = 1 << (unit[0] & 127) if unit[0] & 128 else int(10 ** unit[0])
        units = units if units < MOST_TIME else 0
    seconds = int.from_bytes(offset, order, signed=True) if offset else 0
    return Interface(where, int.from_bytes(body[:2], order), int.from_bytes(body[4:8], order), units, seconds)


def timed(order: Order, interface: Interface, body: bytes) -> tuple[Frame, list[tuple[int, bytes]]]:
    """Two halves of the time, the captured length, the original length, the frame, padding, and options, which are
    told."""
    need(body, 16)
    high, low, size = (int.from_bytes(body[k : k + 4], order) for k in (0, 4, 8))
    end = 16 + size + -size % 4
    need(body, end)
    told = options_of(order, body[end:])
    if size > LONGEST_FRAME:
        raise Fault("Bad")
    flags = first_of(told, 2, 4)
    flag = int.from_bytes(flags, order) if flags else 0
    way, time = FLAGS.get(flag % 4, "unknown"), interface.time((high << 32) + low)
    frame = Frame(interface.where, interface.link, time, way, body[16 : 16 + size], flag >= 1 << 16)
    return frame, told


# ---- frames


class Part(NamedTuple):
    """A fragment: of which packet, where it begins, and whether more follow."""

    id: int
    place: int
    more: bool


class Packet(NamedTuple):
    """A packet of IP that may carry UDP: the link's word of its direction, its ends, what it carries, all its bytes."""

    way: str
    version: int
    source: bytes
    target: bytes
    protocol: int
    part: Optional[Part]
    content: bytes
    whole: bytes


def is_identified(it: Packet) -> bool:
    """Whether its sender could not have sent the same bytes twice: an identification is in it."""
    return bool(number(it.whole, 4)) if it.version == IPV4 else it.part is not None


def number(content: bytes, at: int, size: int = 2) -> int:
    return int.from_bytes(content[at : at + size], "big")


def packet_of(frame: Frame) -> Packet:
    """The packet that a frame carries."""
    way, version, content = linked(frame.link, frame.content)
    while inner := opened(version, content):
        version, content = inner
    if version is None:
        raise Fault("Network")
    return ipv4(way, content) if version == IPV4 else ipv6(way, content)


def linked(link: int, frame: bytes) -> tuple[str, Optional[int], bytes]:
    """What the link says of the direction, the version of IP, and what stands after the link's header."""
    least = {0: 4, 1: 14, 12: 1, 101: 1, 108: 4, 113: 16, 228: 0, 229: 0, 276: 20}
    if link not in least:
        raise Fault("Link")
    if len(frame) < least[link]:
        raise Fault("Frame")
    if link == 1:
        return ("unknown", *untagged(number(frame, 12), frame[14:]))
    if link == 113:
        return (COOKED.get(number(frame, 0), "unknown"), *untagged(number(frame, 14), frame[16:]))
    if link == 276:
        return (COOKED.get(frame[10], "unknown"), *untagged(number(frame, 0), frame[20:]))
    if link in (12, 101):
        return "unknown", {4: IPV4, 6: IPV6}.get(frame[0] >> 4), frame
    if link in (228, 229):
        return "unknown", IPV4 if link == 228 else IPV6, frame
    version = FAMILIES.get(number(frame, 0, 4))
    if link == 0 and version is None:
        version = FAMILIES.get(int.from_bytes(frame[:4], "little"))
    return "unknown", version, frame[4:]


def untagged(kind: int, after: bytes) -> tuple[Optional[int], bytes]:
    """Over all tags, LLC with SNAP, PPPoE, labels and frames of Ethernet."""
    while size := size_behind(unless_sealed(kind), after):
        if len(after) < size:
            raise Fault("Frame")
        kind, after = named_by(kind, after), after[size:]
    return TYPES.get(kind), after


def unless_sealed(kind: int) -> int:
    if kind in SEALED:
        raise Sealed(kind)
    return kind


def size_behind(kind: int, after: bytes) -> int:
    """How many bytes stand behind a type before the next one; 0 where there is none."""
    if kind in TAGS or kind in LABELS:
        return 4
    if kind in NUMBERED:
        return 6
    if kind == BRIDGED:
        return 14
    return 8 if kind == SESSION or (kind <= LONGEST_LENGTH and SNAP.startswith(after[:6])) else 0


def named_by(kind: int, it: bytes) -> int:
    """The type that it names."""
    if kind in TAGS:
        return number(it, 2)
    if kind in NUMBERED:
        return number(it, 4)
    if kind == BRIDGED:
        return number(it, 12)
    if kind in LABELS:
        if not it[2] & 1:
            return kind
        version = it[4] >> 4 if len(it) > 4 else 0
        return unless_unread({4: 0x0800, 6: 0x86DD}.get(version))
    if kind != SESSION:
        return number(it, 6)
    protocol = number(it, 6) if number(it, 0) == PPPOE else 0
    is_control = protocol >= CONTROL and not protocol & 0x100
    return NO_TYPE if is_control else unless_unread(PPP.get(protocol))


def unless_unread(kind: Optional[int]) -> int:
    if kind is None:
        raise Fault("Frame")
    return kind


def opened(version: Optional[int], it: bytes) -> Optional[tuple[Optional[int], bytes]]:
    """What stands in a tunnel's packet; nothing where it is none."""
    reached = None if version is None or not has_header(version, it) else carried_by(version, it)
    if not reached or not is_opened(*reached):
        return None
    protocol, _, content = reached
    if protocol == UDP:
        return in_udp(content)
    return in_gre(content) if protocol == GRE else (TUNNELS[protocol], content)


def is_opened(protocol: int, part: Optional[Part], content: bytes) -> bool:
    """Whether it is a tunnel: of IP, or a whole datagram of one over UDP."""
    return protocol in TUNNELS or (protocol == UDP and not part and is_over_udp(content))


def is_over_udp(it: bytes) -> bool:
    """Whether a datagram goes to the port of VXLAN or Geneve and begins with its header, as far as its bytes go: each
    flag and reserved bit as its RFC has it sent (RFC 7348, section 5; RFC 8926, section 3.4)."""
    if len(it) < 8:
        return False
    head = it[8 : number(it, 4)][:8]
    if any(head[7:]):
        return False
    if number(it, 2) == VXLAN:
        return VXLAN_HEAD.startswith(head[:4])
    return number(it, 2) == GENEVE and number(head, 0, 1) < 64 and head[1:2] in (b"", b"\0", b"\x40")


def in_udp(it: bytes) -> tuple[Optional[int], bytes]:
    """What stands in VXLAN, a frame, or in Geneve, whose first byte counts the words of its options."""
    payload, is_vxlan = it[8 : number(it, 4)], number(it, 2) == VXLAN
    size = 8 if is_vxlan else 8 + 4 * number(payload, 0, 1)
    kind = BRIDGED if is_vxlan else number(payload, 2)
    if len(payload) < size or kind not in IN_GRE:
        raise Fault("Frame")
    return untagged(kind, payload[size:])


def in_gre(it: bytes) -> tuple[Optional[int], bytes]:
    """What stands behind a header of GRE with a checksum, a key and a number, or without (RFC 2890)."""
    if len(it) < 4 or it[0] & 0x4C or it[1] & 7:
        raise Fault("Frame")
    size, kind = 4 + 4 * sum(1 for flag in (0x80, 0x20, 0x10) if it[0] & flag), number(it, 2)
    if len(it) < size:
        raise Fault("Frame")
    if kind in (MIRROR, MIRROR_THREE):
        return mirrored(kind, bool(it[0] & 0x10), it[size:])
    if kind not in IN_GRE:
        raise Fault("Frame")
    return untagged(kind, it[size:])


def mirrored(kind: int, is_counted: bool, it: bytes) -> tuple[Optional[int], bytes]:
    """The frame in ERSPAN: without a number in GRE nothing stands before it, with one 8 bytes of version 1; in type III
    12 of version 2, and 8 more where the last bit says so."""
    version, size, is_read = number(it, 0, 1) >> 4, 0, True
    if kind == MIRROR_THREE:
        size, is_read = 20 if number(it, 11, 1) & 1 else 12, version == 2 and not number(it, 10, 1) & 0x7C
    elif is_counted:
        size, is_read = 8, version == 1
    if len(it) < size or not is_read:
        raise Fault("Frame")
    return untagged(BRIDGED, it[size:])


def has_header(version: int, it: bytes) -> bool:
    if version == IPV4:
        return len(it) >= 20 and it[0] >> 4 == 4 and it[0] % 16 >= 5 and len(it) >= 4 * (it[0] % 16)
    return len(it) >= 40 and it[0] >> 4 == 6


def carried_by(version: int, it: bytes) -> Optional[tuple[int, Optional[Part], bytes]]:
    """What a packet carries, by its protocol; nothing where a header before it is cut or not read."""
    if version == IPV6:
        return over_headers(it[6], it[40 : 40 + number(it, 4)])
    flags, content = number(it, 6), it[4 * (it[0] % 16) : number(it, 2)]
    part = Part(number(it, 4), 8 * (flags % 8192), bool(flags & 0x2000)) if flags % 16384 else None
    if it[9] not in WRAPPING:
        return it[9], part, content
    return None if part else over_headers(it[9], content)


def ipv4(way: str, it: bytes) -> Packet:
    if not has_header(IPV4, it):
        raise Fault("Header")
    head, total, reached = 4 * (it[0] % 16), number(it, 2), carried_by(IPV4, it)
    if reached and reached[0] != UDP:
        raise Fault("Protocol")
    if total < head:
        raise Fault("Length")
    if len(it) < total:
        raise Fault("Cut")
    if not reached:
        raise Fault("Extension")
    _, part, content = reached
    return Packet(way, IPV4, it[12:16], it[16:20], UDP, part, content, it[:total])


def ipv6(way: str, it: bytes) -> Packet:
    if not has_header(IPV6, it):
        raise Fault("Header")
    total, reached = 40 + number(it, 4), carried_by(IPV6, it)
    if reached and reached[0] != UDP and not reached[1]:
        raise Fault("Protocol")
    if len(it) < total:
        raise Fault("Cut")
    if not reached:
        raise Fault("Extension")
    protocol, part, content = reached
    return Packet(way, IPV6, it[8:24], it[24:40], protocol, part, content, it[:total])


def over_headers(kind: int, content: bytes) -> Optional[tuple[int, Optional[Part], bytes]]:
    """What stands after all headers that are skipped; nothing where one runs beyond the bytes or is not read, as a
    routing header with segments left, or is one of a fragment that more follow and of no whole units of eight (RFC
    8200, sections 4.4 and 4.5), or of what may hold another packet."""
    while kind in EXTENSIONS or kind == FRAGMENT_HEADER:
        if len(content) < 8:
            return None
        if kind == FRAGMENT_HEADER and number(content, 2) & 0xFFF9:
            part = Part(number(content, 4, 4), number(content, 2) & 0xFFF8, bool(content[3] & 1))
            is_read = not (part.more and len(content) % 8) and content[0] not in WRAPPING
            return (content[0], part, content[8:]) if is_read else None
        if (kind == ROUTING and content[3]) or (kind == AUTHENTICATION and not content[1]):
            return None
        size = 4 * (content[1] + 2) if kind == AUTHENTICATION else 8 * (content[1] + 1)
        size = 8 if kind == FRAGMENT_HEADER else size
        if len(content) < size:
            return None
        kind, content = content[0], content[size:]
    return None if kind in UNREAD else (kind, None, content)


def unread_in(frame: Frame) -> Optional[str]:
    """The name of the header at which the reading of a frame ends: one on its own link, or in its innermost packet."""
    try:
        _, version, content = linked(frame.link, frame.content)
    except Fault as fault:
        return fault.name if isinstance(fault, Sealed) else None
    try:
        while inner := opened(version, content):
            version, content = inner
    except Fault:
        return None
    if version is None or not has_header(version, content):
        return None
    return unread_in_packet(version, content)


def unread_in_packet(version: int, it: bytes) -> Optional[str]:
    """In IPv4 the packet's own header names it, or it stands behind authentication in a whole packet."""
    if version == IPV6:
        return unread_over(it[6], it[40 : 40 + number(it, 4)])
    if it[9] != AUTHENTICATION:
        return HIDING.get(it[9])
    is_part = bool(number(it, 6) % 16384)
    return None if is_part else unread_over(AUTHENTICATION, it[4 * (it[0] % 16) : number(it, 2)])


def unread_over(kind: int, content: bytes) -> Optional[str]:
    """Over all headers that are skipped; that of a fragment names with what its packet goes on."""
    while kind in EXTENSIONS or kind == FRAGMENT_HEADER:
        if len(content) < 8:
            return None
        if kind == FRAGMENT_HEADER and number(content, 2) & 0xFFF9:
            return HIDING.get(content[0])
        if kind == ROUTING and content[3]:
            return ROUTED_ON
        size = 4 * (content[1] + 2) if kind == AUTHENTICATION else 8 * (content[1] + 1)
        size = 8 if kind == FRAGMENT_HEADER else size
        if len(content) < size or (kind == AUTHENTICATION and not content[1]):
            return None
        kind, content = content[0], content[size:]
    return UNREAD.get(kind)


class Udp(NamedTuple):
    """A datagram of UDP, and its bytes from the header on."""

    source: int
    target: int
    payload: bytes
    whole: bytes


def is_summed(content: bytes) -> bool:
    """Whether words of 16 bits, a checksum among them, add up to all ones in ones' complement (RFC 1071)."""
    total = 0
    for at in range(0, len(content), 2):
        total += number(content[at : at + 2] + bytes(1), 0)
        total = (total & 0xFFFF) + (total >> 16)
    return total == 0xFFFF


def sum_told(packet: Packet, it: Udp) -> str:
    """What the checksums of a datagram and of its packet say: partial where the sender left one to its network card."""
    pseudo = packet.source + packet.target + len(it.whole).to_bytes(4, "big") + UDP.to_bytes(4, "big")
    # The field is the sum of the pseudo header, and not its complement, with which that would add up to all ones.
    is_left = is_summed(pseudo + (number(it.whole, 6) ^ 0xFFFF).to_bytes(2, "big"))
    if packet.version == IPV4 and not is_summed(packet.whole[: 4 * (packet.whole[0] % 16)]):
        return "partial" if is_left or not number(packet.whole, 10) else "wrong"
    if not number(it.whole, 6):
        return "absent" if packet.version == IPV4 else "wrong"
    if is_summed(pseudo + it.whole):
        return "right"
    return "partial" if is_left else "wrong"


def udp_of(protocol: int, content: bytes) -> Udp:
    """The datagram that a whole content is."""
    reached = over_headers(protocol, content)
    if not reached or reached[1] or is_opened(*reached):
        raise Fault("Extension")
    if reached[0] != UDP:
        raise Fault("Protocol")
    it = reached[2]
    if len(it) < 8:
        raise Fault("Header")
    if not 8 <= number(it, 4) <= len(it):
        raise Fault("Length")
    if not number(it, 0) or not number(it, 2):
        raise Fault("Port")
    return Udp(number(it, 0), number(it, 2), it[8 : number(it, 4)], it[: number(it, 4)])


# ---- fragments


@dataclasses.dataclass
class Waiting:
    """The fragments of a packet that came: when the first did, their frames, their bytes by place, where it ends, what
    the one at place 0 names, and where each begins and ends and what it names."""

    began: Optional[int]
    frames: list[int] = dataclasses.field(default_factory=list)
    cells: dict[int, int] = dataclasses.field(default_factory=dict)
    reach: int = 0
    end: Optional[int] = None
    protocol: Optional[int] = None
    is_spoiled: bool = False
    extents: list[tuple[int, int, int]] = dataclasses.field(default_factory=list)

    def room(self) -> int:
        return 0 if self.is_spoiled else 2 * self.reach

    def is_old(self, time: Optional[int]) -> bool:
        return self.began is not None and time is not None and abs(self.began - time) > PATIENCE

    def overlaps(self, extent: tuple[int, int, int]) -> bool:
        """Whether it overlaps with another one that it does not repeat (RFC 8200, section 4.5)."""
        return any(it[0] < extent[1] and extent[0] < it[1] and it != extent for it in self.extents)

    def take(self, version: int, part: Part, protocol: int, content: bytes) -> bool:
        """Whether it can be of one packet with the others."""
        end = part.place + len(content)
        if version == IPV6 and self.overlaps((part.place, end, protocol)):
            return False
        if part.place == 0 and self.protocol not in (None, protocol):
            return False
        if self.end is not None and (end > self.end or (end == self.end) == part.more):
            return False
        if not part.more and self.end is None and end <= self.reach:
            return False
        if any(self.cells.get(part.place + k, byte) != byte for k, byte in enumerate(content)):
            return False
        self.cells.update((part.place + k, byte) for k, byte in enumerate(content))
        self.extents.append((part.place, end, protocol))
        self.reach = max(self.reach, end)
        self.end = self.end if part.more else end
        self.protocol = self.protocol if part.place else protocol
        return True

    def is_whole(self) -> bool:
        return self.end is not None and len(self.cells) == self.end


# Where a frame was recorded: its section, its interface there, and the number that its link header names.
Place = tuple[int, int, int]


def place_of(frame: Frame) -> Place:
    is_named = frame.link == 276 and len(frame.content) >= 20
    return *frame.where, number(frame.content, 4, 4) if is_named else 0


# The protocol tells packets of IPv4 apart alone (RFC 8200, section 4.5).
Key = tuple[bytes, bytes, Optional[int], int]


class Reader:
    """What waits, and what was found up to here."""

    def __init__(self) -> None:
        self.waiting: dict[Key, Waiting] = {}
        self.last: list[tuple[Place, Optional[int], bytes]] = []
        self.rows: list[str] = []
        self.left: list[tuple[int, str]] = []
        self.sums: list[tuple[int, str]] = []
        # The kinds of checksums that each host has sent.
        self.sent: dict[bytes, set[str]] = {}

    def leave(self, frames: list[int], why: str) -> None:
        self.left += [(frame, why) for frame in frames]

    def take(self, at: int, frame: Frame) -> None:
        """A frame, by its number."""
        try:
            packet = packet_of(frame)
            is_one = self.is_one(place_of(frame), frame.time, packet.whole)
            self.last = [*self.last, (place_of(frame), frame.time, packet.whole)][-NEXT:]
            if is_one and is_identified(packet):
                raise Fault("Copy")
            if packet.part:
                self.take_part(at, frame, packet, packet.part)
            else:
                self.add(at, frame, packet)
        except Fault as fault:
            self.leave([at], str(fault))

    def is_one(self, place: Place, time: Optional[int], whole: bytes) -> bool:
        """Whether a packet is one with one of the last, at another interface."""
        times = [other for there, other, it in self.last if it == whole and there != place]
        return time is not None and any(other is not None and abs(other - time) <= NEAR for other in times)

    def take_part(self, at: int, frame: Frame, packet: Packet, part: Part) -> None:
        """A fragment: it waits, or none is missing any more, or it is left out."""
        key = packet.source, packet.target, packet.protocol if packet.version == IPV4 else None, part.id
        if key in self.waiting and self.waiting[key].is_old(frame.time):
            self.leave(self.waiting.pop(key).frames, "FragmentOld")
        if not packet.content:
            raise Fault("FragmentEmpty")
        if part.place + len(packet.content) + part.more > LONGEST_PACKET:
            raise Fault("FragmentTooLong")
        it = self.waiting.setdefault(key, Waiting(frame.time))
        if it.is_spoiled or not it.take(packet.version, part, packet.protocol, packet.content):
            self.leave(it.frames + [at], "FragmentsApart")
            it.frames, it.is_spoiled = [], True
            return
        it.frames.append(at)
        if it.is_whole():
            del self.waiting[key]
            self.add_whole(at, frame, packet, it)

    def add_whole(self, at: int, frame: Frame, packet: Packet, it: Waiting) -> None:
        """A packet whose last missing part came; all its frames share its fate."""
        try:
            content = bytes(it.cells[k] for k in range(it.reach))
            protocol = packet.protocol if it.protocol is None else it.protocol
            self.add(at, frame, packet._replace(protocol=protocol, content=content))
        except Fault as fault:
            self.leave(it.frames, str(fault))

    def add(self, at: int, frame: Frame, packet: Packet) -> None:
        """A whole packet."""
        it = udp_of(packet.protocol, packet.content)
        if (told := sum_told(packet, it)) != "right":
            self.sums.append((at, told))
        # Its host discarded it, if its sender's host makes its checksums itself (RFC 1122, section 4.1.3.4).
        kinds = self.sent.setdefault(packet.source, set())
        if told == "wrong" and "right" in kinds and "partial" not in kinds:
            raise Fault("Discarded")
        kinds.add(told)
        way = packet.way if packet.way != "unknown" else frame.way
        time = "-" if frame.time is None else str(frame.time)
        ends = written(packet.source), str(it.source), written(packet.target), str(it.target)
        self.rows.append(" ".join(("datagram", str(at), time, way, *ends, it.payload.hex() or "-")))


def written(address: bytes) -> str:
    """An address as RFC 5952 writes it: of one in IPv6 that has an IPv4 one mapped in it, that in dotted decimal."""
    it: Union[ipaddress.IPv4Address, ipaddress.IPv6Address] = ipaddress.ip_address(address)
    if isinstance(it, ipaddress.IPv6Address) and it.ipv4_mapped:
        return f"::ffff:{it.ipv4_mapped}"
    return str(it)


def listing(file: bytes) -> Listing:
    """What a recording holds."""
    frames, fault, lost = frames_of(file)
    reader = Reader()
    for at, frame in enumerate(frames, 1):
        reader.take(at, frame)
    for it in reader.waiting.values():
        reader.leave(it.frames, "FragmentMissing")
    damaged = [at for at, frame in enumerate(frames, 1) if frame.is_damaged]
    ends = f"fault {len(frames) + 1} {fault}" if fault else ""
    unread = [(at, name) for at, frame in enumerate(frames, 1) if (name := unread_in(frame))]
    return Listing(reader.rows, sorted(reader.left), ends, damaged, lost, reader.sums, unread)
