"""The datagrams that tests_tools lists of recordings: those of examples/ and generated ones, of all link types, both
formats, tags, options, and fragments in any order. Each list is compared with what the recording was made of, and where
tshark is installed with its fields; and generated ones that are changed, compared with what a slow reader finds.

    datagrams.py PROGRAM [--cases N] [--changes N] [--seed S]

Prints each case that is not as it should be, then a last line 'N passed, M failed'; status 1 if any failed.
"""
from __future__ import annotations

import argparse
import dataclasses
import itertools
import random
import shutil
import struct
import subprocess
import sys
import tempfile
from collections.abc import Callable, Collection, Iterator

import recorded
from checks import Check
from fuzzing import slow_reader
from fuzzing.command import runnable, tell
from fuzzing.recording_changes import changed
from recorded import Datagram, Fragment, Frame, Interface
from repository import TOP

EXAMPLES = TOP / "examples"
HOSTS = {
    4: ("192.0.2.7", "192.0.2.1", "10.0.0.255", "127.0.0.1"),
    6: ("2001:db8::7", "2001:db8::1", "fe80::1:0:0:9", "::1", "2001:db8:0:1:1:1:1:1", "::ffff:192.0.2.9"),
}
# Kinds of frames that are no datagram of UDP, or not a whole one.
NOISE = (
    "another type", "another protocol", "a fragment of another protocol", "cut", "a wrong length", "port 0",
    "never whole",
)
FIELDS = (
    "frame.number", "frame.protocols", "frame.time_epoch", "ip.src", "ip.dst", "ipv6.src", "ipv6.dst", "udp.srcport",
    "udp.dstport", "udp.length", "udp.payload",
)
# What begins a file that is no recording.
OTHERS = {
    "empty": b"", "a text": b"tftp-capture 1\nend client\n", "ELF": b"\x7fELF\2\1\1" + bytes(60),
    "gzip": b"\x1f\x8b\x08\0" + bytes(60), "zeros": bytes(64), "three bytes": b"\xd4\xc3\xb2",
}


@dataclasses.dataclass
class Made:
    """A recording, the lines of its datagrams, the numbers of the frames that are left out, whether tshark reads it as
    RFC 8200 has it, the frames that were received with an error, how many packets were lost, and the datagrams whose
    checksums are not right."""

    file: bytes
    rows: list[str]
    left: list[int]
    is_compared: bool
    damaged: list[int]
    lost: int
    sums: list[tuple[int, str]]


@dataclasses.dataclass
class Told:
    """What the program tells: the lines of datagrams, the frames left out with their kinds, the line of a fault, the
    status, the frames that were received with an error, how many packets were lost, the datagrams whose checksums
    are not right, and the frames with a header that is not read, with its name."""

    rows: list[str]
    left: list[tuple[int, str]]
    fault: str
    status: int
    damaged: list[int]
    lost: int
    sums: list[tuple[int, str]]
    unread: list[tuple[int, str]]


@dataclasses.dataclass
class Twice:
    """A way in which a packet is recorded twice: the link, what stands in front of the first and of the second, the
    file of both frames, and whether they are of two interfaces."""

    name: str
    link: int
    front: Callable[[int], bytes]
    file: Callable[[list[Frame]], bytes]
    is_elsewhere: bool


def classic(frames: list[Frame]) -> bytes:
    return recorded.pcap(frames, is_nano=True)


def blocks(places: tuple[int, int], sections: int = 1) -> Callable[[list[Frame]], bytes]:
    """A file in the format pcapng whose two frames are of these interfaces, in one section or in two."""

    def file(frames: list[Frame]) -> bytes:
        interfaces, chance = [Interface(frames[0].link, 9)] * 2, random.Random(1)
        held: list[tuple[int, recorded.Block]] = [(place, frame) for place, frame in zip(places, frames)]
        cuts = [held] if sections == 1 else [held[:1], held[1:]]
        return b"".join(recorded.section("<", interfaces, cut, chance) for cut in cuts)

    return file


def cooked_two(numbers: tuple[int, int]) -> Callable[[int], bytes]:
    """The head of Linux cooked, version 2, with these numbers of the interface."""
    return lambda index: struct.pack("!HHIHBB8s", recorded.IPV4, 0, numbers[index], 1, 2, 6, bytes(8))


COOKED_ONE = struct.pack("!HHH8sH", 2, 1, 6, bytes(8), recorded.IPV4)
TWICE = (
    Twice("in one classic recording", recorded.RAW, lambda _: b"", classic, False),
    Twice("at one interface", recorded.RAW, lambda _: b"", blocks((1, 1)), False),
    Twice("at two interfaces", recorded.RAW, lambda _: b"", blocks((0, 1)), True),
    Twice("in two sections", recorded.RAW, lambda _: b"", blocks((0, 0), 2), True),
    Twice("in Linux cooked", recorded.COOKED, lambda _: COOKED_ONE, classic, False),
    Twice("in Linux cooked 2, of one interface", recorded.COOKED_2, cooked_two((3, 3)), classic, False),
    Twice("in Linux cooked 2, of two interfaces", recorded.COOKED_2, cooked_two((3, 4)), classic, True),
)


# Headers of IPv6 by their number and what follows their first byte, and whether what is behind them is read.
AUTHENTICATION, MOBILITY, ESP = 51, 135, 50
HOME = bytes.fromhex("20010db8000000000000000000000009")
HEADERS = {
    "a routing header with no segment left": (True, recorded.ROUTING, bytes([2, 2, 0, 0, 0, 0, 0]) + HOME),
    "a routing header with a segment left": (False, recorded.ROUTING, bytes([2, 2, 1, 0, 0, 0, 0]) + HOME),
    "an authentication header": (True, AUTHENTICATION, bytes([4, 0, 0, 0, 0, 1, 0, 0, 0, 0, 1]) + bytes(12)),
    "a fragment of twelve bytes that more follow": (False, recorded.FRAGMENT, bytes([0, 0, 1, 0, 0, 0, 7])),
    "a mobility header": (False, MOBILITY, bytes([0, 0, 0, 0, 0, 0, 0])),
    "ESP": (False, ESP, bytes([0, 1, 0, 0, 0, 0, 1])),
}

# ---- what stands before a packet, between a link and IP, and round another packet

RING, STREAM, MIRROR, MIRROR_THREE, VXLAN, GENEVE = 0x892F, 0xF1C1, 0x88BE, 0x22EB, 4789, 6081
SNAP, SESSION, LABELS, MULTICAST_LABELS, BRIDGED = bytes.fromhex("aaaa03000000"), 0x8864, 0x8847, 0x8848, 0x6558
PPP = {4: 0x21, 6: 0x57}
IN_IP, GRE = {4: 4, 6: 41}, 47
TUNNEL = {
    4: Datagram("198.51.100.1", 1, "198.51.100.2", 1, b""), 6: Datagram("2001:db8:1::1", 1, "2001:db8:1::2", 1, b""),
}


def version_of(packet: bytes) -> int:
    return packet[0] >> 4


def type_of(packet: bytes) -> int:
    return recorded.IPV4 if version_of(packet) == 4 else recorded.IPV6


def with_snap(packet: bytes) -> tuple[int, bytes]:
    """The length, and LLC with SNAP before the packet (RFC 1042)."""
    front = SNAP + struct.pack("!H", type_of(packet))
    return len(front) + len(packet), front + packet


def with_session(packet: bytes) -> tuple[int, bytes]:
    """In a session of PPPoE (RFC 2516)."""
    return SESSION, struct.pack("!BBHHH", 0x11, 0, 7, 2 + len(packet), PPP[version_of(packet)]) + packet


def with_labels(count: int, kind: int = LABELS) -> Callable[[bytes], tuple[int, bytes]]:
    """Behind so many labels of MPLS (RFC 3032)."""

    def labelled(packet: bytes) -> tuple[int, bytes]:
        labels = (16 + place << 12 | (0x100 if place + 1 == count else 0) | 64 for place in range(count))
        return kind, b"".join(struct.pack("!I", label) for label in labels) + packet

    return labelled


def numbered(kind: int, first: int) -> Callable[[bytes], tuple[int, bytes]]:
    """Behind a tag with a number: of HSR (IEC 62439-3), whose first bytes have a path and a length, or of FRER (IEEE
    802.1CB), whose first are 0."""
    return lambda packet: (kind, struct.pack("!HHH", first, 9, type_of(packet)) + packet)


# A length is so long at most, of which LLC and SNAP have 8.
LONGEST_LENGTH, LONGEST_IN_SNAP, COOKED_LLC = 1_500, 1_492, 4

# None of these, and each of them: a type, and what stands behind it.
SHIMS: dict[str, Callable[[bytes], tuple[int, bytes]]] = {
    "nothing": lambda packet: (type_of(packet), packet), "LLC and SNAP": with_snap, "PPPoE": with_session,
    "a label of MPLS": with_labels(1), "three labels of MPLS": with_labels(3, MULTICAST_LABELS),
    "HSR": numbered(RING, 0x1026), "FRER": numbered(STREAM, 0),
}


def outer(version: int, content: bytes, protocol: int) -> bytes:
    """The packet of a tunnel."""
    it = TUNNEL[version]
    return recorded.ipv4(it, content, protocol) if version == 4 else recorded.ipv6(it, content, protocol)


def in_ip(version: int) -> Callable[[bytes], bytes]:
    """In IP (RFC 2003; RFC 2473; RFC 4213)."""
    return lambda packet: outer(version, packet, IN_IP[version_of(packet)])


def in_gre(version: int, flags: int, shim: str = "nothing") -> Callable[[bytes], bytes]:
    """In GRE with these flags (RFC 2784; RFC 2890): of a checksum, of a key, of a number."""

    def wrapped(packet: bytes) -> bytes:
        kind, content = SHIMS[shim](packet)
        fields = sum(1 for flag in (0x8000, 0x2000, 0x1000) if flags & flag)
        head = bytearray(struct.pack("!HH", flags, kind) + bytes(4 * fields))
        if flags & 0x8000:
            head[4:6] = struct.pack("!H", recorded.sum_of(bytes(head) + content))
        return outer(version, bytes(head) + content, GRE)

    return wrapped


def bridged(packet: bytes) -> bytes:
    """A frame of Ethernet with a tag in GRE."""
    frame = bytes(range(12)) + struct.pack("!HHH", 0x8100, 5, type_of(packet)) + packet
    return outer(4, struct.pack("!HH", 0, BRIDGED) + frame, GRE)


def framed(packet: bytes, shim: str = "nothing") -> bytes:
    """A frame of Ethernet, with what stands before the packet."""
    kind, content = SHIMS[shim](packet)
    return bytes(range(12)) + struct.pack("!H", kind) + content


def in_erspan(kind: int, flags: int, head: bytes) -> Callable[[bytes], bytes]:
    """A frame in ERSPAN, behind its header in GRE with a number or without (draft-foschiano-erspan-03)."""
    front = struct.pack("!HH", flags, kind) + (bytes(4) if flags else b"") + head
    return lambda packet: outer(4, front + framed(packet), GRE)


def over_udp(version: int, port: int, payload: bytes) -> bytes:
    """A datagram of a tunnel, without a checksum, as RFC 7348 and RFC 6935 have it."""
    it = dataclasses.replace(TUNNEL[version], source_port=50_000, target_port=port, payload=payload)
    return outer(version, recorded.udp(it, kind="absent"), recorded.UDP)


def in_vxlan(version: int, shim: str = "nothing") -> Callable[[bytes], bytes]:
    """A frame in VXLAN (RFC 7348, section 5)."""
    return lambda packet: over_udp(version, VXLAN, bytes((8, 0, 0, 0, 1, 2, 3, 0)) + framed(packet, shim))


def in_geneve(version: int, options: bytes = b"", is_framed: bool = False) -> Callable[[bytes], bytes]:
    """A packet or a frame in Geneve, with options (RFC 8926, section 3.4)."""

    def wrapped(packet: bytes) -> bytes:
        kind, content = (BRIDGED, framed(packet)) if is_framed else (type_of(packet), packet)
        head = struct.pack("!BBH4s", len(options) // 4, 0x40 if options else 0, kind, bytes((1, 2, 3, 0)))
        return over_udp(version, GENEVE, head + options + content)

    return wrapped


def authenticated(packet: bytes) -> bytes:
    """A whole packet in an authentication header (RFC 4302, section 3.1.2)."""
    return outer(4, bytes([IN_IP[version_of(packet)], 4]) + bytes(10) + bytes(range(12)) + packet, AUTHENTICATION)


def behind_header(packet: bytes) -> bytes:
    """What a packet of IPv4 without options carries, behind an authentication header, with the right checksum where it
    has one; a fragment is left as it is."""
    if version_of(packet) != 4 or packet[0] != 0x45 or packet[6] & 0x3F or packet[7]:
        return packet
    content = bytes([packet[9], 4]) + bytes(10) + bytes(range(12)) + packet[20:]
    head = packet[:2] + struct.pack("!H", 20 + len(content)) + packet[4:9] + bytes([AUTHENTICATION]) + packet[10:20]
    if recorded.sum_of(packet[:20]):
        return head + content
    return head[:10] + struct.pack("!H", recorded.sum_of(head[:10] + bytes(2) + head[12:])) + head[12:] + content


# ERSPAN of type III: version 2, VLAN 5, session 100, a time.
ERSPAN_THREE = bytes((0x20, 5, 0, 100, 0, 0, 0, 9))
# No tunnel, and each of them.
TUNNELS: dict[str, Callable[[bytes], bytes]] = {
    "none": lambda packet: packet, "IPv4": in_ip(4), "IPv6": in_ip(6), "GRE": in_gre(4, 0),
    "GRE in IPv6": in_gre(6, 0x2000), "GRE with all fields": in_gre(4, 0xB000),
    "MPLS in GRE": in_gre(4, 0x1000, "three labels of MPLS"), "Ethernet in GRE": bridged,
    "authentication round a packet": authenticated, "authentication": behind_header,
    "IPv4 in GRE": lambda packet: in_gre(4, 0)(in_ip(4)(packet)),
    "three": lambda packet: in_ip(6)(in_ip(4)(in_gre(6, 0)(packet))),
    "ERSPAN I": in_erspan(MIRROR, 0, b""), "ERSPAN II": in_erspan(MIRROR, 0x1000, bytes((0x10, 5, 0, 100, 0, 0, 0, 7))),
    "ERSPAN III": in_erspan(MIRROR_THREE, 0x1000, ERSPAN_THREE + bytes(4)),
    "ERSPAN III with more": in_erspan(MIRROR_THREE, 0x1000, ERSPAN_THREE + bytes((0, 0, 0, 1, 12)) + bytes(7)),
    "VXLAN": in_vxlan(4), "VXLAN over IPv6": in_vxlan(6, "three labels of MPLS"), "Geneve": in_geneve(4),
    "Geneve with an option": in_geneve(6, bytes.fromhex("01028001aabbccdd"), True),
    "VXLAN in Geneve": lambda packet: in_geneve(4, is_framed=True)(in_vxlan(4)(packet)),
}

VXLAN_HEAD = bytes((8, 0, 0, 0, 1, 2, 3, 0))

# What is not read, by its content behind a header of IPv4 or of Ethernet, and why it is left out.
UNREAD: dict[str, tuple[str, Callable[[bytes], bytes]]] = {
    "ESP": ("Extension", lambda packet: outer(4, struct.pack("!II", 256, 1) + packet, ESP)),
    "IPComp": ("Extension", lambda packet: outer(4, bytes([17, 0, 0, 9]) + packet, 108)),
    "L2TP": ("Extension", lambda packet: outer(4, bytes([0, 0, 0, 9]) + packet, 115)),
    "an authentication header of no length": (
        "Extension", lambda packet: outer(4, bytes([4, 0]) + bytes(10) + packet, AUTHENTICATION),
    ),
    "a fragment of a tunnel's packet": (
        "Extension", lambda packet: recorded.ipv4(TUNNEL[4], packet[:24], 4, Fragment(9, 0, True)),
    ),
    "a fragment of authentication": (
        "Extension", lambda packet: recorded.ipv6(TUNNEL[6], packet[:24], AUTHENTICATION, Fragment(9, 0, True)),
    ),
    "GRE of version 1": ("Frame", lambda packet: outer(4, bytes([0x20, 1, 0x88, 0x0B, 0, 0, 0, 0]) + packet, GRE)),
    "GRE with routing": ("Frame", lambda packet: outer(4, bytes([0x40, 0, 8, 0]) + packet, GRE)),
    "GRE of another type": ("Frame", lambda packet: outer(4, bytes([0, 0, 0x88, 0x3E]) + packet, GRE)),
    "GRE that ends in its key": ("Frame", lambda packet: outer(4, bytes([0x20, 0, 8, 0, 0]), GRE)),
    "IP in IP without a header": ("Header", lambda packet: outer(4, packet[:10], 4)),
    "IP in IP that is cut": ("Cut", lambda packet: outer(4, packet[:-1], 4)),
    "ERSPAN of another version": ("Frame", in_erspan(MIRROR, 0x1000, bytes((0x20, 5, 0, 100, 0, 0, 0, 7)))),
    "ERSPAN of a packet": ("Frame", in_erspan(MIRROR_THREE, 0x1000, ERSPAN_THREE + bytes((0, 0, 8, 0)))),
    "ERSPAN that is cut": ("Frame", lambda packet: outer(4, struct.pack("!HHI", 0x1000, MIRROR, 9) + b"\x10\5", GRE)),
    "VXLAN that ends in its header": ("Frame", lambda packet: over_udp(4, VXLAN, bytes((8, 0, 0, 0)))),
    "ARP in VXLAN": ("Network", lambda packet: over_udp(4, VXLAN, VXLAN_HEAD + bytes(12) + b"\x08\6" + bytes(28))),
    "Geneve of another type": ("Frame", lambda packet: over_udp(4, GENEVE, bytes((0, 0, 8, 6, 1, 2, 3, 0)) + packet)),
    "Geneve that ends in its options": (
        "Frame", lambda packet: over_udp(4, GENEVE, bytes((2, 0, 8, 0, 1, 2, 3, 0, 1))),
    ),
    "TCP in IP": ("Protocol", lambda packet: outer(4, recorded.ipv4(TUNNEL[4], bytes(20), recorded.TCP), 4)),
}
# What is not read behind the type of a frame of Ethernet.
UNREAD_FRAMES: dict[str, tuple[str, int, bytes]] = {
    "LLC of spanning trees": ("Network", 38, bytes.fromhex("424203") + bytes(43)),
    "SNAP of another organization": ("Network", 40, bytes.fromhex("aaaa0300000c2000") + bytes(38)),
    "a length, and no more": ("Frame", 40, b""),
    "SNAP that is cut": ("Frame", 40, SNAP[:4]),
    "the end of PPP": ("Network", SESSION, bytes([0x11, 0, 0, 7, 0, 4, 0xC0, 0x21, 9, 1])),
    "what PPP compresses": ("Frame", SESSION, bytes([0x11, 0, 0, 7, 0, 4, 0, 0xFD, 9, 1])),
    "PPPoE of another code": ("Frame", SESSION, bytes([0x11, 9, 0, 7, 0, 4, 0, 0x21, 9, 1])),
    "a label before none of IP": ("Frame", LABELS, bytes([0, 1, 1, 64, 0, 0, 0, 0]) + bytes(20)),
    "labels without an end": ("Frame", LABELS, bytes([0, 1, 0, 64]) * 3),
    "HSR that is cut": ("Frame", RING, bytes((0, 38, 0))),
    "MACsec": ("Frame", 0x88E5, bytes((0x20, 0, 0, 0, 0, 9)) + bytes(44)),
    "a tag of Marvell's": ("Frame", 0xDADA, bytes((0, 0, 0xC0, 0, 0, 1, 8, 0)) + bytes(40)),
    "TRILL": ("Frame", 0x22F3, bytes(46)),
}

# What of these is told by a name.
NAMED = {
    "MACsec": "MACsec (IEEE 802.1AE)", "a tag of Marvell's": "a tag of Marvell's switches", "TRILL": "TRILL (RFC 6325)",
    "a routing header with a segment left": "a routing header with segments left (RFC 8200)",
    "a mobility header": "a mobility header (RFC 6275)", "ESP": "ESP (RFC 4303)", "IPComp": "IPComp (RFC 3173)",
    "L2TP": "L2TP (RFC 3931)",
}

# What goes to the port of a tunnel and is none: it begins as TFTP does (RFC 1350, section 5), or has a reserved bit.
PLAIN = {
    "DATA to the port of VXLAN": (VXLAN, b"\0\3\0\1" + bytes(512)), "ACK to that of Geneve": (GENEVE, b"\0\4\0\1"),
    "DATA to that of Geneve": (GENEVE, b"\0\3\0\1" + bytes(512)), "OACK to that of Geneve": (GENEVE, b"\0\6a\0b\0"),
    "VXLAN without its flag": (VXLAN, bytes(8) + bytes(range(60))),
    "VXLAN with another flag": (VXLAN, bytes((0x88, 0, 0, 9, 1, 2, 3, 0)) + bytes(60)),
    "Geneve of version 1": (GENEVE, bytes((0x40, 0, 8, 0, 1, 2, 3, 0)) + bytes(60)),
    "Geneve that is of control": (GENEVE, bytes((0, 0x80, 8, 0, 1, 2, 3, 0)) + bytes(60)),
}

# Fragments of 40 bytes by where each begins and ends, and whether they are put together in IPv6 too.
OVERLAPS = {
    "a fragment that begins in another": (False, ((0, 16), (8, 32), (32, 40))),
    "a fragment that ends in another": (False, ((8, 32), (0, 16), (32, 40))),
    "a fragment in another": (False, ((0, 32), (8, 16), (32, 40))),
    "a fragment round another": (False, ((8, 16), (32, 40), (0, 32))),
    "a fragment that comes again": (True, ((0, 16), (16, 32), (0, 16), (32, 40))),
    "the last fragment comes again": (True, ((32, 40), (0, 16), (32, 40), (16, 32))),
}


def row(number: int, frame: Frame, it: Datagram) -> str:
    """The line of a datagram whose last part is this frame."""
    time = str(frame.time) if frame.is_timed else "-"
    way = frame.direction if frame.direction != "unknown" else frame.flags
    ends = it.source, it.source_port, it.target, it.target_port
    return " ".join(str(word) for word in ("datagram", number, time, way, *ends, it.payload.hex() or "-"))


class Maker:
    """Makes the frames of a recording of one section or file, with identifications from a first one on."""

    def __init__(self, chance: random.Random, links: list[int], first: int = 1) -> None:
        self.chance, self.links, self.id, self.time = chance, links, first, recorded.FIRST_TIME
        # tshark puts only fragments of one VLAN together.
        self.tags = chance.choice(recorded.TAGGED)
        # What stands before packets, and round them: now and then.
        self.shim = chance.choice(tuple(SHIMS)) if chance.random() < 0.3 else "nothing"
        self.tunnel = chance.choice(tuple(TUNNELS)) if chance.random() < 0.3 else "none"
        # Whether fragments of IPv6 name anything, but for the first, where tshark goes by the one that comes last.
        self.is_naming = chance.random() < 0.2
        # Whether hosts leave checksums to their network cards.
        self.left: tuple[recorded.Sum, ...] = ("partial",) if chance.random() < 0.3 else ()

    def datagram(self, most: int = 60) -> Datagram:
        version = self.chance.choice((4, 4, 6))
        source, target = self.chance.sample(HOSTS[version], 2)
        ports = self.chance.randrange(1, 65_536), self.chance.choice((69, 4_000, 65_535))
        return Datagram(source, ports[0], target, ports[1], self.chance.randbytes(self.chance.randrange(most)))

    def packet(
        self, it: Datagram, content: bytes, protocol: int = recorded.UDP, part: Fragment | None = None,
        header_sum: int | None = None,
    ) -> bytes:
        if it.version == 4:
            options = bytes(4 * self.chance.choice((0, 0, 1, 10)))
            return recorded.ipv4(it, content, protocol, part, options, header_sum=header_sum)
        every = (recorded.HOP_BY_HOP, recorded.ROUTING, recorded.DESTINATION)
        kinds = self.chance.choice(((), (), (recorded.HOP_BY_HOP,), every))
        return recorded.ipv6(it, content, protocol, part, kinds)

    def frame(self, packet: bytes, kind: int | None = None, links: list[int] | None = None) -> Frame:
        link, way = self.chance.choice(links or self.links), self.chance.choice(tuple(recorded.DIRECTIONS))
        is_cooked = link in (recorded.COOKED, recorded.COOKED_2)
        self.time += recorded.MILLISECOND
        if kind is None:
            packet = TUNNELS[self.tunnel](packet)
            if is_cooked or link == recorded.ETHERNET:
                kind, packet = SHIMS[self.shim_of(packet)](packet)
                # Linux cooked has a number of its own for LLC (tcpdump.org/linktypes/LINKTYPE_LINUX_SLL.html).
                kind = COOKED_LLC if is_cooked and kind <= LONGEST_LENGTH else kind
        content = recorded.carried(link, packet, self.chance, way if is_cooked else "unknown", kind, self.tags)
        return Frame(link, content, self.time, way if is_cooked else "unknown")

    def shim_of(self, packet: bytes) -> str:
        """What stands before a packet: LLC before none that is longer than a frame."""
        return "nothing" if self.shim == "LLC and SNAP" and len(packet) > LONGEST_IN_SNAP else self.shim

    def summed(self, it: Datagram) -> tuple[recorded.Sum, recorded.Sum]:
        """The kind of a datagram's checksum, and what is told of it: none is wrong over IPv6 (RFC 8200, section
        8.1)."""
        kinds: tuple[recorded.Sum, ...] = ("right", "right", "absent", "wrong", *self.left)
        kind = self.chance.choice(kinds)
        return kind, "wrong" if kind == "absent" and it.version == 6 else kind

    def whole(self) -> list[tuple[Frame, Datagram | None]]:
        """A datagram in one frame, with bytes behind it now and then."""
        it = self.datagram()
        kind, told = self.summed(it)
        surplus = self.chance.randbytes(self.chance.choice((0, 0, 0, 4)))
        # The header of IPv4 has a checksum of its own: the right one, one of no packet here, or 0.
        header_sum = self.chance.choice((None, None, None, None, 0x1357, *(0 for _ in self.left)))
        frame = self.frame(self.packet(it, recorded.udp(it, surplus=surplus, kind=kind), header_sum=header_sum))
        frame.sum = told
        if it.version == 4 and header_sum is not None:
            frame.sum = "partial" if header_sum == 0 or kind == "partial" else "wrong"
        return [(frame, it)]

    def parted(self) -> list[tuple[Frame, Datagram | None]]:
        """A datagram in fragments, in any order, one of them perhaps twice."""
        it, self.id = self.datagram(3_000), self.id + 1
        kind, told = self.summed(it)
        size = recorded.EIGHT * self.chance.randrange(1 + len(it.payload) // 80, 200)
        parts = recorded.parts_of(recorded.udp(it, kind=kind), size, self.id)
        if len(parts) == 1:
            return self.whole()
        self.chance.shuffle(parts)
        link = [self.chance.choice(self.links)]
        packets = [self.packet(it, content, self.named(it, part), part) for part, content in parts]
        frames = [self.frame(packet, links=link) for packet in packets]
        frames[-1].sum, frames[-1].others = told, frames[:-1]
        return [(frame, None) for frame in frames[:-1]] + [(frames[-1], it)]

    def named(self, it: Datagram, part: Fragment) -> int:
        """The protocol that a fragment names: only that of the first counts in IPv6 (RFC 8200, section 4.5)."""
        if it.version == 4 or part.place == 0 or not self.is_naming:
            return recorded.UDP
        return self.chance.choice((recorded.UDP, recorded.ICMP, recorded.TCP, recorded.DESTINATION))

    def noise(self, kind: str) -> Frame:
        """A frame that is no datagram, or not a whole one."""
        it, self.id = self.datagram(), self.id + 1
        if kind == "another type" and self.typed():
            return self.frame(bytes(28), recorded.ARP, self.typed())
        if kind == "a fragment of another protocol":
            return self.frame(self.packet(it, bytes(16), recorded.ICMP, Fragment(self.id, 0, True)))
        if kind == "cut":
            whole = self.frame(self.packet(it, recorded.udp(dataclasses.replace(it, payload=bytes(80)))))
            return dataclasses.replace(whole, content=whole.content[:-40], original=len(whole.content))
        if kind == "a wrong length":
            return self.frame(self.packet(it, recorded.udp(it, self.chance.choice((0, 7, 9 + len(it.payload))))))
        if kind == "port 0":
            return self.frame(self.packet(it, recorded.udp(dataclasses.replace(it, source_port=0))))
        if kind == "never whole":
            return self.frame(self.packet(it, bytes(24), part=Fragment(self.id, 8 * self.chance.randrange(3), True)))
        return self.frame(self.packet(it, bytes(20), recorded.TCP))

    def typed(self) -> list[int]:
        """The links of this recording whose frames name what they carry."""
        return [it for it in self.links if it in (recorded.ETHERNET, recorded.COOKED, recorded.COOKED_2)]

    def frames(self, count: int) -> list[tuple[Frame, Datagram | None, bool]]:
        """So many datagrams and as much noise: each frame, the datagram that it ends, and whether it is left out."""
        streams: list[list[tuple[Frame, Datagram | None, bool]]] = []
        for _ in range(count):
            chosen = self.chance.random()
            if chosen < 0.4:
                streams.append([(frame, it, False) for frame, it in self.whole()])
            elif chosen < 0.6:
                streams.append([(frame, it, False) for frame, it in self.parted()])
            else:
                streams.append([(self.noise(self.chance.choice(NOISE)), None, True)])
        places = [place for place, stream in enumerate(streams) for _ in stream]
        self.chance.shuffle(places)
        taken = [streams[place].pop(0) for place in places]
        for place, (frame, _, _) in enumerate(taken):
            frame.time = recorded.FIRST_TIME + place * recorded.MILLISECOND
        return taken


def made_pcap(chance: random.Random) -> Made:
    """A file in the format pcap, in either order of bytes, in micro- or nanoseconds."""
    maker = Maker(chance, [chance.choice(recorded.LINKS)])
    taken = maker.frames(chance.randrange(20))
    file = recorded.pcap([frame for frame, _, _ in taken], chance.choice("<>"), chance.random() < 0.5)
    return listed(file, taken, not maker.is_naming)


def made_pcapng(chance: random.Random) -> Made:
    """A file in the format pcapng, of one to three sections with one to three interfaces each."""
    file, everything, is_naming, first = b"", [], False, 1
    lost = 0
    for _ in range(chance.randrange(1, 4)):
        links = [chance.choice(recorded.LINKS) for _ in range(chance.randrange(1, 4))]
        # No two packets of a file have one identification, also not in two sections.
        order, maker = chance.choice("<>"), Maker(chance, links, first)
        units, offsets = (None, 6, 9, 3, 0x80 | 20), (0, 0, 3_600)
        interfaces = [Interface(link, chance.choice(units), chance.choice(offsets)) for link in links]
        taken = maker.frames(chance.randrange(12))
        blocks: list[tuple[int, recorded.Block]] = []
        for frame, it, is_left in taken:
            place = chance.choice([at for at, link in enumerate(links) if link == frame.link])
            if frame.direction == "unknown":
                frame.flags = chance.choice(tuple(recorded.DIRECTIONS))
            # A simple packet block is of the first interface, and has no time and no length of its own.
            frame.is_timed = bool(place) or frame.original is not None or chance.random() < 0.8
            if not frame.is_timed:
                frame.flags = "unknown"
            elif frame.flags != "unknown":
                frame.is_damaged = chance.random() < 0.1
            frame.time = rounded(interfaces[place], frame.time)
            blocks.append((place, frame))
            if chance.random() < 0.2:
                blocks.append((0, recorded.other_block(order, chance)))
        counted = [counted_at(order, place, blocks, chance) for place in range(len(links))]
        lost += sum(it.lost for it in counted)
        blocks += [(0, it) for one in counted for it in one.blocks]
        file += recorded.section(order, interfaces, blocks, chance)
        everything += taken
        is_naming |= maker.is_naming
        first = maker.id + 1
    return listed(file, everything, not is_naming, lost)


@dataclasses.dataclass
class Counted:
    """Statistics blocks of an interface, and how many packets it lost."""

    blocks: list[bytes]
    lost: int


def counted_at(order: str, place: int, blocks: list[tuple[int, recorded.Block]], chance: random.Random) -> Counted:
    """What an interface of a section lost: its packets' counts are chosen, and blocks of statistics, of which the
    greatest counts."""
    missed = 0
    for at, it in blocks:
        if at == place and not isinstance(it, bytes) and it.is_timed and chance.random() < 0.2:
            it.missed = chance.choice((0, 1, 3, 65_534))
            missed += it.missed
    counts = [(chance.randrange(5), chance.randrange(5)) for _ in range(chance.choice((0, 0, 1, 2)))]
    told = [
        recorded.statistics(order, place, (recorded.IF_DROP, dropped), (recorded.OS_DROP, system))
        for dropped, system in counts
    ]
    return Counted(told, max([missed, *(dropped + system for dropped, system in counts)]))


def rounded(interface: Interface, time: int) -> int:
    """The time that an interface's unit can say."""
    unit = 6 if interface.unit is None else interface.unit
    ticks = interface.ticks(time)
    since = (ticks * 1_000_000_000) >> (unit & 127) if unit & 128 else ticks * int(10 ** (9 - unit))
    return since + interface.offset * 1_000_000_000


def discarded(taken: list[tuple[Frame, Datagram | None, bool]]) -> list[int]:
    """The places of the datagrams that their hosts discarded: of those with a wrong checksum, where the sender's host
    had sent one with a right one, and none with one that was left to its network card (RFC 1122, sections 3.2.1.2 and
    4.1.3.4)."""
    sent: list[tuple[recorded.Sum, str]] = []
    found = []
    for place, (frame, it, _) in enumerate(taken):
        if it:
            if frame.sum == "wrong" and ("right", it.source) in sent and ("partial", it.source) not in sent:
                found.append(place)
            sent.append((frame.sum, it.source))
    return found


def listed(file: bytes, taken: list[tuple[Frame, Datagram | None, bool]], is_compared: bool, lost: int = 0) -> Made:
    numbered, gone = list(enumerate(taken, 1)), [taken[place][0] for place in discarded(taken)]
    lost_with = [id(frame) for ends in gone for frame in (ends, *ends.others)]
    rows = [row(number, frame, it) for number, (frame, it, _) in numbered if it and id(frame) not in lost_with]
    damaged = [number for number, (frame, _, _) in numbered if frame.is_damaged]
    left = [number for number, (frame, _, is_left) in numbered if is_left or id(frame) in lost_with]
    sums = [(number, str(frame.sum)) for number, (frame, it, _) in numbered if it and frame.sum != "right"]
    return Made(file, rows, left, is_compared, damaged, lost, sums)


class Lists:
    """The program's lists, and what they should be."""

    def __init__(self, program: str) -> None:
        self.program, self.tshark = program, shutil.which("tshark")

    def tell(self, file: bytes) -> Told:
        """All that the program says of a recording."""
        done = subprocess.run([self.program, "datagrams"], input=file, capture_output=True, timeout=120)
        told = Told([], [], done.stderr.decode(), done.returncode, [], 0, [], [])
        for line in done.stdout.decode().splitlines():
            word, _, rest = line.partition(" ")
            if word == "datagram":
                told.rows.append(line)
            elif word == "left":
                number, kind = rest.split(" ", 1)
                told.left.append((int(number), kind))
            elif word == "checksum":
                number, kind = rest.split(" ", 1)
                told.sums.append((int(number), kind))
            elif word == "unread":
                number, kind = rest.split(" ", 1)
                told.unread.append((int(number), kind))
            elif word == "damaged":
                told.damaged.append(int(rest))
            elif word == "lost":
                told.lost += int(rest)
            else:
                told.fault += line
        return told

    def run(self, file: bytes) -> tuple[list[str], list[tuple[int, str]], str, int]:
        """The lines of datagrams, the frames left out with their kinds, the line of a fault, and the status."""
        told = self.tell(file)
        return told.rows, told.left, told.fault, told.status

    def try_made(self, name: str, it: Made) -> Iterator[Check]:
        """A generated recording: its datagrams, what is left out, and the same of its beginning."""
        told = self.tell(it.file)
        rows, left, fault, status = told.rows, told.left, told.fault, told.status
        yield Check(f"{name}, datagrams", rows == it.rows, difference(rows, it.rows))
        yield Check(f"{name}, received with an error", told.damaged == it.damaged, (told.damaged, it.damaged))
        yield Check(f"{name}, lost", told.lost == it.lost, (told.lost, it.lost))
        yield Check(f"{name}, checksums", told.sums == it.sums, (told.sums, it.sums))
        yield Check(f"{name}, left out", sorted({frame for frame, _ in left}) == it.left, (left, it.left))
        counted = [int(row.split()[1]) for row in rows] + [frame for frame, _ in left]
        yield Check(f"{name}, each frame once", len(set(counted)) == len(counted), sorted(counted))
        yield Check(f"{name}, its end", (fault, status) == ("", 0), (fault, status))
        if self.tshark and it.is_compared:
            yield from self.compare(name, it.file, rows, {frame for frame, kind in left if kind == "Discarded"})

    def try_changed(self, name: str, file: bytes) -> Iterator[Check]:
        """A changed recording: all that the program says of it is what the slow reader says."""
        told, wanted = self.tell(file), slow_reader.listing(file)
        rows, left, fault, status = told.rows, told.left, told.fault, told.status
        seen = told.damaged, told.lost, told.sums
        said = wanted.damaged, wanted.lost, wanted.sums
        yield Check(f"{name}, errors, losses and checksums", seen == said, (seen, said))
        yield Check(f"{name}, datagrams", rows == wanted.rows, difference(rows, wanted.rows))
        yield Check(f"{name}, left out", sorted(left) == wanted.left, (sorted(left), wanted.left))
        yield Check(f"{name}, not read", told.unread == wanted.unread, (told.unread, wanted.unread))
        ends = wanted.fault, 2 if wanted.fault else 0
        yield Check(f"{name}, its end", (fault, status) == ends, (fault, status, ends))

    def try_copies(self) -> Iterator[Check]:
        """A datagram that stands twice: what another interface recorded too is left out, but not what its sender may
        have repeated, nor what one interface recorded twice."""
        it = Datagram("192.0.2.7", 40_000, "192.0.2.1", 69, b"\0\4\0\1")
        cases = (7, 1_000_000, True), (0, 1_000_000, False), (7, 1_000_001, False), (0, 1_000_001, False)
        for (id, apart, is_near), way in itertools.product(cases, TWICE):
            packet = recorded.ipv4(it, recorded.udp(it), id=id)
            times = recorded.FIRST_TIME, recorded.FIRST_TIME + apart
            frames = [Frame(way.link, way.front(index) + packet, time) for index, time in enumerate(times)]
            is_left = is_near and way.is_elsewhere
            left = [(2, "Copy")] if is_left else []
            rows = [row(number, frame, it) for number, frame in enumerate(frames, 1) if number == 1 or not is_left]
            got = self.run(way.file(frames))
            name = f"identification {id}, {apart} ns apart, {way.name}"
            yield Check(name, got == (rows, left, "", 0), (got, rows, left))

    def try_protocols(self) -> Iterator[Check]:
        """A datagram of IPv6 in two fragments, of which the second names ICMP (RFC 8200, section 4.5), in both orders;
        and ICMP whose second one names UDP."""
        it = Datagram("2001:db8::7", 40_000, "2001:db8::1", 69, bytes(range(32)))
        (first, head), (last, rest) = recorded.parts_of(recorded.udp(it), 24, 7)
        for kinds in (recorded.UDP, recorded.ICMP), (recorded.ICMP, recorded.UDP):
            packets = recorded.ipv6(it, head, kinds[0], first), recorded.ipv6(it, rest, kinds[1], last)
            for order in packets, packets[::-1]:
                frames = [Frame(recorded.RAW, packet, recorded.FIRST_TIME) for packet in order]
                is_udp = kinds[0] == recorded.UDP
                rows = [row(2, frames[1], it)] if is_udp else []
                left = [] if is_udp else [(1, "Protocol"), (2, "Protocol")]
                got = self.run(recorded.pcap(frames))
                yield Check(f"fragments of IPv6 that name {kinds}", got == (rows, left, "", 0), (got, rows, left))

    def try_overlaps(self) -> Iterator[Check]:
        """Fragments that overlap with the same bytes: in IPv4 they are put together; in IPv6 none of them is, nor one
        that comes later, and what comes again is let pass (RFC 8200, section 4.5). Of each tshark tells the overlap."""
        for source, target in ("192.0.2.7", "192.0.2.1"), ("2001:db8::7", "2001:db8::1"):
            it = Datagram(source, 40_000, target, 69, bytes(range(32)))
            content = recorded.udp(it)
            for name, (is_whole, cuts) in OVERLAPS.items():
                parts = [(Fragment(7, start, end < len(content)), content[start:end]) for start, end in cuts]
                packets = [packet_of(it, bytes_of, part) for part, bytes_of in parts]
                frames = [Frame(recorded.RAW, packet, recorded.FIRST_TIME) for packet in packets]
                file, is_told = recorded.pcap(frames), is_whole or it.version == 4
                rows = [row(len(frames), frames[-1], it)] if is_told else []
                left = [] if is_told else [(at, "FragmentsApart") for at in range(1, len(frames) + 1)]
                got = self.run(file)
                yield Check(f"{name}, IPv{it.version}", got == (rows, left, "", 0), (got, rows, left))
                if self.tshark and not is_whole:
                    told = fields_of(file, f"{'ip' if it.version == 4 else 'ipv6'}.fragment.overlap")
                    yield Check(f"{name}, IPv{it.version}, as tshark has it", any(told), told)

    def try_headers(self) -> Iterator[Check]:
        """Headers of IPv6 before a datagram: where a routing header has segments left, its target is another host on
        its way (RFC 8200, section 4.4), and behind others nothing is read."""
        it = Datagram("2001:db8::7", 40_000, "2001:db8::1", 69, b"\0\4\0\1")
        for name, (is_read, kind, rest) in HEADERS.items():
            body = bytes([recorded.UDP]) + rest + recorded.udp(it)
            packet = recorded.ipv6(it, body, kind)
            file = recorded.pcap([Frame(recorded.RAW, packet, recorded.FIRST_TIME)])
            rows = [row(1, Frame(recorded.RAW, packet, recorded.FIRST_TIME), it)] if is_read else []
            got = self.run(file)
            yield Check(name, got == (rows, [] if is_read else [(1, "Extension")], "", 0), got)
            unread, wanted = self.tell(file).unread, [(1, NAMED[name])] if name in NAMED else []
            yield Check(f"{name}, its name", unread == wanted, unread)
            if self.tshark:
                told = fields_of(file, "udp.dstport"), fields_of(file, "ipv6.routing.segleft")
                left = [str(rest[2])] if kind == recorded.ROUTING else [""]
                behind = ["69"] if kind in (recorded.ROUTING, AUTHENTICATION) else [""]
                yield Check(f"{name}, as tshark has it", told == (behind, left), told)

    def try_layers(self) -> Iterator[Check]:
        """A datagram behind each of what may stand before its packet, in each tunnel, and behind each in each: what is
        listed is what the slow reader and tshark find."""
        for source, target in ("192.0.2.7", "192.0.2.1"), ("2001:db8::7", "2001:db8::1"):
            it = Datagram(source, 40_000, target, 69, b"\0\4\0\1")
            for (shim, before), (tunnel, around) in itertools.product(SHIMS.items(), TUNNELS.items()):
                kind, content = before(around(packet_of(it, recorded.udp(it), None)))
                frame = Frame(recorded.ETHERNET, bytes(12) + struct.pack("!H", kind) + content, recorded.FIRST_TIME)
                file, name = recorded.pcap([frame]), f"IPv{it.version} behind {shim}, tunnel: {tunnel}"
                got = self.run(file)
                yield Check(name, got == ([row(1, frame, it)], [], "", 0), got)
                yield Check(f"{name}, slowly", slow_reader.listing(file).rows == [row(1, frame, it)], name)
                if self.tshark:
                    yield from self.compare(name, file, got[0])

    def try_unread(self) -> Iterator[Check]:
        """What is not read counts as a frame that is left out, by its kind."""
        it = Datagram("192.0.2.7", 40_000, "192.0.2.1", 69, b"\0\4\0\1")
        packet = packet_of(it, recorded.udp(it), None)
        frames = {
            name: (why, Frame(recorded.RAW, make(packet), recorded.FIRST_TIME)) for name, (why, make) in UNREAD.items()
        }
        for name, (why, kind, content) in UNREAD_FRAMES.items():
            bare = bytes(12) + struct.pack("!H", kind) + content
            frames[name] = why, Frame(recorded.ETHERNET, bare, recorded.FIRST_TIME)
        for name, (why, frame) in frames.items():
            file = recorded.pcap([frame])
            got, slowly = self.run(file), slow_reader.listing(file)
            yield Check(name, got == ([], [(1, why)], "", 0), got)
            yield Check(f"{name}, slowly", (slowly.rows, slowly.left) == ([], [(1, why)]), slowly)
            unread = self.tell(file).unread
            called = [(1, NAMED[name])] if name in NAMED else []
            yield Check(f"{name}, its name", unread == slowly.unread == called, (unread, slowly.unread))
        # A tunnel behind a limit of tunnels (RFC 2473, section 5.1), which turns up when the fragments are put together.
        content = bytes([IN_IP[4], 0, 4, 1, 4, 1, 0, 0]) + packet
        parts = recorded.parts_of(content, 16, 7)
        packets = [recorded.ipv6(TUNNEL[6], piece, recorded.DESTINATION, part) for part, piece in parts]
        file = recorded.pcap([Frame(recorded.RAW, one, recorded.FIRST_TIME) for one in packets])
        wanted = [(at, "Extension") for at in range(1, len(parts) + 1)]
        rows, left, fault, status = self.run(file)
        yield Check("a tunnel in fragments", (rows, sorted(left), fault, status) == ([], wanted, "", 0), left)
        yield Check("a tunnel in fragments, slowly", slow_reader.listing(file).left == wanted, wanted)

    def try_plain(self) -> Iterator[Check]:
        """What goes to the port of a tunnel and is none is a datagram as any other."""
        for name, (port, payload) in PLAIN.items():
            it = Datagram("192.0.2.7", 40_000, "192.0.2.1", port, payload)
            frame = Frame(recorded.RAW, packet_of(it, recorded.udp(it), None), recorded.FIRST_TIME)
            file, wanted = recorded.pcap([frame]), [row(1, frame, it)]
            got = self.run(file)
            yield Check(name, got == (wanted, [], "", 0), got)
            yield Check(f"{name}, slowly", slow_reader.listing(file).rows == wanted, name)

    def try_tunnels_in_parts(self) -> Iterator[Check]:
        """A tunnel over UDP whose datagram comes in fragments, in any order: when they are put together it is told that
        they are not read."""
        it = Datagram("192.0.2.7", 40_000, "192.0.2.1", 69, b"\0\4\0\1")
        packet = packet_of(it, recorded.udp(it), None)
        wraps = {"VXLAN": (in_vxlan(4), in_vxlan(6)), "Geneve": (in_geneve(4), in_geneve(6))}
        for tunnel, version in itertools.product(wraps, (4, 6)):
            whole, name = wraps[tunnel][version == 6](packet), f"{tunnel} in fragments, IPv{version}"
            parts = recorded.parts_of(whole[20 if version == 4 else 40 :], 24, 7)
            for order in itertools.permutations(parts):
                packets = [packet_of(TUNNEL[version], piece, part) for part, piece in order]
                file = recorded.pcap([Frame(recorded.RAW, one, recorded.FIRST_TIME) for one in packets])
                wanted = [(at, "Extension") for at in range(1, len(parts) + 1)]
                rows, left, fault, status = self.run(file)
                yield Check(name, (rows, sorted(left), fault, status) == ([], wanted, "", 0), left)
                yield Check(f"{name}, slowly", slow_reader.listing(file).left == wanted, wanted)

    def compare(self, name: str, file: bytes, rows: list[str], gone: Collection[int] = ()) -> Iterator[Check]:
        """The program's list beside the fields of tshark, but for the frames of what was discarded."""
        with tempfile.NamedTemporaryFile(suffix=".pcap") as path:
            path.write(file)
            path.flush()
            words = ["tshark", "-n", "-r", path.name, "-Y", "udp and not icmp and not icmpv6"]
            words += ["-o", "ip.defragment:TRUE", "-o", "ipv6.defragment:TRUE", "--disable-protocol", "tftp"]
            words += ["-T", "fields", "-E", "separator=/t", "-E", "occurrence=l"]
            words += [word for it in FIELDS for word in ("-e", it)]
            done = subprocess.run(words, capture_output=True, text=True, check=False)
        fields = [dict(zip(FIELDS, line.split("\t"))) for line in done.stdout.splitlines()]
        kept = [it for it in fields if int(it["frame.number"]) not in gone]
        wanted = [told for told in (as_tshark(it) for it in kept) if told]
        got = [" ".join(words[:2] + words[4:]) for words in (line.split() for line in rows)]
        yield Check(f"{name}, as tshark has it", got == wanted, difference(got, wanted))


def packet_of(it: Datagram, content: bytes, part: Fragment | None) -> bytes:
    """A datagram or a fragment of one, in a packet without options."""
    if it.version == 4:
        return recorded.ipv4(it, content, recorded.UDP, part)
    return recorded.ipv6(it, content, recorded.UDP, part)


def fields_of(file: bytes, field: str) -> list[str]:
    """A field of tshark's of each frame, where fragments are put together."""
    with tempfile.NamedTemporaryFile(suffix=".pcap") as path:
        path.write(file)
        path.flush()
        words = ["tshark", "-n", "-r", path.name, "-o", "ip.defragment:TRUE", "-o", "ipv6.defragment:TRUE"]
        words += ["-T", "fields", "-e", field]
        done = subprocess.run(words, capture_output=True, text=True, check=False)
    return done.stdout.splitlines()


def as_tshark(it: dict[str, str]) -> str:
    """A datagram of tshark's fields as a line without time and direction; nothing where ports or lengths are none. What
    follows the UDP length is not of the datagram, where tshark's field has it too."""
    length = int(it["udp.length"] or 0) - 8
    payload = it["udp.payload"].replace(":", "")
    if length < 0 or len(payload) < 2 * length or "0" in (it["udp.srcport"], it["udp.dstport"]):
        return ""
    # Of tunnels the innermost packet; the datagram of one over UDP is none where that is not of UDP, or waits.
    layers = [name for name in it["frame.protocols"].split(":") if name in ("ip", "ipv6", "udp", "vxlan", "geneve")]
    if layers[-1] != "udp" and {"vxlan", "geneve"} & set(layers):
        return ""
    version = [name for name in layers if name in ("ip", "ipv6")][-1]
    hosts = it[f"{version}.src"], it[f"{version}.dst"]
    ends = hosts[0], it["udp.srcport"], hosts[1], it["udp.dstport"]
    return " ".join(("datagram", it["frame.number"], *ends, payload[: 2 * length] or "-"))


def difference(got: list[str], wanted: list[str]) -> str:
    """The first lines that differ."""
    for mine, other in zip(got + [""], wanted + [""]):
        if mine != other:
            return f"{mine[:150]!r}, and {other[:150]!r} was wanted"
    return f"{len(got)} lines, and {len(wanted)} were wanted"


def words_of(arguments: list[str]) -> argparse.Namespace:
    form = argparse.ArgumentParser(description=__doc__, formatter_class=argparse.RawDescriptionHelpFormatter)
    form.add_argument("program", type=runnable)
    form.add_argument("--cases", type=int, default=40, metavar="N", help="so many generated recordings (40)")
    form.add_argument("--changes", type=int, default=400, metavar="N", help="so many changed recordings (400)")
    form.add_argument("--seed", type=int, default=1_350, metavar="S", help="case i has the seed S plus i (1350)")
    return form.parse_args(arguments)


def listed_files(lists: Lists) -> Iterator[Check]:
    """The recordings of examples/, and files that are none."""
    for path in sorted(EXAMPLES.glob("*.pcap*")):
        file = path.read_bytes()
        rows, left, fault, status = lists.run(file)
        yield Check(f"{path.name}, its end", (fault, status) == ("", 0), (fault, status))
        if lists.tshark:
            yield from lists.compare(path.name, file, rows)
    for name, file in OTHERS.items():
        rows, left, fault, status = lists.run(file)
        holds = (rows, left, status) == ([], [], 2) and fault.endswith("NotARecording")
        yield Check(f"no recording: {name}", holds, (rows, fault, status))


def tried(words: argparse.Namespace) -> Iterator[Check]:
    """All cases."""
    lists = Lists(words.program)
    yield from listed_files(lists)
    yield from lists.try_copies()
    yield from lists.try_protocols()
    yield from lists.try_overlaps()
    yield from lists.try_headers()
    yield from lists.try_layers()
    yield from lists.try_unread()
    yield from lists.try_plain()
    yield from lists.try_tunnels_in_parts()
    for seed in range(words.seed, words.seed + words.cases):
        chance = random.Random(seed)
        make = chance.choice((made_pcap, made_pcapng))
        yield from lists.try_made(f"seed {seed}", make(chance))
    for seed in range(words.seed, words.seed + words.changes):
        chance = random.Random(seed)
        file = changed(chance.choice((made_pcap, made_pcapng))(chance).file, chance)
        yield from lists.try_changed(f"seed {seed}, changed", file)


if __name__ == "__main__":
    sys.exit(tell(tried(words_of(sys.argv[1:]))))
