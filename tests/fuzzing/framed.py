"""A recording of a world as a file, with the trouble that only frames have: fragments that are missing or out of order,
frames that the recorder dropped and counted, datagrams that a host discarded by their checksum, a mirror port that
gives each frame twice, one direction only, and a tunnel round all."""
from __future__ import annotations

import random
import struct
from collections.abc import Iterator
from typing import NamedTuple, Optional

import recorded
from fuzzing.attribution import Datagram, Endpoint
from fuzzing.worlds import Recording
from recorded import Frame, Interface

FRAME_KINDS: dict[str, str] = {
    "fragments": "large datagrams are in fragments, in any order",
    "missing_fragments": "and some of them are not recorded",
    "drops": "the recorder dropped frames, and says how many",
    "checksums": "datagrams come with a wrong checksum, and the host discards them",
    "offload": "a host leaves checksums to its network card, but of what it sends in fragments",
    "joined": "and the datagrams of a burst, or a packet that comes twice, are recorded as one",
    "unsummed": "a host makes no checksums, and the network puts a wrong one into datagrams, which are discarded",
    "mirror": "each frame is recorded twice at one interface",
    "one_way": "one direction only is recorded",
}
# Drawn beside those: all passes in a tunnel, IPv4 in IP or in GRE.
TUNNEL = "tunnel"
PIECE, MICROSECOND, MOST_ID = 400, 1_000, 65_535
UDP = 17


class Row(NamedTuple):
    """A frame, and who sent what is in it."""

    time: int
    packet: bytes
    source: Endpoint


class Framed(NamedTuple):
    """A file; of each of its frames who sent it; and whether the file tells that the recorder lost something."""

    file: bytes
    sources: list[Endpoint]

    def sender(self, frame: Optional[int]) -> Optional[Endpoint]:
        return self.sources[frame - 1] if frame else None


def checksum(it: recorded.Datagram, content: bytes) -> int:
    """Of UDP with its pseudo header (RFC 768; RFC 8200, section 8.1); never 0."""
    source, target = it.packed()
    length = struct.pack("!I" if it.version == 6 else "!H", len(content))
    pseudo = source + target + (length + bytes((0, 0, 0, UDP)) if it.version == 6 else bytes((0, UDP)) + length)
    summed = pseudo + content + bytes(len(content) % 2)
    total = sum(struct.unpack(f"!{len(summed) // 2}H", summed))
    while total > 0xFFFF:
        total = (total & 0xFFFF) + (total >> 16)
    return (total ^ 0xFFFF) or 0xFFFF


def left(it: recorded.Datagram, content: bytes) -> bytes:
    """The UDP packet with the sum of the pseudo header in the place of its checksum, as a host leaves it to its network
    card: the card adds the words of the packet, and puts the complement there."""
    front = content[:6] + bytes(2) + content[8:]
    made, rest = checksum(it, front), sum_of_words(front)
    # What is in the field adds up with the packet to what the checksum is the complement of.
    return front[:6] + struct.pack("!H", ((made ^ 0xFFFF) - rest) % 0xFFFF or 0xFFFF) + front[8:]


def sum_of_words(content: bytes) -> int:
    summed = content + bytes(len(content) % 2)
    return sum(struct.unpack(f"!{len(summed) // 2}H", summed))


def headed(it: recorded.Datagram) -> bytes:
    """The UDP packet with its right checksum."""
    bare = struct.pack("!HHHH", it.source_port, it.target_port, 8 + len(it.payload), 0) + it.payload
    return bare[:6] + struct.pack("!H", checksum(it, bare)) + bare[8:]


def with_header_sum(packet: bytes) -> bytes:
    """The packet of IPv4 with the right checksum of its header (RFC 791, section 3.1)."""
    if packet[0] >> 4 != 4:
        return packet
    size = 4 * (packet[0] & 15)
    head = packet[:10] + bytes(2) + packet[12:size]
    total = sum(struct.unpack(f"!{size // 2}H", head))
    while total > 0xFFFF:
        total = (total & 0xFFFF) + (total >> 16)
    return head[:10] + struct.pack("!H", total ^ 0xFFFF) + packet[12:]


def follows(one: bytes, other: bytes) -> bool:
    """Whether the other packet is the same as the one, or has the next number."""
    numbers = [int.from_bytes(payload[2:4], "big") for payload in (one, other)]
    is_next = one[1:2] in (b"\3", b"\4") and one[:2] == other[:2] and numbers[1] == (numbers[0] + 1) % 65_536
    return len(one) >= 4 and (one == other or is_next)


def joined(burst: list[Datagram]) -> Datagram:
    """One datagram with all that these carry."""
    return burst[0]._replace(payload=b"".join(it.payload for it in burst))


class Recorder:
    """Writes down what passes at a place."""

    def __init__(self, recording: Recording, kinds: frozenset[str], seed: int) -> None:
        self.drawn, self.recording, self.kinds = random.Random(seed), recording, kinds
        self.dropped, self.id = 0, 0
        hosts = sorted({it.source.host for it in recording.datagrams})
        # The host that recorded, or between one of all.
        self.leaving = (recording.host or self.drawn.choice(hosts)) if {"offload", "joined"} & kinds else None
        # Over IPv6 a checksum of 0 is none (RFC 8200, section 8.1).
        summed = [host for host in hosts if ":" in host or host in (recording.host, self.leaving)]
        unsummed = [host for host in hosts if host not in summed] if "unsummed" in kinds else []
        self.unsummed = self.drawn.choice(unsummed) if unsummed else None
        self.is_header_left = self.leaving is not None and self.drawn.random() < 0.3
        self.tunnel = recorded.Datagram("198.51.100.1", 1, "198.51.100.2", 1, b"")
        # With the number 4 the packet itself, and with 47 behind a header of GRE that has a key (RFC 2890).
        self.round: tuple[int, bytes] = (4, b"") if seed % 2 else (47, b"\x20\0\x08\0\0\0\0\7")

    def often(self, kind: str, chance: float) -> bool:
        return kind in self.kinds and self.drawn.random() < chance

    def bursts(self) -> Iterator[Datagram]:
        """What passes, where a network card may hand on several datagrams as one. All have the size of the first,
        but the last, which may be shorter."""
        held: list[Datagram] = []
        for it in self.recording.datagrams:
            if held and not self.goes_on_as_one(held, it):
                yield joined(held)
                held = []
            held.append(it)
        if held:
            yield joined(held)

    def goes_on_as_one(self, held: list[Datagram], it: Datagram) -> bool:
        first, last = held[0], held[-1]
        is_left = it.source.host == self.leaving and (last.source, last.target) == (it.source, it.target)
        is_burst = len(first.payload) == len(last.payload) >= len(it.payload) and follows(last.payload, it.payload)
        size = sum(len(one.payload) for one in (*held, it))
        return is_left and is_burst and not self.is_parted(bytes(size)) and self.often("joined", 0.7)

    def rows(self) -> Iterator[Row]:
        is_in = self.drawn.random() < 0.5
        for it in self.bursts():
            if "one_way" in self.kinds and self.is_in(it) != is_in:
                continue
            if self.often("drops", 0.12):
                self.dropped += 1
                continue
            if it.payload and self.is_from_afar(it) and self.often("checksums", 0.15):
                yield from self.packets(it, self.spoiled(it), 0)
            if it.payload and it.source.host == self.unsummed and self.often("unsummed", 0.3):
                yield from self.packets(it, self.spoiled(it), 0)
            yield from self.packets(it, self.sent(it), 0.3)

    def is_from_afar(self, it: Datagram) -> bool:
        """Whether it has passed a network that may have spoilt it, and comes to a host that looks at its checksum."""
        return it.source.host not in (self.recording.host, self.leaving)

    def sent(self, it: Datagram) -> bytes:
        """Its bytes as they are where it was recorded."""
        content = headed(self.plain(it))
        if it.source.host == self.unsummed:
            return content[:6] + bytes(2) + content[8:]
        return left(self.plain(it), content) if self.is_left(it, content) else content

    def is_left(self, it: Datagram, content: bytes) -> bool:
        """Whether its host leaves its checksums to its network card."""
        return it.source.host == self.leaving and not self.is_parted(content)

    def is_parted(self, content: bytes) -> bool:
        return "fragments" in self.kinds and len(content) > PIECE

    def is_in(self, it: Datagram) -> bool:
        """Whether it comes to the host, or between to a host of a client."""
        host = self.recording.host
        return it.target.host == host if host else it.target.host.startswith("10.1.")

    def plain(self, it: Datagram) -> recorded.Datagram:
        return recorded.Datagram(it.source.host, it.source.port, it.target.host, it.target.port, it.payload)

    def spoiled(self, it: Datagram) -> bytes:
        """Its bytes with one of the payload changed, under the checksum of what was sent."""
        content = bytearray(headed(self.plain(it)))
        content[self.drawn.randrange(8, len(content))] ^= 1 << self.drawn.randrange(8)
        return bytes(content)

    def packets(self, it: Datagram, content: bytes, missing: float) -> Iterator[Row]:
        plain, time = self.plain(it), it.nanoseconds()
        self.id = self.id % MOST_ID + 1
        if not self.is_parted(content):
            packet = with_header_sum(recorded.ipv4(plain, content, id=self.id))
            if self.is_header_left and self.is_left(it, content):
                packet = packet[:10] + bytes(2) + packet[12:]
            yield Row(time, packet, it.source)
            return
        parts = recorded.parts_of(content, PIECE, self.id)
        self.drawn.shuffle(parts)
        if self.often("missing_fragments", missing):
            del parts[self.drawn.randrange(len(parts))]
        for place, (part, piece) in enumerate(parts):
            yield Row(time + place, with_header_sum(recorded.ipv4(plain, piece, part=part)), it.source)

    def framed(self) -> Framed:
        rows = list(self.rows())
        if "mirror" in self.kinds:
            rows = [twice for it in rows for twice in (it, it._replace(time=it.time + 3 * MICROSECOND))]
        frames = [Frame(recorded.RAW, self.around(it.packet), it.time) for it in rows]
        sources = [it.source for it in rows]
        if "drops" not in self.kinds:
            return Framed(recorded.pcap(frames, is_nano=True), sources)
        return Framed(self.counted(frames), sources)

    def around(self, packet: bytes) -> bytes:
        """The packet of the tunnel, if there is one, with this one in it."""
        protocol, head = self.round
        return recorded.ipv4(self.tunnel, head + packet, protocol) if TUNNEL in self.kinds else packet

    def counted(self, frames: list[Frame]) -> bytes:
        """A pcapng whose last block says how many packets were dropped."""
        interface = Interface(recorded.RAW, 9)
        blocks: list[tuple[int, recorded.Block]] = [(0, it) for it in frames]
        code = self.drawn.choice((recorded.IF_DROP, recorded.OS_DROP))
        statistics = recorded.statistics("<", 0, (code, self.dropped))
        return recorded.section("<", [interface], [*blocks, (0, statistics)], self.drawn)


def drawn_frame_kinds(seed: int) -> frozenset[str]:
    """None of them, or one or two."""
    drawn = random.Random(seed ^ 0xF4A3)
    found = set(drawn.sample(sorted(FRAME_KINDS), drawn.choice((0, 1, 1, 2))))
    if "missing_fragments" in found or "offload" in found and drawn.random() < 0.7:
        found.add("fragments")
    if drawn.random() < 0.15:
        found.add(TUNNEL)
    return frozenset(found)


def framed(recording: Recording, kinds: frozenset[str], seed: int) -> Framed:
    return Recorder(recording, kinds, seed).framed()
