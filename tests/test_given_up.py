"""Fragments of which no datagram is put together: each of their frames is told once, whether it was lost at once, was
given up for its age or with another, or waits still at the end.
"""
from __future__ import annotations

import dataclasses
import itertools
import random
import re

import recorded
from checks import Check, Checks
from judged import said
from made import C, C_6, S, S_6, SECOND, at, packets_of, read
from programs import TRANSFERS
from recorded import Datagram, Fragment, Frame

ETHERNET_OF = {4: b"\x08\x00", 6: b"\x86\xdd"}
LINE = re.compile(r": (\d+) datagrams? not there whole.*\(frames? ([0-9, ]+)( \.\.)?\)")
LATE = 31
# How many stand before them.
TRANSFER = 3


@dataclasses.dataclass(frozen=True)
class Part:
    """A fragment: the identification of its packet, where it stands, whether more follow, how many bytes it brings, and
    whether it comes long after the one before."""

    id: int
    place: int
    more: bool
    size: int
    is_late: bool = False


# A packet in three parts, what overlaps the last two, what has another end, and what brings no byte; and a packet whose
# datagram says that it is longer, in two parts.
WRONG = 9
PARTS = (
    Part(8, 0, True, 8), Part(8, 8, True, 8), Part(8, 16, False, 8), Part(8, 8, False, 16), Part(8, 16, True, 8),
    Part(8, 8, True, 0), Part(WRONG, 0, True, 8), Part(WRONG, 8, False, 16),
)
LONG_AFTER = tuple(dataclasses.replace(it, is_late=True) for it in PARTS[:3])


@dataclasses.dataclass
class Held:
    """What waits of a packet: the frames, their parts, when it began, and whether nothing is put together of them."""

    began: int
    frames: list[int] = dataclasses.field(default_factory=list)
    parts: list[Part] = dataclasses.field(default_factory=list)
    is_torn: bool = False

    def clashes(self, version: int, part: Part) -> bool:
        """Whether no packet has both: where it ends they differ, or they overlap in IPv6 (RFC 8200, section 4.5)."""
        parts = [*self.parts, part]
        ends = {it.place + it.size for it in parts if not it.more}
        inner = max((it.place + it.size for it in parts if it.more), default=0)
        if len(ends) > 1 or (ends and inner >= min(ends)):
            return True
        return version == 6 and any(overlap(it, part) for it in self.parts)

    def is_whole(self) -> bool:
        """Whether each byte up to the last part's end is there."""
        ends = [it.place + it.size for it in self.parts if not it.more]
        covered = {byte for it in self.parts for byte in range(it.place, it.place + it.size)}
        return bool(ends) and covered == set(range(ends[0]))


def overlap(one: Part, other: Part) -> bool:
    """Whether they have bytes of one place, and neither repeats the other."""
    begins, ends = max(one.place, other.place), min(one.place + one.size, other.place + other.size)
    return begins < ends and (one.place, one.size) != (other.place, other.size)


def times_of(parts: tuple[Part, ...]) -> list[int]:
    """When they pass, in seconds."""
    return list(itertools.accumulate(LATE if it.is_late else 0 for it in parts))


def lost_of(version: int, parts: tuple[Part, ...]) -> list[int]:
    """The numbers of the frames that are not there whole."""
    waiting: dict[int, Held] = {}
    lost: list[int] = []
    for number, (part, time) in enumerate(zip(parts, times_of(parts)), TRANSFER + 1):
        if part.id in waiting and time - waiting[part.id].began > 30:
            lost += waiting.pop(part.id).frames
        if not part.size:
            lost.append(number)
            continue
        held = waiting.setdefault(part.id, Held(time))
        if held.is_torn or held.clashes(version, part):
            lost += [*held.frames, number]
            held.is_torn, held.frames = True, []
            continue
        held.frames.append(number)
        held.parts.append(part)
        if held.is_whole():
            del waiting[part.id]
            lost += held.frames if part.id == WRONG else []
    return sorted([*lost, *itertools.chain.from_iterable(it.frames for it in waiting.values())])


def frame_of(version: int, part: Part, time: int) -> Frame:
    """It on Ethernet."""
    source, target = (S, C) if version == 4 else (S_6, C_6)
    it = Datagram(source, 41_000, target, 50_000, bytes(range(16)))
    content = recorded.udp(it, 40 if part.id == WRONG else None)[part.place : part.place + part.size]
    piece = Fragment(part.id, part.place, part.more)
    packet = recorded.ipv4(it, content, part=piece) if version == 4 else recorded.ipv6(it, content, part=piece)
    return Frame(recorded.ETHERNET, bytes(12) + ETHERNET_OF[version] + packet, at(time))


class GivenUp(Checks):
    """Short lists of fragments behind a whole transfer."""

    needs = (TRANSFERS,)
    program = TRANSFERS.path

    def told(self, version: int, parts: tuple[Part, ...]) -> list[int]:
        """The frames that are told as not there whole."""
        transfer = packets_of(read("a", 40_000, 41_000))
        frames = [Frame(recorded.ETHERNET, bytes(12) + ETHERNET_OF[4] + it, at(0)) for it in transfer]
        frames += [frame_of(version, part, time) for part, time in zip(parts, times_of(parts))]
        found = LINE.search(said(self.program, ["check", "-"], recorded.pcap(frames, is_nano=True))[1])
        if found is None:
            return []
        numbers = sorted(map(int, found[2].split(", ")))
        return numbers if len(numbers) == int(found[1]) else [int(found[1])]

    def tried(self, version: int, parts: tuple[Part, ...]) -> Check:
        told, wanted = self.told(version, parts), lost_of(version, parts)
        return Check(f"IPv{version}, {parts}", told == wanted, (told, wanted))

    def test_all(self) -> None:
        """Each list of up to three."""
        for version in (4, 6):
            for size in (1, 2, 3):
                self.check_each(self.tried(version, it) for it in itertools.product(PARTS, repeat=size))

    def test_long_after(self) -> None:
        """Lists of five, some of which come long after the one before."""
        chance = random.Random(74)
        for _ in range(400):
            parts = tuple(chance.choice((*PARTS, *LONG_AFTER)) for _ in range(5))
            self.check_each([self.tried(chance.choice((4, 6)), parts)])
