"""The bytes of a refused datagram, and beside them those of the datagrams that it is compared with."""
from __future__ import annotations

import re
from dataclasses import dataclass
from typing import Optional

from .capture import Capture, Datagram
from .compared import first_difference
from .explained import explain_refused
from .facts import datagram_at
from .program import Verdict

ROW, ROWS, BEFORE, MOST = 16, 8, 2, 3
NAMED = re.compile(r"\bdatagram ([0-9,]+) \(line")


@dataclass(frozen=True)
class Line:
    """Sixteen bytes of a payload and where they stand; `differs` are the places of those that another has not."""

    place: int
    content: bytes
    differs: frozenset[int]


@dataclass(frozen=True)
class Bytes:
    """A part of a datagram's payload."""

    datagram: Datagram
    lines: tuple[Line, ...]
    # how many bytes stand before and behind the lines
    before: int
    behind: int


def compared_with(capture: Capture, verdict: Verdict) -> list[Datagram]:
    """The datagrams that the reason of a refusal names, some at most."""
    why = [words for heading, words in explain_refused(capture, verdict) if heading == "Why"]
    numbers = dict.fromkeys(int(number.replace(",", "")) for words in why for number in NAMED.findall(words))
    found = (datagram_at(capture, number) for number in numbers)
    return [it for it in found if it is not None][:MOST]


def differing(content: bytes, other: Optional[bytes], place: int) -> frozenset[int]:
    """Where the other payload, from this place on, has not the same byte."""
    if other is None:
        return frozenset()
    beside = other[place : place + len(content)]
    return frozenset(at for at, byte in enumerate(content) if at >= len(beside) or beside[at] != byte)


def part_of(datagram: Datagram, other: Optional[bytes], begin: int) -> Bytes:
    """Some lines from a place on; where another payload is given, what differs from it is marked."""
    payload = datagram.payload
    end = min(len(payload), begin + ROW * ROWS)
    lines = []
    for place in range(begin, end, ROW):
        content = payload[place : min(place + ROW, end)]
        lines.append(Line(place, content, differing(content, other, place)))
    return Bytes(datagram, tuple(lines), begin, len(payload) - end)


def bytes_beside(capture: Capture, verdict: Verdict) -> list[Bytes]:
    """The refused datagram's bytes and those that it is compared with. Two packets of one kind and block are shown from
    a little before where they differ, with what differs marked."""
    refused = verdict.refused()
    if refused is None:
        return []
    datagram = capture.datagrams[refused[0] - 1]
    others = compared_with(capture, verdict)
    alike = next((it for it in others if it.payload[:4] == datagram.payload[:4] != b""), None)
    if alike is None:
        return [part_of(it, None, 0) for it in (datagram, *others)]
    row = first_difference(datagram.payload, alike.payload) // ROW
    begin = ROW * max(0, row - BEFORE)
    parts = [part_of(datagram, alike.payload, begin), part_of(alike, datagram.payload, begin)]
    return parts + [part_of(it, None, 0) for it in others if it is not alike]
