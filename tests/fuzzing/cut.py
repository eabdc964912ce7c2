"""Recordings that begin within a capture: each lawful capture of some few datagrams, from a small alphabet, is cut behind
each of its datagrams that a request follows; what is left is divided by the slow reading of the definition and judged
by the slow judges."""
from __future__ import annotations

from collections.abc import Iterator
from typing import NamedTuple

from captures import EndName
from fuzzing import views
from fuzzing.attribution import Datagram, Endpoint, attributed, begins
from fuzzing.innocents import told_at
from fuzzing.slow_judge import verdict_of
from fuzzing.worlds import Place

CLIENT = Endpoint("10.0.0.1", 2_000)
SERVICE, SERVER = Endpoint("10.0.0.2", 69), Endpoint("10.0.0.2", 41_001)
ENDS: dict[Place, tuple[EndName, ...]] = {
    "client": ("client",),
    "server": ("server",),
    "between": ("client", "server"),
}


class Passed(NamedTuple):
    source: Endpoint
    target: Endpoint
    payload: bytes


Capture = tuple[Passed, ...]


def requests(writes: bool) -> Iterator[Passed]:
    begun = (b"\0\2" if writes else b"\0\1") + b"f\0octet\0"
    for options in (b"", b"blksize\0" + b"8\0"):
        yield Passed(CLIENT, SERVICE, begun + options)


def talks(writes: bool, server: Endpoint) -> Iterator[Passed]:
    """What the client and the server may say to each other by this port."""
    sends, takes = (CLIENT, server) if writes else (server, CLIENT)
    for block, length in ((1, 512), (1, 0), (2, 0)):
        yield Passed(sends, takes, b"\0\3" + block.to_bytes(2, "big") + bytes([block]) * length)
    for block in range(3):
        yield Passed(takes, sends, b"\0\4" + block.to_bytes(2, "big"))
    yield Passed(server, CLIENT, b"\0\6blksize\0" + b"8\0")
    for code in (b"\0\0", b"\0\5"):
        yield Passed(server, CLIENT, b"\0\5" + code + b"x\0")
        yield Passed(CLIENT, server, b"\0\5" + code + b"x\0")


def is_lawful(capture: Capture, end: EndName) -> bool:
    seen = []
    for it in capture:
        is_out = (it.source == CLIENT) == (end == "client")
        own, other = (it.source, it.target) if is_out else (it.target, it.source)
        seen.append(views.Datagram(is_out, own.port, (other.host.encode(), other.port), it.payload))
    return not verdict_of(end, SERVICE.port, seen).told[0].startswith(b"refused")


def lawful_captures(place: Place, writes: bool, longest: int) -> Iterator[Capture]:
    """Those at this place that begin with a request; between the ends those that are lawful at both."""
    alphabet = [*requests(writes), *talks(writes, SERVICE), *talks(writes, SERVER)]
    waiting: list[Capture] = [(it,) for it in requests(writes)]
    while waiting:
        capture = waiting.pop()
        yield capture
        if len(capture) < longest:
            longer = (capture + (it,) for it in alphabet)
            waiting += [it for it in longer if all(is_lawful(it, end) for end in ENDS[place])]


def accused(place: Place, writes: bool, longest: int) -> Iterator[str]:
    """Who is accused in what is left of a capture."""
    for capture in lawful_captures(place, writes, longest):
        for at in range(1, len(capture) - 1):
            left = capture[at:]
            if not begins(left[0].payload, 1, 2):
                continue
            datagrams = [Datagram(number, number * 0.01, *it) for number, it in enumerate(left)]
            for one in attributed(datagrams).transfers:
                told = told_at(one, place)
                if told.is_accused():
                    yield f"{place}, cut behind {at}: {told.line}: {capture}"
