"""Requests that come late at a server, or pass late between the ends: all recordings of so many datagrams, from a small
alphabet, that some division into lawful captures explains. A request opens a capture, or is said again within one, or
is answered by nobody. What a server sends is of the newest capture; what its client sent may come late."""
from __future__ import annotations

from collections.abc import Iterator

from fuzzing.attribution import Datagram, Endpoint, attributed
from fuzzing.cut import CLIENT, ENDS, SERVICE, Capture, Passed, is_lawful
from fuzzing.innocents import told_at
from fuzzing.worlds import Place

# What has passed, and the captures that explain it.
World = tuple[Capture, tuple[Capture, ...]]
MOST_CAPTURES = 2


def requests() -> tuple[Passed, ...]:
    return tuple(Passed(CLIENT, SERVICE, opcode + b"f\0octet\0") for opcode in (b"\0\1", b"\0\2"))


def talks(server: Endpoint) -> Iterator[Passed]:
    """Blocks and ACKs, of either side."""
    for sends, takes in ((CLIENT, server), (server, CLIENT)):
        yield Passed(sends, takes, b"\0\3\0\1" + bytes(512))
        yield Passed(sends, takes, b"\0\3\0\2")
        for block in range(3):
            yield Passed(sends, takes, b"\0\4" + block.to_bytes(2, "big"))


class Search:
    def __init__(self, place: Place, server: Endpoint) -> None:
        self.place, self.requests, self.talks = place, requests(), tuple(talks(server))
        self.known: dict[Capture, bool] = {}

    def is_lawful(self, capture: Capture) -> bool:
        if capture not in self.known:
            self.known[capture] = all(is_lawful(capture, end) for end in ENDS[self.place])
        return self.known[capture]

    def with_more(self, captures: tuple[Capture, ...], at: int, it: Passed) -> Iterator[tuple[Capture, ...]]:
        """With one more of this capture, if that is lawful."""
        longer = (*captures[at], it)
        if self.is_lawful(longer):
            yield *captures[:at], longer, *captures[at + 1 :]

    def explained(self, captures: tuple[Capture, ...], it: Passed) -> Iterator[tuple[Capture, ...]]:
        """The captures after this one has passed."""
        if it in self.requests:
            if captures:
                yield captures
            if len(captures) < MOST_CAPTURES:
                yield *captures, (it,)
        for at in range(len(captures)):
            may_be_late = it.source == CLIENT or at == len(captures) - 1
            if may_be_late and (it not in self.requests or captures[at][0] == it):
                yield from self.with_more(captures, at, it)

    def recordings(self, longest: int) -> set[Capture]:
        waiting: list[World] = [((), ())]
        found: set[Capture] = set()
        while waiting:
            passed, captures = waiting.pop()
            if len(passed) == longest:
                found.add(passed)
                continue
            for it in (*self.requests, *self.talks):
                waiting += [((*passed, it), after) for after in self.explained(captures, it)]
        return found


def accused(place: Place, server: Endpoint, longest: int) -> Iterator[str]:
    """Who is accused in a recording that lawful captures explain."""
    for recording in sorted(Search(place, server).recordings(longest)):
        datagrams = [Datagram(number, number * 0.01, *it) for number, it in enumerate(recording)]
        for one in attributed(datagrams).transfers:
            told = told_at(one, place)
            if told.is_accused():
                yield f"{place}: {told.line}: {recording}"
