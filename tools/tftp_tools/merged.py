"""Two captures of one transfer in one order: which datagram that came in is which that was sent, what has no other
half, and how far the two clocks are apart. The program says how far the two go together; this only puts them in a
row."""
from __future__ import annotations

from collections import Counter, deque
from collections.abc import Hashable
from dataclasses import dataclass, field
from typing import Optional

from .capture import NANOSECONDS, Capture, nanoseconds
from .history import History, Passed
from .packets import Ack, Data, Error, Oack, Packet, Request
from .pairs import OTHER, Pair
from .recording import ENDS, EndName

# How soon a datagram is put into the order: where its own copy was sent, where it goes out, where a copy of it was
# sent, where nothing of the kind is ever sent, where it is sent later.
OWN, FREE, COPY, NEVER, LATER = range(5)
# What became of a datagram.
CAME, LOST, REPEATED, UNSENT, CHANGED, STRAY = "came", "lost", "repeated", "unsent", "changed", "stray"


def message_of(packet: Packet) -> Hashable:
    """What it says, however it is written: options stand in any order."""
    if isinstance(packet, Request):
        return "request", packet.kind, packet.name, packet.mode, frozenset(packet.options)
    return ("oack", frozenset(packet.options)) if isinstance(packet, Oack) else packet


def likeness(packet: Packet) -> Hashable:
    """What two packets share of which one may be the other with changed bytes."""
    if isinstance(packet, (Data, Ack)):
        return type(packet).__name__, packet.block
    return type(packet).__name__ if isinstance(packet, (Request, Oack, Error)) else None


@dataclass(frozen=True)
class Event:
    """A datagram that was sent or that came, at its end."""

    end: EndName
    passed: Passed

    def number(self) -> int:
        return self.passed.datagram.number

    def goes_out(self) -> bool:
        return self.passed.datagram.goes_out()

    def is_main(self) -> bool:
        """Whether it is of the transfer, and no stray."""
        return self.passed.place == "main"

    def message(self) -> Hashable:
        return message_of(self.passed.packet)

    def nanoseconds(self) -> Optional[int]:
        time = self.passed.datagram.time
        return nanoseconds(time) if time is not None else None


def events_at(end: EndName, capture: Capture) -> list[Event]:
    history = History(capture)
    return [Event(end, history.take(datagram)) for datagram in capture.datagrams]


def seconds(time: int) -> str:
    return f"{round(time / NANOSECONDS, 6) + 0.0:.6f} s"


@dataclass(frozen=True)
class Clock:
    """What the server's clock shows more than the client's, in nanoseconds: the least and the most that it may be, as
    nothing comes before it was sent."""

    low: Optional[int]
    high: Optional[int]

    def difference(self) -> int:
        """The middle, or the one bound."""
        known = [bound for bound in (self.low, self.high) if bound is not None]
        return sum(known) // len(known)

    def is_sound(self) -> bool:
        return self.low is None or self.high is None or self.low <= self.high

    def told(self) -> str:
        """The difference in words."""
        low, high = (seconds(bound) if bound is not None else "" for bound in (self.low, self.high))
        if not self.is_sound():
            return ("the clocks do not agree: by one datagram the server's time less the client's is at least"
                    f" {low}, and by another at most {high}; one of the clocks was set, or runs wrong")
        if low and high:
            bounds = f"from {low} to {high}, of which {seconds(self.difference())} is taken"
        else:
            bounds = f"at least {low}, which is taken" if low else f"at most {high}, which is taken"
        return f"the server's time less the client's is {bounds}"


@dataclass
class Merged:
    """The events of both ends in one order, and of those that are two ends of one datagram the place of the other."""

    events: list[Event] = field(default_factory=list)
    other: dict[int, int] = field(default_factory=dict)
    fates: dict[int, str] = field(default_factory=dict)
    clock: Optional[Clock] = None

    def fate(self, place: int) -> str:
        return self.fates[place]

    def time(self, place: int) -> Optional[int]:
        """When it was, by the client's clock."""
        event = self.events[place]
        time = event.nanoseconds()
        if time is None or self.clock is None:
            return None
        return time - self.clock.difference() if event.end == "server" else time

    def since(self, place: int) -> Optional[float]:
        """How many seconds after the first."""
        time, first = self.time(place), self.time(0)
        return (time - first) / NANOSECONDS if time is not None and first is not None else None

    def count(self, fate: str) -> int:
        return sum(it == fate for it in self.fates.values())


class Merging:
    """Puts the events of both ends into one order in which, as far as can be, nothing comes that was not sent."""

    def __init__(self, events: dict[EndName, list[Event]], clock: Optional[Clock]) -> None:
        self.events, self.merged = events, Merged(clock=clock)
        self.at = dict.fromkeys(ENDS, 0)
        # how often a message is sent and comes at each end in all, and was sent so far; the places of those that did
        # not come yet, and of all that are alike
        sent = {end: (it.message() for it in events[end] if it.is_main() and it.goes_out()) for end in ENDS}
        came = {end: (it.message() for it in events[end] if it.is_main() and not it.goes_out()) for end in ENDS}
        self.all = {end: Counter(sent[end]) for end in ENDS}
        self.all_came = {end: Counter(came[end]) for end in ENDS}
        self.sent: dict[EndName, Counter[Hashable]] = {end: Counter() for end in ENDS}
        self.open: dict[tuple[EndName, Hashable], deque[int]] = {}
        self.like: dict[tuple[EndName, Hashable], list[int]] = {}

    def rank(self, event: Event) -> int:
        """How soon it is put into the order."""
        if event.goes_out() or not event.is_main():
            return FREE
        sender, message = OTHER[event.end], event.message()
        if self.open.get((sender, message)):
            return OWN
        if self.sent[sender][message]:
            return COPY
        if self.all[sender][message]:
            return LATER
        return OWN if self.alike(event, len(self.merged.events)) else NEVER

    def alike(self, event: Event, place: int) -> list[int]:
        """What the other end had sent before this place that is like it and did not come."""
        kind = likeness(event.passed.packet)
        sent = self.like.get((OTHER[event.end], kind), []) if kind is not None else []
        return [it for it in sent if it < place and self.merged.fates[it] == LOST]

    def stays_out(self, event: Event) -> bool:
        """Whether it goes out once more than it comes at the other end."""
        message = event.message()
        return event.goes_out() and self.sent[event.end][message] >= self.all_came[OTHER[event.end]][message]

    def order(self, event: Event) -> tuple[int, int, int, bool, int]:
        rank, time, clock = self.rank(event), event.nanoseconds(), self.merged.clock
        ties = rank, not self.stays_out(event), ENDS.index(event.end)
        if time is None or clock is None:
            return rank, 0, *ties
        time -= clock.difference() if event.end == "server" else 0
        return 0 if rank <= FREE else rank, time, *ties

    def run(self) -> Merged:
        while True:
            waiting = [self.events[end][self.at[end]] for end in ENDS if self.at[end] < len(self.events[end])]
            if not waiting:
                break
            event = min(waiting, key=self.order)
            self.at[event.end] += 1
            self.take(event)
        self.pair_changed()
        return self.merged

    def take(self, event: Event) -> None:
        place, rank = len(self.merged.events), self.rank(event)
        self.merged.events.append(event)
        if not event.is_main():
            self.merged.fates[place] = STRAY
        elif event.goes_out():
            message = event.message()
            self.sent[event.end][message] += 1
            self.open.setdefault((event.end, message), deque()).append(place)
            self.like.setdefault((event.end, likeness(event.passed.packet)), []).append(place)
            self.merged.fates[place] = LOST
        elif opened := self.open.get((OTHER[event.end], event.message())):
            self.pair(opened.popleft(), place, CAME)
        else:
            self.merged.fates[place] = REPEATED if rank == COPY else UNSENT

    def pair(self, sent: int, came: int, fate: str) -> None:
        self.merged.other[sent], self.merged.other[came] = came, sent
        self.merged.fates[sent] = self.merged.fates[came] = fate

    def pair_changed(self) -> None:
        """What came and was never sent is the other half of what was sent before, is like it and did not come."""
        for place, event in enumerate(self.merged.events):
            alike = self.alike(event, place) if self.merged.fates[place] == UNSENT else []
            if alike:
                self.pair(alike[0], place, CHANGED)


def bound_of(sent: list[Event], came: list[Event]) -> Optional[int]:
    """The least that the clock where it comes shows more than that where it is sent, over all messages: of each the
    first one sent and the first one that came."""
    first: dict[Hashable, int] = {}
    for event in sent:
        time = event.nanoseconds()
        if event.is_main() and event.goes_out() and time is not None:
            first[event.message()] = min(time, first.get(event.message(), time))
    passed = [(it.nanoseconds(), first.get(it.message())) for it in came if it.is_main() and not it.goes_out()]
    return min((then - begin for then, begin in passed if then is not None and begin is not None), default=None)


def clock_of(events: dict[EndName, list[Event]]) -> Optional[Clock]:
    """How far the clocks are apart, by the datagrams that both captures have."""
    high = bound_of(events["client"], events["server"])
    back = bound_of(events["server"], events["client"])
    low = -back if back is not None else None
    return Clock(low, high) if low is not None or high is not None else None


def merged_of(pair: Pair) -> Merged:
    captures = pair.captures()
    events = {end: events_at(end, captures[end]) for end in ENDS}
    return Merging(events, clock_of(events)).run()
