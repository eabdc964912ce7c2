"""A transfer by two ends of chance, over a network that loses, repeats and reorders: what passes at each end.

How an end answers is its habit, which chance made; whether it may send what it then proposes is asked of the end.
"""
from __future__ import annotations

import dataclasses
from collections.abc import Iterable, Iterator
from random import Random

from captures import EndName
from fuzzing.ends import End, Packet
from fuzzing.meanings import chosen
from normal import Meaning

# Whether a packet is sent, and the packet, of those that pass at an end.
Step = tuple[bool, Packet]
ENDS: tuple[EndName, ...] = ("client", "server")

MESSAGES = (b"", b"disk full", b"File not found", b"no\xff such", b"a" * 60)


@dataclasses.dataclass
class Habit:
    """How often an end does what it may do."""

    # answers at all to what it took
    answers: float
    # a receiver acknowledges each block, and not only the last of a window
    each: float
    # answers what is repeated again, as in the sorcerer's apprentice syndrome
    again: float
    # a sender stops before the end of its window
    stops: float
    # does anything that it may do
    wild: float


def habit_of(chance: Random) -> Habit:
    if chance.random() < 0.4:
        return Habit(1, chance.choice((0, 1)), chance.choice((0, 1)), 0, 0)
    odds = (0.7, 0.95), (0, 0.5, 1), (0, 0.5, 1), (0, 0.1, 0.4), (0, 0.05, 0.3)
    return Habit(*(chance.choice(each) for each in odds))


@dataclasses.dataclass
class Network:
    """How often a packet that is due is lost, is kept so that it comes again, or is not the first one sent."""

    loses: float
    repeats: float
    reorders: float


def network_of(chance: Random) -> Network:
    if chance.random() < 0.3:
        return Network(0, 0, 0)
    odds = (0, 0.05, 0.2), (0, 0.05, 0.2), (0, 0.1, 0.5)
    return Network(*(chance.choice(each) for each in odds))


def window_after(end: End, base: int, chance: Random, habit: Habit) -> Iterator[Packet]:
    """The blocks of the window that follows an acknowledged block, perhaps not all."""
    for block in range(base + 1, min(base + end.window, end.blocks) + 1):
        yield Packet("data", block)
        if habit.stops and chance.random() < habit.stops:
            return


def answer_of_sender(end: End, packet: Packet, is_new: bool, chance: Random, habit: Habit) -> Iterator[Packet]:
    if packet.kind == "request" and end.meaning.agreed:
        yield Packet("oack")
    elif packet.kind in ("request", "oack"):
        if is_new or chance.random() < habit.again:
            yield from window_after(end, 0, chance, habit)
    elif packet.kind == "ack" and packet.number < end.blocks:
        if is_new or chance.random() < habit.again:
            yield from window_after(end, packet.number, chance, habit)


def answer_of_receiver(end: End, packet: Packet, is_new: bool, chance: Random, habit: Habit) -> Iterator[Packet]:
    if packet.kind == "request":
        yield Packet("oack") if end.meaning.agreed else Packet("ack", 0)
    elif packet.kind == "oack":
        yield Packet("ack", 0)
    elif packet.kind == "data":
        is_due = end.front - end.last_ack >= end.window or end.front == end.blocks or packet.number > end.front
        if not is_new:
            if chance.random() < habit.again:
                yield Packet("ack", chance.choice((end.front, min(packet.number, end.front))))
        elif is_due or chance.random() < habit.each:
            yield Packet("ack", end.front)


def after_waiting(end: End, chance: Random, habit: Habit) -> Iterator[Packet]:
    """What an end sends again, or at last, where nothing came."""
    if end.is_client and chance.random() < (0.1 if end.taken else 1):
        yield Packet("request")
    if end.is_sender:
        if not end.is_client and end.meaning.agreed and not end.top:
            yield Packet("oack")
        base = max(end.acknowledged)
        if base < end.blocks:
            yield from window_after(end, base, chance, habit)
        elif chance.random() < habit.again:
            yield Packet("data", end.top)
    else:
        yield Packet("ack", end.front)
        if not end.is_client and not end.front:
            yield from (Packet("oack"), Packet("ack", 0))


def anything(end: End, chance: Random) -> Iterator[Packet]:
    """Something that the end perhaps may send, however odd."""
    yield chosen(
        chance, (Packet("request"), 1), (Packet("oack"), 1), (Packet("ack", 0), 1),
        (Packet("ack", chance.randint(0, end.front)), 4), (Packet("data", chance.randint(1, end.top + 1)), 4),
    )


class Transfer:
    """Two ends, what is under way between them, and what has passed at each: (is it sent, packet)."""

    def __init__(self, chance: Random, meaning: Meaning, wire: bytes) -> None:
        self.chance, self.network = chance, network_of(chance)
        self.ends = {name: End(meaning, wire, name == "client") for name in ENDS}
        self.habits = {name: habit_of(chance) for name in self.ends}
        self.passed: dict[EndName, list[Step]] = {name: [] for name in self.ends}
        self.under_way: list[tuple[EndName, Packet]] = []
        # the step before which an end breaks off, if it does
        self.breaks = {name: chance.randrange(30) if chance.random() < 0.12 else None for name in self.ends}

    def propose(self, name: EndName, packets: Iterable[Packet]) -> None:
        """The end sends those of the packets that it may send."""
        end = self.ends[name]
        other: EndName = "server" if name == "client" else "client"
        for packet in packets:
            if end.may_send(packet):
                end.send(packet)
                self.passed[name].append((True, packet))
                self.under_way.append((other, packet))

    def is_due(self) -> bool:
        """Whether something is under way."""
        return bool(self.under_way)

    def deliver(self) -> None:
        """A packet that is under way comes, or is lost, and perhaps will come again."""
        carried = self.carried(self.under_way, self.network)
        if carried:
            self.come(*carried)

    def carried(self, under_way: list[tuple[EndName, Packet]], network: Network) -> tuple[EndName, Packet] | None:
        """A packet that a network has carried, if it is not lost; it may stay under way, to come again."""
        chance = self.chance
        at = chance.randrange(len(under_way)) if chance.random() < network.reorders else 0
        found = under_way[at]
        if chance.random() >= network.repeats:
            del under_way[at]
        return None if chance.random() < network.loses else found

    def come(self, name: EndName, packet: Packet) -> None:
        """A packet comes to an end, which perhaps answers."""
        chance, end, habit = self.chance, self.ends[name], self.habits[name]
        is_new = not (packet.kind == "data" and packet.number in end.held)
        is_new = is_new and not (packet.kind == "ack" and packet.number in end.acknowledged and "ack 0" in end.taken)
        is_new = is_new and (packet.kind in ("ack", "data") or packet.kind not in end.taken)
        end.take(packet)
        self.passed[name].append((False, packet))
        if chance.random() < habit.answers:
            answer = answer_of_sender if end.is_sender else answer_of_receiver
            self.propose(name, list(answer(end, packet, is_new, chance, habit)))

    def error(self) -> Packet:
        return Packet("error", self.chance.choice((0, 1, 3, 5, 8, 65_535, 256)), self.chance.choice(MESSAGES))

    def step(self, number: int) -> None:
        chance = self.chance
        for name, end in self.ends.items():
            since = self.breaks[name]
            if since is not None and number >= since and end.taken and chance.random() < 0.5:
                told = end.told or self.error()
                self.propose(name, [told])
            if chance.random() < self.habits[name].wild:
                self.propose(name, anything(end, chance))
        if self.is_due() and chance.random() < 0.97:
            self.deliver()
            return
        name = chance.choice(ENDS)
        self.propose(name, list(after_waiting(self.ends[name], chance, self.habits[name])))

    def run(self) -> None:
        """Until both ends are done, or a while after, or long enough."""
        self.propose("client", [Packet("request")])
        most, rest = 60 + 20 * self.ends["client"].blocks, self.chance.choice((0, 0, 3, 12))
        for number in range(most):
            self.step(number)
            if all(end.is_complete for end in self.ends.values()):
                rest -= 1
                if rest < 0:
                    return
