"""What may pass a point between two ends, by what has passed it before, packet by packet: a packet may pass if it might
come to the other end, had that one sent just what passed from it (`MayPass` of crates/law_tap/specs). It knows what
the transfer means; the rules do not, and refuse a list exactly if no meaning has it."""
from __future__ import annotations

from collections.abc import Iterator, Sequence
from random import Random
from typing import NamedTuple

from captures import EndName
from fuzzing.attribution import Datagram, Endpoint
from fuzzing.between import Sides, verdict
from fuzzing.ends import Packet
from fuzzing.meanings import Spelling
from normal import SIDES as WAYS
from normal import USUAL_SIZE, Meaning, Side

ENDS: tuple[EndName, ...] = ("client", "server")
SIDES = Sides(Endpoint("192.0.2.7", 40_000), Endpoint("192.0.2.1", 69), Endpoint("192.0.2.1", 41_000))
Passed = tuple[EndName, Packet]
ERRORS = Packet("error", 0, b"x"), Packet("error", 3, b"x")
REQUEST, OACK, ACK_0 = Packet("request"), Packet("oack"), Packet("ack", 0)


class Law(NamedTuple):
    """What a transfer means, as far as it counts: its side, blocks and window, and whether something is agreed."""

    side: Side
    blocks: int
    is_agreed: bool
    window: int

    def receiver(self) -> EndName:
        return "client" if self.side == "get" else "server"

    def is_started(self, heard: set[Packet]) -> bool:
        if self.side == "get":
            return (ACK_0 if self.is_agreed else REQUEST) in heard
        return (OACK if self.is_agreed else ACK_0) in heard

    def may_zero(self, heard: set[Packet]) -> bool:
        if self.side == "get":
            return self.is_agreed and OACK in heard
        return any(it.kind == "data" for it in heard) if self.is_agreed else REQUEST in heard

    def may_pass(self, passed: Sequence[Passed], end: EndName, packet: Packet) -> bool:
        of_end, back = ({it for other, it in passed if (other == end) == own} for own in (True, False))
        if packet.kind == "error":
            # a client's goes to where its server is, which it knows by what came from there
            is_known = any(other == "server" for other, _ in passed) if end == "client" else REQUEST in back
            return is_known and all(it == packet for it in of_end if it.kind == "error")
        if packet.kind == "request":
            return end == "client"
        if packet.kind == "oack":
            return end == "server" and self.is_agreed and REQUEST in back
        stopped = next((at for at, (other, it) in enumerate(passed) if other == end and it.kind == "error"), None)
        heard = {it for other, it in passed[:stopped] if other != end}
        if packet.kind == "data":
            if end == self.receiver() or not 1 <= packet.number <= self.blocks or not self.is_started(heard):
                return False
            bases = {0} | {it.number for it in heard if it.kind == "ack"}
            return any(packet.number <= base + self.window for base in bases)
        if end != self.receiver() or not all(Packet("data", k) in heard for k in range(1, packet.number + 1)):
            return False
        return packet.number > 0 or self.may_zero(heard)

    def may_pass_each(self, passed: Sequence[Passed]) -> bool:
        return all(self.may_pass(passed[:at], *it) for at, it in enumerate(passed))


def laws_of(law: Law, passed: Sequence[Passed]) -> Iterator[Law]:
    """The meanings that a list may have, where that is so of one: nothing is agreed before an OACK."""
    yield law
    if not any(packet.kind == "oack" for _, packet in passed):
        yield Law(law.side, law.blocks, False, 1)


def packets_of(law: Law) -> list[Passed]:
    """All that either end may send in some run, and what it never may but is of this transfer."""
    blocks = [Packet("data", number) for number in range(1, law.blocks + 1)]
    acks = [Packet("ack", number) for number in range(law.blocks + 2)]
    of_client: list[Passed] = [("client", it) for it in (REQUEST, *ERRORS, *(acks if law.side == "get" else blocks))]
    of_server: list[Passed] = [("server", it) for it in (*ERRORS, *(blocks if law.side == "get" else acks))]
    if law.is_agreed:
        of_server.append(("server", OACK))
    return of_client + of_server


def drawn_list(chance: Random, law: Law) -> list[Passed]:
    """A list of packets, of which most may pass and the last may not or may."""
    every = packets_of(law)
    passed: list[Passed] = [("client", REQUEST)]
    for _ in range(chance.randrange(16)):
        lawful = [it for it in every if law.may_pass(passed, *it)]
        rare = [it for it in lawful if it[1].kind != "error"] or lawful
        passed.append(chance.choice(rare if chance.random() < 0.8 else lawful))
    return [*passed, chance.choice(every)]


def spelled(law: Law, passed: Sequence[Passed]) -> list[Datagram]:
    """The datagrams of these packets, in blocks of the usual size."""
    agreed = {b"windowsize": law.window} if law.is_agreed else {}
    wire = bytes(USUAL_SIZE * (law.blocks - 1)) + b"."
    spelling = Spelling(Random(0), Meaning(law.side, b"a", "octet", {b"windowsize": 9}, agreed, wire), wire)
    found = []
    for number, (end, packet) in enumerate(passed):
        server = SIDES.asked if packet.kind == "request" else SIDES.server
        ends = (SIDES.client, server) if end == "client" else (server, SIDES.client)
        found.append(Datagram(number, number * 0.1, *ends, spelling.payload(packet)))
    return found


def try_list(chance: Random) -> str:
    """A list by chance: what the rules say otherwise than the law, or nothing."""
    is_agreed = chance.random() < 0.6
    window = chance.choice((1, 2, 3)) if is_agreed else 1
    law = Law(chance.choice(WAYS), chance.randint(1, 4), is_agreed, window)
    passed = drawn_list(chance, law)
    lawful = any(it.may_pass_each(passed) for it in laws_of(law, passed))
    said = verdict(SIDES, spelled(law, passed))
    return f"{law}, {passed}: {said}" if lawful == said.startswith("refused") else ""
