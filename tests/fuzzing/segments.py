"""Transfers with a point between the two ends, on either side of which a network loses, repeats and reorders: what
passes the point, as it is recorded there; and changes of that."""
from __future__ import annotations

from collections.abc import Sequence
from random import Random

from captures import EndName
from fuzzing.attribution import Datagram, Endpoint
from fuzzing.between import Sides
from fuzzing.changes import changed_bytes, changed_number, changed_opcode
from fuzzing.ends import Packet
from fuzzing.meanings import Spelling, chosen, meaning_of
from fuzzing.spelled import Request, opcode_of, read
from fuzzing.transfers import Transfer, network_of
from fuzzing.views import STRAYS, port_of
from normal import Meaning

# What a datagram of UDP over IPv4 holds, and the seconds between two of a recording.
MOST_BYTES, BETWEEN = 65_507, 0.002
# From where, to where, and what.
Sent = tuple[Endpoint, Endpoint, bytes]
OTHER: dict[EndName, EndName] = {"client": "server", "server": "client"}


class Segments(Transfer):
    """Two ends and a point between; what an end sends crosses its own side's network, passes, and crosses the
    other's."""

    def __init__(self, chance: Random, meaning: Meaning, wire: bytes) -> None:
        super().__init__(chance, meaning, wire)
        self.networks = {"client": self.network, "server": network_of(chance)}
        self.passing: list[tuple[EndName, Packet]] = []
        self.beyond: list[tuple[EndName, Packet]] = []

    def is_due(self) -> bool:
        return bool(self.under_way or self.beyond)

    def deliver(self) -> None:
        """A packet passes the point, or comes to the other end; or it is lost before."""
        if not self.under_way or self.beyond and self.chance.random() < 0.6:
            carried = self.carried(self.beyond, self.networks[self.beyond[0][0]])
            if carried:
                self.come(*carried)
            return
        carried = self.carried(self.under_way, self.networks[OTHER[self.under_way[0][0]]])
        if carried:
            to, packet = carried
            self.passing.append((OTHER[to], packet))
            self.beyond.append(carried)


class Drawn:
    """A lawful run as it passes the point, and what must be said of it."""

    def __init__(self, chance: Random, subnet: str) -> None:
        meaning, wire = meaning_of(chance)
        run, self.spelling = Segments(chance, meaning, wire), Spelling(chance, meaning, wire)
        run.run()
        self.meaning, self.blocks = meaning, run.ends["client"].blocks
        self.passing = run.passing
        if chance.random() < 0.2:
            self.passing = self.passing[: chance.randrange(len(self.passing) + 1)]
        self.sides = sides_by_chance(chance, subnet)
        self.sent = [self.dressed(end, packet) for end, packet in self.passing]
        if chance.random() < 0.3 and not self.asks_late():
            self.sent = with_strays(chance, self.sides, self.sent, Endpoint(f"{subnet}.9", port_of(chance)))

    def asks_late(self) -> bool:
        """Whether a request passes after something else; in a recording it begins another transfer, of which a stray
        would be."""
        kinds = [packet.kind for _, packet in self.passing]
        return "request" in kinds[kinds.count("request") :]

    def dressed(self, end: EndName, packet: Packet) -> Sent:
        """A packet from its end; a request goes to where the client asks."""
        server = self.sides.asked if packet.kind == "request" else self.sides.server
        source, target = (self.sides.client, server) if end == "client" else (server, self.sides.client)
        return source, target, self.spelling.payload(packet)

    def expected(self) -> str:
        """The verdict: whole where the receiver's last ACK has passed, else by the first ERROR that has."""
        receiver: EndName = "client" if self.meaning.side == "get" else "server"
        if (receiver, Packet("ack", self.blocks)) in self.passing:
            return self.meaning.line().decode().strip()
        first = next(((end, packet) for end, packet in self.passing if packet.kind == "error"), None)
        if first:
            return f"aborted by {first[0]} code {first[1].number}"
        return f"incomplete after {len(self.sent)}"


def sides_by_chance(chance: Random, subnet: str) -> Sides:
    """Ends with hosts of their own in a subnet; some servers answer from the service port, or from another host."""
    client, service = port_of(chance), chosen(chance, (69, 5), (6969, 1))
    answering = f"{subnet}.2" if chance.random() < 0.8 else f"{subnet}.3"
    server = service if chance.random() < 0.2 else port_of(chance)
    return Sides(Endpoint(f"{subnet}.1", client), Endpoint(f"{subnet}.2", service), Endpoint(answering, server))


def with_strays(chance: Random, sides: Sides, sent: Sequence[Sent], stranger: Endpoint) -> list[Sent]:
    """Strays to the client, once its server has answered, some of which it answers by ERROR 5."""
    mixed: list[Sent] = []
    is_answered = has_strayed = False
    for it in sent:
        mixed.append(it)
        is_answered |= it[0] == sides.server
        if is_answered and chance.random() < 0.2:
            mixed.append((stranger, sides.client, chance.choice(STRAYS)[0]))
            has_strayed = True
        if has_strayed and chance.random() < 0.2:
            mixed.append((sides.client, stranger, b"\0\5\0\5" + chance.choice((b"", b"who?")) + b"\0"))
    return mixed


def changed_one(chance: Random, sent: Sequence[Sent], at: int) -> Sent:
    """A datagram of which one part is another."""
    source, target, payload = sent[at]
    ends = [end for it in sent for end in it[:2]]
    return chosen(
        chance,
        ((source, target, changed_bytes(chance, payload)[:MOST_BYTES]), 4),
        ((source, target, changed_number(chance, payload)), 6),
        ((source, target, changed_opcode(chance, payload)), 1),
        ((source, target, chance.choice(sent)[2]), 3),
        ((target, source, payload), 1),
        ((chance.choice(ends), target, payload), 1),
        ((source, chance.choice(ends), payload), 1),
    )


def agreed_more(chance: Random, sent: Sequence[Sent]) -> list[Sent]:
    """What passed, with one option more in each OACK: multicast, one that was asked for, or any other."""
    request = read(sent[0][2])
    asked = list(request.options) if isinstance(request, Request) else []
    name = chance.choice((b"multicast", b"foo", *asked, *asked))
    option = name + b"\0" + chance.choice((b"8", b"", b"70000")) + b"\0"
    return [(*it[:2], it[2] + option) if opcode_of(it[2]) == 6 else it for it in sent]


def error_of(chance: Random, sent: Sequence[Sent]) -> Sent:
    """An ERROR between two that talk."""
    source, target, _ = chance.choice(sent)
    return source, target, b"\0\5\0" + chance.choice((b"\0", b"\3", b"\5")) + chance.choice((b"", b"full")) + b"\0"


def changed(chance: Random, drawn: Sequence[Sent]) -> list[Sent]:
    """What passed, with a few changes."""
    sent = list(drawn)
    for _ in range(chosen(chance, (1, 6), (2, 3), (4, 1))):
        if not sent:
            break
        at, to = (chance.randrange(len(sent)) for _ in range(2))
        ways = ("change", 8), ("drop", 4), ("repeat", 3), ("move", 4), ("error", 2), ("agree", 1), ("cut", 1)
        way = chosen(chance, *ways)
        if way == "change":
            sent[at] = changed_one(chance, sent, at)
        elif way == "agree":
            sent = agreed_more(chance, sent)
        elif way == "drop":
            del sent[at]
        elif way == "repeat":
            sent.insert(to, sent[at])
        elif way == "move":
            sent.insert(to, sent.pop(at))
        elif way == "error":
            sent.insert(at, error_of(chance, sent))
        else:
            del sent[at:]
    return sent


def numbered(sent: Sequence[Sent]) -> list[Datagram]:
    """The datagrams of a recording."""
    return [Datagram(at, at * BETWEEN, *it) for at, it in enumerate(sent)]
