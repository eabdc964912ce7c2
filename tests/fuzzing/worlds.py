"""Worlds of lawful clients and servers over networks that lose, repeat and delay, of which each kind of trouble can be
turned on and off by its name; and what was recorded of them at each host and between. Nobody in them breaks the law by
what it sent and took itself, so nobody may be accused, wherever it was recorded. What frames decide (fragments,
checksums, counters, mirrors) is added by `framed.py`."""
from __future__ import annotations

import heapq
import random
from collections.abc import Callable, Iterable, Iterator
from dataclasses import dataclass, field
from typing import Literal, NamedTuple

from fuzzing.attribution import Datagram, Endpoint
from fuzzing.halves import ack, data, error, opcode
from fuzzing.parties import Client, Server, Witness

Place = Literal["client", "server", "between"]

# Each kind, and what it is.
KINDS: dict[str, str] = {
    "loss": "datagrams are lost",
    "twice": "the network repeats datagrams",
    "slow": "some come seconds late",
    "very_slow": "some come up to 200 s late",
    "writes": "files are written",
    "options": "requests have options",
    "agrees_to_some": "servers agree to some of them",
    "missing": "files that are not there",
    "changed": "after giving up a client asks for another file",
    "asks_again": "and for the same after an ERROR",
    "respelled": "a request is repeated in other letters and order",
    "hasty": "a client repeats its request after the first answer",
    "resets": "a client gives up at any time, with ERROR or without a word",
    "clients": "several clients",
    "shared_host": "several clients at one host",
    "servers": "several servers",
    "one": "a server of one port beside the service port",
    "service": "a server that answers from the service port",
    "reused": "a server's port is used again at once for another client",
    "reused_for_same": "and for the same, though a repeated request of an earlier transfer may be answered from it",
    "restarts": "a server answers each copy of a request anew",
    "new_ports": "a client takes a new port for each transfer",
    "own_again": "a client takes one of two ports for each transfer",
    "error5": "ERROR 5 to what is of no transfer",
    "error5_after": "and to where an ERROR was told before",
    "early_error5": "and of a client that has no answer yet",
    "strays": "strays of some bytes come to clients and servers",
    "stray_requests": "strays are shaped like requests",
    "stray_hosts": "strays come from the hosts of servers and clients",
    "junk": "servers answer junk by ERROR 4",
    "other_port": "servers listen at another port than 69",
    "hairpin": "both ends are at one address",
    "starts_late": "the recording begins in the middle",
    "ends_early": "the recording ends early",
    "clock_ahead": "a foreign frame is ahead of the clock",
    "clock_back": "the recorder's clock is set back",
}
STRANGER, FOREIGN = "10.3.0.9", "10.4.0.1"
LONGEST = 70
JUNK = (b"", b"?", b"\0", b"\0\4", b"\0\3\0", b"\0\0\0\0", b"\0\7", b"\0\5\0\1", b"\xff" * 9)


class Recording(NamedTuple):
    """What was recorded at a place, and at which host, if at one."""

    place: Place
    host: str
    datagrams: list[Datagram]
    # the number of each in all that passed there, or -1 of a foreign one
    places: list[int]


@dataclass
class Drawn:
    """A world that is drawn from a seed, with these kinds of trouble."""

    seed: int
    kinds: frozenset[str]
    now: float = 0.0
    count: int = 0
    queue: list[tuple[float, int, Callable[[], None]]] = field(default_factory=list)
    recorded: dict[str, list[Datagram]] = field(default_factory=dict)
    files: dict[bytes, bytes] = field(default_factory=dict)
    unlawful: list[str] = field(default_factory=list)
    witnesses: list[Witness] = field(default_factory=list)
    strangers: set[Endpoint] = field(default_factory=set)
    # of each place, which transfer each datagram is of, by who sent it
    of: dict[str, list[int]] = field(default_factory=dict)
    # those in which a client took what was sent in another for the answer
    mistaken: set[int] = field(default_factory=set)
    # how many transfers clients may still begin, how many they have begun, and of which the one is that comes now
    wishes: int = 1_000_000
    # how long each takes, where all take as long
    steady: float = 0
    begun: int = 0
    arrived: int = 0
    clients: list[Client] = field(default_factory=list)
    servers: list[Server] = field(default_factory=list)
    sockets: dict[Endpoint, Client] = field(default_factory=dict)

    def __post_init__(self) -> None:
        drawn = self.drawn = random.Random(self.seed)
        lengths = (0, 100, 511, 512, 1_300, 2_600)
        self.files = {b"f%d" % k: drawn.randbytes(drawn.choice(lengths)) for k in range(3)}
        self.loss = drawn.choice((0.05, 0.2)) if self.has("loss") else 0
        self.twice = drawn.choice((0.05, 0.25)) if self.has("twice") else 0
        self.slow = drawn.choice((0.05, 0.2)) if self.has("slow") else 0
        self.very_slow = 0.06 if self.has("very_slow") else 0
        self.most = drawn.choice((6, 12, 25, LONGEST))
        self.make_servers()
        self.make_clients()

    def has(self, kind: str) -> bool:
        return kind in self.kinds

    def often(self, kind: str, chance: float) -> bool:
        return kind in self.kinds and self.drawn.random() < chance

    # ---- who lives in it

    def make_servers(self) -> None:
        drawn = self.drawn
        count = drawn.choice((2, 3)) if self.has("servers") else 1
        kinds = [kind for kind in ("one", "service") if self.has(kind)] or ["forks"]
        for k in range(count):
            service = drawn.choice((69, 69, 6_969)) if self.has("other_port") else 69
            is_same_host = self.has("hairpin") or count > 1 and drawn.random() < 0.2 and service == 69 and k == 0
            host = "10.1.0.1" if self.has("hairpin") and is_same_host else f"10.2.0.{k + 1}"
            kind = drawn.choice((*kinds, "forks")) if count > 1 else drawn.choice(kinds)
            ports = [41_000 + 100 * k, 41_001 + 100 * k]
            restarts = self.has("restarts") and drawn.random() < 0.7
            self.servers.append(Server(self, Endpoint(host, service), kind, ports, restarts))

    def make_clients(self) -> None:
        drawn = self.drawn
        count = drawn.choice((2, 3)) if self.has("clients") else 1
        for k in range(count):
            host = "10.1.0.1" if self.has("shared_host") else f"10.1.0.{k + 1}"
            port = 2_070 + k if self.has("shared_host") else drawn.choice((2_070, 2_070, 2_071))
            client = Client(self, Endpoint(host, port))
            self.clients.append(client)
            self.sockets[client.own] = client
            self.later(drawn.random(), client.ask)

    def own_port(self, client: Client) -> Endpoint:
        at = client.own
        if client.wish.name and self.has("new_ports"):
            at = Endpoint(at.host, at.port + 10)
        elif client.wish.name and self.has("own_again"):
            at = Endpoint(at.host, self.drawn.choice((at.port, at.port ^ 1024)))
        self.sockets[at] = client
        return at

    def service_of(self, client: Client) -> Endpoint:
        return self.drawn.choice(self.servers).service

    # ---- the network

    def later(self, delay: float, deed: Callable[[], None]) -> None:
        self.count += 1
        heapq.heappush(self.queue, (self.now + delay, self.count, deed))

    def note(self, place: str, source: Endpoint, target: Endpoint, payload: bytes, transfer: int) -> None:
        there = self.recorded.setdefault(place, [])
        there.append(Datagram(len(there), round(self.now, 9), source, target, payload))
        self.of.setdefault(place, []).append(transfer)

    def delay(self) -> float:
        drawn = self.drawn
        if self.steady:
            return self.steady
        if drawn.random() < self.very_slow:
            return drawn.uniform(5, 200)
        return drawn.uniform(0.5, 4) if drawn.random() < self.slow else drawn.uniform(0.0005, 0.02)

    def send(self, source: Endpoint, target: Endpoint, payload: bytes, transfer: int = 0) -> None:
        self.note(source.host, source, target, payload, transfer)
        for _ in range(1 + (self.drawn.random() < self.twice)):
            delay = self.delay()
            first = delay * (0.5 if self.steady else self.drawn.random())
            if self.drawn.random() >= self.loss / 2:
                is_lost = self.drawn.random() < self.loss / 2
                self.later(first, self.half_way(delay - first, is_lost, (source, target, payload, transfer)))

    def half_way(self, rest: float, is_lost: bool, it: tuple[Endpoint, Endpoint, bytes, int]) -> Callable[[], None]:
        source, target, payload, transfer = it

        def passes() -> None:
            self.note("between", *it)
            if not is_lost:
                self.later(rest, arrives)

        def arrives() -> None:
            self.note(target.host, *it)
            self.arrived = transfer
            self.comes(source, target, payload)

        return passes

    def comes(self, source: Endpoint, target: Endpoint, payload: bytes) -> None:
        if target in self.sockets:
            self.sockets[target].take(source, target, payload)
            return
        for server in self.servers:
            if server.service.host == target.host and server.is_open(target):
                server.take(source, target, payload)
                return

    # ---- strays

    def stray_sources(self, target: Endpoint) -> Iterator[Endpoint]:
        yield Endpoint(STRANGER, 2_070)
        yield Endpoint(STRANGER, 69)
        if self.has("stray_hosts"):
            for server in self.servers:
                yield Endpoint(server.service.host, 47_777)
            for client in self.clients:
                yield Endpoint(client.own.host, 7_777)

    def stray_payload(self) -> bytes:
        drawn = self.drawn
        if self.often("stray_requests", 0.4):
            names = (b"f0", b"none", b"s")
            return bytes((0, drawn.choice((1, 2)))) + drawn.choice(names) + b"\0octet\0"
        blocks = data(drawn.randint(1, 4), drawn.randbytes(drawn.choice((3, 512)))), ack(drawn.randint(0, 4))
        return drawn.choice((*blocks, error(0), error(5), b"\0\6blksize\x00512\0", drawn.choice(JUNK)))

    def strayed(self) -> None:
        targets = [client.own for client in self.clients]
        for server in self.servers:
            targets += [server.service, *(own for own, _ in server.sessions)]
        target = self.drawn.choice(targets)
        source = self.drawn.choice([it for it in self.stray_sources(target) if it != target])
        self.strangers.add(source)
        for _ in range(self.drawn.choice((1, 1, 2))):
            self.send(source, target, self.stray_payload())
        self.later(self.drawn.uniform(0.01, 2), self.strayed)

    # ---- what was recorded

    def run(self) -> Drawn:
        if self.has("strays"):
            self.later(self.drawn.random(), self.strayed)
        while self.queue and len(self.recorded.get("between", [])) < self.most:
            self.now, _, deed = heapq.heappop(self.queue)
            deed()
        return self

    def recordings(self) -> list[Recording]:
        """Those at the hosts of clients and servers, and between; not at a host that is both."""
        clients, servers = ({end.host for end in ends} for ends in (self.sockets, self.services()))
        places: list[tuple[Place, str]] = [("client", host) for host in sorted(clients - servers)]
        places += [("server", host) for host in sorted(servers - clients)]
        places += [("between", "")]
        found = []
        for place, host in places:
            datagrams = self.recorded.get(host or "between", [])
            cut = self.as_recorded(datagrams, self.of[host or "between"]) if datagrams else []
            if cut and self.shows_requests(host or "between"):
                found.append(Recording(place, host, renumbered(cut), [it.number for it in cut]))
        return found

    def shows_requests(self, place: str) -> bool:
        """Whether each client that took a late answer of another transfer for its own is seen to have asked before it
        goes on."""
        asked: set[int] = set()
        for it, its in zip(self.recorded[place], self.of[place]):
            if opcode(it.payload) in (1, 2):
                asked.add(its)
            elif its in self.mistaken and its not in asked and it.source in self.sockets:
                return False
        return True

    def services(self) -> list[Endpoint]:
        return [server.service for server in self.servers]

    def named(self) -> list[int]:
        """The service ports that a user would name."""
        return sorted({it.port for it in self.services()} - {69})

    def as_recorded(self, datagrams: list[Datagram], of: list[int]) -> list[Datagram]:
        drawn = random.Random(self.seed + len(datagrams))
        first = drawn.randrange(len(datagrams)) if self.has("starts_late") else 0
        while not is_traced(datagrams, of, first):
            first -= 1
        end = drawn.randint(first, len(datagrams)) if self.has("ends_early") else len(datagrams)
        cut = datagrams[first:end]
        if cut and self.has("clock_ahead"):
            cut = ahead(drawn, cut)
        if cut and self.has("clock_back"):
            cut = set_back(drawn, cut)
        return cut


def is_traced(datagrams: list[Datagram], of: list[int], first: int) -> bool:
    """Whether a recording that begins there shows what was under way: where something of a transfer that began before
    passes after the next request of its client, or something between two that had talked before, something between the
    two had passed in the recording before that request."""
    begun = set(of[:first])
    old = {frozenset((it.source, it.target)) for it in datagrams[:first]}
    seen: set[frozenset[Endpoint]] = set()
    asked: set[Endpoint] = set()
    for it, its in zip(datagrams[first:], of[first:]):
        both = frozenset((it.source, it.target))
        if opcode(it.payload) in (1, 2):
            asked.add(it.source)
        elif not both & asked:
            seen.add(both)
        elif both not in seen and (both in old or its and its in begun):
            return False
    return True


def renumbered(datagrams: Iterable[Datagram]) -> list[Datagram]:
    return [it._replace(number=number) for number, it in enumerate(datagrams)]


def ahead(drawn: random.Random, datagrams: list[Datagram]) -> list[Datagram]:
    """With a frame of two other hosts whose time is far ahead."""
    at = drawn.randrange(len(datagrams))
    client, server = Endpoint(FOREIGN, 5_000), Endpoint("10.4.0.2", drawn.choice((69, 53)))
    time = datagrams[at].time + drawn.choice((301, 1_000))
    foreign = Datagram(-1, time, client, server, drawn.choice((b"\0\1a\0octet\0", b"?")))
    return [*datagrams[:at], foreign, *datagrams[at:]]


def set_back(drawn: random.Random, datagrams: list[Datagram]) -> list[Datagram]:
    """The clock is set back at some datagram."""
    at, back = drawn.randrange(len(datagrams)), drawn.choice((0.01, 1, 100, 400))
    return [it if place < at else it._replace(time=it.time + 500 - back) for place, it in enumerate(
        it._replace(time=it.time + 500) if place < at else it for place, it in enumerate(datagrams)
    )]


# Without these there is nothing to tell apart.
ALWAYS = frozenset(("loss",))
# What makes others of no use: a client keeps its port, takes new ones or one of two; a server's port is one or another.
APART = (("new_ports", "own_again"), ("one", "service", "reused"), ("shared_host", "hairpin"))


def drawn_kinds(seed: int, allowed: Iterable[str] = KINDS) -> frozenset[str]:
    """Some of the kinds, of those that are allowed."""
    drawn, names = random.Random(seed ^ 0x5EED), sorted(allowed)
    chance = drawn.choice((0.1, 0.25, 0.5))
    found = {name for name in names if drawn.random() < chance}
    for group in APART:
        both = sorted(found & set(group))
        if len(both) > 1:
            found -= set(both) - {drawn.choice(both)}
    return frozenset(found)


def world_of(seed: int, allowed: Iterable[str] = KINDS) -> Drawn:
    return Drawn(seed, drawn_kinds(seed, allowed)).run()
