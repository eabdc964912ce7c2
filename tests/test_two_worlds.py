"""Pairs of worlds of which one recording is made, to the byte: in one an end acknowledges a block that never came to
it, in the other both ends keep the law. So no rule can tell every such breach without a doubt and accuse no lawful end.

The first recording is a write of one block: the request, ACK 0, ACK 1, DATA 1, ACK 1. In one world that is all that
ever passed. The server says ACK 1 before DATA 1 was sent: it breaks the law. In the other world the client had waited
for an answer and asked again. Then ACK 0 came, DATA 1 went, and its ACK 1 was lost. Here the recording begins, as the
second request passes, late. The server answers it by ACK 0 and says its last word again, ACK 1. The client says its own
again, DATA 1, and has ACK 1 for it. All of it is lawful.

The second one is a plain read: the request, DATA 1, ACK 1, ACK 2, DATA 2, ACK 2. In one world the client says ACK 2
before DATA 2 was sent. In the other the client had no answer, gave up, and asked from the same port for another file,
in windows of two blocks. That request overtook the first one. The server agreed and sent both blocks: one was lost, the
other came and was held. Here the recording begins, as the older request passes, which the server, busy with that
client, leaves. The server sends its window again. The client takes DATA 1, says ACK 1, and since it holds DATA 2 says
ACK 2; DATA 2 comes again, and it says ACK 2 again. All of it is lawful.

A verdict is read off the bytes of the recording alone, and these are the same. Whatever rule decides about doubts must
accuse a lawful end of the one world, or doubt the breach of the other: what would tell the two apart passed before the
recording began. This is so at the server and between the ends. At the client a request is recorded when it is sent, so
that none comes late.
"""
from __future__ import annotations

import itertools
import subprocess
from typing import Literal, NamedTuple, Optional

from captures import EndName, Packet, ack, data, oack, read_request, write_request
from checks import Check, Checks
from fuzzing.attribution import Datagram, Endpoint
from fuzzing.views import Capture
from fuzzing.views import Datagram as Line
from judged import CAN_TAKE, recording
from programs import AUDIT
from refusals import Rule, refusal

CLIENT, SERVICE, SERVER = Endpoint("192.0.2.7", 2_070), Endpoint("192.0.2.1", 69), Endpoint("192.0.2.1", 41_000)
# In milliseconds: how long a datagram may live in the network, and when the recording begins.
LONGEST_LIFE, BEGINS = 120_000, 2_000
ENDS: tuple[EndName, ...] = ("client", "server")
Place = Literal["server", "between"]
PLACES: tuple[Place, ...] = ("server", "between")
WRITE, ONLY = write_request("a", "octet"), data(1, b"1")
FIRST, LAST = data(1, b"1" * 512), data(2, b"2")


class Sent(NamedTuple):
    """A datagram, in which transfer it is sent, and when; when it passes half of its way; and when it comes, if it
    does."""

    end: EndName
    transfer: str
    payload: bytes
    sent: int
    passes: int
    comes: Optional[int]

    def source(self) -> Endpoint:
        return CLIENT if self.end == "client" else SERVER

    def target(self) -> Endpoint:
        if self.end == "server":
            return CLIENT
        return SERVICE if self.payload[:2] in (b"\0\1", b"\0\2") else SERVER

    def recorded(self, place: Place) -> Optional[int]:
        """When it is recorded at the server's host, or between the hosts."""
        if place == "between":
            return self.passes
        return self.sent if self.end == "server" else self.comes

    def seen(self, end: EndName) -> Optional[int]:
        """When this end sends or takes it."""
        return self.sent if self.end == end else self.comes

    def line(self, end: EndName) -> Line:
        """Its line in the capture text of this end."""
        is_out = self.end == end
        own, other = (self.source(), self.target()) if is_out else (self.target(), self.source())
        return Line(is_out, own.port, (other.host.encode(), other.port), self.payload)


World = tuple[Sent, ...]


def went(end: EndName, transfer: str, packet: Packet, sent: int, passes: int = 1, comes: int = 1) -> Sent:
    """It passes and comes so many milliseconds later."""
    return Sent(end, transfer, packet[0], sent, sent + passes, sent + passes + comes)


Texts = dict[tuple[EndName, str], str]


class Pair(NamedTuple):
    """Two worlds; of the breach its place in the one, and what each end's text is without it; of the other how many of
    its frames pass before the recording begins, and what each end's text of each transfer is."""

    name: str
    broken: World
    breach: int
    mended: str
    lawful: World
    before: int
    texts: Texts

    def worlds(self) -> tuple[tuple[str, World, int, Texts], ...]:
        """Each with its name, how many of its frames pass before, and its texts."""
        mended = self.broken[: self.breach] + self.broken[self.breach + 1 :]
        return (
            (f"{self.name}, the breach", self.broken, 0, alike(refusal(self.breach + 1, Rule.ACK_AHEAD))),
            (f"{self.name}, without the breach", mended, 0, alike(self.mended)),
            (f"{self.name}, the lawful one", self.lawful, self.before, self.texts),
        )

    def files(self, place: Place) -> set[bytes]:
        """The recordings that are made of the two worlds there."""
        return {file_of(self.broken, place), file_of(self.lawful, place)}


def alike(line: str) -> Texts:
    """The texts of one transfer that are the same at both ends."""
    return {(end, "a"): line for end in ENDS}


WRITTEN, READ = "accepted put octet blocks 1 bytes 1", "accepted get octet blocks 2 bytes 513"
UNANSWERED = "incomplete after 1"
PAIRS = (
    Pair(
        "a write", (
            went("client", "a", WRITE, 1_999),
            went("server", "a", ack(0), 2_010),
            went("server", "a", ack(1), 2_011),
            went("client", "a", ONLY, 2_020),
            went("server", "a", ack(1), 2_030),
        ),
        2, WRITTEN, (
            went("client", "a", WRITE, 0),
            went("client", "a", WRITE, 1_000, passes=1_000),
            went("server", "a", ack(0), 1_010),
            went("client", "a", ONLY, 1_020),
            went("server", "a", ack(1), 1_030)._replace(comes=None),
            went("server", "a", ack(0), 2_010),
            went("server", "a", ack(1), 2_011),
            went("client", "a", ONLY, 2_020),
            went("server", "a", ack(1), 2_030),
        ),
        4, alike(WRITTEN),
    ),
    Pair(
        "a read", (
            went("client", "a", read_request("a", "octet"), 1_999),
            went("server", "a", FIRST, 2_010),
            went("client", "a", ack(1), 2_019),
            went("client", "a", ack(2), 2_020),
            went("server", "a", LAST, 2_030),
            went("client", "a", ack(2), 2_039),
        ),
        3, READ, (
            went("client", "a", read_request("a", "octet"), 0, passes=2_000),
            went("client", "b", read_request("b", "octet", windowsize=2), 1_000),
            went("server", "b", oack(windowsize=2), 1_010),
            went("client", "b", ack(0), 1_020),
            went("server", "b", FIRST, 1_030)._replace(comes=None),
            went("server", "b", LAST, 1_031),
            went("server", "b", FIRST, 2_010),
            went("client", "b", ack(1), 2_019),
            went("client", "b", ack(2), 2_020),
            went("server", "b", LAST, 2_030),
            went("client", "b", ack(2), 2_039),
        ),
        5, {**alike(UNANSWERED), ("client", "b"): READ, ("server", "b"): READ},
    ),
)


def passed(world: World, place: Place) -> list[tuple[int, Sent]]:
    """What passes there, in the order of time, and when."""
    return sorted(((at, it) for it in world if (at := it.recorded(place)) is not None), key=lambda row: row[0])


def file_of(world: World, place: Place) -> bytes:
    """The recording that is made there."""
    rows = [(at, it) for at, it in passed(world, place) if at >= BEGINS]
    return recording([
        Datagram(number, at / 1_000, it.source(), it.target(), it.payload) for number, (at, it) in enumerate(rows)
    ])


def is_causal(it: Sent) -> bool:
    """Whether it passes after it was sent, comes after that, and lives no longer than it may."""
    comes = it.passes if it.comes is None else it.comes
    return it.sent < it.passes <= comes <= it.sent + LONGEST_LIFE


def verdict(world: World, end: EndName, transfer: str) -> str:
    """What is said of this end's text of a transfer: what it sends and takes in it, in the order of time."""
    its = [(at, it) for it in world if it.transfer == transfer and (at := it.seen(end)) is not None]
    lines = tuple(it.line(end) for _, it in sorted(its, key=lambda row: row[0]))
    text = Capture(2, end, SERVICE.port, lines).text()
    done = subprocess.run([AUDIT.path, "check"], input=text, capture_output=True, timeout=CAN_TAKE)
    return done.stdout.decode().strip()


def is_one_after_another(world: World, end: EndName) -> bool:
    """Whether an end sends nothing in a transfer once it has sent something in a later one."""
    names = [it.transfer for it in sorted(world, key=lambda it: it.sent) if it.end == end]
    return names == sorted(names)


class TwoWorlds(Checks):
    """One recording of two worlds."""

    needs = (AUDIT,)

    def test_recordings(self) -> None:
        """Both are the same bytes, and only of the lawful world something passed before."""
        for pair, place in itertools.product(PAIRS, PLACES):
            files = pair.files(place)
            self.check(f"{place}, {pair.name}, the same bytes", len(files) == 1, files)
            for name, world, count, _ in pair.worlds():
                before = sum(at < BEGINS for at, _ in passed(world, place))
                self.check(f"{place}, {name}, before", before == count, before)

    def test_worlds(self) -> None:
        """Each may be: what comes was sent before, and an end has one transfer after the other."""
        self.check_each(
            Check(f"{name}, {end}", all(map(is_causal, world)) and is_one_after_another(world, end), world)
            for pair in PAIRS for name, world, _, _ in pair.worlds() for end in ENDS
        )

    def test_law(self) -> None:
        """One datagram of the one world breaks the law; in the other every text of both ends is lawful."""
        for name, world, _, texts in itertools.chain(*(pair.worlds() for pair in PAIRS)):
            said = {(end, it): verdict(world, end, it) for end in ENDS for it in {it.transfer for it in world}}
            self.check(name, said == texts, said)
