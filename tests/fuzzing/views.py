"""A capture at one end, made of what passed there: its ports and hosts, strays between, and its text."""
from __future__ import annotations

import copy
import dataclasses
from collections.abc import Iterable, Iterator
from random import Random

from captures import EndName
from fuzzing.ends import End, Packet
from fuzzing.meanings import Spelling, chosen
from fuzzing.transfers import Step
from normal import Meaning, Output

# A host and a port.
Peer = tuple[bytes, int]

# What strays may hold, and what `show` says of it.
STRAYS: tuple[tuple[bytes, str], ...] = (
    (b"\0\3\0\1hi", "DATA 1 2"), (b"\0\4\0\1", "ACK 1"), (b"\0\4\xff\xff", "ACK 65535"), (b"\0\6", "OACK"),
    (b"\0\5\0\0no\0", "ERROR 0"), (b"\0\5\0\5\0", "ERROR 5"), (b"\0\3\0\0", "DATA 0 0"), (b"", "malformed Short"),
    (b"\0", "malformed Short"), (b"\0\3\0", "malformed Short"), (b"\0\0\0\0", "malformed Opcode"),
    (b"\0\7", "malformed Opcode"), (b"\0\4\0\1\0", "malformed AckLength"), (b"\0\5\0\1", "malformed NoTerminator"),
    (b"\0\6a\0b\0c\0", "malformed OddOptions"), (b"\0\6\0b\0", "malformed EmptyOptionName"),
    (b"\0\6a\0b\0A\0b\0", "malformed DuplicateOption"),
)
STRAY_REQUESTS: tuple[tuple[bytes, str], ...] = (
    (b"\0\1a\0octet\0", "RRQ"), (b"\0\2\0NetAscii\0blksize\0007\0", "WRQ"), (b"\0\1", "malformed NoTerminator"),
    (b"\0\1a\0mail\0", "malformed MailMode"), (b"\0\2a\0octets\0", "malformed UnknownMode"),
    (b"\0\1a\0octet\0x\0", "malformed OddOptions"),
)
HOSTS = (b"10.0.0.1", b"10.0.0.2", b"192.0.2.255", b"2001:db8::1", b"fe80::1%eth0", b"-", b"#", b"~" * 45, b"!")


@dataclasses.dataclass(frozen=True)
class Datagram:
    """A line of a capture; `peer` is the other host and its port."""

    goes_out: bool
    local: int
    peer: Peer
    payload: bytes
    # what `show` prints of it, where that is known
    said: str = ""

    def of_version(self, version: int) -> Datagram:
        """The same as a text of a version has it: one of version 1 names no hosts."""
        return self if version == 2 else dataclasses.replace(self, peer=(b"-", self.peer[1]))

    def line(self, version: int = 1, upper: bool = False) -> bytes:
        digits = self.payload.hex() or "-"
        host, port = self.peer
        fields = b"%s %d" % (host, port) if version == 2 else b"%d" % port
        payload = (digits.upper() if upper else digits).encode()
        return b"%s %d %s %s\n" % (b"out" if self.goes_out else b"in", self.local, fields, payload)


@dataclasses.dataclass(frozen=True)
class Capture:
    version: int
    end: EndName
    service: int
    datagrams: tuple[Datagram, ...]

    def head(self) -> bytes:
        return b"tftp-capture %d\nend %s\nservice %d\n" % (self.version, self.end.encode(), self.service)

    def text(self, count: int | None = None) -> bytes:
        """The canonical text of the first so many datagrams, or of all."""
        lines = [datagram.line(self.version) for datagram in self.datagrams[:count]]
        return self.head() + b"".join(lines) + b"total %d\n" % len(lines)

    def spelled(self, chance: Random) -> bytes:
        """Another text of the same capture: comments, empty lines and capitals."""
        lines = [self.head().splitlines(keepends=True)[0]]
        for line in self.head().splitlines(keepends=True)[1:]:
            lines += [*skipped(chance), line]
        for datagram in self.datagrams:
            lines += [*skipped(chance), datagram.line(self.version, chance.random() < 0.3)]
        return b"".join([*lines, *skipped(chance), b"total %d\n" % len(self.datagrams)])

    def with_hosts(self) -> Capture:
        """The same in version 2, where the capture is of version 1: each host is `-`."""
        named = (dataclasses.replace(it, peer=(b"-", it.peer[1])) for it in self.datagrams)
        return dataclasses.replace(self, version=2, datagrams=tuple(named))


def skipped(chance: Random) -> Iterator[bytes]:
    """Lines that are skipped."""
    while chance.random() < 0.15:
        any_bytes = b"#" + chance.randbytes(9).replace(b"\n", b"")
        yield chance.choice((b"", b"#", b"# total 3", b"#\0\xff\r", any_bytes)) + b"\n"


def port_of(chance: Random) -> int:
    return chosen(chance, (chance.randint(1, 65_535), 8), (69, 1), (1, 1), (65_535, 1))


class View:
    """What passed at one end as a capture, with what must be said of it."""

    def __init__(
        self, chance: Random, meaning: Meaning, wire: bytes, end: EndName, steps: Iterable[Step], spelling: Spelling
    ) -> None:
        self.meaning, self.wire, self.end, self.spelling = meaning, wire, end, spelling
        self.version = chance.choice((1, 2))
        self.service = chosen(chance, (69, 3), (port_of(chance), 1))
        self.client = (chance.choice(HOSTS), port_of(chance))
        self.asked = chance.choice(HOSTS)
        answering = self.asked if chance.random() < 0.8 else chance.choice(HOSTS)
        self.server = (answering, self.service if chance.random() < 0.2 else port_of(chance))
        datagrams = [self.dressed(is_sent, packet) for is_sent, packet in steps]
        # the steps of the datagrams, and None for a stray or its answer
        self.steps: list[Step | None] = list(steps)
        if chance.random() < 0.3:
            datagrams = self.with_strays(chance, datagrams)
        self.capture = Capture(self.version, end, self.service, tuple(datagrams))

    def dressed(self, is_sent: bool, packet: Packet) -> Datagram:
        """The datagram of a packet of the transfer."""
        return self.of_payload(is_sent, self.spelling.payload(packet), self.spelling.said(packet))

    def of_payload(self, is_sent: bool, payload: bytes, said: str = "") -> Datagram:
        """A datagram between the two ends; what a client asks goes to the service port."""
        is_request = payload[:2] in (b"\0\1", b"\0\2") and is_sent == (self.end == "client")
        if self.end == "client":
            local, peer = self.client[1], (self.asked, self.service) if is_request else self.server
        else:
            local, peer = self.service if is_request else self.server[1], self.client
        return Datagram(is_sent, local, peer, payload, said)

    def stray_peers(self, chance: Random) -> Iterator[Peer]:
        """Peers that are not the other end."""
        other = self.server if self.end == "client" else self.client
        for _ in range(chance.randrange(1, 4)):
            is_near = self.version == 2 and chance.random() < 0.5
            peer = (chance.choice(HOSTS), other[1] if is_near else port_of(chance))
            if peer != other and (self.version == 2 or peer[1] != other[1]):
                yield peer

    def with_strays(self, chance: Random, datagrams: Iterable[Datagram]) -> list[Datagram]:
        """Strays come in once the other end is known, and some are answered by ERROR 5."""
        peers = list(self.stray_peers(chance))
        noted: list[Peer] = []
        mixed: list[Datagram] = []
        local = self.client[1] if self.end == "client" else self.server[1]
        takes_requests = self.end == "client" or self.server[1] != self.service
        is_known, waited = False, list(self.steps)
        self.steps = []
        for step, datagram in zip(waited, datagrams):
            mixed.append(datagram)
            self.steps.append(step)
            is_known |= datagram.goes_out == (self.end == "server")
            while is_known and peers and chance.random() < 0.3:
                if noted and chance.random() < 0.5:
                    message = chance.choice((b"", b"Unknown transfer ID", b"\xff"))
                    stray = Datagram(True, local, chance.choice(noted), b"\0\5\0\5" + message + b"\0", "ERROR 5")
                else:
                    noted.append(chance.choice(peers))
                    payload, said = chance.choice(STRAYS + STRAY_REQUESTS * takes_requests)
                    stray = Datagram(False, local, noted[-1], payload, said)
                mixed.append(stray)
                self.steps.append(None)
        return mixed

    def shown(self, count: int) -> bytes:
        """What `show` prints of the first so many datagrams."""
        rows = enumerate(self.capture.datagrams[:count], 1)
        return b"".join(b"%d %s %s\n" % (at, b"out" if it.goes_out else b"in", it.said.encode()) for at, it in rows)

    def passed(self, count: int) -> Passed:
        """What has come of the first so many datagrams."""
        passed = Passed(self)
        for step, datagram in zip(self.steps[:count], self.capture.datagrams):
            if step:
                passed.add(*step)
            elif not datagram.goes_out:
                passed.noted.append(datagram.peer)
        return passed

    def expected(self, count: int) -> Output:
        """What `check` prints of the first so many datagrams, and its status."""
        return self.passed(count).verdict(count)


class Passed:
    """What has passed at one end of a lawful transfer."""

    def __init__(self, view: View) -> None:
        self.meaning, self.end = view.meaning, End(view.meaning, view.wire, view.end == "client")
        # who sent the first ERROR and its code, the first that came, and what this end had sent by then
        self.first_error: tuple[bytes, int] | None = None
        self.heard: Packet | None = None
        self.before = self.end
        # the peers of strays
        self.noted: list[Peer] = []

    def add(self, is_sent: bool, packet: Packet) -> None:
        if packet.kind == "error":
            self.first_error = self.first_error or (b"local" if is_sent else b"peer", packet.number)
            if not is_sent and not self.heard:
                self.heard, self.before = packet, copy.copy(self.end)
                self.before.sent = set(self.end.sent)
        (self.end.send if is_sent else self.end.take)(packet)

    def verdict(self, count: int) -> Output:
        if self.end.is_complete:
            return self.meaning.line(), 0
        if self.first_error is not None:
            return b"aborted by %s code %d\n" % self.first_error, 1
        return b"incomplete after %d\n" % count, 1

    def has_reply(self) -> bool:
        """Whether the answer to the request has passed."""
        return bool({"oack", "data", "ack"} & (self.end.sent | self.end.taken))
