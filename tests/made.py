"""Small recordings of which each test knows what is said: reads of a file in one block or two, at their times."""
from __future__ import annotations

import dataclasses
from collections.abc import Sequence

import recorded
from captures import ack, data, read_request
from judged import packet_of
from recorded import Datagram, Frame

C, S, THIRD = "192.0.2.7", "192.0.2.1", "192.0.2.9"
C_6, S_6 = "2001:db8::7", "2001:db8::1"
SECOND = 1_000_000_000


def at(second: float) -> int:
    """A time in nanoseconds since 1970."""
    return recorded.FIRST_TIME + round(second * SECOND)


def framed(packets: Sequence[bytes], times: Sequence[float] = (), link: int = recorded.RAW) -> list[Frame]:
    """Frames of these packets, a millisecond after one another where no times are given."""
    return [Frame(link, packet, at(times[place] if times else place / 1000)) for place, packet in enumerate(packets)]


def packets_of(passed: Sequence[Datagram]) -> list[bytes]:
    return [packet_of(it, number) for number, it in enumerate(passed)]


def file_of(passed: Sequence[Datagram], times: Sequence[float] = ()) -> bytes:
    return recorded.pcap(framed(packets_of(passed), times), is_nano=True)


def file_of_packets(packets: Sequence[bytes]) -> bytes:
    return recorded.pcap(framed(packets), is_nano=True)


def read(
    file: str, client: int, server: int, hosts: tuple[str, str] = (C, S), service: int = 69, content: bytes = b"hi"
) -> list[Datagram]:
    """A read of a file in one block."""
    mine, theirs = hosts
    request = Datagram(mine, client, theirs, service, read_request(file, "octet")[0])
    block = Datagram(theirs, server, mine, client, data(1, content)[0])
    return [request, block, Datagram(mine, client, theirs, server, ack(1)[0])]


def late_block() -> list[Datagram]:
    """A read in two blocks, the first of which is repeated after the second: at the client it came late, at the server
    it was sent against the lock step."""
    first, last = data(1, b"." * 512)[0], data(2, b"!")[0]
    out, back = (C, 40_000, S, 41_000), (S, 41_000, C, 40_000)
    asked, acked = read("a", 40_000, 41_000)[0], [Datagram(*out, ack(number)[0]) for number in (1, 2)]
    return [asked, Datagram(*back, first), acked[0], Datagram(*back, last), Datagram(*back, first), acked[1]]


def at_one_host(passed: Sequence[Datagram], host: str = S) -> list[Datagram]:
    """The same between two ends at one host."""
    return [dataclasses.replace(it, source=host, target=host) for it in passed]


def asked_again() -> list[Datagram]:
    """The same request again after the first block, before the client went on, and then another server's block."""
    passed = late_block()
    stray = Datagram(S, 42_000, C, 40_000, data(7, b"stray")[0])
    return [*passed[:2], passed[0], stray, passed[2]]
