"""Recordings at a client, drawn with far more strays and repeated requests than there are in life: up to three reads
from one port, each of which is lawful where its own server's and strays' datagrams alone are seen."""
import random
from typing import NamedTuple

from fuzzing.attribution import Datagram, Endpoint, Transfer

CLIENT, SERVER, STRANGER = Endpoint("192.0.2.7", 40_000), "192.0.2.1", "192.0.2.9"
OACK = b"\0\6blksize\x00512\0"


class Passed(NamedTuple):
    source: Endpoint
    target: Endpoint
    payload: bytes


def data(block: int, body: bytes) -> bytes:
    return b"\0\3" + block.to_bytes(2, "big") + body[512 * (block - 1) : 512 * block]


def ack(block: int) -> bytes:
    return b"\0\4" + block.to_bytes(2, "big")


def error(code: int) -> bytes:
    return b"\0\5" + code.to_bytes(2, "big") + b"x\0"


class Read:
    """One read of a file from the server's port, with strays of some endpoints between."""

    def __init__(self, drawn: random.Random, port: int, strays: list[Endpoint]) -> None:
        self.drawn, self.server, self.strays = drawn, Endpoint(SERVER, port), strays
        self.passed: list[Passed] = []

    def add(self, source: Endpoint, target: Endpoint, payload: bytes) -> None:
        self.passed.append(Passed(source, target, payload))

    def perhaps_strayed(self) -> None:
        if not self.strays or self.drawn.random() >= 0.35:
            return
        stray, drawn = self.drawn.choice(self.strays), self.drawn
        payloads = data(drawn.randint(1, 8), drawn.randbytes(5_000)), ack(drawn.randint(0, 9)), error(0), OACK
        self.add(stray, CLIENT, drawn.choice((*payloads, data(1, drawn.randbytes(700)))))
        if drawn.random() < 0.5:
            self.add(CLIENT, stray, error(5))

    def asked_again(self, request: bytes, strayed: bool = True) -> None:
        while self.drawn.random() < 0.3:
            self.add(CLIENT, Endpoint(SERVER, 69), request)
            if strayed:
                self.perhaps_strayed()

    def begun(self, name: str, has_options: bool) -> bytes:
        """The request; with options, the OACK and ACK 0 too."""
        request = b"\0\1" + f"{name}\0octet\0{'blksize' + chr(0) + '512' + chr(0) if has_options else ''}".encode()
        self.add(CLIENT, Endpoint(SERVER, 69), request)
        self.asked_again(request, strayed=False)
        if has_options:
            self.add(self.server, CLIENT, OACK)
            self.perhaps_strayed()
            self.asked_again(request)
            self.add(CLIENT, self.server, ack(0))
            self.perhaps_strayed()
        return request

    def draw(self) -> list[Passed]:
        body = self.drawn.randbytes(self.drawn.choice((200, 1_300, 1_300, 2_000)))
        has_options = self.drawn.random() < 0.4
        request = self.begun(self.drawn.choice("ab"), has_options)
        for block in range(1, len(body) // 512 + 2):
            self.add(self.server, CLIENT, data(block, body))
            self.perhaps_strayed()
            if block == 1 and not has_options:
                self.asked_again(request)
            self.add(CLIENT, self.server, ack(block))
            self.perhaps_strayed()
            if self.drawn.random() < 0.06:
                break
        return self.passed


def datagrams_of(passed: list[Passed]) -> list[Datagram]:
    return [Datagram(number, number * 0.01, *one) for number, one in enumerate(passed)]


def alone(passed: list[Passed], port: int) -> Transfer:
    """The transfer of these datagrams, where they are all that there is."""
    seen = datagrams_of(passed)
    server = Endpoint(SERVER, port)
    return Transfer(0, seen[0].source, seen[0].target, seen, answered=server, went_on=server)


def drawn_reads(seed: int) -> list[tuple[list[Passed], int]]:
    """The reads of one recording, one after the other, each with its server's port."""
    drawn = random.Random(seed)
    ports = [drawn.choice((69, 41_000, 41_001, 41_002)) for _ in range(drawn.choice((1, 2, 2, 3)))]
    reads = []
    for place, port in enumerate(ports):
        earlier = [Endpoint(SERVER, other) for other in ports[:place] if other != port]
        strays = [*earlier, Endpoint(STRANGER, 41_000), Endpoint(SERVER, 41_777)]
        reads.append((Read(drawn, port, strays).draw(), port))
    return reads


def whole(reads: list[tuple[list[Passed], int]]) -> list[Datagram]:
    return datagrams_of([one for passed, _ in reads for one in passed])
