"""Whole sessions: clients that ask one server for file after file from one port each, and are reset now and then, over
a network that loses, repeats and delays. All are lawful, so nobody may be accused, wherever it is recorded."""
from __future__ import annotations

import heapq
import random
from dataclasses import dataclass, field
from typing import Callable, Literal, Optional

from fuzzing.attribution import Datagram, Endpoint
from fuzzing.dense import data, error

SERVER, STRANGER, SERVICE = "10.2.0.1", "10.1.0.9", Endpoint("10.2.0.1", 69)
LONGEST = 150
# Whether a server has a port of its own for each transfer, one for all, or the service port.
ServerKind = Literal["forks", "one", "service"]
SERVER_KINDS: tuple[ServerKind, ...] = ("forks", "one", "service")


@dataclass
class Network:
    """What is to happen, in the order of time; and what was recorded where."""

    drawn: random.Random
    loss: float
    twice: float
    slow: float
    now: float = 0.0
    count: int = 0
    queue: list[tuple[float, int, Callable[[], None]]] = field(default_factory=list)
    recorded: dict[str, list[Datagram]] = field(default_factory=dict)
    comes: Callable[[Endpoint, Endpoint, bytes], None] = lambda source, target, payload: None

    def later(self, delay: float, deed: Callable[[], None]) -> None:
        self.count += 1
        heapq.heappush(self.queue, (self.now + delay, self.count, deed))

    def note(self, place: str, source: Endpoint, target: Endpoint, payload: bytes) -> None:
        there = self.recorded.setdefault(place, [])
        there.append(Datagram(len(there), self.now, source, target, payload))

    def send(self, source: Endpoint, target: Endpoint, payload: bytes) -> None:
        self.note(source.host, source, target, payload)
        for _ in range(1 + (self.drawn.random() < self.twice)):
            is_slow = self.drawn.random() < self.slow
            delay = self.drawn.uniform(0.5, 4) if is_slow else self.drawn.uniform(0.0005, 0.02)
            first = delay * self.drawn.random()
            if self.drawn.random() >= self.loss / 2:
                is_lost = self.drawn.random() < self.loss / 2
                self.later(first, self.half_way(delay - first, is_lost, source, target, payload))

    def half_way(
        self, rest: float, is_lost: bool, source: Endpoint, target: Endpoint, payload: bytes
    ) -> Callable[[], None]:
        def passes() -> None:
            self.note("between", source, target, payload)
            if not is_lost:
                self.later(rest, arrives)

        def arrives() -> None:
            self.note(target.host, source, target, payload)
            self.comes(source, target, payload)

        return passes


class Client:
    """It asks for file after file. What it waits for is named by its age: each new wait or file makes it older."""

    def __init__(self, network: Network, own: Endpoint, names: list[str], resets: float) -> None:
        self.network, self.own, self.names, self.resets = network, own, names, resets
        self.peer: Optional[Endpoint] = None
        self.name: Optional[str] = None
        self.next, self.age, self.again = 1, 0, 0
        self.last = SERVICE, b""

    def ask(self) -> None:
        self.peer, self.next, self.name = None, 1, self.network.drawn.choice(self.names)
        self.say(SERVICE, b"\0\1" + self.name.encode() + b"\0octet\0")

    def say(self, target: Endpoint, payload: bytes) -> None:
        self.last, self.age = (target, payload), self.age + 1
        self.network.send(self.own, *self.last)
        self.wait(1, self.repeat)

    def wait(self, delay: float, deed: Callable[[], None]) -> None:
        age = self.age
        self.network.later(delay, lambda: deed() if self.age == age else None)

    def stop(self, pause: float) -> None:
        self.name, self.age = None, self.age + 1
        self.wait(pause, self.ask)

    def repeat(self) -> None:
        self.again += 1
        if self.again % 5 == 0:
            self.stop(1)
        else:
            self.say(*self.last)

    def take(self, source: Endpoint, payload: bytes) -> None:
        drawn = self.network.drawn
        if self.name is None:
            return
        if drawn.random() < self.resets:
            self.stop(drawn.choice((0.01, 1, 20, 320)))
            return
        if self.peer is None and payload[:4] == b"\0\3\0\1":
            self.peer = source
        if source != self.peer:
            if self.peer and payload[:2] != b"\0\5":
                self.network.send(self.own, source, error(5))
        elif payload[:2] == b"\0\5":
            self.stop(drawn.choice((0.01, 1)))
        elif payload[:2] == b"\0\3" and int.from_bytes(payload[2:4], "big") == self.next:
            self.next += 1
            self.say(source, b"\0\4" + payload[2:4])
            if len(payload) < 516:
                self.stop(drawn.choice((0.001, 0.05, 1.5)))


@dataclass
class Serving:
    body: bytes
    block: int = 1
    left: int = 4


class Server:
    """It forks, has one port beside the service port, or answers from that."""

    def __init__(self, network: Network, kind: ServerKind, files: dict[str, bytes]) -> None:
        self.network, self.kind, self.files, self.next_port = network, kind, files, 41_000
        self.serving: dict[tuple[Endpoint, Endpoint], Serving] = {}

    def port(self) -> Endpoint:
        self.next_port += self.kind == "forks"
        return SERVICE if self.kind == "service" else Endpoint(SERVER, self.next_port)

    def take(self, source: Endpoint, target: Endpoint, payload: bytes) -> None:
        if target == SERVICE and payload[:2] == b"\0\1":
            own = self.port()
            self.serving[own, source] = Serving(self.files[payload[2:].split(b"\0")[0].decode()])
            self.speak(own, source)
            return
        one = self.serving.get((target, source))
        if one and payload[:2] == b"\0\5":
            del self.serving[target, source]
        elif one and payload[:2] == b"\0\4" and int.from_bytes(payload[2:], "big") == one.block:
            if len(one.body) < 512 * one.block:
                del self.serving[target, source]
            else:
                one.block, one.left = one.block + 1, 4
                self.speak(target, source)
        elif one is None and target in self.busy() and payload[:2] != b"\0\5":
            self.network.send(target, source, error(5))

    def busy(self) -> list[Endpoint]:
        """The ports at which it serves, but for the service port."""
        return [port for port, _ in self.serving if port != SERVICE]

    def speak(self, own: Endpoint, client: Endpoint) -> None:
        one = self.serving[own, client]
        block = one.block
        self.network.send(own, client, data(block, one.body))

        def repeats() -> None:
            if self.serving.get((own, client)) is not one or one.block != block:
                return
            one.left -= 1
            if one.left:
                self.speak(own, client)
            else:
                self.network.send(own, client, error(0))
                del self.serving[own, client]

        self.network.later(1.3, repeats)


def strays(network: Network, server: Server) -> None:
    """Now and then a stranger sends something to a port at which the server serves."""

    def strayed() -> None:
        for port in server.busy()[:1]:
            stranger = Endpoint(STRANGER, network.drawn.choice((2_070, 2_071)))
            network.send(stranger, port, network.drawn.choice((b"\0\4\0\1", b"\0\3\0\2x", b"?")))
        network.later(network.drawn.uniform(0.01, 2), strayed)

    network.later(network.drawn.random(), strayed)


def simulated(seed: int) -> tuple[ServerKind, dict[str, list[Datagram]]]:
    """What kind of server it was, and what was recorded at each client's host, at the server's, and between."""
    drawn = random.Random(seed)
    kind = drawn.choice(SERVER_KINDS)
    network = Network(drawn, drawn.choice((0, 0.05, 0.2)), drawn.choice((0, 0.05, 0.2)), drawn.choice((0, 0.03)))
    files = {f"f{k}": drawn.randbytes(drawn.choice((0, 100, 511, 512, 1_300, 2_600))) for k in range(3)}
    server, resets = Server(network, kind, files), drawn.choice((0, 0, 0.05))
    owns = [Endpoint(f"10.1.0.{k}", 2_070) for k in range(1, drawn.choice((1, 1, 2, 3)) + 1)]
    clients = {own: Client(network, own, list(files), resets) for own in owns}

    def comes(source: Endpoint, target: Endpoint, payload: bytes) -> None:
        if target in clients:
            clients[target].take(source, payload)
        else:
            server.take(source, target, payload)

    network.comes = comes
    for client in clients.values():
        network.later(drawn.random(), client.ask)
    if drawn.random() < 0.3:
        strays(network, server)
    while network.queue and len(network.recorded.get(owns[0].host, [])) < LONGEST:
        network.now, _, deed = heapq.heappop(network.queue)
        deed()
    return kind, network.recorded
