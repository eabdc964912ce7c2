"""Clients and servers that keep the law, whatever comes to them: each that sends against it by what it sent and took
itself is found out by the slow judge as it does, and its world is not tried. They live in a world, which says what is
to be drawn and carries what they send."""
from __future__ import annotations

import random
from collections.abc import Callable
from dataclasses import dataclass, field
from typing import NamedTuple, Optional, Protocol, Union

from captures import EndName
from fuzzing import views
from fuzzing.attribution import Datagram, Endpoint
from fuzzing.halves import (
    ACK_0, Receiver, Sender, block_of, error, is_agreement, opcode, spelled,
)
from fuzzing.slow_judge import Judge
from fuzzing.spelled import Oack, Request, read
from normal import REQUEST_OPCODES, USUAL_SIZE, Options, Side, number

DALLIES = 3.0
# How often an end repeats what it sent last before it gives up.
MOST_REPEATS = 4
LONGEST_REST = 320


class World(Protocol):
    """What the ends live in."""

    drawn: random.Random
    files: dict[bytes, bytes]
    unlawful: list[str]
    recorded: dict[str, list[Datagram]]
    witnesses: list[Witness]
    wishes: int
    arrived: int
    begun: int
    mistaken: set[int]

    def has(self, kind: str) -> bool: ...

    def often(self, kind: str, chance: float) -> bool: ...

    def send(self, source: Endpoint, target: Endpoint, payload: bytes, transfer: int = 0) -> None: ...

    def later(self, delay: float, deed: Callable[[], None]) -> None: ...

    def own_port(self, client: Client) -> Endpoint: ...

    def service_of(self, client: Client) -> Endpoint: ...


class Deed(NamedTuple):
    """What an end sent or took, and the number that it has in the recording at its host."""

    place: int
    goes_out: bool
    own: Endpoint
    other: Endpoint
    payload: bytes


class Witness:
    """What an end sent and took in one transfer. What comes in against the law is as if it had not come."""

    def __init__(self, world: World, end: EndName, service: int) -> None:
        self.world, self.end, self.service = world, end, service
        self.judge = Judge(end, service)
        self.host = ""
        self.deeds: list[Deed] = []
        world.witnesses.append(self)

    def note(self, goes_out: bool, own: Endpoint, other: Endpoint, payload: bytes) -> None:
        """What goes out is noted before it is recorded, what comes in after that."""
        self.host = own.host
        count = len(self.world.recorded.get(own.host, ()))
        self.deeds.append(Deed(count if goes_out else count - 1, goes_out, own, other, payload))
        broken = judged(self.judge, self.deeds[-1])
        if broken:
            self.world.unlawful.append(f"{own} to {other}: {payload[:12]!r} breaks {broken}")

    def is_lawful_without(self, gone: set[int]) -> bool:
        """Whether the end would have kept the law if these datagrams of its host had not been."""
        judge = Judge(self.end, self.service)
        return not any(judged(judge, deed) for deed in self.deeds if deed.place not in gone)


def judged(judge: Judge, it: Deed) -> Optional[str]:
    """The rule that an end breaks by what it sends."""
    broken = judge.judged(views.Datagram(it.goes_out, it.own.port, (it.other.host.encode(), it.other.port), it.payload))
    return broken if it.goes_out else None


class End:
    """What both ends do: they say something and say it again after a second, until they have waited for too long."""

    def __init__(self, world: World, own: Endpoint) -> None:
        self.world, self.own, self.age, self.again = world, own, 0, 0
        # which transfer it is in, of all that clients have begun, from 1
        self.transfer = 0
        self.half: Optional[Union[Receiver, Sender]] = None
        self.last: tuple[Endpoint, list[bytes]] = own, []
        self.told: Optional[bytes] = None
        self.witness: Optional[Witness] = None
        # where it sends ERROR 5 to: not in a transfer of which it has told an ERROR
        self.aborted: set[Endpoint] = set()

    def put(self, target: Endpoint, payload: bytes) -> None:
        if self.witness:
            self.witness.note(True, self.own, target, payload)
        self.world.send(self.own, target, payload, self.transfer)

    def say(self, target: Endpoint, payloads: list[bytes]) -> None:
        if not payloads:
            return
        self.last, self.age = (target, payloads), self.age + 1
        for payload in payloads:
            self.put(target, payload)
        self.wait(self.world.drawn.choice((0.7, 1, 1, 1.6)), self.repeat)

    def wait(self, delay: float, deed: Callable[[], None]) -> None:
        age = self.age
        self.world.later(delay, lambda: deed() if self.age == age else None)

    def repeat(self) -> None:
        self.again += 1
        if self.again >= MOST_REPEATS:
            self.give_up()
        else:
            self.say(*self.repeated())

    def repeated(self) -> tuple[Endpoint, list[bytes]]:
        return self.last

    def is_ahead(self, payload: bytes) -> bool:
        """Whether it is a block that a receiver leaves aside, since one before it has not come."""
        return isinstance(self.half, Receiver) and opcode(payload) == 3 and block_of(payload) > self.half.front + 1

    def give_up(self) -> None:
        raise NotImplementedError

    def refuse(self, other: Endpoint, payload: bytes) -> None:
        """ERROR 5 to where something came from that is of no transfer of its own, or nothing (RFC 1350, section 4)."""
        if self.world.often("error5", 0.7) and opcode(payload) != 5:
            if other not in self.aborted or self.world.has("error5_after"):
                self.put(other, error(5))


@dataclass
class Wish:
    """What a client asks for."""

    side: Side
    name: bytes
    mode: bytes
    options: dict[bytes, int]
    body: bytes = b""

    def payload(self) -> bytes:
        return number(REQUEST_OPCODES[self.side]) + self.name + b"\0" + self.mode + b"\0" + spelled(self.options)

    def respelled(self, drawn: random.Random) -> bytes:
        names = list(self.options)
        drawn.shuffle(names)
        mode = self.mode.swapcase() if drawn.random() < 0.7 else self.mode.title()
        pairs = {name.upper() if drawn.random() < 0.5 else name: self.options[name] for name in names}
        head = number(REQUEST_OPCODES[self.side]) + self.name + b"\0" + mode + b"\0"
        return head + spelled(pairs)


def wish_of(world: World) -> Wish:
    drawn = world.drawn
    name = drawn.choice(sorted(world.files)) if not world.often("missing", 0.15) else b"none"
    side: Side = "put" if world.often("writes", 0.4) else "get"
    body = world.files.get(name, b"") if side == "put" else b""
    options: dict[bytes, int] = {}
    if world.often("options", 0.6):
        choices = {
            b"blksize": drawn.choice((8, 100, 512, 1_428)), b"tsize": len(body) if side == "put" else 0,
            b"timeout": drawn.choice((1, 2)), b"windowsize": drawn.choice((1, 2, 4)),
        }
        options = {key: choices[key] for key in drawn.sample(sorted(choices), drawn.randint(1, 4))}
        if options.get(b"blksize") == 8 and len(world.files.get(name, b"")) > 100:
            del options[b"blksize"]
    return Wish(side, name, b"octet", options, body)


class Client(End):
    """It asks for file after file."""

    def __init__(self, world: World, own: Endpoint) -> None:
        super().__init__(world, own)
        self.asked, self.peer = own, own
        self.is_answered = self.is_busy = self.is_over = self.is_refused = False
        self.wish = Wish("get", b"", b"octet", {})

    def ask(self) -> None:
        world = self.world
        if not world.wishes:
            return
        world.wishes -= 1
        world.begun += 1
        self.transfer = world.begun
        self.own, self.asked = world.own_port(self), world.service_of(self)
        if not self.wish.name or self.is_over or self.is_refused or world.often("changed", 0.5):
            self.wish = wish_of(world)
        self.is_refused = False
        self.is_answered, self.is_busy, self.is_over, self.half, self.again = False, True, False, None, 0
        self.told, self.witness = None, Witness(world, "client", self.asked.port)
        self.aborted = set()
        self.say(self.asked, [self.wish.payload()])

    def repeated(self) -> tuple[Endpoint, list[bytes]]:
        if opcode(self.last[1][0]) in (1, 2) and self.world.often("respelled", 0.6):
            return self.asked, [self.wish.respelled(self.world.drawn)]
        return self.last

    def give_up(self) -> None:
        if self.is_answered and not self.is_over and self.world.drawn.random() < 0.4:
            self.put(self.peer, error(0))
            self.aborted.add(self.peer)
        self.is_over = False
        self.rest(self.world.drawn.choice((0.01, 1, 1, 20, LONGEST_REST)))

    def rest(self, pause: float) -> None:
        self.is_busy, self.age = False, self.age + 1
        if self.is_over and isinstance(self.half, Receiver):
            self.is_busy, pause = True, pause if self.world.drawn.random() < 0.7 else DALLIES
        self.wait(pause, self.ask)

    def take(self, source: Endpoint, target: Endpoint, payload: bytes) -> None:
        if target != self.own:
            return
        if not self.is_busy:
            self.witness = None
            self.refuse(source, payload)
            return
        if self.world.often("resets", 0.06):
            self.give_up()
            return
        if not self.is_answered:
            if not self.is_answer(source, payload):
                if self.world.has("early_error5"):
                    witness, self.witness = self.witness, None
                    self.refuse(source, payload)
                    self.witness = witness
                return
            self.peer, self.is_answered = source, True
            if self.world.arrived != self.transfer:
                self.world.mistaken.add(self.transfer)
        self.took(source, payload)
        if source == self.peer:
            self.go_on(payload)
        elif self.is_busy:
            self.refuse(source, payload)

    def took(self, source: Endpoint, payload: bytes) -> None:
        if self.witness and not (source == self.peer and self.is_ahead(payload)):
            self.witness.note(False, self.own, source, payload)

    def is_answer(self, source: Endpoint, payload: bytes) -> bool:
        if source.host != self.asked.host and not self.world.has("other_host"):
            return False
        if opcode(payload) == 6:
            found = read(payload)
            return isinstance(found, Oack) and self.agrees(found)
        if self.wish.side == "get" and opcode(payload) == 3:
            return block_of(payload) == 1 and len(payload) <= 4 + USUAL_SIZE
        return self.wish.side == "put" and payload == ACK_0 or opcode(payload) == 5 and len(payload) > 4

    def agrees(self, found: Oack) -> bool:
        size = len(self.wish.body) if self.wish.side == "put" else None
        return is_agreement(self.wish.options, found.options, self.wish.side, size)

    def go_on(self, payload: bytes) -> None:
        code = opcode(payload)
        if code == 5:
            if not self.is_over:
                self.is_refused = not self.world.often("asks_again", 0.5)
                self.rest(self.world.drawn.choice((0.01, 1, 5)))
        elif self.half is None:
            self.begin(payload)
        elif isinstance(self.half, Receiver) and code == 3 and len(payload) > 3:
            self.received(self.half, payload)
        elif isinstance(self.half, Receiver) and code == 6 and not self.half.front:
            self.progress(self.half.again())
        elif isinstance(self.half, Sender) and code == 4 and len(payload) == 4:
            self.acknowledged(self.half, block_of(payload))

    def progress(self, payloads: list[bytes]) -> None:
        if payloads:
            self.again = 0
            self.say(self.peer, payloads)

    def received(self, half: Receiver, payload: bytes) -> None:
        answer = half.take(block_of(payload), payload[4:])
        if self.is_over:
            for it in answer:
                self.put(self.peer, it)
            return
        self.progress(answer)
        if half.is_whole:
            self.is_over = True
            self.rest(self.world.drawn.choice((0.001, 0.05, 1.5, 5)))

    def acknowledged(self, half: Sender, block: int) -> None:
        self.progress(half.take(block))
        if half.is_done() and not self.is_over:
            self.is_over = True
            self.rest(self.world.drawn.choice((0.001, 0.05, 1.5, 5)))

    def begin(self, payload: bytes) -> None:
        """The first answer."""
        if self.world.often("hasty", 0.2):
            self.put(*self.one_repeated())
            return
        found = read(payload)
        if isinstance(found, Oack):
            if self.agrees(found):
                self.start(found.options, is_agreed=True)
        elif self.wish.side == "get" and opcode(payload) == 3 and payload[2:4] == b"\0\1":
            self.start({}, is_agreed=False)
            if isinstance(self.half, Receiver):
                self.received(self.half, payload)
        elif self.wish.side == "put" and payload == ACK_0:
            self.start({}, is_agreed=False)

    def one_repeated(self) -> tuple[Endpoint, bytes]:
        target, payloads = self.repeated()
        return target, payloads[0]

    def start(self, agreed: Options, is_agreed: bool) -> None:
        size, window = (agreed.get(name, usual) for name, usual in ((b"blksize", USUAL_SIZE), (b"windowsize", 1)))
        whole = agreed.get(b"tsize")
        assert isinstance(size, int) and isinstance(window, int)
        if self.wish.side == "get":
            self.half = Receiver(size, window, is_agreed, whole if isinstance(whole, int) else None)
            if is_agreed:
                self.progress(self.half.again())
        else:
            self.half = Sender(self.wish.body, size, window)
            self.progress(self.half.due())


class Session(End):
    """One transfer at a server."""

    def __init__(self, server: Server, own: Endpoint, client: Endpoint, payload: bytes, request: Request) -> None:
        super().__init__(server.world, own)
        self.server, self.client, self.payload, self.request = server, client, payload, request
        self.is_over, self.oack, self.transfer = False, b"", server.world.arrived
        self.witness = Witness(self.world, "server", server.service.port)
        self.witness.note(False, server.service, client, payload)

    def begin(self) -> None:
        request = self.request
        if request.side == "get" and request.name not in self.world.files:
            self.put(self.client, error(1))
            self.server.aborted.add(self.client)
            self.close()
            return
        agreed = self.agreed()
        size, window = (agreed.get(name, usual) for name, usual in ((b"blksize", USUAL_SIZE), (b"windowsize", 1)))
        if agreed:
            self.oack = b"\0\6" + spelled(agreed)
        if request.side == "get":
            self.half = Sender(self.world.files[request.name], size, window)
            self.say(self.client, [self.oack] if agreed else self.half.due())
        else:
            self.half = Receiver(size, window, not agreed, agreed.get(b"tsize"))
            self.say(self.client, [self.oack] if agreed else [ACK_0])

    def agreed(self) -> dict[bytes, int]:
        """What it agrees to; the same each time that it is asked the same."""
        return self.server.agreed.setdefault(self.payload, self.drawn_agreement())

    def drawn_agreement(self) -> dict[bytes, int]:
        agreed: dict[bytes, int] = {}
        if self.world.often("agrees_to_some", 0.2):
            return agreed
        for name, value in self.request.options.items():
            if isinstance(value, int) and not self.world.often("agrees_to_some", 0.4):
                is_size = name == b"tsize" and self.request.side == "get"
                agreed[name] = len(self.world.files[self.request.name]) if is_size else value
                if name == b"windowsize" and self.world.often("agrees_to_some", 0.5):
                    agreed[name] = 1
        return agreed

    def close(self) -> None:
        self.age += 1
        self.is_over = True
        self.server.close(self)

    def give_up(self) -> None:
        if self.is_over:
            self.close()
            return
        if self.world.drawn.random() < 0.6:
            self.put(self.client, error(0))
            self.server.aborted.add(self.client)
        self.close()

    def take(self, payload: bytes) -> None:
        self.witness_take(payload)
        code = opcode(payload)
        if code == 5:
            self.close()
        elif isinstance(self.half, Sender) and code == 4 and len(payload) == 4:
            self.acknowledged(self.half, block_of(payload))
        elif isinstance(self.half, Receiver) and code == 3 and len(payload) > 3:
            self.received(self.half, payload)

    def witness_take(self, payload: bytes) -> None:
        if self.witness and not self.is_ahead(payload):
            self.witness.note(False, self.own, self.client, payload)

    def acknowledged(self, half: Sender, block: int) -> None:
        if block == 0 and self.oack and not half.top:
            self.again = 0
            self.say(self.client, half.due())
            return
        answer = half.take(block)
        if half.is_done():
            self.close()
        elif answer:
            self.again = 0
            self.say(self.client, answer)

    def received(self, half: Receiver, payload: bytes) -> None:
        before = half.front
        answer = half.take(block_of(payload), payload[4:])
        if half.front > before:
            self.again = 0
        if half.is_whole:
            for it in answer:
                self.put(self.client, it)
            if not self.is_over:
                self.is_over, self.age = True, self.age + 1
                self.wait(DALLIES, self.close)
        elif answer:
            self.say(self.client, answer)


@dataclass
class Server:
    """It forks, has one port beside the service port, or answers from that."""

    world: World
    service: Endpoint
    kind: str
    ports: list[int]
    restarts: bool
    sessions: dict[tuple[Endpoint, Endpoint], Session] = field(default_factory=dict)
    aborted: set[Endpoint] = field(default_factory=set)
    agreed: dict[bytes, dict[bytes, int]] = field(default_factory=dict)
    # of each client the ports from which it was served
    served: dict[Endpoint, set[int]] = field(default_factory=dict)
    next: int = 0

    def port(self, client: Endpoint) -> Endpoint:
        if self.kind == "service":
            return self.service
        if self.kind == "one":
            return Endpoint(self.service.host, self.ports[0])
        busy = {own.port for own, _ in self.sessions}
        if self.world.has("reused"):
            served = () if self.world.has("reused_for_same") else self.served.get(client, ())
            free = [port for port in self.ports if port not in busy and port not in served]
            if free:
                return Endpoint(self.service.host, free[0])
        self.next += 1
        return Endpoint(self.service.host, self.ports[-1] + self.next)

    def close(self, one: Session) -> None:
        if self.sessions.get((one.own, one.client)) is one:
            del self.sessions[one.own, one.client]

    def is_open(self, port: Endpoint) -> bool:
        if port == self.service or self.kind == "one" and port.port == self.ports[0]:
            return True
        return any(own == port for own, _ in self.sessions)

    def take(self, source: Endpoint, target: Endpoint, payload: bytes) -> None:
        if target == self.service and opcode(payload) in (1, 2):
            self.open(source, payload)
            return
        one = self.sessions.get((target, source))
        if one:
            one.take(payload)
        elif self.is_open(target):
            self.strayed(source, target, payload)

    def strayed(self, source: Endpoint, target: Endpoint, payload: bytes) -> None:
        """What is of no session: at a port that serves another, at one that serves all, or at the service port."""
        world = self.world
        if opcode(payload) == 5 or source in self.aborted and not world.has("error5_after"):
            return
        others = [one for (own, _), one in self.sessions.items() if own == target]
        if target == self.service and self.kind != "service":
            if world.often("junk", 0.7):
                world.send(self.service, source, error(4))
            return
        if self.kind == "forks" and others:
            if others[0].witness:
                others[0].witness.note(False, target, source, payload)
            others[0].refuse(source, payload)
        elif world.often("error5", 0.7):
            world.send(target, source, error(5))

    def open(self, source: Endpoint, payload: bytes) -> None:
        request = read(payload)
        if not isinstance(request, Request):
            if self.world.often("junk", 0.7):
                self.world.send(self.service, source, error(4))
            return
        before = [one for (_, client), one in self.sessions.items() if client == source and one.payload == payload]
        if before and not self.restarts:
            for one in before:
                if one.witness:
                    one.witness.note(False, self.service, source, payload)
            return
        one = Session(self, self.port(source), source, payload, request)
        former = self.sessions.get((one.own, source))
        if former:
            former.age += 1
        self.sessions[one.own, source] = one
        self.served.setdefault(source, set()).add(one.own.port)
        self.aborted.discard(source)
        one.begin()
