"""A relay between clients and a server, over which nothing is sure: it loses, repeats, delays and reorders datagrams,
changes none, and writes down what passed on each of its two legs.

Like a router that translates addresses it has a port for each client towards the server, and one for each of the
server's ports towards the clients, so that transfer ids stay apart (RFC 1350, section 4).

Nobody is to be accused of an order that was the relay's. One thread does all: what an end sent is written down before
it is sent on, and so before anything that answers it. What an end sent to several ports is put into the order in which
the kernel took it. And it is counted what an end sent that a socket had no room for: a leg is not whole then."""
from __future__ import annotations

import contextlib
import dataclasses
import ipaddress
import os
import random
import selectors
import socket
import struct
import sys
import threading
import time
from collections import Counter
from collections.abc import Callable
from typing import Literal, NamedTuple, Optional

from .pairs import OTHER
from .recording import EndName
from .written import Datagram, Timed

Fate = Literal["passed", "lost", "repeated", "delayed", "reordered"]
FATES: tuple[Fate, ...] = ("lost", "repeated", "delayed", "reordered")
# Says what becomes of a datagram, by its sender and its place among the datagrams of that sender, from 1.
Fates = Callable[[EndName, int], Fate]
LONGEST = 65_535
# Linux's option by which a datagram has the time at which the kernel took it, in seconds and nanoseconds.
TIMES, TIME = 35, struct.Struct("@ll")
# Linux's option that tells of a socket's memory; the ninth number is how many datagrams it had no room for.
MEMORY, NUMBERS = 55, struct.Struct("@9I")
ROOM = 1 << 22
# So many seconds a datagram waits at most for the next one of its sender, before which it came.
BRIEFLY = 0.2


class Endpoint(NamedTuple):
    """A host and a port."""

    host: str
    port: int

    def told(self) -> str:
        return f"[{self.host}]:{self.port}" if ":" in self.host else f"{self.host}:{self.port}"

    def family(self) -> socket.AddressFamily:
        return socket.AF_INET6 if ipaddress.ip_address(self.host).version == 6 else socket.AF_INET


@dataclasses.dataclass(frozen=True)
class Odds:
    """How likely each fate is."""

    lost: float
    repeated: float
    delayed: float
    reordered: float

    def sum(self) -> float:
        return self.lost + self.repeated + self.delayed + self.reordered


def fates_by(seed: int, odds: Odds) -> Fates:
    """The fates that a seed gives: the same for the same sender and place, whatever passed before."""
    def fate(sender: EndName, place: int) -> Fate:
        drawn = random.Random(f"{seed} {sender} {place}").random()
        for name in FATES:
            drawn -= getattr(odds, name)
            if drawn < 0:
                return name
        return "passed"

    return fate


@dataclasses.dataclass(frozen=True)
class Side:
    """A socket of the relay: which end it faces, and for which endpoint of the other end it stands there."""

    faces: EndName
    stands_for: Endpoint
    socket: socket.socket
    at: Endpoint


class Parcel(NamedTuple):
    """What is sent on: from which socket, where to, and the payload."""

    side: Side
    target: Endpoint
    payload: bytes


class Came(NamedTuple):
    """A datagram that came to a socket: when the kernel took it, 0 where that is not told, from where, and the
    payload."""

    time: int
    side: Side
    sender: Endpoint
    payload: bytes


class Held(NamedTuple):
    """What is sent on later: when, or behind the next datagram of its sender."""

    due: float
    sender: EndName
    is_for_next: bool
    parcel: Parcel


def opened(at: Endpoint) -> socket.socket:
    """A socket of UDP there, at a free port for port 0."""
    made = socket.socket(at.family(), socket.SOCK_DGRAM)
    if sys.platform == "linux":
        made.setsockopt(socket.SOL_SOCKET, TIMES, 1)
    made.setsockopt(socket.SOL_SOCKET, socket.SO_RCVBUF, ROOM)
    try:
        made.bind(at)
    except OSError:
        made.close()
        raise
    made.setblocking(False)
    return made


def received(side: Side) -> Came:
    """The next datagram of a socket."""
    payload, told, _, address = side.socket.recvmsg(LONGEST, socket.CMSG_SPACE(TIME.size))
    times = [TIME.unpack(it) for _, kind, it in told if kind == TIMES and len(it) == TIME.size]
    seconds, rest = times[0] if times else (0, 0)
    return Came(seconds * 1_000_000_000 + rest, side, Endpoint(*address[:2]), payload)


def missed_by(side: Side) -> int:
    """How many datagrams a socket had no room for, as far as the kernel tells it."""
    if sys.platform != "linux":
        return 0
    return int(NUMBERS.unpack(side.socket.getsockopt(socket.SOL_SOCKET, MEMORY, NUMBERS.size))[-1])


def stay_on_one_processor(number: int) -> None:
    """What this thread sends comes in its order then, also from several sockets to one."""
    if sys.platform == "linux":
        processors = sorted(os.sched_getaffinity(0))
        os.sched_setaffinity(0, {processors[number % len(processors)]})


class Relay:
    """Listens at an endpoint for clients, and goes on with a server; what it delays waits so many seconds."""

    def __init__(self, listen: Endpoint, server: Endpoint, fates: Fates, hold: float) -> None:
        self.host, self.fates, self.hold = listen.host, fates, hold
        self.legs: dict[EndName, list[Timed]] = {"client": [], "server": []}
        self.count: dict[EndName, int] = {"client": 0, "server": 0}
        self.tally: Counter[Fate] = Counter()
        self.missed: Counter[EndName] = Counter()
        self.held: list[Held] = []
        self.sides: dict[tuple[EndName, Endpoint], Side] = {}
        self.failed: Optional[OSError] = None
        self.first, self.last = time.time_ns() - time.monotonic_ns(), time.monotonic()
        self.selector = selectors.DefaultSelector()
        self.stops, self.told = socket.socketpair()
        self.selector.register(self.stops, selectors.EVENT_READ)
        try:
            self.listens = self.open("client", server, listen).at
        except OSError:
            self.close()
            raise
        self.thread = threading.Thread(target=self.run, daemon=True)

    def open(self, faces: EndName, stands_for: Endpoint, at: Endpoint) -> Side:
        made = opened(at)
        side = Side(faces, stands_for, made, Endpoint(*made.getsockname()[:2]))
        self.sides[faces, stands_for] = side
        self.selector.register(made, selectors.EVENT_READ, side)
        return side

    def side(self, faces: EndName, stands_for: Endpoint) -> Side:
        """The socket towards an end that stands for an endpoint of the other; a new one where there is none yet."""
        found = self.sides.get((faces, stands_for))
        return found or self.open(faces, stands_for, Endpoint(self.host, 0))

    def __enter__(self) -> Relay:
        self.thread.start()
        return self

    def __exit__(self, *_: object) -> None:
        self.told.send(b"\0")
        self.thread.join()
        self.close()

    def close(self) -> None:
        for side in self.sides.values():
            self.missed[side.faces] += missed_by(side)
        for each in (*(side.socket for side in self.sides.values()), self.stops, self.told):
            each.close()
        self.selector.close()

    def run(self) -> None:
        """Sends on what comes, until it is told to stop; what the system refuses is kept."""
        try:
            stay_on_one_processor(self.listens.port)
            while self.step():
                pass
        except OSError as why:
            self.failed = why

    def step(self) -> bool:
        """Waits for what comes or is due; whether it goes on."""
        due = min((it.due for it in self.held), default=None)
        ready = self.selector.select(max(0.0, due - time.monotonic()) if due is not None else None)
        for it in sorted(self.come(), key=lambda it: it.time):
            self.take(it)
        self.send_held(lambda it: it.due <= time.monotonic())
        return all(key.data is not None for key, _ in ready)

    def come(self) -> list[Came]:
        """All that has come: once nothing more is there, what comes then came later than all of it."""
        found = list[Came]()
        while ready := [key.data for key, _ in self.selector.select(0) if key.data is not None]:
            for side in ready:
                with contextlib.suppress(BlockingIOError, ConnectionError):
                    found.append(received(side))
        return found

    def take(self, it: Came) -> None:
        """Writes down a datagram that came, and does with it what its fate is."""
        side, came, payload, sender = it.side, it.sender, it.payload, it.side.faces
        self.note(sender, Datagram(*came, *side.at, payload))
        self.count[sender] += 1
        fate = self.fates(sender, self.count[sender])
        self.tally[fate] += 1
        parcel = Parcel(self.side(OTHER[sender], came), side.stands_for, self.carried(sender, payload))
        waiting = [it for it in self.held if it.sender == sender and it.is_for_next]
        if fate in ("delayed", "reordered"):
            wait = self.hold if fate == "delayed" else BRIEFLY
            self.held.append(Held(time.monotonic() + wait, sender, fate == "reordered", parcel))
        for _ in range({"passed": 1, "repeated": 2}.get(fate, 0)):
            self.send(parcel)
        self.send_held(lambda it: it in waiting)

    def carried(self, sender: EndName, payload: bytes) -> bytes:
        """What is sent on of a payload: all of it."""
        return payload

    def send(self, parcel: Parcel) -> None:
        """Sends on; what the system refuses is lost."""
        side, target, payload = parcel
        with contextlib.suppress(OSError):
            side.socket.sendto(payload, target)
            self.note(side.faces, Datagram(*side.at, *target, payload))

    def send_held(self, is_due: Callable[[Held], bool]) -> None:
        due = sorted((it for it in self.held if is_due(it)), key=lambda it: it.due)
        self.held = [it for it in self.held if not is_due(it)]
        for it in due:
            self.send(it.parcel)

    def note(self, leg: EndName, datagram: Datagram) -> None:
        """Writes down what passed; the times go forward, though the system's clock may be set meanwhile."""
        self.last = time.monotonic()
        self.legs[leg].append(Timed(self.first + time.monotonic_ns(), datagram))

    def wait_until_quiet(self, seconds: float, most: float) -> None:
        """Waits until nothing has passed for so long and nothing is held, or so long at most."""
        end = time.monotonic() + most
        while time.monotonic() < end and (self.held or time.monotonic() < self.last + seconds):
            time.sleep(seconds / 10)
