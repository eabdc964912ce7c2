"""What passed at one end of a transfer, slowly: the rules of docs/SPECIFICATION.md ("The rules"), each asked alone of
what has passed, and the first of them that a datagram breaks. What the program says of a capture is compared with it.
"""
from __future__ import annotations

import dataclasses
from collections.abc import Iterator
from typing import Literal, Optional, Union

from captures import EndName
from fuzzing.between import MOST_BLOCKS, UNKNOWN_ID, Terms, asks, broken_by_oack
from fuzzing.spelled import Ack, Data, Error, Fault, Message, Oack, Request, opcode_of, read
from fuzzing.views import Datagram, Peer
from normal import Meaning, Output, decoded
from refusals import RULES, Rule

# Of the transfer, a stray or the answer to one; or which of the rules 1 to 3 is broken.
Route = Literal["transfer", "stray", "answer", "1", "2", "3"]
# What comes after block 65535: nothing, or numbers that begin again so.
Rollover = Optional[Literal[0, 1]]
ROUND, HALF_ROUND, MOST_IN_ROUNDS = 65_536, 32_767, 8_388_607


def most_blocks(rollover: Rollover) -> int:
    return MOST_BLOCKS if rollover is None else MOST_IN_ROUNDS


def near(first: int, high: int, number: int) -> int:
    """The block with this number that is at most half a round older than the highest that has passed, and less than a
    round newer than what is so old. Where 1 comes after 65535, the number 0 is the start's alone."""
    if number < first:
        return number
    oldest = max(first, high - HALF_ROUND)
    return oldest + (number - oldest) % (ROUND - first)


class Ports:
    """Where datagrams belong, by the first request, the first datagram from the server's side and what came in."""

    def __init__(self, end: EndName, service: int) -> None:
        self.end, self.service = end, service
        self.asked: Optional[Datagram] = None
        self.answered: Optional[Datagram] = None
        self.come: set[Peer] = set()

    def is_from_client(self, it: Datagram) -> bool:
        return it.goes_out == (self.end == "client")

    def route(self, it: Datagram) -> Route:
        if self.asked is None:
            server_port = it.peer[1] if self.end == "client" else it.local
            is_wrong = self.is_from_client(it) and asks(it.payload) and server_port != self.service
            return "2" if is_wrong else "transfer"
        if self.end == "client":
            return self.at_client(self.asked, it)
        return self.at_server(self.asked.peer, it)

    def at_client(self, asked: Datagram, it: Datagram) -> Route:
        if it.local != asked.local:
            return "1"
        if it.goes_out and asks(it.payload):
            return "transfer" if it.peer == asked.peer else "2"
        if it.goes_out:
            return self.going_out(self.answered.peer, it) if self.answered else "2"
        return "transfer" if self.answered is None or it.peer == self.answered.peer else "stray"

    def at_server(self, client: Peer, it: Datagram) -> Route:
        if self.answered is None:
            if it.goes_out:
                return "transfer" if it.peer == client else "2"
            return self.at_service(client, it)
        own = self.answered.local
        if it.goes_out:
            return self.going_out(client, it) if it.local == own else "1"
        if it.local != own or asks(it.payload) and it.local == self.service:
            return self.at_service(client, it)
        if it.peer != client:
            return "stray"
        return "2" if asks(it.payload) else "transfer"

    def at_service(self, client: Peer, it: Datagram) -> Route:
        """Of what comes to the service port."""
        if it.local != self.service or it.peer != client:
            return "1"
        return "transfer" if asks(it.payload) else "2"

    def going_out(self, other: Peer, it: Datagram) -> Route:
        """Of what goes out from the end's own port."""
        if it.peer == other:
            return "transfer"
        if it.peer not in self.come:
            return "2"
        return "answer" if opcode_of(it.payload) == 5 else "3"

    def note(self, it: Datagram) -> None:
        """Notes a datagram that has passed."""
        if self.asked is None:
            self.asked = it
        elif self.answered is None and not self.is_from_client(it):
            self.answered = it
        if not it.goes_out:
            self.come.add(it.peer)


class Numbers:
    """Blocks and ACKs that have passed, and what of them the other end can have used: what goes out after its ERROR has
    come in it cannot."""

    def __init__(self) -> None:
        self.blocks: dict[int, bytes] = {}
        self.acks: set[int] = set()
        self.high = self.front = self.used_high = self.used_acked = 0
        self.is_zero_used = False

    def note(self, message: Union[Data, Ack], is_used: bool) -> None:
        if isinstance(message, Ack):
            self.acks.add(message.block)
            self.used_acked = max(self.used_acked, message.block if is_used else 0)
            self.is_zero_used |= is_used and message.block == 0
            return
        self.blocks[message.block] = message.content
        self.high = max(self.high, message.block)
        self.used_high = max(self.used_high, message.block if is_used else 0)
        while self.front + 1 in self.blocks:
            self.front += 1


class Judge:
    """What has passed at one end, and so which rule a datagram breaks, and what there is to say in the end."""

    def __init__(self, end: EndName, service: int, rollover: Rollover = None) -> None:
        self.end, self.ports, self.count = end, Ports(end, service), 0
        self.rollover, self.most = rollover, most_blocks(rollover)
        self.request: Optional[Request] = None
        self.answer: Optional[Message] = None
        self.numbers = Numbers()
        # the blocks that are shorter than a block
        self.short: set[int] = set()
        # the kinds of what went out, and the ERROR that went each way, the first one first
        self.sent: set[type] = set()
        self.errors: dict[bool, Error] = {}

    def terms(self, request: Request) -> Terms:
        return Terms(request, self.answer)

    def is_sender(self, request: Request) -> bool:
        return (self.end == "client") == (request.side == "put")

    def found_in(self, it: Datagram) -> Union[Message, Fault]:
        """What it spells, with a block in the place of its number where numbers begin again."""
        found = read(it.payload)
        if self.rollover is None or not isinstance(found, (Data, Ack)):
            return found
        return dataclasses.replace(found, block=near(self.rollover, self.numbers.high, found.block))

    def broken(self, it: Datagram) -> Optional[str]:
        """The first rule that it breaks."""
        route, found = self.ports.route(it), self.found_in(it)
        if route in ("1", "2", "3"):
            return str(RULES[int(route)])
        if route == "answer" and not (isinstance(found, Error) and found.code == UNKNOWN_ID):
            return str(Rule.STRAY_ANSWER)
        if route != "transfer":
            return None
        if self.request is None and not (self.ports.is_from_client(it) and asks(it.payload)):
            return str(Rule.NO_REQUEST)
        if isinstance(found, Fault):
            return f"{Rule.MALFORMED} {found}"
        first = min(self.all_broken(self.request, it, found), default=None) if self.request else None
        return None if first is None else str(RULES[first])

    def all_broken(self, request: Request, it: Datagram, message: Message) -> Iterator[int]:
        """All rules that a packet of the transfer breaks, but for those of its ports."""
        if self.is_wrong_kind(request, self.ports.is_from_client(it), message):
            yield 6
        stop = self.errors.get(it.goes_out)
        if stop is not None and message != stop and (it.goes_out or isinstance(message, Error)):
            yield 7
        if isinstance(message, Request):
            yield from self.broken_by_request(request, it, message)
        elif isinstance(message, Oack):
            yield from broken_by_oack(self.terms(request), message, self.most)
            if it.goes_out and request.side == "get" and Data in self.sent:
                yield 17
        elif isinstance(message, Data):
            yield from self.broken_by_block(request, message)
        elif isinstance(message, Ack):
            yield from self.broken_by_ack(request, message)

    def is_wrong_kind(self, request: Request, is_client: bool, message: Message) -> bool:
        of_sender, of_receiver = Data, Ack
        if is_client:
            return isinstance(message, (Oack, of_sender if request.side == "get" else of_receiver))
        return isinstance(message, (Request, of_receiver if request.side == "get" else of_sender))

    def broken_by_request(self, request: Request, it: Datagram, message: Request) -> Iterator[int]:
        if message != request:
            yield 8
        if it.goes_out and self.sent & {Data, Ack}:
            yield 9

    def broken_by_block(self, request: Request, message: Data) -> Iterator[int]:
        terms, its, block = self.terms(request), self.numbers, message.block
        is_agreed, size = isinstance(self.answer, Oack), terms.block_size()
        if is_agreed and not its.is_zero_used if request.side == "get" else self.answer is None:
            yield 18
        if block == 0:
            yield 19
        if block > self.most or block == self.most and len(message.content) >= size:
            yield 20
        if self.has_wrong_length(terms, block, len(message.content)):
            yield 21
        if block > its.used_acked + terms.window():
            yield 22
        if self.is_sender(request) and block > its.high + 1:
            yield 23
        if self.is_sender(request) and terms.window() == 1 and block < its.high:
            yield 24
        if its.blocks.get(block, message.content) != message.content:
            yield 25

    def last_blocks(self, terms: Terms) -> set[int]:
        """The number of the last block, where it is known."""
        size = terms.size()
        return self.short if size is None else self.short | {size // terms.block_size() + 1}

    def has_wrong_length(self, terms: Terms, block: int, length: int) -> bool:
        whole, size, lasts = terms.block_size(), terms.size(), self.last_blocks(terms)
        if length > whole:
            return True
        if not lasts:
            return length < whole and block <= self.numbers.high
        return any(
            block > last or block < last and length != whole
            or block == last and (length == whole or size is not None and length != size % whole)
            for last in lasts
        )

    def broken_by_ack(self, request: Request, message: Ack) -> Iterator[int]:
        its, is_agreed = self.numbers, isinstance(self.answer, Oack)
        if message.block > (its.used_high if self.is_sender(request) else its.front):
            yield 26
        is_early = not is_agreed if request.side == "get" else is_agreed and not its.used_high
        if message.block == 0 and is_early:
            yield 27

    def take(self, it: Datagram) -> None:
        """Notes a datagram that breaks no rule."""
        is_of_transfer, message = self.ports.route(it) == "transfer", self.found_in(it)
        self.ports.note(it)
        self.count += 1
        if is_of_transfer and not isinstance(message, Fault):
            self.note(it.goes_out, message)

    def note(self, goes_out: bool, message: Message) -> None:
        if isinstance(message, Request):
            self.request = self.request or message
        elif self.request and self.answer is None and self.answers(self.request, message):
            self.answer = message
        if isinstance(message, Error):
            self.errors.setdefault(goes_out, message)
        if goes_out:
            self.sent.add(type(message))
        if isinstance(message, (Data, Ack)):
            self.numbers.note(message, not (goes_out and False in self.errors))
        if self.request and isinstance(message, Data) and len(message.content) < self.terms(self.request).block_size():
            self.short.add(message.block)

    def answers(self, request: Request, message: Message) -> bool:
        is_begun = isinstance(message, Data) if request.side == "get" else message == Ack(0)
        return isinstance(message, Oack) or is_begun

    def meaning(self) -> Optional[Meaning]:
        """What it means, if it is whole."""
        if self.request is None:
            return None
        its, terms = self.numbers, self.terms(self.request)
        last = next(iter(self.last_blocks(terms)), None)
        if last is None or its.front != last or last not in its.acks:
            return None
        wire = b"".join(its.blocks[number] for number in range(1, last + 1))
        file = decoded(wire) if self.request.mode == "netascii" else wire
        request = self.request
        return Meaning(request.side, request.name, request.mode, request.options, terms.agreed(), file)

    def ended(self) -> tuple[Optional[Meaning], Output]:
        """What there is to say of all, which are lawful, and its status; and what it means, if it is accepted."""
        meaning = self.meaning()
        if meaning and meaning.block_count() <= self.most:
            return meaning, (meaning.line(), 0)
        if meaning:
            return None, (b"too long when normal\n", 1)
        for goes_out, error in self.errors.items():
            by = b"local" if goes_out else b"peer"
            return None, (b"aborted by %s code %d\n" % (by, error.code), 1)
        return None, (b"incomplete after %d\n" % self.count, 1)

    def judged(self, it: Datagram) -> Optional[str]:
        """The first rule that it breaks; where it breaks none, it passes."""
        broken = self.broken(it)
        if broken is None:
            self.take(it)
        return broken


@dataclasses.dataclass(frozen=True)
class Verdict:
    """What `check` prints and its status, and what is meant, where it is accepted."""

    told: Output
    meaning: Optional[Meaning] = None


def verdict_of(
    end: EndName, service: int, datagrams: list[Datagram], fault: Optional[bytes] = None, rollover: Rollover = None
) -> Verdict:
    """The verdict on these datagrams, after which there is a fault of the text, or none."""
    judge = Judge(end, service, rollover)
    for at, it in enumerate(datagrams, 1):
        broken = judge.judged(it)
        if broken is not None:
            return Verdict((f"refused datagram {at} rule {broken}\n".encode(), 1))
    if fault is not None:
        return Verdict((fault, 2))
    meaning, told = judge.ended()
    return Verdict(told, meaning)
