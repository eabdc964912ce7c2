"""The verdict between the two ends of a transfer, slowly: the rules of docs/SPECIFICATION.md ("Between the two ends"),
each read over the whole list of what passed before. What the program says is compared with it.

Lists have the oldest first."""
from __future__ import annotations

import dataclasses
from collections.abc import Iterator, Sequence
from typing import Literal, NamedTuple, Optional, Union

from captures import EndName
from fuzzing.attribution import UNSEEN, Datagram, Endpoint, Transfer
from fuzzing.spelled import Ack, Data, Error, Fault, Message, Oack, Request, opcode_of, read
from normal import KNOWN, USUAL_SIZE, Meaning, Options, Side, decoded
from refusals import RULES, Rule

MOST_BLOCKS = 65_535
UNKNOWN_ID = 5
Route = Literal["transfer", "stray", "answer", "1", "2", "3"]


class Sides(NamedTuple):
    """The client, where it asks, and the server."""

    client: Endpoint
    asked: Endpoint
    server: Endpoint


class Passed(NamedTuple):
    """A packet of the transfer, and the end that it came from."""

    end: EndName
    message: Message


def sides_of(one: Transfer) -> Sides:
    return Sides(one.client, one.asked, one.server() or one.asked)


# ---- from where to where


def asks(payload: bytes) -> bool:
    return opcode_of(payload) in (1, 2)


def has_gone(source: Endpoint, target: Endpoint, earlier: Sequence[Datagram]) -> bool:
    return any((it.source, it.target) == (source, target) for it in earlier)


def route_astray(it: Datagram, earlier: Sequence[Datagram]) -> Route:
    """Of what an end sends to neither the other end nor where it asks."""
    if not has_gone(it.target, it.source, earlier):
        return "2"
    return "answer" if opcode_of(it.payload) == 5 else "3"


def route_of(sides: Sides, it: Datagram, earlier: Sequence[Datagram]) -> Route:
    """Where it belongs, or which of the rules 1 to 3 it breaks."""
    if it.source == sides.client:
        if asks(it.payload):
            return "transfer" if it.target == sides.asked else "2"
        if it.target == sides.server:
            return "transfer" if has_gone(sides.server, sides.client, earlier) else "2"
        return route_astray(it, earlier)
    if it.source == sides.server:
        return "transfer" if it.target == sides.client else route_astray(it, earlier)
    if it.target == sides.client:
        return "stray"
    is_other_request = sides.server.port == sides.asked.port and asks(it.payload)
    return "stray" if it.target == sides.server and not is_other_request else "1"


# ---- what had passed


def before_error(end: EndName, passed: Sequence[Passed]) -> Sequence[Passed]:
    """What passed before the first ERROR of this end."""
    first = next((at for at, it in enumerate(passed) if it.end == end and isinstance(it.message, Error)), None)
    return passed[:first]


def is_left_out(it: Passed, receiver: EndName, kept: Sequence[Passed]) -> bool:
    """Whether the receiver is judged without it: it may have passed earlier or later than it was sent."""
    if isinstance(it.message, Request):
        return any(isinstance(other.message, Request) for other in kept)
    is_answered = any(other.end == "server" for other in kept)
    return isinstance(it.message, Error) and (it.end == receiver or it.end == "client" and not is_answered)


def kept_of(passed: Sequence[Passed], receiver: EndName) -> list[Passed]:
    kept: list[Passed] = []
    for it in passed:
        if not is_left_out(it, receiver, kept):
            kept.append(it)
    return kept


def usable(kept: Sequence[Passed], receiver: EndName) -> list[Passed]:
    """What the sender can have used, and all that it sent itself: what the receiver sent after the sender's ERROR had
    come is left out."""
    sender: EndName = "server" if receiver == "client" else "client"
    before = len(before_error(sender, kept))
    return [it for at, it in enumerate(kept) if at < before or it.end == sender]


def blocks_of(passed: Sequence[Passed]) -> dict[int, set[bytes]]:
    """The bytes of the blocks that passed, by their numbers."""
    blocks: dict[int, set[bytes]] = {}
    for it in passed:
        if isinstance(it.message, Data):
            blocks.setdefault(it.message.block, set()).add(it.message.content)
    return blocks


def acks_of(passed: Sequence[Passed]) -> set[int]:
    return {it.message.block for it in passed if isinstance(it.message, Ack)}


def has_oack(passed: Sequence[Passed]) -> bool:
    return any(isinstance(it.message, Oack) for it in passed)


def front_of(passed: Sequence[Passed]) -> int:
    """The last of the blocks from 1 on that all passed."""
    blocks = blocks_of(passed)
    return next(number for number in range(MOST_BLOCKS + 1) if number + 1 not in blocks)


@dataclasses.dataclass(frozen=True)
class Terms:
    """What is agreed, by the first answer to the request."""

    request: Request
    answer: Optional[Message]

    def agreed(self) -> dict[bytes, int]:
        options: Options = self.answer.options if isinstance(self.answer, Oack) else {}
        return {name: value for name, value in options.items() if isinstance(value, int)}

    def block_size(self) -> int:
        return self.agreed().get(b"blksize", USUAL_SIZE)

    def window(self) -> int:
        return self.agreed().get(b"windowsize", 1)

    def size(self) -> Optional[int]:
        return self.agreed().get(b"tsize") if self.request.mode == "octet" else None

    def last_blocks(self, kept: Sequence[Passed]) -> set[int]:
        """The number of the last block, where it is known."""
        size = self.size()
        by_size = set() if size is None else {size // self.block_size() + 1}
        blocks = blocks_of(kept)
        return by_size | {k for k, contents in blocks.items() if any(len(it) < self.block_size() for it in contents)}


def receiver_of(side: Side) -> EndName:
    return "client" if side == "get" else "server"


def terms_of(request: Request, kept: Sequence[Passed]) -> Terms:
    def answers(message: Message) -> bool:
        is_begun = isinstance(message, Data) if request.side == "get" else message == Ack(0)
        return isinstance(message, Oack) or is_begun

    return Terms(request, next((it.message for it in kept if answers(it.message)), None))


# ---- the rules


def is_wrong_kind(it: Passed, side: Side) -> bool:
    of_sender, of_receiver = Data, Ack
    if it.end == "client":
        return isinstance(it.message, (Oack, of_sender if side == "get" else of_receiver))
    return isinstance(it.message, (Request, of_receiver if side == "get" else of_sender))


def is_wrong_value(side: Side, name: bytes, asked: Union[int, bytes], agreed: Union[int, bytes]) -> bool:
    if isinstance(asked, bytes) or isinstance(agreed, bytes):
        return True
    if name in (b"blksize", b"windowsize"):
        return agreed > asked
    return agreed != asked and (name == b"timeout" or name == b"tsize" and side == "put")


def broken_by_first_oack(request: Request, agreed: Options, most: int) -> Iterator[int]:
    asked, blocks = request.options, Terms(request, Oack(agreed))
    if not agreed:
        yield 11
    if b"multicast" in agreed:
        yield 12
    if agreed.keys() - asked.keys():
        yield 13
    if agreed.keys() - KNOWN.keys():
        yield 14
    if any(is_wrong_value(request.side, name, asked[name], agreed[name]) for name in asked.keys() & agreed.keys()):
        yield 15
    size = blocks.size()
    if size is not None and size // blocks.block_size() + 1 > most:
        yield 20


def broken_by_oack(terms: Terms, message: Oack, most: int = MOST_BLOCKS) -> Iterator[int]:
    if terms.answer is None:
        yield from broken_by_first_oack(terms.request, message.options, most)
    elif not isinstance(terms.answer, Oack):
        yield 10
    elif terms.answer != message:
        yield 16


def has_wrong_length(terms: Terms, kept: Sequence[Passed], block: int, length: int) -> bool:
    whole, size, lasts = terms.block_size(), terms.size(), terms.last_blocks(kept)
    for last in lasts:
        is_whole, is_other = length == whole, size is not None and length != size % whole
        if block > last or block < last and not is_whole or block == last and (is_whole or is_other):
            return True
    return length > whole or not lasts and length < whole and block <= max(blocks_of(kept), default=0)


def broken_by_block(terms: Terms, kept: Sequence[Passed], receiver: EndName, message: Data) -> Iterator[int]:
    used, is_read = usable(kept, receiver), terms.request.side == "get"
    if is_read and isinstance(terms.answer, Oack) and 0 not in acks_of(used) or not is_read and terms.answer is None:
        yield 18
    if message.block == 0:
        yield 19
    if message.block == MOST_BLOCKS and len(message.content) >= terms.block_size():
        yield 20
    if has_wrong_length(terms, kept, message.block, len(message.content)):
        yield 21
    if message.block > max(acks_of(used), default=0) + terms.window():
        yield 22
    if blocks_of(kept).get(message.block, set()) - {message.content}:
        yield 25


def broken_by_ack(terms: Terms, kept: Sequence[Passed], receiver: EndName, message: Ack) -> Iterator[int]:
    used, is_agreed = usable(kept, receiver), isinstance(terms.answer, Oack)
    if message.block > front_of(used):
        yield 26
    if message.block == 0 and (not is_agreed if terms.request.side == "get" else is_agreed and not blocks_of(used)):
        yield 27


def broken_by_kept(request: Request, passed: Sequence[Passed], now: Passed) -> Iterator[int]:
    """What the receiver of the file would find, that had taken and sent just what is kept."""
    receiver = receiver_of(request.side)
    kept = kept_of(passed, receiver)
    if is_left_out(now, receiver, kept):
        return
    terms, message = terms_of(request, kept), now.message
    if isinstance(message, Oack):
        yield from broken_by_oack(terms, message)
    elif isinstance(message, Data):
        yield from broken_by_block(terms, kept, receiver, message)
    elif isinstance(message, Ack):
        yield from broken_by_ack(terms, kept, receiver, message)


def broken_late(side: Side, passed: Sequence[Passed], message: Message) -> Iterator[int]:
    """By what had passed before an ERROR of the end that sent it."""
    used = before_error(receiver_of(side), passed)
    if isinstance(message, Data) and side == "put":
        answers = before_error("client", passed)
        if not has_oack(answers) and 0 not in acks_of(answers):
            yield 18
    if isinstance(message, Ack):
        if message.block > front_of(used):
            yield 26
        is_late = not has_oack(used) if side == "get" else has_oack(passed) and not blocks_of(used)
        if message.block == 0 and is_late:
            yield 27


def broken_by_itself(request: Request, passed: Sequence[Passed], now: Passed) -> Iterator[int]:
    errors = [it for it in passed if it.end == now.end and isinstance(it.message, Error)]
    if is_wrong_kind(now, request.side):
        yield 6
    if isinstance(now.message, Error) and any(it.message != now.message for it in errors):
        yield 7
    if now.end == "client" and isinstance(now.message, Request) and now.message != request:
        yield 8


def broken_in_transfer(passed: Sequence[Passed], end: EndName, found: Union[Message, Fault]) -> Optional[str]:
    """The first rule that a datagram of the transfer breaks."""
    request = next((it.message for it in passed if isinstance(it.message, Request)), None)
    if request is None and end == "server":
        return str(Rule.NO_REQUEST)
    if isinstance(found, Fault):
        return f"{Rule.MALFORMED} {found}"
    if request is None:
        return None
    now = Passed(end, found)
    rules = [*broken_by_itself(request, passed, now), *broken_late(request.side, passed, found)]
    first = min([*rules, *broken_by_kept(request, passed, now)], default=None)
    return None if first is None else str(RULES[first])


class Between:
    """What passed between the ends of one transfer."""

    def __init__(self, sides: Sides) -> None:
        self.sides = sides
        self.earlier: list[Datagram] = []
        self.passed: list[Passed] = []

    def broken(self, it: Datagram) -> Optional[str]:
        """The first rule that it breaks after those that passed; where it breaks none, it passes."""
        route, found = route_of(self.sides, it, self.earlier), read(it.payload)
        if route in ("1", "2", "3"):
            return str(RULES[int(route)])
        if route == "answer" and not (isinstance(found, Error) and found.code == UNKNOWN_ID):
            return str(Rule.STRAY_ANSWER)
        if route == "transfer":
            end: EndName = "client" if it.source == self.sides.client else "server"
            broken = broken_in_transfer(self.passed, end, found)
            if broken is not None:
                return broken
            if not isinstance(found, Fault):
                self.passed.append(Passed(end, found))
        self.earlier.append(it)
        return None

    def meaning(self) -> Optional[Meaning]:
        """What it means, where the ACK of the last block has passed."""
        request = next((it.message for it in self.passed if isinstance(it.message, Request)), None)
        if request is None:
            return None
        kept = kept_of(self.passed, receiver_of(request.side))
        terms, blocks, front = terms_of(request, kept), blocks_of(kept), front_of(kept)
        if front not in terms.last_blocks(kept) or front not in acks_of(kept):
            return None
        wire = b"".join(min(blocks[number]) for number in range(1, front + 1))
        file = decoded(wire) if request.mode == "netascii" else wire
        return Meaning(request.side, request.name, request.mode, request.options, terms.agreed(), file)

    def ended(self) -> str:
        """What there is to say of all, which are lawful."""
        meaning = self.meaning()
        if meaning is not None:
            return "too long when normal" if meaning.block_count() > MOST_BLOCKS else meaning.line().decode().strip()
        for it in self.passed:
            if isinstance(it.message, Error):
                return f"aborted by {it.end} code {it.message.code}"
        return f"incomplete after {len(self.earlier)}"


def doubts_of(one: Transfer, line: str) -> list[str]:
    """Why a refusal between the ends is no accusation, and what stops early there may be whole."""
    words = line.split()
    if words[0] in ("incomplete", "aborted") and one.is_left_out:
        return ["a frame is out of order, and by its time may be of this transfer"]
    if words[0] != "refused":
        return []
    unseen = [UNSEEN] if words[5] == Rule.STRAY_ANSWER.printed else []
    return unseen + one.doubts_at("between", one.seen[int(words[2]) - 1].number)


def verdict(sides: Sides, datagrams: Sequence[Datagram]) -> str:
    """The line that is printed of these datagrams between the ends; of a client that asked itself nothing is judged."""
    if sides.client in (sides.asked, sides.server):
        return f"incomplete after {len(datagrams)}"
    between = Between(sides)
    for number, it in enumerate(datagrams, 1):
        broken = between.broken(it)
        if broken is not None:
            return f"refused datagram {number} rule {broken}"
    return between.ended()
