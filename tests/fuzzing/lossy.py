"""The rules with losses between the ends (`LossyBroken` of crates/law_tap/specs), against what they say of a list: that
no lawful list has it. Blocks are of few bytes here, and numbered up to three."""
from __future__ import annotations

from collections.abc import Iterator, Sequence
from functools import lru_cache
from itertools import product
from typing import NamedTuple, Optional

from captures import EndName
from fuzzing.attribution import Datagram
from fuzzing.between import verdict
from fuzzing.ends import Kind, Packet
from fuzzing.tapped import ENDS, OACK, REQUEST, SIDES, Law, Passed
from normal import Side

LIMIT, USUAL, LONGEST, SCALE = 3, 2, 6, 256
# the rules that are certain by their name (`StandsWhateverIsMissing`)
STANDING = frozenset((1, 3, 5, 6, 7, 8, 11, 12, 13, 14, 15, 16, 19, 25))
Options = tuple[tuple[str, int], ...]
Seen = tuple[EndName, "Said"]
EMPTY: Options = ()
NUMBERED: tuple[Kind, ...] = ("data", "ack")


class Said(NamedTuple):
    """What a datagram says: of a block its bytes, of an OACK or a request its options."""

    kind: Kind
    number: int = 0
    text: str = ""
    options: Options = EMPTY


class Asked(NamedTuple):
    side: Side
    options: Options

    def sender(self) -> EndName:
        return "server" if self.side == "get" else "client"

    def request(self) -> Said:
        return Said("request", options=self.options)

    def may_agree(self, options: Options) -> bool:
        asked, given = dict(self.options), dict(options)
        if not set(given) <= set(asked) or given.get("tsize", 0) // size_of(options) + 1 > LIMIT:
            return False
        exact = {"timeout"} | ({"tsize"} if self.side == "put" else set())
        return all(it == asked[name] if name in exact else name == "tsize" or it <= asked[name] for name, it in options)

    def agreeable(self) -> list[Options]:
        """All that may be agreed to, or nothing."""
        ranges = [[None, *(range(LONGEST) if name == "tsize" else range(1, it + 1))] for name, it in self.options]
        rows = (zip(self.options, row) for row in product(*ranges))
        every = [tuple((name, it) for (name, _), it in row if it is not None) for row in rows]
        return [it for it in every if self.may_agree(it)]


def size_of(options: Options) -> int:
    return dict(options).get("blksize", USUAL)


# ---- the rules, as they are defined


def length_fits(size: int, total: int, number: int, length: int) -> bool:
    last = total // size + 1
    return (number < last and length == size) or (number == last and length == total % size)


def explains(asked: Asked, seen: Sequence[Seen], agreed: Options, total: int) -> bool:
    size = size_of(agreed)
    count = total // size + 1
    if count > LIMIT or dict(agreed).get("tsize", total) != total:
        return False
    for _, said in seen:
        if said.kind == "oack" and (said.options != agreed or not agreed):
            return False
        if said.kind == "ack" and said.number == 0 and asked.side == "get" and not agreed:
            return False
        if said.kind in ("ack", "data") and said.number > count:
            return False
        if said.kind == "data" and not length_fits(size, total, said.number, len(said.text)):
            return False
    return True


def fitting(asked: Asked, seen: Sequence[Seen]) -> list[Options]:
    totals = range(LIMIT * (USUAL + 3))
    return [agreed for agreed in asked.agreeable() for total in totals if explains(asked, seen, agreed, total)]


def is_wrong_kind(asked: Asked, end: EndName, kind: str) -> bool:
    return kind in ("ack" if end == asked.sender() else "data", "oack" if end == "client" else "request")


def rules_of(asked: Asked, earlier: Sequence[Seen], end: EndName, said: Said) -> Iterator[int]:
    """The rules that a datagram breaks whatever is missing, the request being among the earlier ones."""
    own = [it for other, it in earlier if other == end and it.kind == said.kind]
    if is_wrong_kind(asked, end, said.kind):
        yield 6
    if said.kind == "error" and any(it != said for it in own):
        yield 7
    if said.kind == "request" and said != asked.request():
        yield 8
    if said.kind == "oack" and not (said.options and asked.may_agree(said.options)):
        yield 11
    if said.kind == "oack" and any(it != said for it in own):
        yield 16
    if said.kind == "data" and said.number == 0:
        yield 19
    if said == Said("data", LIMIT, said.text) and all(size_of(it) <= len(said.text) for it in fitting(asked, earlier)):
        yield 20
    if said.kind == "data" and any(it.number == said.number and it != said for it in own):
        yield 25
    is_other = said.kind == "oack" and (bool(own) or not said.options or not asked.may_agree(said.options))
    if said.kind in ("oack", "data", "ack") and not is_other and not fitting(asked, [*earlier, (end, said)]):
        yield {"oack": 10, "data": 21, "ack": 26 if said.number else 27}[said.kind]


# ---- by four figures


class Figures(NamedTuple):
    """The highest number that was said, whether an ACK 0 was, and how long the blocks below it and at it are."""

    reach: int
    zero: bool
    below: Optional[int]
    tail: Optional[int]


def figures_of(seen: Sequence[Seen]) -> Optional[Figures]:
    """The figures of a list; or none, where two blocks differ that have to be of one length."""
    reach = max((it.number for _, it in seen if it.kind in NUMBERED), default=0)
    blocks = [it for _, it in seen if it.kind == "data"]
    below, tail = ({len(it.text) for it in blocks if (it.number < reach) == is_low} for is_low in (True, False))
    if len(below) > 1 or len(tail) > 1:
        return None
    zero = any(it.kind == "ack" and it.number == 0 for _, it in seen)
    return Figures(reach, zero, min(below, default=None), min(tail, default=None))


def fits_size(size: int, it: Figures) -> bool:
    whole = it.below in (None, size)
    return whole and (it.tail is None or it.tail < size or (it.tail == size and it.reach < LIMIT))


def fits_total(size: int, total: int, it: Figures) -> bool:
    last = total // size + 1
    whole = it.below in (None, size) and it.reach <= last <= LIMIT
    return whole and (it.tail is None or length_fits(size, total, it.reach, it.tail))


def fits_unseen(asked: Asked, it: Figures) -> bool:
    """Whether a size fits that may have been agreed to where no OACK was seen."""
    options = dict(asked.options)
    may_be_usual = asked.side == "put" or not it.zero or bool({"windowsize", "timeout", "tsize"} & set(options))
    lowered = range(1, options.get("blksize", 0) + 1)
    return (may_be_usual and fits_size(USUAL, it)) or any(fits_size(size, it) for size in lowered)


def is_decided_as_explained(asked: Asked, seen: Sequence[Seen]) -> bool:
    """Whether the figures fit, where all OACKs say the same and may be agreed to."""
    found, given = figures_of(seen), next((it.options for _, it in seen if it.kind == "oack"), None)
    if found is None:
        return False
    if given is None:
        return fits_unseen(asked, found)
    total = dict(given).get("tsize")
    return fits_size(size_of(given), found) if total is None else fits_total(size_of(given), total, found)


def is_fair(asked: Asked, seen: Sequence[Seen]) -> bool:
    """Whether blocks begin with 1, and all OACKs say the same, which may be agreed to."""
    given = {it.options for _, it in seen if it.kind == "oack"}
    are_fair = len(given) < 2 and all(it and asked.may_agree(it) for it in given)
    return are_fair and all(it.number for _, it in seen if it.kind == "data")


# ---- as datagrams


def payload_of(asked: Asked, said: Said) -> bytes:
    """The bytes of a datagram, where each letter of a block stands for 256 of them."""
    sized = [(name, it if name in ("windowsize", "timeout") else it * SCALE) for name, it in said.options]
    options = b"".join(f"{name}\0{it}\0".encode() for name, it in sized)
    if said.kind == "request":
        return bytes([0, 1 if asked.side == "get" else 2]) + b"a\0octet\0" + options
    if said.kind == "data":
        return bytes([0, 3, 0, said.number]) + said.text.encode() * SCALE
    if said.kind == "ack":
        return bytes([0, 4, 0, said.number])
    return bytes([0, 6]) + options if said.kind == "oack" else bytes([0, 5, 0, said.number]) + b"x\0"


def refused_by(asked: Asked, seen: Sequence[Seen]) -> tuple[int, int]:
    """Which datagram the rules between the ends refuse first, from 0, and by which rule; or their count, and 0."""
    datagrams = []
    for number, (end, said) in enumerate(seen):
        server = SIDES.asked if said.kind == "request" and end == "client" else SIDES.server
        ends = (SIDES.client, server) if end == "client" else (SIDES.server, SIDES.client)
        datagrams.append(Datagram(number, number * 0.1, *ends, payload_of(asked, said)))
    words = verdict(SIDES, datagrams).split()
    return (int(words[2]) - 1, int(words[4])) if words[0] == "refused" else (len(seen), 0)


def first_broken(asked: Asked, seen: Sequence[Seen]) -> tuple[int, list[int]]:
    """Which datagram is the first that breaks a rule, and which; or their count, and none."""
    found = ((at, list(rules_of(asked, seen[:at], *seen[at]))) for at in range(1, len(seen)))
    return next((it for it in found if it[1]), (len(seen), []))


# ---- the definition: some lawful list has this one


def added(passed: tuple[Passed, ...], more: Passed) -> tuple[Passed, ...]:
    """The list with one more, in an order that says the same: of neighbours only ERRORs tell which was first."""
    if more in passed:
        return passed
    cut = max((at + 1 for at, (_, it) in enumerate(passed) if it.kind == "error"), default=0)
    return (*passed, more) if more[1].kind == "error" else (*passed[:cut], *sorted((*passed[cut:], more)))


@lru_cache(maxsize=None)
def next_ones(law: Law, passed: tuple[Passed, ...], errors: frozenset[Passed]) -> frozenset[tuple[Passed, ...]]:
    """All that may have passed, where none or some more pass than these."""
    blocks = (Packet(kind, number) for kind in NUMBERED for number in range(LIMIT + 1))
    every = [*errors, *((end, it) for it in (REQUEST, OACK, *blocks) for end in ENDS)]
    found, tried = {passed}, [passed]
    while tried:
        one = tried.pop()
        more = {added(one, it) for it in every if it not in one and law.may_pass(one, *it)} - found
        found |= more
        tried += more
    return frozenset(found)


def completes(law: Law, packets: Sequence[Passed]) -> bool:
    """Whether packets can be put into the list so that each of the whole may pass; of ERRORs its own, or any."""
    errors = frozenset(it for it in packets if it[1].kind == "error") or frozenset([("server", Packet("error"))])
    states: set[tuple[Passed, ...]] = {()}
    for it in packets:
        before = {more for one in states for more in next_ones(law, one, errors)}
        states = {added(one, it) for one in before if law.may_pass(one, *it)}
    return bool(states)


def packet_of(asked: Asked, agreed: Options, wire: str, said: Said) -> Packet | None:
    """The packet that a meaning says so."""
    at = (said.number - 1) * size_of(agreed)
    if said.kind == "request":
        return REQUEST if said == asked.request() else None
    if said.kind == "oack":
        return OACK if said.options == agreed else None
    if said.kind == "data" and said.number and wire[at:at + size_of(agreed)] != said.text:
        return None
    return Packet(said.kind, said.number)


def wires(size: int, total: int) -> Iterator[str]:
    """Each block is of one letter."""
    for row in product("ab", repeat=total // size + 1):
        yield "".join(it * size for it in row)[:total]


def meanings(asked: Asked) -> Iterator[tuple[Options, str, Law]]:
    """What may be agreed to, the wire, and what both say of the order."""
    for agreed in asked.agreeable():
        sizes = range(LIMIT * size_of(agreed)) if "tsize" not in dict(agreed) else [dict(agreed)["tsize"]]
        for total in sizes:
            law = Law(asked.side, total // size_of(agreed) + 1, bool(agreed), dict(agreed).get("windowsize", 1))
            yield from ((agreed, wire, law) for wire in wires(size_of(agreed), total))


def is_lawful(asked: Asked, seen: Sequence[Seen]) -> bool:
    """Whether some meaning, over some wire, has a lawful list that has these."""
    for agreed, wire, law in meanings(asked):
        packets = [(end, packet_of(asked, agreed, wire, said)) for end, said in seen]
        known = [(end, it) for end, it in packets if it]
        if len(known) == len(packets) and completes(law, known):
            return True
    return False


def difference(asked: Asked, seen: Sequence[Seen]) -> str:
    """What the rules say of a list otherwise than the definition, or nothing."""
    at, broken = first_broken(asked, seen)
    same = is_lawful(asked, seen[:at]) and (at == len(seen) or not is_lawful(asked, seen[:at + 1]))
    return "" if same else f"{asked}, {list(seen)}: datagram {at} breaks {broken}"
