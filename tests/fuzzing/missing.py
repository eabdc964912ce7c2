"""What was recorded at one end where the recorder may have missed some of it, slowly: a list is lawful with losses if
the slow judge passes it with some datagrams of an alphabet put in."""
from __future__ import annotations

import copy
from collections import deque
from collections.abc import Iterator
from typing import NamedTuple, Optional

from captures import EndName, ack, data, error, oack, read_request, write_request
from fuzzing.slow_judge import Judge
from fuzzing.spelled import Data, Error, Fault, Oack, Request, read
from fuzzing.views import Datagram, Peer
from normal import Side

SERVICE, CLIENT, OWN = 69, 40_000, 41_000
ASKED: Peer = (b"10.0.0.1", SERVICE)
# with whom an end deals, and a stranger
OTHERS: dict[EndName, tuple[Peer, Peer]] = {
    "client": ((b"10.0.0.1", OWN), (b"10.0.0.1", 42_000)),
    "server": ((b"10.0.0.2", CLIENT), (b"10.0.0.3", 43_000)),
}
# the rules whose breach at an end is certain by their name, where the other end is known (`StandsAtEnd`)
STANDING_AT_END = frozenset((5, 6, 7, 8, 9, 11, 12, 13, 14, 15, 16, 17, 19, 25))
# and of those of what the end sent itself, whether it is known or not (`StandsOfItsOwn`)
STANDING_OF_ITS_OWN = STANDING_AT_END - {7}
# the rules of blocks whose breach is certain where what was agreed to for an option is known (`StandsByOptions`)
STANDING_BY_OPTION = {20: "blksize", 21: "blksize", 24: "windowsize"}


def alphabet(end: EndName, side: Side) -> list[Datagram]:
    """What may be said in a transfer and what may not, each way, and what passes with a stranger."""
    asks = read_request if side == "get" else write_request
    is_client, local = end == "client", CLIENT if end == "client" else OWN
    peer, stranger = OTHERS[end]
    at_service = (CLIENT, ASKED) if is_client else (SERVICE, peer)
    requests = [Datagram(is_client, *at_service, asks(name, "octet", windowsize=2)[0]) for name in ("a", "b")]
    blocks = [data(0, b"a"), data(1, b"a"), data(1, b"b"), data(2, b"a" * 512)]
    said = [oack(windowsize=2), oack(blksize=8), *blocks, ack(0), ack(1), error(5, "x"), error(3, "x"), (b"\0\7", "")]
    passed = [Datagram(goes_out, local, peer, payload) for goes_out in (True, False) for payload, _ in said]
    begins = data(1, b"a") if side == "get" else ack(0)
    strays = [Datagram(False, local, stranger, begins[0]), Datagram(True, local, stranger, error(5, "x")[0])]
    return [*requests, *passed, *strays]


def between_ends(
    end: EndName, side: Side, options: list[dict[str, int]], words: list[tuple[bytes, str]]
) -> list[Datagram]:
    """Requests with these options, and what the two ends may say of it, each from the end that says it; and ERRORs."""
    asks = read_request if side == "get" else write_request
    is_client, local, peer = end == "client", CLIENT if end == "client" else OWN, OTHERS[end][0]
    at_service = (CLIENT, ASKED) if is_client else (SERVICE, peer)
    requests = [Datagram(is_client, *at_service, asks("a", "octet", **it)[0]) for it in options]
    sends = {Data: side == "put", Oack: False}
    of_client = [sends.get(type(read(payload)), side == "get") for payload, _ in words]
    said = [Datagram(it == is_client, local, peer, payload) for it, (payload, _) in zip(of_client, words)]
    return [*requests, *said, *(Datagram(it, local, peer, error(3, "x")[0]) for it in (True, False))]


def windows(end: EndName, side: Side) -> list[Datagram]:
    """A transfer of three blocks, of which a window of two is asked for or not."""
    blocks = [data(1, b"a" * 512), data(2, b"a" * 512), data(3, b"a")]
    said = [oack(windowsize=1), oack(windowsize=2), *blocks, ack(0), ack(1), ack(2)]
    return between_ends(end, side, [{}, {"windowsize": 2}], said)


def sizes(end: EndName, side: Side) -> list[Datagram]:
    """A transfer of which a block size is asked for or not, with blocks that fit one of the sizes and not the others;
    and of a file that is too long for its blocks."""
    blocks = [data(1, b"a" * 8), data(1, b"a" * 9), data(1, b"a" * 513), data(2, b""), data(65_535, b"a" * 512)]
    said = [oack(blksize=8), oack(blksize=9), oack(tsize=40_000_000), *blocks, ack(0), ack(1)]
    return between_ends(end, side, [{}, {"blksize": 9}, {"tsize": 40_000_000}], said)


def stands_by_option(judge: Judge, it: Datagram, rule: int) -> bool:
    """Whether it breaks a rule that is certain by the options of the request and of its answer (`StandsByOptions`)."""
    said, asked = read(it.payload), judge.request
    if rule == 20 and isinstance(said, Oack):
        return True
    if rule == 27 and asked is not None:
        return asked.side == "get" and not asked.options
    name = STANDING_BY_OPTION.get(rule)
    if name is None or asked is None or not isinstance(said, Data):
        return False
    return name.encode() not in dict(asked.options) or isinstance(judge.answer, Oack)


def goes_on(it: Datagram) -> bool:
    """Whether by this the end has gone on with the other one (`GoesOnWith`)."""
    said = read(it.payload)
    may_answer_a_stray = isinstance(said, Error) and said.code == 5
    return it.goes_out and not isinstance(said, (Fault, Request)) and not may_answer_a_stray


def name_of(judge: Judge) -> str:
    """All that it goes by, but for how many have passed."""
    its, ports = judge.numbers, judge.ports
    its_own = (sorted(its.blocks.items()), sorted(its.acks), its.used_high, its.used_acked, its.is_zero_used)
    sent = sorted(it.__name__ for it in judge.sent)
    errors, short = sorted(judge.errors.items()), sorted(judge.short)
    who = (ports.asked, ports.answered, sorted(ports.come))
    return repr((judge.request, judge.answer, its_own, short, sent, errors, who))


def after(judge: Judge, it: Datagram) -> Judge:
    """The judge after a datagram that breaks no rule."""
    more, its = copy.copy(judge), judge.numbers
    more.ports, more.numbers = copy.copy(judge.ports), copy.copy(its)
    more.ports.come, more.numbers.blocks, more.numbers.acks = set(judge.ports.come), dict(its.blocks), set(its.acks)
    more.short, more.sent, more.errors = set(judge.short), set(judge.sent), dict(judge.errors)
    more.take(it)
    return more


class Refused(NamedTuple):
    """A list that breaks no rule up to its last datagram, and what is said of that one."""

    datagrams: tuple[Datagram, ...]
    rule: int
    knows_other: bool
    is_certain: bool
    by_option: bool

    def stands(self) -> bool:
        """Whether it is said to be certain: by the rule's name, or by an option that is known."""
        is_own = self.datagrams[-1].goes_out and (self.rule in STANDING_OF_ITS_OWN or self.by_option)
        return is_own or self.knows_other and (self.rule in STANDING_AT_END or self.by_option)


# the state of the judge, those that it may have with what was missed, and whether the other end is known
Joined = tuple[str, frozenset[str], bool]


class Lists:
    """The lists at one end, by the states of the judge: between two that were recorded any may have passed."""

    def __init__(self, end: EndName, letters: list[Datagram]) -> None:
        self.end, self.letters = end, letters
        self.states: dict[str, Judge] = {}
        self.nexts: dict[str, list[Optional[str]]] = {}
        self.closures: dict[frozenset[str], frozenset[str]] = {}

    def named(self, judge: Judge) -> str:
        name = name_of(judge)
        self.states.setdefault(name, judge)
        return name

    def after(self, state: str) -> list[Optional[str]]:
        """The state after each datagram; none where it is refused."""
        if state not in self.nexts:
            judge = self.states[state]
            passes = [judge.broken(it) is None for it in self.letters]
            names = [self.named(after(judge, it)) if so else None for it, so in zip(self.letters, passes)]
            self.nexts[state] = names
        return self.nexts[state]

    def with_unseen(self, states: frozenset[str]) -> frozenset[str]:
        """These states, and those after what passed and was not recorded."""
        if states not in self.closures:
            found, left = set(states), deque(states)
            while left:
                more = {it for it in self.after(left.popleft()) if it is not None} - found
                found |= more
                left.extend(more)
            self.closures[states] = frozenset(found)
        return self.closures[states]

    def refused(self, longest: int) -> Iterator[Refused]:
        """The lists up to that length of which the last datagram alone breaks a rule, one for each state before it."""
        start = self.named(Judge(self.end, SERVICE))
        first: Joined = (start, frozenset((start,)), self.end == "server")
        seen, left = {first}, deque[tuple[Joined, tuple[Datagram, ...]]]([(first, ())])
        while left:
            (state, may_be, knows_other), datagrams = left.popleft()
            for letter, it in enumerate(self.letters):
                unseen = self.with_unseen(may_be)
                still = frozenset(later for before in unseen if (later := self.after(before)[letter]) is not None)
                known, whole, then = knows_other or goes_on(it), (*datagrams, it), self.after(state)[letter]
                if then is None:
                    judge = self.states[state]
                    rule = int(str(judge.broken(it)).split()[0])
                    yield Refused(whole, rule, known, not still, stands_by_option(judge, it, rule))
                elif (then, still, known) not in seen and len(whole) < longest:
                    seen.add((then, still, known))
                    left.append(((then, still, known), whole))
