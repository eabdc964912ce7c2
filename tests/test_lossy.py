"""The rules with losses between the ends, and the lists that some lawful list has."""
from __future__ import annotations

from collections.abc import Iterator
from itertools import combinations_with_replacement
from random import Random

from captures import EndName
from checks import Check, Checks
from fuzzing.ends import Packet
from fuzzing.lossy import EMPTY, LIMIT, NUMBERED, STANDING, USUAL, Asked, Options, Said, Seen
from fuzzing.lossy import difference, first_broken, fitting, is_decided_as_explained, is_fair, meanings, refused_by
from fuzzing.lossy import rules_of, size_of
from fuzzing.tapped import ENDS, OACK, REQUEST, Passed

LISTS, THINNED, REFUSED = 60, 300, 400
# the rules of which some breach in these lists is not certain
DEPENDING = frozenset((2, 10, 18, 21, 22, 26, 27))
OFFERS: list[Options] = [EMPTY, (("windowsize", 2),), (("blksize", 1),), (("blksize", 3),), (("tsize", 3),),
                         (("blksize", 3), ("tsize", 2)), (("timeout", 1),)]
REQUESTS = [Asked("get", it) for it in OFFERS] + [Asked("put", it) for it in OFFERS]


def alphabet(asked: Asked) -> list[Seen]:
    """Datagrams that may belong to the transfer, and some that never do."""
    sender = asked.sender()
    receiver: EndName = "client" if sender == "server" else "server"
    blocks = [Said("data", k, "a" * long) for k in range(LIMIT + 1) for long in range(USUAL + 2)]
    acks = [Said("ack", j) for j in range(LIMIT + 1)]
    oacks = [Said("oack", options=it) for it in (*asked.agreeable(), (("blksize", 9),), (("tsize", 99),))]
    requests = [asked.request(), Said("request", options=(("other", 1),))]
    of_client = [*requests, oacks[0], *(Said("error", code) for code in (0, 3))]
    of_server = [*oacks, requests[0], *(Said("error", code) for code in (0, 3))]
    of_sender = [*blocks, *(Said("data", 1, "b" * long) for long in range(1, USUAL + 2)), acks[1]]
    parts: list[tuple[EndName, list[Said]]] = [("client", of_client), ("server", of_server), (sender, of_sender)]
    return [(end, it) for end, said in [*parts, (receiver, [*acks, blocks[5]])] for it in said]


def lists(chance: Random, count: int) -> Iterator[tuple[Asked, list[Seen]]]:
    """Lists that begin with their request."""
    for _ in range(count):
        asked = chance.choice(REQUESTS)
        every = alphabet(asked)
        yield asked, [("client", asked.request()), *(chance.choice(every) for _ in range(chance.randint(1, 5)))]


def said_as(asked: Asked, agreed: Options, wire: str, packet: Packet) -> Said:
    """What a packet of a meaning says."""
    at = (packet.number - 1) * size_of(agreed)
    text = wire[at:at + size_of(agreed)] if packet.kind == "data" else ""
    return Said(packet.kind, packet.number, text, {"request": asked.options, "oack": agreed}.get(packet.kind, EMPTY))


def thinned(chance: Random) -> tuple[Asked, list[Seen]]:
    """A lawful list of which the recorder missed about the half, but not the request."""
    asked = chance.choice(REQUESTS)
    agreed, wire, law = chance.choice(list(meanings(asked)))
    numbered = [Packet(kind, number) for kind in NUMBERED for number in range(LIMIT + 1)]
    packets = [REQUEST, OACK, *numbered, Packet("error", 0), Packet("error", 3)]
    passed: list[Passed] = [("client", REQUEST)]
    for _ in range(16):
        may = [(end, it) for end in ENDS for it in packets if law.may_pass(passed, end, it)]
        rare = [it for it in may if it[1].kind != "error"]
        passed.append(chance.choice(rare if rare and chance.random() < 0.9 else may))
    kept = [it for at, it in enumerate(passed) if at == 0 or chance.random() < 0.5]
    return asked, [(end, said_as(asked, agreed, wire, it)) for end, it in kept]


def short_lists(asked: Asked) -> Iterator[list[Seen]]:
    """All lists of a request and two more that have a number or agree to something, and some of three more."""
    every = [it for it in dict.fromkeys(alphabet(asked)) if it[1].kind in ("data", "ack", "oack")]
    chance = Random(3)
    for seen in (it for count in range(4) for it in combinations_with_replacement(every, count)):
        if len(seen) < 3 or chance.random() < 0.02:
            yield [("client", asked.request()), *seen]


class Lossy(Checks):
    """Lists by chance, the same in each run."""

    def test_rules_are_what_is_certain(self) -> None:
        found = (difference(asked, seen) for asked, seen in lists(Random(1), LISTS))
        self.check_each(Check(f"list {number}", not it, it) for number, it in enumerate(found))

    def test_what_is_left_of_a_lawful_list_breaks_none(self) -> None:
        chance = Random(2)
        for number in range(THINNED):
            asked, seen = thinned(chance)
            self.check_each([Check(f"list {number}", not first_broken(asked, seen)[1], (asked, seen))])

    def test_four_figures_decide_what_is_explained(self) -> None:
        for asked in REQUESTS:
            for seen in filter(lambda it: is_fair(asked, it), short_lists(asked)):
                same = bool(fitting(asked, seen)) == is_decided_as_explained(asked, seen)
                self.check_each([Check("list", same, (asked, seen))])

    def test_some_rules_are_certain_by_their_name(self) -> None:
        chance, depending = Random(4), set()
        for number in range(REFUSED):
            asked, seen = thinned(chance) if number % 2 else next(lists(chance, 1))
            at, rule = refused_by(asked, seen)
            if rule and not list(rules_of(asked, seen[:at], *seen[at])):
                depending.add(rule)
        self.check_each([Check("certain", not depending & STANDING)])
        self.check_each([Check("others", depending == DEPENDING, depending)])
