"""Datagrams near the limits of the rules, put between those of a lawful transfer. Of many that are drawn one is taken,
by the rules that they break and not by how many break each: so a rule that few break is met as often as the others.
"""
from __future__ import annotations

import dataclasses
from collections.abc import Callable, Iterator
from random import Random
from typing import Optional

from fuzzing.between import MOST_BLOCKS, Terms
from fuzzing.ends import Packet
from fuzzing.meanings import chosen, spelled_options, spelled_request
from fuzzing.slow_judge import Judge
from fuzzing.spelled import Error, Oack, Request
from fuzzing.views import HOSTS, STRAY_REQUESTS, STRAYS, Capture, Datagram, Peer, View, port_of
from normal import KNOWN, USUAL_SIZE, Mode, Options, Side, Value, number
from refusals import Rule

# Makes a payload, and whether the client sends such.
Kind = tuple[Callable[[], bytes], bool]
# How many are drawn, of which one is taken; and how much one weighs that breaks no rule, one of the rules that are met
# seldom, and one of those that are met often.
DRAWN, LAWFUL, SELDOM, OFTEN = 14, 4, 6, 0.4
MET_SELDOM = (
    Rule.STRAY_ANSWER, Rule.OACK_EMPTY, Rule.MULTICAST_AGREED, Rule.OPTION_NOT_REQUESTED, Rule.OPTION_OUTSIDE_PROFILE,
    Rule.OPTION_VALUE, Rule.OACK_AFTER_START, Rule.BEYOND_BLOCK_65535, Rule.BLOCK_SKIPPED, Rule.GONE_BACK,
)
MET_OFTEN = (Rule.FOREIGN_PORT, Rule.WRONG_PORT, Rule.NO_REQUEST, Rule.REQUEST_CHANGED, Rule.ACK_AHEAD)
WEIGHTS: dict[Optional[str], float] = {
    None: LAWFUL, **{str(rule): SELDOM for rule in MET_SELDOM}, **{str(rule): OFTEN for rule in MET_OFTEN}
}
# Names that a table looks for in the same places: those of tftp_packet, in which names are looked for that come twice.
ALIKE = (
    b"amx ard hkh jsw jxc o48 qqg q2o syv zd8 zrz zwf z8n 42w 47c 6ad akfc atlb a0sf a7lj a9ye bwdb b3kf catf cjze "
    b"c49e c6cf ddlf dfya dmre dvxd d08a d71e d9xl egdf eiqa epje eypd ey1l e30a e5wh fa9a fccb flia fsbe f8oh gd1a "
    b"gfxh goaa g07h g2ai hbwd hiph hrvg h7fd ieod ilhh inuc iung i1uk i84c jhgd jqmc jxfg jzsb j4mk kbvk ki5c ktec "
    b"k0lg k7ek k9rf lntj lu3b lwzi l3dg l83j mamg mjsf msye mzri m42f ndeg nmkf nvqe n2xi oe3f on9e opcf oyie"
).split()
OTHER_MODE: dict[Mode, Mode] = {"octet": "netascii", "netascii": "octet"}
OTHER_SIDE: dict[Side, Side] = {"get": "put", "put": "get"}
LONGEST_REQUEST = 512


def near(chance: Random, *values: int) -> int:
    """One of these numbers, or its neighbour."""
    return chance.choice(values) + chosen(chance, (0, 3), (1, 2), (-1, 1))


def of_two_bytes(value: int) -> bytes:
    return number(min(max(0, value), MOST_BLOCKS))


def many_options(chance: Random) -> bytes:
    """More options than a packet has mostly, up to some thousands, of which two may have one name."""
    few, some, many = chance.randrange(7, 11), chance.randrange(11, 200), chance.randrange(200, 5_000)
    count = chosen(chance, (few, 4), (some, 4), (many, 7))
    names = [b"-%x" % at for at in range(10, 10 + count)]
    if chance.random() < 0.5:
        names = [*ALIKE, *names] if chance.random() < 0.7 else [*names[: count // 2], *ALIKE, *names[count // 2 :]]
    if chance.random() < 0.8:
        twice = chance.randrange(len(names))
        later = twice + 1, chance.randrange(twice + 1, len(names) + 1), len(names), len(names)
        names.insert(chance.choice(later), names[twice].upper())
    return b"".join(name + b"\0\0" for name in names)


def odd_options(chance: Random, requested: Options) -> Options:
    """Options with one that is near the least or the most that it may be, or is short."""
    options = dict(requested)
    name = chance.choice(sorted(KNOWN))
    least, most = KNOWN[name]
    value = chance.choice((least, max(0, least - 1), most, most + 1, most + 1, most * 10))
    options[name] = b"%s%d" % (chance.choice((b"", b"0", b"000")), value)
    return options if chance.random() < 0.9 else {b"a": b""}


class Aim:
    """What may be put after what has passed of a transfer."""

    def __init__(self, chance: Random, view: View, judge: Judge) -> None:
        self.chance, self.view, self.judge = chance, view, judge
        self.terms = judge.terms(judge.request) if judge.request else None

    def lasts(self, terms: Terms) -> tuple[int, ...]:
        return tuple(min(last, MOST_BLOCKS) for last in self.judge.last_blocks(terms))

    # ---- payloads

    def data(self) -> bytes:
        """A block near the last ones, the window's end, the last block or the last number, of a length near others."""
        chance, its = self.chance, self.judge.numbers
        size, window = (self.terms.block_size(), self.terms.window()) if self.terms else (USUAL_SIZE, 1)
        ends = (min(its.used_acked + window, MOST_BLOCKS), min(max(its.acks, default=0) + window, MOST_BLOCKS))
        lasts = self.lasts(self.terms) if self.terms else ()
        block = near(chance, its.high, its.high + 1, its.high + 2, its.front + 1, *ends, *lasts, 0, 1, MOST_BLOCKS)
        if lasts and chance.random() < 0.3:
            block = chance.choice(lasts)
        elif window > MOST_BLOCKS // 2 and chance.random() < 0.3:
            block = near(chance, MOST_BLOCKS, window)
        block = min(max(0, block), MOST_BLOCKS)
        content = self.content(block)
        total = self.terms.size() if self.terms else None
        rest = size - 1 if total is None else total % size
        length = chosen(
            chance, (len(content), 6), (size, 4), (size - 1, 1), (size + 1, 1), (0, 2), (rest, 3),
            (chance.randrange(size), 1),
        )
        if total is not None and block in lasts and chance.random() < 0.5:
            length = chance.choice((0, 0, max(0, rest - 1), rest + 1, size))
        content = (content + chance.randbytes(max(0, length - len(content))))[:length]
        if content and chance.random() < 0.2:
            at = chance.randrange(len(content))
            content = content[:at] + bytes([content[at] ^ chance.choice((1, 128))]) + content[at + 1 :]
        return number(3) + number(block) + content

    def content(self, block: int) -> bytes:
        """That of a block that has passed, or of the transfer."""
        meant = self.view.spelling.payload(Packet("data", block))[4:] if 1 <= block < MOST_BLOCKS else b""
        return self.judge.numbers.blocks.get(block, meant)

    def ack(self) -> bytes:
        its = self.judge.numbers
        lasts = self.lasts(self.terms) if self.terms else ()
        values = (its.front, its.high, its.used_high, its.used_acked, max(its.acks, default=0), *lasts)
        return number(4) + of_two_bytes(chosen(self.chance, (0, 2), (near(self.chance, *values), 6), (MOST_BLOCKS, 1)))

    def error(self) -> bytes:
        """An ERROR, perhaps one that passed, or nearly."""
        chance, errors = self.chance, list(self.judge.errors.values()) or [Error(3, b"x"), Error(5, b"")]
        one = chance.choice(errors)
        code, text = one.code, one.text
        way = chance.randrange(5)
        if way == 0:
            code ^= chance.choice((1, 256))
        elif way == 1:
            text = chance.choice((text + b"y", text[:-1], text.swapcase(), bytes(len(text) * [1])))
        elif way == 2:
            code, text = chance.choice((0, 1, 5, 8, 65_535)), chance.choice((b"", b"x"))
        return number(5) + number(code) + text + b"\0"

    def oack(self) -> bytes:
        """An OACK near what was agreed, or near what may be."""
        chance, answer = self.chance, self.judge.answer
        before = self.view.spelling.before.get("oack")
        if before and chance.random() < 0.3:
            return before
        if isinstance(answer, Oack) and chance.random() < 0.7:
            options = dict(answer.options)
        else:
            options = self.agreeable(self.judge.request)
        for _ in range(chosen(chance, (0, 3), (1, 5), (2, 1))):
            self.change(options)
        return number(6) + spelled_options(chance, options)

    def agreeable(self, request: Optional[Request]) -> dict[bytes, Value]:
        """Of what was asked for some that may be agreed to."""
        asked = dict(request.options) if request else {}
        return {
            name: value for name, value in asked.items()
            if name in KNOWN and isinstance(value, int) and self.chance.random() < 0.8
        }

    def change(self, options: dict[bytes, Value]) -> None:
        """One option is another, is gone or new."""
        chance, asked = self.chance, self.judge.request.options if self.judge.request else {}
        texts = sorted(name for name, value in asked.items() if isinstance(value, bytes) and name != b"multicast")
        if texts and chance.random() < 0.4:
            name = chance.choice(texts)
            options[name] = chance.choice((asked[name], asked[name], 8))
            return
        name = chance.choice(sorted({*options, *asked, *KNOWN}))
        size, value = options.get(b"blksize", USUAL_SIZE), options.get(name, asked.get(name, 8))
        size = size if isinstance(size, int) else USUAL_SIZE
        most = size * MOST_BLOCKS
        near_value = near(chance, int(value)) if isinstance(value, int) else 8
        way = chance.randrange(9)
        if way == 8 or b"tsize" in asked and chance.random() < 0.3:
            sizes = (most, most - 1, most - size, most - size - 1, most + size, 0, 65_535, 65_536, 1 << 20, 1 << 25)
            options[b"tsize"] = chance.choice(sizes)
        elif way < 3:
            options[name] = max(0, near_value)
        elif way == 3:
            options.pop(name, None)
        elif way == 4:
            options[name] = asked.get(name, 8)
        elif way == 5:
            options.clear()
            options[chance.choice((name, b"a"))] = b""
        elif way == 6:
            options[chance.choice((name, b"multicast"))] = chance.choice((b"", b"x", b"00"))
        else:
            least, most = KNOWN.get(name, (0, 9))
            options[name] = chance.choice((least, most, most + 1, max(0, least - 1)))

    def request(self) -> bytes:
        """The request again, or nearly; or one of nearly the greatest length."""
        chance, meaning, asked = self.chance, self.view.meaning, self.judge.ports.asked
        if asked and chance.random() < 0.3:
            return asked.payload
        options: Options = {**meaning.requested, b"timeout": 9 if meaning.requested.get(b"timeout") != 9 else 8}
        fewer = dict(list(meaning.requested.items())[:-1])
        other = chosen(
            chance, (meaning, 4), (dataclasses.replace(meaning, name=meaning.name + b"x"), 1),
            (dataclasses.replace(meaning, name=meaning.name.swapcase()), 1),
            (dataclasses.replace(meaning, mode=OTHER_MODE[meaning.mode]), 1),
            (dataclasses.replace(meaning, side=OTHER_SIDE[meaning.side]), 1),
            (dataclasses.replace(meaning, requested=options), 1), (dataclasses.replace(meaning, requested=fewer), 1),
        )
        payload = spelled_request(chance, other)
        if chance.random() < 0.1:
            missing = max(0, near(chance, LONGEST_REQUEST) - len(payload))
            payload = payload[:2] + b"n" * missing + payload[2:]
        return payload

    def malformed(self) -> bytes:
        """Something that spells nothing, or nearly."""
        chance = self.chance
        makers = (self.ack, self.error, self.oack, self.request)
        payload = chance.choice(STRAYS)[0] if chance.random() < 0.3 else chance.choice(makers)()
        return chance.choice((
            payload[:-1], number(chance.choice((1, 2, 3, 4, 5)))[1:], payload + b"\0", payload[: chance.randrange(5)],
            payload + b"x\0", payload + b"\0\0",
            payload + b"blksize\0008\0", payload + b"BLKSIZE\0008\0", payload.replace(b"octet", b"mail"),
            payload.replace(b"octet", b"octets"), number(chance.choice((0, 7, 256, 259))) + payload[2:],
            chance.choice(STRAYS + STRAY_REQUESTS)[0],
        ))

    # ---- datagrams

    def datagram(self) -> Datagram:
        """One that goes where it belongs, or perhaps not."""
        chance, view = self.chance, self.view
        make, by_client = chosen(chance, *self.kinds())
        is_sent = by_client == (view.end == "client")
        payload = make()
        if chance.random() < 0.08:
            is_sent = not is_sent
        datagram = view.of_payload(is_sent, payload)
        if make == self.request and chance.random() < 0.1:
            datagram = dataclasses.replace(datagram, peer=(chance.choice(HOSTS), datagram.peer[1]))
        elif chance.random() < 0.15:
            datagram = self.astray(datagram)
        return datagram.of_version(view.version)

    def kinds(self) -> Iterator[tuple[Kind, float]]:
        is_read = self.view.meaning.side == "get"
        yield (self.data, not is_read), 6
        yield (self.ack, is_read), 5
        yield (self.oack, False), 1 if not self.view.meaning.requested else 3 if self.judge.answer else 12
        yield (self.request, True), 3
        yield (self.error, self.chance.random() < 0.5), 3
        yield (self.malformed, self.chance.random() < 0.5), 2

    def peers(self) -> list[Peer]:
        """Those of the transfer and of strays, and the same hosts and ports mixed."""
        chance, view = self.chance, self.view
        strays = sorted(self.judge.ports.come)
        known: list[Peer] = [view.client, view.server, (view.asked, view.service), *strays, *strays]
        host, port = chance.choice(known)[0], chance.choice(known)[1]
        return [*known, (host, port), (chance.choice(HOSTS), port), (host, port_of(chance))]

    def astray(self, datagram: Datagram) -> Datagram:
        """At another port or another peer, of those that are known or not."""
        chance, view = self.chance, self.view
        ports = (view.service, view.client[1], view.server[1], near(chance, 2, 65_534), port_of(chance))
        way = chance.randrange(4)
        if way > 0:
            datagram = dataclasses.replace(datagram, peer=chance.choice(self.peers()))
        if way < 2:
            datagram = dataclasses.replace(datagram, local=chance.choice(ports))
        return datagram

    def taken(self, is_lawful: bool) -> Datagram:
        """A datagram that breaks some rule or none, or one that breaks none, if one was drawn."""
        # by the rule, and by whether it is no longer than a block without bytes
        found: dict[tuple[Optional[str], bool], Datagram] = {}
        for _ in range(DRAWN):
            datagram = self.datagram()
            found.setdefault((self.judge.broken(datagram), len(datagram.payload) <= 4), datagram)
        lawful = [key for key in found if key[0] is None]
        if is_lawful and lawful:
            return found[self.chance.choice(lawful)]
        return found[chosen(self.chance, *((key, WEIGHTS.get(key[0], 1)) for key in found))]


def begun(chance: Random, view: View) -> tuple[Datagram, ...]:
    """The capture's datagrams, of which the first request may ask for something else than is then agreed."""
    kept = view.capture.datagrams
    if not kept or chance.random() < 0.85:
        return kept
    meaning = dataclasses.replace(view.meaning, requested=odd_options(chance, view.meaning.requested))
    payload = spelled_request(chance, meaning)[: LONGEST_REQUEST + 2]
    return (dataclasses.replace(kept[0], payload=payload), *kept[1:])


def with_errors(chance: Random, view: View, kept: tuple[Datagram, ...]) -> tuple[Datagram, ...]:
    """An ERROR of one end, mostly of the other one, once or again, between what else passed; most early."""
    listed, is_sent = list(kept), chance.random() < 0.3
    error = view.dressed(is_sent, Packet("error", chance.choice((0, 1, 8)), b"x"))
    places = [chance.randrange(1, chosen(chance, (min(8, len(kept)), 2), (len(kept), 1)) + 1) for _ in range(2)]
    for at in sorted(places[: chosen(chance, (1, 1), (2, 2))], reverse=True):
        listed.insert(at, error)
    return tuple(listed)


def with_many_options(chance: Random, view: View, kept: tuple[Datagram, ...]) -> tuple[Datagram, ...]:
    """An OACK or a request with many options after the request."""
    payload, is_oack = number(6) + many_options(chance), chance.random() < 0.8
    if not is_oack:
        payload = number(1 if view.meaning.side == "get" else 2) + b"a\0octet\0" + payload[2:]
    return (kept[0], view.of_payload(is_oack == (view.end == "server"), payload), *kept[1:])


def with_great_size(chance: Random, view: View, kept: tuple[Datagram, ...]) -> tuple[Datagram, ...]:
    """A request for a size, and an OACK of one that is near the most that 65,535 blocks carry."""
    meaning, most = view.meaning, view.meaning.size * MOST_BLOCKS
    value = chance.choice((most - 1, most, most - view.meaning.size, most - view.meaning.size - 1))
    asked: Options = {**meaning.requested, b"tsize": value if meaning.side == "put" else 0}
    request = spelled_request(chance, dataclasses.replace(meaning, requested=asked))
    oack = number(6) + spelled_options(chance, {**meaning.agreed, b"tsize": value})
    asking = dataclasses.replace(kept[0], payload=request)
    return (asking, view.of_payload(view.end == "server", oack), *kept[1:])


class Mixed:
    """What has passed of a capture with datagrams near the limits of the rules between its own."""

    def __init__(self, chance: Random, view: View) -> None:
        self.chance, self.view, self.judge = chance, view, Judge(view.end, view.service)
        # whether what is put breaks no rule, as far as such is drawn
        self.is_lawful = chance.random() < 0.4
        self.listed: list[Datagram] = []

    def passes(self, datagram: Datagram) -> bool:
        """Adds it, and tells whether it breaks no rule."""
        self.listed.append(datagram)
        return self.judge.judged(datagram.of_version(self.view.version)) is None

    def put(self, count: int) -> bool:
        """Adds so many that are near the limits, or fewer if one of them breaks a rule, and tells whether none does."""
        aims = (Aim(self.chance, self.view, self.judge) for _ in range(count))
        return all(self.passes(aim.taken(self.is_lawful)) for aim in aims)

    def capture(self, *rest: Datagram) -> Capture:
        return dataclasses.replace(self.view.capture, datagrams=(*self.listed, *rest))


def aimed(chance: Random, view: View) -> Capture:
    """A capture with a few datagrams near the limits of the rules, between its own or in their place."""
    kept = begun(chance, view)
    if kept and chance.random() < 0.2:
        kept = with_errors(chance, view, kept)
    elif kept and chance.random() < 0.09:
        kept = chance.choice((with_many_options, with_many_options, with_great_size))(chance, view, kept)
    # the answer to the request is met seldom, and there is much to be wrong with it
    count = chosen(chance, (1, 4), (2, 3), (4, 2))
    places = [chance.randrange(chosen(chance, (len(kept), 2), (min(3, len(kept)), 1)) + 1) for _ in range(count)]
    mixed = Mixed(chance, view)
    for at, datagram in enumerate(kept):
        if not mixed.put(places.count(at)):
            return mixed.capture(*kept[at : at + chance.randrange(4)])
        is_replaced = at in places and chance.random() < 0.3
        if not is_replaced and not mixed.passes(datagram):
            return mixed.capture(*kept[at + 1 :])
    mixed.put(places.count(len(kept)))
    return mixed.capture()
