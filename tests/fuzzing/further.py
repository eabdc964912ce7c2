"""One more datagram or a few after those of a lawful transfer, and the rule that the last one breaks, if it breaks one.

Each rule is asked only where the ends tell for certain: the answer to the request has passed, and the packet is one of
this transfer, or has one thing wrong.
"""
from __future__ import annotations

import dataclasses
from collections.abc import Callable, Iterator
from random import Random
from typing import Optional, Union

from fuzzing.ends import End, Kind, Packet
from fuzzing.meanings import chosen, spelled_options, spelled_request
from fuzzing.views import HOSTS, STRAY_REQUESTS, STRAYS, Datagram, Passed, View
from normal import KNOWN, Meaning, Mode, Options, Side, number
from refusals import Rule

# A rule, or rule 5 with the packet's fault as it is printed.
Broken = Union[Rule, str]
# Datagrams, and the rule that the last one breaks or None.
More = tuple[list[Datagram], Optional[Broken]]
Way = Callable[[Random, View, Passed], More]
OTHER_MODE: dict[Mode, Mode] = {"octet": "netascii", "netascii": "octet"}
OTHER_SIDE: dict[Side, Side] = {"get": "put", "put": "get"}


def may_send_kind(meaning: Meaning, is_client: bool, kind: Kind) -> bool:
    """Whether a client, or a server, sends this kind of packet at all."""
    is_read = meaning.side == "get"
    of_client = {"request", "error", "ack" if is_read else "data"}
    return kind in (of_client if is_client else {"oack", "error", "data" if is_read else "ack"})


def broken_by_sending(passed: Passed, packet: Packet) -> Rule | None:
    """The rule that this end breaks by sending a packet of the transfer."""
    end, kind, meaning = passed.end, packet.kind, passed.meaning
    if not may_send_kind(meaning, end.is_client, kind):
        return Rule.WRONG_KIND
    if end.may_send(packet):
        return None
    if end.told:
        return Rule.AFTER_ERROR
    if kind == "oack":
        return Rule.OACK_AFTER_START if meaning.agreed else Rule.REPLY_CHANGED
    if kind == "ack":
        return Rule.ACK_ZERO if packet.number == 0 else Rule.ACK_AHEAD
    if kind == "request":
        return Rule.REQUEST_AFTER_START
    if not end.is_started():
        return Rule.NOT_STARTED
    if packet.number > max(end.acknowledged) + end.window:
        return Rule.WINDOW_OVERRUN
    return Rule.BLOCK_SKIPPED if packet.number > end.top + 1 else Rule.GONE_BACK


def may_come_started(passed: Passed) -> bool:
    """Whether the other end may have been started to send DATA, by what this one had sent."""
    return passed.meaning.side == "put" or not passed.meaning.agreed or "ack" in passed.before.sent


def broken_by_coming(passed: Passed, packet: Packet) -> Rule | None:
    """The rule that the other end breaks where a packet of the transfer comes, whatever that end had taken."""
    end, kind, meaning, before = passed.end, packet.kind, passed.meaning, passed.before
    is_read = meaning.side == "get"
    if not may_send_kind(meaning, not end.is_client, kind):
        return Rule.WRONG_KIND
    if kind == "error":
        return Rule.AFTER_ERROR if passed.heard not in (None, packet) else None
    if kind == "oack":
        return None if meaning.agreed else Rule.REPLY_CHANGED
    if kind == "data":
        if not may_come_started(passed):
            return Rule.NOT_STARTED
        return Rule.WINDOW_OVERRUN if packet.number > before.last_ack + end.window else None
    if kind == "ack" and packet.number > before.top:
        return Rule.ACK_AHEAD
    if packet == Packet("ack", 0):
        is_lawful = bool(meaning.agreed) if is_read else not meaning.agreed or "data" in before.sent
        return None if is_lawful else Rule.ACK_ZERO
    return None


def packet_of(chance: Random, passed: Passed) -> Packet:
    """Any packet of the transfer."""
    end = passed.end
    near = (end.top, end.top + 1, end.top + 2, end.front, end.front + 1, end.last_ack + end.window + 1, 1, end.blocks)
    block = min(max(1, chance.choice(near)), end.blocks)
    errors = [error for error in (end.told, passed.heard) if error]
    errors += [Packet("error", error.number, error.message + b"y") for error in errors]
    errors += [Packet("error", 3), Packet("error", 0, b"x")]
    return chosen(
        chance, (Packet("request"), 2), (Packet("oack"), 2), (Packet("data", block), 5), (Packet("ack", block), 4),
        (Packet("ack", end.blocks), 2), (Packet("ack", 0), 2), (chance.choice(errors), 2),
    )


def of_transfer(chance: Random, view: View, passed: Passed) -> More:
    """A packet of the transfer, which goes out or comes in."""
    packet, is_sent = packet_of(chance, passed), chance.random() < 0.5
    if chance.random() < 0.9 and not may_send_kind(view.meaning, passed.end.is_client == is_sent, packet.kind):
        is_sent = not is_sent
    broken = (broken_by_sending if is_sent else broken_by_coming)(passed, packet)
    if broken is None:
        passed.add(is_sent, packet)
    return [view.dressed(is_sent, packet)], broken


def after_an_error(chance: Random, view: View, passed: Passed) -> More:
    """The other end's ERROR, some of what this end sends all the same, and what comes late, or can't have been sent."""
    end = passed.end
    listed: list[Datagram] = []

    def put(is_sent: bool, packet: Packet) -> None:
        passed.add(is_sent, packet)
        listed.append(view.dressed(is_sent, packet))

    if not passed.heard:
        put(False, Packet("error", chance.choice((0, 1, 8)), b"x"))
    for _ in range(chance.randrange(4)):
        is_sender = end.is_sender
        own = Packet("data", end.top + 1) if is_sender else Packet("ack", chance.randint(end.last_ack, end.front))
        if end.may_send(own):
            put(True, own)
    most = min(end.blocks, passed.before.last_ack + end.window + 2)
    packet = Packet("ack", chance.randint(0, end.top)) if end.is_sender else Packet("data", chance.randint(1, most))
    broken = broken_by_coming(passed, packet)
    last = view.dressed(False, packet)
    if broken is None:
        passed.add(False, packet)
    return [*listed, last], broken


def after_own_error(passed: Passed, is_sent: bool, broken: Rule) -> Rule:
    return Rule.AFTER_ERROR if is_sent and passed.end.told else broken


def malformed(chance: Random, view: View, passed: Passed) -> More:
    """A payload that is no packet, at the ports of this transfer."""
    payload, said = chance.choice([stray for stray in STRAYS + STRAY_REQUESTS if stray[1].startswith("malformed")])
    is_request = payload[:2] in (b"\0\1", b"\0\2")
    is_sent = view.end == "client" if is_request else chance.random() < 0.5
    return [view.of_payload(is_sent, payload, said)], said.replace("malformed", str(Rule.MALFORMED))


def another_request(chance: Random, view: View, passed: Passed) -> More:
    """A request that is not the first one."""
    meaning = view.meaning
    options: Options = {**meaning.requested, b"timeout": 9 if meaning.requested.get(b"timeout") != 9 else 8}
    other = chance.choice((
        dataclasses.replace(meaning, name=meaning.name + b"x"),
        dataclasses.replace(meaning, mode=OTHER_MODE[meaning.mode]),
        dataclasses.replace(meaning, side=OTHER_SIDE[meaning.side]),
        dataclasses.replace(meaning, requested=options),
    ))
    is_sent = view.end == "client"
    broken = after_own_error(passed, is_sent, Rule.REQUEST_CHANGED)
    return [view.of_payload(is_sent, spelled_request(chance, other))], broken


def wrong_blocks(chance: Random, view: View, passed: Passed) -> Iterator[tuple[int, bytes, Rule]]:
    """DATA with something wrong: a block's number, its bytes, and the rule that it breaks where DATA may pass."""
    end, meaning = passed.end, view.meaning
    size, window = meaning.size, end.window
    high = end.top if end.is_sender else max(end.held, default=0)
    is_told = meaning.mode == "octet" and b"tsize" in meaning.agreed
    is_last_known = is_told or end.blocks <= high
    past = (max(end.acknowledged) if end.is_sender else passed.before.last_ack) + window + chance.choice((1, 1, 2, 300))
    yield 0, chance.randbytes(chance.choice((size, 0, size + 1))), Rule.BLOCK_ZERO
    yield chance.randint(1, min(high + window + 3, 65_000)), bytes(size + chance.choice((1, 1, 9))), Rule.BLOCK_LENGTH
    if past < 65_535:
        is_too_long = is_last_known and past >= end.blocks
        yield past, chance.randbytes(size), Rule.BLOCK_LENGTH if is_too_long else Rule.WINDOW_OVERRUN
    if is_told:
        rest = len(view.wire) % size
        other = [length for length in (0, 0, rest - 1, rest + 1, size) if 0 <= length <= size and length != rest]
        yield end.blocks, chance.randbytes(chance.choice(other)), Rule.BLOCK_LENGTH
    if is_last_known:
        behind = end.blocks + chance.choice((1, 2, 300))
        yield behind, chance.randbytes(chance.choice((size, size - 1, 0))), Rule.BLOCK_LENGTH
    elif end.is_sender and end.top + 2 <= max(end.acknowledged) + window < 65_535:
        yield chance.randint(end.top + 2, max(end.acknowledged) + window), chance.randbytes(size), Rule.BLOCK_SKIPPED
    if high:
        yield from wrong_bytes(chance, view, end, high)


def wrong_bytes(chance: Random, view: View, end: End, high: int) -> Iterator[tuple[int, bytes, Rule]]:
    """The same of a block that has passed, or is not the highest: fewer bytes, or others."""
    block = chance.randint(1, high)
    content = view.spelling.payload(Packet("data", block))[4:]
    if block < end.blocks:
        yield block, content[: chance.randrange(len(content))], Rule.BLOCK_LENGTH
    if content and (end.is_sender or block in end.held):
        is_back = end.is_sender and end.window == 1 and block < end.top
        at = chance.randrange(len(content))
        other = content[:at] + bytes([content[at] ^ 1]) + content[at + 1 :]
        yield block, other, Rule.GONE_BACK if is_back else Rule.BLOCK_CHANGED


def another_block(chance: Random, view: View, passed: Passed) -> More:
    """A DATA with something wrong."""
    is_sent = passed.end.is_sender
    is_started = passed.end.is_started() if is_sent else may_come_started(passed)
    block, content, broken = chance.choice(list(wrong_blocks(chance, view, passed)))
    broken = after_own_error(passed, is_sent, broken if is_started else Rule.NOT_STARTED)
    return [view.of_payload(is_sent, number(3) + number(block) + content)], broken


def another_oack(chance: Random, view: View, passed: Passed) -> More:
    """An OACK that is not the one before; there is one."""
    is_sent, agreed = view.end == "server", dict(view.meaning.agreed)
    name = chance.choice(sorted(agreed))
    if chance.random() < 0.5:
        del agreed[name]
    else:
        agreed[name] = agreed[name] - 1 if agreed[name] > KNOWN[name][0] else agreed[name] + 1
    broken = after_own_error(passed, is_sent, Rule.OACK_CHANGED)
    return [view.of_payload(is_sent, number(6) + spelled_options(chance, agreed))], broken


def wrong_ports(chance: Random, view: View, passed: Passed) -> More:
    """A datagram that is not between the ports of this transfer."""
    datagram = view.of_payload(chance.random() < 0.5, *chance.choice(STRAYS))
    host, port = datagram.peer
    if chance.random() < 0.5:
        ports = {datagram.local, view.service, view.server[1], view.client[1]}
        other = next(number for number in range(chance.randrange(1, 65_000), 65_536) if number not in ports)
        return [dataclasses.replace(datagram, local=other)], Rule.FOREIGN_PORT
    ports = {peer.peer[1] for peer in view.capture.datagrams} | {view.service}
    other = next(number for number in range(chance.randrange(1, 60_000), 65_536) if number not in ports)
    # an unknown peer's datagram that comes in is a stray
    return [dataclasses.replace(datagram, peer=(host, other))], Rule.WRONG_PORT if datagram.goes_out else None


def answer_of_stray(chance: Random, view: View, passed: Passed) -> More:
    """What goes out to a stray's peer and is no ERROR 5, or what goes to another host at a stray's port."""
    answers = [(payload, said) for payload, said in STRAYS if said != "ERROR 5"]
    answer, peer = view.of_payload(True, *chance.choice(answers)), chance.choice(passed.noted)
    known = {*passed.noted, view.server, view.client}
    others = [(host, peer[1]) for host in HOSTS if (host, peer[1]) not in known]
    if view.version == 2 and others and chance.random() < 0.5:
        error = view.of_payload(True, b"\0\5\0\5\0", "ERROR 5")
        return [dataclasses.replace(chance.choice((answer, error)), peer=chance.choice(others))], Rule.WRONG_PORT
    return [dataclasses.replace(answer, peer=peer)], Rule.STRAY_ANSWER


def first_oack(chance: Random, view: View, passed: Passed) -> More:
    """The first answer is an OACK that may not be agreed to."""
    requested, is_sent = view.meaning.requested, view.end == "server"
    numbers = {name: value for name, value in requested.items() if isinstance(value, int)}
    unknown = [name for name in requested if name not in KNOWN and name != b"multicast"]
    texts = [name for name in requested if name in KNOWN and name not in numbers]
    missing = [name for name in KNOWN if name not in requested]
    ways: list[tuple[Options, Rule]] = [({}, Rule.OACK_EMPTY), ({b"multicast": b"", **numbers}, Rule.MULTICAST_AGREED)]
    if missing:
        ways.append(({**numbers, chance.choice(missing): 8}, Rule.OPTION_NOT_REQUESTED))
    ways += [({**numbers, name: requested[name]}, Rule.OPTION_OUTSIDE_PROFILE) for name in unknown]
    ways += [({name: 8}, Rule.OPTION_VALUE) for name in texts]
    ways += [({name: value + 1}, Rule.OPTION_VALUE) for name, value in numbers.items() if name != b"tsize"]
    ways += [({name: b"x"}, Rule.OPTION_VALUE) for name in numbers]
    if b"tsize" in numbers and view.meaning.mode == "octet" and view.meaning.side == "get":
        ways.append(({b"tsize": 512 * 65_535}, Rule.BEYOND_BLOCK_65535))
    options, broken = chance.choice(ways)
    broken = after_own_error(passed, is_sent, broken)
    return [view.of_payload(is_sent, number(6) + spelled_options(chance, options))], broken


def ways(view: View, passed: Passed) -> Iterator[tuple[Way, int]]:
    """What may be tried after what has passed, and how often."""
    if not passed.has_reply():
        # an answer that is not the first datagram that passes in its way comes from where that one came
        if "request" in passed.end.sent | passed.end.taken:
            yield from ((first_oack, 3), (another_request, 1))
        return
    yield from ((of_transfer, 12), (after_an_error, 4), (malformed, 1), (another_request, 1))
    yield from ((another_block, 6), (wrong_ports, 2))
    if view.meaning.agreed:
        yield another_oack, 2
    if passed.noted:
        yield answer_of_stray, 3


def further(chance: Random, view: View, count: int) -> tuple[list[Datagram], Broken | None, Passed] | None:
    """Datagrams after the first so many, the rule that the last one breaks or None, and what has passed; or nothing."""
    passed = view.passed(count)
    tried = list(ways(view, passed))
    if not tried:
        return None
    datagrams, broken = chosen(chance, *tried)(chance, view, passed)
    return datagrams, broken, passed
