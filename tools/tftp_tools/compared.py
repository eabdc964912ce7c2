"""With what the rule that a datagram broke compared it, and where that stands in the capture."""
from __future__ import annotations

from collections.abc import Callable, Iterator
from typing import Optional

from .capture import Datagram, packet_of
from .history import History, Passed, before_error, block_of, content_of
from .malformed import explain_malformed
from .packets import Ack, Data, Error, Oack, Options, Request, count, number_of, words_of

FOUR = ("blksize", "timeout", "tsize", "windowsize")
# How many blocks a transfer has at most, and where numbers begin again.
MOST_BLOCKS, MOST_AGAIN = 65_535, 8_388_607
Lines = list[str]


def at(passed: Passed) -> str:
    return passed.datagram.place()


def inside(passed: Passed) -> str:
    """The same between brackets."""
    return passed.datagram.place().replace(" (", ", ").rstrip(")")


def blocks_to(front: int) -> str:
    """The blocks from 1 on, up to this one."""
    return f"blocks 1 to {front}" if front > 1 else "block 1"


def side(host: str, port: int) -> str:
    return f"port {port}" if host == "-" else f"{host} port {port}"


def shown(options: Options) -> str:
    return ", ".join(f"{name} {value}" for name, value in options) or "no options"


def foreign_port(history: History, it: Datagram, fault: str) -> Lines:
    lines = [f"Its port at the {history.capture.end} is {it.local}."]
    if history.local is not None:
        lines.append(f"The transfer's port there is {history.local}{by_first(history)}.")
    if not history.at_client() and history.peer:
        client = f"The client is at {side(*history.peer)} ({first_request(history)})"
        lines.append(f"{client}; this is with {side(*it.peer())}.")
    return lines


def by_first(history: History) -> str:
    """What fixed the port of the named end."""
    ours = (passed for passed in history.passed if passed.place == "main" and passed.datagram.local == history.local)
    first = next((passed for passed in ours if passed.datagram.goes_out()), None)
    return f", fixed by {at(first)}" if first else ""


def first_request(history: History) -> str:
    return inside(history.request) if history.request else "no request yet"


def wrong_port(history: History, it: Datagram, fault: str) -> Lines:
    service = history.capture.service
    if history.at_client() and isinstance(packet_of(it), Request):
        asked = f" of {history.asked}" if history.asked not in (None, "-") else ""
        return [f"It goes to {side(it.host, it.remote)}; requests go to the service port {service}{asked}."]
    if not it.goes_out():
        lines = [f"It comes to the service port {service}, where requests of the client alone may come."]
        return [*lines, *answered_from(history)]
    had = "passed" if history.is_between() else "come"
    lines = [f"It goes to {side(it.host, it.remote)}, from where nothing had {had}."]
    if history.at_client() and it.remote == service:
        lines.append(f"Port {service} is the service port: requests go there, and nothing else.")
    return [*lines, *other_end(history)]


def other_end(history: History) -> Lines:
    """Where the other end is, and by what that is known."""
    if not history.peer:
        return []
    if history.is_between():
        return [f"The server is at {side(*history.peer)}{gone_on_with(history)}."]
    fixed = first_in(history)
    return [f"The other end is at {side(*history.peer)}{f', fixed by {at(fixed)}' if fixed else ''}."]


def gone_on_with(history: History) -> str:
    """Between the ends, whether the client had gone on with the server."""
    ours = (passed for passed in history.passed if passed.place == "main" and passed.datagram.goes_out())
    first = next((passed for passed in ours if not isinstance(passed.packet, (Request, Error))), None)
    return f", with which the client went on in {at(first)}" if first else ""


def answered_from(history: History) -> Lines:
    """At the server, the port from which it had answered, to which the client has to go on."""
    ours = (passed for passed in history.passed if passed.place == "main" and passed.datagram.goes_out())
    first = next(ours, None)
    if first is None:
        return ["The server had not answered before it."]
    answered = f"The server had answered from port {first.datagram.local} in {at(first)}"
    return [f"{answered}: the client goes on with that one."]


def first_in(history: History) -> Optional[Passed]:
    return next((p for p in history.passed if p.place == "main" and not p.datagram.goes_out()), None)


def stray_answer(history: History, it: Datagram, fault: str) -> Lines:
    stray = next((p for p in history.passed if p.place == "stray" and p.datagram.peer() == it.peer()), None)
    lines = [f"It goes to {side(*it.peer())}, which is not the other end: only ERROR 5 may go there."]
    if stray:
        lines.append(f"From there came {at(stray)}: {stray.packet.told()}.")
    return [*lines, *other_end(history)]


def no_request(history: History, it: Datagram, fault: str) -> Lines:
    return ["No request had passed before it, so nothing is known of the transfer."]


def malformed(history: History, it: Datagram, fault: str) -> Lines:
    return explain_malformed(it.payload, fault)


def wrong_kind(history: History, it: Datagram, fault: str) -> Lines:
    kind = "read" if history.kind() == "get" else "write"
    sender, receiver = ("server", "client") if kind == "read" else ("client", "server")
    told = f"The transfer is a {kind} ({first_request(history)}): the {sender} sends DATA and the {receiver} ACKs"
    return [f"{told}, and an OACK is the server's."]


def after_error(history: History, it: Datagram, fault: str) -> Lines:
    error = history.error(it.way)
    if error is None:
        return []
    if history.is_between():
        passed = f"An ERROR of the {history.capture.sender(it)} had passed in {at(error)}: {error.packet.told()}."
        return [passed, "That one may pass again, and no other of the same end."]
    sent = f"Its sender had sent {at(error)}: {error.packet.told()}."
    return [sent, "After that it may send the same ERROR again alone."]


def request_changed(history: History, it: Datagram, fault: str) -> Lines:
    first, now = history.request, packet_of(it)
    if first is None or not isinstance(first.packet, Request) or not isinstance(now, Request):
        return []
    differing = [f"Its {what} was {before}, and is {after} now." for what, before, after in changed(first.packet, now)]
    return [f"The first request is {at(first)}.", *differing]


def changed(was: Request, now: Request) -> Iterator[tuple[str, str, str]]:
    """In what two requests differ, and how each has it."""
    for what, before, after in (
        ("kind", was.kind, now.kind), ("name", was.name, now.name), ("mode", was.mode, now.mode),
        ("options", shown(tuple(sorted(was.options))), shown(tuple(sorted(now.options)))),
    ):
        if before != after:
            yield what, before, after


def request_after_start(history: History, it: Datagram, fault: str) -> Lines:
    gone_on = (p for p in history.passed if p.place == "main" and isinstance(p.packet, (Ack, Data)))
    first = next((p for p in gone_on if p.datagram.goes_out()), None)
    if first is None:
        return []
    return [f"The client had gone on: {at(first)} is {first.packet.short()}.", elsewhere("client")]


def elsewhere(end: str) -> str:
    """What a rule about what an end sends takes for given."""
    told = f"That holds if the recording was made at the {end}: elsewhere its datagrams may be missing or come by late."
    return f"{told} Between the ends this rule is never broken."


def reply_changed(history: History, it: Datagram, fault: str) -> Lines:
    reply = history.reply
    return [f"The first answer is {at(reply)}: {reply.packet.short()}, so nothing was agreed."] if reply else []


def asked_and_agreed(history: History, it: Datagram) -> tuple[dict[str, str], dict[str, str], Lines]:
    packet = packet_of(it)
    agreed = packet.options if isinstance(packet, Oack) else ()
    lines = [f"Asked for ({first_request(history)}): {shown(history.options())}.", f"Agreed to here: {shown(agreed)}."]
    return dict(history.options()), dict(agreed), lines


def oack_empty(history: History, it: Datagram, fault: str) -> Lines:
    return asked_and_agreed(history, it)[2]


def not_requested(history: History, it: Datagram, fault: str) -> Lines:
    asked, agreed, lines = asked_and_agreed(history, it)
    return [*lines, f"Not asked for: {', '.join(name for name in agreed if name not in asked)}."]


def outside_profile(history: History, it: Datagram, fault: str) -> Lines:
    _, agreed, lines = asked_and_agreed(history, it)
    return [*lines, f"None of the four: {', '.join(name for name in agreed if name not in FOUR)}."]


def option_value(history: History, it: Datagram, fault: str) -> Lines:
    asked, agreed, lines = asked_and_agreed(history, it)
    for name, value in agreed.items():
        if name in FOUR and name in asked and (why := value_fault(name, asked[name], value, history.kind())):
            lines.append(f"{name}: asked {asked[name]}, agreed {value}: {why}.")
    return lines


RANGES = {"blksize": (8, 65_464), "timeout": (1, 255), "tsize": (0, 2**64 - 1), "windowsize": (1, 65_535)}


def value_fault(name: str, asked: str, agreed: str, kind: str) -> str:
    """Why a value may not answer the one that was asked for, or nothing."""
    low, high = RANGES[name]
    first, second = number_of(asked), number_of(agreed)
    for what, number in (("asked for", first), ("agreed", second)):
        if number is None or not low <= number <= high:
            return f"what is {what} is no number from {low} to {high}"
    assert first is not None and second is not None
    if name in ("blksize", "windowsize") and second > first:
        return "it is larger than what was asked for"
    if name == "timeout" and second != first:
        return "it is another one than what was asked for"
    if name == "tsize" and kind == "put" and second != first:
        return "it is another size than the client's"
    return ""


def oack_changed(history: History, it: Datagram, fault: str) -> Lines:
    packet = packet_of(it)
    now = shown(packet.options) if isinstance(packet, Oack) else ""
    return [f"The first OACK is {at(history.oack)}: {shown(history.agreed())}; now {now}."] if history.oack else []


def oack_after_start(history: History, it: Datagram, fault: str) -> Lines:
    sent = history.highest("DATA", "out")
    return [f"The server had sent {at(sent)}: {sent.packet.short()}."] if sent else []


def not_started(history: History, it: Datagram, fault: str) -> Lines:
    if history.is_between():
        return not_started_between(history, it)
    if history.kind() == "get":
        oack = f" ({inside(history.oack)})" if history.oack else ""
        told = f"The server's OACK{oack} is answered by ACK 0 before the first block"
        return [f"{told}, and no ACK 0 stands before this."]
    return ["The server answers the request of a write by ACK 0 or an OACK, and neither stands before this block."]


def not_started_between(history: History, it: Datagram) -> Lines:
    if history.kind() == "get":
        oack = f" ({inside(history.oack)})" if history.oack else ""
        wanted, missing = f"The server's OACK{oack} is answered by ACK 0 before the first block", "no ACK 0"
    else:
        wanted, missing = "The server answers the request of a write by ACK 0 or an OACK", "neither"
    error = history.error(it.way)
    before = f" before the {history.capture.sender(it)}'s ERROR in {at(error)}" if error else " before this block"
    return [f"{wanted}, and {missing} had passed{before}."]


def block_zero(history: History, it: Datagram, fault: str) -> Lines:
    highest = max(history.blocks, default=0)
    if highest == 0:
        return ["No block had passed before it."]
    return [f"The highest block before it is {highest} in {at(history.blocks[highest])}."]


def beyond(history: History, it: Datagram, fault: str) -> Lines:
    packet = packet_of(it)
    if isinstance(packet, Data):
        whole = f"Block {packet.block} is a whole block of {count(history.block_size(), 'byte')}"
        return [f"{whole}, so another must follow it."]
    _, agreed, lines = asked_and_agreed(history, it)
    size, block = number_of(agreed.get("tsize", "0")) or 0, number_of(agreed.get("blksize", "512")) or 512
    told = f"{count(size, 'byte')} in blocks of {block} are {size // block + 1:,} blocks"
    if history.capture.rollover is not None:
        return [*lines, f"{told}; {MOST_AGAIN:,} are judged at most."]
    return [*lines, f"{told}; there are numbers for {MOST_BLOCKS:,}."]


def terms(history: History) -> str:
    is_agreed = history.oack and history.number("blksize")
    where = f" ({inside(history.oack)})" if history.oack and is_agreed else ", as no OACK agreed to another"
    return f"The block size is {history.block_size()}{where}."


def block_length(history: History, it: Datagram, fault: str) -> Lines:
    packet, lines = packet_of(it), [terms(history)]
    if not isinstance(packet, Data):
        return lines
    length, size, last = len(packet.content), history.block_size(), history.last_block()
    if length > size:
        return [*lines, f"This block has {count(length, 'byte')}, which is more."]
    if last is None:
        highest = max(history.blocks, default=0)
        told = f"This block has {count(length, 'byte')}, so it would be the last one"
        return [*lines, f"{told}, but block {highest} has passed in {at(history.blocks[highest])}."]
    lines.append(f"The last block is {last}{last_from(history, last)}.")
    if packet.block > last:
        return [*lines, f"This is block {packet.block}, after the last one."]
    if packet.block < last:
        return [*lines, f"This is block {packet.block}, before the last one, and has {count(length, 'byte')} only."]
    agreed = history.size()
    should = f"{agreed % size}" if agreed is not None else f"fewer than {size}"
    return [*lines, f"It has {count(length, 'byte')} and should have {should}."]


def last_from(history: History, last: int) -> str:
    """How the last block is known."""
    size = history.size()
    if size is not None and history.oack:
        return f", by the size of {count(size, 'byte')} that was agreed ({inside(history.oack)})"
    if last in history.blocks:
        short = history.blocks[last]
        return f", since it has {count(len(content_of(short)), 'byte')} in {at(short)}"
    return ""


def window_overrun(history: History, it: Datagram, fault: str) -> Lines:
    used = before_error(history, it.way) if history.is_between() else history
    acked, window = used.highest("ACK", history.receiver_way()), history.window()
    block = block_of(Passed(it, packet_of(it), "main"))
    base = block_of(acked) if acked else 0
    start = f"{cap(at(acked))} acknowledged block {base}" if acked else "No block was acknowledged before it"
    may = "pass" if history.is_between() else "come"
    agreed = f" ({inside(history.oack)})" if history.oack and history.number("windowsize") else ", as none was agreed"
    over = block - base - window
    far = "one too far" if over == 1 else f"{over} too far"
    most = f"The window is {count(window, 'block')}{agreed}, so block {base + window} is the last that may {may}."
    return [f"{start}.", most, f"Block {block} is {far}.", *not_counted(history, it)]


def cap(text: str) -> str:
    return text[:1].upper() + text[1:]


def not_counted(history: History, it: Datagram) -> Lines:
    """What went out after the other end's ERROR counts for nothing in the rules that read what went out; between the
    ends, what passed after the ERROR of the end that sent this."""
    if not history.is_between():
        error = history.error("in")
        return [f"The other end's ERROR came in {at(error)}: what went out after it is not counted."] if error else []
    error, sender = history.error(it.way), history.capture.sender(it)
    other = "server" if sender == "client" else "client"
    told = f"the {sender} sends nothing after it, so what passed from the {other} after it is not counted"
    return [f"The {sender}'s ERROR had passed in {at(error)}: {told}."] if error else []


def block_skipped(history: History, it: Datagram, fault: str) -> Lines:
    top, block = history.highest("DATA", "out"), block_of(Passed(it, packet_of(it), "main"))
    sent = f"The highest block sent before it is {block_of(top)} in {at(top)}" if top else "No block was sent before it"
    next_one = f"The next one is {(block_of(top) if top else 0) + 1}, and this is block {block}."
    return [f"{sent}.", next_one, elsewhere(history.capture.end)]


def gone_back(history: History, it: Datagram, fault: str) -> Lines:
    top = history.highest("DATA", "out")
    if top is None:
        return []
    agreed = "no window was agreed" if not history.number("windowsize") else "the agreed window is 1"
    highest = f"The highest block sent before it is {block_of(top)} in {at(top)}."
    return [highest, f"This is lock step: {agreed}.", elsewhere(history.capture.end)]


def block_changed(history: History, it: Datagram, fault: str) -> Lines:
    packet = packet_of(it)
    before = history.blocks.get(packet.block) if isinstance(packet, Data) else None
    if before is None or not isinstance(packet, Data):
        return []
    was, now = content_of(before), packet.content
    lengths = f"with {count(len(was), 'byte')}; now it has {count(len(now), 'byte')}"
    lines = [f"Block {packet.block} had passed in {at(before)}, {lengths}."]
    return [*lines, differ_from(was, now, "then", "now")]


def first_difference(one: bytes, other: bytes) -> int:
    return next((at for at, pair in enumerate(zip(one, other)) if pair[0] != pair[1]), min(len(one), len(other)))


def differ_from(one: bytes, other: bytes, there: str, here: str) -> str:
    """From where on the bytes of two blocks differ, and what stands there in each."""
    place = first_difference(one, other)
    first, second = words_of(one[place : place + 12]), words_of(other[place : place + 12])
    return f"They differ from byte {place + 1} of the block on: {first} {there}, {second} {here}."


def front_told(history: History, block: int, came: str) -> Lines:
    """Which blocks had passed where this one is acknowledged."""
    missing, highest = history.front + 1, max(history.blocks, default=0)
    later = f", though block {highest} had" if highest > history.front else ""
    lines = [f"{cap(blocks_to(history.front))} had {came}, block {missing} had not{later}."]
    lines = lines if history.front else [f"Block 1 had not {came}{later}."]
    return [*lines, f"Block {block} is acknowledged."]


def ack_ahead(history: History, it: Datagram, fault: str) -> Lines:
    block = block_of(Passed(it, packet_of(it), "main"))
    if history.is_between():
        used = before_error(history, it.way)
        error = history.error("in" if it.goes_out() else "out")
        lines = [*front_told(used, block, "passed"), *not_counted(history, it)]
        return [*lines, *answers_error(error, block == used.front + 1)]
    if history.is_receiver():
        return [*front_told(history, block, "come in"), *answers_error(history.error("in"), block == history.front + 1)]
    top = history.highest("DATA", "out")
    sent = f"The highest block sent before it is {block_of(top)} in {at(top)}" if top else "No block was sent before it"
    is_next = block == (block_of(top) if top else 0) + 1
    return [f"{sent}.", *not_counted(history, it), *answers_error(history.error("out"), is_next)]


def answers_error(error: Optional[Passed], is_next: bool) -> Lines:
    """An ACK of the block that was awaited, after an ERROR of the other side, is an old client's answer to that."""
    if error is None or not is_next:
        return []
    return [f"It follows the ERROR in {at(error)}, which is not acknowledged; this does no harm."]


def ack_zero(history: History, it: Datagram, fault: str) -> Lines:
    late = not_counted(history, it) if history.is_between() else []
    if history.kind() == "get":
        told = "The transfer is a read, and no OACK had passed, so there was nothing that ACK 0 could answer."
        return [told, *late]
    oack, may = f" ({inside(history.oack)})" if history.oack else "", "pass" if history.is_between() else "come"
    told = f"The server answered by an OACK{oack}, so ACK 0 may {may} only once a block has, and none had."
    return [told, *late]


COMPARED: dict[int, Callable[[History, Datagram, str], Lines]] = {
    1: foreign_port, 2: wrong_port, 3: stray_answer, 4: no_request, 5: malformed, 6: wrong_kind, 7: after_error,
    8: request_changed, 9: request_after_start, 10: reply_changed, 11: oack_empty, 12: oack_empty, 13: not_requested,
    14: outside_profile, 15: option_value, 16: oack_changed, 17: oack_after_start, 18: not_started, 19: block_zero,
    20: beyond, 21: block_length, 22: window_overrun, 23: block_skipped, 24: gone_back, 25: block_changed,
    26: ack_ahead, 27: ack_zero,
}
