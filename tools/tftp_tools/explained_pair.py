"""What tftp-match says of two captures, in words: which datagram is unmatched, what it says and why; or what was lost
and repeated on the way."""
from __future__ import annotations

from collections import Counter
from typing import Optional

from .capture import Capture, Datagram
from .compared import Lines, changed, differ_from, shown
from .explained import Told, explain, explain_refused, what, where
from .history import block_of
from .merged import CHANGED, Event, Merged, events_at, likeness, merged_of
from .packets import Ack, Data, Oack, Packet, Request, count
from .pairs import OTHER, Pair
from .recording import ENDS, EndName

SHOWN, MOST_BYTES = 6, 4
BROUGHT = "each datagram of the transfer that came in at one end says what the other end had sent before."
CHANGES = ("something between the ends that changes what passes, as a proxy or bad memory; captures of two transfers,"
           " of which one carried another file; or a wrong pair of files")
NOT_SENT = ("captures of two transfers; a capture of the sender that began late, ended early or lacks what its recorder"
            " dropped; or something between the ends that sends in the other end's name")
WRONG_END = "the first text is to be the client's and the second the server's; the line `end` of each says whose it is."


def sent_by(capture: Capture, end: EndName) -> list[Event]:
    """What this end sent of the transfer."""
    return [it for it in events_at(end, capture) if it.goes_out() and it.is_main()]


def bytes_told(was: bytes, now: bytes, sender: str) -> Lines:
    """The bytes in which two blocks differ: where the first is, and each if they are few."""
    lines = [differ_from(was, now, f"at the {sender}", "here")]
    places = [at for at, pair in enumerate(zip(was, now)) if pair[0] != pair[1]]
    if len(was) != len(now) or not places:
        return lines
    told = count(len(places), "byte")
    if len(places) > MOST_BYTES:
        return [*lines, f"{told} of the {len(was):,} differ, the last is byte {places[-1] + 1}."]
    each = (f"byte {at + 1} is 0x{was[at]:02x} at the {sender} and 0x{now[at]:02x} here" for at in places)
    return [*lines, f"{told} of the {len(was):,} differ{'s' if len(places) == 1 else ''}: {', '.join(each)}."]


def differing(sent: Event, now: Packet) -> Lines:
    """In what a datagram that came in differs from the one that was sent."""
    was, place, sender = sent.passed.packet, sent.passed.datagram.place(), sent.end
    begins = f"The {sender} sent the like in its {place}"
    if isinstance(was, Data) and isinstance(now, Data):
        lengths = f"{count(len(was.content), 'byte')}; here it has {count(len(now.content), 'byte')}"
        told = f"The {sender} sent block {was.block} in its {place}, with {lengths}."
        return [told, *bytes_told(was.content, now.content, sender)]
    if isinstance(was, Request) and isinstance(now, Request):
        ways = (f"Its {name} is {there} there, and {here} here." for name, there, here in changed(was, now))
        return [f"{begins}.", *ways]
    if isinstance(was, Oack) and isinstance(now, Oack):
        return [f"{begins}: it agrees to {shown(was.options)} there, and to {shown(now.options)} here."]
    return [f"{begins}: {was.told()} there, and {now.told()} here."]


def never_sent(it: Datagram, packet: Packet, sent: list[Event], sender: EndName) -> Lines:
    """That the other end sent nothing of the kind, and what it did send."""
    some = count(len(sent), "datagram")
    lines = [f"The {sender} never sent it: it sent {some} of the transfer, and none that says this."]
    same = [event for event in sent if type(event.passed.packet) is type(packet)]
    if isinstance(packet, (Data, Ack)) and same:
        top = max(same, key=lambda event: block_of(event.passed))
        kind = "DATA" if isinstance(packet, Data) else "ACK"
        lines.append(f"The highest {kind} that it sent is {block_of(top.passed)} in its {top.passed.datagram.place()}.")
    return lines


class Explaining:
    """A pair, and what is told of each end's unmatched datagram."""

    def __init__(self, pair: Pair) -> None:
        self.pair, self.captures, self.merged = pair, pair.captures(), merged_of(pair)
        self.sent = {end: sent_by(self.captures[end], end) for end in ENDS}

    def unmatched(self, end: EndName) -> Optional[Event]:
        number = self.pair.unmatched()[end]
        events = (it for it in self.merged.events if it.end == end)
        return next((it for it in events if it.number() == number), None)

    def is_refused(self, event: Event) -> bool:
        refused = self.pair.verdicts[event.end].refused()
        return refused is not None and refused[0] == event.number()

    def sending(self, event: Event) -> Optional[Event]:
        """Where the other end sent what came in here."""
        return next((it for it in self.sent[OTHER[event.end]] if it.message() == event.message()), None)

    def alike(self, event: Event) -> Optional[Event]:
        """What the other end sent that has other bytes; first what came nowhere else."""
        merged = self.merged
        place = merged.events.index(event)
        if merged.fate(place) == CHANGED:
            return merged.events[merged.other[place]]
        packet = event.passed.packet
        same = (it for it in self.sent[OTHER[event.end]] if likeness(it.passed.packet) == likeness(packet) is not None)
        return next(same, None)

    def why(self, event: Event) -> Told:
        sending, packet, other = self.sending(event), event.passed.packet, OTHER[event.end]
        if sending is not None:
            return [("Why", line) for line in self.waits(sending)]
        alike = self.alike(event)
        if alike is not None:
            lines, usually = differing(alike, packet), CHANGES
        else:
            lines, usually = never_sent(event.passed.datagram, packet, self.sent[other], other), NOT_SENT
        return [*(("Why", line) for line in lines), ("Usually", f"{usually}.")]

    def waits(self, sending: Event) -> Lines:
        """Behind what the datagram stands by which it was sent."""
        told = f"It waits: the {sending.end} sent it in its {sending.passed.datagram.place()}"
        before = self.unmatched(sending.end)
        if before is None:
            return [f"{told}, which is not known to be before it."]
        how = "is refused" if self.is_refused(before) else "is unmatched itself"
        if before.number() == sending.number():
            return [f"{told}, which {how}."]
        return [f"{told}, behind datagram {before.number()} there, which {how}."]

    def told(self, event: Event) -> Told:
        """What is said of an unmatched datagram."""
        end, datagram, capture = event.end, event.passed.datagram, self.captures[event.end]
        found = where(capture, datagram).replace("the text", f"the {end}'s text", 1)
        told = [("At", f"the {end}, its datagram {datagram.number}."), ("Where", f"{found}.")]
        told.append(("What", what(capture, datagram)))
        if self.is_refused(event):
            by_rules = explain_refused(capture, self.pair.verdicts[end])
            return [*told, *(pair for pair in by_rules if pair[0] not in ("Where", "What"))]
        return [*told, *self.why(event)]

    def groups(self) -> list[Told]:
        """What is said of the unmatched datagrams, first of what does not wait for another."""
        found = [event for event in map(self.unmatched, ENDS) if event is not None]
        found.sort(key=lambda event: not self.is_refused(event) and self.sending(event) is not None)
        return [self.told(event) for event in found]


def named(numbers: Counter[tuple[EndName, str]]) -> str:
    """Some of the datagrams that were lost or repeated, and how often."""
    each = [f"{what} of the {end}{f' {times} times' if times > 1 else ''}" for (end, what), times in numbers.items()]
    more = f" and {len(each) - SHOWN:,} others" if len(each) > SHOWN else ""
    return f"{', '.join(each[:SHOWN])}{more}"


def differences(explaining: Explaining) -> tuple[Counter[tuple[EndName, str]], Counter[tuple[EndName, str]]]:
    """Of each message how often more it was sent than it came, and how often more it came."""
    lost: Counter[tuple[EndName, str]] = Counter()
    repeated: Counter[tuple[EndName, str]] = Counter()
    for end in ENDS:
        events = [it for it in explaining.merged.events if it.is_main()]
        short = {it.message(): it.passed.packet.short() for it in events}
        sent = Counter(it.message() for it in explaining.sent[end])
        came = Counter(it.message() for it in events if it.end == OTHER[end] and not it.goes_out())
        for message in {**sent, **came}:
            more = sent[message] - came[message]
            (lost if more > 0 else repeated)[end, short[message]] += abs(more)
    return +lost, +repeated


def network(explaining: Explaining) -> Told:
    """What the network lost and repeated, where the program tells it."""
    counts = explaining.pair.counts()
    if counts is None:
        return []
    told: Told = []
    for heading, number, which in zip(("Lost", "Repeated"), counts, differences(explaining)):
        words = f"at least {count(number, 'datagram')}" if number else "none that is seen"
        told.append((heading, f"{words}{f': {named(which)}' if sum(which.values()) == number > 0 else ''}."))
    return told


def clocks(merged: Merged) -> Told:
    return [("Clocks", f"{merged.clock.told()}.")] if merged.clock else []


def explained_pair(pair: Pair) -> list[Told]:
    """What there is to say of a pair, in groups."""
    told: Told = [(end.capitalize(), pair.verdicts[end].line) for end in ENDS]
    faults = [end for end in ENDS if pair.verdicts[end].fault()]
    if faults:
        captures = pair.captures()
        return [told, *(explain(pair.verdicts[end], pair.texts[end], captures[end]) for end in faults)]
    if pair.line.startswith("fault "):
        words = WRONG_END if "WrongEnd" in pair.line else f"{pair.line}; nothing is known of the two together."
        return [[*told, ("Why", words)]]
    explaining = Explaining(pair)
    if pair.is_matched():
        return [[*told, ("Both", BROUGHT), *network(explaining), *clocks(explaining.merged)]]
    return [[*told, *clocks(explaining.merged)], *explaining.groups()]
