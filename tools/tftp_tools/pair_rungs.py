"""The rows of a ladder of both ends: what is said of each datagram and in which colour, and which runs are folded."""
from __future__ import annotations

from collections.abc import Iterator
from dataclasses import dataclass
from typing import Union

from .explained import transfer
from .history import History, history_before, repeats
from .merged import CAME, CHANGED, LOST, REPEATED, STRAY, UNSENT, Event, merged_of
from .packets import Ack, Data, Error, Request, count
from .pairs import OTHER, Pair
from .recording import ENDS
from .rungs import EDGE, NEAR, span, with_folds

NOTES = {LOST: "lost", REPEATED: "repeated on the way", UNSENT: "never sent", CHANGED: "changed on the way"}
HOW_MANY = ((LOST, "did not come"), (REPEATED, "came once more than sent"), (CHANGED, "came with other bytes"),
            (UNSENT, "came and had not been sent"), (STRAY, "of other endpoints, or to them"))


@dataclass(frozen=True)
class Fold:
    """A run of places that is drawn as one."""

    places: tuple[int, ...]


Row = Union[int, Fold]


class PairRungs:
    """Both captures in one order, and what is said of each datagram."""

    def __init__(self, pair: Pair) -> None:
        self.pair, self.merged, self.captures = pair, merged_of(pair), pair.captures()
        self.first = pair.unmatched()
        self.refused = {end: pair.verdicts[end].refused() for end in ENDS}
        again = {end: list(repeats(self.captures[end])) for end in ENDS}
        self.again = [again[it.end][it.number() - 1] and it.goes_out() for it in self.merged.events]

    def history(self) -> History:
        """All that passed at the client."""
        capture = self.captures["client"]
        return history_before(capture, len(capture.datagrams) + 1)

    def transfer(self) -> str:
        return transfer(self.history(), "captured at both ends")

    def is_first(self, event: Event) -> bool:
        """Whether it is the first of its end that is unmatched."""
        return self.first[event.end] == event.number()

    def is_refused(self, event: Event) -> bool:
        refused = self.refused[event.end]
        return refused is not None and refused[0] == event.number()

    def is_cause(self, place: int) -> bool:
        """Whether it is unmatched for itself, and does not wait for another."""
        event = self.merged.events[place]
        is_own = self.is_refused(event) or self.merged.fate(place) in (UNSENT, CHANGED) and not event.goes_out()
        return self.is_first(event) and is_own

    def is_behind(self, place: int) -> bool:
        """Whether it waits, or stands behind what is unmatched in its capture."""
        event = self.merged.events[place]
        first = self.first[event.end]
        return first is not None and event.number() >= first

    def halves(self, place: int) -> list[int]:
        """The places of a datagram's two ends, if it has both."""
        other = self.merged.other.get(place)
        return [place] if other is None else sorted((place, other))

    def state(self, place: int) -> str:
        """By what a datagram has its colour, where it is not its kind."""
        halves = self.halves(place)
        if any(map(self.is_cause, halves)):
            return "refused"
        if any(map(self.is_behind, halves)):
            return "after"
        return {STRAY: "stray", REPEATED: "repeat"}.get(self.merged.fate(place), "")

    def label(self, place: int) -> str:
        """What a datagram is, in few words."""
        halves, event = self.halves(place), self.merged.events[place]
        packet = event.passed.packet
        told = [packet.asked() if isinstance(packet, Request) else packet.short()]
        told += ["again"] if any(self.again[half] for half in halves) else []
        told += [NOTES[self.merged.fate(place)]] if self.merged.fate(place) in NOTES else []
        for half in halves:
            it = self.merged.events[half]
            told += [f"rule {' '.join(self.pair.verdicts[it.end].line.split()[4:])}"] if self.is_refused(it) else []
            is_plain = self.is_first(it) and not self.is_cause(half)
            told += [f"datagram {it.number()} of the {it.end} waits"] if is_plain else []
        return ", ".join(told)

    def hover(self, place: int) -> str:
        """All of a datagram, and where it stands in both captures."""
        events = [self.merged.events[half] for half in self.halves(place)]
        stands = ", ".join(f"{it.passed.datagram.place()} of the {it.end}" for it in events)
        return f"{stands}: {self.merged.events[place].passed.packet.told()}"

    def sender(self, place: int) -> str:
        event = self.merged.events[place]
        return event.end if event.goes_out() else OTHER[event.end]

    def is_of_note(self, place: int) -> bool:
        event = self.merged.events[place]
        odd = self.merged.fate(place) != CAME or not isinstance(event.passed.packet, (Ack, Data)) or self.again[place]
        return odd and not self.is_behind(place) or self.is_first(event)

    def kept(self, rows: int) -> set[int]:
        """The places that are drawn one by one, each with its other half: the ends, what is about the unmatched, and
        what is of note, in turn."""
        last = len(self.merged.events)
        if last <= rows:
            return set(range(last))
        places = set(range(EDGE)) | set(range(last - EDGE, last))
        noted = [at for at in range(last) if self.is_of_note(at)]
        firsts = [at for at in noted if self.is_first(self.merged.events[at])]
        for at in firsts:
            places |= set(range(max(0, at - 2 * NEAR), min(last, at + NEAR)))
        odd = [at for at in noted if isinstance(self.merged.events[at].passed.packet, Error)]
        for at in (*odd, *noted):
            if len(places) >= rows:
                break
            places |= set(range(max(0, at - 1), min(last, at + 2)))
        return {half for at in places for half in self.halves(at)}

    def rows(self, most: int) -> Iterator[Row]:
        """The places that are kept, and folds of the others."""
        yield from with_folds(range(len(self.merged.events)), self.kept(most), Fold)

    def told_fold(self, row: Fold) -> tuple[str, str]:
        """What a fold has: how many datagrams of each end, and which blocks."""
        events = [self.merged.events[at] for at in row.places]
        packets = [it.passed.packet for it in events]
        numbers = {end: [it.number() for it in events if it.end == end] for end in ENDS}
        told = [f"{end} {its[0]:,} to {its[-1]:,}" for end, its in numbers.items() if its]
        data = [it.block for it in packets if isinstance(it, Data)]
        acks = [it.block for it in packets if isinstance(it, Ack)]
        blocks = ([span(data, "DATA")] if data else []) + ([span(acks, "ACK")] if acks else [])
        told += [f"{number:,} {what}" for fate, what in HOW_MANY if (number := self.number(fate, row.places))]
        return f"datagrams: {'; '.join(told)}", "; ".join(blocks)

    def number(self, fate: str, places: tuple[int, ...]) -> int:
        """How many datagrams fared so, one that was sent and came once."""
        return sum(self.merged.fate(at) == fate and at == self.halves(at)[0] for at in places)

    def counted(self) -> str:
        """How many datagrams there are, and what became of them, in words."""
        own = (f"{count(len(self.captures[end].datagrams), 'datagram')} at the {end}" for end in ENDS)
        every = tuple(range(len(self.merged.events)))
        fates = (f"{number:,} {what}" for fate, what in HOW_MANY if (number := self.number(fate, every)))
        return ", ".join([*own, *fates])

    def reason(self) -> str:
        """The unmatched datagrams, in words."""
        firsts = [at for at, event in enumerate(self.merged.events) if self.is_first(event)]
        return " ".join(f"Unmatched is {self.hover(at)}." for at in firsts)
