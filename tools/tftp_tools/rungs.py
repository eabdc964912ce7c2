"""The rungs of a ladder: a datagram each, and where a capture has too many, runs of lawful ones without anything of
note, folded into one."""
from __future__ import annotations

from collections.abc import Callable, Iterable, Iterator
from dataclasses import dataclass
from typing import Optional, TypeVar, Union

from .capture import Capture
from .history import History, Passed, repeats
from .lost import Gap
from .packets import Ack, Data, Error, Request, count
from .program import Verdict

NEAR, EDGE, ROWS, SHORTEST_FOLD = 6, 12, 160, 4


@dataclass(frozen=True)
class Rung:
    passed: Passed
    is_repeat: bool
    is_refused: bool
    # whether it comes after the refused one, and so is not judged
    is_after: bool
    # what must be missing before it, so that the refused one is lawful
    gap: Optional[Gap] = None

    def number(self) -> int:
        return self.passed.datagram.number

    def is_aside(self) -> bool:
        """Whether it is between the named end and what is none of the two."""
        return self.passed.place in ("stray", "answer") or (self.is_refused and self.passed.place == "none")

    def label(self, verdict: Verdict) -> str:
        """What it is, in few words."""
        packet = self.passed.packet
        notes = [packet.asked() if isinstance(packet, Request) else packet.short()]
        notes += ["again"] if self.is_repeat else []
        notes += [f"rule {' '.join(verdict.line.split()[4:])}"] if self.is_refused else []
        return ", ".join(notes)

    def is_of_note(self) -> bool:
        odd = self.passed.place != "main" or not isinstance(self.passed.packet, (Ack, Data))
        return self.is_refused or self.is_repeat or self.gap is not None or odd


@dataclass(frozen=True)
class Fold:
    """A run of rungs that is drawn as one."""

    rungs: tuple[Rung, ...]


Row = Union[Rung, Fold]
T = TypeVar("T")
F = TypeVar("F")


def rungs_of(capture: Capture, verdict: Verdict, gaps: Iterable[Gap] = ()) -> tuple[list[Rung], History]:
    refused, before = verdict.refused(), {gap.before: gap for gap in gaps}
    unlawful = refused[0] if refused else len(capture.datagrams) + 1
    history, rungs = History(capture), []
    for datagram, is_repeat in zip(capture.datagrams, repeats(capture)):
        passed = history.take(datagram)
        number = datagram.number
        rungs.append(Rung(passed, is_repeat, number == unlawful, number > unlawful, before.get(number)))
    return rungs, history


def kept(rungs: list[Rung], rows: int) -> set[int]:
    """The places that are drawn one by one: the ends, what is about the refused one and about what must be missing, and
    what is of note, in turn."""
    judged = [at for at, rung in enumerate(rungs) if not rung.is_after]
    if len(judged) <= rows:
        return set(range(min(len(rungs), len(judged) + NEAR))) | set(range(max(0, len(rungs) - NEAR // 2), len(rungs)))
    last = len(rungs)
    places = set(range(EDGE)) | set(range(last - EDGE, last))
    for at, rung in enumerate(rungs):
        if rung.is_refused or rung.gap:
            places |= set(range(max(0, at - 2 * NEAR), min(last, at + NEAR)))
    plainly = [at for at, rung in enumerate(rungs) if rung.is_of_note() and not rung.is_after]
    odd = [at for at in plainly if rungs[at].passed.place != "main" or isinstance(rungs[at].passed.packet, Error)]
    for at in (*odd, *plainly):
        if len(places) >= rows:
            break
        places |= set(range(max(0, at - 1), min(last, at + 2)))
    return places


def folded(rungs: list[Rung], rows: int) -> Iterator[Row]:
    """The rungs that are kept, and folds of the others."""
    yield from with_folds(rungs, kept(rungs, rows), Fold)


def with_folds(each: Iterable[T], places: set[int], fold: Callable[[tuple[T, ...]], F]) -> Iterator[Union[T, F]]:
    """Those at the places, and folds of the runs between; a run too short to be worth it is not folded."""
    run: list[T] = []
    for at, it in enumerate(each):
        if at not in places:
            run.append(it)
            continue
        yield from folds_of(run, fold)
        run = []
        yield it
    yield from folds_of(run, fold)


def folds_of(run: list[T], fold: Callable[[tuple[T, ...]], F]) -> Iterator[Union[T, F]]:
    if len(run) < SHORTEST_FOLD:
        yield from run
    else:
        yield fold(tuple(run))


def span(blocks: list[int], thing: str) -> str:
    low, high = min(blocks), max(blocks)
    return f"{thing} {low:,}" if low == high else f"{thing} {low:,} to {high:,}"


def told_fold(row: Fold) -> tuple[str, str]:
    """What a fold has: how many datagrams, and which blocks."""
    packets = [rung.passed.packet for rung in row.rungs]
    data = [packet.block for packet in packets if isinstance(packet, Data)]
    acks = [packet.block for packet in packets if isinstance(packet, Ack)]
    told = [f"{count(len(row.rungs), 'datagram')}, {row.rungs[0].number():,} to {row.rungs[-1].number():,}"]
    blocks = ([span(data, "DATA")] if data else []) + ([span(acks, "ACK")] if acks else [])
    for number, thing in (
        (sum(rung.is_repeat for rung in row.rungs), "repeated"),
        (sum(rung.passed.place != "main" for rung in row.rungs), "not of the transfer"),
        (sum(rung.is_after for rung in row.rungs), "not judged"),
    ):
        if number:
            told.append(f"{number:,} {thing}" if number < len(row.rungs) else thing)
    return "; ".join(told), "; ".join(blocks)


def clipped(text: str, longest: int) -> str:
    return text if len(text) <= longest else f"{text[: longest - 2]}.."
