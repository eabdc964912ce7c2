"""A transfer as a picture of its block numbers over time, in SVG: blocks, ACKs, repeats, pauses and what is missing."""
from __future__ import annotations

import math
from collections.abc import Iterator
from dataclasses import dataclass
from typing import Optional
from xml.sax.saxutils import escape

from .capture import Capture
from .drawn import framed
from .facts import Facts, Pause, facts_of, times_of
from .history import History, earlier
from .packets import Ack, Data, count
from .program import Verdict
from .timing import timing_of

WIDTH, HEIGHT, LEFT, RIGHT, TOP, BOTTOM = 960, 360, 70, 20, 44, 44
MOST_TOLD, TICKS = 5, 6
LEGEND = (
    ("block", "data"), ("ACK", "ack"), ("repeated block", "data again"), ("repeated ACK", "ack again"),
    ("since it last passed", "wait"), ("refused", "refused"), ("missing", "missing"),
)


@dataclass(frozen=True)
class Point:
    """A datagram of the transfer that has a block number, and of a repeat where the same one last was."""

    across: float
    block: int
    kind: str
    since: Optional[float] = None


def points_of(capture: Capture, verdict: Verdict) -> list[Point]:
    """Of each block and ACK of the transfer when it passed, by time, or by number where there are no times."""
    refused, history = verdict.refused(), History(capture)
    times, points = times_of(capture), list[Point]()
    is_timed = all(time is not None for time in times)
    across = [float(time or 0) if is_timed else place for place, time in enumerate(times, 1)]
    for place, (datagram, before) in enumerate(zip(capture.datagrams, earlier(capture))):
        passed = history.take(datagram)
        if passed.place != "main" or not isinstance(passed.packet, (Ack, Data)):
            continue
        kind = "data" if isinstance(passed.packet, Data) else "ack"
        kind = f"{kind} again" if before is not None else kind
        kind = "refused" if refused and refused[0] == place + 1 else kind
        since = across[before] if before is not None else None
        points.append(Point(across[place], passed.packet.block, kind, since))
    return points


def steps(most: float, least: float) -> Iterator[float]:
    """Round numbers from 0 to the most, some few, and no nearer to one another than the least."""
    power = 10.0 ** math.floor(math.log10(most / TICKS))
    step = max(least, next(power * times for times in (1, 2, 5, 10) if most / (power * times) <= TICKS))
    for place in range(int(most / step) + 1):
        yield place * step


class Plot:
    """The parts of a picture."""

    def __init__(self, capture: Capture, verdict: Verdict, name: str) -> None:
        self.verdict, self.name = verdict, name
        self.points = points_of(capture, verdict)
        self.facts: Facts = facts_of(capture)
        # of which end nothing passed in a pause
        self.silent = {(it.begin, it.end): it.silent() for it in timing_of(capture).silences}
        self.is_timed = self.facts.seconds is not None
        widest = self.facts.seconds if self.facts.seconds is not None else float(len(capture.datagrams))
        self.most = max(widest, 1e-6)
        self.highest = max([point.block for point in self.points] + list(self.facts.missing), default=1) or 1
        self.parts: list[str] = []

    def x(self, across: float) -> float:
        return LEFT + (WIDTH - LEFT - RIGHT) * min(across / self.most, 1)

    def y(self, block: float) -> float:
        return HEIGHT - BOTTOM - (HEIGHT - TOP - BOTTOM) * block / self.highest

    def text(self, x: float, y: float, words: str, anchor: str = "middle") -> None:
        style = f'font-size="10" class="f-muted" text-anchor="{anchor}"'
        self.parts.append(f'<text x="{x:.1f}" y="{y:.1f}" {style}>{escape(words)}</text>')

    def line(self, ends: tuple[float, float, float, float], name: str, more: str = "") -> None:
        x1, y1, x2, y2 = ends
        self.parts.append(f'<line x1="{x1:.1f}" y1="{y1:.1f}" x2="{x2:.1f}" y2="{y2:.1f}" class="s-{name}" {more}/>')

    def across(self) -> None:
        """The axis of time."""
        bottom, right = HEIGHT - BOTTOM, WIDTH - RIGHT
        self.line((LEFT, bottom, right, bottom), "words")
        for across in steps(self.most, 0 if self.is_timed else 1):
            self.line((self.x(across), bottom, self.x(across), bottom + 4), "words")
            self.text(self.x(across), bottom + 16, f"{across:.6g}")
        self.text((LEFT + right) / 2, bottom + 32, "seconds" if self.is_timed else "datagrams (the text has no times)")

    def upward(self) -> None:
        """The axis of blocks."""
        self.line((LEFT, TOP, LEFT, HEIGHT - BOTTOM), "words")
        for block in steps(self.highest, 1):
            self.line((LEFT - 4, self.y(block), LEFT, self.y(block)), "words")
            self.text(LEFT - 8, self.y(block) + 3, f"{block:,.6g}", "end")
        self.text(14, TOP - 10, "block", "start")

    def legend(self) -> None:
        x = float(LEFT + 40)
        for words, kind in LEGEND:
            self.mark(Point(0, 0, kind), x, TOP - 14)
            self.text(x + 10, TOP - 10, words, "start")
            x += 40 + 7 * len(words)

    def pauses(self) -> None:
        """Where nothing passed, a band that tells how long."""
        for pause in self.facts.pauses if self.is_timed else ():
            x, width = self.x(pause.begin), self.x(pause.end) - self.x(pause.begin)
            box, told = f'x="{x:.1f}" y="{TOP}" width="{width:.1f}"', f"{pause.end - pause.begin:.3f} s"
            title = f"<title>a pause of {told}{self.silence_in(pause)}</title>"
            self.parts.append(f'<rect {box} height="{HEIGHT - TOP - BOTTOM}" class="f-fold">{title}</rect>')
            if width > 50:
                self.text(x + width / 2, TOP + 12, told)
            if width > 110 and (pause.begin, pause.end) in self.silent:
                self.text(x + width / 2, TOP + 24, f"of the {self.silent[pause.begin, pause.end]}")

    def silence_in(self, pause: Pause) -> str:
        """Of which end nothing passed in a pause."""
        silent = self.silent.get((pause.begin, pause.end))
        return f", of the {silent}" if silent else ""

    def wait(self, begin: float, end: float, y: float) -> None:
        self.line((begin, y, end, y), "repeat", 'stroke-dasharray="2 2"')

    def waits(self) -> None:
        """How long before a repeat the same datagram had passed, once at a place."""
        spans = ((it.block, it.since, it.across) for it in self.points if it.since is not None)
        places = {(round(self.x(begin)), round(self.x(end)), round(self.y(block))) for block, begin, end in spans}
        for begin, end, y in sorted(places):
            self.wait(begin, end, y)

    def mark(self, point: Point, x: float, y: float) -> None:
        """A block is a square, an ACK a dash, a repeat hollow, what is refused a cross, what is missing a ring; the
        time since a repeat last passed is a dotted line."""
        if point.kind == "data":
            self.parts.append(f'<rect x="{x - 2:.1f}" y="{y - 2:.1f}" width="4" height="4" class="f-data"/>')
        elif point.kind == "ack":
            self.line((x - 4, y, x + 4, y), "ack", 'stroke-width="2"')
        elif point.kind == "data again":
            box = f'x="{x - 4:.1f}" y="{y - 4:.1f}" width="8" height="8"'
            self.parts.append(f'<rect {box} class="hollow s-error" stroke-width="1.5"/>')
        elif point.kind == "ack again":
            self.line((x - 6, y, x + 6, y), "error", 'stroke-width="2"')
        elif point.kind == "missing":
            self.parts.append(f'<circle cx="{x:.1f}" cy="{y:.1f}" r="4" class="hollow s-request" stroke-width="2"/>')
        elif point.kind == "wait":
            self.wait(x - 6, x + 6, y)
        else:
            path = f"M {x - 6:.1f} {y - 6:.1f} l 12 12 m -12 0 l 12 -12"
            self.parts.append(f'<path d="{path}" class="hollow s-refused" stroke-width="3"/>')

    def marks(self) -> None:
        """Each mark of a datagram once at a place, and above the others what is of note."""
        placed = {(round(self.x(it.across)), round(self.y(it.block)), it.kind): it for it in self.points}
        order = ("data", "ack", "ack again", "data again", "refused")
        for (x, y, _), point in sorted(placed.items(), key=lambda pair: order.index(pair[1].kind)):
            self.mark(point, x, y)

    def rings(self) -> None:
        """A ring for each block that is missing."""
        rings = {round(self.y(block)) for block in self.facts.missing}
        for y in sorted(rings):
            self.mark(Point(0, 0, "missing"), LEFT, y)

    def described(self) -> str:
        """The picture in words."""
        facts = self.facts
        blocks = sum(point.kind.startswith("data") for point in self.points)
        acks = sum(point.kind.startswith("ack") for point in self.points)
        told = [f"{count(blocks, 'block')} and {count(acks, 'ACK')}, the highest block is {self.highest:,}."]
        told.append(f"{count(facts.repeated_blocks, 'block')} and {count(facts.repeated_acks, 'ACK')} are repeats.")
        if facts.missing:
            first = ", ".join(f"{block:,}" for block in facts.missing[:MOST_TOLD])
            more = ", .." if len(facts.missing) > MOST_TOLD else ""
            told.append(f"{count(len(facts.missing), 'block')} missing: {first}{more}.")
        for pause in facts.pauses[:MOST_TOLD]:
            length = f"{pause.end - pause.begin:.3f} s"
            told.append(f"A pause of {length} after {pause.begin:.3f} s{self.silence_in(pause)}.")
        return " ".join(told)

    def picture(self, is_alone: bool) -> str:
        told = f"Block numbers over time: {self.verdict.line}", self.described()
        return framed((WIDTH, HEIGHT), self.name, told, self.parts, is_alone)


def plot(capture: Capture, verdict: Verdict, name: str = "plot", is_alone: bool = True) -> str:
    """The picture of a capture; within a page, which has the style, it is not alone."""
    drawn = Plot(capture, verdict, name)
    for part in (drawn.pauses, drawn.across, drawn.upward, drawn.legend, drawn.waits, drawn.marks, drawn.rings):
        part()
    return drawn.picture(is_alone)
