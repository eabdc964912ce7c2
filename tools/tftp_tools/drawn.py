"""A capture as a ladder of arrows in SVG: a line for each end, and for each further host from which something came."""
from __future__ import annotations

import textwrap
from collections.abc import Sequence
from dataclasses import dataclass
from typing import Optional
from xml.sax.saxutils import escape

from .capture import Capture, Datagram
from .colours import picture_style
from .compared import side
from .explained import transfer
from .history import History
from .lost import Gap, Gaps
from .packets import Ack, Data, Error, Oack, Packet, Request, count
from .program import Verdict
from .rules import RULES
from .rungs import Fold, Row, Rung, clipped, folded, rungs_of, told_fold

MARGIN, BETWEEN, ASIDE, BESIDE, TOP = 300, 460, 170, 200, 158
STEP, SLANT, FOLDED, LINE = 26, 8, 48, 14
# By time: the pixels of a second, and the least and the most between two rungs.
PER_SECOND, LEAST, MOST = 240.0, 20, 120
# How many signs stand between the two ends, and above an aside.
LABEL, ASIDE_NAME, MOST_ASIDES = 70, 24, 3
OTHERS = "other hosts"
KINDS = (("DATA", "data"), ("ACK", "ack"), ("request, OACK", "request"), ("ERROR", "error"))
LEGEND = (
    *KINDS, ("repeated", "repeat"), ("stray and answer", "stray"), ("refused", "refused"), ("not judged", "after"),
)


@dataclass(frozen=True)
class Columns:
    """Where the lines of the ends stand, and of the hosts beside the named end whose datagrams are strays."""

    end: str
    peer_host: str
    asides: tuple[str, ...]

    def client(self) -> int:
        return MARGIN + (ASIDE * len(self.asides) if self.end == "client" else 0)

    def server(self) -> int:
        return self.client() + BETWEEN

    def at(self, end: str) -> int:
        return self.client() if end == "client" else self.server()

    def name(self, host: str) -> str:
        """What the column of a stray's host is called."""
        if host in ("-", self.peer_host):
            return "another port" if host == "-" else f"{host}, another port"
        return host if host in self.asides else OTHERS

    def aside(self, host: str) -> int:
        """The line of a stray's host."""
        return self.named(self.name(host))

    def named(self, name: str) -> int:
        """The line of this name, outward of the named end."""
        place = self.asides.index(name) + 1 if name in self.asides else len(self.asides)
        return self.client() - ASIDE * place if self.end == "client" else self.server() + ASIDE * place

    def width(self) -> int:
        return self.server() + BESIDE + (ASIDE * len(self.asides) - ASIDE // 2 if self.end == "server" else 0)


def columns_of(capture: Capture, history: History, rungs: list[Rung]) -> Columns:
    peer = history.peer[0] if history.peer else "-"
    hosts = dict.fromkeys(rung.passed.datagram.host for rung in rungs if rung.is_aside())
    every = Columns(capture.end, peer, tuple(hosts))
    names = tuple(dict.fromkeys(every.name(host) for host in hosts))
    if len(names) > MOST_ASIDES:
        names = (*names[: MOST_ASIDES - 1], OTHERS)
    return Columns(capture.end, peer, names)


def colour(rung: Rung) -> str:
    """The name of its colour."""
    if rung.is_refused:
        return "refused"
    if rung.is_after:
        return "after"
    if rung.passed.place != "main":
        return "stray"
    if rung.is_repeat:
        return "repeat"
    return colour_of(rung.passed.packet)


def colour_of(packet: Packet) -> str:
    """The colour of what is lawful and of the transfer."""
    kinds = ((Data, "data"), (Ack, "ack"), (Request, "request"), (Oack, "request"), (Error, "error"))
    return next((name for kind, name in kinds if isinstance(packet, kind)), "none")


def words_of_rung(rung: Rung) -> str:
    """The colour of its words."""
    if rung.is_refused:
        return "refused"
    return "muted" if rung.is_after or rung.is_repeat else "words"


class Canvas:
    """What a picture is made of."""

    def __init__(self) -> None:
        self.parts: list[str] = []

    def text(
        self, x: float, y: float, words: str, size: int = 12, fill: str = "words", anchor: str = "start"
    ) -> None:
        style = f'font-size="{size}" class="f-{fill}" text-anchor="{anchor}"'
        self.parts.append(f'<text x="{x:.1f}" y="{y:.1f}" {style}>{escape(words)}</text>')

    def line(self, x1: float, y1: float, x2: float, y2: float, stroke: str, more: str = "") -> None:
        ends = f'x1="{x1:.1f}" y1="{y1:.1f}" x2="{x2:.1f}" y2="{y2:.1f}"'
        self.parts.append(f'<line {ends} class="s-{stroke}" {more}/>')

    def arrow(self, x1: float, y1: float, x2: float, y2: float, stroke: str, width: float, dashed: bool) -> None:
        """A line with a head at its end."""
        more = f'stroke-width="{width}"' + (' stroke-dasharray="5 4"' if dashed else "")
        self.line(x1, y1, x2, y2, stroke, more)
        back = -9 if x2 > x1 else 9
        slope = (y2 - y1) / (x2 - x1) * back
        points = f"{x2:.1f},{y2:.1f} {x2 + back:.1f},{y2 + slope - 4:.1f} {x2 + back:.1f},{y2 + slope + 4:.1f}"
        self.parts.append(f'<polygon points="{points}" class="f-{stroke}"/>')

    def legend(self, entries: Sequence[tuple[str, str]]) -> None:
        """A short line in each colour, with what it means."""
        x = 14.0
        for words, name in entries:
            self.parts.append(f'<rect x="{x:.1f}" y="84" width="16" height="4" class="f-{name}"/>')
            self.text(x + 20, 90, words, 10, "muted")
            x += 34 + 6.4 * len(words)


class Drawing(Canvas):
    """The parts of a picture, from its top down."""

    def __init__(self, capture: Capture, verdict: Verdict, by_time: bool, name: str, gaps: Gaps) -> None:
        super().__init__()
        rungs, self.history = rungs_of(capture, verdict, gaps)
        self.capture, self.verdict, self.by_time, self.name = capture, verdict, by_time, name
        self.rungs = rungs
        self.columns = columns_of(capture, self.history, rungs)
        self.middle = (self.columns.client() + self.columns.server()) / 2
        self.y = float(TOP)
        self.last: Optional[Datagram] = None
        # where the blocks of a window stand, and whether some of it are in a fold
        self.window: list[float] = []
        self.is_part = False

    def step(self, rung: Rung) -> None:
        """Goes down to where the next rung stands."""
        distance, last = float(STEP), self.last
        since = rung.passed.datagram.seconds_since(last) if last else None
        if self.by_time and since is not None:
            distance = min(max(since * PER_SECOND, LEAST), MOST)
            if distance == MOST:
                self.text(self.middle, self.y + MOST / 2, f"{since:.3f} s", 11, "muted", "middle")
        self.y += distance
        self.last = rung.passed.datagram

    def missing(self, gap: Gap) -> None:
        """A dotted line where datagrams must be missing."""
        self.y += STEP
        self.line(self.columns.client(), self.y, self.columns.server(), self.y, "refused", 'stroke-dasharray="2 6"')
        self.text(self.middle, self.y - 5, gap.told(self.capture), 11, "refused", "middle")

    def rung(self, rung: Rung) -> None:
        if rung.gap:
            self.missing(rung.gap)
        self.step(rung)
        self.parts.append(f"<g><title>{escape(self.hover(rung))}</title>")
        if rung.is_aside():
            self.from_aside(rung)
        else:
            self.between(rung)
        self.margin(rung)
        self.parts.append("</g>")
        self.bracket(rung)
        if rung.is_refused:
            self.reason()

    def between(self, rung: Rung) -> None:
        """An arrow from one end to the other."""
        start = self.columns.at(self.capture.sender(rung.passed.datagram))
        end = self.columns.client() + self.columns.server() - start
        width = 2.6 if rung.is_refused else 1.5
        self.arrow(start, self.y - SLANT / 2, end, self.y + SLANT / 2, colour(rung), width, False)
        label = clipped(rung.label(self.verdict), LABEL)
        self.text(self.middle, self.y - 5, label, 11, words_of_rung(rung), "middle")

    def from_aside(self, rung: Rung) -> None:
        """An arrow between the named end and what is none of the two."""
        datagram = rung.passed.datagram
        line, outer = self.columns.at(self.capture.end), self.columns.aside(datagram.host)
        start, end = (line, outer) if datagram.goes_out() else (outer, line)
        self.arrow(start, self.y - 2, end, self.y + 2, colour(rung), 2.6 if rung.is_refused else 1.5, True)
        way = "to" if datagram.goes_out() else "from"
        label = clipped(f"{way} {side(datagram.host, datagram.remote)}: {rung.label(self.verdict)}", LABEL)
        is_client = self.capture.end == "client"
        inner = line + 10 if is_client else line - 10
        self.text(inner, self.y + 4, label, 11, words_of_rung(rung), "start" if is_client else "end")

    def reason(self) -> None:
        """What the rule asks for, below the refused arrow."""
        refused = self.verdict.refused()
        for words in textwrap.wrap(RULES[refused[1]].says, LABEL) if refused else ():
            self.y += LINE
            self.text(self.middle, self.y + 4, words, 11, "refused", "middle")

    def hover(self, rung: Rung) -> str:
        datagram = rung.passed.datagram
        return f"{datagram.place()}, {self.capture.way(datagram)}: {rung.passed.packet.told()}"

    def margin(self, rung: Rung) -> None:
        """Number, frame and time at the left."""
        datagram, fill = rung.passed.datagram, "refused" if rung.is_refused else "muted"
        self.text(58, self.y + 4, f"{datagram.number:,}", 10, fill, "end")
        if datagram.frame is not None:
            self.text(68, self.y + 4, f"frame {datagram.frame:,}", 10, fill)
        if (since := datagram.seconds_since(self.capture.datagrams[0])) is not None:
            self.text(214, self.y + 4, f"{since:.4f} s", 10, fill, "end")

    def data_sender(self) -> str:
        return "server" if self.history.kind() == "get" else "client"

    def bracket(self, rung: Rung) -> None:
        """The blocks of a window, which ends with the next ACK, are bracketed beside their sender."""
        if self.history.window() == 1 or rung.passed.place != "main":
            return
        if isinstance(rung.passed.packet, Data):
            self.window.append(self.y)
        elif isinstance(rung.passed.packet, Ack):
            self.end_window(self.data_sender())

    def end_window(self, sender: str) -> None:
        if len(self.window) > 1:
            outward = -1 if sender == "client" else 1
            x, top, bottom = self.columns.at(sender) + 8 * outward, self.window[0] - 8, self.window[-1] + 4
            path = f"M {x} {top:.1f} h {6 * outward} V {bottom:.1f} h {-6 * outward}"
            self.parts.append(f'<path d="{path}" class="hollow s-edge"/>')
            words = "part of a window" if self.is_part else f"window: {count(len(self.window), 'block')}"
            anchor = "start" if outward == 1 else "end"
            self.text(x + 12 * outward, (top + bottom) / 2 + 4, words, 10, "muted", anchor)
        self.window, self.is_part = [], False

    def fold(self, row: Fold) -> None:
        self.is_part = True
        self.end_window(self.data_sender())
        self.is_part = True
        self.y += FOLDED
        box = f'x="{self.columns.client() + 6}" y="{self.y - 32:.1f}" width="{BETWEEN - 12}" height="38" rx="5"'
        self.parts.append(f'<rect {box} class="f-fold s-edge" stroke-dasharray="3 3"/>')
        for words, y in zip(told_fold(row), (self.y - 16, self.y - 2)):
            self.text(self.middle, y, clipped(words, 78), 10, "muted", "middle")
        self.y += STEP / 4
        self.last = None

    def row(self, row: Row) -> None:
        if isinstance(row, Fold):
            self.fold(row)
        else:
            self.rung(row)

    def head(self) -> None:
        self.text(14, 28, self.verdict.line, 17, "sound" if self.verdict.status == 0 else "refused")
        self.text(14, 50, clipped(transfer(self.history), 130), 12)
        self.text(14, 70, count(len(self.capture.datagrams), "datagram"), 12, "muted")
        self.legend(LEGEND)
        for end in ("client", "server"):
            x, name = self.columns.at(end), self.capture.name(end)
            self.text(x, TOP - 34, name, 13, "ink", "middle")
            where = self.here() if end == self.capture.end else self.there()
            self.text(x, TOP - 19, where, 10, "muted", "middle")

    def here(self) -> str:
        """Where the named end is."""
        return self.capture.here or f"port {self.history.local}"

    def there(self) -> str:
        """Where the other end is."""
        return side(*self.history.peer) if self.history.peer else ""

    def asides(self) -> None:
        """The names of the lines beside the named end."""
        for name in self.columns.asides:
            x = self.columns.named(name)
            self.text(x, TOP - 19, clipped(name, ASIDE_NAME), 10, "muted", "middle")

    def described(self) -> str:
        """The picture in words."""
        told = [f"{transfer(self.history)} {count(len(self.rungs), 'datagram')} passed."]
        for number, what in (
            (sum(rung.is_repeat for rung in self.rungs), "a repeat of an earlier one"),
            (sum(rung.is_aside() for rung in self.rungs), "with another endpoint"),
            (sum(rung.is_after for rung in self.rungs), "not judged"),
        ):
            told += [f"{number:,} {'is' if number == 1 else 'are'} {what}."] if number else []
        refused, rung = self.verdict.refused(), next((rung for rung in self.rungs if rung.is_refused), None)
        if refused and rung:
            told.append(f"Refused is {self.hover(rung)}. The rule: {RULES[refused[1]].says}.")
        gaps = [rung.gap.at(self.capture) for rung in self.rungs if rung.gap]
        told += [f"It is lawful if some are missing: {', '.join(gaps)}."] if gaps else []
        return " ".join(told)

    def picture(self, is_alone: bool) -> str:
        bottom, width = self.y + 34, max(self.columns.width(), 960)
        lines = [self.columns.client(), self.columns.server()]
        lines += [self.columns.named(name) for name in self.columns.asides]
        ends = "".join(
            f'<line x1="{x}" y1="{TOP - 10}" x2="{x}" y2="{self.y + 16:.1f}" class="s-words"'
            f' stroke-width="{2 if place < 2 else 1}"/>'
            for place, x in enumerate(lines)
        )
        told = self.verdict.line, self.described()
        return framed((width, bottom), self.name, told, [ends, *self.parts], is_alone)


def framed(size: tuple[float, float], name: str, told: tuple[str, str], parts: list[str], is_alone: bool) -> str:
    """A picture of this width and height with its title and description; the style is in it where it stands alone."""
    width, height = f"{size[0]:.0f}", f"{size[1]:.0f}"
    head = f'<svg xmlns="http://www.w3.org/2000/svg" width="{width}" height="{height}"'
    head += f' viewBox="0 0 {width} {height}" role="img" aria-labelledby="{name}-title {name}-desc">'
    title = f'<title id="{name}-title">{escape(told[0])}</title>'
    desc = f'<desc id="{name}-desc">{escape(told[1])}</desc>'
    style = [f"<style>{picture_style()}</style>"] if is_alone else []
    ground = '<rect width="100%" height="100%" class="f-ground"/>'
    return "\n".join([head, title, desc, *style, ground, *parts, "</svg>\n"])


def draw(
    capture: Capture,
    verdict: Verdict,
    rows: int,
    by_time: bool,
    name: str = "ladder",
    is_alone: bool = True,
    gaps: Gaps = (),
) -> str:
    """The picture of a capture and its verdict, with the places where datagrams must be missing; within a page, which
    has the style, it is not alone."""
    drawing = Drawing(capture, verdict, by_time, name, gaps)
    drawing.head()
    drawing.asides()
    for row in folded(drawing.rungs, rows):
        drawing.row(row)
    drawing.end_window(drawing.data_sender())
    return drawing.picture(is_alone)
