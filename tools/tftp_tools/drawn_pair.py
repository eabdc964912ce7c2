"""Two captures of one transfer as a ladder in SVG: a line for each end, and an arrow from where each datagram was sent
to where it came."""
from __future__ import annotations

from dataclasses import dataclass
from xml.sax.saxutils import escape

from .compared import side
from .drawn import BETWEEN, FOLDED, KINDS, LABEL, LEAST, MARGIN, MOST, PER_SECOND, SLANT, TOP, Canvas, colour_of, framed
from .merged import REPEATED, STRAY, UNSENT
from .pair_rungs import Fold, PairRungs
from .pairs import Pair
from .recording import EndName
from .rungs import clipped

WIDTH, SENT, SOON, LATE, STUB, CROSS = 2 * MARGIN + BETWEEN, 26, 12, 16, 60, 5
LEGEND = (
    *KINDS, ("repeated on the way", "repeat"), ("stray and answer", "stray"), ("unmatched", "refused"),
    ("behind it", "after"),
)


@dataclass(frozen=True)
class Side:
    """Where the line of an end stands, what is inward of it, and where its margin has numbers, frames and times."""

    x: int
    inward: int
    number: int
    frame: int
    time: int


SIDES: dict[EndName, Side] = {
    "client": Side(MARGIN, 1, 58, 68, 214),
    "server": Side(MARGIN + BETWEEN, -1, WIDTH - 176, WIDTH - 166, WIDTH - 20),
}
MIDDLE = MARGIN + BETWEEN / 2
# Words that stand in the way of a line are read all the same.
HALO = '<g class="s-ground" paint-order="stroke" stroke-width="3" stroke-linejoin="round">'


class PairDrawing(Canvas):
    """The parts of the picture: first it is known how far down each datagram stands at each end, then the arrows are
    drawn."""

    def __init__(self, pair: Pair, rows: int, by_time: bool) -> None:
        super().__init__()
        self.rungs = PairRungs(pair)
        self.pair, self.merged, self.by_time = pair, self.rungs.merged, by_time
        self.y, self.last = float(TOP), -1
        self.ys: dict[int, float] = {}
        # the words of the arrows, which are drawn above all of these
        self.labels = Canvas()
        self.head()
        for row in self.rungs.rows(rows):
            if isinstance(row, Fold):
                self.fold(row)
            else:
                self.stand(row)
        for place in self.ys:
            self.rung(place)

    def head(self) -> None:
        self.text(14, 28, self.pair.line, 17, "sound" if self.pair.is_matched() else "refused")
        self.text(14, 50, clipped(self.rungs.transfer(), 130), 12)
        self.text(14, 70, self.rungs.counted(), 12, "muted")
        self.legend(LEGEND)
        if self.merged.clock:
            self.text(14, 106, self.merged.clock.told(), 10, "muted")
        for end, it in SIDES.items():
            self.text(it.x, TOP - 34, end, 13, "ink", "middle")
            self.text(it.x, TOP - 19, self.rungs.captures[end].here or "", 10, "muted", "middle")

    def distance(self, place: int) -> float:
        """How far below the one before a datagram stands."""
        event, other = self.merged.events[place], self.merged.other.get(place)
        least = SENT if event.goes_out() or other is None else SOON if other == place - 1 else LATE
        if not self.by_time or self.last < 0:
            return least
        now, before = self.merged.since(place), self.merged.since(self.last)
        if now is None or before is None:
            return least
        return min(max((now - before) * PER_SECOND, min(least, LEAST)), MOST)

    def stand(self, place: int) -> None:
        distance = self.distance(place)
        if self.by_time and distance == MOST and self.last >= 0:
            since = (self.merged.since(place) or 0) - (self.merged.since(self.last) or 0)
            self.text(MIDDLE, self.y + MOST / 2, f"{since:.3f} s", 11, "muted", "middle")
        self.y += distance
        self.ys[place], self.last = self.y, place

    def fold(self, row: Fold) -> None:
        self.y += FOLDED
        box = f'x="{MARGIN + 6}" y="{self.y - 32:.1f}" width="{BETWEEN - 12}" height="38" rx="5"'
        self.parts.append(f'<rect {box} class="f-fold s-edge" stroke-dasharray="3 3"/>')
        for words, y in zip(self.rungs.told_fold(row), (self.y - 16, self.y - 2)):
            self.text(MIDDLE, y, clipped(words, 78), 10, "muted", "middle")
        self.last = -1

    def rung(self, place: int) -> None:
        """A datagram with its arrow, which is drawn once for both of its ends."""
        event, halves = self.merged.events[place], self.rungs.halves(place)
        state = self.rungs.state(place)
        colour = state or colour_of(event.passed.packet)
        self.parts.append(f"<g><title>{escape(self.rungs.hover(place))}</title>")
        if len(halves) == 2 and place == halves[0]:
            begin, end = self.point(halves[0]), self.point(halves[1])
            self.arrow(*begin, *end, colour, 2.6 if state == "refused" else 1.5, False)
            self.label(place, begin)
        elif len(halves) == 1:
            self.alone(place, colour)
        self.margin(place)
        self.parts.append("</g>")

    def point(self, place: int) -> tuple[float, float]:
        return SIDES[self.merged.events[place].end].x, self.ys[place]

    def alone(self, place: int, colour: str) -> None:
        """What has no other half: what was lost ends in the middle, what was not sent begins there."""
        x, y = self.point(place)
        event, it = self.merged.events[place], SIDES[self.merged.events[place].end]
        width = 2.6 if colour == "refused" else 1.5
        if self.merged.fate(place) == STRAY:
            outer = x - it.inward * STUB
            begin, end = (x, outer) if event.goes_out() else (outer, x)
            self.arrow(begin, y - 2, end, y + 2, colour, width, True)
            way = "to" if event.goes_out() else "from"
            words = f"{way} {side(*event.passed.datagram.peer())}: {self.rungs.label(place)}"
            self.words(it.x + 10 * it.inward, y + 4, words, place, "start" if it.inward > 0 else "end")
            return
        if self.merged.fate(place) in (REPEATED, UNSENT):
            self.arrow(MIDDLE, y - SLANT / 2, x, y, colour, width, False)
            self.parts.append(f'<circle cx="{MIDDLE}" cy="{y - SLANT / 2:.1f}" r="3" class="f-{colour}"/>')
            anchor = "end" if it.inward > 0 else "start"
            self.words(MIDDLE + 10 * it.inward, y - 2, self.rungs.label(place), place, anchor)
            return
        at = y + SLANT / 2
        self.line(x, y, MIDDLE, at, colour, f'stroke-width="{width}"')
        for rise in (-CROSS, CROSS):
            self.line(MIDDLE - CROSS, at - rise, MIDDLE + CROSS, at + rise, colour, 'stroke-width="2"')
        self.label(place, (x, y))

    def label(self, place: int, begin: tuple[float, float]) -> None:
        """The words of an arrow, above its beginning."""
        is_client = begin[0] < MIDDLE
        x = begin[0] + (12 if is_client else -12)
        self.words(x, begin[1] - 4, self.rungs.label(place), place, "start" if is_client else "end")

    def words(self, x: float, y: float, words: str, place: int, anchor: str) -> None:
        state = self.rungs.state(place)
        fill = "refused" if state == "refused" else "muted" if state in ("after", "repeat") else "words"
        self.labels.text(x, y, clipped(words, LABEL), 11, fill, anchor)

    def margin(self, place: int) -> None:
        """Number, frame and time, beside the end."""
        event, y = self.merged.events[place], self.ys[place] + 4
        datagram, it = event.passed.datagram, SIDES[event.end]
        fill = "refused" if self.rungs.is_cause(place) else "muted"
        self.text(it.number, y, f"{datagram.number:,}", 10, fill, "end")
        if datagram.frame is not None:
            self.text(it.frame, y, f"frame {datagram.frame:,}", 10, fill)
        if (since := self.merged.since(place)) is not None:
            self.text(it.time, y, f"{since:.4f} s", 10, fill, "end")

    def described(self) -> str:
        """The picture in words."""
        clock = f" {self.merged.clock.told().capitalize()}." if self.merged.clock else ""
        return f"{self.rungs.transfer()} {self.rungs.counted()}.{clock} {self.rungs.reason()}".strip()

    def picture(self) -> str:
        ends = "".join(
            f'<line x1="{it.x}" y1="{TOP - 10}" x2="{it.x}" y2="{self.y + 16:.1f}" class="s-words" stroke-width="2"/>'
            for it in SIDES.values()
        )
        told, labels = (self.pair.line, self.described()), [HALO, *self.labels.parts, "</g>"]
        return framed((WIDTH, self.y + 34), "pair", told, [ends, *self.parts, *labels], True)


def draw_pair(pair: Pair, rows: int, by_time: bool) -> str:
    """The picture of both captures."""
    return PairDrawing(pair, rows, by_time).picture()
