"""Two captures of one transfer as a ladder of arrows in text: what each end did, in an order that can have been."""
from __future__ import annotations

from .compared import side
from .merged import LOST, STRAY
from .pair_rungs import Fold, PairRungs
from .pairs import Pair
from .recording import ENDS, EndName
from .rungs import clipped

BETWEEN, MARGIN = 64, 28
HALF = BETWEEN // 2


class PairSpelling:
    """The lines of the ladder."""

    def __init__(self, pair: Pair) -> None:
        self.rungs = PairRungs(pair)
        self.merged = self.rungs.merged

    def margin(self, place: int) -> str:
        """Number, frame and time."""
        datagram = self.merged.events[place].passed.datagram
        frame = f"{datagram.frame:,}" if datagram.frame is not None else ""
        since = self.merged.since(place)
        time = f"{since:.4f} s" if since is not None else ""
        return f"{datagram.number:6,}{frame:>8}{time:>13} "

    def beside(self, place: int, arrow: str) -> str:
        """An arrow between the two margins, of which those are filled whose end has something on this line."""
        places: dict[EndName, int] = {self.merged.events[at].end: at for at in self.line_of(place)}
        mark = ">>" if any(map(self.rungs.is_cause, self.line_of(place))) else ""
        left, right = (self.margin(places[end]) if end in places else "" for end in ENDS)
        return f"{mark:2}{left:{MARGIN}}{arrow}{right}".rstrip()

    def line_of(self, place: int) -> list[int]:
        """What stands on one line: both ends of a datagram, where nothing was between."""
        halves = self.rungs.halves(place)
        return halves if len(halves) == 2 and halves[1] == halves[0] + 1 else [place]

    def arrow(self, place: int) -> str:
        """The words of a datagram on its arrow, which has no head where it is not there yet."""
        event, halves = self.merged.events[place], self.rungs.halves(place)
        goes_right, words = self.rungs.sender(place) == "client", self.rungs.label(place)
        if self.merged.fate(place) == STRAY:
            way = "to" if event.goes_out() else "from"
            line = f"~~~ {clipped(f'{way} {side(*event.passed.datagram.peer())}: {words}', BETWEEN - 12)} ~~~"
            return f"|{line:{BETWEEN}}|" if event.end == "client" else f"|{line:>{BETWEEN}}|"
        if len(self.line_of(place)) == 2:
            return drawn(clipped(words, BETWEEN - 8), goes_right, True, True)
        if len(halves) == 2:
            other = self.merged.events[halves[1] if event.goes_out() else halves[0]]
            where = "comes as" if event.goes_out() else "sent as"
            words = f"{words}, {where} {other.number():,}"
        is_lost = self.merged.fate(place) == LOST
        return drawn(clipped(words, BETWEEN - 8), goes_right, event.goes_out(), not event.goes_out(), is_lost)

    def lines(self, rows: int) -> list[str]:
        lines, done = [], -1
        for row in self.rungs.rows(rows):
            if isinstance(row, Fold):
                lines += [f"{' ' * (MARGIN + 2)}:   {words}" for words in self.rungs.told_fold(row) if words]
            elif row != done:
                lines.append(self.beside(row, self.arrow(row)))
                done = self.line_of(row)[-1]
        return lines

    def head(self) -> list[str]:
        pair, merged = self.rungs.pair, self.merged
        told = [pair.line, self.rungs.transfer(), f"{self.rungs.counted()}."]
        told += [f"{merged.clock.told()}."] if merged.clock else []
        names = f"{'datagram   frame        time':>{MARGIN}}  client{'server':>{BETWEEN - 4}}"
        return [*told, "", f"{names}{'datagram   frame        time':>{MARGIN + 1}}"]


def drawn(words: str, goes_right: bool, begins: bool, ends: bool, is_lost: bool = False) -> str:
    """An arrow with its words; dots stand where it goes on below or comes from above, a cross where it is lost."""
    line, cross = "-" if begins and ends else ".", "x" if is_lost else ""
    if goes_right:
        head, tail = "--- " if begins else f"{line * 3} ", f"{cross} " if not ends else "->"
        return f"|{head}{words} ".ljust(BETWEEN - len(tail) + 1, line) + f"{tail}|"
    head, tail = "<-" if ends else f" {cross}", " ---" if begins else f" {line * 3}"
    return f"|{head}" + f" {words}{tail}|".rjust(BETWEEN - len(head) + 1, line)


def spell_pair(pair: Pair, rows: int) -> str:
    """The ladder of both captures, in lines of text."""
    spelling = PairSpelling(pair)
    return "".join(f"{line}\n" for line in (*spelling.head(), *spelling.lines(rows)))
