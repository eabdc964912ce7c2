"""A capture as a ladder of arrows in text, for a terminal, a mail or a reader of braille."""
from __future__ import annotations

import textwrap
from dataclasses import dataclass

from .capture import Capture
from .compared import side
from .explained import transfer
from .history import History
from .lost import Gaps
from .program import Verdict
from .rules import RULES
from .rungs import Fold, Rung, clipped, folded, rungs_of, told_fold

BETWEEN = 64
HEAD, INDENT = "   datagram   frame        time ", 33


@dataclass(frozen=True)
class Spelling:
    """What the lines of a ladder have in common."""

    capture: Capture
    verdict: Verdict
    history: History

    def margin(self, rung: Rung) -> str:
        """Number, frame and time."""
        datagram = rung.passed.datagram
        frame = f"{datagram.frame:,}" if datagram.frame is not None else ""
        since = datagram.seconds_since(self.capture.datagrams[0])
        time = f"{since:.4f} s" if since is not None else ""
        return f"{'>>' if rung.is_refused else '':2}{datagram.number:9,}{frame:>8}{time:>13} ".ljust(INDENT)

    def arrow(self, rung: Rung) -> str:
        """The words of a rung on its arrow; one between the named end and another endpoint is waved."""
        datagram = rung.passed.datagram
        words, line = rung.label(self.verdict), "-"
        if rung.is_aside():
            way = "to" if datagram.goes_out() else "from"
            words, line = f"{way} {side(datagram.host, datagram.remote)}: {words}", "~"
        words = f" {clipped(words, BETWEEN - 8)} "
        goes_right = self.capture.sender(datagram) == "client"
        if goes_right:
            return f"|{line * 3}{words}".ljust(BETWEEN, line) + ">|"
        return "|<" + f"{words}{line * 3}|".rjust(BETWEEN, line)

    def rung(self, rung: Rung) -> list[str]:
        lines = [f"{' ' * INDENT}?   {rung.gap.told(self.capture)}"] if rung.gap else []
        lines.append(self.margin(rung) + self.arrow(rung))
        refused = self.verdict.refused()
        if rung.is_refused and refused:
            lines += [f"{' ' * INDENT}|   {words}" for words in textwrap.wrap(RULES[refused[1]].says, BETWEEN - 6)]
        return lines

    def head(self) -> list[str]:
        names = [self.capture.name(end) for end in ("client", "server")]
        ends = f"{names[0]}{names[1]:>{BETWEEN + 2 - len(names[0])}}"
        return [self.verdict.line, transfer(self.history), "", f"{HEAD:{INDENT}}{ends}"]


def spell(capture: Capture, verdict: Verdict, rows: int, gaps: Gaps = ()) -> str:
    """The ladder of a capture and its verdict, in lines of text, with the places where datagrams must be missing."""
    rungs, history = rungs_of(capture, verdict, gaps)
    spelling = Spelling(capture, verdict, history)
    lines = spelling.head()
    for row in folded(rungs, rows):
        if isinstance(row, Fold):
            lines += [f"{' ' * INDENT}:   {words}" for words in told_fold(row) if words]
        else:
            lines += spelling.rung(row)
    return "".join(f"{line}\n" for line in lines)
