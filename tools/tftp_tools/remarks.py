"""What the verdict would be without the datagram that is refused, and so on: all that is to be said of a transfer which
works all the same. Each of these words is the program's about a text without some datagrams, so none is a verdict."""
from __future__ import annotations

import dataclasses
import hashlib
import re
from collections.abc import Sequence
from dataclasses import dataclass
from typing import Optional

from .blocks import capture_by, take_blocks
from .capture import Capture, Datagram
from .explained import Told, explain, explain_refused
from .packets import count
from .program import Verdict, check, file_of
from .recording import Judged, Recording, Row
from .rules import RULES

MOST = 20
NOT_BETWEEN = "not told, since without the datagram that is refused no transfer is left."
NO_VERDICT = "no verdict: what follows is what the program says once the datagrams that it refused are left out."
TOTAL = re.compile(rb"total ([0-9]+)")


@dataclass(frozen=True)
class Remark:
    """A datagram that is refused once those before it are left out."""

    datagram: Datagram
    verdict: Verdict
    told: Told

    def says(self) -> str:
        """What the rule asks for."""
        found = self.verdict.refused()
        return RULES[found[1]].says if found else ""

    def rule(self) -> str:
        """The rule that it breaks, as the program writes it."""
        return " ".join(self.verdict.line.split()[4:])


@dataclass(frozen=True)
class CameOver:
    """The file that a transfer brought."""

    size: int
    sha256: str

    def told(self) -> str:
        return f"{count(self.size, 'byte')}, SHA-256 {self.sha256}"


@dataclass(frozen=True)
class Remarks:
    """Each refused datagram in turn, and what the program says of the text without them."""

    refused: tuple[Remark, ...]
    left: Verdict
    told: Told
    file: Optional[CameOver]


def named(refused: Sequence[Remark]) -> str:
    """The datagrams of these remarks, by their numbers."""
    numbers = [f"{remark.datagram.number}" for remark in refused]
    if len(numbers) == 1:
        return f"datagram {numbers[0]}"
    return f"datagrams {', '.join(numbers[:-1])} and {numbers[-1]}"


def without(text: bytes, datagram: Datagram) -> bytes:
    """The text with a comment in the place of a datagram's line, and one less as its total."""
    lines = text.split(b"\n")
    lines[datagram.line - 1] = b"# left out"
    place = next((at for at, line in enumerate(lines) if at >= datagram.line and TOTAL.fullmatch(line)), None)
    if place is not None:
        lines[place] = b"total %d" % (int(lines[place].split()[1]) - 1)
    return b"\n".join(lines)


def came_over(audit: str, text: bytes, rollover: str) -> CameOver:
    """The file of a text that is accepted."""
    file = file_of(audit, text, rollover)
    return CameOver(len(file), hashlib.sha256(file).hexdigest())


def left(capture: Capture, gone: Datagram) -> Capture:
    """The capture without a datagram; the others keep their numbers."""
    rest = dataclasses.replace(capture, datagrams=[it for it in capture.datagrams if it.line != gone.line])
    return rest if rest.rollover is None else take_blocks(rest, rest.rollover)


def remarks_of(audit: str, text: bytes, verdict: Verdict, rollover: str = "") -> Remarks:
    """Leaves out each datagram that is refused, so many at most."""
    capture, refused = capture_by(text, rollover), list[Remark]()
    while (found := verdict.refused()) and len(refused) < MOST:
        datagram = capture.datagrams[found[0] - 1]
        refused.append(Remark(datagram, verdict, explain_refused(capture, verdict)))
        text, capture = without(text, datagram), left(capture, datagram)
        verdict = check(audit, text, rollover)
    file = came_over(audit, text, rollover) if verdict.status == 0 else None
    return Remarks(tuple(refused), verdict, explain(verdict, text, capture), file)


def remarks_between(recording: Recording, judged: Judged, row: Row) -> Optional[Remarks]:
    """The same between the ends, where the frames of the refused datagrams are left out of the recording; nothing where
    the transfer is gone then."""
    capture, verdict, refused = judged.capture(), judged.verdict, list[Remark]()
    rest, last = recording, judged
    while (found := verdict.refused()) and len(refused) < MOST:
        datagram = capture.datagrams[found[0] - 1]
        refused.append(Remark(datagram, verdict, explain_refused(capture, verdict)))
        rest = recording.without([remark.datagram.frame or 0 for remark in refused])
        now = rest.row_between(row.number)
        if now is None:
            return None
        last, capture = rest.judged(now), left(capture, datagram)
        verdict = last.verdict
    return Remarks(tuple(refused), verdict, explain(verdict, last.text, capture), file_on(rest, last))


def file_on(recording: Recording, judged: Judged) -> Optional[CameOver]:
    """The file of a transfer of a recording, if it is accepted and the text of an end has it."""
    text = recording.accepted(judged) if judged.verdict.status == 0 else None
    return came_over(recording.audit, text, judged.rollover) if text is not None else None


def remarks_on(audit: str, recording: Optional[Recording], judged: Judged) -> Optional[Remarks]:
    """What is to be said further of a text, or of a transfer."""
    if recording is None or judged.row is None or not judged.is_between():
        return remarks_of(audit, judged.text, judged.verdict, judged.rollover)
    return remarks_between(recording, judged, judged.row)
