"""Which datagrams must be missing of a text, so that what is refused there is lawful: what tftp-audit finds of it."""
from __future__ import annotations

import re
from dataclasses import dataclass

from .capture import Capture
from .explained import Told
from .packets import count
from .program import losses
from .recording import Judged

PLACE = re.compile(r"(?:([0-9]+) incoming)?(?: and )?(?:([0-9]+) outgoing)? before datagram ([0-9]+)")


@dataclass(frozen=True)
class Gap:
    """Where datagrams must be missing: the number of the one that comes next, and how many came in and went out."""

    before: int
    came: int
    sent: int

    def from_each(self, capture: Capture) -> str:
        """How many each end sent."""
        sent = ((self.came, capture.other_end()), (self.sent, capture.end))
        return " and ".join(f"{number:,} from the {end}" for number, end in sent if number)

    def told(self, capture: Capture) -> str:
        """How many at least are missing there, in few words."""
        return f"missing here: {self.from_each(capture)}"

    def at(self, capture: Capture) -> str:
        """The same, with where it is."""
        return f"{self.from_each(capture)} before {capture.datagrams[self.before - 1].place()}"


Gaps = tuple[Gap, ...]


def gaps(audit: str, judged: Judged) -> Gaps:
    """The places that the program finds where a datagram is refused; its block numbers do not begin again. What is refused
    between the ends is lawful there too where it is so at the client."""
    refused = judged.verdict.refused()
    if not refused or judged.rollover:
        return ()
    places = PLACE.findall(losses(audit, judged.text, refused[0]))
    return tuple(Gap(int(before), int(came or 0), int(sent or 0)) for came, sent, before in places)


def told_gaps(found: Gaps, capture: Capture) -> Told:
    """What is said of them."""
    if not found:
        return []
    missing = sum(gap.came + gap.sent for gap in found)
    is_or_are = "is" if missing == 1 else "are"
    places = ", ".join(gap.at(capture) for gap in found)
    return [("If lost", f"lawful if {count(missing, 'datagram')} {is_or_are} missing: {places}.")]


def lost(audit: str, judged: Judged) -> Told:
    """The same of a verdict."""
    return told_gaps(gaps(audit, judged), judged.capture())
