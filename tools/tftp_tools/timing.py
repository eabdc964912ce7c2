"""When the datagrams of a transfer passed: which passed again and how long after, and when nothing of an end passed.

Nothing is judged by it: what a network lost, held or repeated cannot be told from what an end did."""
from __future__ import annotations

import statistics
from dataclasses import dataclass
from typing import Optional

from .capture import Capture
from .history import History, Passed, earlier
from .packets import count

# So many repeats are told at most.
MOST = 20
ENDS = ("client", "server")
OTHER = {"client": "server", "server": "client"}


@dataclass(frozen=True)
class Step:
    """A datagram of the transfer, its sender, the seconds since the first of the text, and since the same one last
    passed, if it did; there are none where the text has no times."""

    passed: Passed
    sender: str
    time: Optional[float]
    is_repeat: bool
    after: Optional[float]

    def told(self) -> str:
        return f"{self.passed.packet.short()} in {self.passed.datagram.place()}"


@dataclass(frozen=True)
class Silence:
    """Where nothing of the transfer passed, in seconds since the first datagram of the text, between these steps."""

    begin: float
    end: float
    since: Step
    until: Step

    def length(self) -> float:
        return self.end - self.begin

    def silent(self) -> str:
        """The end of which something was due: that of which something came then, but where an end had to repeat what
        it had sent itself."""
        sender = self.until.sender
        return OTHER[sender] if self.since.sender == sender and self.until.is_repeat else sender

    def told(self) -> str:
        began = f"{self.length():.3f} s, from {self.begin:.3f} s on, of the {self.silent()}"
        if self.silent() == self.until.sender:
            return f"{began}: then came its {self.until.told()}."
        return f"{began}: nothing of it had come when the {self.until.sender} repeated {self.until.told()}."


def steps_of(history: History) -> list[Step]:
    """The datagrams of a text that are of the transfer, which the history takes; not the strays."""
    datagrams, steps = history.capture.datagrams, list[Step]()
    for datagram, place in zip(datagrams, earlier(history.capture)):
        passed = history.take(datagram)
        time = datagram.seconds_since(datagrams[0])
        after = datagram.seconds_since(datagrams[place]) if place is not None else None
        if passed.place == "main":
            steps.append(Step(passed, history.capture.sender(datagram), time, place is not None, after))
    return steps


def silences_of(steps: list[Step]) -> list[Silence]:
    """The time before each step but the first, where there are times."""
    found = list[Silence]()
    for since, until in zip(steps, steps[1:]):
        if since.time is not None and until.time is not None:
            found.append(Silence(since.time, until.time, since, until))
    return found


@dataclass(frozen=True)
class Timing:
    """The repeats and the silences in their order, and the seconds of the option timeout, where one was agreed (RFC
    2349)."""

    repeats: tuple[Step, ...]
    silences: tuple[Silence, ...]
    timeout: Optional[int]

    def longest(self) -> Optional[Silence]:
        return max(self.silences, key=Silence.length) if self.silences else None

    def of(self, end: str) -> list[Step]:
        """The repeats of an end."""
        return [step for step in self.repeats if step.sender == end]

    def usual(self, end: str) -> Optional[float]:
        """After how many seconds an end's datagrams usually passed again."""
        found = [step.after for step in self.of(end) if step.after is not None]
        return statistics.median(found) if found else None

    def beside(self, step: Step) -> str:
        """How long after it last passed a datagram did so again, beside the timeout that was agreed, or what is
        usual."""
        if step.after is None:
            return "when is not known"
        usual, known = self.usual(step.sender), f"{step.after:.3f} s after it last passed"
        if self.timeout:
            return f"{known}, {step.after / self.timeout:.2f} times the {self.timeout} s that were agreed"
        if usual and len(self.of(step.sender)) > 1:
            return f"{known}, {step.after / usual:.2f} times the usual {usual:.3f} s of the {step.sender}"
        return known

    def told_timeout(self) -> str:
        """The timeout that was agreed, or else what is usual of each end."""
        if self.timeout:
            return f"{count(self.timeout, 'second')}, as was agreed (RFC 2349)."
        usual = [(end, self.usual(end)) for end in ENDS]
        told = [f"the {end}'s repeats passed after {seconds:.3f} s, usually" for end, seconds in usual if seconds]
        return "; ".join(["none was agreed", *told]) + "."

    def told(self) -> list[tuple[str, str]]:
        """Headings and words."""
        counts = " and ".join(f"{len(self.of(end)):,} of the {end}" for end in ENDS)
        longest = self.longest()
        silence = [("Longest silence", longest.told())] if longest else []
        return [*silence, ("Repeats", f"{counts}."), ("Timeout", self.told_timeout())]

    def told_repeats(self) -> list[str]:
        """The repeats, so many at most."""
        told = [f"{step.told()}, of the {step.sender}: {self.beside(step)}." for step in self.repeats[:MOST]]
        rest = len(self.repeats) - MOST
        return told + ([f"and {count(rest, 'repeat')} more."] if rest > 0 else [])


def timing_of(capture: Capture) -> Timing:
    """That of a whole text, whatever the verdict on it is."""
    history = History(capture)
    steps = steps_of(history)
    repeats = tuple(step for step in steps if step.is_repeat)
    return Timing(repeats, tuple(silences_of(steps)), history.number("timeout"))
