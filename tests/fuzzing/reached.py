"""What was reached: how often each rule, each fault of a packet and of a text, and each way a transfer ends."""
from __future__ import annotations

import collections
from collections.abc import Iterator

from fuzzing.lines import PACKET_FAULTS, TEXT_FAULTS
from fuzzing.program import Told
from normal import MODES, SIDES
from refusals import Rule

ENDS = (
    *(f"accepted {side} {mode}" for side in SIDES for mode in MODES),
    "aborted by local", "aborted by peer", "incomplete", "too long when normal",
)
# What there is to reach, by its kind, in order.
ALL: dict[str, tuple[str, ...]] = {
    "rules": tuple(str(rule) for rule in Rule), "faults of a packet": PACKET_FAULTS, "faults of a text": TEXT_FAULTS,
    "ends": ENDS,
}


def names_of(line: bytes) -> Iterator[tuple[str, str]]:
    """What a line of `check` says, by its kind."""
    words = line.decode().split()
    if words[0] == "refused":
        yield "rules", " ".join(words[4:6])
        yield from (("faults of a packet", fault) for fault in words[6:])
    elif words[0] == "fault":
        yield "faults of a text", words[3]
    else:
        yield "ends", next(end for end in ENDS if line.decode().startswith(end))


class Reached:
    """How often each was the verdict of a case."""

    def __init__(self) -> None:
        self.counts: collections.Counter[tuple[str, str]] = collections.Counter()

    def note(self, told: Told) -> None:
        self.counts.update(names_of(told[0]))


def told(counts: collections.Counter[tuple[str, str]]) -> Iterator[str]:
    """A line for each kind with all that there is of it, and one of what was not reached."""
    for kind, names in ALL.items():
        yield f"reached, {kind}: " + ", ".join(f"{name} {counts[kind, name]}" for name in names)
    missed = [name for kind, names in ALL.items() for name in names if not counts[kind, name]]
    yield f"not reached: {', '.join(missed) or 'nothing'}"
