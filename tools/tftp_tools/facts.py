"""What is counted of a transfer: how long it took, how fast its file came over, what was repeated, where it stood
still."""
from __future__ import annotations

import statistics
from dataclasses import dataclass
from typing import Optional

from .capture import Capture, Datagram
from .history import History, content_of, history_before, repeats
from .packets import Ack, Data, Options, read_packet

# A pause is as long as this, and so many times the usual distance of two datagrams.
LEAST_PAUSE, TIMES_USUAL = 0.1, 10


@dataclass(frozen=True)
class Pause:
    """Where nothing passed, in seconds since the first datagram."""

    begin: float
    end: float


@dataclass(frozen=True)
class Facts:
    """What was counted, at the end whose text it is; the seconds are known where the text has times."""

    seconds: Optional[float]
    # of the blocks that passed, each once
    bytes: int
    repeated_blocks: int
    repeated_acks: int
    # of the blocks below the highest those that did not pass
    missing: tuple[int, ...]
    pauses: tuple[Pause, ...]
    agreed: Options

    def rate(self) -> Optional[float]:
        """Bytes a second."""
        return self.bytes / self.seconds if self.seconds else None


def times_of(capture: Capture) -> list[Optional[float]]:
    """Of each datagram the seconds since the first."""
    return [it.seconds_since(capture.datagrams[0]) for it in capture.datagrams]


def pauses_of(times: list[float]) -> tuple[Pause, ...]:
    distances = [after - before for before, after in zip(times, times[1:])]
    least = max(LEAST_PAUSE, TIMES_USUAL * statistics.median(distances)) if distances else 0
    return tuple(Pause(before, after) for before, after in zip(times, times[1:]) if after - before >= least)


def repeated(capture: Capture, kind: type) -> int:
    """How many packets of a kind passed before."""
    again = zip(capture.datagrams, repeats(capture))
    return sum(is_repeat and isinstance(read_packet(it.payload), kind) for it, is_repeat in again)


def facts_of(capture: Capture) -> Facts:
    """What is counted of a whole text, whatever the verdict on it is."""
    history: History = history_before(capture, len(capture.datagrams) + 1)
    times = [time for time in times_of(capture) if time is not None]
    highest = max(history.blocks, default=0)
    missing = tuple(block for block in range(1, highest) if block not in history.blocks)
    size = sum(len(content_of(passed)) for passed in history.blocks.values())
    seconds = times[-1] - times[0] if len(times) > 1 else None
    again = repeated(capture, Data), repeated(capture, Ack)
    return Facts(seconds, size, *again, missing, pauses_of(times), history.agreed())


def datagram_at(capture: Capture, number: int) -> Optional[Datagram]:
    return next((it for it in capture.datagrams if it.number == number), None)
