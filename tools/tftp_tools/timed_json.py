"""A report on a recording as an object of JSON a line for each row of verdicts, with its times."""
from __future__ import annotations

import json
from collections.abc import Iterable
from typing import Any, Optional

from .page import Entry
from .timing import ENDS, Silence, Step, Timing, timing_of

Object = dict[str, Any]


def step_object(step: Step) -> Object:
    """A datagram that passed again."""
    datagram = step.passed.datagram
    packet = step.passed.packet.short()
    return {"datagram": datagram.number, "frame": datagram.frame, "packet": packet, "after": step.after}


def silence_object(it: Optional[Silence]) -> Optional[Object]:
    """The longest silence, in seconds since the first datagram, and the datagram at which it ended."""
    if it is None:
        return None
    datagram = it.until.passed.datagram
    ended = {"datagram": datagram.number, "frame": datagram.frame}
    return {"end": it.silent(), "begin": it.begin, "seconds": round(it.length(), 9), **ended}


def times_object(it: Entry, timing: Timing) -> Object:
    """How long it took, how fast it was, and what passed again."""
    repeats = {end: [step_object(step) for step in timing.of(end)] for end in ENDS}
    usual = {end: timing.usual(end) for end in ENDS}
    return {
        "seconds": it.facts.seconds, "bytes": it.facts.bytes, "rate": it.facts.rate(), "timeout": timing.timeout,
        "usual": usual, "silence": silence_object(timing.longest()), "repeats": repeats,
    }


def entry_object(path: str, it: Entry) -> Object:
    listed, row = it.listed, it.judged.row
    return {
        "file": path, "number": listed.number, "client": listed.client, "server": listed.server, "kind": listed.kind,
        "mode": listed.mode, "asked": listed.file, "place": row.place if row else None,
        "verdict": it.judged.verdict.line, "doubts": list(it.judged.doubts),
        "times": times_object(it, timing_of(it.capture)),
    }


def timed_json(path: str, entries: list[Entry], told: Iterable[str]) -> str:
    """The report; what was told of the recording beside its rows is on standard error alone."""
    return "".join(f"{json.dumps(entry_object(path, it), separators=(',', ':'))}\n" for it in entries)
