"""What tftp-explain says, as an object of JSON (docs/RECORDING.md)."""
from __future__ import annotations

import json
from dataclasses import asdict
from typing import Any, Optional

from .capture import Datagram, packet_of
from .explained import Told, explain
from .lost import lost
from .program import Verdict
from .recording import Judged
from .remarks import Remark, Remarks
from .rules import RULES

Object = dict[str, Any]


def datagram_object(it: Datagram) -> Object:
    return {
        "datagram": it.number, "line": it.line, "frame": it.frame, "time": it.time, "way": it.way,
        "packet": packet_of(it).told(), "payload": it.payload.hex(),
    }


def refused_object(it: Datagram, verdict: Verdict) -> Object:
    """A refused datagram and the rule that it breaks."""
    found = verdict.refused()
    assert found is not None
    rule = RULES[found[1]]
    named = {"rule": rule.number, "name": rule.printed, "fault": found[3] or None}
    return {**datagram_object(it), **named, "says": rule.says, "whose": rule.whose}


def told_objects(told: Told) -> list[Object]:
    return [{"heading": heading, "words": words} for heading, words in told]


def remark_object(it: Remark) -> Object:
    return {**refused_object(it.datagram, it.verdict), "told": told_objects(it.told)}


def what_if_object(it: Remarks) -> Object:
    """What --all adds."""
    file = {"bytes": it.file.size, "sha256": it.file.sha256} if it.file else None
    return {
        "left_out": [remark_object(remark) for remark in it.refused], "without_them": it.left.line,
        "told": told_objects(it.told), "file": file,
    }


def explained_object(path: str, audit: str, judged: Judged, remarks: Optional[Remarks]) -> Object:
    capture, verdict, row = judged.capture(), judged.verdict, judged.row
    found, accused = verdict.refused(), judged.accused()
    return {
        "file": path, "number": row.number if row else None, "end": judged.place, "verdict": verdict.line,
        "status": verdict.status, "accused": asdict(accused) if accused else None, "doubts": list(judged.doubts),
        "refused": refused_object(capture.datagrams[found[0] - 1], verdict) if found else None,
        "told": told_objects([*explain(verdict, judged.text, capture), *lost(audit, judged)]),
        "what_if": what_if_object(remarks) if remarks else None,
    }


def explained_line(path: str, audit: str, judged: Judged, remarks: Optional[Remarks]) -> str:
    """The object in a line."""
    return json.dumps(explained_object(path, audit, judged, remarks), separators=(",", ":")) + "\n"
