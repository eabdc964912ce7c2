"""A report on a recording as SARIF 2.1.0 (OASIS), which platforms for code read: a result for each refusal."""
from __future__ import annotations

import json
import os
from collections.abc import Iterable
from dataclasses import asdict
from typing import Any
from urllib.parse import quote

from .explained import explain
from .laid_out import laid_out
from .page import Entry
from .rules import RULES

Object = dict[str, Any]
VERSION = "2.1.0"
SCHEMA = "https://docs.oasis-open.org/sarif/sarif/v2.1.0/errata01/os/schemas/sarif-schema-2.1.0.json"


def text(words: str) -> Object:
    return {"text": words}


def sentence(words: str) -> str:
    return f"{words[:1].upper()}{words[1:]}."


def rule_object(number: int) -> Object:
    """A rule, by its number and name (section 3.49)."""
    rule = RULES[number]
    return {
        "id": str(number), "name": rule.printed, "shortDescription": text(sentence(rule.says)),
        "fullDescription": text(f"{sentence(rule.says)} It is by {rule.whose}."),
        "help": text(sentence(f"usually broken by {rule.usually}")), "defaultConfiguration": {"level": "error"},
    }


def address_of(path: str) -> str:
    """A path as a reference of a URI."""
    return ("file://" if os.path.isabs(path) else "") + quote(os.fsencode(path), safe="/")


def location_of(path: str, it: Entry) -> Object:
    """Where the refused datagram is: the recording's file, the transfer in it and the frame. Standard input has no
    place."""
    transfer = {"name": f"transfer {it.number()}", "fullyQualifiedName": it.listed.told()}
    frame = it.judged.row.frame if it.judged.row else None
    found: Object = {"logicalLocations": [transfer], "properties": {"frame": frame}}
    if path != "-":
        found["physicalLocation"] = {"artifactLocation": {"uri": address_of(path), "index": 0}}
    return found


def result_object(path: str, rules: list[int], it: Entry) -> Object:
    """A refusal: one without a doubt fails; one that is doubtful is for a person to look at, and so has no level
    (sections 3.27.9 and 3.27.10)."""
    number, row = it.rule_number(), it.judged.row
    reasons = laid_out([*explain(it.judged.verdict, it.judged.text, it.capture), *it.judged.told()])
    kind, level = ("fail", "error") if it.is_failure() else ("review", "none")
    accused = it.judged.accused()
    properties = {
        "transfer": it.number(), "place": row.place if row else None, "frame": row.frame if row else None,
        "verdict": it.judged.verdict.line, "accused": asdict(accused) if accused else None,
        "doubts": list(it.judged.doubts),
    }
    return {
        "ruleId": str(number), "ruleIndex": rules.index(number), "kind": kind, "level": level,
        "message": text(f"{it.says()}\n\n{reasons}"), "locations": [location_of(path, it)], "properties": properties,
    }


def sarif(path: str, entries: list[Entry], told: Iterable[str]) -> str:
    """The report; what was told of the recording beside its rows are notifications of the tool."""
    refused = [it for it in entries if it.judged.verdict.refused()]
    rules = sorted({it.rule_number() for it in refused})
    beside = [{"level": "warning", "message": text(line)} for line in told]
    run: Object = {
        "tool": {"driver": {"name": "tftp-report", "rules": [rule_object(number) for number in rules]}},
        "invocations": [{"executionSuccessful": True, "toolExecutionNotifications": beside}],
        "results": [result_object(path, rules, it) for it in refused],
    }
    if path != "-":
        run["artifacts"] = [{"location": {"uri": address_of(path)}}]
    return json.dumps({"$schema": SCHEMA, "version": VERSION, "runs": [run]}, indent=1) + "\n"
