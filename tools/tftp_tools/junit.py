"""A report on a recording as JUnit's XML, which servers that run tests read: a test case for each row of verdicts."""
from __future__ import annotations

import re
from collections import Counter
from collections.abc import Iterable
from xml.etree import ElementTree as Xml

from .explained import explain
from .laid_out import laid_out
from .page import Entry, name_of

# What XML 1.0 cannot have.
UNSPEAKABLE = re.compile("[^\t\n\r\x20-\ud7ff\ue000-\ufffd\U00010000-\U0010ffff]")


def spoken(text: str) -> str:
    """The text, with what XML cannot have escaped."""
    return UNSPEAKABLE.sub(lambda found: f"\\x{ord(found[0]):02x}", text)


def said_in(parent: Xml.Element, tag: str, text: str, **attributes: str) -> Xml.Element:
    """A part with a text."""
    made = Xml.SubElement(parent, tag, {name: spoken(value) for name, value in attributes.items()})
    made.text = spoken(text)
    return made


def why_skipped(it: Entry) -> str:
    """Why nobody is accused of what is not accepted: the verdict, and what makes it doubtful."""
    return "; ".join([it.says(), *it.judged.doubts])


def add_case(suite: Xml.Element, recording: str, it: Entry) -> None:
    """A row: what is refused without a doubt is a failure, and what else is not accepted is skipped."""
    listed, verdict, place = it.listed, it.judged.verdict, it.judged.row.place if it.judged.row else ""
    name = f"transfer {it.number()}, {place}: {listed.told()}"
    case = said_in(suite, "testcase", "", classname=recording, name=name, time=f"{it.facts.seconds or 0:.3f}")
    reasons = laid_out([*explain(verdict, it.judged.text, it.capture), *it.judged.told()])
    if it.is_failure():
        said_in(case, "failure", f"{verdict.line}\n\n{reasons}", message=verdict.line, type=it.rule())
    elif verdict.status != 0:
        said_in(case, "skipped", "", message=why_skipped(it))
        said_in(case, "system-out", f"{it.says()}\n\n{reasons}")


def counts_of(entries: list[Entry]) -> dict[str, str]:
    """What a suite says of its cases."""
    kinds = Counter("failures" if it.is_failure() else "skipped" for it in entries if it.judged.verdict.status != 0)
    seconds = sum(it.facts.seconds or 0 for it in entries)
    counted = {name: str(kinds[name]) for name in ("failures", "skipped")}
    return {"tests": str(len(entries)), **counted, "errors": "0", "time": f"{seconds:.3f}"}


def junit(path: str, entries: list[Entry], told: Iterable[str]) -> str:
    """The report; what was told of the recording beside its rows is the suite's standard error."""
    recording, counts = name_of(path), counts_of(entries)
    whole = Xml.Element("testsuites", {"name": "tftp-report", **counts})
    suite = Xml.SubElement(whole, "testsuite", {"name": recording, **counts})
    for it in entries:
        add_case(suite, recording, it)
    if beside := list(told):
        said_in(suite, "system-err", "".join(f"{line}\n" for line in beside))
    Xml.indent(whole)
    return f'<?xml version="1.0" encoding="UTF-8"?>\n{Xml.tostring(whole, encoding="unicode")}\n'
