"""Captures of examples/ with lines that are gone, doubled, cut or changed: whatever the verdict, it is explained, in
words and in JSON, drawn, written and counted, and the pictures are well formed.
"""
from __future__ import annotations

import json
import random
import xml.etree.ElementTree as ElementTree
from collections.abc import Callable

from checks import Checks
from programs import AUDIT
from repository import TOP
from tftp_tools.beside import bytes_beside
from tftp_tools.capture import read_capture
from tftp_tools.drawn import draw
from tftp_tools.explained import explain
from tftp_tools.facts import facts_of
from tftp_tools.plotted import plot
from tftp_tools.program import check
from tftp_tools.recording import Judged
from tftp_tools.remarks import remarks_of
from tftp_tools.spelt import spell
from tftp_tools.told_json import explained_line

CASES, SEED, ROWS = 250, 1, 60
DATAGRAM = b"in ", b"out "
# What is put behind a payload, in hex.
BEHIND = b"00", b"ff", b"6100", b"0000", b"1b5b326a00"


def doubled(chance: random.Random, lines: list[bytes], at: int) -> bytes:
    return chance.choice([line for line in lines if line.startswith(DATAGRAM)])


def gone(chance: random.Random, lines: list[bytes], at: int) -> bytes:
    return b"# gone"


def with_a_sign(chance: random.Random, lines: list[bytes], at: int) -> bytes:
    line = bytearray(lines[at])
    line[chance.randrange(max(0, len(line) - 60), len(line))] = chance.choice(b"0123456789abcdef")
    return bytes(line)


def cut(chance: random.Random, lines: list[bytes], at: int) -> bytes:
    head, _, payload = lines[at].rpartition(b" ")
    return head + b" " + (payload[: 2 * chance.randint(0, len(payload) // 2)] or b"-")


def longer(chance: random.Random, lines: list[bytes], at: int) -> bytes:
    return lines[at] + chance.choice(BEHIND)


CHANGES: tuple[Callable[[random.Random, list[bytes], int], bytes], ...] = (gone, doubled, with_a_sign, cut, longer)


def changed(chance: random.Random, text: bytes) -> bytes:
    """The text with some changes, and the total that it has then."""
    lines = text.split(b"\n")
    places = [at for at, line in enumerate(lines) if line.startswith(DATAGRAM)]
    for at in chance.choices(places, k=chance.randint(1, 4)):
        lines[at] = chance.choice(CHANGES)(chance, lines, at) if lines[at].startswith(DATAGRAM) else lines[at]
    total = sum(line.startswith(DATAGRAM) for line in lines)
    return b"\n".join(b"total %d" % total if line.startswith(b"total") else line for line in lines)


def try_text(program: str, text: bytes) -> str:
    """Why the scripts have no words for a text, or nothing."""
    verdict, capture = check(program, text), read_capture(text)
    remarks = remarks_of(program, text, verdict)
    told = explain(verdict, text, capture)
    written = json.loads(explained_line("-", program, Judged(text, verdict), remarks))
    is_sound = bool(told) and all(words.isprintable() for _, words in told) and written["verdict"] == verdict.line
    if capture.datagrams:
        ElementTree.fromstring(draw(capture, verdict, ROWS, True))
        ElementTree.fromstring(plot(capture, verdict))
        is_sound = is_sound and spell(capture, verdict, ROWS).isascii() and facts_of(capture).bytes >= 0
    is_sound = is_sound and bool(bytes_beside(capture, verdict)) == bool(verdict.refused())
    return "" if is_sound else verdict.line


def tried(program: str, text: bytes) -> str:
    """The same, where a script that fails is told."""
    try:
        return try_text(program, text)
    except Exception as failure:  # whatever it is, the case is told
        return repr(failure)


class Changed(Checks):
    """What the scripts say of changed captures."""

    needs = (AUDIT,)

    def test_captures(self) -> None:
        chance = random.Random(SEED)
        texts = [path.read_bytes() for path in sorted((TOP / "examples").glob("*.capture"))]
        for number in range(CASES):
            text = changed(chance, chance.choice(texts))
            why = tried(AUDIT.path, text)
            self.check(f"case {number} of seed {SEED}", not why, (why, text))
