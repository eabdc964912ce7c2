"""Recordings of drawn or listed datagrams, and what the program that reads recordings says of them."""
from __future__ import annotations

import json
import subprocess
from collections.abc import Sequence
from dataclasses import dataclass, field

import recorded
import repository  # noqa: F401
from recorded import Frame
from fuzzing.attribution import Datagram
from tftp_tools.written import packet_of as packet_of

CAN_TAKE = 120


def recording(datagrams: Sequence[Datagram]) -> bytes:
    """A recording of raw IP with these datagrams, at their times."""
    frames = []
    for number, it in enumerate(datagrams):
        ends = it.source.host, it.source.port, it.target.host, it.target.port
        packet = packet_of(recorded.Datagram(*ends, it.payload), number)
        frames.append(Frame(recorded.RAW, packet, it.nanoseconds()))
    return recorded.pcap(frames, is_nano=True)


@dataclass(frozen=True)
class Row:
    """A verdict on a transfer, as the program says it; which end it accuses is no part of it, where rows are
    compared."""

    number: int
    place: str
    frame: int | None
    verdict: str
    doubts: tuple[str, ...] = ()
    accused: str = field(default="", compare=False)

    def is_accused(self) -> bool:
        return self.verdict.startswith("refused") and not self.doubts


def row_of(line: str) -> Row:
    it = json.loads(line)
    row = Row(it["number"], it["place"], it["frame"], it["verdict"], tuple(it["doubts"]), ended(it["accused"]))
    assert bool(row.accused) == row.is_accused(), line
    return row


def ended(it: dict[str, str | int] | None) -> str:
    """The role and the endpoint of an end that is accused; nothing where none is."""
    return f"{it['role']} {it['host']}:{it['port']}" if it else ""


def said(program: str, words: Sequence[str], given: bytes) -> tuple[str, str, int]:
    """What the program writes, what it tells beside, and its status."""
    done = subprocess.run([program, *words], input=given, capture_output=True, timeout=CAN_TAKE)
    return done.stdout.decode("ascii"), done.stderr.decode(), done.returncode


def checked(program: str, given: bytes, *words: str) -> tuple[list[Row], str, int]:
    """The verdicts on the transfers of a recording, what is told beside, and the status."""
    output, told, status = said(program, ["check", "--json", *words, "-"], given)
    return [row_of(line) for line in output.splitlines()], told, status
