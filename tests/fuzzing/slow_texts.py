"""What each command prints of any text, slowly: the lines of docs/SPECIFICATION.md ("The capture text"), and what
slow_judge.py says of their datagrams.
"""
from __future__ import annotations

import dataclasses
from collections.abc import Iterator
from typing import Optional

from captures import EndName
from fuzzing.slow_judge import Rollover, Verdict, verdict_of
from fuzzing.spelled import Ack, Data, Fault, Oack, Request, read
from fuzzing.views import Datagram
from normal import Output, outputs_of_refused

LONGEST_LINE, LONGEST_HOST, LONGEST_PAYLOAD = {1: 131_070, 2: 131_116}, 45, 65_527
ENDS: dict[bytes, EndName] = {b"end client": "client", b"end server": "server"}
VERSIONS = {b"tftp-capture 1": 1, b"tftp-capture 2": 2}
HEX = frozenset(b"0123456789abcdefABCDEF")


@dataclasses.dataclass
class Reading:
    """A text as far as it is a capture, with the fault that it has, if it has one, and its line."""

    version: int = 1
    end: Optional[EndName] = None
    service: Optional[int] = None
    datagrams: list[Datagram] = dataclasses.field(default_factory=list)
    is_whole: bool = False
    fault: Optional[bytes] = None


def port_in(text: bytes) -> Optional[int]:
    """The port that a decimal number without leading zeros is."""
    is_decimal = text.isdigit() and not text.startswith(b"0") and len(text) <= 5
    return int(text) if is_decimal and int(text) <= 65_535 else None


def is_host(text: bytes) -> bool:
    return 1 <= len(text) <= LONGEST_HOST and all(33 <= sign <= 126 for sign in text)


def is_hex(text: bytes) -> bool:
    return text == b"-" or len(text) >= 2 and len(text) % 2 == 0 and HEX.issuperset(text)


def read_head(reading: Reading, line: bytes) -> str:
    """Reads the second or third line; its fault, or nothing."""
    if reading.end is None:
        reading.end = ENDS.get(line)
        return "" if reading.end else "BadEnd"
    word, _, port = line.partition(b" ")
    reading.service = port_in(port) if word == b"service" else None
    return "" if reading.service else "BadService"


def read_body(reading: Reading, line: bytes) -> str:
    """Reads a datagram's line or the total; its fault, or nothing."""
    word, *fields = line.split(b" ")
    if word == b"total" and len(fields) == 1:
        reading.is_whole = fields[0] == b"%d" % len(reading.datagrams)
        return "" if reading.is_whole else "TotalWrong"
    if word not in (b"in", b"out") or len(fields) != reading.version + 2:
        return "BadLine"
    host = fields.pop(1) if reading.version == 2 else b"-"
    local, remote, payload = port_in(fields[0]), port_in(fields[1]), fields[2]
    if local is None or remote is None:
        return "BadPort"
    if not is_host(host):
        return "BadHost"
    if not is_hex(payload):
        return "BadHex"
    content = b"" if payload == b"-" else bytes.fromhex(payload.decode())
    if len(content) > LONGEST_PAYLOAD:
        return "PayloadTooLong"
    reading.datagrams.append(Datagram(word == b"out", local, (host, remote), content))
    return ""


def read_line(reading: Reading, number: int, line: bytes) -> str:
    """Reads one that ends by LF; its fault, or nothing."""
    if number == 1:
        reading.version = VERSIONS.get(line, 1)
        return "" if line in VERSIONS else "BadHeader"
    if not line or line.startswith(b"#"):
        return ""
    return read_head(reading, line) if reading.service is None else read_body(reading, line)


def reading_of(text: bytes) -> Reading:
    """What a text says before its fault, if it has one."""
    reading, at, number = Reading(), 0, 0
    while not reading.is_whole or at < len(text):
        number, end = number + 1, text.find(b"\n", at)
        line = text[at : end if end >= 0 else len(text)]
        fault = read_line(reading, number, line) if end >= 0 and not reading.is_whole else "Truncated"
        if reading.is_whole and at < len(text) and fault == "Truncated":
            fault = "TrailingText"
        elif len(line) > LONGEST_LINE[reading.version if number > 1 else 1]:
            fault = "LineTooLong"
        if fault:
            reading.fault = b"fault line %d %s\n" % (number, fault.encode())
            return reading
        at = end + 1
    return reading


def row(number: int, it: Datagram) -> bytes:
    """What `show` prints of a datagram."""
    found = read(it.payload)
    if isinstance(found, Fault):
        said = f"malformed {found}"
    elif isinstance(found, Request):
        said = "RRQ" if found.side == "get" else "WRQ"
    elif isinstance(found, Data):
        said = f"DATA {found.block} {len(found.content)}"
    elif isinstance(found, Oack):
        said = "OACK"
    else:
        said = f"ACK {found.block}" if isinstance(found, Ack) else f"ERROR {found.code}"
    return f"{number} {'out' if it.goes_out else 'in'} {said}\n".encode()


def rows(reading: Reading) -> Iterator[bytes]:
    yield from (row(number, it) for number, it in enumerate(reading.datagrams, 1))
    if reading.fault:
        yield reading.fault


def judged(reading: Reading, rollover: Rollover = None) -> Verdict:
    if reading.end is None or reading.service is None:
        return Verdict((reading.fault or b"", 2))
    return verdict_of(reading.end, reading.service, reading.datagrams, reading.fault, rollover)


class Answers:
    """What each command prints of a text, and its status."""

    def __init__(self, text: bytes) -> None:
        self.reading = reading_of(text)
        self.verdict = judged(self.reading)

    def of(self, command: str) -> Output:
        if command == "show":
            return b"".join(rows(self.reading)), 2 if self.reading.fault else 0
        meaning = self.verdict.meaning
        if meaning is None:
            return outputs_of_refused(self.verdict.told)[command]
        return meaning.outputs(self.verdict.told)[command]

    def by_number(self, rollover: Rollover) -> Output:
        """What `check` prints where block numbers begin again so."""
        return judged(self.reading, rollover).told
