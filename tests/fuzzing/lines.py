"""Every line that the program prints of a text that is given whole, with ample memory."""
from __future__ import annotations

import re

from refusals import Rule

PACKET_FAULTS = (
    "Short", "Opcode", "AckLength", "NoTerminator", "OddOptions", "EmptyOptionName", "DuplicateOption", "UnknownMode",
    "MailMode", "RequestTooLong",
)
TEXT_FAULTS = (
    "BadHeader", "BadEnd", "BadService", "LineTooLong", "BadLine", "BadPort", "BadHost", "BadHex", "PayloadTooLong",
    "TotalWrong", "Truncated", "TrailingText",
)
MALFORMED = "|".join(PACKET_FAULTS)
BROKEN = "|".join(f"{rule} ({MALFORMED})" if rule is Rule.MALFORMED else str(rule) for rule in Rule)
NUMBER = "(0|[1-9][0-9]*)"
FAULT = f"fault line [1-9][0-9]* ({'|'.join(TEXT_FAULTS)})\n"
# Each verdict and the status that goes with it.
VERDICTS = tuple(
    (re.compile(f"{line}\n".encode()), status)
    for line, status in (
        (f"accepted (get|put) (octet|netascii) blocks [1-9][0-9]* bytes {NUMBER}", 0),
        (f"refused datagram [1-9][0-9]* rule ({BROKEN})", 1),
        (f"aborted by (local|peer) code {NUMBER}", 1),
        (f"incomplete after {NUMBER}", 1),
        ("too long when normal", 1),
        (FAULT[:-1], 2),
    )
)
ROW = re.compile(
    f"([1-9][0-9]*) (in|out) (RRQ|WRQ|DATA {NUMBER} {NUMBER}|ACK {NUMBER}|ERROR {NUMBER}|OACK|malformed ({MALFORMED}))"
    "\n".encode()
)
FAULTS = re.compile(FAULT.encode())


def is_verdict(output: bytes, status: int | None) -> bool:
    """Whether this is a line of `check` with its status."""
    return any(line.fullmatch(output) and status == its for line, its in VERDICTS)


def is_shown(output: bytes, status: int | None) -> bool:
    """Whether these are lines of `show`, numbered from 1, with their status."""
    rows = output.splitlines(keepends=True)
    if status == 2 and rows and FAULTS.fullmatch(rows[-1]):
        rows.pop()
    elif status != 0:
        return False
    matches = (ROW.fullmatch(row) for row in rows)
    return all(match and int(match[1]) == number for number, match in enumerate(matches, 1))
