"""The line of a capture text that has its fault, and the sign at which it is wrong (docs/SPECIFICATION.md)."""
from __future__ import annotations

import re
from typing import Optional

from .capture import read_capture
from .packets import count, words_of

SHOWN = 90
MEANINGS = {
    "Truncated": "the text ends before the end of its total line, so it is not known what else passed",
    "TrailingText": "nothing may stand behind the total line",
    "TextTooLong": "a text has at most 2^40 bytes",
    "LineTooLong": "a line has at most 131,070 bytes, in version 2 131,116",
    "BadHeader": "the first line is tftp-capture 1 or tftp-capture 2",
    "BadEnd": "the second line that says something is end client or end server",
    "BadService": "the third line that says something is service and a port",
    "BadLine": "a line here is in or out with its fields, or total and a number; one space stands between fields",
    "BadPort": "a port is a decimal number from 1 to 65535 without leading zeros",
    "BadHost": "a host is 1 to 45 signs, without spaces",
    "BadHex": "a payload is - or pairs of hex digits",
    "PayloadTooLong": "a payload has at most 65,527 bytes",
    "TotalWrong": "the total is the number of the datagrams",
    "Read": "reading failed, so nothing is known of what follows",
}
# What a file is by its first bytes, where it is no capture text.
MAGICS = {
    b"\x1f\x8b": "compressed by gzip: decompress it first, as in gzip -dc FILE | tftp-explain",
    b"\x28\xb5\x2f\xfd": "compressed by zstd: decompress it first, as in zstd -dc FILE | tftp-explain",
    b"\xfd7zXZ\0": "compressed by xz: decompress it first, as in xz -dc FILE | tftp-explain",
    b"BZh": "compressed by bzip2: decompress it first, as in bzip2 -dc FILE | tftp-explain",
    b"PK\3\4": "a zip archive: take the recording out of it first",
    b"\x7fELF": "a program (ELF)",
    b"snoop\0": "a recording in the format of snoop: editcap -F pcapng brings it into one that is read",
}


def kind_of(text: bytes) -> str:
    """What it is by its first bytes, or nothing where they do not tell."""
    if not text:
        return "empty"
    return next((kind for magic, kind in MAGICS.items() if text.startswith(magic)), "")


def line_of(text: bytes, number: int) -> Optional[bytes]:
    """The line with this number, if the text has got so far."""
    lines = text.split(b"\n")
    return lines[number - 1] if number <= len(lines) else None


def told_line(line: bytes) -> str:
    more = f" and {count(len(line) - SHOWN, 'byte')} more" if len(line) > SHOWN else ""
    return f"{words_of(line[:SHOWN])}{more}"


def sign(line: bytes, column: int, wanted: str) -> str:
    """What stands at a place of a line, counted from 1."""
    if column > len(line):
        return f"it ends after sign {len(line)}, where {wanted} is due"
    return f"sign {column} is {words_of(line[column - 1 : column])}, where {wanted} is due"


def is_port(piece: bytes) -> bool:
    return bool(re.fullmatch(rb"[1-9][0-9]{0,4}", piece)) and int(piece) <= 65_535


def wrong_hex(line: bytes) -> str:
    start = line.rfind(b" ") + 1
    payload = line[start:]
    for place, digit in enumerate(payload):
        if digit not in b"0123456789abcdefABCDEF":
            return sign(line, start + place + 1, "a hex digit")
    if not payload:
        return sign(line, start + 1, "a payload")
    return f"the payload has {count(len(payload), 'hex digit')}, and they come in pairs"


def wrong_fields(line: bytes, version: int) -> str:
    pieces, wanted = line.split(b" "), 4 if version == 1 else 5
    if pieces[0] in (b"in", b"out"):
        fields = count(len(pieces), "field")
        told = f"it has {fields} between single spaces, and in version {version} there are {wanted}"
        empty = " (one of them is empty: two spaces, or one at the end)" if b"" in pieces else ""
        return told + empty
    if pieces[0] == b"total":
        return f"it has {count(len(pieces), 'field')} between single spaces, and a total has 2"
    return f"it begins with {words_of(pieces[0][:20])}, which is not in, out or total"


def wrong_port(line: bytes) -> str:
    pieces = line.split(b" ")
    for place in (1, len(pieces) - 2):
        if not is_port(pieces[place]):
            column = len(b" ".join(pieces[:place])) + 2
            return f"the port {words_of(pieces[place][:20])}, from sign {column} on, is none"
    return ""


def wrong_sign(text: bytes, name: str, line: bytes) -> str:
    """Where in its line the fault is, in words, or nothing where the line tells it."""
    if line.endswith(b"\r") and name.startswith("Bad"):
        return "it ends in CR LF, and lines end in LF alone"
    if name == "BadHex":
        return wrong_hex(line)
    if name == "BadLine":
        return wrong_fields(line, read_capture(text).version)
    if name == "BadPort":
        return wrong_port(line)
    if name == "BadHost":
        return f"the host is {words_of(line.split(b' ')[2][:60])}"
    if name == "PayloadTooLong":
        return f"it has {count((len(line) - line.rfind(b' ') - 1) // 2, 'byte')}"
    if name == "TotalWrong":
        return f"{count(len(read_capture(text).datagrams), 'datagram')} stand before it"
    if name == "LineTooLong":
        return f"it has {count(len(line), 'byte')}"
    return ""


def explain_fault(text: bytes, number: int, name: str) -> list[tuple[str, str]]:
    """What is wrong with a text, as pairs of a heading and words."""
    line = line_of(text, number)
    told = [("Where", f"line {number} of the text; nothing is said of the transfer.")]
    if kind := kind_of(text):
        return [*told, ("File", f"it is {kind}; a capture text or a recording is wanted.")]
    if line is not None and (line or name != "Truncated"):
        told.append(("Line", told_line(line)))
    told.append(("Fault", f"{name}: {MEANINGS.get(name, 'see docs/SPECIFICATION.md')}."))
    if line is not None and (where := wrong_sign(text, name, line)):
        told.append(("Sign", f"{where}."))
    if name == "Truncated":
        told.append(("Has", f"{count(len(read_capture(text).datagrams), 'datagram')} on whole lines before that."))
        told.append(("Usually", "a text that was cut while it was copied or written, or whose total line is missing."))
    return told
