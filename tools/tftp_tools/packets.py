"""What a payload says (RFC 1350, section 5; RFC 2347), in words for people. The program judges; this only reads."""
from __future__ import annotations

import re
from dataclasses import dataclass
from typing import Optional, Union

# RFC 1350, section 5, and RFC 2347 for code 8.
ERROR_CODES = {
    0: "not defined",
    1: "file not found",
    2: "access violation",
    3: "disk full or allocation exceeded",
    4: "illegal TFTP operation",
    5: "unknown transfer ID",
    6: "file already exists",
    7: "no such user",
    8: "options refused",
}
Options = tuple[tuple[str, str], ...]


def words_of(text: bytes) -> str:
    """Bytes as a person may read them, between quotes, with all that is not plain ASCII escaped."""
    shown = "".join(chr(byte) if 32 <= byte < 127 and chr(byte) not in "\\\"" else f"\\x{byte:02x}" for byte in text)
    return f'"{shown}"'


@dataclass(frozen=True)
class Request:
    kind: str
    name: str
    mode: str
    options: Options

    def told(self) -> str:
        verb = "RRQ, asks to read" if self.kind == "get" else "WRQ, asks to write"
        return f"{verb} {self.name} in mode {self.mode}, {told_options(self.options)}"

    def short(self) -> str:
        return f"{'RRQ' if self.kind == 'get' else 'WRQ'} {self.name}"

    def asked(self) -> str:
        """The same with the mode and the options."""
        return " ".join([self.short(), self.mode, *(f"{name}={value}" for name, value in self.options)])


def by_number(number: Optional[int]) -> str:
    """The number by which a block passed, where that is another."""
    return f" by number {number}" if number is not None else ""


@dataclass(frozen=True)
class Data:
    block: int
    content: bytes
    # the number by which it passed, where numbers began again
    number: Optional[int] = None

    def told(self) -> str:
        return f"DATA, block {self.block}{by_number(self.number)}, {count(len(self.content), 'byte')}"

    def short(self) -> str:
        size = count(len(self.content), "byte")
        if self.number is None:
            return f"DATA {self.block} ({size})"
        return f"DATA {self.number} (block {self.block}, {size})"


@dataclass(frozen=True)
class Ack:
    block: int
    number: Optional[int] = None

    def told(self) -> str:
        return f"ACK, acknowledges block {self.block}{by_number(self.number)}"

    def short(self) -> str:
        return f"ACK {self.block}" if self.number is None else f"ACK {self.number} (block {self.block})"


@dataclass(frozen=True)
class Error:
    code: int
    message: bytes

    def told(self) -> str:
        meaning = ERROR_CODES.get(self.code, "a code of no RFC")
        return f"ERROR, code {self.code} ({meaning}), message {words_of(self.message)}"

    def short(self) -> str:
        return f"ERROR {self.code} {words_of(self.message)}"


@dataclass(frozen=True)
class Oack:
    options: Options

    def told(self) -> str:
        return f"OACK, agrees to {told_options(self.options)}"

    def short(self) -> str:
        return f"OACK {' '.join(f'{name}={value}' for name, value in self.options)}".rstrip()


@dataclass(frozen=True)
class Unread:
    """A payload that is none of these."""

    payload: bytes

    def told(self) -> str:
        if not self.payload:
            return "no bytes at all"
        shown = self.payload[:24].hex(" ")
        more = f" and {count(len(self.payload) - 24, 'byte')} more" if len(self.payload) > 24 else ""
        return f"no packet that can be read; its bytes are {shown}{more}, as text {words_of(self.payload[:48])}"

    def short(self) -> str:
        return f"no packet ({count(len(self.payload), 'byte')})"


Packet = Union[Request, Data, Ack, Error, Oack, Unread]


def count(number: int, thing: str) -> str:
    return f"{number:,} {thing}{'' if number == 1 else 's'}"


def told_options(options: Options) -> str:
    if not options:
        return "no options"
    return "options " + ", ".join(f"{name} {value}" for name, value in options)


def number_of(value: str) -> Optional[int]:
    """The number that an option's value is, if it is one."""
    return int(value) if re.fullmatch("[0-9]{1,40}", value) else None


def plain(text: bytes) -> str:
    """The text, or where it has other signs than those of ASCII that are seen, the text between quotes."""
    return text.decode() if re.fullmatch(rb"[!-~]+", text) else words_of(text)


def options_of(strings: list[bytes]) -> Options:
    """Names in lower case with their values; a value that is not plain text stands between quotes."""
    texts = [plain(text) for text in strings]
    return tuple((name.lower(), value) for name, value in zip(texts[::2], texts[1::2]))


def read_packet(payload: bytes) -> Packet:
    opcode, rest = payload[:2], payload[2:]
    if opcode in (b"\0\1", b"\0\2") and rest.endswith(b"\0"):
        strings = rest[:-1].split(b"\0")
        if len(strings) >= 2 and len(strings) % 2 == 0:
            kind = "get" if opcode == b"\0\1" else "put"
            return Request(kind, words_of(strings[0]), plain(strings[1]).lower(), options_of(strings[2:]))
    if opcode == b"\0\3" and len(rest) >= 2:
        return Data(int.from_bytes(rest[:2], "big"), rest[2:])
    if opcode == b"\0\4" and len(rest) == 2:
        return Ack(int.from_bytes(rest, "big"))
    if opcode == b"\0\5" and len(rest) >= 3 and rest.find(b"\0", 2) == len(rest) - 1:
        return Error(int.from_bytes(rest[:2], "big"), rest[2:-1])
    if opcode == b"\0\6" and (not rest or rest.endswith(b"\0")):
        strings = rest[:-1].split(b"\0") if rest else []
        if len(strings) % 2 == 0:
            return Oack(options_of(strings))
    return Unread(payload)


def is_request(payload: bytes) -> bool:
    """Whether it begins as a request, readable or not."""
    return payload[:2] in (b"\0\1", b"\0\2")
