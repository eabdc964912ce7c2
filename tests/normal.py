"""The normal capture of a transfer, made from its meaning by the formats alone."""
from __future__ import annotations

import dataclasses
from collections.abc import Mapping, Sequence
from typing import Literal, Optional, Union

Side = Literal["get", "put"]
Mode = Literal["octet", "netascii"]
# What an option means, by its name in lower case: a number, or the bytes themselves.
Value = Union[int, bytes]
Options = Mapping[bytes, Value]
# What a command prints, and its status.
Output = tuple[bytes, int]
KNOWN = {b"blksize": (8, 65_464), b"timeout": (1, 255), b"tsize": (0, 2**64 - 1), b"windowsize": (1, 65_535)}
USUAL_SIZE = 512
CLIENT, SERVER, SERVICE = 50_000, 50_001, 69
REQUEST_OPCODES: dict[Side, int] = {"get": 1, "put": 2}
SIDES: tuple[Side, ...] = ("get", "put")
MODES: tuple[Mode, ...] = ("octet", "netascii")


def number(value: int) -> bytes:
    return value.to_bytes(2, "big")


def value_of(name: bytes, text: bytes) -> Value:
    """What an option's value means: a number of a known option in its range, or the bytes themselves."""
    if name in KNOWN and text and all(sign in b"0123456789" for sign in text):
        least, most = KNOWN[name]
        if least <= int(text) <= most:
            return int(text)
    return text


def text_of(value: Value) -> bytes:
    return b"%d" % value if isinstance(value, int) else value


def encoded(file: bytes) -> bytes:
    """The netascii text of a file: LF as CR LF, and CR as CR NUL."""
    return file.replace(b"\r", b"\r\0").replace(b"\n", b"\r\n")


def decoded(wire: bytes) -> bytes:
    """The file that a netascii text reads as: CR LF is LF, CR NUL is CR, and every other byte is itself."""
    file, at = bytearray(), 0
    while at < len(wire):
        pair = wire[at : at + 2]
        file += {b"\r\n": b"\n", b"\r\0": b"\r"}.get(pair, wire[at : at + 1])
        at += 2 if pair in (b"\r\n", b"\r\0") else 1
    return bytes(file)


def canonical(options: Options) -> bytes:
    """The pairs of an option map, in the order of their names."""
    return b"".join(b"%s\0%s\0" % (name, text_of(options[name])) for name in sorted(options))


@dataclasses.dataclass(frozen=True)
class Meaning:
    """What a whole transfer is: names of options are lower-case bytes, and values are numbers or bytes."""

    side: Side
    name: bytes
    mode: Mode
    requested: Options
    agreed: Mapping[bytes, int]
    file: bytes

    @property
    def size(self) -> int:
        return self.agreed.get(b"blksize", USUAL_SIZE)

    @property
    def window(self) -> int:
        return self.agreed.get(b"windowsize", 1)

    def canonical_wire(self) -> bytes:
        return encoded(self.file) if self.mode == "netascii" else self.file

    def block_count(self) -> int:
        return len(self.canonical_wire()) // self.size + 1

    def line(self) -> bytes:
        """The line that `check` prints."""
        kind = f"{self.side} {self.mode}"
        return f"accepted {kind} blocks {self.block_count()} bytes {len(self.file)}\n".encode()

    def count_line(self) -> bytes:
        """The line that `count` prints."""
        return b"normal datagrams %d\n" % self.normal_lines().count(b"\n")

    def normal_text(self, first: Optional[int] = None) -> bytes:
        """The normal text, where block 65535 is the last or `first` comes after it."""
        lines = self.normal_lines(first)
        return b"tftp-capture 1\nend client\nservice 69\n%stotal %d\n" % (lines, lines.count(b"\n"))

    def outputs(self, verdict: Output) -> dict[str, Output]:
        """What each command but `show` prints of a capture of this meaning, and its status, by the verdict on it."""
        if verdict[1] != 0:
            return outputs_of_refused(verdict)
        texts = {"extract": self.file, "normal": self.normal_text(), "count": self.count_line()}
        return {"check": verdict, **{command: (text, 0) for command, text in texts.items()}}

    def normal_lines(self, first: Optional[int] = None) -> bytes:
        """The datagram lines of the normal capture, where block 65535 is the last or `first` comes after it."""
        lines = bytearray()

        def put(way: bytes, payload: bytes, server: int = SERVER) -> None:
            lines.extend(b"%s %d %d %s\n" % (way, CLIENT, server, payload.hex().encode()))

        data_way, ack_way = (b"in", b"out") if self.side == "get" else (b"out", b"in")
        request = number(REQUEST_OPCODES[self.side]) + b"%s\0%s\0" % (self.name, self.mode.encode())
        put(b"out", request + canonical(self.requested), SERVICE)
        if self.agreed:
            put(b"in", number(6) + canonical(self.agreed))
        # what an OACK to a read, and a write without options, is answered by
        if bool(self.agreed) == (self.side == "get"):
            put(ack_way, number(4) + number(0))
        wire, count, numbered = self.canonical_wire(), self.block_count(), 0
        for block in range(1, count + 1):
            numbered = numbered + 1 if numbered != 65_535 or first is None else first
            put(data_way, number(3) + number(numbered) + wire[(block - 1) * self.size : block * self.size])
            if block % self.window == 0 or block == count:
                put(ack_way, number(4) + number(numbered))
        return bytes(lines)


def outputs_of_refused(verdict: Output) -> dict[str, Output]:
    """The same of a capture that is not accepted, whatever it means."""
    return {"check": verdict, "extract": (b"", verdict[1]), "normal": (b"", verdict[1]), "count": verdict}


def pairs_of(strings: Sequence[bytes]) -> dict[bytes, Value]:
    """The map that the strings of a request or of an OACK say."""
    return {name.lower(): value_of(name.lower(), text) for name, text in zip(strings[::2], strings[1::2])}


def mode_of(text: bytes) -> Mode:
    """The mode that a request's text names, in any letter case."""
    return next(mode for mode in MODES if mode == text.decode().lower())


def meaning_of(text: bytes, file: bytes) -> Meaning:
    """What a capture text means by its first datagram, a request, and by its first OACK, if it carries this file."""
    payloads = [line.split()[-1] for line in text.splitlines() if line.startswith((b"in ", b"out "))]
    opcode, *rest = bytes.fromhex(payloads[0].decode())[1:]
    name, mode, *requested = bytes(rest).split(b"\0")[:-1]
    oack = next((payload for payload in payloads if payload.startswith(b"0006")), b"0006")
    agreed = bytes.fromhex(oack.decode())[2:].split(b"\0")[:-1]
    side = next(side for side, its in REQUEST_OPCODES.items() if its == opcode)
    numbers = {option: value for option, value in pairs_of(agreed).items() if isinstance(value, int)}
    return Meaning(side, name, mode_of(mode), pairs_of(requested), numbers, file)
