"""The two halves of a transfer of a file, of which each end has one: who sends its blocks, and who receives them (RFC
1350, 2347, 2348 and 7440). Both do what the law allows, whatever comes in."""
from __future__ import annotations

from dataclasses import dataclass
from typing import Optional

from normal import KNOWN, USUAL_SIZE, Options, Side, number, text_of

ACK_0 = b"\0\4\0\0"


def data(block: int, content: bytes) -> bytes:
    return b"\0\3" + number(block) + content


def ack(block: int) -> bytes:
    return b"\0\4" + number(block)


def error(code: int, message: bytes = b"x") -> bytes:
    return b"\0\5" + number(code) + message + b"\0"


def opcode(payload: bytes) -> int:
    return int.from_bytes(payload[:2], "big") if len(payload) > 1 else 0


def block_of(payload: bytes) -> int:
    return int.from_bytes(payload[2:4], "big")


def spelled(options: Options) -> bytes:
    return b"".join(name + b"\0" + text_of(value) + b"\0" for name, value in options.items())


def is_agreement(asked: Options, agreed: Options, side: Side, size: Optional[int]) -> bool:
    """Whether a server may answer so; `size` is that of the file, where the client knows it."""
    for name, value in agreed.items():
        most = asked.get(name)
        if name not in KNOWN or not isinstance(value, int) or not isinstance(most, int):
            return False
        if name in (b"blksize", b"windowsize") and not KNOWN[name][0] <= value <= most:
            return False
        if name == b"timeout" and value != most or name == b"tsize" and side == "put" and value != size:
            return False
    return bool(agreed)


@dataclass
class Receiver:
    """Of a file: it takes the next block, and acknowledges after a window of them."""

    size: int = USUAL_SIZE
    window: int = 1
    may_say_zero: bool = False
    whole: Optional[int] = None
    front: int = 0
    since: int = 0
    is_whole: bool = False

    def fits(self, block: int, content: bytes) -> bool:
        if self.whole is not None:
            wanted = max(0, min(self.size, self.whole - (block - 1) * self.size))
            return len(content) == wanted
        return len(content) <= self.size

    def take(self, block: int, content: bytes) -> list[bytes]:
        """What it answers."""
        if block == self.front + 1 and not self.is_whole and self.fits(block, content):
            self.front, self.since = block, self.since + 1
            self.is_whole = len(content) < self.size
            if not self.is_whole and self.since < self.window:
                return []
        self.since = 0
        return self.again()

    def again(self) -> list[bytes]:
        return [ack(self.front)] if self.front or self.may_say_zero else []


@dataclass
class Sender:
    """Of a file: it sends the blocks of a window behind the last that was acknowledged."""

    body: bytes
    size: int = USUAL_SIZE
    window: int = 1
    base: int = 0
    top: int = 0

    def count(self) -> int:
        return len(self.body) // self.size + 1

    def is_done(self) -> bool:
        return self.base == self.count()

    def due(self) -> list[bytes]:
        last = min(self.base + self.window, self.count())
        self.top = max(self.top, last)
        return [data(k, self.body[self.size * (k - 1) : self.size * k]) for k in range(self.base + 1, last + 1)]

    def take(self, block: int) -> list[bytes]:
        """What it answers; the last ACK has no answer."""
        if not self.base < block <= self.top:
            return self.due() if self.window > 1 and block == self.base and self.top else []
        self.base = block
        return [] if self.is_done() else self.due()
