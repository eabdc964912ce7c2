"""Captures of more than 65,535 blocks, changed by chance where block numbers begin again. What is said of each is what
the slow reading of the rules says, by what comes after block 65535."""
from __future__ import annotations

import pickle
from collections.abc import Iterator
from random import Random
from typing import Optional

from captures import EndName
from fuzzing.slow_judge import HALF_ROUND, ROUND, Judge, Rollover
from fuzzing.views import Datagram
from normal import Output

SIZE, WINDOW = 8, 16
# The blocks before those that are changed, and all of them.
BEFORE, COUNT = ROUND - 24, ROUND + 24
# How far a number is moved.
SHIFTS = (1, -1, 2, -2, WINDOW, HALF_ROUND, HALF_ROUND + 1, -HALF_ROUND, -HALF_ROUND - 1, ROUND - 1)
CLIENT, SERVER, SERVICE = 40_000, 41_000, 69
OPTIONS = b"blksize\0008\0windowsize\00016\0"


def number_of(block: int, first: int) -> int:
    return block if block < ROUND else (block - ROUND) % (ROUND - first) + first


def with_number(opcode: int, number: int, content: bytes = b"") -> bytes:
    return bytes((0, opcode)) + (number % ROUND).to_bytes(2, "big") + content


class Rounds:
    """A lawful transfer at one end up to where it is changed, judged so far, and its text; and what comes then."""

    def __init__(self, chance: Random, end: EndName, is_read: bool, rollover: Rollover) -> None:
        self.chance, self.end, self.is_read, self.rollover = chance, end, is_read, rollover
        self.file = chance.randbytes(COUNT * SIZE - 3)
        self.first = rollover or 0
        judge = Judge(end, SERVICE, rollover)
        self.before = [*self.opening(), *self.blocks(0, BEFORE)]
        if any(judge.judged(it) for it in self.before):
            raise ValueError("what comes before the changes is not lawful")
        self.judge = pickle.dumps(judge)
        self.text = b"tftp-capture 1\nend %s\nservice %d\n" % (end.encode(), SERVICE)
        self.text += b"".join(it.line() for it in self.before)

    def sent(self, by_client: bool, payload: bytes, port: int = SERVER) -> Datagram:
        goes_out = by_client == (self.end == "client")
        local, remote = (CLIENT, port) if self.end == "client" else (port, CLIENT)
        return Datagram(goes_out, local, (b"-", remote), payload)

    def opening(self) -> Iterator[Datagram]:
        yield self.sent(True, bytes((0, 1 if self.is_read else 2)) + b"boot.img\0octet\0" + OPTIONS, SERVICE)
        yield self.sent(False, b"\0\6" + OPTIONS)
        if self.is_read:
            yield self.sent(True, with_number(4, 0))

    def blocks(self, start: int, stop: int) -> Iterator[Datagram]:
        """The windows of the blocks behind one and up to another, each with its ACK."""
        for at in range(start, stop, WINDOW):
            last = min(at + WINDOW, stop)
            for block in range(at + 1, last + 1):
                content = self.file[(block - 1) * SIZE : block * SIZE]
                yield self.sent(not self.is_read, with_number(3, number_of(block, self.first), content))
            yield self.sent(self.is_read, with_number(4, number_of(last, self.first)))

    def shifted(self, it: Datagram) -> Datagram:
        """The same with another number, or another byte or length of its block."""
        opcode, number, content = it.payload[1], int.from_bytes(it.payload[2:4], "big"), it.payload[4:]
        if opcode == 3 and self.chance.random() < 0.3:
            content = self.chance.choice((content[:-1], content + b"x", content[::-1], b""))
        else:
            number += self.chance.choice(SHIFTS)
        return Datagram(it.goes_out, it.local, it.peer, with_number(opcode, number, content))

    def change(self, tail: list[Datagram]) -> None:
        """One change: a datagram comes again, from as far back as a round and more, is lost, moved or altered."""
        at = self.chance.randrange(len(tail))
        way = self.chance.randrange(5)
        if way == 0:
            tail.insert(at, self.chance.choice(self.before[3:]))
        elif way == 1:
            tail.insert(at, self.chance.choice(tail))
        elif way == 2:
            del tail[at]
        elif way == 3:
            tail.insert(self.chance.randrange(len(tail)), tail.pop(at))
        else:
            tail.insert(at, self.shifted(tail[at]))

    def drawn(self, changes: int) -> tuple[bytes, Output]:
        """A changed capture, and what there is to say of it."""
        tail = list(self.blocks(BEFORE, COUNT))
        for _ in range(changes):
            self.change(tail)
        judge: Judge = pickle.loads(self.judge)
        told: Optional[Output] = None
        for at, it in enumerate(tail, len(self.before) + 1):
            broken = judge.judged(it)
            if broken is not None:
                told = f"refused datagram {at} rule {broken}\n".encode(), 1
                break
        lines = b"".join(it.line() for it in tail)
        return self.text + lines + b"total %d\n" % (len(self.before) + len(tail)), told or judge.ended()[1]
