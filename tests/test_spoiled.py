"""That the fuzzer tells of a program that is wrong: what the built program prints is spoiled, in one way at a time, and
a case must fail soon; and a program that never ends is told of in time.
"""
from __future__ import annotations

import re
from collections.abc import Callable, Iterator, Sequence
from typing import Union

from checks import Checks
from commands import COMMANDS
from fuzzing.cases import Trier, try_case
from fuzzing.program import Got, Program
from programs import AUDIT
from refusals import Rule

MOST_CASES = 1_500
# What is spoiled of what came of a command.
Way = Callable[[str, Got], Got]
# A command, words that it prints, and what is put in their place.
Replaced = tuple[str, bytes, Union[bytes, Callable[["re.Match[bytes]"], bytes]]]


def one_more(found: re.Match[bytes]) -> bytes:
    return b"%d" % (int(found[0]) + 1)


# What is put in the place of the first of such words that a command prints.
REPLACED: dict[str, Replaced] = {
    "another number of blocks": ("check", rb"(?<=blocks )\d+", one_more),
    "another number of bytes": ("check", rb"(?<=bytes )\d+", one_more),
    "another mode": ("check", rb"netascii", b"octet"),
    "another side": ("check", rb"put", b"get"),
    "nothing is accepted": ("check", rb"accepted.*", b"incomplete after 3"),
    "another index": ("check", rb"(?<=datagram )\d+", one_more),
    "a rule by another's name": ("check", Rule.ACK_AHEAD.printed.encode(), Rule.WINDOW_OVERRUN.printed.encode()),
    "a rule for another": ("check", str(Rule.BLOCK_CHANGED).encode(), str(Rule.BLOCK_LENGTH).encode()),
    "no malformed packet": ("check", f"{Rule.MALFORMED} .*".encode(), str(Rule.WRONG_KIND).encode()),
    "the other end's ERROR": ("check", rb"local", b"peer"),
    "another code": ("check", rb"(?<=code )\d+", one_more),
    "another fault": ("check", rb"Truncated", b"BadLine"),
    "another line": ("check", rb"(?<=fault line )\d+", one_more),
    "want of memory": ("check", rb"incomplete.*", b"fault memory"),
    "no last byte of the file": ("extract", rb"(?s).\Z", b""),
    "no last line of show": ("show", rb"[^\n]*\n\Z", b""),
    "another block in show": ("show", rb"(?<=DATA )\d+", one_more),
    "no last line of the normal text": ("normal", rb"[^\n]*\n\Z", b""),
    "capitals in the normal text": ("normal", b"octet".hex().encode(), b"OCTET".hex().encode()),
    "another number of normal datagrams": ("count", rb"\d+", one_more),
}
# What becomes of what is printed, what is written as errors, and the status.
CHANGED: dict[str, Way] = {
    "words as errors": lambda command, got: (got[0], got[1] + b"oh", got[2]),
    "another status": lambda command, got: (got[0], got[1], 1 if got[2] == 0 else got[2]),
    "nothing at all": lambda command, got: (b"", got[1], got[2]),
}


def replacing(its: str, words: bytes, by: bytes | Callable[[re.Match[bytes]], bytes]) -> Way:
    """The way of spoiling that puts something in the place of the first of such words that one command prints."""

    def way(command: str, got: Got) -> Got:
        output, told, status = got
        return re.sub(words, by, output, count=1) if command == its else output, told, status

    return way


def ways() -> Iterator[tuple[str, Way]]:
    """The ways of spoiling with their names."""
    for name, replaced in REPLACED.items():
        yield name, replacing(*replaced)
    yield from CHANGED.items()


class Spoiled(Program):
    """The program, with what it prints spoiled."""

    def __init__(self, path: str, way: Way) -> None:
        super().__init__(path)
        self.way = way

    def run(self, command: str, text: bytes, **shim: int) -> Got:
        return self.way(command, super().run(command, text, **shim))

    def run_in_pieces(self, command: str, pieces: Sequence[bytes]) -> Got:
        return self.way(command, super().run_in_pieces(command, pieces))


def is_told(program: Program) -> bool:
    """Whether one of the first cases fails."""
    trier = Trier(program, COMMANDS)
    for seed in range(MOST_CASES):
        try_case(trier, seed)
        if trier.failures:
            return True
    return False


class Told(Checks):
    """That each way of spoiling is told."""

    needs = (AUDIT,)

    def test_ways(self) -> None:
        for name, way in ways():
            program = Spoiled(AUDIT.path, way)
            self.check(name, is_told(program), f"none of {MOST_CASES} cases failed")
            program.close()

    def test_endless(self) -> None:
        endless = self.folder / "endless"
        endless.write_text("#!/bin/sh\nexec sleep 60\n")
        endless.chmod(0o755)
        got = Program(str(endless)).run("check", b"")
        self.check("a program that never ends", got == (b"", b"", None), got)
