"""Texts whose lines are like the line before that went the same way, or only look so, on the built program: the same
ports and as long, but for a sign that is no digit, an LF among the digits where a shorter line ends, other ports of as
many digits, another version's fields, or a comment between; some lines are longer than what is read at once. What
`show` and `check` print is compared with a slow reading of the text, given whole and through a pipe in pieces.
"""
from __future__ import annotations

import random
from collections.abc import Sequence

from checks import Checks
from fuzzing.program import Program
from fuzzing.slow_texts import Answers
from programs import AUDIT

# Hosts and ports of which some begin as others do; the first of each stand in most lines.
HOSTS = [
    b"-", b"192.0.2.1", b"192.0.2.10", b"2001:db8::1", b"2001:db8:1:2:3:4:5:6", b"2001:db8:1:2:3:4:5:60",
]
PORTS = [b"40000", b"4000", b"40001", b"6", b"69"]
WAYS, SIZES = [b"in", b"out"], [4, 4, 8, 12, 12, 12, 16, 20, 516]
# A block whose line is longer than what the program reads at once, and the most bytes that a pipe holds.
LONG, PIPE = 40_004, 65_536
CASES, SEED = 3_000, 1


def mostly_first(chance: random.Random, among: Sequence[bytes]) -> bytes:
    return among[0] if chance.random() < 0.85 else chance.choice(among)


def digits_of(chance: random.Random) -> bytes:
    """Those of a payload: of a block or an ACK, of no payload, or with a sign that is none among them."""
    size, kind = LONG if chance.random() < 0.02 else chance.choice(SIZES), chance.randrange(40)
    if kind == 0:
        return b"-"
    front = b"\0\4\0\1" if size == 4 else b"\0\3" + chance.randrange(1, 4).to_bytes(2, "big")
    packet = front + chance.randbytes(size - 4)
    digits = packet.hex().encode()
    if kind == 1:
        return digits.upper()
    if kind < 4:
        at = chance.randrange(len(digits))
        return digits[:at] + chance.choice([b" ", b"\n", b"g", b"\x80", b"/", b":", b"@", b"`", b""]) + digits[at + 1 :]
    return digits


def line_of(chance: random.Random, version: int) -> bytes:
    if chance.random() < 0.04:
        return chance.choice([b"", b"#", b"# in 40000 69 00040001", b"#" * chance.randrange(1, 60)])
    fields = [mostly_first(chance, WAYS), mostly_first(chance, PORTS)]
    if (version == 2) != (chance.random() < 0.01):
        fields.append(mostly_first(chance, HOSTS))
    return b" ".join([*fields, mostly_first(chance, PORTS), digits_of(chance)])


def shorter_lines(chance: random.Random, version: int, size: int) -> bytes:
    """Two lines that are together, with the LF between them, as long as one of so many bytes, where that can be."""
    for _ in range(200):
        first, second = line_of(chance, version), line_of(chance, version)
        if len(first) + 1 + len(second) == size:
            return first + b"\n" + second
    return line_of(chance, version)


def text_of(chance: random.Random) -> bytes:
    version = chance.choice([1, 2])
    lines = [b"tftp-capture %d" % version, b"end client", b"service 69"]
    for _ in range(chance.randrange(1, 12)):
        if len(lines) > 3 and chance.random() < 0.3:
            lines.append(shorter_lines(chance, version, len(lines[-1])))
        else:
            lines.append(line_of(chance, version) if len(lines) == 3 or chance.random() < 0.6 else lines[-1])
    said = sum(not line.startswith(b"#") and line != b"" for line in b"\n".join(lines[3:]).split(b"\n"))
    lines.append(b"total %d" % (said if chance.random() < 0.9 else said + 1))
    return b"\n".join(lines) + b"\n"


def pieces_of(chance: random.Random, text: bytes) -> list[bytes]:
    """The text cut in a few places, or after each of its lines."""
    if chance.random() < 0.5:
        return text.splitlines(keepends=True)
    cuts = sorted(chance.sample(range(1, len(text)), 3))
    return [text[start:end] for start, end in zip([0, *cuts], [*cuts, len(text)])]


class Alike(Checks):
    """What is printed of such texts."""

    needs = (AUDIT,)

    def test_texts(self) -> None:
        chance, program = random.Random(SEED), Program(AUDIT.path)
        self.addCleanup(program.close)
        for case in range(CASES):
            text = text_of(chance)
            answers = Answers(text)
            for command in ("show", "check"):
                name, wanted = f"{command} of text {case}", answers.of(command)
                printed, told, status = program.run(command, text)
                self.check(name, (printed, status) == wanted and not told, (text, printed, status, wanted))
                if case % 3 == 0 and len(text) <= PIPE:
                    printed, told, status = program.run_in_pieces(command, pieces_of(chance, text))
                    is_same = (printed, status) == wanted and not told
                    self.check(f"{name} in pieces", is_same, (text, printed, status, wanted))
