"""Lines that are none of a capture text, each with its fault, and texts with one of them."""
from __future__ import annotations

from collections.abc import Iterator
from random import Random

from fuzzing.views import Capture

# A line and its fault; and a text, the number of its line that has a fault, and the fault.
Line = tuple[bytes, str]
Faulty = tuple[bytes, int, str]
LONGEST, PAYLOAD_DIGITS = {1: 131_070, 2: 131_116}, 131_054

# Of both versions; the host of version 2 stands where HOST does.
LINES: tuple[Line, ...] = (
    (b" ", "BadLine"), (b"\r", "BadLine"), (b"\xff", "BadLine"), (b"in", "BadLine"), (b"x", "BadLine"),
    (b"total", "BadLine"), (b"total 3 ", "BadLine"), (b" total 3", "BadLine"), (b"total ", "TotalWrong"),
    (b"total +0", "TotalWrong"), (b"total 00", "TotalWrong"), (b"total -", "TotalWrong"), (b"total 0x0", "TotalWrong"),
    (b"total 18446744073709551616", "TotalWrong"), (b"total 99999999999999999999999", "TotalWrong"),
    (b"in 1 HOST1", "BadLine"), (b"in 1 HOST1 00 00", "BadLine"), (b" in 1 HOST1 00", "BadLine"),
    (b"In 1 HOST1 00", "BadLine"), (b"inn 1 HOST1 00", "BadLine"), (b"in\t1 HOST1 00", "BadLine"),
    (b"out  1 HOST1 00", "BadLine"), (b"total 1 HOST1 00", "BadLine"), (b"in 0 HOST1 00", "BadPort"),
    (b"in 65536 HOST1 00", "BadPort"), (b"out 01 HOST1 00", "BadPort"), (b"in 1 HOST0 00", "BadPort"),
    (b"in 1 HOST01 zz", "BadPort"), (b"out 1 HOST-1 00", "BadPort"), (b"out 1 HOST99999 00", "BadPort"),
    (b"out +1 HOST1 00", "BadPort"), (b"out  HOST1 00", "BadPort"), (b"in 1 HOST1 ", "BadHex"),
    (b"in 1 HOST1 0", "BadHex"), (b"in 1 HOST1 000", "BadHex"), (b"in 1 HOST1 0g", "BadHex"),
    (b"in 1 HOST1 --", "BadHex"), (b"in 1 HOST1 -0", "BadHex"), (b"in 1 HOST1 00\r", "BadHex"),
    (b"in 1 HOST1 0:", "BadHex"), (b"in 1 HOST1 0@", "BadHex"), (b"in 1 HOST1 0`", "BadHex"),
    (b"in 1 HOST1 0/", "BadHex"), (b"in 1 HOST1 0G", "BadHex"), (b"in 1 HOST1 \xff\xff", "BadHex"),
)
HOST_LINES: tuple[Line, ...] = (
    (b"in 1  1 00", "BadHost"), (b"in 1 " + b"a" * 46 + b" 1 00", "BadHost"), (b"out 1 \x7f 1 zz", "BadHost"),
    (b"out 1 a\tb 1 00", "BadHost"), (b"in 1 \x80 1 00", "BadHost"), (b"in 1 \x1f 1 00", "BadHost"),
    (b"in 1 \xff 0 00", "BadPort"), (b"in 0 \xff 1 00", "BadPort"), (b"out 1 \xff 65536 zz", "BadPort"),
    (b"in 1 a 1 00 ", "BadLine"), (b"in 1 1 00", "BadLine"),
)


def lines(version: int) -> Iterator[Line]:
    """The lines that have a fault where a datagram's or the total line stands, with the fault."""
    host = b"h " if version == 2 else b""
    yield from ((line.replace(b"HOST", host), fault) for line, fault in LINES)
    if version == 2:
        yield from HOST_LINES
    else:
        yield b"in 1 h 1 00", "BadLine"


def long_lines(version: int) -> Iterator[Line]:
    """The same of those that are too long, or nearly."""
    most, host = LONGEST[version], b"h " if version == 2 else b""
    yield b"#" * (most + 1), "LineTooLong"
    yield b"\xff" * most, "BadLine"
    yield b"in 1 %s1 " % host + b"0" * (PAYLOAD_DIGITS + 2), "PayloadTooLong"
    yield b"in 1 %s1 " % host + b"0" * (PAYLOAD_DIGITS + 1), "BadHex"
    yield b"in 1 %s1 " % host + b"g" * (PAYLOAD_DIGITS + 2), "BadHex"


def headers(version: int) -> Iterator[tuple[int, bytes, str]]:
    """Lines in the place of the three of the header, with their numbers and faults."""
    service = (b"service 0", b"service 65536", b"service 069", b"service 69 ", b"service", b"total 0", b"service  1")
    end = (b"end peer", b"end client ", b"END client", b"end  client", b"end", b"total 0", b" ", b"end client\r")
    first = (b"tftp-capture 3", b"tftp-capture", b"", b"#", b"tftp-capture 1 ", b"tftp-capture 2\r", b"tftp-capture 01")
    for number, fault, wrong in ((1, "BadHeader", first), (2, "BadEnd", end), (3, "BadService", service)):
        yield from ((number, line, fault) for line in wrong)
    yield 1, b"a" * (LONGEST[1] + 1), "LineTooLong"
    yield 2, b"#" * (LONGEST[version] + 1), "LineTooLong"


def cut(chance: Random, capture: Capture) -> Faulty:
    """The text ends somewhere."""
    text = capture.text()
    text = text[: chance.randrange(len(text))]
    return text, text.count(b"\n") + 1, "Truncated"


def with_total(chance: Random, capture: Capture) -> Faulty:
    """The total line comes too early, or it is wrong, and something follows."""
    count = chance.randrange(len(capture.datagrams) + 1)
    text, rest = capture.text(count), chance.choice((b"\n", b"#\n", b"\0", b"in", b"total 3\n"))
    if chance.random() < 0.5:
        return text + rest, count + 5, "TrailingText"
    wrong = b"total " + chance.choice((b"%d" % (count + 1), b"%d" % (count + 10), b"-1", b"0%d" % count)) + b"\n"
    return b"".join(text.splitlines(keepends=True)[:-1]) + wrong + rest, count + 4, "TotalWrong"


def with_line(chance: Random, capture: Capture) -> Faulty:
    """A line with a fault stands where a datagram's, the total line or one of the header was, or before it."""
    kept, is_long = capture.text().splitlines(keepends=True), chance.random() < 0.1
    if chance.random() < 0.3:
        number, line, fault = chance.choice(list(headers(capture.version))[: None if is_long else -2])
    else:
        number = chance.randrange(4, len(kept) + 1)
        line, fault = chance.choice(list((long_lines if is_long else lines)(capture.version)))
        if capture.version == 2 and not is_long and chance.random() < 0.4:
            line, fault = chance.choice(HOST_LINES)
    rest = kept[number - chance.randrange(2) :]
    return b"".join([*kept[: number - 1], line, b"\n", *rest]), number, fault


def faulty(chance: Random, capture: Capture) -> Faulty:
    """A text with a fault, of which nothing before it is wrong; the fault's line and its name."""
    return chance.choice((cut, with_total, with_line, with_line))(chance, capture)
