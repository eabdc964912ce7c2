"""The captures of examples/: the recorded transfers, from their recordings to what the two built programs say of them,
and the others.
"""
from __future__ import annotations

import re
import subprocess
from collections.abc import Iterable

from checks import Checks
from commands import COMMANDS
from judged import Row, checked
from normal import meaning_of
from programs import AUDIT, TRANSFERS
from repository import TOP

# What a command writes, what it writes as errors, and its status.
Ran = tuple[bytes, bytes, int]


def lines(text: str, numbers: Iterable[int], size: int) -> bytes:
    """The first so many bytes of a file of this line, with these numbers in it."""
    return "".join(text.format(number) for number in numbers).encode()[:size]


# What the client stored or sent, of 1,300, 2,500, 1,024, 1,292, 921 and 1,570 bytes.
FILES = {
    "recorded-read": lines("# line {:03} of the boot configuration of this board\n", range(1, 27), 1_300),
    "recorded-options": lines(
        "kernel image, line {:04}: nothing that boots, only bytes to count\n", range(1, 40), 2_500
    ),
    "recorded-write": "".join(
        f"{turn:02}:{turn * 7 % 60:02} sensor {turn % 4} reads {turn * turn % 97}\n" for turn in range(43)
    ).encode()[:1_024],
    "recorded-window": lines("menu item {}\n", range(1, 101), 1_292),
    "recorded-netascii": lines("note {}: line ends and\rreturns\n", range(1, 31), 921),
    "recorded-stray": lines("boot line {}\n", range(120), 1_570),
}
# The end, the other end's host, the verdict, and the datagrams.
RECORDINGS = (
    (
        "recorded-read",
        "client",
        "127.0.0.1",
        "accepted get octet blocks 3 bytes 1300",
        ("out RRQ", "in DATA 1 512", "out ACK 1", "in DATA 2 512", "out ACK 2", "in DATA 3 276", "out ACK 3"),
    ),
    (
        "recorded-options",
        "client",
        "127.0.0.2",
        "accepted get octet blocks 3 bytes 2500",
        ("out RRQ", "in OACK", "out ACK 0", "in DATA 1 1024", "out ACK 1", "in DATA 1 1024", "out ACK 1")
        + ("in DATA 2 1024", "out ACK 2", "in DATA 3 452", "out ACK 3"),
    ),
    (
        "recorded-write",
        "server",
        "127.0.0.1",
        "accepted put octet blocks 3 bytes 1024",
        ("in WRQ", "out OACK", "in DATA 1 512", "out ACK 1", "in DATA 2 512", "out ACK 2", "in DATA 3 0", "out ACK 3"),
    ),
    (
        "recorded-window",
        "client",
        "192.0.2.1",
        "accepted get octet blocks 11 bytes 1292",
        ("out RRQ", "in OACK", "out ACK 0", *(f"in DATA {block} 128" for block in range(1, 5)), "out ACK 4")
        + (*(f"in DATA {block} 128" for block in range(5, 9)), "out ACK 8")
        + ("in DATA 9 128", "in DATA 10 128", "in DATA 11 12", "out ACK 11"),
    ),
    (
        "recorded-netascii",
        "server",
        "2001:db8::7",
        "accepted put netascii blocks 2 bytes 921",
        ("in WRQ", "out ACK 0", "in DATA 1 512", "out ACK 1", "in DATA 2 469", "out ACK 2"),
    ),
    (
        "recorded-stray",
        "client",
        "192.0.2.1",
        "accepted get octet blocks 4 bytes 1570",
        ("out RRQ", "out RRQ", "in DATA 1 512", "in DATA 1 512", "out ACK 1", "out ERROR 5", "in DATA 2 512")
        + ("out ACK 2", "in DATA 3 512", "out ACK 3", "in DATA 4 34", "out ACK 4"),
    ),
)
# Captures that were not recorded, what is said of them, and the file of the one that is accepted.
WRITTEN_BY_HAND = (
    ("one-block", "accepted get octet blocks 1 bytes 2", 0, ("out RRQ", "in DATA 1 2", "out ACK 1"), b"hi"),
    ("missing-file", "aborted by peer code 1", 1, ("out RRQ", "in ERROR 1"), b""),
)


def run(command: Iterable[object], given: bytes) -> Ran:
    """What a command writes, what it writes as errors, and its status."""
    done = subprocess.run([str(word) for word in command], input=given, capture_output=True, timeout=60)
    return done.stdout, done.stderr, done.returncode


def hostless(text: bytes) -> bytes:
    """A text of version 2 as one of version 1: no comments, and no host in the lines of datagrams."""
    head, *lines = (line for line in text.splitlines(keepends=True) if not line.startswith(b"#"))
    pieces = (line.split(b" ") for line in lines)
    kept = (line[:2] + line[3:] if line[0] in (b"in", b"out") else line for line in pieces)
    return head.replace(b"capture 2", b"capture 1") + b"".join(b" ".join(line) for line in kept)


class Recordings(Checks):
    """The captures and recordings of examples/."""

    needs = (AUDIT, TRANSFERS)

    def test_recordings(self) -> None:
        for recording in RECORDINGS:
            self.try_recording(*recording)

    def test_written_by_hand(self) -> None:
        for name, verdict, status, rows, file in WRITTEN_BY_HAND:
            capture = (TOP / "examples" / f"{name}.capture").read_bytes()
            self.try_capture(name, capture, verdict, status, rows, file)

    def try_capture(
        self, name: str, capture: bytes, verdict: str, status: int, rows: Iterable[str], file: bytes
    ) -> None:
        """Of the capture the program says this, and this is the file that it carries, where it is accepted."""
        outputs = meaning_of(capture, file).outputs((f"{verdict}\n".encode(), status))
        shown = "".join(f"{number} {row}\n" for number, row in enumerate(rows, 1))
        outputs["show"] = shown.encode(), 0
        for command in COMMANDS:
            got = run([AUDIT.path, command], capture)
            output, ended = outputs[command]
            self.check(f"{name}, {command}", got == (output, b"", ended), got)

    def try_recording(self, name: str, end: str, host: str, verdict: str, rows: tuple[str, ...]) -> None:
        """The recording has one transfer, the text of which has the datagrams of the capture; and the programs say this
        of the recording, of the capture, and of the text, which has hosts."""
        example = TOP / "examples" / name
        recording, capture = example.with_suffix(".pcap"), example.with_suffix(".capture").read_bytes()
        got = checked(TRANSFERS.path, recording.read_bytes(), "--end", end)
        self.check(f"{name}, the verdict", got == ([Row(1, end, None, verdict)], "", 0), got)
        text, errors, status = run([TRANSFERS.path, "text", "1", end, recording], b"")
        self.check(f"{name}, the text", (hostless(text), errors, status) == (capture, b"", 0), (text, errors, status))
        found = re.findall(r"(?m)^# frame ([0-9]+) time [0-9.]+\n(?:in|out) [0-9]+ ([^ ]+) ", text.decode())
        self.check(f"{name}, the frames", found == [(str(1 + place), host) for place in range(len(rows))], found)
        self.try_capture(name, capture, verdict, 0, rows, FILES[name])
        self.try_capture(f"{name} with hosts", text, verdict, 0, rows, FILES[name])
