"""`check --losses`: the verdict as `check` prints it, and where a datagram is refused, one line of what must be missing
so that the capture is lawful. What is taken out of lawful captures is told again, with its place and its way."""
from __future__ import annotations

import subprocess
from collections.abc import Iterable

from captures import Capture, EndName, Packet, ack, blocks, data, error, oack, read_request, write_request
from normal import Output
from programs import AUDIT
from refusals import Rule, refusal
from repository import TOP
from shimmed import Shimmed

WORDS = ("check", "--losses")
NONE = "no missing datagrams were found that would make it lawful"
MEMORY, SILENT = (b"fault memory\n", 2), (b"", 2)
SIZE, FILE = 512, bytes(range(256)) * 7
# Who sends a packet, and the packet.
Sent = tuple[EndName, Packet]


def read_of(file: bytes, request: Packet, *answer: Sent, size: int = SIZE, window: int = 1) -> list[Sent]:
    """A lawful read: after each window an ACK."""
    passed: list[Sent] = [("client", request), *answer]
    packets = blocks(file, size)
    for number, packet in enumerate(packets, 1):
        passed.append(("server", packet))
        if number % window == 0 or number == len(packets):
            passed.append(("client", ack(number)))
    return passed


def write_of(file: bytes) -> list[Sent]:
    """A lawful write without options."""
    passed: list[Sent] = [("client", write_request("f", "octet")), ("server", ack(0))]
    for number, packet in enumerate(blocks(file, SIZE), 1):
        passed += [("client", packet), ("server", ack(number))]
    return passed


def text_of(end: EndName, passed: Iterable[Sent]) -> bytes:
    capture = Capture(end)
    for sender, packet in passed:
        capture.put(sender, packet)
    return capture.text()


def without(passed: list[Sent], *taken: int) -> list[Sent]:
    """All but the datagrams with these numbers, counted from 1."""
    return [it for number, it in enumerate(passed, 1) if number not in taken]


def again(passed: list[Sent], number: int, behind: int) -> list[Sent]:
    """One datagram passes again behind another; both are told by their numbers."""
    return [*passed[:behind], passed[number - 1], *passed[behind:]]


def told(index: int, rule: Rule, further: str) -> Output:
    return f"{refusal(index, rule)}\n{further}\n".encode(), 1


def lawful(count: int, *places: str) -> str:
    missing = "1 datagram is missing" if count == 1 else f"{count} datagrams are missing"
    return f"lawful if {missing}: {', '.join(places)}"


# 1 is the request; block k is datagram 2 k, and its ACK the one after.
READ = read_of(FILE, read_request("f", "octet"))
# 1 is the request and 2 ACK 0; block k is datagram 2 k + 1, and its ACK the one after.
WRITE = write_of(FILE)
# 1 is the request, 2 the OACK and 3 ACK 0; blocks 1 and 2, their ACK, blocks 3 and 4, their ACK.
WINDOW = read_of(
    FILE, read_request("f", "octet", windowsize=2), ("server", oack(windowsize=2)), ("client", ack(0)), window=2
)
ABORTED = [*READ[:3], ("client", error(3, "full"))]
CHANGED = [*READ[:3], ("server", data(1, b"x" * SIZE))]
MALFORMED = [*READ[:1], ("server", (b"\0\3", ""))]
CLIENT: EndName = "client"
SERVER: EndName = "server"
# A client to which nothing came yet sends to the service's port alone, so what answers a missing datagram breaks rule 2.
# A name, the end, what was recorded, which datagram is refused by which rule, and the further line.
CASES: tuple[tuple[str, EndName, list[Sent], int, Rule, str], ...] = (
    ("block 1 of a read, at its client", CLIENT, without(READ, 2), 2, Rule.WRONG_PORT,
     lawful(1, "1 incoming before datagram 2")),
    ("ACK 1 of a read, at its client", CLIENT, without(READ, 3), 3, Rule.WINDOW_OVERRUN,
     lawful(1, "1 outgoing before datagram 3")),
    ("ACK 1 of a read, at its server", SERVER, without(READ, 3), 3, Rule.WINDOW_OVERRUN,
     lawful(1, "1 incoming before datagram 3")),
    ("block 1, its ACK and block 2 of a read", CLIENT, without(READ, 2, 3, 4), 2, Rule.WRONG_PORT,
     lawful(3, "2 incoming and 1 outgoing before datagram 2")),
    ("two blocks of a read at two places", CLIENT, without(READ, 2, 6), 2, Rule.WRONG_PORT,
     lawful(2, "1 incoming before datagram 2", "1 incoming before datagram 5")),
    ("an ACK and a block of a read at two places", CLIENT, without(READ, 3, 6), 3, Rule.WINDOW_OVERRUN,
     lawful(2, "1 outgoing before datagram 3", "1 incoming before datagram 5")),
    ("ACK 0 of a write, at its client", CLIENT, without(WRITE, 2), 2, Rule.WRONG_PORT,
     lawful(1, "1 incoming before datagram 2")),
    ("block 1 of a write and its ACK, at its client", CLIENT, without(WRITE, 3, 4), 3, Rule.WINDOW_OVERRUN,
     lawful(2, "1 incoming and 1 outgoing before datagram 3")),
    ("block 1 of a write, at its server", SERVER, without(WRITE, 3), 3, Rule.ACK_AHEAD,
     lawful(1, "1 incoming before datagram 3")),
    ("ACK 0 behind an OACK", CLIENT, without(WINDOW, 3), 3, Rule.NOT_STARTED,
     lawful(1, "1 outgoing before datagram 3")),
    ("both blocks of a window", CLIENT, without(WINDOW, 4, 5), 4, Rule.ACK_AHEAD,
     lawful(2, "2 incoming before datagram 4")),
    ("a block of a read that comes again", CLIENT, without(again(READ, 4, 5), 4), 4, Rule.ACK_AHEAD,
     lawful(1, "1 incoming before datagram 4")),
    ("a block of a write that comes again", SERVER, without(again(WRITE, 3, 4), 3), 3, Rule.ACK_AHEAD,
     lawful(1, "1 incoming before datagram 3")),
    ("an OACK that comes again", CLIENT, without(again(WINDOW, 2, 3), 2), 2, Rule.WRONG_PORT,
     lawful(1, "1 incoming before datagram 2")),
    ("an OACK that never comes", CLIENT, without(WINDOW, 2), 2, Rule.WRONG_PORT,
     lawful(1, "1 incoming before datagram 2")),
    ("a changed block", CLIENT, CHANGED, 4, Rule.BLOCK_CHANGED, NONE),
)
# What has one line: it is accepted, or no datagram of it is refused.
PLAIN: tuple[tuple[str, bytes], ...] = (
    ("a read", text_of(CLIENT, READ)), ("a write", text_of(SERVER, WRITE)), ("a window", text_of(CLIENT, WINDOW)),
    ("a request alone", text_of(CLIENT, READ[:1])), ("a read that stops", text_of(SERVER, READ[:4])),
    ("an aborted read", text_of(CLIENT, ABORTED)), ("no datagram", text_of(CLIENT, [])), ("no text", b""),
    ("a text that is cut", text_of(CLIENT, READ)[:-9]), ("a text of another version", b"tftp-capture 3\n"),
    ("a text with a wrong total", text_of(CLIENT, READ).replace(b"total", b"total 1")),
)
# Words that ask for nothing.
NO_WORDS: tuple[list[str], ...] = (
    ["--losses"], ["--losses", "check"], ["check", "--losse"], ["check", "--losses="], ["check", "--losses", ""],
    ["check", "--Losses"], ["show", "--losses"], ["count", "--losses"], ["extract", "--losses"], ["normal", "--losses"],
    ["check", "--losses", "--rollover", "0"], ["check", "--rollover", "0", "--losses"],
    ["check", "--losses", "--losses"],
)


class Losses(Shimmed):
    """What is told of captures with datagrams taken out, and of others."""

    def output(self, words: list[str], given: bytes) -> Output:
        done = subprocess.run([AUDIT.path, *words], input=given, capture_output=True, timeout=60)
        return done.stdout, done.returncode

    def test_taken_out(self) -> None:
        """What was taken out is told, behind the line of `check`."""
        for name, end, passed, index, rule, further in CASES:
            given, wanted = text_of(end, passed), told(index, rule, further)
            got = self.output([*WORDS], given)
            self.check(name, got == wanted, got)
            line, status = self.output(["check"], given)
            self.check(f"{name}, as check says", got[0].startswith(line) and got[1] == status, got)

    def test_malformed(self) -> None:
        got = self.output([*WORDS], text_of(CLIENT, MALFORMED))
        lines = got[0].decode().splitlines()
        self.check("a malformed packet", lines[1:] == [NONE] and lines[0].startswith(refusal(2, Rule.MALFORMED)), got)

    def test_one_line(self) -> None:
        """Of what is accepted, aborted, incomplete or no capture text the line of `check` is all."""
        for name, given in PLAIN:
            got = self.output([*WORDS], given)
            self.check(name, got == self.output(["check"], given) and got[0].count(b"\n") == 1, got)

    def test_examples(self) -> None:
        """Of each example the first line and the status are those of `check`."""
        for path in sorted((TOP / "examples").glob("*.capture")):
            given = path.read_bytes()
            (got, status), (line, wanted) = self.output([*WORDS], given), self.output(["check"], given)
            self.check(path.name, got.splitlines(True)[:1] == [line] and status == wanted, got)

    def test_cut(self) -> None:
        """A text with a fault behind a refused datagram is refused as by `check`, and nothing is lawful with it."""
        for name, end, passed, index, rule, _ in CASES[:4]:
            got = self.output([*WORDS], text_of(end, passed)[:-3])
            self.check(f"{name}, cut", got == told(index, rule, NONE), got)

    def test_words(self) -> None:
        given = text_of(CLIENT, READ)
        for words in NO_WORDS:
            got = self.output(words, given)
            self.check(f"{words}", got == (b"fault usage\n", 2), got)

    def test_calls(self) -> None:
        """Each growth refused, each read and each write that fails."""
        for name, end, passed, index, rule, further in CASES[3:5]:
            given, wanted = text_of(end, passed), told(index, rule, further)
            self.fail_writes(name, WORDS, given, wanted)
            self.grow(name, given, wanted)
        given = text_of(CLIENT, without(READ, 2))
        for turn in range(1, len(given) + 3):
            got = self.call(WORDS, given, ONE_BYTE=1, FAIL_READ=turn)
            line = 1 + given[: turn - 1].count(b"\n")
            failed = f"fault line {line} Read\n".encode(), 2
            self.expect(f"read {turn}", got, failed if got[2] else self.output([*WORDS], given))
            self.check(f"read {turn} is made", got[2] or turn > len(given), got)

    def grow(self, name: str, given: bytes, wanted: Output) -> None:
        """Each growth is refused in turn, until none is met; its last run says what is wanted."""
        for turn in range(1, 1_000):
            got = self.call(WORDS, given, REFUSE=turn)
            if not got[2]:
                self.expect(f"{name}, no growth refused", got, wanted)
                return
            self.expect(f"{name}, growth {turn} refused", got, wanted, MEMORY, SILENT)
        self.check(f"{name}, growths end", False)
