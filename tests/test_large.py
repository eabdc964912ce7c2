"""Larger captures on the built program: thousands of datagrams with options and a window, in netascii, between strays
of a third host, or ended by an ERROR; as many blocks as there may be, of random bytes; and a netascii file that is just
too long in canonical text, or just not. What is extracted is compared with the file that the capture was made of.
"""
from __future__ import annotations

import concurrent.futures
import os
import random
import subprocess
from collections.abc import Iterable, Iterator, Sequence

from captures import Capture, EndName, Packet, ack, blocks, data, error, netascii, oack, read_request, write_request
from checks import Checks
from commands import COMMANDS
from normal import meaning_of, outputs_of_refused
from programs import AUDIT
from refusals import Rule, refusal

# A name, the command, the text, what is printed and the status.
Tried = tuple[str, str, bytes, bytes, int]
COUNT = 10_000
AGREED = {"blksize": 8, "windowsize": 7}
# The most blocks that there are numbers for, and their size where none is agreed (RFC 1350).
MOST_BLOCKS, USUAL_SIZE = 65_535, 512


def fill(capture: Capture, sender: EndName, last: Packet) -> None:
    """The last two datagrams of a transfer, again and again, up to the count."""
    other: EndName = "server" if sender == "client" else "client"
    while len(capture.rows) < COUNT:
        capture.put(sender, last)
        if len(capture.rows) < COUNT:
            capture.put(other, ack(int(last[1].split()[1])))


def at_receiver(file: bytes) -> Capture:
    """A read at the client: windows whose blocks come once or twice, and the last windows also backwards or mixed."""
    capture = Capture("client")
    capture.put("client", read_request("boot.img", "octet", blksize=512, windowsize=7, tsize=0))
    capture.put("server", oack(**AGREED, tsize=len(file)))
    capture.put("client", ack(0))
    wire, size = blocks(file, AGREED["blksize"]), AGREED["windowsize"]
    for at in range(0, len(wire), size):
        window, is_near_end = wire[at : at + size], len(wire) - at < 5 * size
        ways = window, window[:3] + window, window[::-1], window[2:3] + window[:2] + [ack(at + 1)] + window[3:]
        for packet in ways[at // size % (4 if is_near_end else 2)]:
            capture.put("client" if packet[1].startswith("ACK") else "server", packet)
        capture.put("client", ack(at + len(window)))
    fill(capture, "server", wire[-1])
    return capture


def at_sender(file: bytes) -> Capture:
    """A write in netascii at the client: windows that are acknowledged whole, in part, or twice."""
    capture = Capture("client")
    capture.put("client", write_request("notes.txt", "netascii", **AGREED))
    capture.put("server", oack(**AGREED))
    wire, size = blocks(netascii(file), AGREED["blksize"]), AGREED["windowsize"]
    at = turn = 0
    while at < len(wire):
        window, turn = wire[at : at + size], turn + 1
        capture.put("client", *window)
        # every third window is acknowledged up to its first blocks only, and the sender goes back
        at += len(window) if turn % 3 or len(window) < size else 4
        capture.put("server", *[ack(at)] * (1 + (turn % 5 == 0)))
    fill(capture, "client", wire[-1])
    return capture


def among_hosts(file: bytes) -> Capture:
    """A read at the client: between the blocks a third host sends some from the server's port, and gets ERRORs."""
    capture = Capture("client", version=2)
    capture.put("client", read_request("boot.img", "octet", **AGREED))
    capture.put("server", oack(**AGREED))
    capture.put("client", ack(0))
    wire, size = blocks(file, AGREED["blksize"]), AGREED["windowsize"]
    for at in range(0, len(wire), size):
        window = wire[at : at + size]
        capture.put("server", *window)
        capture.put("server", data(at + size, b"a stray"), host=capture.THIRD_HOST)
        if at % 2 == 1:
            capture.put("client", error(5, "unknown transfer"), host=capture.THIRD_HOST)
        capture.put("client", ack(at + len(window)))
    fill(capture, "server", wire[-1])
    return capture


def ended(capture: Capture, sender: EndName, told: Packet) -> Capture:
    """The first half of a capture, and then one ERROR of this end, again and again up to the count."""
    del capture.lines[COUNT // 2 :], capture.rows[COUNT // 2 :]
    capture.put(sender, *[told] * (COUNT - len(capture.rows)))
    return capture


def line_ends(length: int) -> Capture:
    """A netascii read whose wire text is bare line ends, 32,768 blocks in one window."""
    capture = Capture("client")
    options = {"blksize": 8, "windowsize": 65_535}
    capture.put("client", read_request("a", "netascii", **options))
    capture.put("server", oack(**options))
    capture.put("client", ack(0))
    capture.put("server", *blocks(b"\n" * length, 8))
    capture.put("client", ack(32_768))
    return capture


def in_lock_step(wire: Iterable[Packet]) -> Capture:
    """A write at the server, of these blocks one by one."""
    capture = Capture("server")
    capture.put("client", write_request("boot.img", "octet"))
    capture.put("server", ack(0))
    for number, packet in enumerate(wire, 1):
        capture.put("client", packet)
        capture.put("server", ack(number))
    return capture


def backwards(wire: Sequence[Packet]) -> Capture:
    """A read at the client of these blocks in one window, of which the last comes first."""
    capture = Capture("client")
    options = {"blksize": 8, "windowsize": 65_535}
    capture.put("client", read_request("boot.img", "octet", **options))
    capture.put("server", oack(**options))
    capture.put("client", ack(0))
    capture.put("server", *reversed(wire))
    capture.put("client", ack(len(wire)))
    return capture


def judged(name: str, text: bytes, line: str, status: int, file: bytes = b"") -> Iterator[Tried]:
    """What is tried on a text of which `check` prints this line, by each command that judges it."""
    verdict = f"{line}\n".encode(), status
    outputs = outputs_of_refused(verdict) if status else meaning_of(text, file).outputs(verdict)
    for command, (output, ended) in outputs.items():
        if command in COMMANDS:
            yield name, command, text, output, ended


def with_another_last(name: str, capture: Capture, sender: EndName, packet: Packet, rule: Rule) -> Iterator[Tried]:
    """The same capture with this packet as its last datagram, which breaks the rule."""
    capture.lines.pop()
    capture.put(sender, packet)
    yield from judged(f"{name}, another last datagram", capture.text(), refusal(COUNT, rule), 1)


def whole(
    name: str, capture: Capture, kind: str, wire: bytes, file: bytes, change: tuple[Packet, Rule]
) -> Iterator[Tried]:
    """What is tried on a whole capture."""
    count = len(wire) // AGREED["blksize"] + 1
    text, half = capture.text(), COUNT // 2
    yield from judged(name, text, f"accepted {kind} blocks {count} bytes {len(file)}", 0, file)
    yield name, "show", text, b"".join(capture.rows), 0
    yield from judged(f"{name}, its first half", capture.text(half), f"incomplete after {half}", 1)
    wrong = text.replace(b"total %d" % COUNT, b"total %d" % (COUNT - 1))
    yield from judged(f"{name}, a wrong total", wrong, f"fault line {COUNT + 4} TotalWrong", 2)
    yield from with_another_last(name, capture, "server", *change)


def aborted(name: str, capture: Capture, by: str, change: tuple[EndName, Packet]) -> Iterator[Tried]:
    """What is tried on a capture that ends by ERRORs."""
    yield from judged(name, capture.text(), f"aborted by {by}", 1)
    yield name, "show", capture.text(), b"".join(capture.rows), 0
    yield from with_another_last(name, capture, *change, Rule.AFTER_ERROR)


def of_most_blocks() -> Iterator[Tried]:
    """What is tried on captures of as many blocks as there may be, of random bytes that are the same each time."""
    chance, accepted = random.Random(1350), f"blocks {MOST_BLOCKS} bytes"
    file = chance.randbytes(MOST_BLOCKS * USUAL_SIZE - 1)
    capture = in_lock_step(blocks(file, USUAL_SIZE))
    yield from judged("the most blocks", capture.text(), f"accepted put octet {accepted} {len(file)}", 0, file)
    capture.lines[-2:] = []
    capture.put("client", data(MOST_BLOCKS, file[1 - USUAL_SIZE :] + b"!"))
    beyond = refusal(2 * MOST_BLOCKS + 1, Rule.BEYOND_BLOCK_65535)
    yield from judged("one byte too many", capture.text(), beyond, 1)
    file = chance.randbytes(MOST_BLOCKS * 8 - 1)
    capture = backwards(blocks(file, 8))
    yield from judged("the last first", capture.text(), f"accepted get octet {accepted} {len(file)}", 0, file)


def cases() -> Iterator[Tried]:
    image = b"".join(b"%06d\n" % number for number in range(8_150))
    notes = b"".join((b"%d\n", b"a\r\n%d", b"\r%d\r", b"\n\n%d")[number % 4] % number for number in range(7_600))
    # Bare line ends are one byte each on the wire and two in canonical text, which has at most 65,535 blocks of 8.
    yield from judged("line ends, too many", line_ends(262_140).text(), "too long when normal", 1)
    accepted = "accepted get netascii blocks 65535 bytes 262139"
    as_many = line_ends(262_139).text()
    yield from judged("line ends, as many as there may be", as_many, accepted, 0, b"\n" * 262_139)
    yield from of_most_blocks()
    change = data(1, b"another!"), Rule.BLOCK_CHANGED
    yield from whole("a read with a window", at_receiver(image), "get octet", image, image, change)
    yield from whole("a read among hosts", among_hosts(image), "get octet", image, image, change)
    wire = netascii(notes)
    change = ack(len(wire) // AGREED["blksize"] + 2), Rule.ACK_AHEAD
    yield from whole("a write in netascii", at_sender(notes), "put netascii", wire, notes, change)
    read = ended(at_receiver(image), "server", error(0, "out of blocks"))
    yield from aborted("a read that the server ends", read, "peer code 0", ("server", error(0, "out of block")))
    write = ended(at_sender(notes), "client", error(3, "disk full"))
    yield from aborted("a write that the client ends", write, "local code 3", ("client", data(1, wire[:8])))


def said(program: str, command: str, text: bytes) -> tuple[bytes, bytes, int]:
    """What the program prints of a text, what it writes as errors, and its status."""
    done = subprocess.run([program, command], input=text, capture_output=True, timeout=300)
    return done.stdout, done.stderr, done.returncode


class Large(Checks):
    """What the commands print of them."""

    needs = (AUDIT,)

    def test_captures(self) -> None:
        tried = list(cases())
        with concurrent.futures.ThreadPoolExecutor(len(os.sched_getaffinity(0))) as pool:
            got = pool.map(lambda case: said(AUDIT.path, *case[1:3]), tried)
            for (name, command, _, output, status), printed in zip(tried, got):
                holds = printed == (output, b"", status)
                self.check(f"{command}, {name}", holds, (printed[0][:100], *printed[1:]))
