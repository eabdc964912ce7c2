"""What tools/tftp-explain says of captures: one for each rule, and one for each other line of the program. And which
transfer of a recording it explains, at which end, with which doubts.
"""
from __future__ import annotations

import dataclasses
import gzip
import hashlib
import pathlib
import subprocess
from collections.abc import Sequence
from dataclasses import dataclass
from random import Random
from typing import Final, NamedTuple, Union

import made
import recorded
from captures import Capture, EndName, Packet, ack, data, error, oack, read_request, write_request
from checks import Checks
from programs import AUDIT, TRANSFERS
from refusals import Rule, refusal
from repository import TOP
from tftp_tools.frames import without_frames

SCRIPT, EXAMPLES = TOP / "tools" / "tftp-explain", TOP / "examples"
Words = tuple[Union[str, int, pathlib.Path], ...]
EIGHT, WHOLE = b"12345678", b"w" * 512
READ, WRITE = read_request("a", "octet"), write_request("a", "octet")
WINDOWED = {"blksize": 8, "windowsize": 4}
READ_IN_WINDOWS = read_request("a", "octet", **WINDOWED)
UNANSWERED = "Doubtful: nobody had answered for sure what its client asked for before: what comes may be"
AGAIN = "its client had asked the same and sent nothing else since: the transfer before goes on"
UNPLACED = "Doubtful: it may have been recorded between its two ends: name the place with --end"
BETWEEN = "Place: judged between the ends, by what passed there; the datagrams have the numbers that they have"
NO_ZERO = (b"\0\5\0\1no file", "ERROR without its zero")


@dataclass(frozen=True)
class Case:
    """A capture, the line that is printed of it, and lines that stand in what is explained."""

    line: str
    text: bytes
    told: tuple[str, ...]


class At(NamedTuple):
    """A packet, its sender and the ports of the two ends."""

    sender: EndName
    packet: Packet
    client: int = Capture.CLIENT
    server: int = Capture.SERVER


def capture(end: EndName, *steps: At | tuple[EndName, Packet]) -> bytes:
    """The text of packets, each with its sender, and perhaps with ports of its own."""
    made = Capture(end)
    for step in steps:
        it = step if isinstance(step, At) else At(*step)
        made.put(it.sender, it.packet, client=it.client, server=it.server)
    return made.text()


def refused(number: int, rule: Rule, text: bytes, *told: str) -> Case:
    return Case(refusal(number, rule), text, told)


def malformed(number: int, fault: str, text: bytes, *told: str) -> Case:
    return Case(refusal(number, Rule.MALFORMED, fault), text, told)


C: Final = "client"
S: Final = "server"
RULES = (
    refused(
        3, Rule.FOREIGN_PORT, capture(C, (C, READ), (S, data(1, b"hi")), At(S, data(1, b"hi"), client=40_001)),
        "Its port at the client is 40001.", "The transfer's port there is 40000, fixed by datagram 1 (line 4).",
    ),
    refused(
        3, Rule.WRONG_PORT, capture(C, (C, READ), (S, data(1, WHOLE)), At(C, ack(1), server=43_000)),
        "It goes to port 43000, from where nothing had come.",
        "The other end is at port 41000, fixed by datagram 2 (line 5).",
    ),
    refused(
        4, Rule.STRAY_ANSWER,
        capture(
            C, (C, READ), (S, data(1, b"hi")), At(S, data(1, b"hi"), server=42_000), At(C, ack(1), server=42_000)
        ),
        "It goes to port 42000, which is not the other end: only ERROR 5 may go there.",
        "From there came datagram 3 (line 6): DATA, block 1, 2 bytes.",
    ),
    refused(1, Rule.NO_REQUEST, capture(C, (S, data(1, b"hi"))), "No request had passed before it"),
    malformed(
        2, "NoTerminator", capture(C, (C, READ), (S, NO_ZERO)),
        "The fault is NoTerminator: the zero byte that ends its last text is missing, or is not its last byte.",
        "The ERROR has 11 bytes, the last is 0x65.",
    ),
    malformed(
        2, "NoTerminator", capture(C, (C, READ), (S, (b"\0\5\0\1no file\0\0", "ERROR with two zeros"))),
        "The ERROR's text ends with the zero byte at byte 12 of 13 bytes; behind it stands 00.",
    ),
    malformed(
        2, "Short", capture(C, (C, READ), (S, (b"\0\3\0", "DATA that is cut"))),
        "It begins as DATA and has 3 bytes; opcode and block number are 4.", "Usually: DATA that is cut short (atftpd",
    ),
    malformed(
        2, "Opcode", capture(C, (C, READ), (S, (b"\0\7\0\1", "opcode 7"))),
        "Its first two bytes are 00 07, opcode 7.",
    ),
    malformed(
        3, "AckLength", capture(C, (C, READ), (S, data(1, b"hi")), (C, (b"\0\4\0\1\xaa", "ACK of 5"))),
        "It begins as an ACK and has 5 bytes.", "Behind its fourth byte stands aa.",
    ),
    malformed(
        2, "OddOptions", capture(C, (C, READ_IN_WINDOWS), (S, (b"\0\6tsize\0" + b"9\0blksize\0", "OACK"))),
        'The last option, "blksize" at byte 11, has no value.',
    ),
    malformed(
        2, "EmptyOptionName", capture(C, (C, READ_IN_WINDOWS), (S, (b"\0\6\0" + b"8\0", "OACK"))),
        'At byte 3 stands an empty name; its value is "8".',
    ),
    malformed(
        2, "DuplicateOption",
        capture(C, (C, READ_IN_WINDOWS), (S, (b"\0\6blksize\0" + b"8\0BlkSize\0" + b"9\0", "OACK"))),
        'Its option "blksize" at byte 3 with the value "8", and again "BlkSize" at byte 13 with the value "9".',
    ),
    malformed(
        1, "UnknownMode", capture(C, (C, (b"\0\1a\0octte\0", "RRQ"))), 'Its mode is "octte", at byte 5.',
        "Usually: not seen of real software: a client with a mode of its own would do so.",
    ),
    malformed(
        1, "UnknownMode", capture(C, (C, (b"\0\1a\0oc\x1b\xfft\0", "RRQ"))),
        'asks to read "a" in mode "oc\\x1b\\xfft", no options.', 'Its mode is "oc\\x1b\\xfft", at byte 5.',
    ),
    malformed(1, "MailMode", capture(C, (C, (b"\0\1a\0mail\0", "RRQ"))), 'Its mode is "mail", at byte 5.'),
    malformed(
        1, "RequestTooLong", capture(C, (C, read_request("a" * 500, "octet", tsize=0))),
        "The RRQ has 517 bytes, which is 5 more.",
    ),
    refused(
        3, Rule.WRONG_PORT, capture(C, (C, READ), (S, data(1, WHOLE)), At(C, ack(1), server=69)),
        "Port 69 is the service port: requests go there, and nothing else.",
        "The other end is at port 41000, fixed by datagram 2 (line 5).",
        "Usually: a client that goes on with the service port, though the server answered from another one",
    ),
    refused(
        3, Rule.WRONG_PORT, capture(S, (C, READ), (S, data(1, WHOLE)), At(C, ack(1), server=69)),
        "It comes to the service port 69, where requests of the client alone may come.",
        "The server had answered from port 41000 in datagram 2 (line 5): the client goes on with that one.",
    ),
    refused(
        3, Rule.WRONG_KIND, capture(C, (C, READ), (S, data(1, WHOLE)), (C, data(1, b"hi"))),
        "The transfer is a read (datagram 1, line 4): the server sends DATA and the client ACKs",
    ),
    refused(
        4, Rule.AFTER_ERROR, capture(C, (C, READ), (S, data(1, b"hi")), (C, error(3, "disk full")), (C, ack(1))),
        "Its sender had sent datagram 3 (line 6): ERROR, code 3 (disk full or allocation exceeded), message"
        ' "disk full".',
    ),
    refused(
        2, Rule.REQUEST_CHANGED, capture(C, (C, READ), (C, read_request("b", "octet", tsize=0))),
        "The first request is datagram 1 (line 4).", 'Its name was "a", and is "b" now.',
        "Its options was no options, and is tsize 0 now.",
    ),
    refused(
        4, Rule.REQUEST_AFTER_START, capture(C, (C, READ), (S, data(1, WHOLE)), (C, ack(1)), (C, READ)),
        "The client had gone on: datagram 3 (line 6) is ACK 1.",
        "That holds if the recording was made at the client: elsewhere its datagrams may be missing or come by late.",
    ),
    refused(
        3, Rule.REPLY_CHANGED, capture(C, (C, READ_IN_WINDOWS), (S, data(1, WHOLE)), (S, oack(**WINDOWED))),
        "The first answer is datagram 2 (line 5): DATA 1 (512 bytes), so nothing was agreed.",
    ),
    refused(2, Rule.OACK_EMPTY, capture(C, (C, READ_IN_WINDOWS), (S, oack())), "Agreed to here: no options."),
    refused(
        2, Rule.MULTICAST_AGREED, capture(C, (C, read_request("a", "octet", multicast="")), (S, oack(multicast="1"))),
        "Agreed to here: multicast 1.", "this project's profile: RFC 2090 is outside of it.",
    ),
    refused(
        2, Rule.OPTION_NOT_REQUESTED,
        capture(C, (C, read_request("a", "octet", tsize=0)), (S, oack(tsize=5, blksize=8))),
        "Asked for (datagram 1, line 4): tsize 0.", "Not asked for: blksize.",
    ),
    refused(
        2, Rule.OPTION_OUTSIDE_PROFILE, capture(C, (C, read_request("a", "octet", rollover=0)), (S, oack(rollover=0))),
        "None of the four: rollover.",
    ),
    refused(
        2, Rule.OPTION_VALUE, capture(C, (C, read_request("a", "octet", blksize=512)), (S, oack(blksize=1024))),
        "blksize: asked 512, agreed 1024: it is larger than what was asked for.",
    ),
    refused(
        3, Rule.OACK_CHANGED, capture(C, (C, READ_IN_WINDOWS), (S, oack(**WINDOWED)), (S, oack(blksize=8))),
        "The first OACK is datagram 2 (line 5): blksize 8, windowsize 4; now blksize 8.",
    ),
    refused(
        5, Rule.OACK_AFTER_START,
        capture(
            S, (C, READ_IN_WINDOWS), (S, oack(**WINDOWED)), (C, ack(0)), (S, data(1, EIGHT)), (S, oack(**WINDOWED))
        ),
        "The server had sent datagram 4 (line 7): DATA 1 (8 bytes).",
    ),
    refused(
        3, Rule.NOT_STARTED, capture(S, (C, READ_IN_WINDOWS), (S, oack(**WINDOWED)), (S, data(1, EIGHT))),
        "The server's OACK (datagram 2, line 5) is answered by ACK 0 before the first block, and no ACK 0 stands",
    ),
    refused(2, Rule.BLOCK_ZERO, capture(C, (C, READ), (S, data(0, WHOLE))), "No block had passed before it."),
    refused(
        2, Rule.BEYOND_BLOCK_65535,
        capture(C, (C, read_request("a", "octet", tsize=0)), (S, oack(tsize=33_553_920))),
        "33,553,920 bytes in blocks of 512 are 65,536 blocks; there are numbers for 65,535.",
    ),
    refused(
        4, Rule.BLOCK_LENGTH,
        capture(C, (C, READ_IN_WINDOWS), (S, oack(**WINDOWED)), (C, ack(0)), (S, data(1, EIGHT + b"9"))),
        "The block size is 8 (datagram 2, line 5).", "This block has 9 bytes, which is more.",
    ),
    refused(
        9, Rule.WINDOW_OVERRUN,
        capture(
            C, (C, READ_IN_WINDOWS), (S, oack(**WINDOWED)), (C, ack(0)), (S, data(1, EIGHT)), (S, data(2, EIGHT)),
            (C, ack(2)), (S, data(3, EIGHT)), (S, data(4, EIGHT)), (S, data(7, EIGHT)),
        ),
        "Datagram 6 (line 9) acknowledged block 2.",
        "The window is 4 blocks (datagram 2, line 5), so block 6 is the last that may come.", "Block 7 is one too far.",
        "RFC 1350, section 2 (lock step), and RFC 7440, section 4.",
    ),
    refused(
        5, Rule.BLOCK_SKIPPED,
        capture(S, (C, READ_IN_WINDOWS), (S, oack(**WINDOWED)), (C, ack(0)), (S, data(1, EIGHT)), (S, data(3, EIGHT))),
        "The highest block sent before it is 1 in datagram 4 (line 7).", "The next one is 2, and this is block 3.",
        "That holds if the recording was made at the server:",
    ),
    refused(
        6, Rule.GONE_BACK,
        capture(C, (C, WRITE), (S, ack(0)), (C, data(1, WHOLE)), (S, ack(1)), (C, data(2, WHOLE)), (C, data(1, WHOLE))),
        "The highest block sent before it is 2 in datagram 5 (line 8).", "This is lock step: no window was agreed.",
        "That holds if the recording was made at the client:",
    ),
    refused(
        4, Rule.BLOCK_CHANGED,
        capture(C, (C, READ), (S, data(1, WHOLE)), (C, ack(1)), (S, data(1, WHOLE[:511] + b"x"))),
        "Block 1 had passed in datagram 2 (line 5), with 512 bytes; now it has 512 bytes.",
        'They differ from byte 512 of the block on: "w" then, "x" now.',
    ),
    refused(
        3, Rule.ACK_AHEAD, capture(C, (C, READ), (S, data(1, WHOLE)), (C, ack(2))),
        "Block 1 had come in, block 2 had not.", "Block 2 is acknowledged.",
        "If lost: lawful if 2 datagrams are missing: 1 from the server and 1 from the client",
        "before datagram 3 (line 6).",
    ),
    refused(
        3, Rule.ACK_AHEAD, capture(C, (C, READ), (S, error(1, "none")), (C, ack(1))),
        "It follows the ERROR in datagram 2 (line 5), which is not acknowledged; this does no harm.",
    ),
    refused(
        3, Rule.ACK_AHEAD, capture(S, (C, READ), (S, error(1, "none")), (C, ack(1))),
        "No block was sent before it.", "It follows the ERROR in datagram 2 (line 5), which is not acknowledged",
    ),
    refused(
        3, Rule.ACK_ZERO, capture(C, (C, READ), (S, data(1, WHOLE)), (C, ack(0))),
        "The transfer is a read, and no OACK had passed, so there was nothing that ACK 0 could answer.",
    ),
)
WITH_FRAMES = """tftp-capture 2
# frame 1 time 1795414191.431300000
end client
service 69
# frame 7 time 1795414191.431300000
out 40000 192.0.2.1 69 000161006f6374657400
# frame 9 time 1795414191.432806000
in 40000 192.0.2.1 41000 000300016869
# frame 12 time 1795414192.000000000
out 40000 192.0.2.1 41000 00040002
total 3
"""
ASKED_TWICE = """tftp-capture 2
end client
service 69
# frame 1 time 1795414191.000000000
out 40000 192.0.2.1 69 000161006f6374657400
# frame 2 time 1795414196.000000000
out 40000 192.0.2.1 69 000161006f6374657400
total 2
"""
SOUND = capture(C, (C, READ), (S, data(1, b"hi")), (C, ack(1)))
OTHERS = (
    Case(
        refusal(3, Rule.ACK_AHEAD), WITH_FRAMES.encode(),
        (
            "line 10 of the text, frame 12 of the recording, 2026-11-23 06:09:52.000000 UTC, 0.568700 s after"
            " datagram 1.",
            "out, from port 40000 of the client to 192.0.2.1 port 41000: ACK, acknowledges block 2.",
        ),
    ),
    Case("accepted get octet blocks 1 bytes 2", SOUND, ('a read of "a" in mode octet, at the client', "3 datagrams.")),
    Case(
        "aborted by peer code 1", capture(C, (C, READ), (S, error(1, "File not found"))),
        (
            'ERROR, code 1 (file not found), message "File not found".', "the server. No rule was broken.",
            "the request, which passed 1 time; the ERROR is the answer to it, and nothing came over.",
        ),
    ),
    Case(
        "aborted by local code 3", capture(S, (C, WRITE), (S, ack(0)), (C, data(1, WHOLE)), (S, error(3, "full"))),
        ("the server. No rule was broken.", "block 1 came in; the highest ACK sent is 0 in datagram 2 (line 5)."),
    ),
    Case("incomplete after 0", capture(C), ("the request, and all that follows it.",)),
    Case(
        "incomplete after 2", capture(C, (C, READ), (C, READ)),
        (
            "an answer to the request, which passed 2 times.",
            "Usually: a server that is down, or does not listen at port 69 of that address; a firewall",
        ),
    ),
    Case(
        "incomplete after 2", capture(S, (C, READ), (C, READ)),
        ("a server that is down, or does not listen at port 69: the requests came as far as its host;",),
    ),
    Case("incomplete after 2", ASKED_TWICE.encode(), ("an answer to the request, which passed 2 times in 5.000 s.",)),
    Case(
        "incomplete after 2", capture(C, (C, READ_IN_WINDOWS), (S, oack(**WINDOWED))),
        (
            "ACK 0, by which the client answers the OACK in datagram 2 (line 5), and all that follows it.",
            "an OACK that the client did not get or does not know",
        ),
    ),
    Case(
        "incomplete after 2", capture(S, (C, READ_IN_WINDOWS), (S, oack(**WINDOWED))),
        ("ACK 0, by which the client answers the OACK in datagram 2 (line 5)",),
    ),
    Case(
        "incomplete after 4",
        capture(C, (C, read_request("a", "octet", tsize=0)), (S, oack(tsize=1300)), (C, ack(0)), (S, data(1, WHOLE))),
        ("block 2 and what follows: the last one is block 3, by the size agreed (1,300 bytes in blocks of 512).",),
    ),
    Case(
        "incomplete after 3", capture(C, (C, READ), (S, data(1, WHOLE)), (C, ack(1))),
        ("block 2 and what follows: none was shorter than a block (512 bytes).",),
    ),
    Case("incomplete after 2", capture(C, (C, READ), (S, data(1, b"hi"))), ("the ACK of the last block, 1.",)),
    Case(
        "incomplete after 5",
        capture(C, (C, READ_IN_WINDOWS), (S, oack(**WINDOWED)), (C, ack(0)), (S, data(2, EIGHT)), (S, data(3, b""))),
        ("block 1, though block 3 came in datagram 5 (line 8).",),
    ),
    Case(
        "incomplete after 3", capture(S, (C, READ), (S, data(1, WHOLE)), (C, READ)),
        ("the highest block sent is block 1 in datagram 2 (line 5)", "the ACK of block 1, and what follows it."),
    ),
    Case("incomplete after 2", capture(S, (C, READ), (S, data(1, b"hi"))), ("the ACK of the last block, 1.",)),
    Case("fault line 7 Truncated", SOUND.replace(b"total 3\n", b""), ("3 datagrams on whole lines before that.",)),
    Case("fault line 1 BadHeader", SOUND.replace(b"\n", b"\r\n"), ("it ends in CR LF, and lines end in LF alone.",)),
    Case("fault line 2 BadEnd", SOUND.replace(b"client", b"peer"), ('"end peer"',)),
    Case("fault line 3 BadService", SOUND.replace(b"69\n", b"0\n", 1), ('"service 0"',)),
    Case("fault line 4 BadLine", SOUND.replace(b"out 40000 69", b"out 40000  69"), ("it has 5 fields between single",)),
    Case("fault line 4 BadPort", SOUND.replace(b"40000", b"040000"), ('the port "040000", from sign 5 on, is none.',)),
    Case("fault line 5 BadHex", SOUND.replace(b"6869", b"68x9"), ('sign 26 is "x", where a hex digit is due.',)),
    Case("fault line 5 BadHex", SOUND.replace(b"6869", b"686"), ("the payload has 11 hex digits",)),
    Case("fault line 7 TotalWrong", SOUND.replace(b"total 3", b"total 4"), ("3 datagrams stand before it.",)),
    Case("fault line 8 TrailingText", SOUND + b"#", ("nothing may stand behind the total line.",)),
)


def run(words: Sequence[object], given: bytes = b"") -> tuple[str, str, int]:
    """What the script writes, what it writes as errors, and its status."""
    done = subprocess.run([str(word) for word in (SCRIPT, *words)], input=given, capture_output=True, timeout=60)
    return done.stdout.decode(), done.stderr.decode(), done.returncode


def plain(text: str) -> str:
    """Its words, however they are laid out."""
    return " ".join(text.split())


def at_another_port() -> list[recorded.Datagram]:
    """A read whose request has not the form of one, by which one at another port is found: its last zero byte is
    missing."""
    request, *rest = made.read("a", 40_000, 41_000, service=6969)
    return [dataclasses.replace(request, payload=request.payload[:-1]), *rest]


def out(*packets: Packet) -> list[recorded.Datagram]:
    """Packets of the client to the server's port."""
    return [recorded.Datagram(made.C, 40_000, made.S, 41_000, payload) for payload, _ in packets]


def back(*packets: Packet) -> list[recorded.Datagram]:
    return [recorded.Datagram(made.S, 41_000, made.C, 40_000, payload) for payload, _ in packets]


def asking(packet: Packet) -> list[recorded.Datagram]:
    return [recorded.Datagram(made.C, 40_000, made.S, 69, packet[0])]


# The line, what passed, and what is told of it.
Passing = tuple[str, list[recorded.Datagram], tuple[str, ...]]


def refused_between() -> tuple[Passing, ...]:
    """Between the ends, by what had passed."""
    begun, two = asking(READ), asking(READ) + back(data(1, WHOLE))
    stray = recorded.Datagram(made.THIRD, 41_000, made.C, 40_000, data(1, b"x")[0])
    answered = recorded.Datagram(made.C, 40_000, made.THIRD, 41_000, ack(1)[0])
    return (
        (
            refusal(2, Rule.WRONG_PORT), asking(WRITE) + out(data(1, b"hi")),
            (
                "It goes to 192.0.2.1 port 41000, from where nothing had passed.",
                "If lost: lawful if 1 datagram is missing: 1 from the server before datagram 2 (line 8, frame 2).",
            ),
        ),
        (
            refusal(5, Rule.STRAY_ANSWER), two + out(ack(1)) + [stray, answered],
            (
                "From there came datagram 4 (line 12, frame 4): DATA, block 1, 1 byte.",
                "The server is at 192.0.2.1 port 41000, with which the client went on in datagram 3 (line 10,",
            ),
        ),
        (
            refusal(3, Rule.AFTER_ERROR), begun + back(error(1, "no"), error(3, "full")),
            ("An ERROR of the server had passed in datagram 2 (line 8, frame 2): ERROR, code 1", "and no other of the"),
        ),
        (
            refusal(3, Rule.WINDOW_OVERRUN), two + back(data(2, b"!")),
            (
                "No block was acknowledged before it.", "from 192.0.2.1 port 41000 to port 40000 of the client: DATA",
                "If lost: lawful if 1 datagram is missing: 1 from the client before datagram 3 (line 10, frame 3).",
            ),
        ),
        (
            refusal(3, Rule.ACK_AHEAD), begun + back(error(1, "no")) + out(ack(1)),
            ("Block 1 had not passed. Block 1 is acknowledged. It follows the ERROR in datagram 2 (line 8, frame 2)",),
        ),
        (
            refusal(4, Rule.BLOCK_CHANGED), two + out(ack(1)) + back(data(1, WHOLE[:511] + b"x")),
            ("Block 1 had passed in datagram 2 (line 8, frame 2), with 512 bytes", "line 12 of the client's text,"),
        ),
        (
            refusal(3, Rule.ACK_ZERO), two + out(ack(0)),
            ("The transfer is a read, and no OACK had passed, so there was nothing that ACK 0 could answer.",),
        ),
    )


def refused_late() -> tuple[Passing, ...]:
    """The same by what had passed before an ERROR of the end that is judged."""
    two = asking(READ) + back(data(1, WHOLE))
    late = "The client's ERROR had passed in datagram 4 (line 12, frame 4): the client sends nothing after it, so"
    served = "The server's ERROR had passed in datagram 3 (line 10, frame 3): the server sends nothing after it, so"
    return (
        (
            refusal(4, Rule.NOT_STARTED), asking(WRITE) + back(error(1, "no")) + out(error(0, "so"), data(1, b"hi")),
            ("and neither had passed before the client's ERROR in datagram 3 (line 10, frame 3).",),
        ),
        (
            refusal(5, Rule.WINDOW_OVERRUN), two + back(error(3, "full")) + out(ack(1)) + back(data(2, b"!")),
            ("No block was acknowledged before it.", "block 1 is the last that may pass.", f"{served} what passed"),
        ),
        (
            refusal(6, Rule.ACK_AHEAD), two + out(ack(1), error(0, "x")) + back(data(2, b"!")) + out(ack(2)),
            ("Block 1 had passed, block 2 had not. Block 2 is acknowledged.", f"{late} what passed from the"),
        ),
    )


def sections(frames: list[recorded.Frame]) -> bytes:
    """The same frames in pcapng, a section for each in other byte orders, with blocks between that hold none."""
    chance, file = Random(7), b""
    for number, frame in enumerate(frames):
        order = "<>"[number % 2]
        passed: list[tuple[int, recorded.Block]] = [(0, recorded.other_block(order, chance)), (0, frame)]
        file += recorded.section(order, [recorded.Interface(recorded.RAW)], passed, chance)
    return file


class Explained(Checks):
    """What is explained of texts and of recordings."""

    needs = (AUDIT, TRANSFERS)
    program, programs = AUDIT.path, ("--program", AUDIT.path, "--transfers", TRANSFERS.path)

    def test_cases(self) -> None:
        status = {"accepted": 0, "fault": 2}
        for case in (*RULES, *OTHERS):
            output, errors, ended = run(["--program", self.program], case.text)
            line, _, rest = output.partition("\n\n")
            sound = line == case.line and errors == "" and ended == status.get(line.split()[0], 1)
            self.check(f"tftp-explain, {case.line}", sound, (output, errors, ended))
            for words in case.told:
                self.check(f"tftp-explain, {case.line}, {words!r}", plain(words) in plain(rest), output)

    def test_examples(self) -> None:
        """The transfer and end that are named, or the one that is refused."""
        sound = "accepted get octet blocks 3 bytes 1300"
        third = 'transfer 3: get "missing.cfg", client 192.0.2.1:34056, server 192.0.2.1:42245, at the client'
        first = 'transfer 1: put "report.bin", client 192.0.2.2:47102, server 192.0.2.2:35665, at the client'
        session, oack_again = (EXAMPLES / f"loopback-{name}.pcap" for name in ("session", "repeated-oack"))
        ahead, changed = refusal(3, Rule.ACK_AHEAD), refusal(4, Rule.BLOCK_CHANGED)
        again = refusal(5, Rule.BLOCK_CHANGED)
        cases: tuple[tuple[str, list[object], tuple[str, int], str], ...] = (
            ("the refused one", [session], (third, 1), f"at the client {ahead} Where: line 10"),
            ("how many are not accepted", [session], (third, 1), "1 of 5 transfers is not accepted"),
            ("each is accepted", [EXAMPLES / "loopback-dnsmasq.pcap"], ("each of the 3 transfers is accepted", 0), ""),
            ("the one that is named", [session, 1, "server"], (sound, 0), "accepted"),
            ("the one whose number is named", [oack_again, 2], (changed, 1), "frame 9 of the recording"),
            ("each of several, the first", [oack_again], (first, 1), f"{again} Where:"),
            ("each of several, the second", [oack_again], (first, 1), f"between the ends {changed} Where: line 12"),
            ("each of several, how many", [oack_again], (first, 1), "2 of 2 transfers are not accepted"),
            (
                "no such one", [session, 9, "client"], ("", 2),
                "there is no transfer 9 to judge: the recording has 1 to 5",
            ),
            ("a text has no number", [EXAMPLES / "one-block.capture", 1, "client"], ("", 2), "is no recording"),
        )
        for name, words, wanted, said in cases:
            output, errors, status = run([*self.programs, *words])
            got = output.partition("\n")[0], status
            self.check(f"tftp-explain, {name}", got == wanted and said in plain(output + errors), (output, errors))

    def test_recordings(self) -> None:
        """Recordings that are made here: at which end a refusal is explained, its doubts, and what the program
        tells."""
        late, path = made.late_block(), self.folder / "a recording"
        begun, gone_back = late[:5], refusal(5, Rule.GONE_BACK)
        at_server = "out, from port 41000 of the server to"
        at_client = "in, from 192.0.2.1 port 42000 to port 40000 of the"
        inside = "Accused: the server at 127.0.0.1:41000, which sent the datagram."
        has = "Has: blocks 1 to 2 passed; the highest ACK that passed is 1 in datagram 3 (line 10, frame 3)."
        other_port = at_another_port()
        name = recorded.Datagram(made.C, 40_001, "192.0.2.53", 53, b"a question")
        sound = "accepted get octet blocks 2 bytes 513"
        cases: tuple[tuple[str, bytes, Words, str, tuple[str, ...]], ...] = (
            ("between the ends", made.file_of(late), (), sound, ("in mode octet, between the ends;", BETWEEN)),
            (
                "incomplete between", made.file_of(begun), (), "incomplete after 5",
                (has, "the ACK of the last block, 2."),
            ),
            ("between, named", made.file_of(made.at_one_host(late)), (1, "between"), sound, (BETWEEN,)),
            ("refused at the end that is named", made.file_of(late), (1, "server"), gone_back, (at_server,)),
            ("both ends at one address", made.file_of(made.at_one_host(late)), (), gone_back, (at_server, UNPLACED)),
            ("both inside a host", made.file_of(made.at_one_host(late, "127.0.0.1")), (), gone_back, (inside,)),
            (
                "a doubt of a transfer", made.file_of(made.asked_again()), (2, "client"),
                refusal(2, Rule.WINDOW_OVERRUN), (at_client, UNANSWERED, AGAIN),
            ),
            (
                "what is told beside", made.file_of([*late, name]), (), sound,
                (f"tftp-explain: {path}: 1 datagram of UDP of no transfer (frame 7)",),
            ),
            ("no transfer", made.file_of(other_port), (), "", ("went to port 6969: name the port by --service",)),
            (
                "another service port", made.file_of(other_port), ("--service", 6969),
                refusal(1, Rule.MALFORMED, "NoTerminator"), ("What: from port 40000 of the client to 192.0.2.1",),
            ),
        )
        for name_of_case, given, words, line, said in cases:
            path.write_bytes(given)
            self.try_recording(name_of_case, [path, *words], line, said)

    def try_recording(self, name: str, words: Sequence[object], line: str, said: tuple[str, ...]) -> None:
        """Of a recording this line is printed, and this is said."""
        output, errors, status = run([*self.programs, *words])
        wanted = 2 if not line else 0 if line.startswith("accepted") else 1
        holds = output.partition("\n")[0] == line and status == wanted
        holds = holds and ("Doubtful:" in output) == any("Doubtful:" in it for it in said)
        is_accused = line.startswith("refused") and "Doubtful:" not in output
        holds = holds and ("Accused:" in output) == is_accused
        self.check(f"tftp-explain, {name}", holds, (output, errors, status))
        for it in said:
            self.check(f"tftp-explain, {name}, {it}", it in plain(output + errors), (output, errors))

    def test_between(self) -> None:
        """Refusals between the ends: what had passed, what counts of it after an ERROR, and what must be missing."""
        path = self.folder / "between.pcap"
        for wanted, passed, said in (*refused_between(), *refused_late()):
            path.write_bytes(made.file_of(passed))
            output, errors, status = run([*self.programs, path, 1, "between"])
            line = output.partition("\n")[0]
            self.check(f"between, {wanted}", (line, status) == (wanted, 1), (output, errors))
            is_lost = any(it.startswith("If lost: ") for it in said)
            self.check(f"between, {wanted}, lost", ("\nIf lost: " in output) == is_lost, output)
            for it in said:
                self.check(f"between, {wanted}, {it}", it in plain(output), output)
        digest = hashlib.sha256(WHOLE + b"!").hexdigest()
        first, last = data(1, WHOLE), data(2, b"!")
        read = asking(READ) + back(first) + out(ack(1)) + back(last, first) + out(ack(2))
        write = asking(WRITE) + back(ack(0)) + out(first) + back(ack(1)) + out(last, first) + back(ack(2))
        for name, passed in (("a read", read), ("a write, which the client's text has not", write)):
            path.write_bytes(made.file_of(passed))
            output, _, _ = run([*self.programs, "--all", path])
            self.check(f"between, the file of {name}", f"File: 513 bytes, SHA-256 {digest}." in plain(output), output)

    def test_all_between(self) -> None:
        """Between the ends the frames of the refused datagrams are left out of the recording."""
        path = self.folder / "between.pcap"
        changed = asking(READ) + back(data(1, WHOLE)) + out(ack(1)) + back(data(1, WHOLE[:511] + b"x"))
        passed = changed + back(data(2, b"!")) + out(ack(9), ack(2))
        digest = hashlib.sha256(WHOLE + b"!").hexdigest()
        frames, ahead = made.framed(made.packets_of(passed)), f"rule {Rule.ACK_AHEAD}"
        for name, recording in (("pcap", recorded.pcap(frames)), ("pcapng", sections(frames))):
            path.write_bytes(recording)
            output, errors, status = run([*self.programs, "--all", path, 1, "between"])
            is_first = output.startswith(f"{refusal(4, Rule.BLOCK_CHANGED)}\n") and (errors, status) == ("", 1)
            self.check(f"between, what if, {name}", is_first, (output, errors))
            for words in (
                f"what if, without datagram 4: datagram 6 {ahead} Where: line 16 of the client's text, frame 6",
                "what if, without datagrams 4 and 6: accepted get octet blocks 2 bytes 513",
                f"File: 513 bytes, SHA-256 {digest}.",
            ):
                self.check(f"between, what if, {name}, {words}", words in plain(output), output)
        path.write_bytes(made.file_of(asking(WRITE) + out(data(1, b"hi"))))
        output, _, _ = run([*self.programs, "--all", path, 1, "between"])
        is_told = "what if, without datagram 2: incomplete after 1" in plain(output)
        self.check("between, what if, a request alone", is_told, output)

    def test_frames(self) -> None:
        """A recording without some frames is the recording of the others; what is cut stays."""
        passed = asking(READ) + back(data(1, b"hi")) + out(ack(1))
        frames = made.framed(made.packets_of(passed))
        for name, whole in (("pcap", recorded.pcap(frames)), ("pcapng", sections(frames))):
            for gone, frame in enumerate(frames, 1):
                rest = without_frames(whole, [gone])
                lacks = frame.content not in rest and all(it.content in rest for it in frames if it != frame)
                self.check(f"{name}, without frame {gone}", lacks, rest)
            for cut in range(24, len(whole) + 1):
                self.check(f"{name}, {cut} bytes of it", without_frames(whole[:cut], ()) == whole[:cut], cut)
        for gone in range(len(frames)):
            rest = recorded.pcap([frame for place, frame in enumerate(frames) if place != gone])
            self.check(
                f"pcap, all but frame {gone + 1}", without_frames(recorded.pcap(frames), [gone + 1]) == rest, rest
            )

    def test_streams(self) -> None:
        """What comes on standard input: a recording, or what is none, by its first bytes."""
        session = (EXAMPLES / "loopback-session.pcap").read_bytes()
        output, errors, status = run([*self.programs, "-", 3, "server"], session)
        got, wanted = (output.partition("\n")[0], errors, status), (refusal(3, Rule.ACK_AHEAD), "", 1)
        self.check("tftp-explain, a recording that comes in", got == wanted, output)
        for name, given, told in (
            ("gzip", gzip.compress(session), "it is compressed by gzip: decompress it first"),
            ("nothing", b"", "it is empty; a capture text or a recording is wanted."),
            ("a program", b"\x7fELF" + bytes(60), "it is a program (ELF)"),
        ):
            output, errors, status = run(self.programs, given)
            is_fault = output.startswith("fault line 1 ") and told in plain(output) and (errors, status) == ("", 2)
            self.check(f"tftp-explain, {name} comes in", is_fault, (output, errors, status))

    def test_all(self) -> None:
        """Each refused datagram is left out in turn; the file of what is left is that which was sent."""
        content = b"0123456789abcdef" * 40
        text = capture(
            C, (C, READ), (S, data(1, content[:512])), (C, ack(1)), (C, ack(7)), (S, data(1, WHOLE)),
            (S, data(2, content[512:])), (C, ack(9)), (C, ack(2)),
        )
        output, errors, status = run([*self.programs, "--all"], text)
        said, digest = plain(output), hashlib.sha256(content).hexdigest()
        first = refusal(4, Rule.ACK_AHEAD)
        self.check("--all, the verdict", output.startswith(f"{first}\n\n") and (errors, status) == ("", 1), output)
        for words in (
            "no verdict: what follows is what the program says once the datagrams that it refused are left out.",
            f"what if, without datagram 4: datagram 5 rule {Rule.BLOCK_CHANGED} Where: line 8 of the text.",
            f"what if, without datagrams 4 and 5: datagram 7 rule {Rule.ACK_AHEAD} Where: line 10 of the text.",
            "what if, without datagrams 4, 5 and 7: accepted get octet blocks 2 bytes 640",
            f"File: 640 bytes, SHA-256 {digest}.",
        ):
            self.check(f"--all, {words}", words in said, output)
        self.check("--all, a rule's words stand once", output.count(f"{Rule.ACK_AHEAD}: an ACK says") == 1, output)
        many = capture(C, (C, READ), (S, data(1, b"hi")), *((C, ack(9)) for _ in range(30)), (C, ack(1)))
        output, _, status = run([*self.programs, "--all"], many)
        is_ended = output.count("\nwhat if, ") == 20 and "so many datagrams are left out at most" in output
        self.check("--all, twenty at most", is_ended and status == 1, output)
        output, _, status = run([*self.programs, "--all"], SOUND)
        told = f"File: 2 bytes, SHA-256 {hashlib.sha256(b'hi').hexdigest()}."
        self.check("--all, accepted", told in plain(output) and "what if" not in output and status == 0, output)

    def test_no_recordings(self) -> None:
        """A file that is no recording, a recording that is not whole, and a program that says nothing of one."""
        path = self.folder / "a file"
        passed = made.late_block()
        cut = made.file_of(passed)[:-2]
        for name, given, words, told in (
            ("an empty file", b"", (), f"{path}: no recording: the file is empty"),
            ("a file of gzip", b"\x1f\x8b\x08\0" + bytes(40), (), f"{path}: no recording: it is compressed by gzip:"),
            ("zeros", bytes(64), (2, "client"), f"{path}: no recording\n"),
            ("a recording of nothing", made.file_of([]), (), f"{path}: no request passed, so there is no transfer"),
            ("a recording that is cut", cut, (1, "client"), "nothing is written, since the recording is not whole"),
            ("a program without a word", cut, ("--transfers", "/bin/false"), "'/bin/false' gave no rows for"),
            ("a program with other words", cut, ("--transfers", "/bin/echo"), "'/bin/echo' gave no rows for"),
            ("no program", cut, ("--transfers", "/no/such"), "cannot run '/no/such': No such file or directory"),
        ):
            path.write_bytes(given)
            output, errors, status = run([*self.programs, path, *words])
            self.check(
                f"tftp-explain, {name}", output == "" and told in errors and status == 2, (output, errors, status)
            )

    def test_rules(self) -> None:
        tried = {int(case.line.split()[4]) for case in RULES}
        self.check("each rule is tried", tried == set(range(1, 28)), tried)

    def test_words(self) -> None:
        """What cannot be read or run is told, and so is the help."""
        for words, told in (
            (["/no/such/file"], "cannot read the file '/no/such/file': No such file or directory"),
            (["--program", "/no/such/program"], "cannot run '/no/such/program': No such file or directory"),
            (["--program", "/bin/true"], "'/bin/true' gave no verdict: it printed '' and ended with status 0"),
        ):
            got = run(words, SOUND)
            self.check(f"tftp-explain {words}", got == ("", f"tftp-explain: {told}\n", 2), got)
        output, _, status = run(["--help"])
        self.check("tftp-explain --help", status == 0 and output.startswith("usage: tftp-explain"), output)
