"""The pictures of tools/tftp-ladder: which arrows they have, in which colours, and what is folded."""
from __future__ import annotations

import re
import subprocess
from collections.abc import Sequence

from captures import Capture, ack, blocks, data, error, oack, read_request, write_request
from checks import Checks
from pictures import SVG, Picture, colours_of, contrast, least_contrast
from programs import AUDIT, TRANSFERS
from refusals import Rule, refusal
from repository import TOP

SCRIPT = TOP / "tools" / "tftp-ladder"
RED, GREY, BROWN = "f-refused", "f-repeat", "f-stray"
TIMES_END = 214.0
WINDOWED = {"blksize": 8, "windowsize": 4}


def run(words: Sequence[object], given: bytes) -> tuple[str, str, int]:
    """What the script writes, what it writes as errors, and its status."""
    done = subprocess.run([str(word) for word in (SCRIPT, *words)], input=given, capture_output=True, timeout=120)
    return done.stdout.decode(), done.stderr.decode(), done.returncode


def window_read() -> Capture:
    """A read in windows, with a repeated block, a stray and its answer."""
    made = Capture("client", version=2)
    made.put("client", read_request("boot.img", "octet", **WINDOWED))
    made.put("server", oack(**WINDOWED))
    made.put("client", ack(0))
    wire = blocks(b"12345678" * 5, 8)
    made.put("server", *wire[:4], wire[2])
    made.put("server", data(9, b"stray"), host=made.THIRD_HOST)
    made.put("client", error(5, "<stray> & \"more\""), host=made.THIRD_HOST)
    made.put("client", ack(4))
    made.put("server", *wire[4:])
    made.put("client", ack(6))
    return made


def lockstep(count: int) -> bytes:
    made = Capture("client")
    made.put("client", read_request("boot.img", "octet"))
    for number in range(1, count):
        made.put("server", data(number, b"w" * 512))
        made.put("client", ack(number))
    made.put("server", data(count, b"the end"))
    made.put("client", ack(count))
    return made.text()


class Ladder(Checks):
    """What is drawn."""

    needs = (AUDIT, TRANSFERS)
    program, transfers = AUDIT.path, TRANSFERS.path

    def test_small(self) -> None:
        words = ["--program", self.program]
        text = window_read().text()
        output, errors, status = run(words, text)
        picture = Picture(output)
        line = "accepted get octet blocks 6 bytes 40"
        self.check("a small picture", (errors, status) == ("", 0) and picture.has(line), errors)
        self.check("an arrow for each datagram", len(picture.heads) == text.count(b"\n") - 4, len(picture.heads))
        heads = picture.heads
        self.check("a repeat is grey", heads.count(GREY) == 1 and picture.has("DATA 3 (8 bytes), again"), heads)
        self.check("strays come from the side", heads.count(BROWN) == 2 and picture.has("from 2001:db8::9 port 41000"))
        self.check("signs of XML", picture.has('ERROR 5 "<stray> & \\x22more\\x22"'), picture.words)
        bracketed = picture.has("window: 5 blocks") and picture.has("window: 2 blocks")
        self.check("windows are bracketed", bracketed, picture.words)
        text = text.replace(b"00040006\n", b"00040007\n")
        picture = Picture(run(words, text)[0])
        is_red = picture.heads.count(RED) == 1 and picture.has(f"ACK 7, rule {Rule.ACK_AHEAD}")
        self.check("the refused one is red", is_red, picture.words)
        made = Capture("server")
        made.put("client", write_request("a", "octet"))
        made.put("server", ack(0), ack(0), error(1, "x"), ack(1))
        picture = Picture(run(words, made.text())[0])
        self.check(
            "at the server", picture.has("server (recorded here)") and picture.heads.count(RED) == 1, picture.words
        )

    def test_colours(self) -> None:
        """Each text's contrast is 4.5 or more and each line's 3, by the colours of the style, in light and in dark."""
        picture = Picture(run(["--program", self.program], window_read().text())[0])
        for name, style in picture.styles():
            colours = colours_of(style)
            strokes = dict(re.findall(r"[.]s-(\w+)\{stroke:(#\w{6})\}", style))
            self.check(
                f"{name}: lines have the colours of their heads", strokes == colours and len(colours) > 10, style
            )
            least = {text: least_contrast(colours, text) for text in picture.texts() | {"sound", "refused"}}
            self.check(f"{name}: each text", min(least.values()) >= 4.5, least)
            lines = {line: contrast(colours[line], colours["ground"]) for line in colours.keys() - {"ground", "fold"}}
            self.check(f"{name}: each line", min(lines.values()) >= 3, lines)

    def test_words(self) -> None:
        """What a reader of the screen is told, and where nothing is crossed: the request with its options, and the
        rule."""
        text = window_read().text().replace(b"00040006\n", b"00040007\n")
        picture = Picture(run(["--program", self.program], text)[0])
        root = picture.root
        told = picture.told()
        is_told = told[:1] == [refusal(14, Rule.ACK_AHEAD)] and "14 datagrams passed. 1 is a repeat" in told[1]
        self.check("title and description", root.get("role") == "img" and is_told, told)
        self.check("the request has its options", picture.has('RRQ "boot.img" octet blksize=8 windowsize=4'))
        self.check("the rule's reason", picture.has("an ACK says that its block and all before it came"), picture.words)
        self.check("a stray's host has a line", "2001:db8::9" in picture.words, picture.words)
        lines = [float(each.get(end) or 0) for each in root.iter(f"{SVG}line") for end in ("x1", "x2")]
        self.check("no line crosses the times", min(lines) > TIMES_END, min(lines))

    def test_text(self) -> None:
        """The ladder in lines of text."""
        text = window_read().text().replace(b"00040006\n", b"00040007\n")
        output, errors, status = run(["--text", "--program", self.program], text)
        lines = output.splitlines()
        begun = lines[0] == refusal(14, Rule.ACK_AHEAD) and len(lines) == 19 and output.isascii()
        self.check("--text", begun and (errors, status) == ("", 0), output)
        for words in (
            '|--- RRQ "boot.img" octet blksize=8 windowsize=4 ---', "--- DATA 3 (8 bytes), again ---|",
            "~ from 2001:db8::9 port 41000: DATA 9 (5 bytes) ~~~|", f"--- ACK 7, rule {Rule.ACK_AHEAD} ---",
            "|   an ACK says that its block and all before it came",
        ):
            self.check(f"--text, {words}", words in output, output)
        arrows = [line.rstrip() for line in lines if ">|" in line or "|<" in line]
        self.check("--text, the lines stand below one another", len({len(line) for line in arrows}) == 1, output)

    def test_missing(self) -> None:
        """Where datagrams must be missing, so that what is refused is lawful: block 2 and, in lock step, the ACK before
        it."""
        read = Capture("client")
        read.put("client", read_request("a", "octet"))
        read.put("server", data(1, b"w" * 512))
        read.put("client", ack(2))
        missing = "missing here: 1 from the server and 1 from the client"
        words = ["--program", self.program]
        picture = Picture(run(words, read.text())[0])
        self.check("what must be missing is drawn", picture.has(missing), picture.words)
        described = "It is lawful if some are missing: 1 from the server and 1 from the client before datagram 3"
        self.check("what must be missing is described", f"{described} (line 6)." in picture.told()[1], picture.told())
        lines = run([*words, "--text"], read.text())[0].splitlines()
        places = [at for at, line in enumerate(lines) if missing in line]
        self.check("what must be missing, --text", len(places) == 1 and lines[places[0] + 1].startswith(">>"), lines)
        whole = lockstep(2).replace(b"00040002", b"00040003")
        self.check("an ACK above the last block", "missing here" not in run([*words, "--text"], whole)[0])

    def test_large(self) -> None:
        """100,001 datagrams, with a stand-in for the program, which takes minutes for so many."""
        stand_in = self.folder / "program"
        text = lockstep(50_000)
        for verdict, status, red in (
            ("accepted get octet blocks 50000 bytes 1", 0, 0),
            (refusal(70012, Rule.ACK_AHEAD), 1, 1),
        ):
            stand_in.write_text(f"#!/bin/sh\ncat >/dev/null\necho '{verdict}'\nexit {status}\n")
            stand_in.chmod(0o755)
            output, errors, ended = run(["--program", stand_in], text)
            picture = Picture(output)
            sound = (errors, ended) == ("", 0) and len(picture.heads) <= 60 and picture.height < 2_000
            size = len(picture.heads), picture.height
            self.check(f"a large picture, {verdict}", sound and picture.heads.count(RED) == red, size)
            fold = "69,987 datagrams, 13 to 69,999" if red else "99,977 datagrams, 13 to 99,989"
            self.check(f"what is folded, {verdict}", picture.has(fold), picture.words)

    def test_times(self) -> None:
        """Time downwards: a pause of a second is longer than one of a millisecond, and is told."""
        lines = lockstep(3).decode().splitlines()
        times = ["0.000", "0.001", "0.002", "1.002", "1.003", "1.004", "1.005"]
        timed = [
            f"# frame {number} time {time}\n{line}" for number, (time, line) in enumerate(zip(times, lines[3:-1]), 1)
        ]
        text = "\n".join([*lines[:3], *timed, lines[-1], ""]).encode()
        heights = []
        for way in ("number", "time"):
            output, errors, status = run(["--by", way, "--program", self.program], text)
            picture = Picture(output)
            heights.append(picture.height)
            margin = picture.has("frame 4") and picture.has("1.0020 s")
            self.check(f"by {way}", (errors, status) == ("", 0) and margin, errors)
        self.check("by time the pause is drawn", picture.has("1.000 s") and heights[0] != heights[1], heights)

    def test_recordings(self) -> None:
        """The transfer of a recording that is named, and the one that is refused."""
        recording = TOP / "examples" / "loopback-session.pcap"
        named: tuple[list[object], ...] = ([3, "client"], [3], [])
        for words in named:
            output, errors, status = run(
                ["--program", self.program, "--transfers", self.transfers, recording, *words], b""
            )
            picture = Picture(output)
            is_red = picture.heads.count(RED) == 1 and picture.has(f"ACK 1, rule {Rule.ACK_AHEAD}")
            are_named = picture.has("192.0.2.1 port 34056") and picture.has("192.0.2.1 port 42245")
            holds = (errors, status) == ("", 0) and is_red and are_named
            self.check(f"of a recording, {words}", holds, (picture.words, errors))
        output, errors, status = run(
            ["--program", self.program, "--transfers", self.transfers, recording, 1, "server"], b""
        )
        picture = Picture(output)
        is_whole = len(picture.heads) == 7 and picture.has("server (recorded here)")
        self.check("of a recording, at the server", (errors, status) == ("", 0) and is_whole, (picture.words, errors))
        output, errors, status = run(
            ["--program", self.program, "--transfers", self.transfers, recording, 3, "between"], b""
        )
        picture = Picture(output)
        is_red = picture.heads.count(RED) == 1 and picture.has(f"ACK 1, rule {Rule.ACK_AHEAD}")
        is_named = {"client", "server"} <= set(picture.words) and picture.has("between the ends")
        holds = (errors, status) == ("", 0) and is_red and is_named and not picture.has("(recorded here)")
        self.check("of a recording, between", holds, (picture.words, errors))

    def test_faults(self) -> None:
        """A text with a fault, and what is no picture."""
        cut = lockstep(3).replace(b"total 7\n", b"")
        output, errors, status = run(["--program", self.program], cut)
        told = "tftp-ladder: the picture has the datagrams before the fault alone: fault line 11 Truncated\n"
        is_told = (errors, status) == (told, 2) and len(Picture(output).heads) == 7
        self.check("a text with a fault", is_told, errors)
        got = run(["--program", self.program], b"tftp-capture 1\n")
        told = "tftp-ladder: there is no datagram to draw: fault line 2 Truncated\n"
        self.check("nothing to draw", got == ("", told, 2), got)
        got = run(["--rows", "1", "--program", self.program], cut)
        told = "tftp-ladder: argument --rows: '1' is no number of 40 or more; tftp-ladder --help says more\n"
        self.check("too few rows", got == ("", told, 2), got)
        output, _, status = run(["--help"], b"")
        self.check("tftp-ladder --help", status == 0 and output.startswith("usage: tftp-ladder"), output)
