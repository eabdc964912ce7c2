"""Transfers of more than 65,535 blocks: the verdicts, the file, the normal text, the count and what is shown by what
comes after block 65535; captures of fewer blocks, which are the same by each; the words that say it; and what the
scripts tell. The large ones are made and changed here, and sent by real programs."""
from __future__ import annotations

import functools
import itertools
import json
import pathlib
import random
import re
import subprocess
from typing import Any, Optional

import made
from captures import Capture, EndName, Packet, ack, data, oack, read_request, write_request
from checks import Checks
from commands import COMMANDS
from fuzzing.cases import ROLLOVERS
from fuzzing.rounds import Rounds
from fuzzing.slow_judge import Rollover
from fuzzing.transfers import ENDS
from judged import checked
from loopback import ATFTPD, CLIENT, DNSMASQ, HPA, SERVER, Case, OverLoopback, record
from normal import Meaning
from programs import AUDIT, MATCH, TRANSFERS
from recorded import Datagram
from refusals import Rule, refusal
from repository import TOP
from tftp_tools.blocks import capture_by

ROUND = 65_536
# The blocks of the made captures, a few past the first round, and their size.
COUNT, SIZE = ROUND + 5, 8
GIVEN = ("0", "1")
# Where a recording is judged.
PLACES = (*ENDS, "between")
# How many changed captures are drawn at each end by each number.
DRAWN = 20
FILE = random.Random(7440).randbytes(COUNT * SIZE - 1)
# What is recorded of real programs: 40 MB, which has more blocks of 512 than there are numbers.
LARGE = "large.img"
IMAGE = random.Random(2348).randbytes(40_000_000)
BLOCKS = len(IMAGE) // 512 + 1
CURL = f"curl -s -S --max-time 50 --interface {CLIENT} -o {LARGE}"
WINDOWS = '--option "windowsize 8" --option "tsize 0" --option "blksize 512"'
REAL = (
    Case("tftp-hpa", HPA, (f"tftp -4 -m octet {SERVER} -c get {LARGE}",), ()),
    Case("curl-hpa", HPA, (f"{CURL} --tftp-no-options tftp://{SERVER}/{LARGE}",), ()),
    Case("curl-dnsmasq", DNSMASQ, (f"{CURL} --tftp-blksize 512 tftp://{SERVER}/{LARGE}",), ()),
    Case("atftp-atftpd", ATFTPD, (f"atftp -g -r {LARGE} -l {LARGE} {WINDOWS} {SERVER}",), ()),
)


def number_of(block: int, first: int) -> int:
    """The number of a block: after 65535 they begin again with this one."""
    return block if block < ROUND else (block - ROUND) % (ROUND - first) + first


def of_block(packet: Packet, block: int, first: int) -> Packet:
    """The packet, of which `show` names the block where that is another than its number."""
    payload, told = packet
    return payload, told if number_of(block, first) == block else f"{told} block {block}"


def numbered(block: int, first: int, content: bytes) -> Packet:
    return of_block(data(number_of(block, first), content), block, first)


def acked(block: int, first: int) -> Packet:
    return of_block(ack(number_of(block, first)), block, first)


def unnamed(rows: bytes) -> bytes:
    """The rows without the blocks that they name."""
    return re.sub(rb"(?m) block [0-9]+$", b"", rows)


def whole(first: int, size: Optional[int] = len(FILE)) -> Capture:
    """A read at the client in lock step; of each hundredth block the ACK is lost, and the block comes again."""
    capture = Capture("client")
    options = {} if size is None else {"tsize": size}
    capture.put("client", read_request("boot.img", "octet", blksize=SIZE, **options))
    capture.put("server", oack(blksize=SIZE, **options))
    capture.put("client", ack(0))
    for block in range(1, COUNT + 1):
        packet = numbered(block, first, FILE[(block - 1) * SIZE : block * SIZE])
        capture.put("server", *[packet] * (1 + (block % 100 == 0)))
        capture.put("client", acked(block, first))
    return capture


def in_windows(first: int) -> Capture:
    """A write at the server in windows of 64 blocks, each window twice."""
    capture = Capture("server")
    capture.put("client", write_request("boot.img", "octet", blksize=SIZE, windowsize=64))
    capture.put("server", oack(blksize=SIZE, windowsize=64))
    for at in range(0, COUNT, 64):
        last = min(at + 64, COUNT)
        blocks = [numbered(block, first, FILE[(block - 1) * SIZE : block * SIZE]) for block in range(at + 1, last + 1)]
        capture.put("client", *blocks, *blocks)
        capture.put("server", acked(last, first))
    return capture


def late(first: int, behind: int) -> Capture:
    """A read in lock step up to block 65,540, after which a block comes again that is so many blocks older."""
    capture = whole(first, None)
    highest, lines = ROUND + 4, len(capture.lines)
    del capture.lines[lines - 2 :], capture.rows[lines - 2 :]
    block = highest - behind
    capture.put("server", numbered(block, first, FILE[(block - 1) * SIZE : block * SIZE]))
    return capture


def with_strays(first: int) -> Capture:
    """A read to which another port sends blocks, a high one at the start and a low one where numbers began again."""
    capture = whole(first, None)
    lines, rows = capture.lines, capture.rows
    capture.lines, capture.rows = lines[:3], rows[:3]
    capture.put("server", data(40_000, FILE[:SIZE]), server=50_123)
    for line, row in zip(lines[3:], rows[3:]):
        capture.lines.append(line)
        capture.rows.append(b"%d %s" % (len(capture.lines), row.split(b" ", 1)[1]))
    capture.put("server", numbered(ROUND + 9, first, FILE[:SIZE]), server=50_123)
    return capture


def rows_of(text: bytes, rollover: Rollover) -> bytes:
    """What `show` prints by none, with the blocks that the scripts read."""
    blocks = [it.block for it in capture_by(text, "" if rollover is None else str(rollover)).datagrams]
    rows = zip(said(text, "show")[0].splitlines(), blocks)
    return b"".join(row + (b"" if block is None else b" block %d" % block) + b"\n" for row, block in rows)


def said(text: bytes, *words: str) -> tuple[bytes, bytes, int]:
    """What the program prints of a text, what it writes as errors, and its status."""
    done = subprocess.run([AUDIT.path, *words], input=text, capture_output=True, timeout=300)
    return done.stdout, done.stderr, done.returncode


class Numbers(Checks):
    """What the commands say of made captures."""

    needs = (AUDIT,)

    def by(self, given: str, text: bytes, command: str = "check") -> tuple[bytes, bytes, int]:
        return said(text, command, "--rollover", given)

    def test_accepted(self) -> None:
        """The whole transfer is accepted by the number that it goes on with, and refused by the other and by none."""
        for given in GIVEN:
            for name, capture, kind in (
                ("a read", whole(int(given)), "get"),
                ("a read without its size", whole(int(given), None), "get"),
                ("a write in windows", in_windows(int(given)), "put"),
            ):
                text = capture.text()
                accepted = f"accepted {kind} octet blocks {COUNT} bytes {len(FILE)}\n".encode()
                self.check(f"{name}, {given}", self.by(given, text) == (accepted, b"", 0))
                self.check(f"{name}, {given}, extracted", self.by(given, text, "extract") == (FILE, b"", 0))
                for other, got in (("the other", self.by(str(1 - int(given)), text)), ("none", said(text, "check"))):
                    is_refused = got[1:] == (b"", 1) and got[0].startswith(b"refused datagram ")
                    self.check(f"{name}, {given}, by {other}", is_refused, got)

    def test_refused(self) -> None:
        """Where it is refused by none: at the OACK whose size is beyond, or at block 65535, which is a whole one."""
        block = 1 + next(at for at, line in enumerate(whole(0, None).lines) if "0003ffff" in line[-4 * SIZE :])
        for name, text, at in (("the OACK", whole(0).text(), 2), ("the block", whole(0, None).text(), block)):
            got = said(text, "check")
            self.check(name, got == (f"{refusal(at, Rule.BEYOND_BLOCK_65535)}\n".encode(), b"", 1), got)

    def test_counted(self) -> None:
        """The normal capture has the request, its answer, ACK 0, and each block with its ACK."""
        text = whole(0).text()
        self.check("counted", self.by("0", text, "count") == (f"normal datagrams {3 + 2 * COUNT}\n".encode(), b"", 0))

    def test_normal(self) -> None:
        """The normal text is what the formats make of the meaning, is accepted with it, and is its own normal text; by
        no other number, and by none, is anything written."""
        options: dict[bytes, int] = {b"blksize": SIZE}
        sized, windowed = {**options, b"tsize": len(FILE)}, {**options, b"windowsize": 64}
        read = Meaning("get", b"boot.img", "octet", sized, sized, FILE)
        write = Meaning("put", b"boot.img", "octet", windowed, windowed, FILE)
        for given in GIVEN:
            first = int(given)
            for name, capture, meaning in (("a read", whole(first), read), ("a write", in_windows(first), write)):
                text, expected = capture.text(), meaning.normal_text(first)
                same = [self.by(given, its, "normal") == (expected, b"", 0) for its in (text, expected)]
                self.check(f"{name}, {given}, normal", same == [True, True], same)
                line = self.by(given, expected)
                self.check(f"{name}, {given}, its line", line == self.by(given, text) == (meaning.line(), b"", 0), line)
                for others in (("normal", "--rollover", str(1 - first)), ("normal",)):
                    self.check(f"{name}, {given}, {others}", said(text, *others) == (b"", b"", 1))

    def test_shown(self) -> None:
        """A line names the block beside each number that is another, as the capture was made, whatever strays say; and
        by none no line does."""
        for given in GIVEN:
            for name, capture, named in (
                ("a read", whole(int(given)), 2 * (COUNT - ROUND + 1)),
                ("a write in windows", in_windows(int(given)), 2 * (COUNT - ROUND + 1) + 2),
                ("strays", with_strays(int(given)), 2 * (COUNT - ROUND + 1) + 1),
            ):
                text, rows = capture.text(), b"".join(capture.rows)
                self.check(f"{name}, {given}, named", rows.count(b" block ") == named, rows.count(b" block "))
                got = self.by(given, text, "show")
                self.check(f"{name}, {given}, shown", got == (rows, b"", 0), (got[0][-400:], got[1:]))
                alone = said(text, "show")
                self.check(f"{name}, {given}, by none", alone == (unnamed(rows), b"", 0), (alone[0][-400:], alone[1:]))

    def test_shown_late(self) -> None:
        """A block that comes again is named as far back as half a round, and one further is of the next round."""
        for given in GIVEN:
            near, far = late(int(given), 32_767), late(int(given), 32_768)
            rows = b"".join(near.rows)
            self.check(f"32,767 behind, {given}", self.by(given, near.text(), "show") == (rows, b"", 0))
            block = ROUND + 4 - 32_768 + ROUND - int(given)
            rows = b"".join(far.rows)[:-1] + b" block %d\n" % block
            got = self.by(given, far.text(), "show")
            self.check(f"32,768 behind, {given}", got == (rows, b"", 0), (got[0][-100:], got[1:], rows[-100:]))

    def test_shown_unjudged(self) -> None:
        """What begins in the midst of a transfer has no request, and its blocks are named; a request begins anew. What
        is cut is shown up to there."""
        for given in GIVEN:
            first, capture = int(given), Capture("client")
            for block in range(ROUND - 2, ROUND + 3):
                capture.put("server", numbered(block, first, FILE[:SIZE]))
                capture.put("client", acked(block, first))
            capture.put("client", read_request("boot.img", "octet"))
            capture.put("server", data(1, FILE[:SIZE]))
            text, rows = capture.text(), b"".join(capture.rows)
            got = self.by(given, text, "show")
            self.check(f"in the midst, {given}", got == (rows, b"", 0) and rows.count(b" block ") == 6, got)
            got = self.by(given, text[: text.rindex(b"total")], "show")
            fault = b"fault line %d Truncated\n" % (4 + len(capture.lines))
            self.check(f"cut, {given}", got == (rows + fault, b"", 2), got)

    def test_late(self) -> None:
        """A block that comes again is known as far back as half a round, and not one further."""
        for given in GIVEN:
            near, far = late(int(given), 32_767), late(int(given), 32_768)
            incomplete = f"incomplete after {len(near.lines)}\n".encode()
            self.check(f"32,767 behind, {given}", self.by(given, near.text()) == (incomplete, b"", 1))
            got = self.by(given, far.text())
            self.check(f"32,768 behind, {given}", b"refused" in got[0] and got[2] == 1, got)

    def test_first_round(self) -> None:
        """Captures of the first round have the same lines by each number as by none."""
        captures = sorted((TOP / "examples").glob("*.capture"))
        for path in captures:
            for command in COMMANDS:
                alone = said(path.read_bytes(), command)
                for given in GIVEN:
                    same = self.by(given, path.read_bytes(), command) == alone
                    self.check(f"{path.stem}, {command}, {given}", same, alone)
        self.check("some", len(captures) > 3, captures)

    def test_drawn(self) -> None:
        """Captures that are changed by chance where numbers begin again have the verdict of the slow reading; and the
        blocks that are shown are those that the scripts read."""
        endings = set()
        for rollover, end in itertools.product(ROLLOVERS, ENDS):
            rounds = Rounds(random.Random(f"{rollover} {end}"), end, (rollover == 0) == (end == "client"), rollover)
            for turn in range(DRAWN):
                text, told = rounds.drawn(turn % 4)
                got = self.by(str(rollover), text)
                self.check(f"by {rollover}, at the {end}, {turn}", got == (told[0], b"", told[1]), (got, told))
                endings.add(told[0].split()[-1])
                if turn < 4:
                    got = self.by(str(rollover), text, "show")
                    self.check(f"by {rollover}, at the {end}, {turn}, shown", got == (rows_of(text, rollover), b"", 0))
        self.check("many endings", len(endings) >= 5, endings)

    def test_words(self) -> None:
        """The word stands behind each command, and says 0 or 1; else the words are no command."""
        text = (TOP / "examples" / "one-block.capture").read_bytes()
        usage = (b"fault usage\n", b"", 2)
        for words in (
            ("check", "--rollover"), ("check", "--rollover", "2"), ("check", "--rollover", ""),
            ("check", "--rollove", "0"), ("check", "--rollover", "0", "0"), ("--rollover", "0", "check"),
            ("check", "0", "--rollover"),
            ("show", "--rollover"), ("show", "--rollover", "2"), ("show", "--rollover", "0", "-"), ("show", "0"),
            ("show", "--rollover=0"), ("normal", "--rollover", "2"), ("normal", "--rollover"), ("normal", "1"),
            ("check", "check", "--rollover", "0"),
        ):
            self.check(f"{words}", said(text, *words) == usage, said(text, *words))
        for command in COMMANDS:
            self.check(f"{command}, taken", said(text, command, "--rollover", "0")[1:] == (b"", 0))


def passed_of(first: int) -> list[Datagram]:
    """What passes of a read in lock step."""
    passed = [
        Datagram(made.C, 40_000, made.S, 69, read_request("boot.img", "octet", blksize=SIZE)[0]),
        Datagram(made.S, 41_000, made.C, 40_000, oack(blksize=SIZE)[0]),
        Datagram(made.C, 40_000, made.S, 41_000, ack(0)[0]),
    ]
    for block in range(1, COUNT + 1):
        content = FILE[(block - 1) * SIZE : block * SIZE]
        passed.append(Datagram(made.S, 41_000, made.C, 40_000, numbered(block, first, content)[0]))
        passed.append(Datagram(made.C, 40_000, made.S, 41_000, acked(block, first)[0]))
    return passed


@functools.lru_cache(maxsize=1)
def recorded(first: int) -> bytes:
    """The recording of a read in lock step, of which nothing is lost."""
    return made.file_of(passed_of(first))


@functools.lru_cache(maxsize=1)
def changed(first: int, block: int) -> tuple[bytes, int]:
    """The same, but that after a block the server sends another with its number; and in which frame."""
    passed = passed_of(first)
    frame = 3 + 2 * (block - 1) + 2
    passed.insert(frame - 1, Datagram(made.S, 41_000, made.C, 40_000, numbered(block, first, b"\0" * SIZE)[0]))
    return made.file_of(passed), frame


class Recordings(Checks):
    """What `tftp-transfers check` says of recordings."""

    needs = (TRANSFERS,)
    ACCEPTED = f"accepted get octet blocks {COUNT} bytes {len(FILE)}"
    BEYOND = "; --end client --rollover 0 judges numbers that begin again"

    def told(self, recording: bytes, *words: str) -> tuple[str, str, int]:
        """What is written, what is written as errors, and the status."""
        command = [TRANSFERS.path, *words, "-"]
        done = subprocess.run(command, input=recording, capture_output=True, timeout=300)
        return done.stdout.decode(), done.stderr.decode(), done.returncode

    def rows(self, recording: bytes, *words: str) -> list[dict[str, Any]]:
        return [json.loads(line) for line in self.told(recording, "check", "--json", *words)[0].splitlines()]

    def test_accepted(self) -> None:
        """At each end, and between the two, it is accepted by the number that it goes on with; by the other it is refused,
        and by none at the first number that is too high, where it is told who judges such numbers."""
        for given, end in itertools.product(GIVEN, PLACES):
            recording = recorded(int(given))
            for words in (("--end", end, "--rollover", given), (f"--rollover={given}", f"--end={end}")):
                output, errors, status = self.told(recording, "check", *words)
                is_told = output.splitlines()[-1].endswith(f" {self.ACCEPTED}")
                self.check(f"{given}, at the {end}", is_told and (errors, status) == ("", 0), (output, errors, status))
            row = self.rows(recording, "--end", end, "--rollover", given)[0]
            wanted: tuple[object, ...] = (self.ACCEPTED, end, None, None, [], int(given))
            got = tuple(row[name] for name in ("verdict", "place", "frame", "accused", "doubts", "rollover"))
            self.check(f"{given}, at the {end}, JSON", got == wanted, row)
            output, errors, status = self.told(recording, "check", "--end", end, "--rollover", str(1 - int(given)))
            is_refused = " refused datagram " in output and self.BEYOND not in output and status == 1
            self.check(f"{given}, at the {end}, by the other", is_refused, output)
            output, errors, status = self.told(recording, "check", "--end", end)
            line = refusal(2 * ROUND, Rule.BEYOND_BLOCK_65535)
            self.check(f"{given}, at the {end}, by none", f" {line}" in output and self.BEYOND in output, output)
            row = self.rows(recording, "--end", end)[0]
            self.check(f"{given}, at the {end}, by none, JSON", row["rollover"] is None, row)

    def test_changed(self) -> None:
        """A block that is changed behind the first round is refused in its frame, and its server accused, if no frame
        is missing."""
        for given, end in itertools.product(GIVEN, PLACES):
            recording, frame = changed(int(given), ROUND + 3)
            line, words = refusal(frame, Rule.BLOCK_CHANGED), ("--end", end, "--rollover", given)
            output, errors, status = self.told(recording, "check", *words)
            is_told = output.splitlines()[-1].endswith(f" {line}, if no frame is missing")
            self.check(f"{given}, at the {end}", is_told and (errors, status) == ("", 1), (output, errors))
            row = self.rows(recording, *words)[0]
            server = {"role": "server", "host": made.S, "port": 41_000}
            got = tuple(row[name] for name in ("verdict", "frame", "accused", "doubts", "stands", "rollover"))
            self.check(f"{given}, at the {end}, JSON", got == (line, frame, server, [], None, int(given)), row)

    def test_stands(self) -> None:
        """What stands whatever is missing where numbers do not begin again is not said to stand where they do."""
        passed = made.read("a", 40_000, 41_000, content=b"." * 512)
        passed.insert(2, Datagram(made.S, 41_000, made.C, 40_000, data(1, b"," * 512)[0]))
        recording, line = made.file_of(passed), refusal(3, Rule.BLOCK_CHANGED)
        for by in ((), ("--rollover", "0"), ("--rollover", "1")):
            words = ("--end", "server", *by)
            stands, premise = (None, "if no frame is missing") if by else (True, "whatever is missing except a request")
            got = self.rows(recording, *words)[0]["stands"]
            output = self.told(recording, "check", *words)[0].splitlines()[-1]
            self.check(f"by {by}", got is stands and output.endswith(f" {line}, {premise}"), (got, output))

    def test_first_round(self) -> None:
        """Of the examples, which have few blocks, the same is said by each number as by none, but for what stands."""
        told = 0
        for path in sorted((TOP / "examples").glob("*.pcap")):
            for end, given in itertools.product(PLACES, GIVEN):
                alone = self.rows(path.read_bytes(), "--end", end)
                rows = self.rows(path.read_bytes(), "--end", end, "--rollover", given)
                wanted = [{**row, "stands": None, "rollover": int(given)} for row in alone]
                self.check(f"{path.stem}, {end}, {given}", rows == wanted, (rows, alone))
                told += len(rows)
        self.check("some", told > 20, told)

    def test_words(self) -> None:
        """The word is one of `check`, says 0 or 1, stands there once, and wants a place."""
        recording = made.file_of(made.read("a", 40_000, 41_000))
        none = "--rollover wants --end client, --end server or --end between"
        for words, why in (
            (("check", "--rollover", "0"), none),
            (("check", "--rollover=1", "--json"), none),
            (("check", "--end", "between", "--rollover", "2"), "2"),
            (("check", "--end", "client", "--rollover", "2"), "2"),
            (("check", "--end", "client", "--rollover="), "--rollover"),
            (("check", "--end", "client", "--rollover"), "--rollover"),
            (("check", "--end", "client", "--rollover", "0", "--rollover", "0"), "--rollover"),
            (("check", "--end", "client", "--rollover", "0", "--rollover=1"), "--rollover"),
            (("list", "--rollover", "0"), "--rollover"),
            (("--rollover", "0"), "--rollover"),
            (("text", "--rollover", "0", "1", "client"), "--rollover"),
            (("texts", "client", "--rollover", "0"), "--rollover"),
        ):
            output, errors, status = self.told(recording, *words)
            self.check(f"{words}", (output, status) == ("", 2) and why in errors, (output, errors, status))
        help_of = self.told(b"", "check", "--help")[0]
        self.check("help", "--rollover <NUMBER>" in help_of, help_of)


class Pairs(Checks):
    """What `tftp-match` says of recordings of both ends."""

    needs = (MATCH,)
    ACCEPTED = f"accepted get octet blocks {COUNT} bytes {len(FILE)}"

    def told(self, client: bytes, server: bytes, *words: str) -> tuple[list[str], str, int]:
        """The lines that are written, what is written as errors, and the status."""
        path = self.folder / "client.pcap"
        path.write_bytes(client)
        command = [MATCH.path, *words, str(path), "-"]
        done = subprocess.run(command, input=server, capture_output=True, timeout=300)
        return done.stdout.decode().splitlines(), done.stderr.decode(), done.returncode

    def test_matched(self) -> None:
        """By the number with which both go on they are matched; by the other both are refused, and by none, where no
        block may have such a number. Of a block behind the first round a copy is lost, and an ACK is repeated."""
        for given in GIVEN:
            passed = passed_of(int(given))
            recording = made.file_of(passed)
            got = self.told(recording, recording, "--rollover", given)
            self.check(f"{given}", got == ([self.ACCEPTED, self.ACCEPTED, "matched lost 0 repeated 0"], "", 0), got)
            block = ROUND + 2
            place = 3 + 2 * (block - 1)
            server = made.file_of(passed[: place + 1] + passed[place : place + 2] + passed[place + 1 :])
            client = made.file_of(passed)
            got = self.told(client, server, "--rollover", given)
            wanted = [self.ACCEPTED, self.ACCEPTED, "matched lost 1 repeated 1"], "", 0
            self.check(f"{given}, lost", got == wanted, got)
            for words in (("--rollover", str(1 - int(given))), ()):
                lines, errors, status = self.told(recording, recording, *words)
                are = all(line.startswith("refused datagram ") for line in lines[:2]) and len(lines) == 3
                holds = are and lines[2].startswith("unmatched ") and (errors, status) == ("", 1)
                self.check(f"{given}, by {words}", holds, (lines, errors, status))
            line = refusal(2 * ROUND, Rule.BEYOND_BLOCK_65535)
            self.check(f"{given}, by none, the rule", self.told(recording, recording)[0][:2] == [line, line])

    def test_unsent(self) -> None:
        """What came in behind the first round and was not sent by its block, but by its number, is unsent."""
        for given in GIVEN:
            first, block = int(given), ROUND + 2
            passed = passed_of(first)
            place = 3 + 2 * (block - 1)
            other = list(passed)
            content = b"\0" * SIZE
            other[place] = Datagram(made.S, 41_000, made.C, 40_000, numbered(block, first, content)[0])
            lines, errors, status = self.told(made.file_of(other), made.file_of(passed), "--rollover", given)
            third = f"unmatched client datagram {place + 1} unsent server datagram {place + 2} waits"
            self.check(f"{given}", (lines[2:], errors, status) == ([third], "", 1), (lines, errors, status))

    def test_counted(self) -> None:
        """Each block and ACK is counted by its block, behind the first round too: one that the server sent twice, of which
        one copy was lost, is another than the one with its number. In JSON likewise."""
        for given in GIVEN:
            passed = passed_of(int(given))
            block = ROUND + 2
            place = 3 + 2 * (block - 1)
            server = made.file_of(passed[: place + 1] + passed[place:])
            client = made.file_of(passed)
            lines, errors, status = self.told(client, server, "--rollover", given, "--counts")
            acks = [f"client ACK {it} sent 1 taken 1" for it in range(COUNT + 1)]
            blocks = [f"server DATA {it} sent {1 + (it == block)} taken 1" for it in range(1, COUNT + 1)]
            wanted = [self.ACCEPTED, self.ACCEPTED, "matched lost 1 repeated 0", "client request sent 1 taken 1"]
            wanted += acks + ["server OACK sent 1 taken 1"] + blocks
            differ = [it for it in itertools.zip_longest(lines, wanted) if it[0] != it[1]]
            self.check(f"{given}", (differ, errors, status) == ([], "", 0), (differ[:3], errors, status))
            told = json.loads(self.told(client, server, "--rollover", given, "--counts", "--json")[0][0])["counts"]
            last = {"from": "server", "packet": "DATA", "block": COUNT, "sent": 1, "taken": 1}
            self.check(f"{given}, JSON", (len(told), told[-1]) == (len(wanted) - 3, last), told[-1])

    def test_pair_words(self) -> None:
        """The word says 0 or 1."""
        recording = made.file_of(made.read("a", 40_000, 41_000))
        refused: tuple[tuple[tuple[str, ...], str], ...] = (
            (("--rollover", "2"), "2"), (("--rollover",), "--rollover"),
        )
        for words, why in refused:
            lines, errors, status = self.told(recording, recording, *words)
            self.check(f"{words}", (lines, status) == ([], 2) and why in errors, (lines, errors, status))
        for given in GIVEN:
            got = self.told(recording, recording, "--rollover", given)
            self.check(f"few blocks, {given}", got == self.told(recording, recording), got)


def told_by(script: str, given: bytes, *words: str) -> tuple[str, str, int]:
    """What a script writes, what it writes as errors, and its status."""
    done = subprocess.run([str(TOP / "tools" / script), *words], input=given, capture_output=True, timeout=300)
    return done.stdout.decode(), done.stderr.decode(), done.returncode


class Scripts(Checks):
    """What the scripts tell of made captures and recordings."""

    needs = (AUDIT, TRANSFERS)

    def told(self, script: str, given: bytes, *words: str) -> tuple[str, str, int]:
        return told_by(script, given, "--program", AUDIT.path, "--transfers", TRANSFERS.path, *words)

    def test_drawn(self) -> None:
        """A rung has the block beside a number that is another, and no block is a repeat of one with its number."""
        for given in GIVEN:
            first = int(given)
            text, last = whole(first, None).text(), number_of(COUNT, first)
            output, errors, status = self.told("tftp-ladder", text, "--text", "--rollover", given)
            rows = output.splitlines()[-2:]
            holds = f" DATA {last} (block {COUNT}, {SIZE - 1} bytes) " in rows[0] and (errors, status) == ("", 0)
            self.check(f"the last rungs, {given}", holds and f" ACK {last} (block {COUNT}) " in rows[1], rows)
            output, errors, status = self.told("tftp-ladder", text, "--rollover", given)
            self.check(f"a picture, {given}", f">ACK {last} (block {COUNT})<" in output and status == 0, output[-900:])
            again = self.told("tftp-ladder", text, "--text")[0].splitlines()[-1]
            self.check(f"by none, {given}", f" ACK {last}, again " in again, again)

    def test_explained(self) -> None:
        """What is told of the blocks, and of a refusal behind the first round."""
        for given in GIVEN:
            first = int(given)
            output, errors, status = self.told("tftp-explain", whole(first).text(), "--rollover", given)
            accepted = f"accepted get octet blocks {COUNT} bytes {len(FILE)}\n\n"
            self.check(f"accepted, {given}", output.startswith(accepted) and (errors, status) == ("", 0), output)
            far = late(first, 32_768)
            number, block = ROUND + 4 - 32_768, ROUND + 4 - 32_768 + ROUND - first
            line = refusal(len(far.lines), Rule.WINDOW_OVERRUN)
            output, errors, status = self.told("tftp-explain", far.text(), "--rollover", given)
            words = f"DATA, block {block} by number {number}, {SIZE} bytes."
            self.check(f"refused, {given}", output.startswith(f"{line}\n") and words in output and status == 1, output)
            words = f"so block {ROUND + 5} is the last that may come."
            self.check(f"why, {given}", words in " ".join(output.split()), output)
            output, errors, status = self.told("tftp-explain", far.text(), "--rollover", given, "--all")
            ended = f"what if, without datagram {len(far.lines)}: incomplete after {len(far.lines) - 1}"
            self.check(f"what if, {given}", ended in output, output)
            output = self.told("tftp-explain", far.text(), "--rollover", given, "--json")[0]
            self.check(f"JSON, {given}", f"block {block} by number {number}" in output, output)

    def test_recordings(self) -> None:
        """A transfer of a recording is judged so at an end and between the ends, and its file written."""
        for given in GIVEN:
            recording, folder = recorded(int(given)), self.folder / given
            accepted = f"accepted get octet blocks {COUNT} bytes {len(FILE)}"
            words = ("--end", "client", "--rollover", given)
            output, errors, status = self.told("tftp-report", recording, "--summary", *words)
            is_one = re.search("(?m)^accepted +1$", output) is not None
            self.check(f"a summary, {given}", is_one and status == 0, output)
            output, errors, status = self.told("tftp-report", recording, "--format", "json", *words)
            holds = f'"verdict":"{accepted}","doubts":[]' in output and status == 0
            self.check(f"a report, {given}", holds, output[:400])
            output, errors, status = self.told("tftp-extract", recording, *words, str(folder), "-")
            holds = (folder / "boot.img").read_bytes() == FILE and (errors, status) == ("", 0)
            self.check(f"extracted, {given}", holds, (output, errors, status))
            output, errors, status = self.told("tftp-explain", recording, "-", "1", "server", "--rollover", given)
            self.check(f"explained, {given}", output.startswith(f"{accepted}\n") and status == 0, output)
            other = str(1 - int(given))
            output, errors, status = self.told("tftp-explain", recording, "-", "1", "client", "--rollover", other)
            accused = f"the server at {made.S}:41000, which sent the datagram."
            self.check(f"by the other, {given}", output.startswith("refused ") and accused in output, output)
            output, errors, status = self.told("tftp-explain", recording, "--rollover", given)
            self.check(f"between, {given}", output.startswith(f"{accepted}\n") and (errors, status) == ("", 0), errors)
            output, errors, status = self.told("tftp-explain", recording, "--rollover", other)
            holds = output.startswith("refused ") and (errors, status) == ("", 1)
            self.check(f"between, by the other, {given}", holds, (output, errors))

    def test_script_words(self) -> None:
        """What the word says, and with which others it does not go."""
        for script in ("tftp-ladder", "tftp-explain", "tftp-report"):
            output, errors, status = self.told(script, b"", "--rollover", "2")
            self.check(f"{script}, 2", (output, status) == ("", 2) and "argument --rollover: " in errors, errors)


class PairScripts(Checks):
    """What the scripts tell of recordings of both ends."""

    needs = (TRANSFERS, MATCH)

    def test_pairs(self) -> None:
        """Of a pair the captures of both ends are judged so, and each block has its own number."""
        for given in GIVEN:
            first, block = int(given), ROUND + 2
            passed = passed_of(first)
            place = 3 + 2 * (block - 1)
            server = self.folder / "server.pcap"
            server.write_bytes(made.file_of(passed))
            programs = ("--transfers", TRANSFERS.path, "--match", MATCH.path)
            words = (*programs, "--pair", "-", str(server), "--rollover", given)
            output, errors, status = told_by("tftp-explain", made.file_of(passed), *words)
            holds = "matched lost 0 repeated 0" in output and (errors, status) == ("", 0)
            self.check(f"matched, {given}", holds, (output, errors, status))
            other = list(passed)
            content = b"\0" * SIZE
            other[place] = Datagram(made.S, 41_000, made.C, 40_000, numbered(block, first, content)[0])
            output, errors, status = told_by("tftp-explain", made.file_of(other), *words)
            holds = f"block {block}" in output and (errors, status) == ("", 1)
            self.check(f"changed, {given}", holds, (output, errors, status))
            output, errors, status = told_by("tftp-ladder", made.file_of(other), *words, "--text")
            self.check(f"a ladder, {given}", f"(block {block}, " in output and errors == "", (output[-2000:], errors))


class Sent(OverLoopback):
    """What is said of 40 MB that real programs send."""

    needs = (AUDIT, TRANSFERS, MATCH)

    def test_sent(self) -> None:
        self.try_each(REAL, self.try_case)

    def try_case(self, case: Case, folder: pathlib.Path) -> None:
        (folder / "root" / LARGE).write_bytes(IMAGE)
        recording = folder / "large.pcap"
        record(case, recording, folder)
        came = folder / "client" / LARGE
        self.check(f"{case.name}, came over", came.exists() and came.read_bytes() == IMAGE)
        normals = set()
        for end in ENDS:
            words = [TRANSFERS.path, "text", "1", end, "-"]
            text = subprocess.run(words, input=recording.read_bytes(), capture_output=True, timeout=120).stdout
            accepted = f"accepted get octet blocks {BLOCKS} bytes {len(IMAGE)}\n".encode()
            by = {given: said(text, "check", "--rollover", given) for given in GIVEN}
            self.check(f"{case.name}, {end}, by 0", by["0"] == (accepted, b"", 0), by["0"])
            self.check(f"{case.name}, {end}, by 1", by["1"][0].startswith(b"refused ") and by["1"][2] == 1, by["1"])
            self.check(f"{case.name}, {end}, extracted", said(text, "extract", "--rollover", "0") == (IMAGE, b"", 0))
            normals.add(said(text, "normal", "--rollover", "0"))
            self.try_recording(f"{case.name}, {end}", recording.read_bytes(), end)
        for given, word in zip(GIVEN, ("matched lost 0 repeated 0", "unmatched ")):
            words = [MATCH.path, "--rollover", given, "--transfer=1", "--server-transfer=1", str(recording), str(recording)]
            lines = subprocess.run(words, capture_output=True, text=True, timeout=120).stdout.splitlines()
            self.check(f"{case.name}, both, by {given}", len(lines) == 3 and lines[2].startswith(word), lines)
        holds = len(normals) == 1 and all(its[1:] == (b"", 0) and its[0].count(b" 0003") == BLOCKS for its in normals)
        self.check(f"{case.name}, one normal text", holds, [its[1:] for its in normals])

    def try_recording(self, name: str, recording: bytes, end: EndName) -> None:
        """What tftp-transfers says of it at an end by each number."""
        for given, kind in zip(GIVEN, ("accepted", "refused")):
            rows, _, status = checked(TRANSFERS.path, recording, "--end", end, "--rollover", given)
            is_said = [row.verdict.split()[0] for row in rows] == [kind]
            self.check(f"{name}, recorded, by {given}", is_said and status == int(kind == "refused"), rows)
