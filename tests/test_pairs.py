"""What tools/tftp-explain and tools/tftp-ladder say and draw of the captures of both ends of one transfer: matched,
with a changed byte, with what was never sent, with what waits, refused, lost, repeated and delayed.

Each pair is tried with the program, and with stand-ins that print the line on the two without further words and with
the words that may stand in it.
"""
from __future__ import annotations

import pathlib
import subprocess
from collections.abc import Sequence
from dataclasses import dataclass, field

from both_ends import READ, Both, ahead, read_of_two_bytes, repeated, strayed, windowed
from captures import Capture, ack, blocks, data, error, oack, read_request
from checks import Checks
from pictures import Picture, contrast_of
from programs import MATCH, TRANSFERS
from refusals import Rule, refusal
from repository import TOP

EXPLAIN, LADDER, EXAMPLES = TOP / "tools" / "tftp-explain", TOP / "tools" / "tftp-ladder", TOP / "examples"
# The two legs of a relay, the first of which is the client's: it lost a datagram and repeated another.
LEGS = EXAMPLES / "loopback-lost-and-repeated.pcap"
# The same with a server that sent a block behind the last one, which both ends refuse.
BEHIND = EXAMPLES / "loopback-behind-last.pcap"
STAND_IN = "#!/bin/sh\ncat >/dev/null\ncat <<'END'\n{lines}\nEND\nexit {status}\n"
SECOND = 1_000_000_000
Ran = tuple[str, str, int]


@dataclass(frozen=True)
class Case:
    """A pair, the program's lines on it, the third one with further words, and words that are told of it."""

    name: str
    both: Both
    lines: tuple[str, str, str]
    more: str
    told: tuple[str, ...]
    # the heads of arrows by their colours, where they are not those of kinds, and the crosses where one is lost
    heads: dict[str, int] = field(default_factory=dict)
    crosses: int = 0

    def status(self) -> int:
        return 0 if self.lines[2] == "matched" else 1


def unanswered() -> Both:
    """The server takes an ACK that the client never sent."""
    both = Both()
    both.put("client", read_request("a", "octet"))
    both.put("server", data(1, b"hi"))
    both.server.put("client", ack(1))
    return both


def answered(sent: tuple[bytes, str], came: tuple[bytes, str], **options: int) -> Both:
    """The answer to a request, which is another one where it comes."""
    both = Both()
    both.put("client", read_request("a", "octet", **options))
    both.server.put("server", sent)
    both.client.put("server", came)
    return both


def asked_otherwise() -> Both:
    """The request has another name at the server."""
    both = Both()
    both.client.put("client", read_request("boot.cfg", "octet"))
    both.server.put("client", read_request("root.cfg", "octet"))
    return both


def delayed() -> Both:
    """The first block of a window comes behind its second."""
    sizes, both = {"blksize": 8, "windowsize": 2}, Both()
    wire = blocks(b"12345678" * 2, 8)
    both.put("client", read_request("a", "octet", **sizes))
    both.put("server", oack(**sizes))
    both.put("client", ack(0))
    both.server.put("server", *wire[:2])
    both.client.put("server", wire[1], wire[0])
    both.put("client", ack(2))
    both.put("server", wire[2])
    both.put("client", ack(3))
    return both


def incomplete(count: int) -> str:
    return f"incomplete after {count}"


def on(client: object, server: object) -> str:
    return f"unmatched client datagram {client} server datagram {server}"


CASES = (
    Case("matched", read_of_two_bytes(), (READ, READ, "matched"), "matched lost 0 repeated 0", (
        "Both: each datagram of the transfer that came in at one end says what the other end had sent before.",
    )),
    Case("a changed byte", read_of_two_bytes(b"hj"), (READ, READ, on(2, 3)), on("2 unsent", "3 waits"), (
        "At: the client, its datagram 2. Where: line 5 of the client's text. What: in,",
        "The server sent block 1 in its datagram 2 (line 5), with 2 bytes; here it has 2 bytes.",
        'They differ from byte 2 of the block on: "i" at the server, "j" here.',
        "byte 2 is 0x69 at the server and 0x6a here.",
        "It waits: the client sent it in its datagram 3 (line 6), behind datagram 2 there, which is unmatched itself.",
    ), {"f-refused": 1, "f-after": 1}),
    Case("a changed block of a window", windowed(2), (
        "accepted get octet blocks 6 bytes 40", "accepted get octet blocks 6 bytes 40", on(6, 8),
    ), on("6 unsent", "8 waits"), (
        "The server sent block 3 in its datagram 6 (line 9), with 8 bytes; here it has 8 bytes.",
        'They differ from byte 1 of the block on: "67890123" at the server, "changed!" here.',
        "8 bytes of the 8 differ, the last is byte 8.", "behind datagram 6 there, which is unmatched itself.",
    ), {"f-refused": 1, "f-after": 5}),
    Case("a block that is cut", read_of_two_bytes(b"h"), (
        "accepted get octet blocks 1 bytes 1", READ, on(2, 3),
    ), on("2 unsent", "3 waits"), (
        "with 2 bytes; here it has 1 byte.", 'They differ from byte 2 of the block on: "i" at the server, "" here.',
    ), {"f-refused": 1, "f-after": 1}),
    Case("an ACK that was never sent", unanswered(), (incomplete(2), READ, on("-", 3)), on("-", "3 unsent"), (
        "At: the server, its datagram 3.",
        "The client never sent it: it sent 1 datagram of the transfer, and none that says this.",
    ), {"f-refused": 1}),
    Case("another OACK", answered(oack(blksize=8), oack(blksize=9), blksize=16), (
        incomplete(2), incomplete(2), on(2, "-"),
    ), on("2 unsent", "-"), (
        "The server sent the like in its datagram 2 (line 5): it agrees to blksize 8 there, and to blksize 9 here.",
    ), {"f-refused": 1}),
    Case("another ERROR", answered(error(1, "no file"), error(2, "no file")), (
        "aborted by peer code 2", "aborted by local code 1", on(2, "-"),
    ), on("2 unsent", "-"), (
        'ERROR, code 1 (file not found), message "no file" there, and ERROR, code 2 (access violation)',
    ), {"f-refused": 1}),
    Case("another request", asked_otherwise(), (incomplete(1), incomplete(1), on("-", 1)), on("-", "1 unsent"), (
        'The client sent the like in its datagram 1 (line 4). Its name is "boot.cfg" there, and "root.cfg" here.',
    ), {"f-refused": 1}),
    Case("a refusal on one side", ahead(), (
        refusal(3, Rule.ACK_AHEAD), READ, on(3, 3),
    ), on(3, 3), (
        "At: the client, its datagram 3.",
        f"Rule: {Rule.ACK_AHEAD}: an ACK says that its block and all before it came.",
        "At: the server, its datagram 3.",
        "The client never sent it: it sent 2 datagrams of the transfer, and none that says this.",
        "The highest ACK that it sent is 2 in its datagram 3 (line 6).",
    ), {"f-refused": 1}, 1),
    Case("lost", repeated(3, 1), (READ, READ, "matched"), "matched lost 2 repeated 0", (), {}, 2),
    Case("repeated", repeated(1, 3), (READ, READ, "matched"), "matched lost 0 repeated 2", (), {"f-repeat": 2}),
    Case("strays", strayed(), (READ, READ, "matched"), "matched lost 0 repeated 0", (), {"f-stray": 3}),
    Case("delayed", delayed(), (
        "accepted get octet blocks 3 bytes 16", "accepted get octet blocks 3 bytes 16", "matched",
    ), "matched lost 0 repeated 0", ()),
)
# What is told with the numbers, where the program tells them.
COUNTED = {
    "lost": "Lost: at least 2 datagrams: DATA 1 (2 bytes) of the server 2 times. Repeated: none that is seen.",
    "repeated": "Lost: none that is seen. Repeated: at least 2 datagrams: DATA 1 (2 bytes) of the server 2 times.",
}


def plain(output: str) -> str:
    """The words that are told, with one space between."""
    return " ".join(output.split())


def crosses(picture: Picture) -> int:
    """How many arrows end in a cross, which is of two lines."""
    return sum(each.get("stroke-width") == "2" for each in picture.lines() if each.get("class") != "s-words") // 2


def timed(capture: Capture, times: Sequence[float], frame: int) -> bytes:
    """The text of a capture with its frames and times."""
    lines = capture.text().decode().splitlines()
    made = lines[:3]
    for number, (line, time) in enumerate(zip(lines[3:-1], times)):
        made += [f"# frame {frame + number} time {1_795_415_291 + time:.9f}", line]
    return "".join(f"{line}\n" for line in [*made, lines[-1]]).encode()


class Pairs(Checks):
    """What is said and drawn of both ends."""

    needs = (MATCH, TRANSFERS)
    program, transfers = MATCH.path, TRANSFERS.path

    def call(self, script: pathlib.Path, words: Sequence[object], given: bytes = b"") -> Ran:
        done = subprocess.run([str(it) for it in (script, *words)], input=given, capture_output=True, timeout=120)
        return done.stdout.decode(), done.stderr.decode(), done.returncode

    def standing_in(self, lines: Sequence[str], status: int) -> pathlib.Path:
        """A program that prints these lines of whatever it is given."""
        program = self.folder / "stand-in"
        program.write_text(STAND_IN.format(lines="\n".join(lines), status=status))
        program.chmod(0o755)
        return program

    def paths(self, texts: tuple[bytes, bytes]) -> list[pathlib.Path]:
        paths = [self.folder / "the client's", self.folder / "the server's"]
        for path, text in zip(paths, texts):
            path.write_bytes(text)
        return paths

    def programs(self, case: Case) -> list[tuple[object, str]]:
        """The program, and each stand-in with the line that it prints."""
        lines = [case.lines[2], case.more]
        stand_ins: list[tuple[object, str]] = []
        for number, line in enumerate(lines):
            made = self.standing_in([*case.lines[:2], line], case.status())
            stand_ins.append((made.rename(self.folder / f"stand-in-{number}"), line))
        return [(self.program, ""), *stand_ins]

    def test_explained(self) -> None:
        for case in CASES:
            self.try_explained(case)

    def test_drawn(self) -> None:
        for case in CASES:
            self.try_drawn(case)

    def try_explained(self, case: Case) -> None:
        paths = self.paths(case.both.texts())
        for program, line in self.programs(case):
            output, errors, status = self.call(EXPLAIN, ["--match", program, "--pair", *paths])
            first, words = output.partition("\n")[0], plain(output)
            told = [*case.told, f"Client: {case.lines[0]} Server: {case.lines[1]}"]
            told += [COUNTED[case.name]] if first == case.more and case.name in COUNTED else []
            is_first = first in ([line] if line else [case.lines[2], case.more])
            holds = (errors, status) == ("", case.status()) and is_first
            lacking = [it for it in told if it not in words]
            self.check(f"{case.name}, explained, {line}", holds and not lacking, (lacking, output, errors, status))

    def try_drawn(self, case: Case) -> None:
        paths = self.paths(case.both.texts())
        for program, line in self.programs(case):
            output, errors, status = self.call(LADDER, ["--match", program, "--pair", *paths])
            name = f"{case.name}, drawn, {line}"
            if (errors, status) != ("", 0):
                self.check(name, False, (errors, status))
                continue
            picture = Picture(output)
            heads = {name: picture.heads.count(name) for name in ("f-refused", "f-after", "f-repeat", "f-stray")}
            wanted = {**dict.fromkeys(heads, 0), **case.heads}
            holds = heads == wanted and crosses(picture) == case.crosses
            self.check(name, holds, (heads, wanted, crosses(picture)))
            told = picture.told()
            is_told = told[0] in ([line] if line else [case.lines[2], case.more]) and "captured at both ends" in told[1]
            self.check(f"{name}: title and description", is_told and picture.root.get("role") == "img", told)
            down = [(float(it.get("y1", 0)), float(it.get("y2", 0))) for it in picture.lines()]
            self.check(f"{name}: nothing goes upwards", all(y1 <= y2 or y1 - y2 == 10 for y1, y2 in down), down)
            least = contrast_of(picture)
            self.check(f"{name}: each text has contrast", min(least.values()) >= 4.5, least)

    def test_times(self) -> None:
        """The server's clock is five seconds ahead; the request takes 10 ms, the block 20, the ACK 30: the difference
        is between 5 s - 20 ms and 5 s + 10 ms."""
        both = read_of_two_bytes()
        texts = timed(both.client, [0, 0.040, 0.050], 7), timed(both.server, [5.010, 5.020, 5.080], 100)
        paths, program = self.paths(texts), self.standing_in([READ, READ, "matched"], 0)
        words = ["--match", program, "--pair", *paths]
        clock = "the server's time less the client's is from 4.980000 s to 5.010000 s, of which 4.995000 s is taken"
        got = self.call(EXPLAIN, words)
        self.check("clocks explained", f"Clocks: {clock}." in plain(got[0]), got)
        of_time: tuple[list[str], ...] = ([], ["--by", "time"])
        for more in of_time:
            output, errors, status = self.call(LADDER, [*words, *more])
            picture = Picture(output)
            wanted = ["0.0000 s", "0.0150 s", "0.0250 s", "0.0400 s", "0.0500 s", "0.0850 s", "frame 7", "frame 102"]
            lacking = [it for it in wanted if it not in picture.words]
            self.check(f"times {more}", not lacking and picture.has(clock) and status == 0, (lacking, errors))
        output, errors, status = self.call(LADDER, [*words, "--text"])
        self.check("times in text", f"{clock}.\n" in output and "0.0850 s" in output and status == 0, output)
        texts = timed(both.client, [0, 0.040, 0.050], 7), timed(both.server, [5.010, 5.100, 5.110], 100)
        got = self.call(EXPLAIN, ["--match", program, "--pair", *self.paths(texts)])
        self.check("clocks that do not agree", "the clocks do not agree" in got[0] and got[2] == 0, got)

    def test_text(self) -> None:
        paths = self.paths(delayed().texts())
        program = self.standing_in(["accepted get octet blocks 3 bytes 16"] * 2 + ["matched"], 0)
        output, errors, status = self.call(LADDER, ["--text", "--match", program, "--pair", *paths])
        wanted = ("|--- RRQ", "DATA 1 (8 bytes), comes as 5 ---|", "|<-", "DATA 1 (8 bytes), sent as 4 ...|", "->|")
        self.check("in text", all(it in output for it in wanted) and (errors, status) == ("", 0), (output, errors))
        paths = self.paths(read_of_two_bytes(b"hj").texts())
        program = self.standing_in([READ, READ, on(2, 3)], 1)
        output, errors, status = self.call(LADDER, ["--text", "--match", program, "--pair", *paths])
        marked = [line for line in output.splitlines() if line.startswith(">>")]
        holds = len(marked) == 1 and "DATA 1 (2 bytes), changed on the way ---|" in marked[0]
        self.check("the unmatched one in text", holds and status == 0, (output, errors))

    def test_large(self) -> None:
        """Of three thousand blocks, of which two are lost, what is plain is folded."""
        both = Both()
        both.put("client", read_request("boot.img", "octet"))
        for number in range(1, 3_001):
            both.put("server", data(number, b"w" * 512), sent=2 if number in (700, 2_000) else 1)
            both.put("client", ack(number))
        line = incomplete(6_001)
        program, paths = self.standing_in([line, incomplete(6_003), "matched"], 0), self.paths(both.texts())
        of_text: tuple[list[str], ...] = ([], ["--text"])
        for words in of_text:
            output, errors, status = self.call(LADDER, [*words, "--match", program, "--pair", *paths])
            holds = (errors, status) == ("", 0) and output.count("datagrams: client") == 3
            holds = holds and "DATA 700 (512 bytes), again, lost" in output and len(output) < 60_000
            self.check(f"folded {words}", holds, (errors, status, len(output), output.count("datagrams: client")))

    def test_faults(self) -> None:
        client, server = read_of_two_bytes().texts()
        paths = self.paths((client, server.removesuffix(b"total 3\n")))
        words = ["--match", self.program, "--pair"]
        output, errors, status = self.call(EXPLAIN, [*words, *paths])
        told = "Server: fault line 7 Truncated" in plain(output) and "Fault: Truncated" in plain(output)
        self.check("a text with a fault", told and status == 2 and not errors, (output, errors, status))
        got = self.call(LADDER, [*words, *paths])
        self.check("a text with a fault, drawn", got[2] == 2 and "before the fault alone" in got[1], got[1:])
        output, errors, status = self.call(EXPLAIN, [*words, *self.paths((client, client))])
        holds = output.startswith("fault server WrongEnd\n") and "the second the server's" in plain(output)
        self.check("two clients", holds and (errors, status) == ("", 2), (output, errors))

    def test_words(self) -> None:
        client, server = read_of_two_bytes().texts()
        paths, match = self.paths((client, server)), ["--match", self.program]
        for place, given in enumerate((client, server)):
            named: list[object] = [*paths]
            named[place] = "-"
            output, errors, status = self.call(EXPLAIN, [*match, "--pair", *named], given)
            self.check(f"standard input {place}", output.startswith("matched") and (errors, status) == ("", 0), errors)
        recording = EXAMPLES / "loopback-session.pcap"
        refused: tuple[tuple[str, list[object], str], ...] = (
            ("both of standard input", ["--pair", "-", "-"], "one of the two captures may come on standard input"),
            ("a file too", ["--pair", *paths, recording], "--pair takes the place of FILE"),
            (
                "another recording", ["--pair", recording, paths[1]],
                f"{recording}: no transfer has the request of {paths[1]}",
            ),
            ("no pair", ["--transfer", "1", recording], "--transfer and --server-transfer go with --pair"),
            ("no recording", ["--transfer", "1", "--pair", *paths], "a transfer is named, and there is no recording"),
            ("no file", ["--pair", self.folder / "none", paths[1]], "cannot read the file"),
        )
        for name, words, told in refused:
            for script in (EXPLAIN, LADDER):
                got = self.call(script, [*match, *words])
                self.check(f"{script.name}, {name}", got[0] == "" and told in got[1] and got[2] == 2, got)
        got = self.call(EXPLAIN, [*match, "--json", "--pair", *paths])
        self.check("no JSON", got[0] == "" and "no --json" in got[1] and got[2] == 2, got)
        got = self.call(EXPLAIN, ["--match", self.standing_in(["hello"], 0), "--pair", *paths])
        self.check("another program", got[0] == "" and "did not match the two" in got[1] and got[2] == 2, got)

    def test_recordings(self) -> None:
        """Of recordings the same is said and drawn as of the texts of their transfers."""
        paths = [self.folder / "of the client", self.folder / "of the server"]
        for path, words in zip(paths, (["text", "1", "client"], ["text", "2", "server"])):
            path.write_bytes(subprocess.run([self.transfers, *words, LEGS], capture_output=True, check=True).stdout)
        programs = ["--match", self.program, "--transfers", self.transfers]
        number, server_number = ["--transfer", "1"], ["--server-transfer", "2"]
        cases: tuple[tuple[str, list[object], bytes], ...] = (
            ("both", [*number, *server_number, "--pair", LEGS, LEGS], b""),
            ("the client's on standard input", [*number, *server_number, "--pair", "-", LEGS], LEGS.read_bytes()),
            ("the client's alone", [*number, "--pair", LEGS, paths[1]], b""),
            ("the server's alone", [*server_number, "--pair", paths[0], LEGS], b""),
            ("the one that there is", ["--transfer", "2", "--pair", paths[0], LEGS], b""),
        )
        for script in (EXPLAIN, LADDER):
            wanted = self.call(script, [*programs, "--pair", *paths])
            self.check(
                f"{script.name}, texts", "matched lost 1 repeated 1" in wanted[0] and wanted[1:] == ("", 0), wanted
            )
            for name, more, given in cases:
                got = self.call(script, [*programs, *more], given)
                self.check(f"{script.name}, recordings, {name}", got == wanted, got)
            got = self.call(script, [*programs, *number, *server_number, "--pair", BEHIND, BEHIND])
            holds = "unmatched client datagram 53 server datagram 52" in got[0]
            holds = holds and got[0].count(Rule.BLOCK_LENGTH.printed) >= 2
            self.check(f"{script.name}, a block behind the last one", holds and not got[1], got)
            got = self.call(script, [*programs, "--pair", LEGS, LEGS])
            self.check(
                f"{script.name}, two like transfers", got[0] == "" and "name one by" in got[1] and got[2] == 2, got
            )
