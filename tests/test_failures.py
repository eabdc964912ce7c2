"""Each growth that is refused, each read and each write that fails, and each cut of a text, on the built program."""
from __future__ import annotations

import dataclasses
from collections.abc import Iterable, Iterator, Mapping, Sequence

from captures import Capture, ack, blocks, data, error, netascii, oack, read_request, write_request
from commands import COMMANDS, SILENT
from normal import Output, meaning_of, outputs_of_refused
from refusals import Rule, refusal
from shimmed import Shimmed

# What `show` says of the lines of a text begins at this one.
FIRST_DATAGRAM_LINE = 4
USAGE = (b"fault usage\n", 2)
MEMORY = b"fault memory\n"
NOTHING = (b"", 2)
# The fewest bytes of a write of `show`, but for the last.
LEAST_PIECE = 2_048
# Words after the program's name that are no command, and words of which one is no UTF-8.
NO_COMMANDS: tuple[list[str], ...] = (
    [], [""], ["Check"], ["chec"], ["check "], ["--check"], ["extrac"], ["extracts"], ["Extract"], ["extract\n"],
    ["help"], ["--help"], ["-h"], ["--version"], ["check", "show"], ["show", "show"], ["check", "extract"],
    ["extract", "extract"], ["check", ""], ["extract", ""], ["show", "--help"], ["extract", "--help"],
    ["help", "check"], ["help", "extract"], ["--", "check"], ["--", "extract"], ["norma"], ["normals"], ["Normal"],
    ["normal\n"], ["--normal"], ["normal", "normal"], ["normal", ""], ["normal", "--help"], ["--", "normal"], ["coun"],
    ["counts"], ["Count"], ["count "], ["--count"], ["count", "count"], ["check", "count"], ["count", "--help"],
    ["help", "count"], ["--", "count"],
)
NO_WORDS: tuple[list[str | bytes], ...] = (
    [b"\xff"], [b"check\xc3"], [b"extract\xc3"], [b"normal\xc3"], [b"count\xc3"], ["check", b"\xff"],
)


@dataclasses.dataclass(frozen=True)
class Case:
    """A capture text, and what there is to say of it."""

    name: str
    text: bytes
    # what `show` prints of each datagram, in order
    rows: tuple[bytes, ...]
    # what `check` prints of the text as a whole, and its status
    verdict: Output | None = None
    # the file of which the capture was made, where it is accepted
    file: bytes = b""
    # the line of the first unlawful datagram, if there is one
    unlawful: int = 0
    # the line and the name of what is wrong with the text, if anything is
    wrong: tuple[int, str] | None = None

    def last_line(self, command: str) -> int | None:
        """The line behind which nothing is read, where there is one before the text's end."""
        unlawful, wrong = self.unlawful if command != "show" else 0, self.wrong[0] if self.wrong else 0
        return min((line for line in (unlawful, wrong) if line), default=None)

    def output(self, command: str, taken: int | None = None, ending: str = "Truncated") -> Output:
        """What is printed, and the status, where the text ends after so many bytes or, if at all, so.

        `taken` is None where the text is given to its end, and else the number of bytes before its ending, which is
        Truncated or Read.
        """
        whole = self.text[:taken].count(b"\n")
        fault = None if taken is None else (whole + 1, ending)
        if self.wrong and self.wrong[0] <= whole:
            fault = self.wrong
        sound = fault[0] - 1 if fault else whole
        said = b"fault line %d %s\n" % (fault[0], fault[1].encode()) if fault else b""
        if command == "show":
            return b"".join(self.rows[: max(0, sound - FIRST_DATAGRAM_LINE + 1)]) + said, 2 if fault else 0
        judged = self.verdict if not fault or 0 < self.unlawful <= sound else (said, 2)
        assert judged is not None, f"the verdict of {self.name} is not known"
        if judged[1] == 0:
            return meaning_of(self.text, self.file).outputs(judged)[command]
        return outputs_of_refused(judged)[command]

    def outputs_without_memory(self, command: str) -> set[Output]:
        """What may be printed, and the status, where a growth is refused."""
        shown = range(len(self.rows) + 1) if command == "show" else range(1)
        told = {(b"".join(self.rows[:count]) + MEMORY, 2) for count in shown if command not in SILENT}
        output = self.output(command)
        if command == "normal":
            told |= {(output[0][:count], 2) for count in range(len(output[0]))}
        # Without memory for its words the program says nothing, nor does `extract` without any other.
        return told | {output, NOTHING}


def text_of(*lines: bytes) -> bytes:
    return b"".join(line + b"\n" for line in (b"tftp-capture 1", b"end client", b"service 69", *lines))


def case_of(name: str, capture: Capture, line: str, file: bytes = b"") -> Case:
    """A whole capture, the line that `check` prints of it, and the file that it was made of."""
    verdict = f"{line}\n".encode(), 0 if line.startswith("accepted") else 1
    return Case(name, capture.text(), tuple(capture.rows), verdict, file)


def texts() -> tuple[Case, ...]:
    """Texts of version 1, sound and with faults."""
    request = b"out 40000 69 000161006f6374657400"
    block = b"in 40000 41000 000300016869"
    past = b"in 40000 41000 000300026869"
    ack = b"out 40000 41000 00040001"
    overrun = f"{refusal(2, Rule.WINDOW_OVERRUN)}\n".encode(), 1
    rows = (b"1 out RRQ\n", b"2 in DATA 1 2\n", b"3 out ACK 1\n")
    malformed = f"{refusal(2, Rule.MALFORMED, 'AckLength')}\n".encode(), 1
    shown, skipped = (rows[0], b"2 in DATA 1 0\n", rows[2]), (rows[0], b"2 in DATA 2 2\n")
    accepted = [(b"accepted get octet blocks 1 bytes %d\n" % size, 0) for size in (0, 2)]
    return (
        Case("a read of one block", text_of(request, block, ack, b"total 3"), rows, accepted[1], b"hi"),
        Case(
            "a read of an empty file", text_of(request, b"in 40000 41000 00030001", ack, b"total 3"), shown, accepted[0]
        ),
        Case("a block past the window", text_of(request, past, b"total 2"), skipped, overrun, unlawful=5),
        Case(
            "a block past the window before bad hex", text_of(request, past, ack + b"0", b"total 3"), skipped, overrun,
            unlawful=5, wrong=(6, "BadHex"),
        ),
        Case(
            "a block past the window after bad hex", text_of(request, block + b"0", past, b"total 3"), rows[:1],
            unlawful=6, wrong=(5, "BadHex"),
        ),
        Case("no acknowledgement", text_of(request, block, b"total 2"), rows[:2], (b"incomplete after 2\n", 1)),
        Case(
            "a payload that is no packet", text_of(request, b"in 40000 41000 0004000100", ack, b"total 3"),
            (rows[0], b"2 in malformed AckLength\n", rows[2]), malformed, unlawful=5,
        ),
        Case("bad hex at once", text_of(b"out 40000 69 00016", block, ack, b"total 3"), (), wrong=(4, "BadHex")),
        Case("bad hex later", text_of(request, block, ack + b"0", b"total 3"), rows[:2], wrong=(6, "BadHex")),
        Case("a wrong total", text_of(request, block, ack, b"total 4"), rows, wrong=(7, "TotalWrong")),
        Case("no datagram", text_of(b"total 0"), (), (b"incomplete after 0\n", 1)),
    )


def with_hosts() -> Iterator[Case]:
    """Texts of version 2: strays of a third host at the server's port, and a host that is none."""
    strays = Capture("client", version=2)
    strays.put("client", read_request("a", "octet"))
    strays.put("server", data(1, b"hi"))
    strays.put("server", data(1, b"hi"), host=strays.THIRD_HOST)
    strays.put("client", error(5, ""), host=strays.THIRD_HOST)
    strays.put("client", ack(1))
    sound = case_of("strays of a third host", strays, "accepted get octet blocks 1 bytes 2", b"hi")
    yield sound
    wrong = sound.text.replace(b" %s " % strays.THIRD_HOST.encode(), b" a\tb ", 1)
    yield Case("a host that is none", wrong, tuple(strays.rows[:2]), wrong=(6, "BadHost"))


def windows() -> Iterator[Case]:
    """Reads at the client: one by windows of four blocks that come out of order and twice, one with a stray between."""
    sizes = {"blksize": 8, "windowsize": 4}
    file = b"".join(b"%d" % block * 8 for block in range(1, 6)) + b"666"
    wire = blocks(file, 8)
    window = Capture("client")
    window.put("client", read_request("a", "octet", **sizes))
    window.put("server", oack(**sizes))
    window.put("client", ack(0))
    window.put("server", wire[0], wire[1], wire[3])
    window.put("client", ack(2))
    window.put("server", *wire[2:])
    window.put("client", ack(6))
    yield case_of("a window out of order", window, "accepted get octet blocks 6 bytes 43", file)
    stray = Capture("client")
    stray.put("client", read_request("a", "octet"))
    stray.put("server", data(1, b"hi"))
    stray.put("server", data(1, b"hi"), server=42_000)
    stray.put("client", error(5, ""), server=42_000)
    stray.put("client", ack(1))
    yield case_of("a stray", stray, "accepted get octet blocks 1 bytes 2", b"hi")


def with_errors() -> Iterator[Case]:
    """Transfers that an end ends, and what must not follow."""
    missing = Capture("client")
    missing.put("client", read_request("a", "octet"))
    missing.put("server", error(1, "none"))
    yield case_of("a missing file", missing, "aborted by peer code 1")
    full = Capture("client")
    full.put("client", read_request("a", "octet"))
    full.put("server", data(1, b"hi"))
    full.put("client", error(3, "full"))
    yield case_of("a full disk", full, "aborted by local code 3")
    full.put("client", ack(1))
    after = case_of("an acknowledgement after the error", full, refusal(4, Rule.AFTER_ERROR))
    yield dataclasses.replace(after, unlawful=7)


def hundred_blocks(file: bytes, sizes: Mapping[str, int]) -> Capture:
    """A read in windows of four blocks, each acknowledged by its last."""
    many = Capture("client")
    many.put("client", read_request("boot.img", "octet", **sizes))
    many.put("server", oack(**sizes))
    many.put("client", ack(0))
    wire = blocks(file, 8)
    for at in range(0, len(wire), 4):
        many.put("server", *wire[at : at + 4])
        many.put("client", ack(min(at + 4, len(wire))))
    return many


def transfers() -> Iterator[Case]:
    """Transfers that need memory for more than a plain read does."""
    sizes, file = {"blksize": 8, "windowsize": 4}, b"0123456789"
    first, second = blocks(file, 8)
    agreed = Capture("client")
    agreed.put("client", read_request("boot.img", "octet", **sizes, tsize=0, timeout=6, utimeout="soon"))
    agreed.put("server", oack(**sizes, tsize=10, timeout=6))
    agreed.put("client", ack(0))
    agreed.put("server", first, second)
    agreed.put("client", ack(2))
    yield case_of("options agreed", agreed, "accepted get octet blocks 2 bytes 10", file)
    repeated = Capture("server")
    repeated.put("client", write_request("notes", "octet", blksize=8, other="x"))
    repeated.put("client", write_request("notes", "OCTET", OTHER="x", BLKSIZE="08"))
    repeated.put("server", oack(blksize=8), oack(BLKSIZE="08"))
    for packet in (first, second):
        repeated.put("client", packet)
        repeated.put("server", ack(int(packet[1].split()[1])))
    yield case_of("a repeated request and a repeated OACK", repeated, "accepted put octet blocks 2 bytes 10", file)
    text = Capture("client")
    text.put("client", read_request("notes", "netascii", blksize=8))
    text.put("server", oack(blksize=8))
    text.put("client", ack(0))
    notes = b"line 1\rx\nline 2\n\n"
    for packet in blocks(netascii(notes), 8):
        text.put("server", packet)
        text.put("client", ack(int(packet[1].split()[1])))
    yield case_of("netascii", text, "accepted get netascii blocks 3 bytes 17", notes)
    many = hundred_blocks(file * 80, sizes)
    yield case_of("a hundred blocks", many, "accepted get octet blocks 101 bytes 800", file * 80)
    other = Capture("client")
    other.put("client", read_request("a", "octet", blksize=8), read_request("b", "octet", blksize=8))
    yield case_of("another request", other, refusal(2, Rule.REQUEST_CHANGED))


def strays() -> Iterator[Case]:
    """Reads that strays come between, at either end: from other ports, and from other hosts at the other end's port."""
    answer = error(5, "unknown transfer")
    ports = Capture("client")
    ports.put("client", read_request("a", "octet"))
    ports.put("server", data(1, b"hi"))
    for port in (42_000, 43_000, 44_000):
        ports.put("server", data(1, b"hi"), server=port)
        ports.put("client", answer, server=port)
    ports.put("client", ack(1))
    yield case_of("strays", ports, "accepted get octet blocks 1 bytes 2", b"hi")
    hosts = Capture("server", version=2)
    hosts.put("client", read_request("a", "octet"))
    hosts.put("server", data(1, b"hi"))
    for host in ("192.0.2.9", "192.0.2.10", "2001:db8:1111:2222:3333:4444:255.255.255.255"):
        hosts.put("client", ack(1), host=host)
        hosts.put("server", answer, host=host)
    hosts.put("client", ack(1))
    yield case_of("strays of other hosts", hosts, "accepted get octet blocks 1 bytes 2", b"hi")


def errors() -> Iterator[Case]:
    """Transfers that an ERROR ends, which both ends send and repeat, or which is known from one side alone."""
    told, asked = error(0, "out of blocks"), error(8, "no such size")
    both = Capture("client")
    both.put("client", read_request("a", "octet", blksize=8))
    both.put("server", oack(blksize=8))
    both.put("client", ack(0))
    both.put("server", data(1, b"12345678"), told, told, data(1, b"12345678"))
    both.put("client", asked, asked)
    yield case_of("errors of both ends", both, "aborted by peer code 0")
    refused = Capture("client")
    refused.put("client", read_request("a", "octet", blksize=8))
    refused.put("server", oack(blksize=8))
    refused.put("client", asked)
    yield case_of("an agreement that is refused", refused, "aborted by local code 8")
    other = Capture("client")
    other.put("client", read_request("a", "octet"))
    other.put("server", error(1, "none"), error(1, "no such file"))
    yield case_of("another error", other, refusal(3, Rule.AFTER_ERROR))


class Failures(Shimmed):
    """The runs of the program."""

    def test_cases(self) -> None:
        for case in (*texts(), *with_hosts(), *windows(), *with_errors()):
            for command in COMMANDS:
                self.try_case(case, command)

    def test_growths(self) -> None:
        for case in (*transfers(), *strays(), *errors()):
            for command in COMMANDS:
                self.try_growths(case, command)

    def test_words(self) -> None:
        """Words that are none; memory is wanted for the parse of two words alone."""
        for words in NO_COMMANDS:
            self.try_words(words)
        for no_words in NO_WORDS:
            self.expect(f"words {no_words}", self.call(no_words, b""), NOTHING)
        for words, outputs in ((["help"], (USAGE, (MEMORY, 2), NOTHING)), (["check", "show"], (USAGE, NOTHING))):
            self.refuse_growths(f"words {words}", words, b"", USAGE, outputs)
            self.fail_writes(f"words {words}", words, b"", USAGE)

    def refuse_growths(
        self, name: str, words: Sequence[str], given: bytes, output: Output, outputs: Iterable[Output]
    ) -> tuple[int, int]:
        """Each growth refused, until a run meets no refusal: that one's is `output`. How many told want of memory, and
        how many were right all the same."""
        told = right = 0
        for turn in range(1, 10_000):
            got = self.call(words, given, REFUSE=turn)
            if not got[2]:
                self.expect(f"{name}, no growth refused", got, output)
                return told, right
            self.expect(f"{name}, growth {turn} refused", got, *outputs)
            right += got[0] == output
            told += got[0][1] == 2 if words[0] in SILENT else got[0][0].endswith(MEMORY)
        self.check(f"{name}, growths", False, "no end")
        return told, right

    def fail_reads(self, case: Case, command: str) -> None:
        """Each read failing, of one byte a read, the one after the whole text too; and none is made behind the line of
        a fault, or of an unlawful datagram."""
        last = case.last_line(command)
        for taken in range(len(case.text) + 1):
            got = self.call([command], case.text, ONE_BYTE=1, FAIL_READ=taken + 1)
            name = f"{command}, {case.name}, read {taken + 1}"
            self.expect(name, got, case.output(command, taken, "Read"))
            is_made = last is None or case.text[:taken].count(b"\n") < last
            self.check(f"{name}, is made", got[2] == is_made, got)

    def cut(self, case: Case, command: str) -> None:
        """The text cut after each of its bytes."""
        for taken in range(len(case.text)):
            got = self.call([command], case.text[:taken])
            self.expect(f"{command}, {case.name}, {taken} bytes", got, case.output(command, taken))

    def try_growths(self, case: Case, command: str) -> None:
        name, output = f"{command}, {case.name}", case.output(command)
        self.expect(name, self.call([command], case.text), output)
        told, right = self.refuse_growths(name, [command], case.text, output, case.outputs_without_memory(command))
        self.check(f"{name}, want of memory", told > 0, "is never met")
        # Without memory for the lines that wait, each piece of them is written at once.
        self.check(f"{name}, no memory for what waits", right > 0 or command in SILENT, "is never met")

    def try_case(self, case: Case, command: str) -> None:
        name, output = f"{command}, {case.name}", case.output(command)
        self.try_growths(case, command)
        self.fail_writes(name, [command], case.text, output)
        self.fail_reads(case, command)
        self.cut(case, command)

    def test_show_in_pieces(self) -> None:
        """Many lines are written in pieces of KBs, and after a piece that fails nothing more is."""
        count = 2_000
        text = text_of(*[b"in 40000 41000 00030001"] * count, b"total %d" % count)
        whole = b"".join(b"%d in DATA 1 0\n" % number for number in range(1, count + 1))
        for turn in range(1, len(whole) // LEAST_PIECE + 3):
            got = self.call(["show"], text, FAIL_WRITE=turn)
            (output, status), clean, met = got
            if not met:
                self.expect("show, many lines", got, (whole, 0))
                return
            holds = clean and status == 2 and whole.startswith(output) and (turn - 1) * LEAST_PIECE <= len(output)
            self.check(f"show, many lines, write {turn}", holds and output != whole, (len(output), status))
        self.check("show, many lines", False, "too many writes")

    def test_normal_of_many(self) -> None:
        """A longer normal text: after a write that fails nothing more is written."""
        file = b"0123456789" * 80
        text = hundred_blocks(file, {"blksize": 8, "windowsize": 4}).text()
        whole = meaning_of(text, file).normal_text()
        for turn in range(1, len(whole)):
            got = self.call(["normal"], text, FAIL_WRITE=turn)
            (output, status), clean, met = got
            if not met:
                self.expect("normal, many lines", got, (whole, 0))
                return
            holds = clean and status == 2 and whole.startswith(output) and output != whole
            self.check(f"normal, many lines, write {turn}", holds, (len(output), status))
        self.check("normal, many lines", False, "too many writes")

    def try_words(self, words: list[str]) -> None:
        """Words that are no command are told before anything is read."""
        got = self.call(words, b"", FAIL_READ=1)
        self.expect(f"words {words}", got, USAGE)
        self.check(f"words {words}, no read", not got[2], got)
