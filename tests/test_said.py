"""What each command says of texts, on the built program: of the captures of the scripts of the tests in crates/, of
texts with each fault, of the longest lines, and where a read fails. Each text is given whole, and byte by byte with
the output taken so.
"""
from __future__ import annotations

from collections.abc import Iterator, Sequence

from refusals import Rule, refusal
from scripts import CLIENT, SHARED, capture, captures, constant, line_of
from shimmed import Shimmed

CASES = ("rules", "reads", "hosts", "options", "windows", "errors", "limits")
ACCEPTED = "accepted get octet blocks 1 bytes 2"
READ_OF_HI = capture(CLIENT, "READ, HI, ACK_1")
SHOWN = (b"1 out RRQ\n", b"2 in DATA 1 2\n", b"3 out ACK 1\n")
# The line of a text at which its first datagram stands.
FIRST_DATAGRAM_LINE = 4
LINES = (
    "tftp-capture 1", "end client", "service 69", "out 40000 69 000161006f6374657400", "in 40000 41000 000300016869",
    "out 40000 41000 00040001", "total 3",
)
LINES_WITH_HOSTS = (
    "tftp-capture 2", "end client", "service 69", "out 40000 10.0.0.1 69 000161006f6374657400",
    "in 40000 10.0.0.1 41000 000300016869", "out 40000 10.0.0.1 41000 00040001", "total 3",
)
# The number of a line, what is wrong with it, and the line; digits between braces come as often as the star says.
HEADERS = (
    (1, "BadHeader", "tftp-capture 3"), (1, "BadHeader", "tftp-capture 1\r"), (1, "BadHeader", "# x"),
    (2, "BadEnd", "end peer"), (2, "BadEnd", "end client\r"), (2, "BadEnd", " "), (2, "BadEnd", "total 3"),
    (3, "BadService", "service 0"), (3, "BadService", "service 069"), (3, "BadService", "service 69 "),
    (3, "BadService", "service 65536"), (3, "BadService", "\r"), (3, "BadService", "total 3"),
)
VERSIONS = (
    (1, "BadHeader", "tftp-capture 0"), (1, "BadHeader", "tftp-capture 2 "), (1, "BadHeader", "tftp-capture 12"),
)
DATAGRAMS = (
    (4, "BadLine", "out 40000 10.0.0.1 69 00"), (4, "BadLine", "out 40000  69 00"), (4, "BadLine", "total"),
    (4, "BadLine", "total 3 "), (4, "BadLine", "\r"), (4, "BadLine", "Out 40000 69 00"),
    (4, "BadPort", "out 040000 69 00"), (4, "BadPort", "out  69 00"), (4, "BadPort", "out 40000 0 00"),
    (4, "BadPort", "out 65536 69 00"), (4, "BadHex", "out 40000 69 00016"), (4, "BadHex", "out 1 69 "),
    (4, "BadHex", "out 40000 69 0g"), (5, "BadHex", "in 40000 41000 0"), (6, "BadHex", "out 40000 41000 --"),
)
# In version 2 the host stands between the ports, and is judged after them and before the payload.
WITH_HOSTS = (
    (2, "BadEnd", "end client 10.0.0.1"), (3, "BadService", "service 10.0.0.1 69"),
    (4, "BadLine", "out 40000 69 000161006f6374657400"), (4, "BadLine", "out 40000 10.0.0.1 69 00 00"),
    (4, "BadLine", "out 40000 10.0.0.1  69 00"), (4, "BadLine", "total 10.0.0.1 0"),
    (4, "BadPort", "out 040000 \t 69 0"), (4, "BadPort", "out 40000 \t 0 0"), (4, "BadPort", "out 40000 10.0.0.1  00"),
    (4, "BadHost", "out 40000  69 00"), (4, "BadHost", "out 40000 \t 69 0"), (4, "BadHost", "out 40000 a\x7f 69 00"),
    (4, "BadHost", "out 40000 {a*46} 69 000161006f6374657400"), (5, "BadHost", "in 40000 10.0.0.1\r 41000 00"),
    (6, "BadHost", "out 40000 \xe9 41000 00"), (4, "BadHex", "out 40000 10.0.0.1 69 0"),
    (4, "BadHex", "out 40000 10.0.0.1 69 "), (5, "BadHex", "in 40000 - 41000 --"), (6, "TotalWrong", "total 3"),
    (7, "TotalWrong", "total 4"), (7, "BadLine", "in 40000 41000 000300016869"),
)
TOTALS = (
    (7, "TotalWrong", "total 4"), (7, "TotalWrong", "total 2"), (7, "TotalWrong", "total +3"),
    (7, "TotalWrong", "total 03"), (7, "TotalWrong", "total "), (7, "TotalWrong", "total x"),
    (6, "TotalWrong", "total 3"),
)
LONG = (
    (4, "PayloadTooLong", "in 1 1 {0*131056}"), (4, "BadHex", "in 1 1 {0*131055}"), (4, "BadHex", "in 1 1 {g*131056}"),
    (4, "LineTooLong", "#{#*131070}"),
)
# In version 2 a line is too long from 131,117 bytes on, but the first one as in version 1.
LONG_WITH_HOSTS = (
    (4, "PayloadTooLong", "in 1 a 1 {0*131056}"), (4, "BadHex", "in 1 a 1 {0*131055}"),
    (4, "BadHex", "in 1 a 1 {g*131056}"), (4, "BadHost", "in 1 a\t 1 {0*131056}"), (4, "BadLine", "in 1 {a*131111}"),
    (4, "LineTooLong", "in 1 {a*131112}"), (4, "LineTooLong", "#{#*131116}"),
    (1, "BadHeader", "tftp-capture 2{ *131056}"), (1, "LineTooLong", "tftp-capture 2{ *131057}"),
)
# Comments, empty lines and hex digits of either case change nothing, nor do comments of the most bytes.
THE_SAME = (
    (LINES, 3, "service 69\n#{#*131069}"), (LINES_WITH_HOSTS, 3, "service 69\n#{#*131115}"),
    (LINES, 3, "service 69\n# x"), (LINES, 1, "tftp-capture 1\n\n# any text\r\n\n"),
    (LINES, 6, "out 40000 41000 00040001\n#"), (LINES, 4, "out 40000 69 000161006F6374657400"),
    (LINES_WITH_HOSTS, 1, "tftp-capture 2\n\n# any text"),
    (LINES_WITH_HOSTS, 4, "# x\nout 40000 10.0.0.1 69 000161006F6374657400"),
)
# Texts that end too early, and the line where they do.
SHORT = (
    (b"", 1), (b"tftp-capture 3", 1), (b"tftp-capture 1\nend client\nservice 69\n", 4), (b"tftp-capture 2", 1),
    (b"tftp-capture 2\n", 2), (READ_OF_HI.rsplit(b"total", 1)[0], 7), (READ_OF_HI[:-1], 7),
)
# The end of a text whose second datagram breaks a rule, and its fault.
LATER_FAULTS = (
    (b"out 40000 41000 0\ntotal 3\n", "fault line 6 BadHex"), (b"total 3\n", "fault line 6 TotalWrong"),
    (b"total 2\n#\n", "fault line 7 TrailingText"), (b"", "fault line 6 Truncated"),
)
REFUSED = b"tftp-capture 1\nend client\nservice 69\nout 40000 69 000161006f6374657400\nin 40000 41000 000300026869\n"
# Names that are too long for a payload, and for a line.
TOO_LONG = (
    (CLIENT, "out 40000 69 0001{61*65519}006f6374657400, HI, ACK_1", "fault line 4 PayloadTooLong"),
    ("tftp-capture 1, end client, service 65535", "out 65535 65535 0001{61*65519}006f6374657400, HI, ACK_1",
     "fault line 4 LineTooLong"),
)
# Any 1 to 45 signs but the space are a host.
HOSTS = ("-", "#", "!~", "2001:db8::1", "a" * 45)
READ_OF_TEXT = "out 40000 69 000161006e6574617363696900"
OF_SIX_BLOCKS = (
    "READ_4_BY_8, OACK_4_BY_8, ACK_0, IN_1, IN_2, IN_4, ACK_2, IN_3, IN_4, in 40000 41000 000300053535353535353535, "
    "in 40000 41000 00030006363636, out 40000 41000 00040006"
)
# Reads by blocks of 8 bytes in a window of 65535: the mode, the digits of a block and of the last one, the numbers in
# their order, and what `check` and `count` say.
WINDOWS = (
    ("octet", "3131313131313131", "31313131313131", range(65_535, 0, -1),
     "accepted get octet blocks 65535 bytes 524279", "normal datagrams 65539"),
    ("netascii", "0a0a0a0a0a0a0a0a", "0a0a0a0a", range(1, 32_769), "too long when normal", "too long when normal"),
    ("netascii", "0a0a0a0a0a0a0a0a", "0a0a0a", range(1, 32_769), "accepted get netascii blocks 65535 bytes 262139",
     "normal datagrams 65539"),
)
# Captures that are not accepted, and what `check` and `count` say of them: no file is written, and no normal text.
NOT_ACCEPTED = (
    ("", "incomplete after 0"),
    ("READ, HI", "incomplete after 2"),
    ("READ, HI, ACK_2", refusal(3, Rule.ACK_AHEAD)),
    ("READ_BY_8, OACK_BY_8, ACK_0, IN_1, ACK_1, IN_22, in 40000 41000 000300023333", refusal(7, Rule.BLOCK_CHANGED)),
    ("READ, in 40000 41000 0005000100", "aborted by peer code 1"),
    ("READ, in 40000 41000 00030001{61*512}, ACK_1", "incomplete after 3"),
)
# Captures, and the lines that `show` writes of each, with slashes between. Nothing is judged: a server of a read sends
# no ACK, and a transfer begins with a request. A payload that spells no packet is shown too, by the first thing that is
# wrong with it, and the datagrams after it.
HOSTS_SHOWN = "tftp-capture 2, end client, service 69"
SHOWS = (
    (CLIENT, "READ, HI, ACK_1", "1 out RRQ / 2 in DATA 1 2 / 3 out ACK 1"),
    (CLIENT, "READ, ACKED_0", "1 out RRQ / 2 in ACK 0"),
    (CLIENT, "HI", "1 in DATA 1 2"),
    (CLIENT, "in 1 65535 0003ffff, out 2 3 0004ffff, in 4 5 0005ffff00",
     "1 in DATA 65535 0 / 2 out ACK 65535 / 3 in ERROR 65535"),
    (CLIENT, "", ""),
    (CLIENT, "WRITE_BY_8, in 40000 41000 0006626c6b73697a65003800, out 40000 41000 00030001, "
     "in 40000 41000 0004000100, in 40000 41000 00040001, out 40000 41000 00030002313233343536373839, "
     "in 40000 41000 0005000361206d65737361676500, out 40000 41000 0006, READ",
     "1 out WRQ / 2 in OACK / 3 out DATA 1 0 / 4 in malformed AckLength / 5 in ACK 1 / 6 out DATA 2 9 / 7 in ERROR 3 / "
     "8 out OACK / 9 out RRQ"),
    (HOSTS_SHOWN, "out 40000 10.0.0.1 69 000161006f6374657400, in 40000 10.0.0.1 41000 000300016869, "
     "in 40000 10.0.0.9 41000 000300016869, out 40000 10.0.0.1 41000 00040001",
     "1 out RRQ / 2 in DATA 1 2 / 3 in DATA 1 2 / 4 out ACK 1"),
    (CLIENT, "out 40000 69 0001{61*494}006f6374657400626c6b73697a65003800, ACK_1",
     "1 out malformed RequestTooLong / 2 out ACK 1"),
)
MALFORMED = (
    ("-", "Short"), ("00", "Short"), ("0003", "Short"), ("000500", "Short"), ("0000", "Opcode"), ("0007", "Opcode"),
    ("0004", "AckLength"), ("0001", "NoTerminator"), ("000500056e6f", "NoTerminator"),
    ("000161006f6374657400626c6b73697a6500", "OddOptions"), ("000161006f6374657400003800", "EmptyOptionName"),
    ("000161006f6374657400626c6b73697a65003800424c4b53495a45003800", "DuplicateOption"),
    ("000161006f637400", "UnknownMode"), ("000161006d61696c00", "MailMode"),
)


def changed(lines: Sequence[str], number: int, line: str) -> bytes:
    """The text of these lines with the one of this number, counted from 1, changed."""
    return b"".join(line_of(line if at == number else old) for at, old in enumerate(lines, 1))


def shown_before(number: int) -> bytes:
    """What `show` writes of the read of `hi` before this line, each datagram being on a line of its own."""
    return b"".join(SHOWN[: max(0, number - FIRST_DATAGRAM_LINE)])


def line_after(text: bytes, taken: int) -> int:
    """The line of the byte after so many."""
    return 1 + text[:taken].count(b"\n")


def normals() -> Iterator[tuple[bytes, str, bytes]]:
    """Captures, what is said of each, and its normal text."""
    both = iter(captures(constant("tests_wire/src/trials/normals.rt", "SCRIPT")))
    for text, said in both:
        yield text, said, next(both)[0]


class Said(Shimmed):
    """What the commands say."""

    def says(self, command: str, text: bytes, output: bytes, status: int) -> None:
        """The command writes all this for the text, and ends with this status, given whole and byte by byte."""
        name = f"{command} of {text[-60:]!r}"
        self.expect(name, self.call([command], text), (output, status))
        self.expect(f"{name}, one byte a call", self.call([command], text, ONE_BYTE=1), (output, status))

    def line(self, command: str, text: bytes, line: str, status: int) -> None:
        self.says(command, text, line.encode() + b"\n", status)

    def fault(self, text: bytes, line: str, shown: bytes) -> None:
        """`check` says this line of a fault, and `show` writes it behind the datagrams before it."""
        self.line("check", text, line, 2)
        self.says("show", text, shown + line.encode() + b"\n", 2)

    def test_captures_of_scripts(self) -> None:
        for case in CASES:
            for text, said in captures(constant(f"tests_judges/src/judges/cases/{case}.rt", "SCRIPT")):
                status, line = said.split(" ", 1)
                self.line("check", text, line, int(status))
        for host in HOSTS:
            words = [SHARED[word].split(" ", 2) for word in ("READ", "HI", "ACK_1")]
            text = capture(HOSTS_SHOWN, ", ".join(f"{way} {port} {host} {rest}" for way, port, rest in words))
            self.line("check", text, ACCEPTED, 0)
        for header, words_too_long, line in TOO_LONG:
            self.line("check", capture(header, words_too_long), line, 2)

    def test_normal_texts(self) -> None:
        """A normal text is its own normal text, and the same is said of it."""
        for text, said, normal in normals():
            count = normal.count(b"\n") - FIRST_DATAGRAM_LINE
            for either in (text, normal):
                self.line("check", either, said, 0)
                self.says("normal", either, normal, 0)
                self.line("count", either, f"normal datagrams {count}", 0)
        # 511 line ends that came alone are two blocks when they are written: more datagrams than the capture's.
        bare = capture(CLIENT, f"{READ_OF_TEXT}, in 40000 41000 00030001{{0a*511}}, ACK_1")
        self.line("check", bare, "accepted get netascii blocks 2 bytes 511", 0)
        self.line("count", bare, "normal datagrams 5", 0)

    def test_windows(self) -> None:
        """As many blocks as there may be, the last one first; and a text of bare LFs, which are two bytes each when
        they are written, in half as many: with one more there would be block 65536."""
        for mode, whole, last, numbers, line, count in WINDOWS:
            options = "00626c6b73697a6500380077696e646f7773697a6500363535333500"
            digits = {number: whole for number in numbers} | {max(numbers): last}
            blocks = [f"in 40000 41000 0003{number:04x}{digits[number]}" for number in numbers]
            text = capture(
                CLIENT,
                ", ".join((
                    f"out 40000 69 00016100{mode.encode().hex()}{options}", f"in 40000 41000 0006{options[2:]}",
                    "ACK_0", *blocks, f"out 40000 41000 0004{max(numbers):04x}",
                )),
            )
            status = 0 if line.startswith("accepted") else 1
            self.line("check", text, line, status)
            self.line("count", text, count, status)

    def test_files(self) -> None:
        for text, digits in captures(constant("tests_judges/src/judges/cases/files.rt", "SCRIPT")):
            self.says("extract", text, bytes.fromhex(digits.replace("-", "")), 0)
        six, file = capture(CLIENT, OF_SIX_BLOCKS), b"".join(b"%d" % block * 8 for block in range(1, 6)) + b"666"
        self.fail_writes("extract of six blocks", ["extract"], six, (file, 0))
        self.expect("extract, a read fails", self.call(["extract"], six, FAIL_READ=2), (b"", 2))

    def test_nothing_of_others(self) -> None:
        for words, line in NOT_ACCEPTED:
            text = capture(CLIENT, words)
            for command in ("check", "count"):
                self.line(command, text, line, 1)
            for command in ("extract", "normal"):
                self.says(command, text, b"", 1)
        for command, output in (("extract", b""), ("normal", b""), ("count", b"fault line 7 Truncated\n")):
            self.says(command, READ_OF_HI[:-1], output, 2)

    def test_shown(self) -> None:
        for header, words, lines in SHOWS:
            rows = b"".join(row.encode() + b"\n" for row in lines.split(" / ") if row)
            self.says("show", capture(header, words), rows, 0)
        for payload, fault in MALFORMED:
            rows = b"1 out RRQ\n2 in malformed %s\n3 in DATA 1 2\n" % fault.encode()
            self.says("show", capture(CLIENT, f"READ, in 7 8 {payload}, HI"), rows, 0)
        cut = capture(CLIENT, "READ, # x, HI, in 40000 41000 0g, ACK_1")
        self.says("show", cut, b"1 out RRQ\n2 in DATA 1 2\nfault line 7 BadHex\n", 2)
        many = capture(CLIENT, ", ".join(["in 40000 41000 0003007b3131313131313131"] * 2_000))
        self.says("show", many, b"".join(b"%d in DATA 123 8\n" % number for number in range(1, 2_001)), 0)

    def test_faults(self) -> None:
        """Each fault of a text, by one line that is changed."""
        for lines, cases in (
            (LINES, (*HEADERS, *VERSIONS, *DATAGRAMS, *TOTALS, *LONG)),
            (LINES_WITH_HOSTS, (*WITH_HOSTS, *LONG_WITH_HOSTS)),
        ):
            for number, fault, line in cases:
                self.fault(changed(lines, number, line), f"fault line {number} {fault}", shown_before(number))
        self.fault(changed(LINES, 1, "tftp-capture 2"), "fault line 4 BadLine", b"")
        self.fault(changed(LINES_WITH_HOSTS, 1, "tftp-capture 1"), "fault line 4 BadLine", b"")
        for text, at in SHORT:
            self.fault(text, f"fault line {at} Truncated", shown_before(at))
        for more in (b"#\n", b"\n", b"x", b"total 3\n", b"a" * 131_071):
            self.fault(READ_OF_HI + more, "fault line 8 TrailingText", b"".join(SHOWN))

    def refused(self, text: bytes, line: str, shown: bytes, status: int) -> None:
        """`check` refuses the text by this line, and `show` writes that."""
        self.line("check", text, line, 1)
        self.says("show", text, shown, status)

    def test_lawful_or_not(self) -> None:
        """Texts that say the same, the longest payloads, and a datagram that breaks a rule before a fault."""
        with_bytes = READ_OF_HI.replace(b"\n", b"\n#\x00\x80\xff\n", 1)
        for text in (*(changed(*case) for case in THE_SAME), with_bytes):
            self.line("check", text, ACCEPTED, 0)
            self.says("show", text, b"".join(SHOWN), 0)
        longest = changed(LINES, 5, "in 40000 41000 {0*131054}")
        shown = b"1 out RRQ\n2 in malformed Opcode\n3 out ACK 1\n"
        self.refused(longest, refusal(2, Rule.MALFORMED, "Opcode"), shown, 0)
        to_host = changed(LINES_WITH_HOSTS, 6, "out 65535 {a*45} 65535 " + "0" * 131_054)
        shown = b"1 out RRQ\n2 in DATA 1 2\n3 out malformed Opcode\n"
        self.refused(to_host, refusal(3, Rule.FOREIGN_PORT), shown, 0)
        for end, fault in LATER_FAULTS:
            shown = b"1 out RRQ\n2 in DATA 2 2\n%s\n" % fault.encode()
            self.refused(REFUSED + end, refusal(2, Rule.WINDOW_OVERRUN), shown, 2)
        self.refused(b"tftp-capture 1\nend server\nservice 65535\ntotal 0\n", "incomplete after 0", b"", 0)

    def test_failed_reads(self) -> None:
        """The line of a read that fails is that of the next byte; a datagram that breaks a rule, and a whole wrong
        line, come before it, and nothing is read behind them."""
        for text, line, rows in ((READ_OF_HI, 8, 3), (b"tftp-capture 3", 1, 0)):
            said = b"fault line %d Read\n" % line
            self.expect("check, the next read fails", self.call(["check"], text, FAIL_READ=2), (said, 2))
            shown = b"".join(SHOWN[:rows]) + said
            self.expect("show, the next read fails", self.call(["show"], text, FAIL_READ=2), (shown, 2))
        ahead = capture(CLIENT, "READ, HI, ACK_2").rsplit(b"total", 1)[0]
        refused = f"{refusal(3, Rule.ACK_AHEAD)}\n".encode()
        self.expect("check, refused before", self.call(["check"], ahead, FAIL_READ=2), (refused, 1))
        shown = b"1 out RRQ\n2 in DATA 1 2\n3 out ACK 2\nfault line 7 Read\n"
        self.expect("show, a failed read", self.call(["show"], ahead, FAIL_READ=2), (shown, 2))
        comments = REFUSED + b"#\n" * 4_096
        overrun = f"{refusal(2, Rule.WINDOW_OVERRUN)}\n".encode()
        header = b"tftp-capture 3\n"
        for command, text, read, output in (
            ("check", header, len(header) + 1, (b"fault line 1 BadHeader\n", 2)),
            ("show", header, len(header) + 1, (b"fault line 1 BadHeader\n", 2)),
            ("check", comments, len(comments), (overrun, 1)),
            ("extract", comments, len(comments), (b"", 1)),
        ):
            got = self.call([command], text, ONE_BYTE=1, FAIL_READ=read)
            self.expect(f"{command}, no read behind the end", got, output)
            self.check(f"{command}, that read is not made", not got[2], got)

    def test_failed_writes(self) -> None:
        """The status is 2, whatever that of the line that could not be written."""
        ahead = capture(CLIENT, "READ, HI, ACK_2")
        cut = b"tftp-capture 1\nend client\nservice 69\nout 40000 69 000161006f6374657400\n"
        for command, text, output in (
            ("check", READ_OF_HI, (ACCEPTED.encode() + b"\n", 0)),
            ("check", ahead, (f"{refusal(3, Rule.ACK_AHEAD)}\n".encode(), 1)),
            ("check", b"", (b"fault line 1 Truncated\n", 2)),
            ("judge", b"", (b"fault usage\n", 2)),
            ("show", READ_OF_HI, (b"".join(SHOWN), 0)),
            ("show", cut, (b"1 out RRQ\nfault line 5 Truncated\n", 2)),
        ):
            self.fail_writes(f"{command} of {text[-20:]!r}", [command], text, output)

    def test_names_of_the_program(self) -> None:
        """The program's name is any word, and no command."""
        for name in ("", "check", "--help", "/usr/bin/tftp-audit"):
            checked = self.call_as(name, ["check"], READ_OF_HI, {})
            self.expect(f"called {name!r}", checked, (ACCEPTED.encode() + b"\n", 0))
            self.expect(f"called {name!r} alone", self.call_as(name, [], b"", {}), (b"fault usage\n", 2))
        self.expect("no command", self.call_as("check", ["tftp-audit"], b"", {}), (b"fault usage\n", 2))
