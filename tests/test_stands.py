"""Whether what is refused between the ends, or at one of them, is so whatever datagrams were not recorded: each
expected value is set by hand."""
from __future__ import annotations

import json
from typing import Any, Optional

from captures import ack, data, error, oack, read_request, write_request
from checks import Checks
from judged import said
from made import C, S, asked_again, file_of, read
from programs import TRANSFERS
from recorded import Datagram
from refusals import Rule, refusal

OUT, BACK = (C, 40_000, S, 41_000), (S, 41_000, C, 40_000)
ASKED = read("a", 40_000, 41_000)[0]
FULL, CHANGED = Datagram(*BACK, data(1, b"." * 512)[0]), Datagram(*BACK, data(1, b"!" * 512)[0])
LAST = Datagram(*BACK, data(1, b"x")[0])


def sent(payload: bytes) -> Datagram:
    return Datagram(*OUT, payload)


def answered(payload: bytes) -> Datagram:
    return Datagram(*BACK, payload)


# What passes between the ends, the rule that the last datagram breaks, and whether that stands.
CASES: tuple[tuple[str, list[Datagram], int | None, bool | None], ...] = (
    ("a whole read", read("a", 40_000, 41_000), None, None),
    ("not whole", [ASKED, FULL], None, None),
    ("a block with other bytes", [ASKED, FULL, sent(ack(1)[0]), CHANGED], 25, True),
    ("block 0", [ASKED, FULL, answered(data(0, b"x")[0])], 19, True),
    ("an ACK of the server of a read", [ASKED, FULL, answered(ack(1)[0])], 6, True),
    ("no packet", [ASKED, FULL, answered(b"\0\7x\0")], 5, True),
    ("an OACK of what was not asked for", [ASKED, answered(oack(blksize=1024)[0])], 13, True),
    ("another ERROR", [ASKED, FULL, sent(error(3, "full")[0]), sent(error(2, "no")[0])], 7, True),
    ("an ACK ahead", [ASKED, FULL, sent(ack(3)[0])], 26, False),
    # nothing is agreed, since nothing was asked for: blocks have 512 bytes, and one with fewer is the last
    ("a block longer than any", [ASKED, answered(data(1, b"." * 600)[0])], 21, True),
    ("a block behind the last", [ASKED, LAST, sent(ack(1)[0]), answered(data(2, b"y")[0])], 21, True),
    ("an ACK of a block behind the last", [ASKED, LAST, sent(ack(1)[0]), sent(ack(2)[0])], 26, True),
    ("a block beyond the window", [ASKED, FULL, sent(ack(1)[0]), answered(data(3, b"x")[0])], 22, False),
    # Where its client asked more than once, nothing is told to stand; what may be lawful may be so still.
    ("a block with other bytes, asked for twice", [ASKED, ASKED, FULL, sent(ack(1)[0]), CHANGED], 25, None),
    ("an ACK ahead, asked for twice", [ASKED, ASKED, FULL, sent(ack(3)[0])], 26, False),
)


ACKED, STRAYED, STOPPED = sent(ack(1)[0]), sent(error(5, "")[0]), sent(error(3, "full")[0])
SIZED = Datagram(C, 40_000, S, 69, read_request("a", "octet", blksize=1024)[0])
SIZE = answered(oack(blksize=1024)[0])
WRITES = [Datagram(C, 40_000, S, 69, write_request("a", "octet")[0]), answered(ack(0)[0])]
WRITTEN = [sent(data(1, b"." * 512)[0]), answered(ack(1)[0]), sent(data(2, b"." * 512)[0])]
SECOND, LONGER, LONGER_NEXT = (
    answered(data(block, b"." * length)[0]) for block, length in ((2, 512), (1, 600), (2, 600))
)
IN_WINDOWS = Datagram(C, 40_000, S, 69, read_request("a", "octet", windowsize=2)[0])
LENGTH_ASKED = Datagram(C, 40_000, S, 69, read_request("a", "octet", tsize=0)[0])
TOO_LONG = answered(oack(tsize=40_000_000)[0])

Expected = tuple[Optional[int], Optional[bool]]
# What passes, and at the client and at the server the rule that is broken there and whether that stands.
# At the server each of these rules stands, since its client is who asked it. At the client they do of what it sent
# itself; and of what came to it once it has gone on with its server, by something that is neither a request nor an
# ERROR 5. Before that its server may be another one, whose answer was missed. Where the client asked more than once,
# none does: a datagram of another transfer of its may count as this one's.
AT_ENDS: tuple[tuple[str, list[Datagram], Expected, Expected], ...] = (
    ("a whole read", read("a", 40_000, 41_000), (None, None), (None, None)),
    ("not whole", [ASKED, FULL], (None, None), (None, None)),
    # rule 5
    ("no packet of the client", [ASKED, FULL, sent(b"\0\7x\0")], (5, True), (5, True)),
    ("no packet of the server", [ASKED, FULL, answered(b"\0\7x\0")], (5, None), (5, True)),
    ("no packet of the server, later", [ASKED, FULL, ACKED, answered(b"\0\7x\0")], (5, True), (5, True)),
    # rule 6
    ("a block of the reader", [ASKED, FULL, sent(data(1, b"x")[0])], (6, True), (6, True)),
    ("an OACK of the client", [ASKED, FULL, sent(oack(blksize=8)[0])], (6, True), (6, True)),
    ("an ACK of the sender", [ASKED, FULL, answered(ack(1)[0])], (6, None), (6, True)),
    ("an ACK of the sender, later", [ASKED, FULL, ACKED, answered(ack(1)[0])], (6, True), (6, True)),
    ("an ACK of the writer", [*WRITES, sent(ack(0)[0])], (6, True), (6, True)),
    # rule 7: an ERROR 5 may have answered a stray, and any other one did not
    ("another ERROR", [ASKED, FULL, STOPPED, sent(error(2, "no")[0])], (7, True), (7, True)),
    ("another ERROR 5", [ASKED, FULL, STRAYED, sent(error(5, "no")[0])], (7, None), (7, True)),
    ("an ERROR 2 after an ERROR 5", [ASKED, FULL, STRAYED, sent(error(2, "no")[0])], (7, True), (7, True)),
    ("a block after an ERROR", [ASKED, answered(error(0, "x")[0]), FULL], (None, None), (7, True)),
    # rules 13, 16 and 17
    ("an OACK of what was not asked for", [ASKED, answered(oack(blksize=1024)[0])], (13, None), (13, True)),
    ("another OACK", [SIZED, SIZE, answered(oack(blksize=512)[0])], (16, None), (16, True)),
    ("another OACK, later", [SIZED, SIZE, sent(ack(0)[0]), answered(oack(blksize=512)[0])], (16, True), (16, True)),
    ("an OACK after a block", [SIZED, SIZE, sent(ack(0)[0]), FULL, SIZE], (None, None), (17, True)),
    # rule 19
    ("block 0 of the server", [ASKED, FULL, answered(data(0, b"x")[0])], (19, None), (19, True)),
    ("block 0 of the server, later", [ASKED, FULL, ACKED, answered(data(0, b"x")[0])], (19, True), (19, True)),
    ("block 0 of the client", [*WRITES, sent(data(0, b"x")[0])], (19, True), (19, True)),
    # rule 25
    ("the server changes a block", [ASKED, FULL, ACKED, CHANGED], (25, True), (25, True)),
    ("the server changes a block at once", [ASKED, FULL, CHANGED], (25, None), (25, True)),
    ("the server changes a block before an ACK", [ASKED, FULL, CHANGED, ACKED], (25, None), (25, True)),
    ("the server changes a block, asked for twice", [ASKED, ASKED, FULL, CHANGED], (25, None), (25, None)),
    ("the server changes a block later, asked for twice", [ASKED, ASKED, FULL, ACKED, CHANGED], (25, None), (25, None)),
    ("the server changes a block after an ERROR 5", [ASKED, FULL, STRAYED, CHANGED], (25, None), (25, True)),
    ("the server changes a block after an ERROR 3", [ASKED, FULL, STOPPED, CHANGED], (25, True), (25, True)),
    ("the client changes a block", [*WRITES, sent(data(1, b"x")[0]), sent(data(1, b"y")[0])], (25, True), (25, True)),
    (
        "the client changes a block, asked for twice",
        [WRITES[0], *WRITES, sent(data(1, b"x")[0]), sent(data(1, b"y")[0])], (25, None), (25, None),
    ),
    # rules 20, 21 and 24, where nothing names the option: the size is 512, and the window one block
    ("a block that goes back", [ASKED, FULL, ACKED, SECOND, FULL], (None, None), (24, True)),
    ("a block of the client that goes back", [*WRITES, *WRITTEN, WRITTEN[0]], (24, True), (None, None)),
    ("a block longer than any", [ASKED, LONGER], (21, None), (21, True)),
    ("a block longer than any, later", [ASKED, FULL, ACKED, LONGER_NEXT], (21, True), (21, True)),
    ("a block behind the last", [ASKED, LAST, ACKED, answered(data(2, b"y")[0])], (21, True), (21, True)),
    ("a file too long for its blocks", [LENGTH_ASKED, TOO_LONG], (20, None), (20, True)),
    # and where a request names it, and its OACK may be missing
    ("a block that goes back in a window", [IN_WINDOWS, FULL, ACKED, SECOND, FULL], (None, None), (24, None)),
    ("a block longer than any but a size that was asked for", [SIZED, LONGER], (21, None), (21, None)),
    # what is not certain: that which allows it may be missing
    ("an ACK ahead", [ASKED, FULL, sent(ack(3)[0])], (26, None), (26, None)),
    ("a block too far", [ASKED, FULL, sent(ack(1)[0]), answered(data(3, b"x")[0])], (22, None), (22, None)),
    ("a block of the writer that was not asked for", [WRITES[0], sent(data(1, b"x")[0])], (2, None), (1, None)),
)


# Another file, which the same port asks for and another port sends, and its block with other bytes.
NEXT = read("b", 40_000, 42_000)
NEXT_CHANGED = Datagram(S, 42_000, C, 40_000, data(1, b"yo")[0])


class Stands(Checks):
    """What stands whatever is missing."""

    needs = (TRANSFERS,)
    program = TRANSFERS.path

    def rows(self, given: bytes, place: str) -> list[dict[str, Any]]:
        words = ["check", "--json", "--end", place, "-"]
        return [json.loads(line) for line in said(self.program, words, given)[0].splitlines()]

    def words(self, given: bytes, *words: str) -> str:
        """The verdict of a recording's last row, as it is printed."""
        line = said(self.program, ["check", *words, "-"], given)[0].splitlines()[-1]
        return line[line.index("refused") :] if "refused" in line else line

    def test_words(self) -> None:
        """A refusal that nothing makes doubtful says what it rests on, and one of rule 20 who judges such numbers."""
        given, between = file_of([ASKED, FULL, sent(ack(1)[0]), CHANGED]), ("--end", "between")
        said_of = self.words(given, *between)
        wanted = f"{refusal(4, Rule.BLOCK_CHANGED)}, whatever is missing except a request"
        self.check("it stands", said_of == wanted, said_of)
        said_of = self.words(file_of([ASKED, FULL, sent(ack(3)[0])]), *between)
        wanted = f"{refusal(3, Rule.ACK_AHEAD)}, if no frame is missing"
        self.check("it may not stand", said_of == wanted, said_of)
        said_of = self.words(file_of(read("a", 40_000, 41_000)))
        self.check("accepted", "missing" not in said_of and "accepted" in said_of, said_of)
        said_of = self.words(given, "--end", "client")
        is_told = said_of.endswith(f" rule {Rule.BLOCK_CHANGED}, whatever is missing except a request")
        self.check("what came to a client that has gone on", is_told, said_of)
        said_of = self.words(file_of([ASKED, FULL, CHANGED, ACKED]), "--end", "client")
        is_told = said_of.endswith(f" rule {Rule.BLOCK_CHANGED}, if no frame is missing")
        self.check("what came to a client before", is_told, said_of)
        doubtful = self.words(file_of(asked_again()))
        self.check("doubtful", "rule" in doubtful and "missing" not in doubtful, doubtful)
        said_of = self.words(file_of([*read("a", 40_000, 41_000), *NEXT, NEXT_CHANGED]), "--end", "server")
        is_told = said_of.endswith(f" rule {Rule.BLOCK_CHANGED}, if no frame is missing")
        self.check("of a client that asked before", is_told, said_of)
        asked, many = Datagram(C, 40_000, S, 69, read_request("a", "octet", tsize=0)[0]), oack(tsize=40_000_000)[0]
        said_of = self.words(file_of([asked, answered(many), sent(ack(0)[0])]), *between)
        wanted = f"{refusal(2, Rule.BEYOND_BLOCK_65535)}, whatever is missing except a request"
        wanted += "; --end client --rollover 0 judges numbers that begin again"
        self.check("rule 20", said_of == wanted, said_of)

    def test_between(self) -> None:
        for name, passed, rule, stands in CASES:
            rows = self.rows(file_of(passed), "between")
            told = [row["stands"] for row in rows]
            holds = rule is None or f" rule {rule} " in rows[0]["verdict"]
            self.check(f"{name}, between", told == [stands] and holds, rows)

    def test_ends(self) -> None:
        for name, passed, *expected in AT_ENDS:
            for end, (rule, stands) in zip(("client", "server"), expected):
                rows = self.rows(file_of(passed), end)
                told = [row["stands"] for row in rows]
                holds = rule is None and "refused" not in rows[0]["verdict"] or f" rule {rule} " in rows[0]["verdict"]
                self.check(f"{name}, at {end}", told == [stands] and holds, rows)

    def test_next_transfer(self) -> None:
        """What was refused before the client asked for another file stands; what is refused of that is not told to."""
        cases = (
            ("the first", [ASKED, FULL, ACKED, CHANGED, *NEXT], 0, [True, None]),
            ("the next", [*read("a", 40_000, 41_000), *NEXT, NEXT_CHANGED], 1, [None, None]),
        )
        for name, passed, place, wanted in cases:
            for end in ("client", "server", "between"):
                rows = self.rows(file_of(passed), end)
                told = [row["stands"] for row in rows]
                holds = told == wanted and f" rule {Rule.BLOCK_CHANGED}" in rows[place]["verdict"]
                self.check(f"a block with other bytes of {name}, at {end}", holds, rows)
