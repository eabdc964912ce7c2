"""How long transfers took: in JSON their time, the bytes a second, what each end sent again, and the longest silence;
in words where nothing passed for a second. The expected values are set by hand.
"""
from __future__ import annotations

import json
from collections.abc import Sequence
from typing import NamedTuple

from captures import ack, data, error, oack, read_request
from checks import Checks
from judged import said
from made import C, S, THIRD, file_of, read
from programs import TRANSFERS
from recorded import Datagram
from repository import TOP

OUT, BACK = (C, 40_000, S, 41_000), (S, 41_000, C, 40_000)
ASKED = read("a", 40_000, 41_000)[0]
FULL, LAST = Datagram(*BACK, data(1, b"." * 512)[0]), Datagram(*BACK, data(2, b"!")[0])
STRAY = Datagram(THIRD, 41_000, C, 40_000, data(1, b"x")[0])
TOLD = Datagram(C, 40_000, THIRD, 41_000, error(5, "no")[0])
FIELDS = ("nanoseconds", "bytes_per_second", "repeats", "silence")
SESSION = TOP / "examples" / "loopback-session.pcap"
TENTH = 100_000_000


def acked(block: int) -> Datagram:
    return Datagram(*OUT, ack(block)[0])


class Case(NamedTuple):
    """A recording, and what is told of the time of its one transfer: how long, how fast, the repeats of the client and
    of the server, the silence, and the words."""

    name: str
    passed: list[Datagram]
    times: Sequence[float]
    told: tuple[int, int | None, int, int, tuple[int, str, int] | None]
    words: str = ""


WHOLE = [ASKED, FULL, acked(1), LAST, acked(2)]
CASES = (
    Case("a whole read", WHOLE, (0.0, 0.1, 0.2, 0.3, 0.5), (5 * TENTH, 1026, 0, 0, (2 * TENTH, "client", 5))),
    Case(
        "of equal silences the first", WHOLE, (0.0, 0.1, 0.2, 0.3, 0.4), (4 * TENTH, 1282, 0, 0, (TENTH, "server", 2)),
    ),
    Case(
        "a request again", [ASKED, *WHOLE], (0.0, 5.0, 5.1, 5.2, 5.3, 5.4),
        (54 * TENTH, 95, 1, 0, (50 * TENTH, "server", 2)),
        "; took 5.400 s, the server silent for 5.000 s before frame 2, sent again: 1 of the client, 0 of the server",
    ),
    Case(
        "a block again, since the client is silent", [ASKED, FULL, FULL, acked(1), LAST, acked(2)],
        (0.0, 0.1, 1.1, 1.2, 1.3, 1.4), (14 * TENTH, 366, 0, 1, (10 * TENTH, "client", 3)),
        "; took 1.400 s, the client silent for 1.000 s before frame 3, sent again: 0 of the client, 1 of the server",
    ),
    Case(
        "an answer that comes late", [ASKED, FULL, acked(1), LAST, acked(2)], (0.0, 2.0625, 2.1, 2.2, 2.3),
        (23 * TENTH, 223, 0, 0, (2_062_500_000, "server", 2)),
        "; took 2.300 s, the server silent for 2.062 s before frame 2, sent again: 0 of the client, 0 of the server",
    ),
    Case(
        "an ACK again, to a block again", [ASKED, FULL, acked(1), FULL, acked(1), LAST, acked(2)],
        (0.0, 0.1, 0.2, 0.3, 0.4, 0.5, 0.6), (6 * TENTH, 855, 1, 1, (TENTH, "server", 2)),
    ),
    Case(
        "a stranger's datagrams are none of it", [ASKED, FULL, acked(1), STRAY, TOLD, LAST, acked(2)],
        (0.0, 0.1, 0.2, 0.3, 0.4, 0.6, 0.7), (7 * TENTH, 732, 0, 0, (4 * TENTH, "server", 6)),
    ),
    Case("a request alone", [ASKED], (7.0,), (0, None, 0, 0, None)),
    Case("not whole", [ASKED, FULL], (0.0, 0.25), (250_000_000, None, 0, 0, (250_000_000, "server", 2))),
)


def line_of(row: dict[str, object]) -> tuple[object, ...]:
    times = row["times"]
    assert isinstance(times, dict) and tuple(times) == FIELDS, times
    repeats, silence = times["repeats"], times["silence"]
    gap = (silence["nanoseconds"], silence["role"], silence["frame"]) if silence else None
    return times["nanoseconds"], times["bytes_per_second"], repeats["client"], repeats["server"], gap


class Pace(Checks):
    """How long transfers took."""

    needs = (TRANSFERS,)
    program = TRANSFERS.path

    def rows(self, command: str, given: bytes) -> list[dict[str, object]]:
        return [json.loads(line) for line in said(self.program, [command, "--json", "-"], given)[0].splitlines()]

    def test_checked(self) -> None:
        for it in CASES:
            given = file_of(it.passed, it.times)
            for row in self.rows("check", given):
                self.check(f"{it.name}, in JSON", line_of(row) == it.told, row)
            for line in said(self.program, ["check", "-"], given)[0].splitlines()[1:]:
                holds = line.endswith(it.words) and ("; took " in line) == bool(it.words)
                self.check(f"{it.name}, in words", holds, line)

    def test_listed(self) -> None:
        """Of a list no file is known, and so no bytes a second."""
        for it in CASES:
            given = file_of(it.passed, it.times)
            wanted = it.told[0], None, *it.told[2:]
            self.check(f"{it.name}, listed", [line_of(row) for row in self.rows("list", given)] == [wanted])
            line = said(self.program, ["list", "-"], given)[0].splitlines()[1]
            self.check(f"{it.name}, listed in words", line.endswith(it.words) and ("; took " in line) == bool(it.words))

    def test_options(self) -> None:
        """An OACK and the ACK 0 to it come before the first block; each again is a repeat."""
        asked = Datagram(C, 40_000, S, 69, read_request("a", "octet", blksize=1024)[0])
        agreed, zero = Datagram(*BACK, oack(blksize=1024)[0]), acked(0)
        passed = [asked, agreed, zero, agreed, zero, Datagram(*BACK, data(1, b"!")[0]), acked(1)]
        rows = self.rows("check", file_of(passed, [place / 10 for place in range(7)]))
        wanted = 6 * TENTH, 1, 1, 1, (TENTH, "server", 2)
        self.check("an OACK again and ACK 0 again", {line_of(row) for row in rows} == {wanted}, rows)
