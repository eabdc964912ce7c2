"""How a transfer ended, beside the verdict on it: by whose ERROR, or with whose datagram and for how long nothing
followed, in JSON and in words, of checks and of lists. The expected values are set by hand.
"""
from __future__ import annotations

import json
from collections.abc import Sequence
from typing import NamedTuple

from captures import ack, data, error, read_request
from checks import Checks
from judged import said
from made import C, S, THIRD, file_of, read
from programs import TRANSFERS
from recorded import Datagram
from refusals import Rule, refusal
from repository import TOP

OUT, BACK = (C, 40_000, S, 41_000), (S, 41_000, C, 40_000)
ASKED = read("a", 40_000, 41_000)[0]
FULL, LAST = Datagram(*BACK, data(1, b"." * 512)[0]), Datagram(*BACK, data(2, b"!")[0])
MISSING = Datagram(*BACK, error(1, "File not found")[0])
STRAY = Datagram(THIRD, 41_000, C, 40_000, data(1, b"x")[0])
# Another client's request, which lets time pass.
LATER = Datagram(THIRD, 50_000, S, 69, read_request("b", "octet")[0])
FIELDS = ("how", "role", "code", "message", "frame", "seconds", "before_refusal")
SESSION = TOP / "examples" / "loopback-session.pcap"
# What a refusal rests on.
WHATEVER, IF_NONE = "whatever is missing except a request", "if no frame is missing"


def acked(block: int) -> Datagram:
    return Datagram(*OUT, ack(block)[0])


class Case(NamedTuple):
    """A recording, how its first transfer ended, and what stands behind its verdict in words."""

    name: str
    passed: list[Datagram]
    times: Sequence[float]
    ended: tuple[object, ...]
    verdict: str
    words: str


def stopped(role: str, code: int, message: str, frame: int, before_refusal: bool = False) -> tuple[object, ...]:
    return "error", role, code, message, frame, None, before_refusal


def quiet(how: str, role: str, frame: int, seconds: int) -> tuple[object, ...]:
    return how, role, None, None, frame, seconds, False


NOT_THERE = 'ended: server ERROR 1 "File not found" frame 2'
NO_ANSWER, LATE = "incomplete after 1", (0.0, 25.9)
CASES = (
    Case(
        "a whole read", read("a", 40_000, 41_000), (), ("whole", None, None, None, None, None, False),
        "accepted get octet blocks 1 bytes 2", "",
    ),
    Case(
        "a file that is not there", [ASKED, MISSING], (), stopped("server", 1, "File not found", 2),
        "aborted by server code 1", f"aborted by server code 1; {NOT_THERE}",
    ),
    Case(
        "an ERROR that its client acknowledges", [ASKED, MISSING, acked(1)], (),
        stopped("server", 1, "File not found", 2, True), refusal(3, Rule.ACK_AHEAD),
        f"aborted by server code 1, and then {refusal(3, Rule.ACK_AHEAD)}, {IF_NONE}; {NOT_THERE}",
    ),
    Case(
        "an ERROR in the midst", [ASKED, FULL, acked(1), Datagram(*BACK, error(5, "Wrong block number")[0])], (),
        stopped("server", 5, "Wrong block number", 4), "aborted by server code 5",
        'aborted by server code 5; ended: server ERROR 5 "Wrong block number" frame 4',
    ),
    Case(
        "the first of two ERRORs", [ASKED, FULL, acked(1), Datagram(*BACK, error(2, "Access violation")[0]), MISSING],
        (), stopped("server", 2, "Access violation", 4), refusal(5, Rule.AFTER_ERROR),
        f'{refusal(5, Rule.AFTER_ERROR)}, {WHATEVER}; ended: server ERROR 2 "Access violation" frame 4',
    ),
    Case(
        "signs in a message", [ASKED, FULL, acked(1), Datagram(*OUT, error(0, 'a "b"\\\x1b')[0])], (),
        stopped("client", 0, "a \\x22b\\x22\\x5c\\x1b", 4), "aborted by client code 0",
        'aborted by client code 0; ended: client ERROR 0 "a \\x22b\\x22\\x5c\\x1b" frame 4',
    ),
    Case(
        "an ERROR without its zero byte", [ASKED, FULL, Datagram(*OUT, error(3, "")[0][:-1])], (),
        stopped("client", 3, "", 3), refusal(3, Rule.MALFORMED, "NoTerminator"),
        f'{refusal(3, Rule.MALFORMED, "NoTerminator")}, {WHATEVER}; ended: client ERROR 3 "" frame 3',
    ),
    Case(
        "no answer", [ASKED, LATER], LATE, quiet("silent", "server", 1, 25), NO_ANSWER,
        f"{NO_ANSWER}; ended: server silent for 25 s after frame 1",
    ),
    Case(
        "a block that nobody acknowledges", [ASKED, FULL, LATER], (0.0, 0.5, 1.5), quiet("silent", "client", 2, 1),
        "incomplete after 2", "incomplete after 2; ended: client silent for 1 s after frame 2",
    ),
    Case(
        "less than a second", [ASKED, FULL, LATER], (0.0, 0.5, 1.499), quiet("recording", "server", 2, 0),
        "incomplete after 2", "incomplete after 2; ended: with the recording after frame 2",
    ),
    Case(
        "a request again", [ASKED, ASKED, LATER], (0.0, 5.0, 15.5), quiet("silent", "server", 2, 10),
        "incomplete after 2",
        "incomplete after 2; ended: server silent for 10 s after frame 2; took 5.000 s, the server silent for 5.000 s"
        " before frame 2, sent again: 1 of the client, 0 of the server",
    ),
    Case(
        "a stranger's block and the ERROR 5 to it",
        [ASKED, FULL, acked(1), LAST, STRAY, Datagram(C, 40_000, THIRD, 41_000, error(5, "no")[0]), LATER],
        (0.0, 0.1, 0.2, 0.3, 0.4, 0.5, 12.3), quiet("silent", "client", 4, 12), "incomplete after 6",
        "incomplete after 6; ended: client silent for 12 s after frame 4",
    ),
    Case(
        "a refusal in the end", [ASKED, FULL, acked(3)], (), quiet("last", "client", 3, 0),
        refusal(3, Rule.ACK_AHEAD), f"{refusal(3, Rule.ACK_AHEAD)}, {IF_NONE}",
    ),
    Case(
        "a refusal, and no ERROR", [ASKED, FULL, acked(3), LATER], (0.0, 0.1, 0.2, 3.2), quiet("last", "client", 3, 3),
        refusal(3, Rule.ACK_AHEAD),
        f"{refusal(3, Rule.ACK_AHEAD)}, {IF_NONE}; ended: nothing for 3 s after frame 3 of the client",
    ),
)


def line_of(row: dict[str, object]) -> tuple[object, ...]:
    ended = row["ended"]
    assert isinstance(ended, dict) and tuple(ended) == FIELDS, ended
    return tuple(ended.values())


class Ended(Checks):
    """How transfers ended."""

    needs = (TRANSFERS,)
    program = TRANSFERS.path

    def test_checked(self) -> None:
        for it in CASES:
            given = file_of(it.passed, it.times)
            row = json.loads(said(self.program, ["check", "--json", "-"], given)[0].splitlines()[0])
            self.check(f"{it.name}, in JSON", (row["verdict"], line_of(row)) == (it.verdict, it.ended), row)
            line = said(self.program, ["check", "-"], given)[0].splitlines()[1]
            self.check(f"{it.name}, in words", line.endswith(it.words or it.verdict), line)

    def test_at_ends(self) -> None:
        """At each end its own verdict, and the same end of the transfer."""
        given = file_of([ASKED, MISSING, acked(1)])
        for end in ("client", "server", "between"):
            row = json.loads(said(self.program, ["check", "--json", "--end", end, "-"], given)[0])
            wanted = stopped("server", 1, "File not found", 2, True)
            self.check(f"an ERROR that is acknowledged, at {end}", line_of(row) == wanted, row)
        given = file_of([ASKED, FULL, Datagram(*OUT, error(3, "full")[0]), acked(1)])
        for end in ("client", "server"):
            row = json.loads(said(self.program, ["check", "--json", "--end", end, "-"], given)[0])
            holds = row["verdict"].startswith("refused datagram 4 ") == (end == "client")
            self.check(f"an end's own ERROR, at {end}", holds and line_of(row) == stopped("client", 3, "full", 3), row)

    def test_told_early(self) -> None:
        """A row that is told while the recording goes on counts the seconds up to then."""
        rest = read("b", 50_000, 42_000, (THIRD, S))
        given = file_of([ASKED, *rest], [0.0, 400.0, 401.5, 401.6])
        rows = [json.loads(line) for line in said(self.program, ["check", "--json", "-"], given)[0].splitlines()]
        self.check("silent for as long as it was watched", line_of(rows[0]) == quiet("silent", "server", 1, 401), rows)

    def test_listed(self) -> None:
        """Of a list no verdict is known."""
        rows = [json.loads(line) for line in said(self.program, ["list", "--json", str(SESSION)], b"")[0].splitlines()]
        wanted = [quiet("last", "client", 7, 0), quiet("last", "client", 14, 0)]
        wanted += [stopped("server", 1, "File not found", 16), quiet("last", "client", 25, 0)]
        wanted.append(quiet("last", "server", 35, 0))
        self.check("the list of a session in JSON", [line_of(row) for row in rows] == wanted, rows)
        output = said(self.program, [str(SESSION)], b"")[0].splitlines()
        holds = output[3].endswith('  15-17; ended: server ERROR 1 "File not found" frame 16')
        self.check("the list of a session in words", holds and "ended" not in "".join(output[:3] + output[4:]), output)
