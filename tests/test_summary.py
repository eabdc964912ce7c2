"""The summary that tools/tftp-report counts: of rows that are written down here, and of recordings of which it is known
what is in them; and the statuses that tell it."""
from __future__ import annotations

import itertools
import pathlib
import subprocess
from typing import Optional

import made
from captures import ack, error
from checks import Checks
from programs import AUDIT, TRANSFERS
from recorded import Datagram
from refusals import Rule
from repository import TOP
from tftp_tools.recording import STATUSES, Accused, Row, worst
from tftp_tools.summary import Summary, status_of

SCRIPT, EXAMPLES = TOP / "tools" / "tftp-report", TOP / "examples"
SESSION = EXAMPLES / "loopback-session.pcap"
CLIENT, SERVER = Accused("client", "192.0.2.7", 40_000), Accused("server", "2001:db8::1", 41_000)
AHEAD = f"refused datagram 3 rule {Rule.ACK_AHEAD}"


def row(verdict: str, place: str = "between", doubts: tuple[str, ...] = (), accused: Optional[Accused] = None) -> Row:
    return Row(1, place, verdict, doubts, None, accused)


ACCEPTED, REFUSED = row("accepted get octet blocks 1 bytes 2"), row(AHEAD, accused=CLIENT)
INCOMPLETE, TOO_LONG = row("incomplete after 2"), row("too long when normal")
DOUBTED = row(AHEAD, doubts=("frame 12 is not there whole", "it is an ERROR 5"))
ROWS = (
    ACCEPTED, ACCEPTED, REFUSED, REFUSED, row(AHEAD, accused=SERVER), INCOMPLETE, TOO_LONG, DOUBTED,
    row("incomplete after 9", doubts=("frame 34 is not there whole",)), row("aborted by client code 3"),
    row("aborted by peer code 1", "client"), row("aborted by local code 1", "server"),
    row("aborted by peer code 4", "server"), row("aborted by server code 99"), row("fault memory"),
)
TOLD = f"""\
15 transfers in 4 recordings
accepted                    2
refused                     3
                            2  rule {Rule.ACK_AHEAD}, by the client at 192.0.2.7
                            1  rule {Rule.ACK_AHEAD}, by the server at 2001:db8::1
aborted                     5
                            2  by the server, code 1 (file not found)
                            1  by the client, code 3 (disk full or allocation exceeded)
                            1  by the client, code 4 (illegal TFTP operation)
                            1  by the server, code 99 (a code of no RFC)
incomplete                  1
too long when normal        1
doubtful                    2
                            2  frame N is not there whole
                            1  it is an ERROR 5
not judged                  1
                            1  fault memory
without a transfer          1  of the recordings
not read, or in part        2  of the recordings
"""
OF_SESSION = f"""\
5 transfers in 1 recording
accepted                    4
refused                     1
                            1  rule {Rule.ACK_AHEAD}, by the client at 192.0.2.1
aborted                     0
incomplete                  0
too long when normal        0
doubtful                    0
not judged                  0
"""


class Counts(Checks):
    """What needs no program."""

    def test_told(self) -> None:
        summary = Summary(files=4, none=1, unread=2)
        summary.add(ROWS[:7])
        summary.add(ROWS[7:])
        self.check("the lines", summary.told() == TOLD, summary.told())

    def test_statuses(self) -> None:
        """1 where one is not accepted; where it is strict, only where an end is accused, and else 4."""
        for name, rows, plain, strict in (
            ("nothing", (), 0, 0), ("accepted", (ACCEPTED,), 0, 0), ("refused", (ACCEPTED, REFUSED), 1, 1),
            ("doubtful", (ACCEPTED, DOUBTED), 1, 4), ("incomplete", (INCOMPLETE, ACCEPTED), 1, 4),
            ("too long", (TOO_LONG,), 1, 4), ("aborted", (row("aborted by client code 8"),), 1, 4),
            ("refused after incomplete", (INCOMPLETE, REFUSED, ACCEPTED), 1, 1),
        ):
            got = status_of(rows, False), status_of(rows, True)
            self.check(name, got == (plain, strict), got)

    def test_worst(self) -> None:
        """A fault counts most, then that an end is accused, that something is not accepted, that there is nothing."""
        order = (2, 1, 4, 3, 0)
        self.check("the order", STATUSES == order)
        for first, second in itertools.combinations(order, 2):
            got = worst([first, second]), worst([second, first, second])
            self.check(f"{first} before {second}", got == (first, first), got)


class OfRecordings(Checks):
    """The summary of recordings."""

    needs = (AUDIT, TRANSFERS)
    programs = "--program", AUDIT.path, "--transfers", TRANSFERS.path

    def run_it(self, *words: object, given: bytes = b"") -> tuple[str, list[str], int]:
        command = [str(SCRIPT), *self.programs, *map(str, words)]
        done = subprocess.run(command, input=given, capture_output=True, timeout=120)
        return done.stdout.decode(), done.stderr.decode().splitlines(), done.returncode

    def recording(self, name: str, passed: list[Datagram]) -> pathlib.Path:
        path = self.folder / name
        path.write_bytes(made.file_of(passed))
        return path

    def test_session(self) -> None:
        cases: tuple[tuple[list[str], bytes], ...] = (
            ([str(SESSION)], b""), (["-"], SESSION.read_bytes()), ([], SESSION.read_bytes()),
        )
        for words, given in cases:
            got = self.run_it("--summary", *words, given=given)
            self.check(f"{words}", got == (OF_SESSION, [], 1), got)

    def test_kinds(self) -> None:
        """Each kind by recordings that are made of it."""
        asked, back = made.read("a", 40_000, 41_000), (made.S, 41_000, made.C, 40_000)
        of_peer = self.recording("aborted.pcap", [asked[0], Datagram(*back, error(1, "no")[0])])
        odd = self.recording("refused.pcap", [*asked[:2], Datagram(made.C, 40_000, made.S, 41_000, ack(2)[0])])
        doubtful = self.recording("doubtful.pcap", made.asked_again())
        short = self.recording("incomplete.pcap", asked[:2])
        fine = self.recording("accepted.pcap", asked)
        cases = (
            (of_peer, "aborted                     1", "by the server, code 1 (file not found)", 1, 4),
            (odd, "refused                     1", f"rule {Rule.ACK_AHEAD}, by the client at {made.C}", 1, 1),
            (doubtful, "doubtful                    1", "its client had asked the same and sent nothing else", 1, 4),
            (short, "incomplete                  1", "", 1, 4), (fine, "accepted                    1", "", 0, 0),
        )
        for path, line, within, plain, strict in cases:
            place = ("--end", "client") if path != doubtful else ()
            output, told, status = self.run_it("--summary", *place, path)
            holds = line in output.splitlines() and within in output and (told, status) == ([], plain)
            self.check(path.name, holds, (output, told, status))
            _, _, status = self.run_it("--summary", "--strict-status", *place, path)
            self.check(f"{path.name}, strict", status == strict, status)
            written, _, status = self.run_it("--strict-status", "--format", "junit", *place, path)
            self.check(f"{path.name}, strict, of a report", status == strict and bool(written), status)
        output, _, status = self.run_it("--summary", "--end", "client", *(path for path, *_ in cases))
        self.check("all", output.startswith("6 transfers in 5 recordings\n") and status == 1, output)
        output, _, status = self.run_it("--summary", "--strict-status", "--end", "client", of_peer, fine, short)
        self.check("none is accused", output.startswith("3 transfers in 3 recordings\n") and status == 4, output)

    def test_faults(self) -> None:
        """What cannot be read stops no other, and has the status of a fault."""
        none = self.recording("none.pcap", [Datagram(made.C, 40_000, made.S, 53, b"query")])
        cut = self.folder / "cut.pcap"
        cut.write_bytes(SESSION.read_bytes()[:-2])
        text = EXAMPLES / "one-block.capture"
        for name, paths, status, line in (
            ("none", [none, SESSION], 1, "without a transfer          1  of the recordings"),
            ("none alone", [none], 3, "without a transfer          1  of the recordings"),
            ("cut", [cut], 2, "not read, or in part        1  of the recordings"),
            ("a text", [text, SESSION], 2, "not read, or in part        1  of the recordings"),
            ("missing", [SESSION, self.folder / "missing"], 2, "not read, or in part        1  of the recordings"),
        ):
            output, told, got = self.run_it("--summary", *paths)
            holds = line in output.splitlines() and got == status and len(told) > 0
            self.check(name, holds, (output, told, got))
            if name != "cut":
                is_counted = "refused                     1" in output
                self.check(f"{name}, the others", is_counted == (SESSION in paths), output)
        output, told, status = self.run_it(SESSION, none)
        wanted = f"tftp-report: '{none}' is a word too many; tftp-report --help says more"
        self.check("two and no summary", (output, told, status) == ("", [wanted], 2), told)
