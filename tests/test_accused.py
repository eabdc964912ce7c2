"""Recordings of which it is known whom a refusal may accuse: in most of them nobody.

Each recording of tests/data/ was once judged wrongly, or would be by a careless reader. CASES says of each what passed,
and what must be said of its transfers. A case that is open is one that is not judged so yet: it is skipped, but it
fails once it is judged so, and its mark is then to be taken away.
"""
from __future__ import annotations

import pathlib
import re
import subprocess
from dataclasses import dataclass

from checks import Checks
from judged import CAN_TAKE, Row, checked, said
from programs import MATCH, TRANSFERS
from refusals import Rule

DATA = pathlib.Path(__file__).resolve().parent / "data"
# Where recordings are judged: where no place is named, and at each place that can be.
ENDS = ("", "client", "server", "between")
# Of each transfer, whom it accuses and what is said, as regular expressions: nobody is accused.
NOBODY = r"- .*"
DOUBTFUL = r"- doubtful refused .*: .*"


@dataclass(frozen=True)
class Case:
    """What passed in a recording, what must be said of its transfers in their order, and what is told of the whole."""

    name: str
    passed: str
    rows: tuple[str, ...]
    ends: tuple[str, ...] = ENDS
    told: str = ".*"
    is_open: bool = False


LOST, CUT = "frame 4 is not there whole", "1 datagram not there whole.*"
AHEAD = f"rule {Rule.ACK_AHEAD.number} {Rule.ACK_AHEAD.printed}"
BACK = f"rule {Rule.GONE_BACK.number} {Rule.GONE_BACK.printed}"
ELSEWHERE = f"rule {Rule.WRONG_PORT.number} {Rule.WRONG_PORT.printed}"
MALFORMED = f"rule {Rule.MALFORMED.number} {Rule.MALFORMED.printed}"
LENGTH = f"rule {Rule.BLOCK_LENGTH.number} {Rule.BLOCK_LENGTH.printed}"
OVERRUN = f"rule {Rule.WINDOW_OVERRUN.number} {Rule.WINDOW_OVERRUN.printed}"
CHANGED = f"rule {Rule.BLOCK_CHANGED.number} {Rule.BLOCK_CHANGED.printed}"
CHANGED_SUM = "frame 2 has a wrong checksum, so that its host may have discarded it"
DISCARDED = r"with a wrong checksum, that a host discarded \(frame 4\)"
FOR_ITS_SUM = "frame 4 has a wrong checksum, so that its host may have discarded it"
JOINED = "frame {} may be several datagrams that were recorded as one"
TURNED_AWAY = "its client had asked before, and sent an ERROR alone to who sent it something first"
UNREQUESTED = f"rule {Rule.OPTION_NOT_REQUESTED.number} {Rule.OPTION_NOT_REQUESTED.printed}"
SKIPPED = f"refused datagram 4 rule {Rule.BLOCK_SKIPPED.number} {Rule.BLOCK_SKIPPED.printed}"
UNPLACED = f"- doubtful {SKIPPED}: it may have been recorded between its two ends: name the place with --end"
WRITTEN = "- accepted put octet blocks 3 bytes 1025"
LATER_AHEAD = f"server 192.0.2.1:41000 refused datagram [0-9]+ {AHEAD}"
DROPPED = f"- doubtful refused datagram {{}} {AHEAD}: .*the recorder lost {{}}"
CASES = (
    Case(
        "a-lost-fragment-then-silence", "one of two fragments of a block is missing, and something passes 301 s later",
        (f"- doubtful refused datagram 4 {AHEAD}: {LOST}", "- incomplete after 1"),
        told=".*1 datagram not there whole.*(frame 4).*",
    ),
    Case(
        "cut-fragments-of-other-hosts", "a client acknowledges too much, and fragments of two other hosts are cut",
        (f"client 192.0.2.7:40000 refused datagram 3 {AHEAD}",),
        told=r".*: 2 datagrams not there whole[^\n]*\(frames 1, 2\)\n",
    ),
    Case(
        "a-cut-frame-long-after-the-first", "a transfer stops, and 600 s later a frame of its client's host is cut",
        ("- incomplete after 3", "- incomplete after 11"), told=f".*{CUT}",
    ),
    Case(
        "a-cut-frame-long-after-the-second", "the same, but that the other client asked first",
        ("- incomplete after 11", "- incomplete after 3"), told=f".*{CUT}",
    ),
    Case(
        "an-answer-before-its-request", "the answer stands before its request, and their times tell that",
        ("- doubtful refused .*: .*frame 1 is out of order.*",),
    ),
    Case(
        "a-strange-frame-ahead", "one frame of others is 301 s ahead of all that passes",
        ("- (accepted get .*|doubtful incomplete after 4: .*out of order.*)",),
    ),
    Case("one-direction-only", "a recorder was asked for one direction", ("- doubtful refused .*: .*one direction.*",)),
    Case("a-stranger-before-the-answer", "a stranger's datagram comes before the answer", (NOBODY,)),
    Case(
        "a-second-client-at-the-first-ones-port", "a second client sends ACK 1 to the port that serves the first",
        (NOBODY, DOUBTFUL), ("server",),
    ),
    Case(
        "a-late-ack-0-to-a-read", "ACK 0 comes late, to a write that the client gave up for a read", (NOBODY, NOBODY),
    ),
    Case(
        "a-late-oack-to-a-plain-request", "an OACK comes late, to a request that the client gave up for a plain one",
        (NOBODY, NOBODY, NOBODY),
    ),
    Case(
        "a-late-answer-of-another-server", "the server that was asked first answers late", (NOBODY, NOBODY),
    ),
    Case(
        "a-servers-port-for-another-client",
        "a server's port serves another client, and answers a late ACK of the first by ERROR 5 (RFC 1350, section 4)",
        (NOBODY, NOBODY),
    ),
    Case(
        "a-request-spelled-otherwise", "a client repeats its request with the mode in capitals, which is the same",
        (NOBODY, "(- .*)?"),
    ),
    Case(
        "a-stray-that-spells-a-request", "a stray to the client spells a request, and the client answers ERROR 5",
        (NOBODY, "(- .*)?"),
    ),
    Case(
        "another-clients-frame-ahead", "a frame of another client is 1,000 s ahead", (NOBODY, NOBODY, "(- .*)?"),
    ),
    Case(
        "a-scanner-at-the-service-port", "junk goes to port 69, then a request from the same port; each is refused",
        ("- (doubtful refused .*|aborted .*)", ".*"),
    ),
    Case(
        "a-late-block-of-the-first-file",
        "a server of one port sends a second file to the same client's port, and the last block of the first comes"
        " late",
        (NOBODY, f"- doubtful refused datagram 6 {LENGTH}: .*an earlier transfer between the same two ports"),
        ("", "client", "between"),
    ),
    Case(
        "a-block-beyond-both-files", "the same, but the server skips to a block that neither file has reached",
        (NOBODY, f"server 192.0.2.1:41000 refused datagram 4 {OVERRUN}"),
    ),
    Case(
        "an-error-behind-an-error-5", "a client sends ERROR 0 behind ERROR 5: the network may have turned them round",
        (DOUBTFUL,),
    ),
    Case(
        "an-ack-to-the-service-port", "an ACK goes to port 69 in the middle of a transfer",
        (f"(client 192.0.2.7:2070|- doubtful) refused datagram 5 {ELSEWHERE}.*",),
    ),
    Case(
        "two-packets-dropped", "the recorder counts a packet that its interface dropped and one that its system did",
        (DROPPED.format(4, "2 packets"),),
    ),
    Case(
        "twenty-packets-dropped", "the recorder counts twenty that it dropped", (DROPPED.format(39, "20 packets"),),
    ),
    Case(
        "a-wrong-checksum-then-the-right-one", "a host discards a block with a wrong checksum, and has it again",
        ("- accepted .*",), told=f".*: 1 datagram {DISCARDED}\n",
    ),
    Case(
        "sums-left-but-for-a-fragmented-block", "a server leaves sums to its network card, but of what is in fragments",
        ("- accepted get octet blocks 3 bytes 4099",), told="",
    ),
    Case(
        "sums-of-anything-at-the-sender", "where its network card makes checksums a server has none that is right",
        ("- accepted get octet blocks 3 bytes 4099",), told="",
    ),
    Case(
        "a-changed-block-and-no-right-checksum",
        "the network changes a block of a server that makes no checksums, and its host discards it",
        (f"- doubtful refused datagram 3 {CHANGED}: {CHANGED_SUM}",), told="",
    ),
    Case(
        "a-changed-block-and-a-right-checksum-later", "the same, and 400 s later the server's host makes one",
        (f"- doubtful refused datagram 3 {CHANGED}: {CHANGED_SUM}", "- accepted get octet blocks 1 bytes 3"), told="",
    ),
    Case(
        "sums-left-and-an-ack-ahead",
        "a server's host makes one checksum and leaves one to its network card, and its client acknowledges too much",
        (f"client 192.0.2.7:40000 refused datagram 5 {AHEAD}",), told="",
    ),
    Case(
        "a-refusal-after-a-discarded-block", "a host discards a block, and its client acknowledges one too many",
        (f"- doubtful refused datagram 5 {AHEAD}: .*{FOR_ITS_SUM}",), told=f".*: 1 datagram {DISCARDED}\n",
    ),
    Case(
        "a-refusal-after-a-discarded-request", "a host discards a request, which is sent again, and the same",
        ("- accepted .*", f"- doubtful refused datagram 3 {AHEAD}: .*{FOR_ITS_SUM}"),
        told=f".*: 1 datagram {DISCARDED}\n",
    ),
    Case(
        "repeated-data-at-the-server", "toybox acknowledges a block of a write that came twice by the next block's ACK",
        (f"server 10.88.0.2:69 refused datagram 10 {AHEAD}",), told="",
    ),
    Case(
        "repeated-data-at-the-client", "the same, recorded at the client",
        (f"server 10.88.0.2:69 refused datagram 9 {AHEAD}",),
    ),
    Case(
        "a-server-that-goes-back-at-once", "a server sends an earlier block again within a millisecond",
        (f"server .* refused datagram [0-9]+ {BACK}",), ("server",), told="",
    ),
    Case(
        "a-block-lost-before-a-router",
        "a block of a window is lost before a router that writes one address in place of both, and comes again",
        (UNPLACED, WRITTEN, WRITTEN), ("",), told="",
    ),
    Case(
        "a-block-lost-before-a-router", "the same, where that place is named", (WRITTEN,), ("between",), told="",
    ),
    Case(
        "a-block-skipped-inside-a-host", "the same between two ends at 127.0.0.1, which was recorded at their host",
        (f"client 127.0.0.1:40000 {SKIPPED}", WRITTEN), ("",), told="",
    ),
    Case(
        "a-block-skipped-inside-a-host-of-ipv6", "the same at ::1", (f"client ::1:40000 {SKIPPED}", WRITTEN), ("",),
        told="",
    ),
    Case(
        "a-block-lost-before-a-router-and-an-ack-ahead",
        "the same before the router, but that the server acknowledges too much",
        (UNPLACED, LATER_AHEAD, LATER_AHEAD), ("",), told="",
    ),
    Case(
        "an-ack-ahead-at-one-address", "a client acknowledges too much, and both ends have one address",
        (f"client 192.0.2.1:40000 refused datagram 3 {AHEAD}",), told="",
    ),
    Case(
        "an-error-8-to-a-late-second-answer",
        "a request is answered twice, the second time after the next one, and the client refuses that by ERROR 8",
        (NOBODY, f"- doubtful refused datagram 2 {UNREQUESTED}: {TURNED_AWAY}"), ("", "between"),
    ),
    Case(
        "an-error-8-to-a-late-second-answer", "the same, where the place is named", (NOBODY, NOBODY),
        ("client", "server"),
    ),
    Case(
        "a-wrong-refusal-and-a-late-second-answer", "the same, and the first answer came with a wrong checksum",
        (NOBODY, f"- doubtful refused datagram 2 {UNREQUESTED}: .*{TURNED_AWAY}"), ("", "between"),
    ),
    Case(
        "a-burst-recorded-as-one", "the recorder's kernel joins the blocks of a window, which came one by one",
        (f"- doubtful refused datagram 4 {LENGTH}: {JOINED.format(4)}",), told="",
    ),
    Case(
        "a-block-twice-recorded-as-one", "it joins a block that the network repeats",
        (f"- doubtful refused datagram 2 {LENGTH}: {JOINED.format(2)}",), told="",
    ),
    Case(
        "an-ack-twice-recorded-as-one", "it joins an ACK that the network repeats",
        (f"- doubtful refused datagram 3 {MALFORMED} AckLength: {JOINED.format(3)}",), told="",
    ),
    Case(
        "a-request-twice-recorded-as-one", "it joins a request that the network repeats",
        (f"- doubtful refused datagram 1 {MALFORMED} OddOptions: .*{JOINED.format(1)}.*",), told="",
    ),
    Case(
        "a-clock-that-jumps-between-two-transfers",
        "a block of a first transfer comes late in the second, and between them the clock went forward by 4000 s",
        (NOBODY, NOBODY), is_open=True,
    ),
    Case(
        "a-changed-block-without-a-checksum",
        "a server makes no checksums, a block comes changed, and it sends that again",
        (NOBODY,), is_open=True,
    ),
    Case(
        "a-host-that-serves-and-asks", "the server's host is the client of another server, whose block comes twice",
        (NOBODY, NOBODY), ends=("server",), is_open=True,
    ),
    Case(
        "a-block-repeated-at-the-loopback", "a queue before the recorder repeats a block within one host",
        (NOBODY, NOBODY), ends=("",), is_open=True,
    ),
    Case(
        "a-queue-behind-a-bridge", "at `any` a block is recorded before a queue and 120 ms later behind it",
        (NOBODY,), ends=("server",), is_open=True,
    ),
    Case(
        "an-ack-at-a-link-that-is-not-read", "an acknowledgement is recorded at an interface whose link is not read",
        (NOBODY,), is_open=True,
    ),
    Case(
        "two-directions-turned-round", "a block is recorded just before the acknowledgement that it answers",
        (NOBODY,), is_open=True,
    ),
    Case(
        "a-gap-in-the-numbers-of-erspan", "the numbers of a tunnel's packets tell that one is missing",
        (NOBODY,), is_open=True,
    ),
)


def told(row: Row) -> str:
    """Whom a row accuses, and what it says."""
    why = f": {'; '.join(row.doubts)}" if row.doubts else ""
    return f"{row.accused or '-'} {'doubtful ' if row.doubts else ''}{row.verdict}{why}"


def wrong(transfers: str, case: Case) -> list[object]:
    """What is not said as it must be, at each place."""
    found: list[object] = []
    [path] = DATA.glob(f"{case.name}.*")
    for end in case.ends:
        rows, beside, _ = checked(transfers, path.read_bytes(), *(("--end", end) if end else ()))
        got = [told(row) for row in rows]
        pairs = zip(got + [""] * len(case.rows), case.rows)
        holds = len(got) <= len(case.rows) and all(re.fullmatch(wanted, it) for it, wanted in pairs)
        if not holds or not re.fullmatch(case.told, beside, re.DOTALL):
            found.append((end or "no end", got, beside))
    return found


def repeated(match: str) -> str:
    """What is said last of a read of which the network repeated a datagram on its way to the client."""
    pair = [str(DATA / f"repeated-by-the-network-{end}.pcap") for end in ("client", "server")]
    done = subprocess.run([match, *pair], capture_output=True, text=True, timeout=CAN_TAKE)
    return (done.stdout.splitlines() or [""])[-1]


def texts(transfers: str, match: str) -> list[object]:
    """The frames in the texts of a transfer of which a datagram was left out as discarded, at both ends, and what is
    said last of both ends of that recording."""
    path = DATA / "a-wrong-checksum-then-the-right-one.pcap"
    found: list[object] = []
    for words in (["text", "1", "client"], ["text", "1", "server"], ["texts", "client"]):
        output, _, status = said(transfers, [*words, str(path)], b"")
        found.append(([int(line.split()[2]) for line in output.splitlines() if line.startswith("# frame ")], status))
    done = subprocess.run([match, str(path), str(path)], capture_output=True, text=True, timeout=CAN_TAKE)
    return [*found, (done.stdout.splitlines() or [""])[-1]]


class Accused(Checks):
    """Whom refusals accuse."""

    needs = (TRANSFERS, MATCH)

    def test_cases(self) -> None:
        for case in CASES:
            found, name = wrong(TRANSFERS.path, case), f"{case.name} ({case.passed})"
            if case.is_open and found:
                self.leave(name, "it is not judged so yet")
            else:
                self.check(name, not found and not case.is_open, found or "it holds, and so is open no more")

    def test_texts(self) -> None:
        last = repeated(MATCH.path)
        self.check("repeated-by-the-network", last == "matched lost 0 repeated 1", last)
        got, kept = texts(TRANSFERS.path, MATCH.path), [1, 2, 3, 5, 6, 7, 8]
        is_kept = got == [(kept, 0)] * 3 + ["matched lost 0 repeated 0"]
        self.check("texts without what was discarded", is_kept, got)

    def test_names(self) -> None:
        names = {case.name for case in CASES} | {f"repeated-by-the-network-{end}" for end in ("client", "server")}
        left = {path.stem for path in DATA.glob("*.pcap*")} ^ names
        self.check("each recording has its case", not left, left)
