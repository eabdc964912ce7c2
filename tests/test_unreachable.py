"""What ICMP tells of datagrams that did not arrive: how a transfer ended, in JSON and in words. The recording of a
client that asks where no server is was made by tcpdump; other messages are set by hand.
"""
from __future__ import annotations

import json
import struct
import subprocess
from typing import Any

import recorded
from captures import ack, data
from checks import Checks
from judged import said
from made import C, C_6, S, S_6, THIRD, file_of_packets, packets_of, read
from programs import AUDIT, TRANSFERS
from recorded import Datagram
from repository import TOP

NO_SERVER = TOP / "tests" / "data" / "labs" / "no-server.pcap"
ICMP, ICMP_6 = 1, 58
UNREACHABLE, UNREACHABLE_6 = 3, 1
ASKED = read("a", 40_000, 41_000)[0]
BACK = (S, 41_000, C, 40_000)
FULL = Datagram(*BACK, data(1, b"." * 512)[0])


def message(
    it: Datagram, code: int, by: str | None = None, kind: int | None = None, cut: int | None = None, id: int = 9
) -> bytes:
    """An ICMP message about a datagram, to who sent it, from who was to get it or another host (RFC 792; RFC 4443)."""
    is_six, quoted = ":" in it.source, packets_of([it])[0]
    kind = (UNREACHABLE_6 if is_six else UNREACHABLE) if kind is None else kind
    content = struct.pack("!BBHI", kind, code, 0, 0) + quoted[:cut]
    way = Datagram(by or it.target, 1, it.source, 1, b"")
    return recorded.ipv6(way, content, ICMP_6) if is_six else recorded.ipv4(way, content, ICMP, id=id)


def ended(message: str, role: str, code: int, frame: int, seconds: int = 0) -> dict[str, object]:
    return {
        "how": "unreachable", "role": role, "code": code, "message": message, "frame": frame, "seconds": seconds,
        "before_refusal": False,
    }


class Unreachable(Checks):
    """How transfers ended whose datagrams did not arrive."""

    needs = (AUDIT, TRANSFERS)
    program = TRANSFERS.path

    def rows(self, given: bytes, *words: str) -> list[dict[str, Any]]:
        return [json.loads(line) for line in said(self.program, [*words, "--json", "-"], given)[0].splitlines()]

    def test_no_server(self) -> None:
        """A client asks three times where no server is, five seconds after one another."""
        given, port = NO_SERVER.read_bytes(), "ICMP port unreachable from 10.88.0.2"
        for words in (("check",), ("check", "--end", "client"), ("list",)):
            rows = self.rows(given, *words)
            self.check(f"no server, {words}", [row["ended"] for row in rows] == [ended(port, "server", 3, 8)], rows)
        wanted = (
            f"incomplete after 3; ended: {port} frame 8; took 10.000 s, the server silent for 5.000 s before frame 7,"
            " sent again: 2 of the client, 0 of the server"
        )
        line = said(self.program, ["check", "-"], given)[0].splitlines()[1]
        self.check("no server, in words", line.endswith(wanted), line)
        line = said(self.program, ["list", "-"], given)[0].splitlines()[1]
        self.check("no server, listed in words", f"3-7; ended: {port} frame 8; took" in line, line)

    def test_report(self) -> None:
        """The page of a report says it too."""
        words = ["--program", AUDIT.path, "--transfers", TRANSFERS.path, str(NO_SERVER)]
        done = subprocess.run([str(TOP / "tools" / "tftp-report"), *words], capture_output=True, text=True, timeout=60)
        told = "ICMP port unreachable from 10.88.0.2, frame 8."
        self.check("no server, in the report", told in done.stdout, (done.stdout[-2000:], done.stderr))

    def test_messages(self) -> None:
        """Who tells it, of which datagram, and why."""
        six = Datagram(C_6, 40_000, S_6, 69, ASKED.payload)
        block = packets_of([ASKED, FULL])
        for name, packets, wanted in (
            ("a host", [*packets_of([ASKED]), message(ASKED, 1, THIRD)],
             ended(f"ICMP host unreachable from {THIRD}", "server", 1, 2)),
            ("a network", [*packets_of([ASKED]), message(ASKED, 0, THIRD)],
             ended(f"ICMP network unreachable from {THIRD}", "server", 0, 2)),
            ("a firewall", [*packets_of([ASKED]), message(ASKED, 13, THIRD)],
             ended(f"ICMP prohibited from {THIRD}", "server", 13, 2)),
            ("another code", [*packets_of([ASKED]), message(ASKED, 4, THIRD)],
             ended(f"ICMP unreachable, code 4, from {THIRD}", "server", 4, 2)),
            ("the ports alone", [*packets_of([ASKED]), message(ASKED, 3, cut=24)],
             ended(f"ICMP port unreachable from {S}", "server", 3, 2)),
            ("a client that has gone", [*block, message(FULL, 3)],
             ended(f"ICMP port unreachable from {C}", "client", 3, 3)),
            ("IPv6", [*packets_of([six]), message(six, 4)], ended(f"ICMP port unreachable from {S_6}", "server", 4, 2)),
        ):
            rows = self.rows(file_of_packets(packets), "check")
            self.check(f"{name} is not reached", [row["ended"] for row in rows] == [wanted], rows)

    def test_others(self) -> None:
        """Of what is no such message, or of other datagrams, nothing is told."""
        stray = Datagram(C, 40_000, THIRD, 41_000, b"\0\5\0\5no\0")
        other = Datagram(C, 40_001, S, 69, ASKED.payload)
        for name, it in (
            ("an answer to an echo", message(ASKED, 0, kind=0)), ("time exceeded", message(ASKED, 0, THIRD, kind=11)),
            ("one port alone", message(ASKED, 3, cut=23)), ("what went to another", message(stray, 3)),
            ("another client", message(other, 3)),
        ):
            rows = self.rows(file_of_packets([*packets_of([ASKED]), it]), "check")
            self.check(f"{name} tells nothing", [row["ended"]["how"] for row in rows] == ["recording"], rows)

    def test_goes_on(self) -> None:
        """A transfer that goes on, is whole, or was ended by an ERROR is told as without the message."""
        whole = read("a", 40_000, 41_000)
        told = message(ASKED, 3)
        denied = Datagram(*BACK, b"\0\5\0\1no\0")
        cases: tuple[tuple[str, list[Datagram], list[Datagram], str], ...] = (
            ("goes on", [ASKED], [FULL, Datagram(C, 40_000, S, 41_000, ack(1)[0])], "recording"),
            ("is whole", whole, [], "whole"), ("was ended", [ASKED, denied], [], "error"),
        )
        for name, before, after, how in cases:
            packets = [*packets_of(before), told, *packets_of(after)]
            rows = self.rows(file_of_packets(packets), "check")
            self.check(f"a transfer that {name}", [row["ended"]["how"] for row in rows] == [how], rows)
