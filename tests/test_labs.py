"""Recordings from labs: transfers behind PPPoE, MPLS and ERSPAN, whose bytes tshark reads too, one of no frames, and a
server that gives up. What must be told is written down here."""
from __future__ import annotations

import json
import shutil
import subprocess
from typing import Any

from checks import Checks
from programs import TRANSFERS
from repository import TOP

DATA, EXAMPLES = TOP / "tests" / "data" / "labs", TOP / "examples"
# A read of boot.cfg in three blocks each.
WRAPPED = (DATA / "in-pppoe.pcap", DATA / "in-mpls.pcap", EXAMPLES / "in-erspan.pcap")
ACCEPTED = "accepted get octet blocks 3 bytes 1300"


class Labs(Checks):
    """What is told of them."""

    needs = (TRANSFERS,)
    program = TRANSFERS.path

    def told(self, *words: str) -> tuple[list[dict[str, Any]], str, int]:
        done = subprocess.run([self.program, *words], capture_output=True, text=True, timeout=60)
        return [json.loads(line) for line in done.stdout.splitlines()], done.stderr, done.returncode

    def test_wrapped(self) -> None:
        for recording in WRAPPED:
            name, path = recording.stem, str(recording)
            for words in ((), ("--end", "client"), ("--end", "server"), ("--end", "between")):
                rows, errors, status = self.told("check", "--json", *words, path)
                verdicts = [(row["verdict"], row["ended"]["how"]) for row in rows]
                self.check(f"{name}, {words}", (verdicts, errors, status) == ([(ACCEPTED, "whole")], "", 0), rows)
            rows, _, _ = self.told("list", "--json", path)
            listed = [(row["client"], row["kind"], row["file"], row["datagrams"]) for row in rows]
            self.check(f"{name}, listed", listed == [("192.0.2.7:2070", "get", '"boot.cfg"', 7)], rows)

    def test_tshark(self) -> None:
        """tshark finds the same datagrams in the innermost packet."""
        if not shutil.which("tshark"):
            self.leave("by tshark", "tshark is not installed")
            return
        for recording in WRAPPED:
            words = ["tshark", "-r", str(recording), "-Y", "tftp", "-T", "fields", "-e", "tftp.opcode"]
            done = subprocess.run(words, capture_output=True, text=True, timeout=60)
            self.check(f"{recording.stem}, by tshark", done.stdout.split() == ["1", "3", "4", "3", "4", "3", "4"], done)

    def test_no_frames(self) -> None:
        rows, errors, status = self.told("check", "--json", str(DATA / "no-frames.pcap"))
        self.check("no frames", (rows, status) == ([], 3) and "no request passed" in errors, (rows, errors, status))

    def test_began_late(self) -> None:
        """What looks like a transfer is named by its endpoints and frames, where its request was not recorded."""
        rows, errors, status = self.told("check", "--json", str(EXAMPLES / "loopback-began-late.pcap"))
        told = (
            "6 datagrams between 192.0.2.1:51973 and 192.0.2.1:34056 look like a transfer that began before the recording"
            " (frames 1 to 6)"
        )
        self.check("began late", (rows, status) == ([], 3) and told in errors, (rows, errors, status))

    def test_gives_up(self) -> None:
        """lwIP ends a transfer by ERROR 5 where an ACK is repeated, and goes on."""
        rows, _, status = self.told("check", "--json", "--end", "client", str(DATA / "a-server-that-gives-up.pcap"))
        ended = {
            "how": "error", "role": "server", "code": 5, "message": "Wrong block number", "frame": 14, "seconds": None,
            "before_refusal": True,
        }
        self.check("a server that gives up", [row["ended"] for row in rows] == [ended] and status == 1, rows)
