"""Each growth of memory refused in turn while recordings are checked and listed: what was printed stays, nobody else is
accused, and what is told is after which frame memory was refused.

A transfer may have no verdict at a place for want of memory; then a row stands for each place. All other rows are those
that are printed where memory suffices, from the first on.
"""
from __future__ import annotations

import os
import re
import subprocess
from collections.abc import Iterable, Sequence
from dataclasses import dataclass

from checks import Checks
from fuzzing import slow_reader
from programs import TRANSFERS, refusing
from repository import TOP

RECORDINGS = ("recorded-options.pcap", "recorded-stray.pcap", "loopback-session.pcap")
COMMANDS = (["check"], ["check", "--end", "client"], ["list"])
AFTER, WANTING = re.compile(r"out of memory after frame (\d+)\n"), "fault memory"
# What a row accuses, and an end of a transfer as a row names it.
ACCUSED = re.compile(r" ((?:client|server) \S+:\d+) ")


@dataclass(frozen=True)
class Run:
    """What a run printed and told, its status, and whether a growth was refused."""

    printed: list[str]
    told: str
    status: int
    is_met: bool


def by_transfer(rows: Iterable[str]) -> dict[str, list[str]]:
    """The rows by the number of their transfer, which stands in the second column; the heads as well."""
    found: dict[str, list[str]] = {}
    for row in rows:
        found.setdefault(row.split()[1], []).append(row)
    return found


def accused_in(rows: Iterable[str]) -> set[str]:
    return {it for row in rows for it in ACCUSED.findall(row)}


def are_right(rows: list[str], whole: list[str], is_last: bool) -> bool:
    """Whether these may be the rows of a transfer: all of them, unless nothing is printed behind them."""
    if any(WANTING in row for row in rows):
        return accused_in(rows) <= accused_in(whole)
    return rows == (whole[: len(rows)] if is_last else whole)


class Wanting(Checks):
    """The runs of the program."""

    needs = (TRANSFERS,)

    def call(self, words: Sequence[str], turn: int) -> Run:
        met = self.folder / "met"
        met.unlink(missing_ok=True)
        environment = {"LD_PRELOAD": refusing(), "MET": str(met), "PATH": os.environ.get("PATH", "")}
        environment["REFUSE"] = str(turn)
        done = subprocess.run([TRANSFERS.path, *words], capture_output=True, env=environment, timeout=60, check=False)
        return Run(done.stdout.decode().splitlines(), done.stderr.decode(), done.returncode, met.exists())

    def test_recordings(self) -> None:
        for recording in RECORDINGS:
            for command in COMMANDS:
                self.refuse(recording, command)

    def refuse(self, recording: str, command: Sequence[str]) -> None:
        path = TOP / "examples" / recording
        words = [*command, str(path)]
        name, whole, last = f"{' '.join(command)} {recording}", self.call(words, 0), -1
        for turn in range(1, 100_000):
            got = self.call(words, turn)
            if not got.is_met:
                self.check(f"{name}, no growth refused", got == whole, got)
                break
            self.check_rows(f"{name}, growth {turn} refused", got.printed, whole.printed)
            if found := AFTER.search(got.told):
                frame = int(found[1])
                self.check(f"{name}, growth {turn} refused, the frame", last <= frame and got.status == 2, (last, got))
                last = frame
            is_whole = (got.printed, got.told, got.status) == (whole.printed, whole.told, whole.status)
            self.check(f"{name}, growth {turn} refused, is told", is_whole or got.status == 2, got)
        frames = len(slow_reader.frames_of(path.read_bytes())[0])
        self.check(f"{name}, frames", 0 <= last <= frames, (last, frames))

    def check_rows(self, name: str, printed: list[str], whole: list[str]) -> None:
        """The transfers of these rows come in order, each with its rows."""
        found, all_rows = by_transfer(printed), by_transfer(whole)
        in_order = list(found) == list(all_rows)[: len(found)]
        last = next(reversed(found), None)
        right = in_order and all(are_right(rows, all_rows[number], number == last) for number, rows in found.items())
        self.check(name, right, printed)
