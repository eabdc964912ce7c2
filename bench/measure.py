"""Prints how fast a command is on the bytes of a file, by processor time, the best of three runs, and its time in those
of `wc -l` and of `cat`, which are run on the same bytes in turn with it.

    measure.py NAME FILE COMMAND [WORD ..]
"""
from __future__ import annotations

import os
import subprocess
import sys
import tempfile
import time
from collections.abc import Sequence
from typing import IO, NamedTuple

LINES, COPY = ["wc", "-l"], ["cat"]
# What writes a text or a file is to write it nowhere; any other's answer is printed.
WRITES_TEXT = ("cat", "copy", "extract", "netascii-decode", "netascii-encode", "normal", "show")


class Run(NamedTuple):
    """The processor time of a run, its most resident memory in bytes, and what it printed."""

    seconds: float
    memory: int
    answer: str


def figures(number: float) -> str:
    """Three of them, or all before the point."""
    return f"{number:.0f}" if number >= 100 else f"{number:.3g}"


def most_resident(process: int) -> int:
    """The most bytes that a running process had resident since it was started as this program, or 0."""
    # The resource usage that the system reports at the end also counts what Python had before.
    with open(f"/proc/{process}/status", encoding="ascii", errors="replace") as status:
        for line in status:
            if line.startswith("VmHWM:"):
                return int(line.split()[1]) * 1024
    return 0


def run(path: str, command: Sequence[str], pause: float = 0.005, most_status: int = 0) -> Run:
    """A run on the bytes of a file, whose memory is looked at after each pause, and which ends with that status at most."""
    with open(path, "rb") as given, tempfile.TemporaryFile() as taken:
        out: int | IO[bytes] = subprocess.DEVNULL if command[-1] in WRITES_TEXT else taken
        child = subprocess.Popen(command, stdin=given, stdout=out)
        most = 0
        while True:
            most = max(most, most_resident(child.pid))
            ended, status, usage = os.wait4(child.pid, os.WNOHANG)
            if ended:
                break
            time.sleep(pause)
        child.returncode = os.waitstatus_to_exitcode(status)
        if not 0 <= child.returncode <= most_status:
            sys.exit(f"{' '.join(command)}: ended with status {child.returncode}")
        taken.seek(0)
        return Run(usage.ru_utime + usage.ru_stime, most, taken.read().decode().strip())


def best_of(turns: int, path: str, *commands: Sequence[str], most_status: int = 0) -> list[Run]:
    """For each command its best time, and the memory and the answer of its runs; the commands run in turn."""
    runs = [[run(path, command, most_status=most_status) for command in commands] for _ in range(turns)]
    # The system may count no time at all for a short run.
    return [
        Run(max(1e-6, min(it.seconds for it in of_one)), max(it.memory for it in of_one), of_one[0].answer)
        for of_one in zip(*runs)
    ]


def main(name: str, path: str, command: Sequence[str]) -> None:
    size = os.path.getsize(path)
    (seconds, memory, answer), lines, copy = best_of(3, path, command, LINES, COPY)
    rows = answer.splitlines()
    told = answer if len(rows) < 2 else f"{len(rows)} lines, the last {rows[-1]}"
    # Of a run that is over at once the memory is not seen.
    held = f"{memory / 1e6:.1f} MB of memory " if seconds > 0.05 else ""
    print(
        f"{name}: {figures(seconds)} s, {figures(size / seconds / 1e6)} MB/s,"
        f" {figures(seconds / size * 1e9)} ns a byte,"
        f" {figures(seconds / lines.seconds)} times wc -l, {figures(seconds / copy.seconds)} times cat,"
        f" {held}for {figures(size / 1e6)} MB" + (f": {told}" if told else ""),
        flush=True,
    )


if __name__ == "__main__":
    main(sys.argv[1], sys.argv[2], sys.argv[3:])
