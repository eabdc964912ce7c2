"""Runs of the program, each of a process of its own: what it prints, what it writes as errors, and its status."""
from __future__ import annotations

import array
import fcntl
import os
import select
import signal
import termios
import time
from collections.abc import Sequence
from typing import Optional

# What a command prints, and its status, which is None where it did not end in time; and with what it writes as errors.
Told = tuple[bytes, Optional[int]]
Got = tuple[bytes, bytes, Optional[int]]
# The least time that a run is given, and that of each further MB of its text.
LEAST_SECONDS, SECONDS_A_MEGABYTE = 2, 1
MEGABYTE = 1_000_000


# How long to wait in seconds before another look at a pipe, and the most that is written to one at once.
PAUSE, MOST_PIECE = 0.0002, 4_096


def unread(pipe: int) -> int:
    """How many bytes of a pipe nobody has read yet."""
    count = array.array("i", [0])
    fcntl.ioctl(pipe, termios.FIONREAD, count)
    return count[0]


def emptied(file: int) -> None:
    os.ftruncate(file, 0)
    os.lseek(file, 0, os.SEEK_SET)


def written(file: int) -> bytes:
    return os.pread(file, os.fstat(file).st_size, 0)


class Program:
    """A program and the files that stand for its standard input, output and errors."""

    def __init__(self, path: str, slower: float = 1, shim: str | None = None) -> None:
        self.path, self.slower, self.shim, self.runs = path, slower, shim, 0
        self.given, self.output, self.errors = (os.memfd_create(name) for name in ("given", "output", "errors"))

    def started(self, command: str, given: int, **shim: int) -> int:
        """The process of a command with its words, which reads this file; what is named is for the library that makes
        its calls fail."""
        emptied(self.output)
        emptied(self.errors)
        self.runs += 1
        files = [(os.POSIX_SPAWN_DUP2, file, number) for number, file in enumerate((given, self.output, self.errors))]
        words = [self.path, *command.split()]
        environment = {**os.environ, **{name: str(value) for name, value in shim.items()}}
        if shim:
            environment["LD_PRELOAD"] = self.shim or ""
        return os.posix_spawn(self.path, words, environment, file_actions=files, setsigdef=[signal.SIGPIPE])

    def ended(self, process: int, size: int) -> tuple[bytes, int | None]:
        """What it wrote as errors and its status; it is ended if it takes too long. The status is then None."""
        seconds = max(LEAST_SECONDS, SECONDS_A_MEGABYTE * size / MEGABYTE) * self.slower
        handle = os.pidfd_open(process)
        is_over = bool(select.select([handle], [], [], seconds)[0])
        os.close(handle)
        if not is_over:
            os.kill(process, signal.SIGKILL)
        status = os.waitstatus_to_exitcode(os.waitpid(process, 0)[1])
        return written(self.errors), status if is_over else None

    def run(self, command: str, text: bytes, **shim: int) -> Got:
        """What the command prints of a text, what it writes as errors, and its status."""
        emptied(self.given)
        os.pwrite(self.given, text, 0)
        told, status = self.ended(self.started(command, self.given, **shim), len(text))
        return written(self.output), told, status

    def run_in_pieces(self, command: str, pieces: Sequence[bytes]) -> Got:
        """The same of a text that comes through a pipe, piece by piece: each is read before the next is written."""
        theirs, ours = os.pipe2(os.O_CLOEXEC)
        process = self.started(command, theirs)
        handle = os.pidfd_open(process)
        late = time.monotonic() + LEAST_SECONDS * self.slower
        for piece in pieces:
            os.write(ours, piece)
            while unread(theirs) and time.monotonic() < late and not select.select([handle], [], [], PAUSE)[0]:
                pass
            if unread(theirs):
                break
        for file in (ours, theirs, handle):
            os.close(file)
        told, status = self.ended(process, sum(map(len, pieces)))
        return written(self.output), told, status

    def close(self) -> None:
        for file in (self.given, self.output, self.errors):
            os.close(file)
