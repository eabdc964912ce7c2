"""The built program with refuse.so before it, which refuses a growth of memory, fails a read or a write, or moves one
byte a call.
"""
from __future__ import annotations

import os
import subprocess
import tempfile
from collections.abc import Mapping, Sequence

from checks import Checks
from normal import Output
from programs import AUDIT, refusing

# What is printed and the status, whether no error was written, and whether the shim's call was met.
Got = tuple[Output, bool, bool]


class Shimmed(Checks):
    """The runs of the program."""

    needs = (AUDIT,)

    def call(self, words: Sequence[str | bytes], given: bytes, **shim: int) -> Got:
        """What the program writes and its status, whether it wrote no error, and whether the shim's call was met."""
        return self.call_as(AUDIT.path, words, given, shim)

    def call_as(self, name: str, words: Sequence[str | bytes], given: bytes, shim: Mapping[str, int]) -> Got:
        """The same of the program called by this name."""
        met = self.folder / "met"
        met.unlink(missing_ok=True)
        environment = {"LD_PRELOAD": refusing(), "MET": str(met), "PATH": os.environ.get("PATH", "")}
        environment.update({variable: str(value) for variable, value in shim.items()})
        # A file gives all that is asked for, where a pipe may give less.
        with tempfile.TemporaryFile() as file:
            file.write(given)
            file.seek(0)
            done = subprocess.run(
                [name, *words], executable=AUDIT.path, stdin=file, capture_output=True, env=environment, timeout=60
            )
        return (done.stdout, done.returncode), done.stderr == b"", met.exists()

    def expect(self, name: str, got: Got, *outputs: Output) -> None:
        """Counts a run that wrote no error and whose output is among those that may be."""
        self.check(name, got[1] and got[0] in outputs, got)

    def fail_writes(self, name: str, words: Sequence[str], given: bytes, output: Output) -> None:
        """Each write failing, or taking nothing, of one byte a write; and none is made behind the last byte."""
        self.expect(f"{name}, one byte a call", self.call(words, given, ONE_BYTE=1), output)
        for turn in range(1, len(output[0]) + 2):
            is_made = turn <= len(output[0])
            for way in ("FAIL_WRITE", "EMPTY_WRITE"):
                got = self.call(words, given, ONE_BYTE=1, **{way: turn})
                self.expect(f"{name}, {way} {turn}", got, (output[0][: turn - 1], 2) if is_made else output)
                self.check(f"{name}, {way} {turn}, is made", got[2] == is_made, got)
