"""Refuses each growth of memory in turn in tests of the libraries' calls, which `rt test` and the gate leave as
programs in the crates of tests.

A test then passes, since the call that wanted memory is asked again, or it stops with want of memory and with nothing
else; and the first run that meets no refusal passes. The program's commands are tried likewise by test_failures.py.
"""
from __future__ import annotations

import re
import subprocess

from checks import Checks
from programs import Program, refusing

# The tests whose calls take memory, by the beginnings of their names: an empty one is that of all.
TESTS: dict[str, tuple[str, ...]] = {
    "tests_wire": (
        *("net::copies::", "net::recordings::"),
        *("packets::", "netascii::", "captures::texts::texts_", "captures::faults::tr"),
        *("writers::writes::a_read_is_written", "writers::gathered::bytes_are_gathered"),
        *("writers::hosts::a_read_with_its_hosts_is_written", "writers::hosts::a_comment_is_written"),
    ),
    "tests_judges": ("ends::", "judges::judges::a_read_is_accepted"),
}
# A test that takes more growths than these is tried with as many, spread over all of them.
MOST = 200
PASSED = re.compile(rb"\s*test result: ok\s*")
# What a test returns where memory was wanting, and how one stops that tells another answer than the one it wants.
WANTS = re.compile(
    rb"(error: AllocError|error: AllocFailed { \.\. }|want of memory|error: \(\d+, Err\(Memory\(\d+\)\), .*)\n"
    rb"the test failed: its result gives status 1\n"
    rb"|\ntest stopped at \S+\nMemory \[.*\]\n"
)


class Growths(Checks):
    """The tests of each crate."""

    needs = tuple(Program(crate, "_tests") for crate in TESTS)

    def test_crates(self) -> None:
        for program in self.needs:
            names = self.names(program)
            self.check(f"{program.crate} has tests", bool(names))
            for name in names:
                self.refuse(program.path, name)

    @staticmethod
    def names(program: Program) -> list[str]:
        listed = subprocess.run([program.path, "--list"], capture_output=True, check=True).stdout.decode()
        names = [line.removesuffix(": test") for line in listed.splitlines() if line.endswith(": test")]
        return [name for name in names if name.startswith(TESTS[program.crate])]

    def call(self, program: str, name: str, turn: int) -> tuple[bytes, bool]:
        """What the test says, and whether a growth was refused."""
        met = self.folder / "met"
        met.unlink(missing_ok=True)
        environment = {"LD_PRELOAD": refusing(), "MET": str(met), "REFUSE": str(turn)}
        done = subprocess.run([program, name], capture_output=True, env=environment, timeout=60)
        return done.stdout + done.stderr, met.exists()

    def last_growth(self, program: str, name: str) -> int:
        """The number of the last growth of a test that meets no refusal."""
        low, high = 0, 1
        while self.call(program, name, high)[1]:
            low, high = high, 4 * high
        while high - low > 1:
            middle = (low + high) // 2
            low, high = (middle, high) if self.call(program, name, middle)[1] else (low, middle)
        return low

    def refuse(self, program: str, name: str) -> None:
        """Each growth of the test refused in turn, and none."""
        last = self.last_growth(program, name)
        said, met = self.call(program, name, last + 1)
        self.check(f"{name}, no growth refused", not met and bool(PASSED.fullmatch(said)), said)
        for turn in sorted({1 + step * last // MOST for step in range(MOST)} if last > MOST else range(1, last + 1)):
            said, met = self.call(program, name, turn)
            holds = PASSED.fullmatch(said) or WANTS.fullmatch(said)
            self.check(f"{name}, growth {turn} refused", bool(holds), said)
