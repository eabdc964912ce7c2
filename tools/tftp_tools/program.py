"""The programs: where they stand, what tftp-audit says of a capture text, and how tftp-transfers is asked."""
from __future__ import annotations

import functools
import re
import shutil
import subprocess
from collections.abc import Sequence
from dataclasses import dataclass
from pathlib import Path
from typing import Optional

from .errors import Refused, told

REFUSED = re.compile(r"refused datagram ([0-9]+) rule ([0-9]+) ([A-Za-z0-9]+)(?: ([A-Za-z]+))?")
FAULT = re.compile(r"fault line ([0-9]+) ([A-Za-z]+)")
KNOWN = re.compile("(accepted|refused|aborted|incomplete|too long|fault) [ -~]+")
HERE = Path(__file__).resolve().parent.parent
AUDIT, TRANSFERS, MATCH = "tftp-audit", "tftp-transfers", "tftp-match"
# By which words the scripts are told where a program stands.
OPTIONS = {AUDIT: "--program", TRANSFERS: "--transfers", MATCH: "--match"}


@dataclass(frozen=True)
class Verdict:
    """The line that `check` printed, and its status."""

    line: str
    status: int

    def refused(self) -> Optional[tuple[int, int, str, str]]:
        """The unlawful datagram's number, the rule's number and name, and for rule 5 the packet's fault."""
        found = REFUSED.fullmatch(self.line)
        return (int(found[1]), int(found[2]), found[3], found[4] or "") if found else None

    def fault(self) -> Optional[tuple[int, str]]:
        """The text's fault: its line and name."""
        found = FAULT.fullmatch(self.line)
        return (int(found[1]), found[2]) if found else None


def find_program(name: str, wanted: Optional[str]) -> str:
    """The one that is named, that of the repository or of the installation of this script, or that on PATH."""
    if wanted:
        return wanted
    launcher, installed = HERE.parent / name, HERE.parent.parent / "bin" / name
    if launcher.is_file():
        # in a checkout
        return built(str(launcher)) if (HERE.parent / "crates").is_dir() else str(launcher)
    if installed.is_file():
        return str(installed)
    found = shutil.which(name)
    if not found:
        raise Refused(f"the program {name} is not found: install it, or name it with {OPTIONS[name]}")
    return found


@functools.lru_cache(maxsize=None)
def built(launcher: str) -> str:
    """The launcher, once its program is built: what a build says is none of what the program tells."""
    with told(f"cannot run {launcher!r}"):
        done = subprocess.run([launcher, "--ready"], stdin=subprocess.DEVNULL, check=False)
    if done.returncode:
        raise Refused(f"{launcher!r} did not build the program")
    return launcher


def by(rollover: str) -> list[str]:
    """The words that say what comes after block 65535, where anything does."""
    return ["--rollover", rollover] if rollover else []


def check(program: str, text: bytes, rollover: str = "") -> Verdict:
    """What the program says of a capture text."""
    with told(f"cannot run {program!r}"):
        done = subprocess.run([program, "check", *by(rollover)], input=text, stdout=subprocess.PIPE, check=False)
    line = done.stdout.decode("ascii", "backslashreplace").rstrip("\n")
    if not KNOWN.fullmatch(line) or done.returncode not in (0, 1, 2):
        raise Refused(f"{program!r} gave no verdict: it printed {line!r} and ended with status {done.returncode}")
    return Verdict(line, done.returncode)


def losses(program: str, text: bytes, refused: int) -> str:
    """Which datagrams must be missing of a capture text whose datagram with this number is refused, so that it is lawful
    with them, by the program; nothing where it finds none, or where it refuses another one or none."""
    with told(f"cannot run {program!r}"):
        done = subprocess.run([program, "check", "--losses"], input=text, stdout=subprocess.PIPE, check=False)
    lines = done.stdout.decode("ascii", "backslashreplace").splitlines()
    is_found = len(lines) == 2 and lines[1].startswith("lawful if ") and lines[0].split()[2] == str(refused)
    return lines[1] if is_found else ""


def file_of(program: str, text: bytes, rollover: str = "") -> bytes:
    """The file of a capture text that the program accepts."""
    with told(f"cannot run {program!r}"):
        done = subprocess.run([program, "extract", *by(rollover)], input=text, stdout=subprocess.PIPE, check=False)
    if done.returncode != 0:
        raise Refused(f"{program!r} wrote no file, and ended with status {done.returncode}")
    return done.stdout


def extract(program: str, text: bytes, into: int, rollover: str = "") -> bool:
    """Has the program write the file of a capture text into one that is open; whether it accepts the text."""
    with told(f"cannot run {program!r}"):
        done = subprocess.run([program, "extract", *by(rollover)], input=text, stdout=into, check=False)
    if done.returncode not in (0, 1):
        raise Refused(f"{program!r} wrote no whole file, and ended with status {done.returncode}")
    return done.returncode == 0


def ask(program: str, words: Sequence[str], given: Optional[bytes] = None) -> tuple[bytes, list[str], int]:
    """What tftp-transfers or tftp-match writes of what it is given on standard input, what it tells beside, without its
    name, and its status."""
    with told(f"cannot run {program!r}"):
        done = subprocess.run([program, *words], input=given or b"", capture_output=True, check=False)
    lines = done.stderr.decode("utf-8", "backslashreplace").splitlines()
    for name in (TRANSFERS, MATCH):
        lines = [line.removeprefix(f"{name}: ") for line in lines]
    return done.stdout, lines, done.returncode
