"""The captures of both ends of one transfer, texts or of recordings, and what tftp-match says of them."""
from __future__ import annotations

import argparse
import re
import subprocess
import tempfile
from dataclasses import dataclass
from pathlib import Path
from typing import Any, Optional

from .blocks import capture_by
from .capture import Capture
from .errors import Refused, read_file, told
from .program import MATCH, OPTIONS, TRANSFERS, Verdict, ask, by, find_program
from .recording import ENDS, EndName, Recording, is_recording, named, objects

NUMBER, WHY = "([1-9][0-9]*|-)", "(?: ([a-z]+))?"
UNMATCHED = re.compile(f"unmatched client datagram {NUMBER}{WHY} server datagram {NUMBER}{WHY}")
MATCHED = re.compile("matched(?: lost ([0-9]+) repeated ([0-9]+))?")
FAULT = re.compile("fault [ -~]+")
OTHER: dict[EndName, EndName] = {"client": "server", "server": "client"}


def add_pair(parser: argparse.ArgumentParser) -> None:
    """The words by which a script is told the two captures, and where the program is that matches them."""
    parser.add_argument("--pair", nargs=2, metavar=("CLIENT", "SERVER"), help="the captures of one transfer, that of"
                        " its client and that of its server, each a text or a recording, in place of FILE; one of them"
                        " may be -")
    parser.add_argument("--transfer", metavar="N", help="with --pair: the transfer's number in the client's recording,"
                        " or in the one that there is; without it the one that has the request of the other side")
    parser.add_argument("--server-transfer", metavar="N", help="with --pair: its number in the server's recording")
    parser.add_argument(OPTIONS[MATCH], metavar="PATH", help=f"the program {MATCH}, where it is not found by itself")


def is_of_pair(asked: argparse.Namespace) -> bool:
    """Whether a script is asked for a pair; the words of a pair are refused elsewhere."""
    if asked.pair is None and (asked.transfer, asked.server_transfer) != (None, None):
        raise Refused(
            "--transfer and --server-transfer go with --pair: a transfer's number stands behind its recording"
        )
    return asked.pair is not None


@dataclass(frozen=True)
class Pair:
    """Both captures, the verdicts on each alone, and the line on the two, of which there is none where a text's fault
    hides it."""

    texts: dict[EndName, bytes]
    verdicts: dict[EndName, Verdict]
    line: str
    status: int
    # what comes after block 65535, where that was said
    rollover: str = ""

    def captures(self) -> dict[EndName, Capture]:
        return {end: capture_by(text, self.rollover) for end, text in self.texts.items()}

    def is_matched(self) -> bool:
        return bool(MATCHED.fullmatch(self.line))

    def counts(self) -> Optional[tuple[int, int]]:
        """How many datagrams the network lost and repeated, at least, where the program tells it."""
        found = MATCHED.fullmatch(self.line)
        return (int(found[1]), int(found[2])) if found and found[1] else None

    def unmatched(self) -> dict[EndName, Optional[int]]:
        """The first datagram of each capture that does not go together with the other one; none where that has no
        more."""
        found = UNMATCHED.fullmatch(self.line)
        numbers = (found[1], found[3]) if found else ("-", "-")
        return {end: int(number) if number != "-" else None for end, number in zip(ENDS, numbers)}

    def whys(self) -> dict[EndName, str]:
        """The program's word of why a datagram is unmatched, or nothing where it tells none."""
        found = UNMATCHED.fullmatch(self.line)
        return dict(zip(ENDS, (found[2] or "", found[4] or "") if found else ("", "")))


def status_of(line: str) -> int:
    """That of tftp-audit for its line."""
    return 0 if line.startswith("accepted ") else 2 if line.startswith("fault ") else 1


def numbers_in(it: dict[str, Any]) -> dict[EndName, Optional[int]]:
    """The numbers of the transfers that were matched, in the program's object of JSON; none of a text."""
    return {end: it[end]["number"] for end in ENDS}


class Sources:
    """The files of a pair, and which transfers of those that are recordings are matched."""

    def __init__(self, asked: argparse.Namespace) -> None:
        self.asked = asked
        self.paths: dict[EndName, str] = dict(zip(ENDS, asked.pair))
        self.given = read_file("-") if "-" in asked.pair else None
        # what cannot be read, or not twice, is told before a program is built
        for path in self.paths.values():
            if Path(path).is_fifo():
                raise Refused(f"{path!r} can be read once, and is read twice: it may come on standard input, as -")
            self.begins(path)
        self.program = find_program(MATCH, asked.match)

    def has_recordings(self) -> bool:
        return any(is_recording(self.begins(path)) for path in self.paths.values())

    def begins(self, path: str) -> bytes:
        if path == "-" and self.given is not None:
            return self.given[:4]
        with told(f"cannot read the file {path!r}"), open(path, "rb") as file:
            return file.read(4)

    def numbers(self) -> dict[EndName, Optional[int]]:
        """Which transfers the program takes: those that are named, or by what they say."""
        named_here = (("--transfer", self.asked.transfer), ("--server-transfer", self.asked.server_transfer))
        words = [f"{option}={number}" for option, number in named_here if number is not None]
        if not words and not self.has_recordings():
            return dict.fromkeys(ENDS)
        words += [*named(self.asked.service), *by(self.asked.rollover), "--json", "--", *self.paths.values()]
        written, beside, status = ask(self.program, words, self.given)
        found = objects(written, numbers_in)
        if len(found) != 1:
            raise Refused(beside[-1] if beside else f"{self.program!r} did not match the two, and ended with {status}")
        return found[0]

    def texts(self) -> dict[EndName, bytes]:
        """The capture texts of both ends."""
        numbers = self.numbers()
        return {end: self.text(end, path, numbers[end]) for end, path in self.paths.items()}

    def text(self, end: EndName, path: str, number: Optional[int]) -> bytes:
        given = self.given if path == "-" else None
        if number is None:
            return read_file(path) if given is None else given
        transfers = find_program(TRANSFERS, self.asked.transfers)
        return Recording(path, given, tuple(map(str, self.asked.service)), transfers, "").text(number, end)


def said(program: str, texts: dict[EndName, bytes], rollover: str) -> tuple[list[str], int]:
    """The lines that the program prints of the two texts, and its status."""
    with tempfile.NamedTemporaryFile() as server, told(f"cannot run {program!r}"):
        server.write(texts["server"])
        server.flush()
        command = [program, *by(rollover), "-", server.name]
        done = subprocess.run(command, input=texts["client"], stdout=subprocess.PIPE, check=False)
    return done.stdout.decode("ascii", "backslashreplace").splitlines(), done.returncode


def pair_of(program: str, texts: dict[EndName, bytes], rollover: str = "") -> Pair:
    lines, status = said(program, texts, rollover)
    third = lines[2] if len(lines) == 3 else ""
    is_known = any(form.fullmatch(third) for form in (MATCHED, UNMATCHED, FAULT)) or third == ""
    if len(lines) not in (2, 3) or not is_known or status not in (0, 1, 2):
        raise Refused(f"{program!r} did not match the two: it printed {lines!r} and ended with status {status}")
    verdicts = {end: Verdict(line, status_of(line)) for end, line in zip(ENDS, lines)}
    return Pair(texts, verdicts, third, status, rollover)


def asked_pair(asked: argparse.Namespace) -> Pair:
    """The two captures that a script is asked for."""
    if asked.capture != "-" or asked.number is not None:
        raise Refused("--pair takes the place of FILE: name the client's capture and the server's alone")
    if asked.pair == ["-", "-"]:
        raise Refused("one of the two captures may come on standard input, and not both")
    sources = Sources(asked)
    return pair_of(sources.program, sources.texts(), asked.rollover)
