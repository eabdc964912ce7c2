"""The capture texts that are asked for, and their verdicts: that of a file, or of transfers of a recording, each at one
of its ends."""
from __future__ import annotations

import argparse
from collections.abc import Iterator
from pathlib import Path
from typing import Optional, Union

from .blocks import FIRSTS
from .errors import Refused, read_file, told
from .packets import count
from .program import AUDIT, OPTIONS, TRANSFERS, check, find_program
from .recording import PLACES, Judged, Listed, Recording, Row, best, is_recording, one_each

TEXT_BEGINS = b"tftp-capture "


def add_programs(parser: argparse.ArgumentParser) -> None:
    """The words about a recording's ports, and those by which a script is told where the programs are."""
    parser.add_argument("--service", action="append", default=[], metavar="PORT", help="a port to which requests go in"
                        " the recording, beside 69; may be given several times")
    parser.add_argument("--rollover", choices=FIRSTS, default="", metavar="N", help="what comes after block 65535, 0 or"
                        " 1; without it such a block is refused")
    for name in (AUDIT, TRANSFERS):
        where = f"the program {name}, where it is not found by itself"
        parser.add_argument(OPTIONS[name], metavar="PATH", help=where)


def add_file(parser: argparse.ArgumentParser, what: str) -> None:
    """The word for a file, and those that go with each."""
    parser.add_argument("capture", nargs="?", default="-", metavar="FILE", help=what)
    add_programs(parser)


def add_words(parser: argparse.ArgumentParser, without: str) -> None:
    """The words by which a script is told what it is to take, and what it takes where no transfer is named."""
    add_file(parser, "a capture text or a recording; without it, or with -, standard input")
    parser.add_argument("number", nargs="?", help=f"a transfer's number in the recording; without it {without}")
    parser.add_argument("end", nargs="?", choices=PLACES, help="the end at which it was recorded, or between the ends;"
                        " without it that of its row, or of two rows the one that is refused")


def opened(asked: argparse.Namespace) -> Union[bytes, Recording]:
    """The text that stands in the file that is named or comes on standard input, or the recording."""
    return opened_at(str(asked.capture), asked)


def recording_at(path: str, asked: argparse.Namespace) -> Recording:
    """The recording in a file, or on standard input."""
    found = opened_at(path, asked)
    if isinstance(found, bytes):
        raise Refused(f"{path!r} is no recording")
    return found


def opened_at(path: str, asked: argparse.Namespace) -> Union[bytes, Recording]:
    """The same of a file, where the words say how it is read."""
    given: Optional[bytes] = None
    if path == "-" or Path(path).is_fifo():
        # it can be read once
        given = read_file(path)
        path = "-"
        is_text = not is_recording(given)
    else:
        with told(f"cannot read the file {path!r}"), open(path, "rb") as file:
            is_text = file.read(len(TEXT_BEGINS)) == TEXT_BEGINS
    if is_text:
        return read_file(path) if given is None else given
    services = tuple(map(str, asked.service))
    programs = find_program(TRANSFERS, asked.transfers), find_program(AUDIT, asked.program)
    return Recording(path, given, services, *programs, asked.rollover)


def rows_asked(rows: list[Row], number: Optional[str]) -> list[Row]:
    """Those of the transfer that is named, or all."""
    wanted = [row for row in rows if number in (None, str(row.number))]
    if not wanted:
        numbers = max(row.number for row in rows)
        raise Refused(f"there is no transfer {number} to judge: the recording has 1 to {numbers}")
    return wanted


def of_text(text: bytes, asked: argparse.Namespace) -> Judged:
    if asked.number is not None:
        raise Refused(f"{str(asked.capture)!r} is no recording, so it has no transfer {asked.number}")
    verdict = check(find_program(AUDIT, asked.program), text, asked.rollover)
    return Judged(text, verdict, rollover=asked.rollover)


def chosen(script: str, asked: argparse.Namespace) -> Judged:
    """The one text that a script is asked for: of a recording the transfer that is named, or else the one that is
    refused, or the only one."""
    found = opened(asked)
    if isinstance(found, bytes):
        return of_text(found, asked)
    rows = rows_asked(found.rows(script, asked.end), asked.number)
    numbers = {row.number for row in rows}
    if len(numbers) > 1:
        accused = {row.number for row in rows if row.is_accused()}
        if len(accused) != 1:
            some = count(len(numbers), "transfer")
            raise Refused(f"the recording has {some}: name one and its end, as in {script} {found.path} 1 client")
        rows = [row for row in rows if row.number in accused]
    return found.judged(best(rows))


class Several:
    """The texts that a script is asked for: of a recording the transfer that is named, or the only one, or else each
    that is not accepted."""

    def __init__(self, script: str, asked: argparse.Namespace) -> None:
        self.asked = asked
        self.found = opened(asked)
        self.rows: list[Row] = []
        if isinstance(self.found, Recording):
            self.rows = one_each(rows_asked(self.found.rows(script, asked.end), asked.number))
        self.names: dict[int, Listed] = {}
        if isinstance(self.found, Recording) and len(self.rows) > 1:
            self.names = {it.number: it for it in self.found.listed()}

    def recording(self) -> Optional[Recording]:
        return self.found if isinstance(self.found, Recording) else None

    def __iter__(self) -> Iterator[Judged]:
        if isinstance(self.found, bytes):
            yield of_text(self.found, self.asked)
            return
        for row in self.rows:
            if len(self.rows) == 1 or not row.is_accepted():
                yield self.found.judged(row)

    def name(self, it: Judged) -> str:
        """Which transfer it is, where there are several."""
        if it.row is None or len(self.rows) == 1:
            return ""
        number = it.row.number
        named = f": {self.names[number].told()}" if number in self.names else ""
        return f"transfer {number}{named}, {it.capture().place()}"

    def summed(self) -> str:
        """How many of several transfers are not accepted."""
        if len(self.rows) < 2:
            return ""
        odd = sum(not row.is_accepted() for row in self.rows)
        if not odd:
            return f"each of the {count(len(self.rows), 'transfer')} is accepted"
        return f"{odd:,} of {count(len(self.rows), 'transfer')} {'is' if odd == 1 else 'are'} not accepted"
