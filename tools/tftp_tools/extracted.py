"""The files of the transfers of a recording, in a folder: tftp-audit writes the file of an accepted one, and this names
it. What came of another is written where that is asked for, and so named."""
from __future__ import annotations

import json
import re
from collections.abc import Sequence
from dataclasses import dataclass
from typing import Any, Optional

from .capture import read_capture
from .errors import Refused, shown, tell, write_out
from .newfiles import Folder, safe
from .partial import Part, part_of
from .program import extract
from .recording import EndName, Listed, Recording, Row, best, ends_at

# The line of a request in a capture text, with the payload.
REQUEST = re.compile(rb"(?m)^(?:in|out) [!-~ ]* (000[12](?:[0-9A-Fa-f]{2})*)$")
ACCEPTED = re.compile(r"accepted (?:get|put) (?:octet|netascii) blocks [0-9]+ bytes ([0-9]+)")
Object = dict[str, Any]


class NoText(Refused):
    """A transfer is accepted between its ends, and at neither of them."""


@dataclass(frozen=True)
class Written:
    """A file that was made: its name, its length and SHA-256, the end whose text has it, and which part of the file it
    is, where it is not the whole."""

    name: str
    size: int
    sha256: str
    end: EndName
    part: Optional[Part] = None

    def object(self) -> Object:
        """The same for JSON."""
        part = {"blocks": len(self.part.blocks), "why": self.part.why} if self.part else None
        return {"name": self.name, "bytes": self.size, "sha256": self.sha256, "end": self.end, "partial": part}


@dataclass(frozen=True)
class Transfer:
    """A transfer of a recording, with what is said of it at each place."""

    path: str
    listed: Listed
    rows: tuple[Row, ...]

    def named(self) -> str:
        return f"transfer {self.listed.number} of {shown(self.path)}"

    def place(self, row: Row) -> str:
        """Where it is judged."""
        return {"between": "between the ends", "both": "at both ends"}.get(row.place, f"at the {row.place}")

    def line(self, it: Written) -> str:
        """A file that was made of it: the name, the length, the SHA-256, and what it is of."""
        listed = self.listed
        ends = f"client {listed.client}, server {listed.server}"
        told = f"{listed.kind} {listed.file} {listed.mode}, {ends}, {self.named()}"
        part = f", {it.part.told()}" if it.part else ""
        return f"{it.name}\t{it.size}\t{it.sha256}\t{told}{part}\n"

    def object(self, it: Optional[Written]) -> Object:
        """The same for JSON."""
        listed = self.listed
        verdicts = [{"place": row.place, "verdict": row.verdict, "doubts": list(row.doubts)} for row in self.rows]
        return {
            "file": self.path, "number": listed.number, "client": listed.client, "server": listed.server,
            "kind": listed.kind, "mode": listed.mode, "asked": listed.file, "verdicts": verdicts,
            "written": it.object() if it else None,
        }


def asked_in(text: bytes) -> bytes:
    """The name in the request of a capture text."""
    found = REQUEST.search(text)
    return bytes.fromhex(found[1].decode())[2:].split(b"\0")[0] if found else b""


def transfers_of(recording: Recording, rows: Sequence[Row]) -> list[Transfer]:
    """The transfers of these rows, in their order."""
    by_number: dict[int, list[Row]] = {}
    for row in rows:
        by_number.setdefault(row.number, []).append(row)
    listed = {it.number: it for it in recording.listed()}
    return [Transfer(recording.path, listed[number], tuple(by_number[number])) for number in by_number]


@dataclass(frozen=True)
class Extraction:
    """What is asked for: by which script, into which folder, whether also what is not whole, and in which form what was
    done is told."""

    script: str
    folder: Folder
    has_parts: bool
    is_json: bool

    def take(self, recording: Recording, rows: Sequence[Row]) -> int:
        """Makes the files of the transfers of these rows; the status."""
        whole = recording.with_texts(rows)
        return max(self.take_transfer(whole, transfer) for transfer in transfers_of(recording, rows))

    def take_transfer(self, recording: Recording, transfer: Transfer) -> int:
        """Makes the file of a transfer, if it is accepted, and tells what was done; the status. What hinders it does
        not hinder the next."""
        for row in transfer.rows:
            if not row.is_accepted():
                tell(self.script, f"{transfer.named()}, {transfer.place(row)}: {'; '.join([row.says(), *row.doubts])}")
        made: Optional[Written] = None
        fault = 0
        try:
            made = self.made(recording, transfer)
        except Refused as why:
            tell(self.script, f"{transfer.named()}: {why}")
            fault = 2
        if self.is_json:
            write_out(json.dumps(transfer.object(made), separators=(",", ":")) + "\n")
        elif made:
            write_out(transfer.line(made))
        is_whole = made is not None and made.part is None and all(row.is_accepted() for row in transfer.rows)
        return max(fault, int(not is_whole))

    def made(self, recording: Recording, transfer: Transfer) -> Optional[Written]:
        """The file of a transfer, or what came of it, where that is asked for."""
        for row in transfer.rows:
            if row.is_accepted():
                try:
                    return self.whole(recording, row)
                except NoText as why:
                    tell(self.script, f"{transfer.named()}, {transfer.place(row)}: {row.verdict}, but {why}")
        return self.part(recording, transfer) if self.has_parts else None

    def whole(self, recording: Recording, row: Row) -> Written:
        """The file of an accepted transfer, which the program writes of the first text that it accepts."""
        name = safe(asked_in(recording.text(row.number, ends_at(row.place)[0])))
        with self.folder.file(name) as made:
            for end in ends_at(row.place):
                text = recording.text(row.number, end)
                ways = dict.fromkeys(("", recording.rollover))
                if any(extract(recording.audit, text, made.descriptor, rollover) for rollover in ways):
                    size, digest = made.sum()
                    check_size(recording, row, size)
                    return Written(made.name, size, digest, end)
            raise NoText("the text of no end is accepted alone, so its file is not written")

    def part(self, recording: Recording, transfer: Transfer) -> Optional[Written]:
        """What came of a file whose transfer is not accepted, if anything did."""
        row = best(transfer.rows)
        end = ends_at(row.place)[0]
        text = recording.text(row.number, end)
        part = part_of(read_capture(text, row.place == "between"))
        if not part.blocks:
            tell(self.script, f"{transfer.named()}: {part.told()}")
            return None
        with self.folder.file(safe(asked_in(text)), is_partial=True) as made:
            made.write(part.content())
            return Written(made.name, *made.sum(), end, part)


def check_size(recording: Recording, row: Row, size: int) -> None:
    """The two programs have to agree on the length of a file."""
    found = ACCEPTED.fullmatch(row.verdict)
    if not found or int(found[1]) != size:
        raise Refused(f"{recording.audit!r} wrote {size} bytes of what {recording.transfers!r} says is: {row.verdict}")
