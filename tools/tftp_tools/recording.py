"""A recording: its transfers, the verdicts on them and their capture texts, as tftp-transfers says them."""
from __future__ import annotations

import json
import re
from collections.abc import Callable, Collection, Iterable, Mapping, Sequence
from dataclasses import dataclass, field, replace
from typing import Any, Literal, Optional, TypeVar

from .blocks import capture_by
from .capture import Capture
from .errors import Refused, read_file, shown, tell
from .frames import without_frames
from .pieces import MAGICS
from .program import Verdict, ask, check

EndName = Literal["client", "server"]
PlaceName = Literal["client", "server", "between"]
ENDS: tuple[EndName, ...] = ("client", "server")
PLACES: tuple[PlaceName, ...] = ("client", "server", "between")
# How a capture text begins, and the comment in it that names its transfer.
BEGINS = re.compile(rb"^tftp-capture ", re.MULTILINE)
OF = re.compile(rb"^# transfer ([0-9]+) of ", re.MULTILINE)
# The statuses of a recording that was read: all is accepted, something is not, there is nothing to judge.
JUDGED = (0, 1, 3)
# All statuses, that which counts most first: a fault; an end is accused, or something is not accepted; that is so and
# nobody is accused; there is nothing to judge; all is accepted.
STATUSES = (2, 1, 4, 3, 0)
T = TypeVar("T")
# The fields of a listed transfer.
WORDS = ("client", "server", "kind", "mode", "file", "options")
NUMBERS = ("number", "datagrams", "first_frame", "last_frame")


# The rule that too many blocks break, and why nobody is accused where both ends have one address.
BEYOND_BLOCK_65535 = 20
EACH_ALONE = "both ends have one address, and where block numbers begin again each is judged alone"


class NoTransfer(Refused):
    """A recording was read, and there is no transfer to judge in it."""


@dataclass(frozen=True)
class Accused:
    """The end that a refusal accuses: its role, and the host and the port from which it sent."""

    role: str
    host: str
    port: int

    def told(self) -> str:
        host = f"[{self.host}]" if ":" in self.host else self.host
        return f"the {self.role} at {host}:{self.port}, which sent the datagram"


@dataclass(frozen=True)
class Row:
    """What tftp-transfers says of a transfer at the place where it was recorded."""

    number: int
    place: str
    verdict: str
    doubts: tuple[str, ...]
    frame: Optional[int] = None
    accused: Optional[Accused] = None
    ended: str = ""
    # what comes after block 65535, where it was judged by that
    rollover: str = ""

    def is_refused(self) -> bool:
        return self.verdict.startswith("refused ")

    def is_accepted(self) -> bool:
        return self.verdict.startswith("accepted ")

    def is_accused(self) -> bool:
        return self.is_refused() and not self.doubts

    def says(self) -> str:
        """The verdict, as it is told of a recording."""
        return f"{'doubtful: ' if self.doubts else ''}{self.verdict}"


@dataclass(frozen=True)
class Listed:
    """A transfer, as the recording lists it."""

    number: int
    client: str
    server: str
    kind: str
    mode: str
    file: str
    options: str
    datagrams: int
    first_frame: int
    last_frame: int

    def told(self) -> str:
        return f"{self.kind} {self.file}, client {self.client}, server {self.server}"


@dataclass(frozen=True)
class Judged:
    """A capture text, the verdict on it, and why a refusal is no accusation; of a recording the transfer's row and the
    place too. Between the ends the text is the client's."""

    text: bytes
    verdict: Verdict
    doubts: tuple[str, ...] = ()
    row: Optional[Row] = None
    place: Optional[PlaceName] = None
    # what comes after block 65535, where that was said
    rollover: str = ""

    def is_between(self) -> bool:
        return self.place == "between"

    def accused(self) -> Optional[Accused]:
        """The end that the refusal accuses; a capture text does not tell where its own end is."""
        return self.row.accused if self.row else None

    def told(self) -> list[tuple[str, str]]:
        """Whom the refusal accuses, or why it accuses nobody: pairs of a heading and words."""
        accused = self.accused()
        return ([("Accused", f"{accused.told()}.")] if accused else []) + [("Doubtful", doubt) for doubt in self.doubts]

    def capture(self) -> Capture:
        return capture_by(self.text, self.rollover, self.is_between())


def is_recording(begins: bytes) -> bool:
    """Whether what begins so is a recording by its first bytes."""
    return begins.startswith(MAGICS)


def accused_of(it: Optional[dict[str, Any]]) -> Optional[Accused]:
    return Accused(str(it["role"]), str(it["host"]), int(it["port"])) if it is not None else None


def ended_of(it: dict[str, Any]) -> str:
    """How a transfer ended, in words; nothing where it is whole."""
    role, frame, seconds = it["role"], it["frame"], it["seconds"]
    if it["how"] == "error":
        return f'{role} ERROR {it["code"]} "{it["message"]}", frame {frame}'
    if it["how"] == "unreachable":
        return f'{it["message"]}, frame {frame}'
    if it["how"] == "silent":
        return f"{role} silent for {seconds} s after frame {frame}"
    if it["how"] == "last":
        return f"nothing for {seconds} s after frame {frame} of the {role}" if seconds else ""
    return f"with the recording after frame {frame}" if it["how"] == "recording" else ""


def row_of(it: dict[str, Any]) -> Row:
    """A row of verdicts, which is an object of JSON."""
    frame = int(it["frame"]) if it["frame"] is not None else None
    doubts, accused = tuple(map(str, it["doubts"])), accused_of(it["accused"])
    ended = ended_of(it["ended"]) if "ended" in it else ""
    rollover = str(it["rollover"]) if it.get("rollover") is not None else ""
    return Row(int(it["number"]), str(it["place"]), str(it["verdict"]), doubts, frame, accused, ended, rollover)


def listed_of(it: dict[str, Any]) -> Listed:
    client, server, kind, mode, file, options = (str(it[name]) for name in WORDS)
    number, datagrams, first, last = (int(it[name]) for name in NUMBERS)
    return Listed(number, client, server, kind, mode, file, options, datagrams, first, last)


def objects(written: bytes, read: Callable[[dict[str, Any]], T]) -> list[T]:
    """The objects of JSON in the lines of what a program wrote, or none where they are none."""
    try:
        return [read(json.loads(line)) for line in written.splitlines()]
    except (ValueError, KeyError, TypeError):
        return []


def texts_in(written: bytes) -> dict[int, bytes]:
    """The capture texts that stand one after the other, by their transfers' numbers."""
    begins = [it.start() for it in BEGINS.finditer(written)]
    texts = [written[begin:end] for begin, end in zip(begins, [*begins[1:], len(written)])]
    return {int(of[1]): text for text in texts for of in [OF.search(text)] if of}


def is_beyond(row: Row) -> bool:
    """Whether it is refused for too many blocks."""
    refused = Verdict(row.verdict, 1).refused()
    return refused is not None and refused[1] == BEYOND_BLOCK_65535


def ends_at(place: str) -> tuple[EndName, ...]:
    """The ends of which a row at this place speaks."""
    return tuple(end for end in ENDS if end == place) or ENDS


def places_again(row: Row) -> tuple[PlaceName, ...]:
    """The places at which a row that refuses too many blocks is judged again."""
    return ("between",) if row.place == "between" else ends_at(row.place)


def named(services: Sequence[str]) -> list[str]:
    return [word for port in services for word in ("--service", port)]


@dataclass(frozen=True)
class Recording:
    """A recording in a file, or what was given on standard input, and the programs that read it and judge."""

    path: str
    given: Optional[bytes]
    services: tuple[str, ...]
    transfers: str
    audit: str
    rollover: str = ""
    texts: Mapping[tuple[int, str], bytes] = field(default_factory=dict)

    def ask(self, *words: str) -> tuple[bytes, list[str], int]:
        return ask(self.transfers, [*words, *named(self.services), "--", self.path], self.given)

    def rows(self, script: str, place: Optional[str], notes: Optional[list[str]] = None) -> list[Row]:
        """The verdicts, at a place if one is named; what is told beside them is told, and added to the notes."""
        return self.checked(script, place, notes)[0]

    def checked(self, script: str, place: Optional[str], notes: Optional[list[str]] = None) -> tuple[list[Row], int]:
        """The same with the status."""
        written, beside, status = self.ask("check", "--json", *(["--end", place] if place else []))
        for line in beside[: None if written else -1]:
            tell(script, line)
            if notes is not None:
                notes.append(shown(line))
        rows = objects(written, row_of)
        if rows and self.rollover:
            rows = self.by_rollover(rows)
            status = int(not all(row.is_accepted() for row in rows)) if status == 1 else status
        if rows:
            return rows, status
        if written or status != 0 and not beside:
            raise Refused(f"{self.transfers!r} gave no rows for {self.path!r}, and ended with status {status}")
        refusal = NoTransfer if status in (0, 3) else Refused
        raise refusal(beside[-1] if beside else f"{self.path}: there is no transfer in the recording")

    def by_rollover(self, rows: Sequence[Row]) -> list[Row]:
        """The rows; those that refuse too many blocks are judged at their places by what comes after block 65535."""
        places = {place for row in rows if is_beyond(row) for place in places_again(row)}
        judged = {place: self.rows_by_rollover(place) for place in sorted(places)}
        return [of_ends(row, [judged[it][row.number] for it in places_again(row) if is_beyond(row)]) for row in rows]

    def rows_by_rollover(self, place: PlaceName) -> dict[int, Row]:
        """What is said at a place by what comes after block 65535, by the numbers of the transfers."""
        written, beside, status = self.ask("check", "--json", "--end", place, "--rollover", self.rollover)
        rows = objects(written, row_of)
        if not rows:
            why = beside[-1] if beside else f"{self.transfers!r} ended with status {status}"
            raise Refused(f"{self.path!r} was not judged by its numbers that begin again: {why}")
        return {row.number: row for row in rows}

    def judged_by(self, row: Row, end: EndName, rollover: str) -> Judged:
        """The text at an end, and the verdict of tftp-audit on it."""
        text = self.text(row.number, end)
        return Judged(text, check(self.audit, text, rollover), row.doubts, row, end, rollover)

    def rows_if_any(self, place: PlaceName) -> list[Row]:
        """The verdicts at a place, none where there is no transfer."""
        written, beside, status = self.ask("check", "--json", "--end", place)
        rows = objects(written, row_of)
        if status not in JUDGED or written and not rows:
            why = beside[-1] if beside else f"{self.transfers!r} ended with status {status}"
            raise Refused(f"{self.path!r} was not judged: {why}")
        return rows

    def without(self, gone: Collection[int]) -> Recording:
        """The same without these frames."""
        recording = read_file(self.path) if self.given is None else self.given
        return replace(self, path="-", given=without_frames(recording, gone), texts={})

    def with_texts(self, rows: Iterable[Row]) -> Recording:
        """The same with all texts at the ends that the rows speak of, so that it is read once for each end."""
        ends = {end if end in ENDS else ENDS[0] for end in (row.place for row in rows)}
        written = {end: texts_in(self.ask("texts", end)[0]) for end in sorted(ends)}
        return replace(self, texts={(number, end): text for end in ends for number, text in written[end].items()})

    def row_between(self, number: int) -> Optional[Row]:
        """What is said between the ends of a transfer, without what is told beside."""
        rows = objects(self.ask("check", "--json", "--end", "between")[0], row_of)
        it = next((row for row in rows if row.number == number), None)
        return self.by_rollover([it])[0] if it and self.rollover else it

    def listed(self) -> list[Listed]:
        """The transfers."""
        return objects(self.ask("list", "--json")[0], listed_of)

    def text(self, number: int, end: str) -> bytes:
        """The capture text of a transfer at an end."""
        if (number, end) in self.texts:
            return self.texts[number, end]
        written, beside, status = self.ask("text", str(number), end)
        if status != 0 or not written:
            raise Refused(beside[-1] if beside else f"{self.transfers!r} gave no text, and ended with status {status}")
        return written

    def judged(self, row: Row) -> Judged:
        """What the row says, at the place of which it says so: of both ends the one whose verdict it has."""
        if row.place == "between":
            verdict = Verdict(row.verdict, int(not row.is_accepted()))
            return Judged(self.text(row.number, "client"), verdict, row.doubts, row, "between", row.rollover)
        for rollover in dict.fromkeys(("", self.rollover)):
            for end in ends_at(row.place):
                it = self.judged_by(row, end, rollover)
                if it.verdict.line == row.verdict:
                    return it
        said = f"{self.audit!r} says at no end of transfer {row.number} what {self.transfers!r} says"
        raise Refused(f"{said}: {row.verdict}")

    def accepted(self, judged: Judged) -> Optional[bytes]:
        """The text of an accepted transfer that has its file: between the ends that of an end which is accepted too."""
        if judged.row is None or not judged.is_between():
            return judged.text
        if check(self.audit, judged.text, judged.rollover) == judged.verdict:
            return judged.text
        text = self.text(judged.row.number, "server")
        return text if check(self.audit, text, judged.rollover) == judged.verdict else None


def of_ends(row: Row, judged: Sequence[Row]) -> Row:
    """A row of which each end was judged again, if any was: that of the end which is not accepted. Of two ends at one
    address it accuses nobody."""
    it = next((it for it in judged if not it.is_accepted()), judged[0] if judged else row)
    if len(judged) < 2 or not it.is_refused():
        return replace(it, place=row.place)
    return replace(it, place=row.place, doubts=(*it.doubts, EACH_ALONE), accused=None)


def best(rows: Sequence[Row]) -> Row:
    """Of the rows of a transfer the one that accuses, or else refuses."""
    return min(rows, key=lambda row: (not row.is_accused(), not row.is_refused()))


def one_each(rows: Sequence[Row]) -> list[Row]:
    """A row for each transfer, in their order."""
    of_each: dict[int, list[Row]] = {}
    for row in rows:
        of_each.setdefault(row.number, []).append(row)
    return [best(its) for its in of_each.values()]


def worst(statuses: Iterable[int]) -> int:
    """The status that counts most."""
    return min(statuses, key=STATUSES.index)
