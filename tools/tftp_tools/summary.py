"""What became of the transfers of recordings, counted: a summary for a terminal, and the statuses that tell it."""
from __future__ import annotations

import re
from collections import Counter
from collections.abc import Iterable
from dataclasses import dataclass, field

from .packets import ERROR_CODES, count
from .recording import Row

# What a verdict begins with, and what it is called; what is doubtful is none of these.
KINDS = {
    "accepted": "accepted", "refused": "refused", "aborted": "aborted", "incomplete": "incomplete",
    "too long": "too long when normal",
}
DOUBTFUL, NOT_JUDGED = "doubtful", "not judged"
ABORTED = re.compile(r"aborted by (local|peer|client|server) code ([0-9]+)")
# What differs between reasons that are one.
NUMBERED = re.compile(r"\b(frame|lost) [0-9]+")
OTHER = {"client": "server", "server": "client"}
# The statuses: each is accepted, one is refused and so an end accused, one is not accepted and nobody is accused.
FINE, REFUSED, ACCUSES_NOBODY = 0, 1, 4
INDENT = 22


def kind_of(row: Row) -> str:
    """The verdict in a word."""
    if row.doubts:
        return DOUBTFUL
    return next((name for begins, name in KINDS.items() if row.verdict.startswith(begins)), NOT_JUDGED)


def by_whom(row: Row) -> str:
    """Which end sent the ERROR, with its code."""
    found = ABORTED.fullmatch(row.verdict)
    if not found:
        return row.verdict
    end, code = found[1], int(found[2])
    if row.place in OTHER and end in ("local", "peer"):
        end = row.place if end == "local" else OTHER[row.place]
    meaning = ERROR_CODES.get(code, "a code of no RFC")
    return f"by the {end}, code {code} ({meaning})"


def whose(row: Row) -> str:
    """The rule, and the end that is accused, by its host."""
    rule = " ".join(row.verdict.split()[3:])
    return f"{rule}, by the {row.accused.role} at {row.accused.host}" if row.accused else rule


def reasons_of(row: Row) -> list[str]:
    """What is counted within the kind."""
    kind = kind_of(row)
    if kind == DOUBTFUL:
        return [NUMBERED.sub(r"\1 N", doubt) for doubt in row.doubts]
    if kind == "refused":
        return [whose(row)]
    if kind == "aborted":
        return [by_whom(row)]
    return [row.verdict] if kind == NOT_JUDGED else []


@dataclass
class Summary:
    """The counts: of recordings, of those that have no transfer or could not be read, of kinds, and within kinds."""

    files: int = 0
    none: int = 0
    unread: int = 0
    kinds: Counter[str] = field(default_factory=Counter)
    reasons: dict[str, Counter[str]] = field(default_factory=dict)

    def add(self, rows: Iterable[Row]) -> None:
        """Counts transfers, a row for each."""
        for row in rows:
            kind = kind_of(row)
            self.kinds[kind] += 1
            self.reasons.setdefault(kind, Counter()).update(reasons_of(row))

    def lines_of(self, kind: str) -> list[str]:
        """A kind with its count, and below it what is counted within it, the most first."""
        within = sorted(self.reasons.get(kind, {}).items(), key=lambda it: (-it[1], it[0]))
        return [f"{kind:{INDENT}}{self.kinds[kind]:>7,}", *(f"{'':{INDENT}}{times:>7,}  {it}" for it, times in within)]

    def told(self) -> str:
        """All of it, in lines."""
        lines = [f"{count(sum(self.kinds.values()), 'transfer')} in {count(self.files, 'recording')}"]
        for kind in (*KINDS.values(), DOUBTFUL, NOT_JUDGED):
            lines += self.lines_of(kind)
        for words, number in (("without a transfer", self.none), ("not read, or in part", self.unread)):
            lines += [f"{words:{INDENT}}{number:>7,}  of the recordings"] if number else []
        return "".join(f"{line}\n" for line in lines)


def status_of(rows: Iterable[Row], is_strict: bool) -> int:
    """The status of transfers: 1 where one is not accepted; where it is to tell more, 1 where an end is accused, and 4
    where nobody is and one is not accepted all the same."""
    odd = [row for row in rows if not row.is_accepted()]
    if not odd:
        return FINE
    return REFUSED if not is_strict or any(row.is_accused() for row in odd) else ACCUSES_NOBODY
