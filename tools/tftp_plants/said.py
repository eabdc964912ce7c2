"""What a check says of each function, and what that says of an edit."""
from __future__ import annotations

import enum
import re
from collections.abc import Collection

LINE = re.compile(r"(?:fn|struct|enum|impl|trait|type) (\S+): (proved|not proved|no proof)(.*)")
NOTE = re.compile(r"note: (\S+): (.*?) \(`([^`]+)`\)")
# An error of a proof file, which stands in the folder that its function is named by.
WRITTEN = re.compile(r"(?:\./)?proofs/(\S+)/(Answers|Invariants|Proof)\.antt:\d+:\d+: error: (?:`([^`]+)`: )?(.*)")
# An error of any other proof file, in a lemma that functions stand on: only an edit of a definition can make one fall.
LEMMA = re.compile(r"(?:\./)?proofs/(\S+)\.antt:\d+:\d+: error: `([^`]+)`: (.*)")
STANDS_ON = re.compile(r"it stands on (.*), which antt refuses")
# An error of a source's types or syntax: of a goal it would have the name.
SOURCE = re.compile(r"(?:\./)?(?:src|specs)/\S+?:\d+:\d+: error(?:\[[^\]]*\])?: (?!`[^`]*`: )")
NAMES = re.compile(r"has no field|is not in scope|has no `|was not admitted|is no name|\(nearest: |that begin alike: ")
FAILED = re.compile(r"rattle: (?:error|no verdict)|error\[")
ENDED = re.compile(r"(?:logic=|only=)\S+(?: .*)?")
NOT_PROVED = "it is not proved that "


class Outcome(enum.Enum):
    """How an edit's functions stand; its value is what is printed of it."""

    # All are proved; or the whole crate is, with the edit made.
    PROVED = "proved"
    CRATE_PROVED = "PROVED"
    # A goal of one of them is open.
    REFUSED = "refused"
    # Nothing is known of their own clauses.
    UNTOLD = "no reason"
    CALLEE = "only a callee is named"
    NAMED = "only names are gone"
    UNTRIED = "no contract was tried"
    ENDLESS = "the check has not ended"


class Said:
    """The functions of a check: how each stands, and the goals that are open in it."""

    def __init__(self, crate: str, text: str) -> None:
        self.stands: dict[str, str] = {}
        # The goals of each function that are open, or whose answers name what is gone, with the reason.
        self.open: dict[str, list[tuple[str, str]]] = {}
        self.named: dict[str, list[tuple[str, str]]] = {}
        # The lemmas that fell, and not only because they name what is gone, by their whole names.
        self.fallen: set[str] = set()
        self.wrong: list[str] = []
        self.ended = self.proved = False
        notes: list[tuple[str, str, str]] = []
        for line in text.split("\n"):
            notes += NOTE.findall(line)
            self.read_written(crate, line)
            stands = LINE.match(line)
            if stands:
                self.read_stands(stands[1], stands[2], stands[3], notes)
                notes = []
            elif SOURCE.match(line) or FAILED.match(line):
                self.wrong.append(line)
            elif ENDED.match(line):
                self.ended, self.proved = True, line.startswith("logic=proved")

    def read_written(self, crate: str, line: str) -> None:
        """Reads what a proof file fails to prove, or names in vain."""
        found = WRITTEN.match(line)
        if not found:
            self.read_lemma(crate, line)
            return
        path, file, goal, why = found.groups()
        symbol = "::".join([crate, *path.split("/")])
        kept = self.named if NAMES.search(re.sub(r"`[^`]*`", "``", why)) else self.open
        kept.setdefault(symbol, []).append((goal or file, "its written answer does not prove it"))

    def read_lemma(self, crate: str, line: str) -> None:
        """Reads which lemma fell."""
        found = LEMMA.match(line)
        if found and not NAMES.search(re.sub(r"`[^`]*`", "``", found[3])):
            self.fallen.add(f"Rattle.{crate}.proofs.{found[1].replace('/', '.')}.{found[2]}")

    def read_stands(self, symbol: str, stands: str, rest: str, notes: Collection[tuple[str, str, str]]) -> None:
        self.stands[symbol] = stands + rest
        if stands == "proved":
            return
        untried = re.search(r"`search` did not prove (.*)", rest)
        goals = re.findall(r"`([^`]+)`", untried[1]) if untried else []
        what = {goal: said for _, said, goal in notes}
        found = [(goal, what.get(goal, "the search did not prove it")) for goal in goals]
        found += [(goal, said) for goal, said in what.items() if goal not in goals and "it calls" not in rest]
        stands_on = STANDS_ON.search(rest)
        lemmas = re.findall(r"`([^`]+)`", stands_on[1]) if stands_on else []
        found += [(it.rpartition(".")[2], "a lemma that it stands on") for it in lemmas if it in self.fallen]
        if found:
            self.open.setdefault(symbol, []).extend(found)

    def of(self, symbols: Collection[str]) -> tuple[Outcome, str]:
        """How these functions stand, with those that stand in them, and the reason."""
        own = [it for it in self.stands if any(is_in(it, symbol) for symbol in symbols)]
        for symbol in (it for it in own if it in self.open):
            first, *more = dict.fromkeys((clause_of(goal), what) for goal, what in self.open[symbol])
            also = "".join(f"; also {clause}" for clause in dict.fromkeys(it for it, _ in more if it != first[0]))
            return Outcome.REFUSED, f"{symbol}, {first[0]}, is not proved: {first[1].replace(NOT_PROVED, '')}{also}"
        for symbol in (it for it in own if it in self.named):
            return Outcome.NAMED, f"the proof of {symbol} names what the edit took away"
        left = [it for it in own if not self.stands[it].startswith("proved")]
        if left:
            is_callee = re.search(r"it calls|it passes|a call of", self.stands[left[0]])
            return Outcome.CALLEE if is_callee else Outcome.UNTOLD, f"{left[0]}: {self.stands[left[0]]}"
        if own:
            return Outcome.PROVED, ""
        return Outcome.UNTOLD, "the check says nothing of a function that it changes"


def is_in(symbol: str, outer: str) -> bool:
    """Whether a function is this one, or a closure that stands in it."""
    return symbol == outer or "::fn::" in symbol and symbol.replace("::fn::", "::").startswith(f"{outer}::")


def clause_of(goal: str) -> str:
    """The clause that a goal is of, as its contract names it, and else the goal's own name."""
    found = re.search(r"clause-(\w+)", goal)
    return f"clause {found[1]}" if found else f"goal {goal}"
