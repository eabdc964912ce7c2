"""Edits tried many at a time: those that have nothing to do with one another, in one check."""
from __future__ import annotations

import dataclasses
from collections.abc import Iterable, Mapping, Sequence

from tftp_plants import edits, rooms, said, source
from tftp_plants.said import Outcome

# The functions that each may call, itself or by others.
Reach = Mapping[str, set[str]]
# The most edits of one check.
LARGEST = 12


@dataclasses.dataclass
class Try:
    """An edit, the functions that it changes, and what came of it."""

    edit: edits.Edit
    changes: frozenset[str] = frozenset()
    is_refused: bool = False
    reason: str = ""


class Group:
    """Edits that are checked together: none of their functions is another's, nor calls it."""

    def __init__(self, texts: dict[str, str], tries: Iterable[Try] = ()) -> None:
        self.tries, self.texts = [*tries], texts

    def takes(self, new: Try, reach: Reach) -> bool:
        """Adds an edit, if it has nothing to do with those that are there."""
        if len(self.tries) == LARGEST or any(are_tied(new.changes, it.changes, reach) for it in self.tries):
            return False
        try:
            self.texts = new.edit.applied(self.texts)
        except edits.NotApplied:
            return False
        self.tries.append(new)
        return True


def are_tied(some: Iterable[str], others: Iterable[str], reach: Reach) -> bool:
    """Whether a function of the one edit is one of the other's, or calls it, or is called by it."""
    return any(f == g or g in reach.get(f, ()) or f in reach.get(g, ()) for f in some for g in others)


def grouped(tries: Sequence[Try], texts: dict[str, str], reach: Reach) -> list[Group]:
    """The edits in few groups: each goes into the first that takes it, first those that are tied to most others."""
    ties = {id(it): sum(are_tied(it.changes, other.changes, reach) for other in tries) for it in tries}
    groups: list[Group] = []
    for it in sorted(tries, key=lambda it: -ties[id(it)]):
        if not any(group.takes(it, reach) for group in groups):
            groups.append(Group(texts))
            groups[-1].takes(it, reach)
    return groups


class Tries:
    """All edits of a crate."""

    def __init__(self, crate: str, found: Iterable[edits.Edit], room: rooms.Rooms) -> None:
        self.crate, self.rooms = crate, room
        self.texts = room.texts_of(crate)
        self.sources = source.sources_of(crate, self.texts)
        self.tries = [Try(it) for it in found]
        self.given = said.Said(crate, room.prove(crate))

    def groups(self) -> list[Group]:
        """The groups of the edits that can be applied."""
        reach = source.reachable(source.functions_of(self.sources))
        ready = []
        for it in self.tries:
            try:
                after = source.sources_of(self.crate, it.edit.applied(self.texts))
                it.changes = frozenset(source.changed(self.sources, after))
                ready.append(it)
            except edits.NotApplied as why:
                it.reason = f"it cannot be applied: {why}"
        return grouped(ready, self.texts, reach)

    def asked(self, tries: Iterable[Try]) -> list[str]:
        """The words that ask for these edits' functions alone: those of them that the checker names."""
        found = sorted({symbol for it in tries for symbol in it.changes if symbol in self.given.stands})
        return [word for symbol in found for word in ("--only", symbol)]

    def run(self, group: Group) -> None:
        """Tries a group, and alone each edit of it that is not refused by the function that it changes."""
        told = self.told_of(group.tries, group.texts)
        if not told.ended and len(group.tries) > 1:
            for half in (group.tries[::2], group.tries[1::2]):
                self.run(Group(applied(half, self.texts), half))
            return
        misfit = [it for it in group.tries if self.is_misfit(it, told)]
        if misfit:
            self.run_misfit(misfit)

    def is_misfit(self, it: Try, told: said.Said) -> bool:
        """Whether an edit only takes away what written answers name; says else what came of it."""
        if told.of(it.changes)[0] is Outcome.NAMED:
            return True
        return self.judge(it, told, it.edit.applied(self.texts)) is Outcome.NAMED

    def run_misfit(self, tries: Sequence[Try]) -> None:
        """Tries again together those edits whose written answers fit no other body, without these."""
        told = self.told_of(tries, self.unanswered(applied(tries, self.texts), tries))
        for it in tries:
            self.judge(it, told, self.unanswered(it.edit.applied(self.texts), [it]))
            it.reason += " (its written answers fit no other body, and were left out)"

    def told_of(self, tries: Iterable[Try], texts: Mapping[str, str]) -> said.Said:
        """What a check of the functions of these edits says, with all of the edits made."""
        asked = self.asked(tries)
        return said.Said(self.crate, self.rooms.tried(self.crate, texts, asked)[1] if asked else "")

    def unanswered(self, texts: Mapping[str, str], tries: Iterable[Try]) -> dict[str, str]:
        """Texts without the written answers of the functions that these edits change."""
        symbols = {symbol for it in tries for symbol in it.changes}
        return {file: text for file, text in texts.items() if not is_answer(file, symbols)}

    def judge(self, it: Try, told: said.Said, texts: Mapping[str, str]) -> Outcome:
        """Says what came of an edit, by the check of its group or else by one of these texts; the outcome."""
        outcome, why = told.of(it.changes)
        if outcome is not Outcome.REFUSED:
            outcome, why = self.alone(texts, it)
        it.is_refused = outcome is Outcome.REFUSED
        it.reason = why if it.is_refused else f"{outcome.value}: {why}"
        return outcome

    def alone(self, texts: Mapping[str, str], it: Try) -> tuple[Outcome, str]:
        """What a check of the whole crate in these texts, with one edit, says of it: the outcome, and the reason."""
        status, text = self.rooms.tried(self.crate, texts, [])
        told = said.Said(self.crate, text)
        if status is None:
            return Outcome.ENDLESS, f"it was stopped after {self.rooms.seconds} seconds"
        if told.proved:
            changed = ", ".join(sorted(it.changes)) or "the crate"
            return Outcome.CRATE_PROVED, f"{changed} meets its contract with this body"
        if told.wrong or not told.ended:
            return Outcome.UNTRIED, (told.wrong or text.strip().split("\n"))[0]
        outcome, why = told.of(it.changes)
        if outcome is not Outcome.REFUSED and told.of(self.given.stands)[0] is Outcome.REFUSED:
            outcome, why = told.of(self.given.stands)
        return outcome, why


def applied(tries: Iterable[Try], texts: dict[str, str]) -> dict[str, str]:
    """The texts with these edits made in them."""
    for it in tries:
        texts = it.edit.applied(texts)
    return texts


def is_answer(file: str, symbols: Iterable[str]) -> bool:
    """Whether a file has the written answers of one of these functions."""
    return file in {f"proofs/{'/'.join(symbol.split('::')[1:])}/Answers.antt" for symbol in symbols}
