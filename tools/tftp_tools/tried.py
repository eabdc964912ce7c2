"""What is said of a trial: the verdicts on its two legs, whom they accuse, and why."""
from __future__ import annotations

import enum
from collections.abc import Iterator, Sequence
from dataclasses import dataclass

from .explained import explain
from .laid_out import laid_out
from .packets import count
from .recording import ENDS, Accused, EndName, Recording, Row
from .relay import Endpoint
from .trial import Run


class State(enum.Enum):
    """What a seed ended in, the worst first."""

    REFUSED = "refused"
    DOUBTFUL = "doubtful"
    UNFINISHED = "not whole"
    ACCEPTED = "accepted"
    NOTHING = "nothing judged"


@dataclass(frozen=True)
class Leg:
    """A leg, judged at its end."""

    end: EndName
    recording: Recording
    rows: tuple[Row, ...]


def state_of(row: Row) -> State:
    if row.is_refused():
        return State.REFUSED if row.is_accused() else State.DOUBTFUL
    return State.ACCEPTED if row.is_accepted() else State.UNFINISHED


@dataclass(frozen=True)
class Tried:
    """A run whose legs are judged."""

    run: Run
    legs: tuple[Leg, ...]

    def rows(self) -> Iterator[tuple[Leg, Row]]:
        return ((leg, row) for leg in self.legs for row in leg.rows)

    def state(self) -> State:
        """The worst of its transfers."""
        found = {state_of(row) for _, row in self.rows()}
        return next((state for state in State if state in found), State.NOTHING)

    def accused(self) -> list[tuple[Leg, Row, Accused]]:
        """Each end that is accused, once: by its own leg, where that accuses it too."""
        found = [(leg, row, row.accused) for leg, row in self.rows() if row.accused is not None]
        found.sort(key=lambda it: it[1].place != it[2].role)
        first = {accused.role: row for _, row, accused in reversed(found)}
        return [it for it in found if first[it[2].role] is it[1]]

    def place_of(self, accused: Accused) -> Endpoint:
        """Where an accused end is: behind a port of the relay, or itself."""
        at = Endpoint(accused.host, accused.port)
        return self.run.behind.get(at, at)

    def explained(self) -> list[tuple[Leg, Row]]:
        """The refusals of which it is told why: those that accuse, or else those that are doubtful."""
        refused = [(leg, row) for leg, row, _ in self.accused()]
        return refused or [(leg, row) for leg, row in self.rows() if row.is_refused()]

    def says(self) -> str:
        """The verdicts in some words."""
        state = self.state()
        if state is State.REFUSED:
            return "; ".join(self.accusation(row, accused) for _, row, accused in self.accused())
        if state is State.NOTHING:
            return f"there is no transfer in {count(sum(self.run.tally.values()), 'datagram')}"
        ends: dict[str, list[str]] = {}
        for _, row in self.rows():
            if state_of(row) is state:
                ends.setdefault(row.verdict.removeprefix("accepted "), []).append(f"the {row.place}")
        return ", ".join(f"{verdict} at {' and '.join(dict.fromkeys(at))}" for verdict, at in ends.items())

    def accusation(self, row: Row, accused: Accused) -> str:
        rule = row.verdict.partition(" rule ")[2]
        where = "" if accused.role == row.place else f", by the {row.place}'s leg"
        return f"rule {rule}, accused the {accused.role} at {self.place_of(accused).told()}{where}"

    def line(self) -> str:
        run = self.run
        return f"seed {run.seed} {self.state().value}: {self.says()}; {run.disturbed()}; {run.ended}"


def judged(run: Run, transfers: str, audit: str) -> Tried:
    """Has each leg judged at its end."""
    legs = []
    for end in ENDS:
        recording = Recording(str(run.recordings[end]), None, (str(run.asked[end].port),), transfers, audit)
        legs.append(Leg(end, recording, tuple(recording.rows_if_any(end))))
    return Tried(run, tuple(legs))


def reasons(tried: Tried) -> str:
    """Why the refusals of a seed are what they are, as tftp-explain tells it."""
    parts = []
    for leg, row in tried.explained():
        it = leg.recording.judged(row)
        told = laid_out([*explain(it.verdict, it.text, it.capture()), *it.told()])
        parts.append(f"\nseed {tried.run.seed}, at the {row.place}, transfer {row.number}: {row.verdict}\n\n{told}")
    return "".join([*parts, "\n" * bool(parts)])


def summed(states: Sequence[State]) -> str:
    """How many seeds ended in what."""
    told = ", ".join(f"{states.count(state)} {state.value}" for state in reversed(State) if states.count(state))
    return f"{count(len(states), 'seed')}: {told}"


def status_of(states: Sequence[State]) -> int:
    """0 where none is refused without a doubt, 1 where one is, 3 where of one there was nothing to judge."""
    return 1 if State.REFUSED in states else 3 if State.NOTHING in states else 0
