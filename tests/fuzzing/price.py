"""The price of caution: how much of what is truly broken is told without a doubt, and in how much that is lawful a
refusal would be doubtful. Sessions of lawful ends are drawn, undisturbed but for a few losses; one datagram of one
transfer is changed so that its sender breaks a rule, which the transfer alone shows, and the whole recording is
judged."""
from __future__ import annotations

import collections
import random
from collections.abc import Iterable, Iterator
from typing import NamedTuple, Optional

from fuzzing.attribution import Datagram, attributed
from fuzzing.changes import changed_bytes, changed_number, changed_opcode
from fuzzing.innocents import Division, Told, all_told
from fuzzing.worlds import Drawn, Place, Recording, renumbered

# Each form of a session: what every one of it has, how many transfers it has, and the least share that is to be told.
SINGLE, FORKING = "one transfer", "one client port, a server port for each"
FIRMWARE = "one client port, one server port"
FORMS: dict[str, tuple[frozenset[str], tuple[int, ...], float]] = {
    SINGLE: (frozenset(), (1,), 0.9),
    FORKING: (frozenset(), (2, 3, 4), 0.9),
    FIRMWARE: (frozenset(("one",)), (2, 3, 4), 0.85),
}
# The most of the lawful transfers in which each refusal would be doubtful.
MOST_DOUBTED = {SINGLE: 0.01, FORKING: 0.01, FIRMWARE: 0.2}
PERHAPS = ("writes", "options", "agrees_to_some", "missing", "other_port")
LONG = 600
PLACES: tuple[Place, ...] = ("client", "server", "between")
# How a breach is told.
WORDS = ("refused", "doubtful", "not told")
# Of the files, in bytes.
LENGTHS = (100, 511, 1_300, 2_600, 9_000, 20_000)


class Session(NamedTuple):
    """A recording at a place, and which transfer each datagram is of."""

    recording: Recording
    of: list[int]
    named: list[int]


def sessions(form: str, seed: int, is_lossy: bool) -> Iterator[Session]:
    kinds, counts, _ = FORMS[form]
    drawn = random.Random(seed)
    others = {kind for kind in PERHAPS if drawn.random() < 0.4} | ({"loss"} if is_lossy else set())
    world = Drawn(seed, kinds | others)
    world.files = {name: drawn.randbytes(drawn.choice(LENGTHS)) for name in world.files}
    world.most, world.wishes = LONG, drawn.choice(counts)
    world.loss, world.steady = 0.06 if is_lossy else 0, 0.005
    world.run()
    for recording in () if world.unlawful else world.recordings():
        of = world.of[recording.host or "between"]
        yield Session(recording, [of[place] for place in recording.places], world.named())


class Breach(NamedTuple):
    """A session in which this datagram breaks a rule, by which the transfer that it is of is refused there, alone."""

    session: Session
    place: int
    rule: str


def told_of(place: Place, datagrams: Iterable[Datagram], named: list[int], divide: Division) -> list[Told]:
    return list(all_told(place, renumbered(datagrams), named, divide))


def changed(drawn: random.Random, it: Datagram, others: list[Datagram]) -> Datagram:
    way = drawn.choice(("number",) * 3 + ("other",) * 3 + ("bytes", "opcode", "port"))
    if way == "number":
        return it._replace(payload=changed_number(drawn, it.payload))
    if way == "other":
        return it._replace(payload=drawn.choice(others).payload)
    if way == "bytes":
        return it._replace(payload=changed_bytes(drawn, it.payload)[:1_500])
    if way == "opcode":
        return it._replace(payload=changed_opcode(drawn, it.payload))
    return it._replace(source=it.source._replace(port=drawn.choice((it.source.port + 1, 50_000))))


def breach_of(session: Session, seed: int) -> Optional[Breach]:
    """One breach of some transfer of the session, if that which is drawn is one."""
    drawn, datagrams = random.Random(seed), session.recording.datagrams
    at = drawn.randrange(len(datagrams))
    mine = [it for it, of in zip(datagrams, session.of) if of == session.of[at]]
    now = changed(drawn, datagrams[at], mine)
    if now.payload == datagrams[at].payload and now.source == datagrams[at].source or session.of[at] == 0:
        return None
    is_more = drawn.random() < 0.3
    with_it = [*datagrams[:at], *([datagrams[at]] if is_more else []), now, *datagrams[at + 1 :]]
    of = [*session.of[:at], *([session.of[at]] if is_more else []), *session.of[at:]]
    alone = [it for it, its in zip(with_it, of) if its == session.of[at]]
    place = alone.index(now)
    for told in told_of(session.recording.place, alone, session.named, attributed)[:1]:
        if told.refused and told.refused.number == place:
            there = Session(session.recording._replace(datagrams=renumbered(with_it)), of, session.named)
            return Breach(there, at + is_more, told.rule())
    return None


def is_told(breach: Breach, divide: Division) -> str:
    """Whether it is told without a doubt, or how else."""
    it = breach.session.recording
    for told in all_told(it.place, it.datagrams, breach.session.named, divide):
        if told.refused and told.refused.number == breach.place:
            return "doubtful" if told.doubts else "refused"
    return "not told"


def is_gone_on(told: Told) -> bool:
    """Whether its client went on with somebody: of a file that is not there nothing but an ERROR comes."""
    return told.one.went_on is not None


def are_doubted(told: Told, place: Place) -> Iterator[bool]:
    """Whether a refusal of each of its datagrams would be doubtful."""
    for it in told.one.view("client" if place == "between" else place):
        yield bool(told.one.doubts_at(place, it.number))


Count = collections.Counter[tuple[str, Place, str]]


class Price:
    def __init__(self, divide: Division = attributed) -> None:
        self.divide = divide
        self.breaches: Count = collections.Counter()
        self.rows: Count = collections.Counter()

    def try_session(self, form: str, seed: int) -> None:
        for session in sessions(form, seed, is_lossy=False):
            it = session.recording
            for told in all_told(it.place, it.datagrams, session.named, self.divide):
                doubted = list(are_doubted(told, it.place))
                word = "doubted" if all(doubted) else "sure"
                word = word if is_gone_on(told) else f"{word}, no file"
                self.rows[form, it.place, word] += 1
                self.rows[form, it.place, "datagrams"] += len(doubted)
                self.rows[form, it.place, "datagrams doubted"] += sum(doubted)
        for session in sessions(form, seed, is_lossy=seed % 2 == 0):
            found = (breach_of(session, seed * 8 + k) for k in range(8))
            breach = next((it for it in found if it), None)
            if breach:
                self.breaches[form, session.recording.place, is_told(breach, self.divide)] += 1

    def add(self, other: Price) -> None:
        self.breaches.update(other.breaches)
        self.rows.update(other.rows)

    def too_dear(self) -> list[str]:
        """Where less is told than should be, or more is doubted."""
        found = []
        for form, (_, _, least) in FORMS.items():
            for place in PLACES:
                told, tried = self.breaches[form, place, "refused"], self.tried(form, place)
                if told < least * tried:
                    wanted = share(int(100 * least), 100)
                    found.append(f"{form}, {place}: {share(told, tried)} of the breaches told, not {wanted}")
                doubted = self.rows[form, place, "doubted"]
                rows = doubted + self.rows[form, place, "sure"]
                if doubted > MOST_DOUBTED[form] * rows:
                    most = share(int(100 * MOST_DOUBTED[form]), 100)
                    found.append(f"{form}, {place}: {share(doubted, rows)} of the lawful transfers doubted, not {most}")
        return found

    def tried(self, form: str, place: Place) -> int:
        return sum(self.breaches[form, place, word] for word in WORDS)

    def rows_of(self) -> Iterator[str]:
        words = ("breaches", "refused", "doubtful", "not told", "lawful", "doubted", "no file", "doubted", "datagrams")
        yield f"{'session':42} {'place':8} " + " ".join(f"{word:>8}" for word in words)
        for form in FORMS:
            for place in PLACES:
                counts = [self.breaches[form, place, word] for word in WORDS]
                shares = " ".join(f"{share(it, sum(counts)):>8}" for it in counts)
                lawful = " ".join(self.lawful(form, place, end) for end in ("", ", no file"))
                doubted, passed = self.rows[form, place, "datagrams doubted"], self.rows[form, place, "datagrams"]
                yield f"{form:42} {place:8} {sum(counts):8} {shares} {lawful} {share(doubted, passed):>8}"

    def lawful(self, form: str, place: Place, end: str) -> str:
        """How many lawful transfers there were, and in how many of them each refusal would be doubtful."""
        doubted, sure = (self.rows[form, place, f"{word}{end}"] for word in ("doubted", "sure"))
        return f"{doubted + sure:8} {share(doubted, doubted + sure):>8}"


def share(part: int, whole: int) -> str:
    return f"{100 * part / whole:.1f} %" if whole else "-"
