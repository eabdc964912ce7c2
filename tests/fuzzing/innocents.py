"""Who is accused in a recording of lawful ends: it is divided by the slow reading of the definition, each transfer is
judged at its place by the slow judge, and a refusal without a doubt accuses who sent the refused datagram."""
from __future__ import annotations

from collections.abc import Callable, Iterable, Iterator, Sequence
from typing import NamedTuple

from captures import EndName
from fuzzing import views
from fuzzing.attribution import Attribution, Datagram, Endpoint, Transfer, attributed
from fuzzing.between import doubts_of, sides_of, verdict
from fuzzing.slow_judge import verdict_of
from fuzzing.spelled import Data, Fault, read
from fuzzing.worlds import Drawn, Place, Recording, renumbered

Division = Callable[[Sequence[Datagram], Iterable[int]], Attribution]


class Told(NamedTuple):
    """What is said of a transfer: the datagram that is refused, by its number in the recording, and why it is
    doubtful."""

    one: Transfer
    line: str
    refused: Datagram | None = None
    doubts: tuple[str, ...] = ()

    def is_accused(self) -> bool:
        return self.refused is not None and not self.doubts

    def rule(self) -> str:
        return self.line.split("rule ")[-1] if self.refused else ""


class Accusation(NamedTuple):
    place: Place
    host: str
    told: Told

    def words(self) -> str:
        it = self.told.refused
        who = it.source.told() if it else ""
        number = it.number if it else 0
        what = f"transfer {self.told.one.number}, datagram {number}, {self.told.rule()}"
        return f"{self.place} {self.host}: {what}: {who}"


def at_end(one: Transfer, end: EndName, view: Sequence[Datagram]) -> list[views.Datagram]:
    """The datagrams of a transfer as its capture at an end has them."""
    besides = {it.number: at for it, at in one.beside}
    found = []
    for it in view:
        is_out = it.source == besides.get(it.number, one.client if end == "client" else it.source)
        if it.number not in besides and end == "server":
            is_out = it.source != one.client
        own, other = (it.source, it.target) if is_out else (it.target, it.source)
        found.append(views.Datagram(is_out, own.port, (other.host.encode(), other.port), it.payload))
    return found


def told_at(one: Transfer, place: Place) -> Told:
    """The verdict at this place, by the slow judges."""
    if place == "between":
        view = one.view("client")
        line = verdict(sides_of(one), view)
    else:
        view = one.view(place)
        line = verdict_of(place, one.asked.port, at_end(one, place, view)).told[0].decode().strip()
    if not line.startswith("refused"):
        return Told(one, line)
    refused = view[int(line.split()[2]) - 1]
    doubts = doubts_of(one, line) if place == "between" else one.doubts_at(place, refused.number)
    return Told(one, line, refused, tuple(doubts))


def all_told(place: Place, datagrams: Sequence[Datagram], named: Iterable[int], divide: Division) -> Iterator[Told]:
    for one in divide(datagrams, named).transfers:
        yield told_at(one, place)


def accusations(
    recording: Recording, named: Iterable[int], strangers: set[Endpoint], divide: Division = attributed
) -> Iterator[Accusation]:
    """Who sends strays is not innocent in a transfer that a stray opened, or in which a client went on with it; nor is,
    at its own host, another endpoint of a server's."""
    for told in all_told(recording.place, recording.datagrams, named, divide):
        if recording.place == "server" and told.one.client.host == recording.host:
            continue
        ends = {told.one.client, told.one.went_on} & strangers
        source = told.refused.source if told.refused else None
        if recording.place == "server" and source in strangers and source and source.host == recording.host:
            continue
        if told.is_accused() and source not in ends:
            yield Accusation(recording.place, recording.host, told)


def accused_in(world: Drawn, divide: Division = attributed) -> list[Accusation]:
    named = world.named()
    return [it for recording in world.recordings() for it in accusations(recording, named, world.strangers, divide)]


# ---- the least recording in which one is accused


def without(recording: Recording, gone: set[int]) -> Recording:
    """The recording without the datagrams at these places of it."""
    kept = [place for place in range(len(recording.datagrams)) if place not in gone]
    datagrams = renumbered(recording.datagrams[place] for place in kept)
    return recording._replace(datagrams=datagrams, places=[recording.places[place] for place in kept])


def is_lawful(world: Drawn, recording: Recording) -> bool:
    """Whether all at this host kept the law, if what is not in the recording had not been."""
    gone = set(range(len(world.recorded[recording.host]))) - set(recording.places)
    return all(it.is_lawful_without(gone) for it in world.witnesses if it.host == recording.host)


def shrunk(world: Drawn, found: Accusation, recording: Recording, divide: Division = attributed) -> Recording:
    """The recording at a host without what came in and may be left out, and ERRORs that went out: one is accused by the
    same rule. What an end sent stays, since the other may have answered it. Between hosts the end alone is left out."""
    def is_still(one: Recording) -> bool:
        lawful = recording.place == "between" or is_lawful(world, one)
        again = accusations(one, world.named(), world.strangers, divide) if lawful else ()
        return any(it.told.rule() == found.told.rule() for it in again)

    size = len(recording.datagrams)
    while size and recording.place == "between":
        shorter = without(recording, {len(recording.datagrams) - 1})
        if not is_still(shorter):
            return recording
        recording = shorter
    if "starts_late" in world.kinds or "ends_early" in world.kinds:
        return recording
    for place in reversed(range(size)):
        it = recording.datagrams[place]
        if it.source.host == recording.host and it.payload[:2] != b"\0\5" and place + 1 < len(recording.datagrams):
            continue
        shorter = without(recording, {place})
        recording = shorter if is_still(shorter) else recording
    return recording


def rows_of(datagrams: Iterable[Datagram]) -> str:
    return "\n".join(
        f"{it.number:4} {it.time:10.3f} {it.source.told()} > {it.target.told()} {said(it.payload)}" for it in datagrams
    )


def said(payload: bytes) -> str:
    found = read(payload)
    if isinstance(found, Data):
        return f"DATA {found.block} of {len(found.content)} ({found.content[:2].hex()})"
    return f"malformed {payload[:12]!r}" if isinstance(found, Fault) else str(found)
