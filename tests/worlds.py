"""Draws worlds of lawful clients and servers, over networks that lose, repeat, delay and reorder, with strays, ports
that are used again, late answers, clocks that jump and more, each kind by its name (fuzzing/worlds.py,
fuzzing/framed.py). What was recorded of them, at each host and between, is divided by the slow reading of the
definition, and each transfer judged at its place by the slow judges: nobody may be accused who kept the law. Some
recordings are written as files, with the trouble that only frames have, and nobody may be accused by the program that
reads recordings.

    worlds.py [--recordings N] [--files N] [--sessions N] [--seed SEED] [--kinds NAME,..] [--jobs N] [TRANSFERS]

Then the price of that caution is told: sessions with one breach are drawn, and how many are told without a doubt; and
of lawful sessions, in how many transfers a refusal would be doubtful. The first world has the seed SEED, and each
further one the next number. A recording in which one is accused is printed, without what may be left out of it. The
last line is 'N passed, M failed'; status 1 if any failed.
"""
from __future__ import annotations

import argparse
import collections
import concurrent.futures
import sys
from collections.abc import Iterator
from typing import NamedTuple, Optional

import repository  # noqa: F401
from fuzzing.attribution import Endpoint
from fuzzing.command import parser_of, runnable, seed_of
from fuzzing.framed import drawn_frame_kinds, framed
from fuzzing.innocents import accusations, rows_of, shrunk
from fuzzing.price import FORMS, Price
from fuzzing.worlds import KINDS, Drawn, Recording, world_of
from judged import Row, checked

AT_ONCE = 25


class Words(argparse.Namespace):
    """The words of a call."""

    recordings: int
    files: int
    sessions: int
    seed: Optional[int]
    kinds: str
    jobs: int
    transfers: Optional[str]


class Work(NamedTuple):
    """Some worlds, by their seeds; of each recording a file too, where there is a program."""

    first: int
    kinds: tuple[str, ...]
    transfers: Optional[str]


class Tried(NamedTuple):
    """What was tried, how often each kind was drawn, and what was wrong."""

    recordings: int
    files: int
    left_out: int
    drawn: collections.Counter[str]
    failed: list[str]


def accused(world: Drawn, recording: Recording) -> Iterator[str]:
    """Who is accused by the slow reading."""
    for it in accusations(recording, world.named(), world.strangers):
        yield f"seed {world.seed}, {it.words()}\n{rows_of(shrunk(world, it, recording).datagrams)}"


def is_elsewhere(recording: Recording, row: Row, sender: Endpoint) -> bool:
    """Whether a recording of a server's host is told of a transfer whose client is there: that place is not its server's."""
    is_server = row.accused.startswith("server ")
    return recording.place == "server" and is_server != (sender.host == recording.host)


def accused_in_file(transfers: str, world: Drawn, recording: Recording) -> Iterator[str]:
    """Who is accused by the program, where the place is named and where none is."""
    kinds = drawn_frame_kinds(world.seed)
    file = framed(recording, kinds, world.seed)
    named = [word for port in world.named() for word in ("--service", str(port))]
    for place in ((), ("--end", recording.place)) if file.sources else ():
        for row in checked(transfers, file.file, *place, *named)[0]:
            sender = file.sender(row.frame) if row.is_accused() else None
            if not sender or sender in world.strangers or place and is_elsewhere(recording, row, sender):
                continue
            told = f"{recording.place} {recording.host}, as a file, {sorted(kinds)}, {place}"
            yield f"seed {world.seed}, {told}: {row}"


def try_some(work: Work) -> Tried:
    tried = Tried(0, 0, 0, collections.Counter(), [])
    for seed in range(work.first, work.first + AT_ONCE):
        world = world_of(seed, work.kinds)
        if world.unlawful:
            tried = tried._replace(left_out=tried.left_out + 1)
            continue
        tried.drawn.update(world.kinds)
        for recording in world.recordings():
            tried = tried._replace(recordings=tried.recordings + 1)
            tried.failed.extend(accused(world, recording))
            if work.transfers:
                tried = tried._replace(files=tried.files + 1)
                tried.failed.extend(accused_in_file(work.transfers, world, recording))
    return tried


def works(first: int, words: Words) -> Iterator[Work]:
    """Pieces of work without end; every so many has files, as often as is asked for."""
    kinds = tuple(words.kinds.split(",")) if words.kinds else tuple(KINDS)
    place, owed = first, 1.0
    while True:
        owed += words.files / max(1, words.recordings)
        has_files = owed >= 1
        owed -= has_files
        yield Work(place, kinds, words.transfers if has_files else None)
        place += AT_ONCE


def results(first: int, words: Words) -> Iterator[Tried]:
    """What came of each piece of work, in the order of the seeds."""
    with concurrent.futures.ProcessPoolExecutor(words.jobs) as pool:
        pieces = works(first, words)
        waiting = collections.deque(pool.submit(try_some, next(pieces)) for _ in range(2 * words.jobs))
        while True:
            yield waiting.popleft().result()
            waiting.append(pool.submit(try_some, next(pieces)))


def price_of(form: str, first: int, count: int) -> Price:
    price = Price()
    for seed in range(first, first + count):
        price.try_session(form, seed)
    return price


def told_price(first: int, words: Words) -> list[str]:
    """Prints the price, and answers where it is too high."""
    whole = Price()
    with concurrent.futures.ProcessPoolExecutor(words.jobs) as pool:
        parts = [
            pool.submit(price_of, form, at, min(AT_ONCE, first + words.sessions - at))
            for form in FORMS for at in range(first, first + words.sessions, AT_ONCE)
        ]
        for part in parts:
            whole.add(part.result())
    print("\n".join(whole.rows_of()))
    return whole.too_dear()


def words_of(arguments: list[str]) -> Words:
    parser = parser_of("worlds.py", __doc__, "world")
    parser.add_argument("--recordings", type=int, default=2_000, help="how many recordings are tried at the least")
    parser.add_argument("--files", type=int, default=200, help="about how many of them are written as files too")
    parser.add_argument("--sessions", type=int, default=100, help="how many sessions of each form tell the price")
    parser.add_argument("--kinds", default="", help="the kinds of trouble that may be drawn: " + ", ".join(KINDS))
    parser.add_argument("--jobs", type=int, default=1, help="how many processes try them")
    parser.add_argument("transfers", type=runnable, nargs="?", help="the program that reads recordings")
    words = parser.parse_args(arguments, Words())
    if unknown := set(filter(None, words.kinds.split(","))) - set(KINDS):
        parser.error(f"there is no kind {', '.join(sorted(unknown))}")
    return words


def main(arguments: list[str]) -> int:
    words = words_of(arguments)
    first = seed_of(words.seed)
    whole = Tried(0, 0, 0, collections.Counter(), [])
    for tried in results(first, words):
        for said in tried.failed:
            print(f"ACCUSED {said}", flush=True)
        sums = (whole.recordings + tried.recordings, whole.files + tried.files, whole.left_out + tried.left_out)
        whole = Tried(*sums, whole.drawn + tried.drawn, whole.failed + tried.failed)
        if whole.recordings >= words.recordings:
            break
    print(", ".join(f"{name} {count}" for name, count in sorted(whole.drawn.items())))
    rest = f"{len(whole.failed)} accused; left out {whole.left_out}"
    print(f"{whole.recordings} recordings, {whole.files} of them as files, {rest}")
    dear = told_price(first, words) if words.sessions else []
    for said in dear:
        print(f"MISSED {said}")
    print(f"{whole.recordings - len(whole.failed)} passed, {len(whole.failed)} failed")
    return 1 if whole.failed else 0


if __name__ == "__main__":
    sys.exit(main(sys.argv[1:]))
