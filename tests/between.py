"""Tries the verdict between the two ends of a transfer. Lawful transfers are drawn over two networks with a point
between, and written as recordings that were made there; so are changes of them. Of each the program must say what a
slow reference says, by the rules (tests/fuzzing/between.py), and nobody may be accused in a lawful one. The reference
is tried too: on the lawful transfers, of which it is known how they ended, and on lists of packets by what may pass
there.

    between.py [--cases N] [--seed SEED] [TRANSFERS]

Without TRANSFERS, the program that reads recordings, the reference alone is tried. The last line is 'N passed, M
failed'; status 1 if any failed.
"""
from __future__ import annotations

import argparse
import collections
import sys
from collections.abc import Iterator
from random import Random
from typing import NamedTuple, Optional

import repository  # noqa: F401
from checks import Check
from fuzzing.attribution import Datagram, attributed
from fuzzing.between import doubts_of, sides_of, verdict
from fuzzing.command import parser_of, runnable, seed_of, tell
from fuzzing.segments import Drawn, Sent, changed, numbered
from fuzzing.tapped import try_list
from judged import Row, checked, recording

AT_ONCE, CHANGES, LISTS = 100, 3, 10
# The client's host, in its subnet, of a transfer that is not changed.
LAWFUL = ".0.1"
Met = collections.Counter[tuple[str, str]]


class Recorded(NamedTuple):
    """Transfers in one recording: those of the first so many cases, each with changes of it."""

    first: int
    datagrams: list[Datagram]


class Words(argparse.Namespace):
    """The words of a call."""

    cases: int
    seed: Optional[int]
    transfers: Optional[str]


def kind_of(line: str) -> str:
    """A refusal by its rule, any other by its first word."""
    words = line.split()
    return " ".join(words[4:6]) if words[0] == "refused" else words[0]


def drawn(met: Met, first: int, cases: int, sent: list[Sent]) -> Iterator[Check]:
    """Draws the cases, each with hosts of its own, adds what they send, and tries the reference on them."""
    for seed in range(first, first + cases):
        chance = Random(seed)
        for change in range(1 + CHANGES):
            subnet = f"10.{(seed - first) % 250}.{change}"
            if change:
                sent += changed(chance, Drawn(chance, subnet).sent)
                continue
            one = Drawn(chance, subnet)
            said, wanted = verdict(one.sides, numbered(one.sent)), one.expected()
            yield Check(f"case {seed}, lawful, by the reference", said == wanted, (said, wanted))
            met["lawful", kind_of(wanted)] += 1
            sent += one.sent
        wrong = [said for said in (try_list(chance) for _ in range(LISTS)) if said]
        yield Check(f"case {seed}, lists of packets, by the reference", not wrong, wrong)


class Wanted(NamedTuple):
    """A row by the reference, whether its ends are at two hosts, and whether the transfer is as it was drawn."""

    row: Row
    is_apart: bool
    is_lawful: bool


def wanted_rows(datagrams: list[Datagram]) -> list[Wanted]:
    """What is to be said of each transfer that a recording has."""
    rows = []
    for number, one in enumerate(attributed(datagrams).transfers, 1):
        sides = sides_of(one)
        line = verdict(sides, one.seen)
        frame = one.seen[int(line.split()[2]) - 1].number + 1 if line.startswith("refused") else None
        row = Row(number, "between", frame, line, ("doubtful",) if doubts_of(one, line) else ())
        rows.append(Wanted(row, sides.client.host != sides.asked.host, sides.client.host.endswith(LAWFUL)))
    return rows


def told_rows(transfers: str, datagrams: list[Datagram], *words: str) -> tuple[dict[int, list[Row]], int]:
    """What the program says of each transfer, each doubt as one word; and its status."""
    rows, _, status = checked(transfers, recording(datagrams), *words)
    found: dict[int, list[Row]] = {}
    for row in rows:
        doubts = ("doubtful",) if row.doubts else ()
        found.setdefault(row.number, []).append(Row(row.number, row.place, row.frame, row.verdict, doubts))
    return found, status


def as_recorded(met: Met, it: Recorded, wanted: list[Wanted]) -> Iterator[Check]:
    """Nobody is accused in a transfer that is as it was drawn, however a recording of it is divided."""
    for row, _, is_lawful in wanted:
        met["as recorded" if is_lawful else "changed", kind_of(row.verdict)] += 1
        if is_lawful:
            yield Check(f"cases from {it.first} on, lawful, as recorded", not row.is_accused(), row)


def by_program(transfers: str, it: Recorded, wanted: list[Wanted]) -> Iterator[Check]:
    """The program's rows are the reference's, where the place is named and where none is."""
    named, status = told_rows(transfers, it.datagrams, "--end", "between")
    unnamed, _ = told_rows(transfers, it.datagrams)
    name, numbers = f"cases from {it.first} on", [row.number for row, _, _ in wanted]
    is_bad = any(not row.verdict.startswith("accepted") for row, _, _ in wanted)
    yield Check(f"{name}, the status", status == int(is_bad), status)
    yield Check(f"{name}, the transfers", sorted(named) == sorted(unnamed) == numbers, (len(named), len(unnamed)))
    for row, is_apart, _ in wanted:
        got = named.get(row.number)
        yield Check(f"{name}, transfer {row.number}", got == [row], (got, row))
        if is_apart:
            got = unnamed.get(row.number)
            yield Check(f"{name}, transfer {row.number}, no end named", got == [row], (got, row))


def words_of(arguments: list[str]) -> Words:
    parser = parser_of("between.py", __doc__)
    parser.add_argument("--cases", type=int, default=300, help="how many cases are tried")
    parser.add_argument("transfers", type=runnable, nargs="?", help="the program that reads recordings")
    return parser.parse_args(arguments, Words())


def tried(words: Words) -> Iterator[Check]:
    """The cases, and then what was met in them."""
    begun, met = seed_of(words.seed), Met()
    for first in range(begun, begun + words.cases, AT_ONCE):
        sent: list[Sent] = []
        yield from drawn(met, first, min(AT_ONCE, begun + words.cases - first), sent)
        it = Recorded(first, numbered(sent))
        wanted = wanted_rows(it.datagrams)
        yield from as_recorded(met, it, wanted)
        if words.transfers:
            yield from by_program(words.transfers, it, wanted)
    for group in ("lawful", "as recorded", "changed"):
        found = sorted((name, count) for (its, name), count in met.items() if its == group)
        print(f"{group}: " + ", ".join(f"{name} {count}" for name, count in found))


if __name__ == "__main__":
    sys.exit(tell(tried(words_of(sys.argv[1:]))))
