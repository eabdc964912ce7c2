"""Draws captures of more than 65,535 blocks and changes them where block numbers begin again. Of each, `check` must say
by 0 and by 1 what a slow reading of the rules says (tests/fuzzing/rounds.py).

    rounds.py [--cases N] [--seed SEED] PROGRAM

The last line is 'N passed, M failed'; status 1 if any failed.
"""
from __future__ import annotations

import argparse
import collections
import sys
from collections.abc import Iterator
from random import Random
from typing import Optional

import repository  # noqa: F401
from checks import Check
from fuzzing.cases import ROLLOVERS
from fuzzing.command import parser_of, runnable, seed_of, tell
from fuzzing.program import Program
from fuzzing.rounds import Rounds
from fuzzing.transfers import ENDS

# How many changes are drawn of one transfer.
OF_ONE, CHANGES = 25, 5
Met = collections.Counter[str]


class Words(argparse.Namespace):
    """The words of a call."""

    cases: int
    seed: Optional[int]
    program: str


def tried(met: Met, program: Program, seed: int, cases: int) -> Iterator[Check]:
    """Transfers of a seed of their own, and what is said of each change."""
    for first in range(seed, seed + cases, OF_ONE):
        chance = Random(first)
        rollover = chance.choice(ROLLOVERS)
        rounds = Rounds(chance, chance.choice(ENDS), chance.random() < 0.5, rollover)
        for turn in range(min(OF_ONE, seed + cases - first)):
            text, told = rounds.drawn(turn % CHANGES)
            got = program.run(f"check --rollover {rollover}", text)
            words = told[0].decode().split()
            met[" ".join(words[4:6]) if words[0] == "refused" else words[0]] += 1
            yield Check(f"seed {first}, {turn}, by {rollover}", got == (told[0], b"", told[1]), (got, told))


def main() -> int:
    parser = parser_of("rounds.py", __doc__)
    parser.add_argument("--cases", type=int, default=500, help="how many captures are drawn")
    parser.add_argument("program", type=runnable)
    words = parser.parse_args(namespace=Words())
    met, program = Met(), Program(words.program)
    status = tell(tried(met, program, seed_of(words.seed), words.cases))
    print(", ".join(f"{kind} {count}" for kind, count in met.most_common()))
    program.close()
    return status


if __name__ == "__main__":
    sys.exit(main())
