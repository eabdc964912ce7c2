"""Recordings of lawful ends with frames taken out: no refusal is told to stand, unless a request is among those."""
from __future__ import annotations

import json
import random
from collections.abc import Iterator
from typing import Any

from checks import Checks
from fuzzing.attribution import Datagram
from fuzzing.halves import opcode
from fuzzing.worlds import KINDS, Drawn, Recording, world_of
from judged import recording, said
from programs import TRANSFERS

SEEDS = range(1000, 1300)
REQUESTS = (1, 2)
# a recording that begins late lacks requests, and a clock that jumps is a doubt of its own
LEFT_OUT = ("starts_late", "clock_ahead", "clock_back")


def is_missed(chance: random.Random, count: int) -> list[bool]:
    """Of each datagram whether it is taken out: some here and there, a burst, or one."""
    first = chance.randrange(count)
    end = chance.choice((first + 1, chance.randint(first + 1, count)))
    often = chance.choice((0.0, 0.15, 0.5))
    return [chance.random() < often if often else first <= at < end for at in range(count)]


def thinned(chance: random.Random, datagrams: list[Datagram], takes_requests: bool) -> list[Datagram]:
    taken = is_missed(chance, len(datagrams))
    return [
        it for it, is_out in zip(datagrams, taken)
        if not is_out or opcode(it.payload) in REQUESTS and not takes_requests
    ]


def is_of_its_place(recorded: Recording, accused: dict[str, Any], world: Drawn) -> bool:
    """Whether the accused is no stranger, and the recording's host is that of its role where it names one."""
    if any((it.host, it.port) == (accused["host"], accused["port"]) for it in world.strangers):
        return False
    return recorded.place != "server" or (accused["role"] == "server") == (accused["host"] == recorded.host)


class TakenOut(Checks):
    """Drawn worlds in which nobody breaks the law."""

    needs = (TRANSFERS,)

    def standing(self, takes_requests: bool) -> Iterator[str]:
        """What is told to stand of each recording, or that nothing is."""
        for seed in SEEDS:
            world = world_of(seed, tuple(kind for kind in KINDS if kind not in LEFT_OUT))
            for recorded in () if world.unlawful else world.recordings():
                chance = random.Random(f"{seed} {recorded.place} {recorded.host}")
                left = thinned(chance, recorded.datagrams, takes_requests)
                yield ", ".join(self.told(world, recorded, left)) if left else ""

    def told(self, world: Drawn, recorded: Recording, left: list[Datagram]) -> Iterator[str]:
        named = [word for port in world.named() for word in ("--service", str(port))]
        words = ["check", "--json", "--end", recorded.place, *named, "-"]
        for line in said(TRANSFERS.path, words, recording(left))[0].splitlines():
            row = json.loads(line)
            if row["stands"] and row["accused"] and is_of_its_place(recorded, row["accused"], world):
                yield f"seed {world.seed} {recorded.place} {recorded.host}: {line}"

    def test_nothing_stands(self) -> None:
        for told in self.standing(False):
            self.check("nothing stands", not told, told)

    def test_a_missing_request(self) -> None:
        """Where requests are taken out too, something does: so the rows say that no request is missing."""
        self.check("something stands", any(self.standing(True)))
