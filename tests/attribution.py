"""Tries the definition of which datagrams of a recording are one transfer: recordings of lawful ends are drawn, divided
by the definition as a slow script has it, and each transfer's capture is judged by the built program, and between the
ends by the slow reference of that. Nobody may be accused: each refusal must have a doubt.

    attribution.py [--cases N] [--seed SEED] [--places PLACES] [--transfers TRANSFERS] PROGRAM

Each case is one recording of reads with dense strays and repeated requests, and one session recorded at each end and
between. The first has the seed SEED, and each further one the next number. With PLACES, the program tests_tools, what
that says of each of these recordings, and of each of them spoiled, is compared with the prototype: the place of every
datagram, and the doubts of every transfer. With TRANSFERS, the program that reads recordings, each is written as a file
too, and nobody may be accused by that program. The last line is 'N passed, M failed'; status 1 if any failed.
"""
from __future__ import annotations

import argparse
import collections
import sys
from collections.abc import Iterator
from typing import Literal, Union

import repository  # noqa: F401
from captures import EndName
from checks import Check
from fuzzing.attribution import Attribution, Datagram, Transfer, attributed
from fuzzing.between import doubts_of, sides_of, verdict
from fuzzing.command import parser_of, runnable, seed_of, tell
from fuzzing.dense import alone, drawn_reads, whole
from fuzzing.places import differences, spoiled
from fuzzing.program import Program
from fuzzing.sessions import SERVER, STRANGER, simulated
from judged import checked, recording

Told = collections.Counter[tuple[str, str]]
# Where a session is recorded.
Tap = Union[EndName, Literal["between"]]


def text_of(one: Transfer, end: EndName, view: list[Datagram]) -> bytes:
    """The capture text of a transfer at an end, version 2."""
    lines = ["tftp-capture 2", f"end {end}", f"service {one.asked.port}"]
    besides = {it.number: at for it, at in one.beside}
    for it in view:
        if it.number in besides:
            is_out = it.source == besides[it.number]
        else:
            is_out = (it.source == one.client) == (end == "client")
        own, other = (it.source, it.target) if is_out else (it.target, it.source)
        lines.append(f"{'out' if is_out else 'in'} {own.port} {other.host} {other.port} {it.payload.hex() or '-'}")
    return "\n".join([*lines, f"total {len(view)}", ""]).encode()


class Trier:
    def __init__(self, program: Program, transfers: str = "") -> None:
        self.program, self.transfers = program, transfers
        self.told: Told = collections.Counter()

    def check(self, one: Transfer, end: EndName, view: list[Datagram]) -> str:
        printed, errors, _ = self.program.run("check", text_of(one, end, view))
        if errors:
            raise RuntimeError(f"it wrote errors: {errors!r}")
        return printed.decode().strip()

    def verdict(self, one: Transfer, tap: Tap) -> tuple[str, str]:
        """The verdict there, between by the reference, and the datagram and rule of a refusal; one with a doubt is
        `doubtful`."""
        end: EndName = "client" if tap == "between" else tap
        view = one.view(end)
        said = verdict(sides_of(one), view) if tap == "between" else self.check(one, end, view)
        words = said.split()
        if words[0] != "refused":
            return words[0], ""
        at = view[int(words[2]) - 1]
        doubts = doubts_of(one, said) if tap == "between" else one.doubts_at(end, at.number)
        return "doubtful" if doubts else "refused", f"{at.number} {said.split('rule ')[1]}"

    def refusals(self, kind: str, tap: Tap, found: Attribution) -> Iterator[str]:
        """The transfers that are accused."""
        for one in found.transfers:
            word, why = self.verdict(one, tap)
            self.told[f"{kind}, {tap}", word] += 1
            if word == "refused":
                yield f"{kind}, {tap}: transfer {one.number}, datagram {why}"

    def accused_in_file(self, kind: str, tap: Tap, drawn: list[Datagram]) -> Iterator[str]:
        """The transfers that the program accuses which reads recordings, at this place and where none is named."""
        if not self.transfers or not drawn:
            return
        places: tuple[tuple[str, ...], ...] = (), ("--end", tap)
        for words in places:
            for row in checked(self.transfers, recording(drawn), *words)[0]:
                word = "accused" if row.is_accused() else "doubtful" if row.doubts else row.verdict.split()[0]
                self.told[f"{kind}, {tap}, as a file, {' '.join(words) or 'no end'}", word] += 1
                if row.is_accused():
                    yield f"{kind}, {tap}, as a file, {words}: {row}"

    def dense_case(self, seed: int) -> list[str]:
        reads = drawn_reads(seed)
        ones = [alone(passed, port) for passed, port in reads]
        if any(self.check(one, "client", one.seen).startswith("refused") for one in ones):
            self.told["dense", "not lawful when drawn"] += 1
            return []
        drawn = whole(reads)
        return [*self.refusals("dense", "client", attributed(drawn)), *self.accused_in_file("dense", "client", drawn)]

    def session_case(self, seed: int) -> list[str]:
        kind, recorded = simulated(seed)
        named: dict[str, Tap] = {SERVER: "server", "between": "between"}
        taps = [(named.get(place, "client"), place) for place in recorded if place != STRANGER]
        refused = [said for tap, place in taps for said in self.refusals(kind, tap, attributed(recorded[place]))]
        return refused + [said for tap, place in taps for said in self.accused_in_file(kind, tap, recorded[place])]


def recordings_of(seed: int) -> list[list[Datagram]]:
    """The recordings of a case, each as it is and spoiled."""
    drawn = [whole(drawn_reads(seed)), *simulated(seed)[1].values()]
    kept = [recording for recording in drawn if recording]
    return [*kept, *(spoiled(seed + place, recording) for place, recording in enumerate(kept))]


def words_of(arguments: list[str]) -> argparse.Namespace:
    parser = parser_of("attribution.py", __doc__)
    parser.add_argument("--cases", type=int, default=100, help="how many cases are tried")
    parser.add_argument("--places", type=runnable, help="the program tests_tools, whose places is compared with it")
    parser.add_argument("--transfers", type=runnable, default="", help="the program that reads recordings")
    parser.add_argument("program", type=runnable)
    return parser.parse_args(arguments)


def tried(words: argparse.Namespace) -> Iterator[Check]:
    """The cases, and then a table of what was said in them."""
    program, first = Program(words.program), seed_of(words.seed)
    trier = Trier(program, words.transfers)
    for seed in range(first, first + words.cases):
        accused = [*trier.dense_case(seed), *trier.session_case(seed)]
        if words.places:
            accused += differences(words.places, recordings_of(seed))[:3]
        yield Check(f"case {seed}", not accused, "\n".join(accused))
    program.close()
    for (what, word), count in sorted(trier.told.items()):
        print(f"{what}: {count} {word}")


if __name__ == "__main__":
    sys.exit(tell(tried(words_of(sys.argv[1:]))))
