"""Fuzzes tftp-match: both ends of simulated transfers, over a network that loses, repeats and reorders, must match,
with exactly the losses and repetitions that there were, where the program tells them. Cut anywhere they go together as
far as a slow merge of the steps says, and where the network changed a byte they do not match from there on.

    both.py [--cases N] [--seed N] MATCH

The first case has the seed N, and each further one the next number. Prints the seed and each case that is not as it
should be, then a last line 'N passed, M failed'; status 1 if any failed.
"""
from __future__ import annotations

import argparse
import dataclasses
import pathlib
import re
import subprocess
import sys
import tempfile
from collections import Counter
from collections.abc import Iterator
from random import Random

from checks import Check
from fuzzing.command import parser_of, runnable, seed_of, tell
from fuzzing.ends import Packet
from fuzzing.meanings import Spelling, meaning_of
from fuzzing.transfers import ENDS, Step, Transfer
from fuzzing.views import View

Steps = list["Step | None"]
MATCHED = re.compile("matched(?: lost ([0-9]+) repeated ([0-9]+))?")
UNMATCHED = re.compile("unmatched client datagram ([0-9]+|-)(?: ([a-z]+))? server datagram ([0-9]+|-)(?: ([a-z]+))?")
# What no end ever sends.
FORGED = Packet("data", -1)


def merged(ends: tuple[Steps, Steps]) -> tuple[int, int]:
    """How many of each end's steps go together: what came waits till the other end has sent it."""
    at, sent = [0, 0], (set[Packet](), set[Packet]())
    while True:
        for own in (0, 1):
            step = ends[own][at[own]] if at[own] < len(ends[own]) else None
            if at[own] < len(ends[own]) and (step is None or step[0] or step[1] in sent[1 - own]):
                if step and step[0]:
                    sent[own].add(step[1])
                at[own] += 1
                break
        else:
            return at[0], at[1]


def counts_of(ends: tuple[Steps, Steps]) -> tuple[int, int]:
    """How many packets were lost and repeated, at least: of each the copies that did not come, and those too many."""
    lost = repeated = 0
    for own in (0, 1):
        sent = Counter(step[1] for step in ends[own] if step and step[0])
        came = Counter(step[1] for step in ends[1 - own] if step and not step[0])
        lost += sum(max(0, sent[it] - came[it]) for it in sent)
        repeated += sum(max(0, came[it] - sent[it]) for it in came)
    return lost, repeated


def copies_in(ends: tuple[Steps, Steps]) -> list[str]:
    """The lines of the packets of a simulated transfer, in any order."""
    lines = []
    for own, name in enumerate(ENDS):
        sent = Counter(label_of(step[1]) for step in ends[own] if step and step[0])
        taken = Counter(label_of(step[1]) for step in ends[1 - own] if step and not step[0])
        lines += [f"{name} {it} sent {sent[it]} taken {taken[it]}" for it in sent | taken]
    return lines


def label_of(packet: Packet) -> str:
    """The words by which a packet of a simulated transfer is counted."""
    if packet.kind in ("data", "ack"):
        return f"{packet.kind.upper()} {packet.number % 65_536}"
    return {"request": "request", "oack": "OACK", "error": "ERROR"}[packet.kind]


def why_of(ends: tuple[Steps, Steps], own: int, at: int) -> str:
    """Why the next step of an end waits: whether the other end sends it at all."""
    step = ends[own][at]
    return "waits" if step and any(it and it[0] and it[1] == step[1] for it in ends[1 - own]) else "unsent"


def is_right(line: str, ends: tuple[Steps, Steps], is_lawful: bool) -> bool:
    """Whether this is the line on two captures with these steps; the words of why are those of lawful ones."""
    at = merged(ends)
    if all(count == len(own) for count, own in zip(at, ends)):
        found = MATCHED.fullmatch(line)
        return found is not None and (found[1] is None or (int(found[1]), int(found[2])) == counts_of(ends))
    found = UNMATCHED.fullmatch(line)
    if found is None:
        return False
    for own, (number, why) in enumerate(((found[1], found[2]), (found[3], found[4]))):
        is_more = at[own] < len(ends[own])
        if number != (str(at[own] + 1) if is_more else "-") or not is_more and why:
            return False
        if is_lawful and why and why != why_of(ends, own, at[own]):
            return False
    return True


class Run:
    """Both ends of a simulated transfer."""

    def __init__(self, seed: int) -> None:
        self.chance = Random(seed)
        meaning, wire = meaning_of(self.chance)
        transfer, spelling = Transfer(self.chance, meaning, wire), Spelling(self.chance, meaning, wire)
        transfer.run()
        made = (View(self.chance, meaning, wire, end, transfer.passed[end], spelling) for end in ENDS)
        self.client, self.server = made

    def views(self) -> tuple[View, View]:
        return self.client, self.server

    def steps(self, counts: tuple[int, int]) -> tuple[Steps, Steps]:
        return self.client.steps[: counts[0]], self.server.steps[: counts[1]]

    def changed(self, own: int) -> tuple[bytes, Steps] | None:
        """The text and the steps of an end to which one block came with another last byte; none where no block has a
        byte."""
        view = self.views()[own]
        datagrams, steps = list(view.capture.datagrams), list(view.steps)
        came = [
            at
            for at, (step, it) in enumerate(zip(steps, datagrams))
            if step and not step[0] and step[1].kind == "data" and len(it.payload) > 4
        ]
        if not came:
            return None
        at = self.chance.choice(came)
        payload = datagrams[at].payload
        flipped = payload[:-1] + bytes([payload[-1] ^ 1 << self.chance.randrange(8)])
        datagrams[at], steps[at] = dataclasses.replace(datagrams[at], payload=flipped), (False, FORGED)
        return dataclasses.replace(view.capture, datagrams=tuple(datagrams)).text(), steps


class Matching:
    """The runs of the program."""

    def __init__(self, program: str, folder: pathlib.Path) -> None:
        self.program, self.paths = program, [folder / end for end in ENDS]
        self.met: Counter[str] = Counter()

    def try_texts(self, name: str, texts: tuple[bytes, bytes], ends: tuple[Steps, Steps]) -> Check:
        """The program's line on the two is that of these steps."""
        for path, text in zip(self.paths, texts):
            path.write_bytes(text)
        done = subprocess.run([self.program, *map(str, self.paths)], capture_output=True, timeout=60, check=False)
        lines = done.stdout.decode("ascii", "backslashreplace").splitlines()
        third = lines[2] if len(lines) == 3 else ""
        is_lawful = not any(line.startswith("refused") for line in lines[:2])
        holds = is_right(third, ends, is_lawful) and done.returncode == int(not third.startswith("matched"))
        got = lines, done.stderr, done.returncode
        self.met[third.partition(" ")[0]] += 1
        return Check(name, holds and not done.stderr, (got, merged(ends), counts_of(ends)))

    def try_case(self, seed: int) -> Iterator[Check]:
        """A transfer at both ends: whole, cut somewhere, and with another byte at one end."""
        run = Run(seed)
        whole = len(run.client.steps), len(run.server.steps)
        spelled = run.client.capture.spelled(run.chance), run.server.capture.spelled(run.chance)
        yield self.try_texts(f"{seed}", spelled, run.steps(whole))
        counts = run.chance.randint(0, whole[0]), run.chance.randint(0, whole[1])
        cut = run.client.capture.text(counts[0]), run.server.capture.text(counts[1])
        yield self.try_texts(f"{seed}, cut to {counts}", cut, run.steps(counts))
        own = run.chance.randrange(2)
        changed = run.changed(own)
        if changed:
            other = run.views()[1 - own]
            texts, steps = (changed[0], other.capture.text()), (changed[1], list(other.steps))
            if own:
                texts, steps = (texts[1], texts[0]), (steps[1], steps[0])
            yield self.try_texts(f"{seed}, changed at the {ENDS[own]}", texts, steps)


def words_of(arguments: list[str]) -> argparse.Namespace:
    parser = parser_of("both.py", __doc__)
    parser.add_argument("--cases", type=int, default=200, help="how many cases are tried")
    parser.add_argument("program", type=runnable)
    return parser.parse_args(arguments)


def tried(words: argparse.Namespace) -> Iterator[Check]:
    """The cases, and then how many were matched."""
    first = seed_of(words.seed)
    with tempfile.TemporaryDirectory() as folder:
        matching = Matching(words.program, pathlib.Path(folder))
        for seed in range(first, first + words.cases):
            yield from matching.try_case(seed)
    print(", ".join(f"{word or 'nothing'} {count}" for word, count in sorted(matching.met.items())))


if __name__ == "__main__":
    sys.exit(tell(tried(words_of(sys.argv[1:]))))
