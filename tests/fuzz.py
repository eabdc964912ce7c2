"""Fuzzes the built program. Two simulated ends make lawful transfers over a network that loses, repeats and reorders;
what passes at one of them must be accepted with the meaning that it was made from, or be incomplete or aborted where it
was cut or an ERROR ended it. Then datagrams and texts are changed, some of them near the limits of the rules: each
command must print what a slow reading of the rules and of the formats says of them, the same however the capture is
written, in time, with nothing on standard error.

    fuzz.py [--cases N] [--seconds S] [--seed SEED] [--jobs N] [--commands NAME,..] [--folder FOLDER] [--slower N]
            [--refuse FILE] PROGRAM

The first case has the seed SEED, and each further one the next number; a case that fails is told with its own, and is
run alone by `--cases 1 --seed` and that. Its texts and what was printed of them are written to FOLDER. In the end it
prints how often each rule, each fault and each way in which a transfer ends was the verdict of a case, and which never
was. The last line is 'N passed, M failed'; status 1 if any failed.
"""
from __future__ import annotations

import argparse
import collections
import concurrent.futures
import itertools
import os
import pathlib
import shlex
import shutil
import sys
import tempfile
import time
from collections.abc import Iterator, Sequence
from typing import NamedTuple

from checks import Check
from commands import COMMANDS
from fuzzing.cases import Failure, Trier, try_case
from fuzzing.command import parser_of, seed_of, tell
from fuzzing.program import Program
from fuzzing.reached import told

AT_ONCE = 50


class Words(argparse.Namespace):
    """The words of a call."""

    cases: int
    seconds: float | None
    seed: int | None
    jobs: int
    commands: str
    folder: pathlib.Path | None
    slower: float
    refuse: str | None
    program: str


class Work(NamedTuple):
    """What is tried and how: `first` is the seed of the first case."""

    first: int
    cases: int
    seconds: float | None
    jobs: int
    commands: str
    folder: pathlib.Path
    slower: float
    refuse: str | None
    program: str


class Tried(NamedTuple):
    """The seed of the first case and how many were tried in how many runs, the seed, name and command of each that
    failed, what was met in each group of cases, and what was reached."""

    first: int
    cases: int
    failed: list[tuple[int, str, str]]
    runs: int
    met: collections.Counter[tuple[str, str]]
    reached: collections.Counter[tuple[str, str]]


def work_of(arguments: Sequence[str]) -> Work:
    parser = parser_of("fuzz.py", __doc__)
    parser.add_argument("--cases", type=int, default=10_000, help="how many cases are tried at the most")
    parser.add_argument("--seconds", type=float, help="how long cases are begun")
    parser.add_argument("--jobs", type=int, default=1, help="how many processes try them")
    parser.add_argument("--commands", default=",".join(COMMANDS), help="the program's commands that are tried")
    parser.add_argument("--folder", type=pathlib.Path, help="where the failing cases are written")
    parser.add_argument("--slower", type=float, default=1, help="how many times the usual time a run may take")
    parser.add_argument("--refuse", help="refuse.so, with which growths are refused, and reads and writes fail, too")
    parser.add_argument("program")
    words = parser.parse_args(arguments, Words())
    names = words.commands.split(",")
    if not {"check"} <= set(names) <= set(COMMANDS):
        parser.error(f"the commands are check and any of {', '.join(COMMANDS)}")
    program = shutil.which(words.program)
    if not program:
        parser.error(f"there is no program {words.program}")
    if words.refuse and not os.path.isfile(words.refuse):
        parser.error(f"there is no file {words.refuse}")
    refuse = words.refuse and os.path.abspath(words.refuse)
    seed = seed_of(words.seed)
    folder = words.folder or pathlib.Path(tempfile.gettempdir()) / f"tftp-audit-fuzz-{seed}"
    return Work(seed, words.cases, words.seconds, words.jobs, words.commands, folder, words.slower, refuse, program)


def write_failure(work: Work, seed: int, number: int, failure: Failure) -> None:
    """The text of a run that failed, what was printed and what should have been, and how to see it again."""
    folder = work.folder / f"case-{seed}"
    folder.mkdir(parents=True, exist_ok=True)
    capture, program = folder / f"{number}.capture", shlex.quote(work.program)
    capture.write_bytes(failure.text)
    (folder / f"{number}.told").write_text(
        f"{failure.name}: {failure.command}\nwanted {failure.wanted!r}\ngot {failure.got!r}\n"
        f"the run again: {program} {failure.command} <{shlex.quote(str(capture))}\n"
        f"the case again: python3 {sys.argv[0]} --cases 1 --seed {seed} --commands {work.commands}"
        f"{f' --refuse {shlex.quote(work.refuse)}' if work.refuse else ''} {program}\n"
    )


def try_some(work: Work, first: int, count: int) -> Tried:
    """Tries so many cases, from one on."""
    program = Program(work.program, work.slower, work.refuse)
    trier = Trier(program, work.commands.split(","))
    failed: list[tuple[int, str, str]] = []
    for seed in range(first, first + count):
        trier.failures = []
        try:
            try_case(trier, seed)
        except Exception as error:
            raise RuntimeError(f"case {seed} cannot be tried") from error
        for number, failure in enumerate(trier.failures, 1):
            write_failure(work, seed, number, failure)
        if trier.failures:
            failed.append((seed, trier.failures[0].name, trier.failures[0].command))
    program.close()
    return Tried(first, count, failed, program.runs, trier.met, trier.reached.counts)


def chunks(work: Work) -> Iterator[tuple[Work, int, int]]:
    """The first seed and the number of cases of each piece of work, as long as there is time."""
    begun, end = time.monotonic(), work.first + work.cases
    for first in range(work.first, end, AT_ONCE):
        if work.seconds is not None and time.monotonic() - begun > work.seconds:
            return
        yield work, first, min(AT_ONCE, end - first)


def results(work: Work) -> Iterator[Tried]:
    """What came of each piece of work; few wait, so that none is begun when the time is over."""
    with concurrent.futures.ProcessPoolExecutor(work.jobs) as pool:
        waiting: collections.deque[concurrent.futures.Future[Tried]] = collections.deque()
        pieces = chunks(work)
        for piece in itertools.islice(pieces, 2 * work.jobs):
            waiting.append(pool.submit(try_some, *piece))
        while waiting:
            yield waiting.popleft().result()
            for piece in itertools.islice(pieces, 1):
                waiting.append(pool.submit(try_some, *piece))


def by_number(name: str) -> tuple[int, list[str]]:
    """The rules in the order of their numbers, and before them what has none."""
    number, *words = name.split() or [""]
    return (int(number), words) if number.isdigit() else (0, [name])


def print_met(met: collections.Counter[tuple[str, str]]) -> None:
    """A line for each group of cases: what was met in it, and how often."""
    for group in sorted({group for group, _ in met}):
        names = sorted((name for its, name in met if its == group), key=by_number)
        print(f"{group}: " + ", ".join(f"{name} {met[group, name]}" for name in names))


def checks_of(work: Work, some: Tried) -> Iterator[Check]:
    failed = {seed: (name, command) for seed, name, command in some.failed}
    for seed in range(some.first, some.first + some.cases):
        where = work.folder / f"case-{seed}"
        yield Check(", ".join((f"case {seed}", *failed.get(seed, ()))), seed not in failed, f"see {where}")


def tried(work: Work) -> Iterator[Check]:
    """The cases, and then what was met and reached in them."""
    begun, cases, runs = time.monotonic(), 0, 0
    met, reached = collections.Counter[tuple[str, str]](), collections.Counter[tuple[str, str]]()
    for some in results(work):
        yield from checks_of(work, some)
        cases, runs, met, reached = cases + some.cases, runs + some.runs, met + some.met, reached + some.reached
    print(f"{cases} cases in {time.monotonic() - begun:.1f} s, {runs} runs of the program")
    print_met(met)
    print("\n".join(told(reached)))


if __name__ == "__main__":
    sys.exit(tell(tried(work_of(sys.argv[1:]))))
