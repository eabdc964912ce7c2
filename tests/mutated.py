"""Recordings that are changed, read by tftp-transfers in 2 GB: those of examples/, of drawn worlds and of drawn
datagrams. Each call must end by itself with a status of its own, and may take so many times what the recording took
before it was changed.

    mutated.py [--recordings N] [--seed SEED] [--jobs N] TRANSFERS

The first recording has the seed SEED, and each further one the next number. Prints each that is not as it should be,
then the call that took most of what was allowed, and a last line 'N passed, M failed'; status 1 if any failed.
"""
from __future__ import annotations

import argparse
import collections
import concurrent.futures
import random
import resource
import subprocess
import sys
from collections.abc import Iterator
from typing import NamedTuple, Optional

from checks import Check
from datagrams import EXAMPLES, made_pcap, made_pcapng
from fuzzing.command import parser_of, runnable, seed_of, tell
from fuzzing.framed import drawn_frame_kinds, framed
from fuzzing.recording_changes import changed
from fuzzing.worlds import KINDS, world_of

# What a call may take, in bytes and in times of what the recording took before its change; the calls are short, and so
# one that takes more is tried again, and the least counts.
MEMORY, SLOWER, TRIES = 2 << 30, 15, 3
CALLS = (("check",), ("check", "--json"), ("check", "--end", "between"), ("list",), ("list", "--json"))
AT_ONCE = 50


class Words(argparse.Namespace):
    """The words of a call."""

    recordings: int
    seed: Optional[int]
    jobs: int
    transfers: str


class Ended(NamedTuple):
    """How a call ended, what it said as errors, and its processor time in seconds."""

    status: int
    errors: str
    time: float


class Tried(NamedTuple):
    """How many recordings were read, what was wrong, and the most of the time before, with its seed."""

    recordings: int
    failed: list[str]
    slowest: tuple[float, int]


def limit() -> None:
    """Gives this process, and those that it begins, so much memory."""
    resource.setrlimit(resource.RLIMIT_AS, (MEMORY, MEMORY))


def call(transfers: str, words: tuple[str, ...], file: bytes) -> Ended:
    """One call on a recording that comes by standard input."""
    before = resource.getrusage(resource.RUSAGE_CHILDREN)
    did = subprocess.run([transfers, *words, "-"], input=file, stdout=subprocess.DEVNULL, stderr=subprocess.PIPE, check=False)
    after = resource.getrusage(resource.RUSAGE_CHILDREN)
    time = after.ru_utime + after.ru_stime - before.ru_utime - before.ru_stime
    return Ended(did.returncode, did.stderr.decode(errors="replace").strip(), time)


def drawn(chance: random.Random, seed: int) -> bytes:
    """A sound recording."""
    kind = chance.random()
    if kind < 0.5:
        return chance.choice(sorted(EXAMPLES.glob("*.pcap"))).read_bytes()
    if kind < 0.7:
        return chance.choice((made_pcap, made_pcapng))(chance).file
    recordings = list(world_of(seed, tuple(KINDS)).recordings())
    return framed(chance.choice(recordings), drawn_frame_kinds(seed), seed).file if recordings else made_pcap(chance).file


def why_wrong(ended: Ended) -> str:
    """What is not as it should be, or nothing. A program that panics or finds no memory ends by a signal."""
    if ended.status not in (0, 1, 2, 3):
        return f"status {ended.status}, {ended.errors}"
    return "nothing is said of status 2" if ended.status == 2 and not ended.errors else ""


def try_one(transfers: str, seed: int) -> tuple[str, float]:
    """What is wrong of a changed recording, or nothing, and in how many times of before it was read."""
    chance = random.Random(seed)
    sound = drawn(chance, seed)
    file, words = changed(sound, chance), chance.choice(CALLS)
    plain, ended = call(transfers, words, sound), call(transfers, words, file)
    for _ in range(TRIES):
        if ended.time <= SLOWER * plain.time:
            break
        plain, ended = call(transfers, words, sound), min(ended, call(transfers, words, file), key=lambda it: it.time)
    times = ended.time / max(plain.time, 1e-6)
    wrong = why_wrong(ended) or why_wrong(plain)
    if not wrong and times > SLOWER:
        wrong = f"{ended.time:.3f} s, {times:.1f} times as long as before it was changed"
    return wrong and f"seed {seed}, {' '.join(words)}, {len(file)} bytes: {wrong}", times


def try_some(transfers: str, first: int, count: int) -> Tried:
    tried = Tried(count, [], (0.0, first))
    for seed in range(first, first + count):
        wrong, times = try_one(transfers, seed)
        tried.failed.extend([wrong] if wrong else [])
        tried = tried._replace(slowest=max(tried.slowest, (times, seed)))
    return tried


def results(words: Words, first: int) -> Iterator[Tried]:
    """What came of each piece of work."""
    starts = iter(range(first, first + words.recordings, AT_ONCE))
    with concurrent.futures.ProcessPoolExecutor(words.jobs, initializer=limit) as pool:
        waiting: collections.deque[concurrent.futures.Future[Tried]] = collections.deque()
        for start in starts:
            waiting.append(pool.submit(try_some, words.transfers, start, min(AT_ONCE, first + words.recordings - start)))
            if len(waiting) > 2 * words.jobs:
                yield waiting.popleft().result()
        while waiting:
            yield waiting.popleft().result()


def tried(words: Words) -> Iterator[Check]:
    """Each recording; and then which took most."""
    slowest = 0.0, 0
    for part in results(words, seed_of(words.seed)):
        slowest = max(slowest, part.slowest)
        yield from (Check("a changed recording", False, it) for it in part.failed)
        yield from (Check("a changed recording", True, "") for _ in range(part.recordings - len(part.failed)))
    print(f"the slowest took {slowest[0]:.1f} times what it took before it was changed (seed {slowest[1]})")


def words_of(arguments: list[str]) -> Words:
    parser = parser_of("mutated.py", __doc__, "recording")
    parser.add_argument("--recordings", type=int, default=1_000, help="how many changed recordings are read")
    parser.add_argument("--jobs", type=int, default=2, help="how many processes try them")
    parser.add_argument("transfers", type=runnable, help="the program that reads recordings")
    return parser.parse_args(arguments, Words())


if __name__ == "__main__":
    sys.exit(tell(tried(words_of(sys.argv[1:]))))
