"""Runs the tests side by side: each module in a process of its own, of which some run at a time. What each says is told
whole, and last how many there were; a module that fails stops no other. The status is 1 if any failed.

    python3 -m tests [--scripts | --programs] [--required] [--jobs N] [-k PATTERN] [NAME ..]
"""
from __future__ import annotations

import argparse
import concurrent.futures
import os
import pathlib
import re
import shutil
import subprocess
import sys
import tempfile
import time
from collections.abc import Sequence
from typing import NamedTuple

import programs
from repository import TOP

# Those that take longest begin first.
LONGEST = (
    "failures", "rows", "growths", "match", "pairs", "packages", "audit_launcher", "transfers_launcher",
    "match_launcher", "words", "loopback", "legs", "sources",
)
COUNTED = re.compile(r"(?m)^(\d+) tests, (\d+) cases$")
SKIPPED = re.compile(r"(?m)^skipped (.*)$")


class Told(NamedTuple):
    """What a module says, whether it passed, how many tests, cases and skipped ones it has, and its seconds."""

    name: str
    output: str
    passed: bool
    tests: int
    cases: int
    skipped: int
    seconds: float


def words_of(arguments: Sequence[str]) -> argparse.Namespace:
    parser = argparse.ArgumentParser(prog="python3 -m tests", description=(__doc__ or "").split("\n\n", maxsplit=1)[0])
    part = parser.add_mutually_exclusive_group()
    part.add_argument("--scripts", dest="part", action="store_const", const="scripts", help="what needs no program")
    part.add_argument("--programs", dest="part", action="store_const", const="programs", help="what needs a program")
    parser.add_argument("--required", action="store_true", help="a program that is not built fails what needs it")
    parser.add_argument("--jobs", type=int, help="how many modules run at a time: 2 to 4, by the processors")
    parser.add_argument("-k", dest="patterns", action="append", default=[], help="tests with this in their names")
    parser.add_argument("names", nargs="*", metavar="NAME", help="as in tests.test_links; without one, all modules")
    return parser.parse_args(arguments)


def modules() -> list[str]:
    """All modules of tests."""
    found = sorted(f"tests.{file.stem}" for file in (TOP / "tests").glob("test_*.py"))
    return sorted(found, key=lambda name: name.partition("test_")[2] not in LONGEST)


def tell(name: str, words: argparse.Namespace) -> Told:
    """Runs a module."""
    begun = time.monotonic()
    patterns = [word for pattern in words.patterns for word in ("-k", pattern)]
    command = [sys.executable, "-m", "tests.alone", words.part or "all", *patterns, name]
    done = subprocess.run(command, cwd=TOP, stdout=subprocess.PIPE, stderr=subprocess.STDOUT, text=True)
    counted = COUNTED.findall(done.stdout)
    tests, cases = map(int, counted[-1]) if counted else (0, 0)
    skipped = len(SKIPPED.findall(done.stdout))
    return Told(name, done.stdout, not done.returncode, tests, cases, skipped, time.monotonic() - begun)


def run(words: argparse.Namespace) -> list[Told]:
    """What each module says, told as it comes."""
    found = []
    jobs = words.jobs or max(2, min(4, len(os.sched_getaffinity(0))))
    with concurrent.futures.ThreadPoolExecutor(jobs) as pool:
        for ready in concurrent.futures.as_completed([pool.submit(tell, it, words) for it in words.names or modules()]):
            it = ready.result()
            if it.tests or not it.passed:
                print(f"{it.name}, {it.seconds:.0f} s{'' if it.passed else ', FAILED'}:\n{it.output}", flush=True)
                found.append(it)
    return found


def main(arguments: Sequence[str]) -> int:
    words = words_of(arguments)
    # The scripts stay as they are while they are copied and called.
    os.environ["PYTHONDONTWRITEBYTECODE"] = "1"
    if words.required:
        os.environ[programs.REQUIRED] = "1"
    with tempfile.TemporaryDirectory() as folder:
        if words.part != "scripts" and shutil.which("cc") and programs.REFUSE not in os.environ:
            os.environ[programs.REFUSE] = programs.build_refusing(pathlib.Path(folder))
        found = run(words)
    failed = sorted(it.name for it in found if not it.passed)
    tests, cases = sum(it.tests for it in found), sum(it.cases for it in found)
    ends = f"{len(failed)} failed: {', '.join(failed)}" if failed else "all passed"
    print(f"{len(found)} modules, {tests} tests, {cases:,} cases, {sum(it.skipped for it in found)} skipped: {ends}")
    return int(bool(failed) or not found)


if __name__ == "__main__":
    sys.exit(main(sys.argv[1:]))
