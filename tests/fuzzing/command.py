"""What the command lines of the fuzzers share: programs, a seed, and how many cases were as they should be."""
from __future__ import annotations

import argparse
import os
from collections.abc import Iterable
from typing import Optional

from checks import Check


def parser_of(name: str, about: Optional[str], of: str = "case") -> argparse.ArgumentParser:
    """A parser with what a script says of itself first, and a seed."""
    parser = argparse.ArgumentParser(prog=name, description=(about or "").split("\n\n", maxsplit=1)[0])
    parser.add_argument("--seed", type=int, help=f"the seed of the first {of}; each further one has the next number")
    return parser


def runnable(path: str) -> str:
    """A program, as a word of a call."""
    if not os.access(path, os.X_OK):
        raise argparse.ArgumentTypeError(f"there is no program {path}")
    return os.path.abspath(path)


def seed_of(given: Optional[int]) -> int:
    """The seed that is given, or a drawn one; it is told."""
    seed = int.from_bytes(os.urandom(4), "big") if given is None else given
    print(f"seed {seed}", flush=True)
    return seed


def tell(checks: Iterable[Check]) -> int:
    """Prints each case that is not as it should be, and last how many passed and failed; answers the status, 1 if any
    failed."""
    counts = {True: 0, False: 0}
    for name, holds, got in checks:
        counts[bool(holds)] += 1
        if not holds:
            print(f"{name}: {got}", flush=True)
    print(f"{counts[True]} passed, {counts[False]} failed")
    return int(counts[False] > 0)
