"""Prints how long `check` takes of reads in octet mode, beside `wc -l` and beside the least that any program has to do
(least.c): processor time, the best of 25 runs, which go in turn.

    least.py PROGRAM LEAST [MB]
"""
from __future__ import annotations

import os
import subprocess
import sys
import tempfile

from measure import LINES, best_of, figures
from worst import GENERATE

RUNS = 25
# The words of a kind of text: a read in blocks of so many bytes, by windows of so many.
KINDS = ["512"], ["1428", "16"], ["65464", "4"]


def main(program: str, least: str, megabytes: str = "100") -> None:
    print("Time of check, and of the least that any program has to do, in those of wc -l:")
    with tempfile.TemporaryDirectory() as folder:
        path = os.path.join(folder, "capture")
        for words in KINDS:
            generate = [sys.executable, str(GENERATE), "capture", f"{megabytes}000000", *words]
            with open(path, "wb") as text:
                subprocess.run(generate, stdout=text, check=True)
            check, floor, lines = best_of(RUNS, path, [program, "check"], [least], LINES)
            print(
                f"blocks of {words[0]:>5}: check {check.seconds:.4f} s, {figures(check.seconds / lines.seconds)} times"
                f" wc -l; the least {floor.seconds:.4f} s, {figures(floor.seconds / lines.seconds)} times wc -l;"
                f" check {figures(check.seconds / floor.seconds)} times the least",
                flush=True,
            )


if __name__ == "__main__":
    main(*sys.argv[1:])
