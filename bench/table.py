"""Prints rows of a table: how fast each command of the program is on a capture, by processor time, the best of 25
runs, and that time in those of `show`, `check`, `wc -l` and `cat`, which are run on the same bytes in turn with it; and
the most memory that it takes, beside the size of the file that the capture carries.

    table.py                           prints the table's head
    table.py PROGRAM NAME CAPTURE      prints the rows of a capture
"""
from __future__ import annotations

import os
import sys
from collections.abc import Sequence

from measure import COPY, LINES, best_of, figures, run

RUNS = 25
COMMANDS = "show", "check", "extract", "normal"
HEAD = "capture", "command", "s", "MB/s", "show", "check", "wc -l", "cat", "memory", "file"
WIDTHS = 46, 7, 8, 6, 6, 6, 6, 6, 8, 8


def row(*cells: str) -> str:
    """The first two to the left, the others to the right."""
    left = [f"{cell:<{width}}" for cell, width in zip(cells[:2], WIDTHS)]
    return "  ".join(left + [f"{cell:>{width}}" for cell, width in zip(cells[2:], WIDTHS[2:])])


def most_memory(path: str, command: Sequence[str]) -> int:
    """The most resident memory of one more run, which is looked at without a pause, so that a short one is seen too."""
    return run(path, command, pause=0).memory


def main(program: str, name: str, path: str) -> None:
    size = os.path.getsize(path)
    commands = [[program, command] for command in COMMANDS]
    *of_commands, lines, copy = best_of(RUNS, path, *commands, LINES, COPY)
    # `check` prints the number of the file's bytes last.
    file = int(of_commands[COMMANDS.index("check")].answer.split()[-1])
    bases = *(of_commands[COMMANDS.index(command)] for command in ("show", "check")), lines, copy
    for command, words, it in zip(COMMANDS, commands, of_commands):
        ratios = (figures(it.seconds / base.seconds) for base in bases)
        memory = max(it.memory, most_memory(path, words))
        sizes = f"{memory / 1e6:.1f} MB", f"{file / 1e6:.1f} MB"
        print(row(name, command, f"{it.seconds:.4f}", figures(size / it.seconds / 1e6), *ratios, *sizes), flush=True)


if __name__ == "__main__":
    if len(sys.argv) > 1:
        main(*sys.argv[1:])
    else:
        print("Times of the best of 25 runs, and how many of those of four others on the same bytes they are:")
        print(row(*HEAD), flush=True)
