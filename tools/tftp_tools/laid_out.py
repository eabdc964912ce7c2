"""Headings and words, laid out in lines for a terminal."""
from __future__ import annotations

import textwrap

from .explained import Told

WIDTH = 110
INDENT = 10


def laid_out(told: Told) -> str:
    """A heading at the left of its words, and once where several follow one another."""
    lines: list[str] = []
    before = ""
    for heading, words in told:
        label = "" if heading == before else f"{heading}:"
        before = heading
        lines += textwrap.wrap(
            words, WIDTH, initial_indent=label.ljust(INDENT), subsequent_indent=" " * INDENT,
            break_long_words=False, break_on_hyphens=False,
        )
    return "".join(f"{line}\n" for line in lines)
