"""The crates of the repository, as crates.txt lists them: NAME [WORD ..]: CRATE CRATE .., and from a # on a comment."""
from __future__ import annotations

import pathlib


def needs_of(top: pathlib.Path) -> dict[str, list[str]]:
    """Each crate, with what it names behind the colon, the kit's libraries too."""
    lines = (line.partition("#")[0].partition(":") for line in (top / "crates.txt").read_text("utf-8").splitlines())
    return {words.split()[0]: needed.split() for words, _, needed in lines if words.strip()}


def crates_of(top: pathlib.Path) -> dict[str, list[str]]:
    """Each crate, with those of the repository that it names."""
    needs = needs_of(top)
    return {crate: [it for it in needed if it in needs] for crate, needed in needs.items()}


def libraries_of(top: pathlib.Path) -> list[str]:
    """The crates that are libraries, in the order of the list."""
    return [crate for crate in needs_of(top) if (top / "crates" / crate / "src" / "lib.rt").exists()]


def below(top: pathlib.Path, crate: str) -> set[str]:
    """The crates of the repository that one is built over."""
    crates = crates_of(top)
    found, todo = set[str](), [crate]
    while todo:
        more = set(crates[todo.pop()]) - found
        found |= more
        todo += more
    return found
