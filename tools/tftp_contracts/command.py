"""Writes the pages of docs/contracts/ from the sources of the libraries: what each hands out by name, with the comment
above it and the clauses of its contract as they stand, and where the words of these are defined. With --check nothing
is written: it tells each page that would be another one, and the first line that would; status 1 if there is one.
"""
from __future__ import annotations

import argparse
import pathlib
import sys

from tftp_tools.crates import libraries_of

from .crates import Crate, Definitions
from .pages import Page, index, noted
from .tokens import Unreadable

TOP = pathlib.Path(__file__).resolve().parents[2]
FOLDER, BY_HAND = pathlib.Path("docs", "contracts"), pathlib.Path("docs", "CONTRACTS.md")


def libraries(top: pathlib.Path) -> dict[str, Crate]:
    """The libraries of the repository, each behind those that it stands on."""
    return {name: Crate(top, name) for name in libraries_of(top)}


def made(top: pathlib.Path) -> dict[pathlib.Path, str]:
    """The pages, by their paths from the top; a library that hands out nothing has none."""
    crates = libraries(top)
    definitions, notes = Definitions(top, crates), noted((top / BY_HAND).read_text("utf-8"))
    pages = [Page(crate, definitions, name in notes) for name, crate in crates.items()]
    pages = [page for page in pages if page.public]
    found = {FOLDER / f"{page.crate.name}.md": page.text for page in pages}
    return {FOLDER / "README.md": index(pages), **found}


def written(top: pathlib.Path) -> dict[pathlib.Path, str]:
    """The pages that stand there."""
    return {path.relative_to(top): path.read_text("utf-8") for path in sorted((top / FOLDER).glob("*"))}


def first_other(before: str, after: str) -> str:
    """Where two texts differ first."""
    old, new = before.splitlines(), after.splitlines()
    number = next((place for place, pair in enumerate(zip(old, new)) if pair[0] != pair[1]), min(len(old), len(new)))
    return f"line {number + 1} would be: {new[number] if number < len(new) else 'none'}"


def differing(before: dict[pathlib.Path, str], after: dict[pathlib.Path, str]) -> dict[pathlib.Path, str]:
    """What is to be told of each page that is to be another one."""
    told = {path: "it would be a page" for path in after if path not in before}
    told.update({path: "it would be no page" for path in before if path not in after})
    both = (path for path in before if path in after and before[path] != after[path])
    told.update({path: first_other(before[path], after[path]) for path in both})
    return dict(sorted(told.items()))


def write(top: pathlib.Path, path: pathlib.Path, text: str | None) -> None:
    """Writes a page, or takes it away."""
    if text is None:
        (top / path).unlink()
        print(f"{path} is taken away")
    else:
        (top / path).parent.mkdir(exist_ok=True)
        (top / path).write_text(text, "utf-8")
        print(f"{path} is written")


def main() -> int:
    parser = argparse.ArgumentParser(prog="contracts", description=__doc__)
    parser.add_argument("--check", action="store_true", help="writes nothing, and tells what would be written")
    is_checked = parser.parse_args().check
    try:
        pages = made(TOP)
    except Unreadable as why:
        print(f"contracts: {why}", file=sys.stderr)
        return 2
    others = differing(written(TOP), pages)
    for path, told in others.items():
        if is_checked:
            print(f"{path}: {told}")
        else:
            write(TOP, path, pages.get(path))
    if others and is_checked:
        print("run `make doc`")
    return 1 if others and is_checked else 0
