"""Wrong bodies as files: their form, where they stand, and the texts that they make."""
from __future__ import annotations

import dataclasses
import pathlib
import re
from collections.abc import Mapping

FOLDERS = ("must-fail", "plants")
LINE = re.compile(r"(file|old|new):(?: (.*))?")


class NotApplied(Exception):
    """Why an edit cannot be applied."""


@dataclasses.dataclass(frozen=True, order=True)
class Edit:
    """A wrong body of a crate: a file with lines `file: PATH` and then pairs of lines `old: TEXT` and `new: TEXT`."""

    crate: str
    name: str
    folder: str
    text: str

    def __str__(self) -> str:
        return "/".join(it for it in (self.crate, self.folder, self.name) if it)

    def applied(self, given: Mapping[str, str]) -> dict[str, str]:
        """The texts of a crate's files, by their paths, with this edit made in them."""
        texts, file, old, pairs = dict(given), "", "", 0
        for line in self.text.split("\n"):
            found = LINE.fullmatch(line)
            if line and not found:
                raise NotApplied(f"a line begins with none of 'file:', 'old:' and 'new:': {line.strip()}")
            word, rest = (found[1], found[2] or "") if found else ("", "")
            if word == "file":
                file = rest.strip()
                if file not in texts:
                    raise NotApplied(f"there is no file {file}")
            elif word == "old":
                old = rest
            elif word == "new":
                if not file or not old:
                    raise NotApplied("a line 'new:' stands before a line 'file:' or 'old:'")
                times = texts[file].count(old)
                if times != 1:
                    raise NotApplied(f"the old text stands in {file} {times} times, and not once: {old.strip()}")
                texts[file], old, pairs = texts[file].replace(old, rest), "", pairs + 1
        if not pairs:
            raise NotApplied("it has no pair of lines 'old:' and 'new:'")
        return texts


def edits_in(crate: str, folder: pathlib.Path, name: str) -> list[Edit]:
    """The edits that stand in a folder of this name."""
    return [Edit(crate, it.stem, name, it.read_text(encoding="utf-8")) for it in sorted(folder.glob("*.edit"))]


def edits_of(crate: str, top: pathlib.Path, other: pathlib.Path | None) -> list[Edit]:
    """A crate's edits: those of the repository, or those of another folder, which has a folder for each crate."""
    if other:
        return edits_in(crate, other / crate, "")
    return [it for name in FOLDERS for it in edits_in(crate, top / "crates" / crate / name, name)]
