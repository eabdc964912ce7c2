"""What a library hands out by name, and where the words that its clauses cite are defined."""
from __future__ import annotations

import dataclasses
import pathlib
import re
from collections.abc import Iterable, Iterator, Mapping
from typing import Union

from .items import Block, Declared, File, Function, Use, read_source
from .tokens import Unreadable

Module = tuple[str, ...]
Item = Union[Function, Declared, Block]
# "pub use Module.{Name, Other}", in the list of a crate's definitions
LISTED = re.compile(r"(?m)^(?:unfoldable )?pub use ([\w.]+)\.\{([^}]*)\}$")


@dataclasses.dataclass(frozen=True)
class Public:
    """An item that is handed out: under which public module, if not at the top, what it is called there, and the file
    that it stands in."""

    under: Module
    name: str
    item: Item
    module: Module


def name_of(item: Item) -> str:
    return item.owner if isinstance(item, Block) else item.name


@dataclasses.dataclass(frozen=True)
class Place:
    """Where a word is defined: a file from the top of the repository, or a module of Rattle's own library."""

    crate: str
    path: str
    name: str  # what it is called there


class Crate:
    """A library of the repository, by its sources."""

    def __init__(self, top: pathlib.Path, name: str) -> None:
        self.name, self.folder = name, top / "crates" / name
        self.files: dict[Module, File] = {}
        for path in sorted((self.folder / "src").rglob("*.rt")):
            parts = path.relative_to(self.folder / "src").with_suffix("").parts
            module = () if parts == ("lib",) else parts
            self.files[module] = read_source(f"crates/{name}/src/{'/'.join(parts)}.rt", path.read_text("utf-8"))

    def items_of(self, module: Module) -> Iterator[Item]:
        """What a file declares by name: functions, types, constants and traits."""
        file = self.files[module]
        yield from file.declared
        yield from (block for block in file.blocks if block.trait == "trait")
        yield from file.functions

    def named(self, module: Module, name: str) -> tuple[Item, Module]:
        """The item that a file has by this name, its own or one that it hands on, and the file that it stands in."""
        for item in self.items_of(module):
            if name_of(item) == name:
                return item, module
        for use in self.files[module].uses:
            if use.name == name and use.is_public:
                return self.named(*self.within(module, use))
        raise Unreadable(f"{self.name}: {'::'.join(module)} has no {name}")

    def within(self, module: Module, use: Use) -> tuple[Module, str]:
        """The module and the name that are meant by what a file brings in, where they are this crate's; else no module
        of it."""
        first, *rest = use.path
        if first in ("self", "super"):
            path = (*module[: len(module) - (first == "super")], *rest)
        elif (*module, first) in self.files:
            path = (*module, *use.path)
        else:
            path = tuple(rest) if first == "crate" else use.path
        return path[:-1], path[-1]

    def public(self, module: Module = ()) -> Iterator[Public]:
        """What is handed out by name: what stands in a public module or is handed on by one, file after file, each in
        the order in which it has its items."""
        file = self.files[module]
        found = [Public(module, name_of(item), item, module) for item in self.items_of(module) if item.is_public]
        uses = [use for use in file.uses if use.is_public and self.has(module, use)]
        found += [Public(module, use.name, *self.named(*self.within(module, use))) for use in uses]
        for there in dict.fromkeys(it.module for it in found):
            places = {id(item): place for place, item in enumerate(self.items_of(there))}
            here = [it for it in found if it.module == there]
            yield from sorted(here, key=lambda it: places[id(it.item)])
        for name, is_public in file.modules:
            if is_public:
                yield from self.public((*module, name))

    def has(self, module: Module, use: Use) -> bool:
        return self.within(module, use)[0] in self.files

    def passed_on(self) -> list[tuple[str, str]]:
        """What is handed on of other crates: the crate, and the name."""
        uses = [use for use in self.files[()].uses if use.is_public and not self.has((), use)]
        return [(use.path[0], use.name) for use in uses]

    def blocks_of(self, public: Public) -> Iterator[tuple[Module, Block]]:
        """The impls of a type, those beside it first."""
        for module in sorted(self.files, key=lambda it: (it != public.module, it)):
            for block in self.files[module].blocks:
                if block.trait != "trait" and self.is_of(module, block.owner, public):
                    yield module, block

    def is_of(self, module: Module, owner: str, public: Public) -> bool:
        """Whether the type that a file calls this is the one that is handed out."""
        if module == public.module:
            return owner == name_of(public.item)
        meant = (self.within(module, use) for use in self.files[module].uses if use.name == owner)
        return any(there in self.files and self.named(there, name)[0] is public.item for there, name in meant)

    def types_of(self, module: Module) -> dict[str, tuple[str, str]]:
        """What each name is that a file brings in, where another crate may have it: the crate, and the name there."""
        return {use.name: (use.path[0], use.path[-1]) for use in self.files[module].uses}

    def words_of(self, module: Module, block: Iterable[Use] = ()) -> dict[str, tuple[str, ...]]:
        """What each word stands for that statements of a file may cite, those of an impl too."""
        return {use.name: use.path for use in (*self.files[module].words, *block)}


class Definitions:
    """Where the words are defined that statements cite."""

    def __init__(self, top: pathlib.Path, crates: Mapping[str, Crate]) -> None:
        self.top, self.crates = top, crates
        self.lists: dict[str, dict[str, str]] = {}

    def listed(self, crate: str) -> dict[str, str]:
        """The module of each word that a crate's list of definitions hands on."""
        if crate not in self.lists:
            text = (self.top / "crates" / crate / "specs" / "Lib.antt").read_text("utf-8")
            found = {word.strip(): module for module, words in LISTED.findall(text) for word in words.split(",")}
            self.lists[crate] = found
        return self.lists[crate]

    def place(self, path: tuple[str, ...]) -> Place:
        """Where a word stands that is brought in by this path, as in Rattle.tftp_packet.specs.Spelling.Spells."""
        crate, part, rest = path[1], path[2], path[3:]
        if crate not in self.crates:
            return Place("", ".".join(path[1:-1]), path[-1])
        if len(rest) == 1 and rest[0] in self.listed(crate):
            rest = (*self.listed(crate)[rest[0]].split("."), rest[0])
        if rest[:1] in (("declared",), ("contracts",)):  # what the sources give of themselves
            folder, end, rest = "src", "rt", rest[1:]
        else:
            folder, end = part, "antt"
        for length in range(len(rest), 0, -1):
            file = f"crates/{crate}/{folder}/{'/'.join(rest[:length])}.{end}"
            if (self.top / file).exists():
                return Place(crate, file, path[-1])
        raise Unreadable(f"no file of {crate} has {'.'.join(path)}")
