"""A library's page: what it hands out, with what is said of each and the clauses of its contract, as Markdown."""
from __future__ import annotations

import re
from collections.abc import Iterable, Iterator

from .crates import Crate, Definitions, Module, Place, Public
from .items import Block, Declared, Function, Said

BY = "<!-- by tools/contracts, from the sources -->"
# What an impl says for the checker alone: laws of its statements, and how values are kept apart.
FOR_CHECKER = ("coded", "laws", "total", "matches_eq", "matches_partial_cmp", "inverse", "inverse_ok")
# Equality says it of Eq too, and the whole order of the partial one.
SAID_TWICE = ("Eq", "PartialOrd")
# What the impl of Model says of a type.
MODEL = {"Value": "seen as", "view": "view", "invariant": "invariant"}


def code(text: str) -> str:
    """Code in a line."""
    return f"`` {text} ``" if "`" in text else f"`{text}`"


def call_of(level: str, owner: str, function: Function) -> str:
    """The heading of a type's or a trait's call."""
    return f"{level} {code(f'{owner}::{function.name}')}"


def remark_of(said: Said) -> str:
    """The comment above a statement, as a sentence before it."""
    end = "" if not said.remark or said.remark.endswith((".", "?", "!", ":", ";")) else "."
    return f"{said.remark[:1].upper()}{said.remark[1:]}{end} ".lstrip()


def statement(said: Said) -> str:
    """A statement as a line of a list."""
    words = ["requires"] if said.kind == "requires" else []
    if said.name:
        words.append(MODEL[said.name] if said.kind == "ghost" and said.name in MODEL else code(said.name))
    return f"- {' '.join(words)}{': ' if words else ''}{remark_of(said)}{code(said.text)}"


class Page:
    """The page of one crate. The words that its statements cite are gathered as they are written, and so are the types
    of other crates."""

    def __init__(self, crate: Crate, definitions: Definitions, has_notes: bool) -> None:
        self.crate, self.definitions, self.has_notes = crate, definitions, has_notes
        self.places: dict[tuple[str, Place], None] = {}
        self.types: set[tuple[str, str]] = set()
        self.counts = {"calls": 0, "laws": 0, "clauses": 0}
        self.public = list(crate.public())
        self.text = self.made()

    def made(self) -> str:
        sections: list[str] = []
        for under in dict.fromkeys(it.under for it in self.public):
            sections += self.section(under, [it for it in self.public if it.under == under])
        parts = [f"# {self.crate.name}", BY, self.crate.files[()].about, " ".join(self.above())]
        parts += [*sections, *self.others(), *self.words()]
        return "\n\n".join(part for part in parts if part) + "\n"

    def above(self) -> Iterator[str]:
        """What stands above all sections."""
        named: dict[str, list[str]] = {}
        for crate, name in self.crate.passed_on():
            named.setdefault(crate, []).append(code(name))
        for crate, names in named.items():
            yield f"Hands on {', '.join(names)} of [{crate}]({crate}.md)."
        if self.counts["calls"] and not self.counts["clauses"]:
            yield "No call has a clause."
        yield "[How this page is read](../CONTRACTS.md#how-the-pages-are-read)."
        if self.has_notes:
            yield f"[What no clause says](../CONTRACTS.md#{self.crate.name})."

    def section(self, under: Module, public: Iterable[Public]) -> Iterator[str]:
        """What stands in one public module, or at the top: calls, types and laws."""
        found: dict[str, list[Public]] = {"Calls": [], "Types": [], "Laws": []}
        for it in public:
            kind = "Types" if not isinstance(it.item, Function) else "Laws" if it.item.is_law else "Calls"
            found[kind].append(it)
        for kind, items in found.items():
            if items:
                yield f"## {kind}{' in ' if under else ''}{code('::'.join(under)) if under else ''}"
            for it in items:
                yield from self.item(it)

    def item(self, public: Public) -> Iterator[str]:
        item = public.item
        if isinstance(item, Function):
            yield from self.function(item, f"### {code(public.name)}", public.module)
        elif isinstance(item, Declared):
            yield from self.type_declared(public, item)
        else:
            yield from self.trait(item, public)

    def function(
        self, function: Function, heading: str, module: Module, block: tuple[Block, ...] = ()
    ) -> Iterator[str]:
        """A call, or a law, which needs no signature."""
        self.counts["laws" if function.is_law else "calls"] += 1
        yield heading
        yield "" if function.is_law else code(function.signature)
        self.names(function.named, module)
        yield function.doc
        yield self.statements(function.clauses, module, block)

    def names(self, named: Iterable[str], module: Module) -> None:
        """Gathers the types of other crates of the repository."""
        types = self.crate.types_of(module)
        self.types |= {types[name] for name in named if name in types and types[name][0] in self.definitions.crates}

    def statements(self, found: Iterable[Said], module: Module, block: tuple[Block, ...]) -> str:
        """Statements as a list, whose words are gathered."""
        words = self.crate.words_of(module, [use for it in block for use in it.words])
        lines = []
        for said in found:
            self.counts["clauses"] += said.kind != "ghost"
            self.places.update({(it, self.definitions.place(words[it])): None for it in said.cited if it in words})
            lines.append(statement(said))
        return "\n".join(lines)

    def type_declared(self, public: Public, item: Declared) -> Iterator[str]:
        """A type with its variants or fields, how clauses see it, its calls, and what it says of itself as one of a
        trait; or a constant."""
        yield f"### {code(public.name)}"
        yield code(item.text) if item.text else ""
        yield item.doc
        self.names(re.findall(r"\w+", item.text), public.module)
        for part in item.parts:
            self.names(part.named, public.module)
        yield "\n".join(f"- {code(part.text)}{': ' if part.doc else ''}{part.doc}" for part in item.parts)
        blocks = list(self.crate.blocks_of(public))
        for module, block in blocks:
            if block.trait == "Model":
                yield from self.model(module, block)
        for module, block in blocks:
            for function in block.functions if not block.trait else ():
                if function.is_public:
                    yield from self.function(function, call_of("####", public.name, function), module, (block,))
        for module, block in blocks:
            if block.trait not in ("", "Model", *SAID_TWICE):
                yield from self.of_trait(public.name, module, block)

    def model(self, module: Module, block: Block) -> Iterator[str]:
        """How clauses see a type."""
        yield "In clauses:"
        yield self.statements((said for said in block.ghosts if said.name in MODEL), module, (block,))

    def of_trait(self, owner: str, module: Module, block: Block) -> Iterator[str]:
        """What a type says of itself as one of a trait, if anything."""
        ghosts = [said for said in block.ghosts if said.name not in FOR_CHECKER]
        functions = [function for function in block.functions if function.clauses]
        if ghosts or functions:
            yield f"#### {code(owner)} as {code(block.trait)}"
            yield block.doc
            yield self.statements(ghosts, module, (block,))
        for function in functions:
            yield from self.function(function, call_of("#####", owner, function), module, (block,))

    def trait(self, block: Block, public: Public) -> Iterator[str]:
        yield f"### {code(public.name)}"
        yield block.doc
        yield self.statements(block.ghosts, public.module, (block,))
        for function in block.functions:
            yield from self.function(function, call_of("####", public.name, function), public.module, (block,))

    def others(self) -> Iterator[str]:
        """The types of other crates in what stands above, with their pages."""
        if self.types:
            yield "## Types of other crates"
        crates = sorted({crate for crate, _ in self.types})
        named = {crate: sorted(code(name) for other, name in self.types if other == crate) for crate in crates}
        yield "\n".join(f"- {', '.join(named[crate])} of [{crate}]({crate}.md)" for crate in crates)

    def words(self) -> Iterator[str]:
        """Where each word is defined, the repository's own first."""
        files: dict[tuple[str, str], list[str]] = {}
        for word, place in sorted(self.places, key=lambda it: (not it[1].crate, it[1].path, it[0])):
            there = "" if word == place.name else f" (there {code(place.name)})"
            files.setdefault((place.crate, place.path), []).append(f"{code(word)}{there}")
        if files:
            yield "## Words"
            rows = (f"| {', '.join(names)} | {where(*file)} |" for file, names in files.items())
            yield "\n".join(("| In the clauses | Defined in |", "|---|---|", *rows))


def where(crate: str, path: str) -> str:
    """A file of the repository, or a module of a library of Rattle."""
    return f"[{path.partition('/')[2]}](../../{path})" if crate else f"Rattle, {code(path)}"


def index(pages: Iterable[Page]) -> str:
    """The page that lists the others."""
    rows = (
        f"| [{page.crate.name}]({page.crate.name}.md) | {page.crate.files[()].about} | {page.counts['calls']} "
        f"| {page.counts['laws']} | {page.counts['clauses']} |"
        for page in pages
    )
    head = "| Library | What it has | Calls | Laws | Clauses |", "|---|---|---|---|---|"
    about = (
        "What each library hands out, with the clauses of its contract, each behind those that it stands on. "
        "[How these pages are read, and what no clause says](../CONTRACTS.md). Links to `crates/` lead into the "
        "repository; what is installed has none of its sources."
    )
    return "\n\n".join(("# Contracts, library by library", BY, about, "\n".join((*head, *rows)))) + "\n"


def noted(text: str) -> set[str]:
    """The crates of which a page that is written by hand has a section."""
    return set(re.findall(r"(?m)^### (\w+)$", text))
