"""The functions of a crate's sources: where they stand, what the checker calls them, and what each may call."""
from __future__ import annotations

import dataclasses
import re
from collections.abc import Mapping, Set

# Comments, strings and characters, which may hold any sign.
HIDDEN = re.compile(r"""//[^\n]*|/\*.*?\*/|"(?:\\.|[^"\\])*"|'(?:\\(?:x[0-9a-fA-F]{2}|u\{[^}]*\}|.)|[^\\'\n])'""", re.S)
ITEM = re.compile(r"\b(?:(?P<kind>mod|fn|trait|const|static)\s+(?P<name>\w+)|(?P<impl>impl)\b)")
# What stands right before the brace of a contract's clause, and not of a body.
CLAUSE = re.compile(r"\b(?:requires|ensures|ghost|decreases)\*?\s*(?:\w+\s*:?\s*)?\Z")
OPEN, CLOSED = "([{", ")]}"
# The path of a type or a trait, and its last name.
NAME = re.compile(r"(?<!['\w])(?:\w+::)*([A-Za-z_]\w*)")


@dataclasses.dataclass(frozen=True)
class Function:
    """A function with a body, under the name that the checker prints."""

    symbol: str
    text: str
    body: str

    @property
    def name(self) -> str:
        return self.symbol.rpartition("::")[2]

    def words(self) -> set[str]:
        """The words of its body: any function that it calls is named by one of them."""
        return set(re.findall(r"\w+", self.body))


def blanked(text: str) -> str:
    """The text with spaces for all that stands in comments, strings and characters."""
    return HIDDEN.sub(lambda found: re.sub(r"[^\n]", " ", found[0]), text)


def next_of(text: str, signs: str, at: int) -> int:
    """Where the first of these signs stands from there on, outside every bracket; the end if there is none."""
    depth = 0
    while at < len(text):
        if depth == 0 and text[at] in signs:
            return at
        depth += (text[at] in OPEN) - (text[at] in CLOSED)
        at += 1
    return len(text)


def end_of_block(text: str, at: int) -> int:
    """Where the block ends whose brace opens there."""
    return next_of(text, "}", at + 1) + 1


def body_of(text: str, at: int) -> int | None:
    """Where the body begins of the function whose name ends there, or None if it has none."""
    while True:
        opens = next_of(text, "{;", at)
        if opens == len(text) or text[opens] == ";":
            return None
        if not CLAUSE.search(text, at, opens):
            return opens
        at = end_of_block(text, opens)


def owner_of(header: str) -> str:
    """What the checker puts before the names of an impl's functions: its type's name, its trait's, and the names of the
    types that the trait is given, as in `VerdictFromRefusal`."""
    plain = header.replace("->", "  ").lstrip()
    plain = plain[end_of_parameters(plain) :] if plain.startswith("<") else plain
    trait, stands_for, owner = plain.partition(" for ")
    if not stands_for:
        trait, owner = "", trait
    named, _, given = trait.partition("<")
    return "".join(name_of(it) for it in (owner, named, *given.split(",")))


def end_of_parameters(text: str) -> int:
    """Where the parameters in angle brackets end with which a text begins."""
    depth = 0
    for at, sign in enumerate(text):
        depth += (sign == "<") - (sign == ">")
        if depth == 0:
            return at + 1
    return len(text)


def name_of(text: str) -> str:
    """The name of the first type or trait in a text, without its modules, or nothing; a lifetime is none."""
    found = NAME.search(text)
    return found[1] if found else ""


class Source:
    """The functions and the constants of one file."""

    def __init__(self, text: str, path: list[str]) -> None:
        self.text, self.plain = text, blanked(text)
        self.functions: dict[str, Function] = {}
        self.constants: dict[str, str] = {}
        self.read(path, 0, len(text))

    def read(self, path: list[str], at: int, end: int) -> None:
        while True:
            item = ITEM.search(self.plain, at, end)
            if item is None:
                return
            at = self.read_item(item, path)

    def read_item(self, item: re.Match[str], path: list[str]) -> int:
        """Reads an item and what stands in it, and answers where it ends."""
        name, at = item["name"], item.end()
        if item["kind"] == "fn":
            opens = body_of(self.plain, at)
            if opens is None:
                return next_of(self.plain, ";", at)
            end = end_of_block(self.plain, opens)
            symbol = "::".join([*path, name])
            self.functions[symbol] = Function(symbol, self.text[item.start() : end], self.plain[opens:end])
            return end
        if item["kind"] in ("const", "static"):
            end = next_of(self.plain, ";", at)
            self.constants[name] = self.text[at:end]
            return end
        opens = next_of(self.plain, "{;", at)
        if self.plain[opens : opens + 1] != "{":
            return opens
        end = end_of_block(self.plain, opens)
        self.read([*path, name or owner_of(self.plain[at:opens])], opens + 1, end - 1)
        return end


def module_of(crate: str, file: str) -> list[str]:
    """The path of the module that a file below src/ is."""
    parts = file[: -len(".rt")].split("/")[1:]
    return [crate, *([] if parts in (["lib"], ["main"]) else parts)]


def sources_of(crate: str, texts: Mapping[str, str]) -> dict[str, Source]:
    """The sources among these files of a crate, by their paths."""
    files = [it for it in texts if it.startswith("src/") and it.endswith(".rt")]
    return {file: Source(texts[file], module_of(crate, file)) for file in files}


def functions_of(sources: Mapping[str, Source]) -> dict[str, Function]:
    return {symbol: it for source in sources.values() for symbol, it in source.functions.items()}


def changed(before: Mapping[str, Source], after: Mapping[str, Source]) -> set[str]:
    """The functions of a crate that an edit changes, and those whose constants it changes; none that it adds."""
    was, now = functions_of(before), functions_of(after)
    found = {symbol for symbol, it in was.items() if symbol in now and now[symbol].text != it.text}
    for file, source in after.items():
        constants = {name for name, text in source.constants.items() if before[file].constants.get(name) != text}
        found |= {symbol for symbol, it in was.items() if constants & it.words()}
    return found


def reachable(functions: Mapping[str, Function]) -> dict[str, set[str]]:
    """The functions that each may call, itself or by others: those that its words may name."""
    named: dict[str, set[str]] = {}
    for symbol, it in functions.items():
        named.setdefault(it.name, set()).add(symbol)
    calls = {
        symbol: {callee for word in it.words() for callee in named.get(word, ())} for symbol, it in functions.items()
    }
    return {symbol: reached_from(symbol, calls) for symbol in functions}


def reached_from(symbol: str, calls: Mapping[str, Set[str]]) -> set[str]:
    """The functions that one may call, itself or by others."""
    found: set[str] = set()
    waiting = [symbol]
    while waiting:
        new = calls[waiting.pop()] - found
        found |= new
        waiting += new
    return found
