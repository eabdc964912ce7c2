"""A source in Rattle, as far as a caller sees it: its items with what is said of them, and the clauses of contracts.
What a body does is passed over."""
from __future__ import annotations

import dataclasses
from collections.abc import Iterable, Iterator, Sequence

from .tokens import CLOSING, OPENING, Kind, Token, Unreadable, joined, signature_of, tokens_of

CONTRACT = ("requires", "ensures")
# The brackets of types, which have commas.
TYPED = f"{OPENING}<", f"{CLOSING}>"


@dataclasses.dataclass(frozen=True)
class Use:
    """A name that is brought in: where it stands, and what it is called here."""

    path: tuple[str, ...]
    name: str
    is_public: bool


@dataclasses.dataclass(frozen=True)
class Said:
    """A statement: a clause of a contract, or what an impl or a trait says of its type."""

    kind: str  # requires, ensures or ghost
    name: str
    text: str
    remark: str  # the comment above it
    cited: tuple[str, ...]  # the names in it that stand behind no dot


@dataclasses.dataclass(frozen=True)
class Function:
    name: str
    doc: str
    signature: str
    named: tuple[str, ...]  # the names in its signature
    clauses: tuple[Said, ...]
    is_public: bool

    @property
    def is_law(self) -> bool:
        """Whether it takes and answers nothing: it is there for its contract alone."""
        return self.signature == f"{self.name}()"


@dataclasses.dataclass(frozen=True)
class Part:
    """A variant, or a field that is public."""

    text: str
    doc: str
    named: tuple[str, ...]  # the names in it


@dataclasses.dataclass(frozen=True)
class Declared:
    """A type, or a constant."""

    kind: str
    name: str
    doc: str
    text: str  # of a constant or a type's other name what it is; of a type its parameters, if it has any
    parts: tuple[Part, ...]
    is_public: bool


@dataclasses.dataclass(frozen=True)
class Block:
    """An impl or a trait: of which type, and of which trait for it."""

    owner: str
    trait: str
    doc: str
    words: tuple[Use, ...]
    ghosts: tuple[Said, ...]
    functions: tuple[Function, ...]
    is_public: bool


@dataclasses.dataclass
class File:
    """What a file has, each kind in the order in which it stands there."""

    about: str = ""
    modules: list[tuple[str, bool]] = dataclasses.field(default_factory=list)
    uses: list[Use] = dataclasses.field(default_factory=list)
    words: list[Use] = dataclasses.field(default_factory=list)
    functions: list[Function] = dataclasses.field(default_factory=list)
    declared: list[Declared] = dataclasses.field(default_factory=list)
    blocks: list[Block] = dataclasses.field(default_factory=list)


def sentences(tokens: Sequence[Token]) -> str:
    """What comments of one line each say; an empty one parts paragraphs."""
    paragraphs = "\n".join(token.said() for token in tokens).split("\n\n")
    return "\n\n".join(" ".join(paragraph.split()) for paragraph in paragraphs if paragraph.strip())


def names_in(tokens: Iterable[Token]) -> tuple[str, ...]:
    return tuple(dict.fromkeys(token.text for token in tokens if token.kind is Kind.NAME))


def said_of(kind: str, name: str, tokens: Sequence[Token], remark: str) -> Said:
    cited = (
        token.text for before, token in zip((None, *tokens), tokens)
        if token.kind is Kind.NAME and not (before and before.is_sign("."))
    )
    return Said(kind, name, joined(tokens), remark, tuple(dict.fromkeys(cited)))


def last_name(tokens: Sequence[Token]) -> str:
    """The name of a type or a trait, without the modules before it and what follows it."""
    end = next((place for place, token in enumerate(tokens) if token.is_sign("<:")), len(tokens))
    return next((token.text for token in reversed(tokens[:end]) if token.kind is Kind.NAME), "")


def without_attributes(tokens: Sequence[Token]) -> Iterator[Token]:
    """The tokens that stand in no `#[..]`, as in `Alloc(#[from] AllocError)`."""
    depth, is_attribute = 0, False
    for token in tokens:
        is_attribute = is_attribute or token.is_sign("#")
        depth += is_attribute * (token.is_sign(OPENING) - token.is_sign(CLOSING))
        if not is_attribute:
            yield token
        is_attribute = is_attribute and not (depth == 0 and token.is_sign(CLOSING))


class Reader:
    """The tokens of one file, and how far they are read."""

    def __init__(self, name: str, text: str) -> None:
        self.name, self.at = name, 0
        self.tokens = list(tokens_of(text))
        self.file = File()

    # ---- tokens

    def fails(self, why: str) -> Unreadable:
        last = self.tokens[min(self.at, len(self.tokens) - 1)] if self.tokens else None
        return Unreadable(f"{self.name}:{last.line if last else 1}: {why}")

    def peek(self) -> Token:
        if self.at == len(self.tokens):
            raise self.fails("the file ends within an item")
        return self.tokens[self.at]

    def take(self) -> Token:
        token = self.peek()
        self.at += 1
        return token

    def is_next(self, *texts: str) -> bool:
        return self.at < len(self.tokens) and self.tokens[self.at].text in texts

    def took(self, text: str) -> bool:
        """Takes the next token where it is this one."""
        is_it = self.is_next(text)
        self.at += is_it
        return is_it

    def expect(self, text: str) -> None:
        if not self.took(text):
            raise self.fails(f"{self.peek().text!r} where {text!r} is due")

    def name_next(self) -> str:
        token = self.take()
        if token.kind is not Kind.NAME:
            raise self.fails(f"{token.text!r} where a name is due")
        return token.text

    def until(self, *texts: str, brackets: tuple[str, str] = (OPENING, CLOSING)) -> list[Token]:
        """Takes the tokens before the first of these that stands in no bracket."""
        found: list[Token] = []
        depth = 0
        while depth or not self.is_next(*texts):
            token = self.take()
            depth += token.is_sign(brackets[0]) - token.is_sign(brackets[1])
            found.append(token)
        return found

    def within(self) -> list[Token]:
        """Takes what stands in the brackets that open next, and these."""
        if not self.take().is_sign(OPENING):
            raise self.fails("an opening bracket is due")
        start, depth = self.at, 1
        while depth:
            token = self.take()
            depth += token.is_sign(OPENING) - token.is_sign(CLOSING)
        return self.tokens[start : self.at - 1]

    def comments(self, kind: Kind) -> str:
        """Takes the comments that stand next, and answers what the last ones of this kind say."""
        found: list[Token] = []
        while self.at < len(self.tokens) and self.tokens[self.at].is_comment:
            token = self.take()
            if token.kind is kind:
                found.append(token)
        return sentences(found)

    # ---- what stands before an item

    def above(self) -> tuple[str, bool, bool]:
        """Takes what stands before an item's own word: what is said of it, whether it is for tests alone, and whether
        it is public."""
        doc, attributes = self.comments(Kind.DOC), ""
        while self.took("#"):
            self.took("!")
            attributes += joined(self.within())
            doc = self.comments(Kind.DOC) or doc
        is_public = self.took("pub")
        if is_public and self.is_next("("):
            self.within()
            is_public = False
        return doc, attributes.replace(" ", "").startswith("cfg(test)"), is_public

    def uses(self, separator: str, before: tuple[str, ...], is_public: bool) -> Iterator[Use]:
        """Takes a tree of names that are brought in, behind a path."""
        parts, is_apart, alias = list(before), True, ""
        while not self.is_next(",", "}", ";"):
            if self.took(separator):
                is_apart = True
            elif self.took("as"):
                alias = self.name_next()
            elif self.is_next("{"):
                yield from self.listed(separator, tuple(parts), is_public)
                return
            elif is_apart:
                parts.append(self.take().text)
                is_apart = False
            else:
                parts[-1] += self.take().text
        if len(parts) > len(before):
            yield Use(tuple(parts), alias or parts[-1], is_public)

    def listed(self, separator: str, before: tuple[str, ...], is_public: bool) -> Iterator[Use]:
        self.expect("{")
        while not self.took("}"):
            yield from self.uses(separator, before, is_public)
            self.took(",")

    # ---- items

    def read(self) -> File:
        """Reads the whole file."""
        self.file.about = sentences([token for token in self.tokens if token.kind is Kind.ABOUT])
        self.tokens = [token for token in self.tokens if token.kind is not Kind.ABOUT]
        while self.at < len(self.tokens):
            self.item()
        return self.file

    def item(self) -> None:
        doc, is_test, is_public = self.above()
        if self.at == len(self.tokens) and not is_public:
            return  # comments at the end
        word, file = self.name_next(), self.file
        if word == "ghost" and self.took("use"):
            file.words += self.uses(".", (), False)
            self.expect(";")
        elif word == "use":
            file.uses += self.uses("::", (), is_public)
            self.expect(";")
        elif word == "mod":
            self.module(is_public, is_test)
        elif word == "fn" or word == "const" and self.took("fn"):
            file.functions.append(self.function(doc, is_public))
        elif word in ("struct", "enum"):
            file.declared.append(self.type_declared(word, doc, is_public))
        elif word in ("const", "static", "type"):
            file.declared.append(self.constant(word, doc, is_public))
        elif word in ("impl", "trait"):
            self.block(word, doc, is_public)
        else:
            raise self.fails(f"an item that begins with {word!r}")

    def module(self, is_public: bool, is_test: bool) -> None:
        name = self.name_next()
        if not self.took(";"):
            self.within()
        elif not is_test:
            self.file.modules.append((name, is_public))

    def constant(self, word: str, doc: str, is_public: bool) -> Declared:
        name = self.peek().text
        text = f"{word} {joined(self.until(';'))}"
        self.expect(";")
        return Declared(word, name, doc, text, (), is_public)

    def type_declared(self, word: str, doc: str, is_public: bool) -> Declared:
        name = self.peek().text
        text = signature_of(self.until("{", "(", ";"))
        parts: tuple[Part, ...] = ()
        if self.is_next("{"):
            parts = tuple(self.parts(word == "enum"))
        else:
            self.until(";")
            self.expect(";")
        return Declared(word, name, doc, "" if text == name else f"{word} {text}", parts, is_public)

    def parts(self, are_variants: bool) -> Iterator[Part]:
        """Takes the variants of an enumeration or the fields of a structure, in their braces."""
        self.expect("{")
        while True:
            doc, _, is_public = self.above()
            if self.took("}"):
                return
            tokens = list(without_attributes(self.until(",", "}", brackets=TYPED)))
            self.took(",")
            if are_variants or is_public:
                yield Part(signature_of(tokens), doc, names_in(tokens))

    def function(self, doc: str, is_public: bool) -> Function:
        """Reads a function, of which its word was taken."""
        name = self.name_next()
        tokens = self.until(*CONTRACT, "{", ";")
        while self.tokens[self.at - 1].is_comment:
            self.at -= 1  # it stands above the first clause
        clauses = tuple(self.clauses())
        if not self.took(";"):
            self.within()
        return Function(name, doc, name + signature_of(tokens), names_in(tokens), clauses, is_public)

    def clauses(self) -> Iterator[Said]:
        while True:
            remark = self.comments(Kind.COMMENT)
            if not self.is_next(*CONTRACT):
                return
            kind = self.take().text + "*" * self.took("*")
            name = "" if self.is_next("{") else self.name_next()
            yield self.statement(kind, name, remark)

    def statement(self, kind: str, name: str, remark: str) -> Said:
        """Takes a statement in its braces. It is told in one line, so it may have no comment of its own."""
        tokens = self.within()
        if any(token.text == "--" or token.is_comment for token in tokens):
            raise self.fails("a comment within a statement")
        return said_of(kind, name, tokens, remark)

    def block(self, word: str, doc: str, is_public: bool) -> None:
        """Reads an impl or a trait, of which its word was taken."""
        if self.is_next("<"):
            self.angles()
        header = self.until("{", "where")
        self.until("{")
        names = [place for place, token in enumerate(header) if token.text == "for"]
        owner, trait = (header[names[0] + 1 :], header[: names[0]]) if names else (header, [])
        block_words: list[Use] = []
        ghosts: list[Said] = []
        functions: list[Function] = []
        self.expect("{")
        while not self.took("}"):
            self.member(block_words, ghosts, functions)
        if word == "trait":
            functions = [dataclasses.replace(it, is_public=True) for it in functions]
        self.file.blocks.append(
            Block(
                last_name(owner), "trait" if word == "trait" else joined(trait), doc, tuple(block_words), tuple(ghosts),
                tuple(functions), is_public,
            )
        )

    def angles(self) -> None:
        """Takes what stands in the angle brackets that open next."""
        depth = 0
        while True:
            token = self.take()
            depth += token.is_sign("<") - token.is_sign(">")
            if depth == 0:
                return

    def with_default(self, said: Said) -> Said:
        """What a trait says of a type, with what it is of a type that says nothing of it, if that stands behind it."""
        if not self.took("="):
            return said
        default = self.statement(said.kind, said.name, said.remark)
        cited = tuple(dict.fromkeys(said.cited + default.cited))
        return dataclasses.replace(said, text=f"{said.text} = {default.text}", cited=cited)

    def member(self, words: list[Use], ghosts: list[Said], functions: list[Function]) -> None:
        """Reads what stands next in an impl or a trait."""
        doc, _, is_public = self.above()
        if self.is_next("}"):
            return
        word = self.name_next()
        if word == "fn" or word == "const" and self.took("fn"):
            functions.append(self.function(doc, is_public))
        elif word == "ghost" and self.took("use"):
            words += self.uses(".", (), False)
            self.expect(";")
        elif word == "ghost":
            name = self.name_next()
            if not self.took("="):
                self.expect(":")
            ghosts.append(self.with_default(self.statement("ghost", name, doc)))
            self.expect(";")
        elif word in ("type", "const"):
            self.until(";")
            self.expect(";")
        else:
            raise self.fails(f"a member that begins with {word!r}")


def read_source(name: str, text: str) -> File:
    """What a source has, by its text; its name is for what is told."""
    return Reader(name, text).read()
