"""The tokens of a source in Rattle: comments, strings, names, brackets and signs."""
from __future__ import annotations

import dataclasses
import enum
import re
from collections.abc import Iterable, Iterator


class Unreadable(Exception):
    """What a source has that is not understood here, with its place."""


class Kind(enum.Enum):
    ABOUT = "about"  # what a file says of itself: //!
    DOC = "doc"  # what stands above an item: ///
    COMMENT = "comment"
    STRING = "string"
    CHARACTER = "character"
    LIFETIME = "lifetime"
    NAME = "name"
    NUMBER = "number"
    SIGN = "sign"


# The first that fits is taken. A comment of four strokes is none of an item. A name of a clause may end in strokes.
TOKEN = re.compile(
    r"""(?P<space>\s+)
    |(?P<about>//![^\n]*)
    |(?P<doc>///(?!/)[^\n]*)
    |(?P<comment>//[^\n]*|/\*.*?\*/)
    |(?P<string>b?r(?P<hashes>\#*)".*?"(?P=hashes)|b?"(?:\\.|[^"\\])*")
    |(?P<character>b?'(?:\\(?:x[0-9a-fA-F]{2}|u\{[^}]*\}|.)|[^\\'\n])')
    |(?P<lifetime>'[^\W\d]\w*)
    |(?P<name>[^\W\d]\w*'*)
    |(?P<number>\d\w*)
    |(?P<sign>->|=>|::|--|.)""",
    re.X | re.S,
)
OPENING, CLOSING = "([{", ")]}"
COMMENTS = (Kind.ABOUT, Kind.DOC, Kind.COMMENT)


@dataclasses.dataclass(frozen=True)
class Token:
    kind: Kind
    text: str
    line: int
    is_parted: bool  # a space or the end of a line stands before it

    @property
    def is_comment(self) -> bool:
        return self.kind in COMMENTS

    def is_sign(self, signs: str) -> bool:
        """Whether it is one of these signs, each of one character."""
        return self.kind is Kind.SIGN and len(self.text) == 1 and self.text in signs

    def said(self) -> str:
        """What a comment of one line says."""
        return self.text.lstrip("/").lstrip("!").strip()


def tokens_of(text: str) -> Iterator[Token]:
    """The tokens of a text, in order."""
    line, is_parted = 1, False
    for found in TOKEN.finditer(text):
        kind = str(found.lastgroup)
        if kind == "space":
            is_parted = True
        else:
            yield Token(Kind(kind), found[0], line, is_parted)
            is_parted = False
        line += found[0].count("\n")


def joined(tokens: Iterable[Token]) -> str:
    """The text of some tokens in one line, without comments."""
    found = [token for token in tokens if not token.is_comment]
    return "".join(" " * (token.is_parted and place > 0) + token.text for place, token in enumerate(found))


def signature_of(tokens: Iterable[Token]) -> str:
    """The same of a signature: the lines into which it is broken leave no space and no comma before a bracket."""
    text = ""
    for token in tokens:
        if token.is_comment:
            continue
        if token.is_sign(CLOSING):
            text = text.rstrip(" ,") + " " * token.is_sign("}")
        elif token.is_parted and text and text[-1] not in "([":
            text += " "
        text += token.text
    return text
