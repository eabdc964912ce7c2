"""The scripts of crates/tests_judges and of crates/tests_wire: captures, and what is said of each. trials/scripts.rt of
tests_wire says how one is written; here they are read for the built program, so that each stands once.
"""
from __future__ import annotations

import pathlib
import re
from collections.abc import Iterator

CRATES = pathlib.Path(__file__).parent.parent / "crates"
CLIENT = "tftp-capture 1, end client, service 69"
REPEATED = re.compile(r"\{([^*{}]+)\*(\d+)\}")


def constant(file: str, name: str) -> str:
    """The text of this constant in a file, named from the folder of the crates: it has no escapes."""
    source = (CRATES / file).read_text()
    found = re.search(rf'const {name}: &str = "([^"\\]*)";', source)
    assert found, f"no {name} in {file}"
    return found[1]


def names_of(script: str) -> dict[str, str]:
    """The datagrams that the lines of a script name."""
    return dict(line.split(" = ", 1) for line in script.splitlines() if " = " in line)


SHARED = names_of(constant("tests_wire/src/trials/scripts.rt", "NAMES"))


def line_of(line: str) -> bytes:
    """A line of a capture, with digits between braces as often as they say."""
    return REPEATED.sub(lambda found: found[1] * int(found[2]), line).encode("latin-1") + b"\n"


def capture(header: str, words: str, names: dict[str, str] | None = None) -> bytes:
    """The text with this header, its lines with commas between, and the datagrams of these words."""
    known = {**SHARED, **(names or {})}
    datagrams = [known.get(word, word) for word in (word.strip() for word in words.split(",")) if word]
    lines = [*header.split(", "), *datagrams, f"total {len(datagrams)}"]
    return b"".join(map(line_of, lines))


def captures(script: str) -> Iterator[tuple[bytes, str]]:
    """The text of each capture of a script, and what is said of it."""
    names, header, words = names_of(script), "", ""
    for line in script.splitlines():
        if not line or line.startswith("#") or " = " in line:
            continue
        if line.startswith("tftp-capture "):
            header = line
            continue
        before, is_end, said = line.partition("=> ")
        words += before
        if is_end:
            yield capture(header, words, names), said
            words = ""
    assert not words, f"a capture without an end: {words}"
