"""Where the links of a page lead that stays in the repository."""
from __future__ import annotations

import pathlib
import re

LINK = re.compile(r"\]\(([^)\s:]*)\)")
HEADING = re.compile(r"(?m)^#+ (.*)$")


def anchors(text: str) -> set[str]:
    """The anchors of a page's headings, as those who show Markdown make them."""
    return {re.sub(r"[^\w\- ]", "", heading.lower()).replace(" ", "-") for heading in HEADING.findall(text)}


def links(page: pathlib.Path) -> list[str]:
    return sorted(set(LINK.findall(page.read_text(encoding="utf-8"))))


def is_good(page: pathlib.Path, link: str) -> bool:
    """Whether a link of a page leads to a file that is there, and to one of its headings where it names one."""
    name, _, anchor = link.partition("#")
    target = page.parent / name if name else page
    return target.is_file() and (not anchor or anchor in anchors(target.read_text(encoding="utf-8")))
