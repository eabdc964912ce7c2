"""That each file that a page for readers names is there, and that each of its links leads somewhere."""
from __future__ import annotations

import re

from checks import Checks
from links import is_good, links
from repository import TOP

NAMED = re.compile(r"`((?:docs|tools|tests|examples)/[A-Za-z0-9_./-]+)`")


class Links(Checks):
    """The links and the names of files."""

    def test_names(self) -> None:
        """Each file that a page names is there."""
        for page in (
            *sorted((TOP / "docs").glob("*.md")), *(TOP / name for name in ("CONTRIBUTING.md", "CHANGELOG.md"))
        ):
            for name in sorted(set(NAMED.findall(page.read_text()))):
                self.check(f"{name}, which {page.name} names", (TOP / name).exists())

    def test_links(self) -> None:
        """Each link of a page leads somewhere."""
        for page in (*sorted((TOP / "docs").glob("*.md")), *(TOP / name for name in ("README.md", "CONTRIBUTING.md"))):
            for link in links(page):
                self.check(f"{link}, to which {page.name} leads", is_good(page, link))
