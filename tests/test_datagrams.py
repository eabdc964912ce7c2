"""The datagrams that are listed of recordings: of examples, of generated ones, and of changed ones."""
from __future__ import annotations

from checks import Checks
from datagrams import tried, words_of
from programs import TOOLS


class Datagrams(Checks):
    """Recordings of the same seeds each time."""

    needs = (TOOLS,)

    def test_recordings(self) -> None:
        self.check_each(tried(words_of([TOOLS.path])))
