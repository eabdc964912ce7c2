"""Recordings that begin within a lawful capture accuse nobody."""
from __future__ import annotations

import itertools

from checks import Check, Checks
from fuzzing.cut import ENDS, accused

LONGEST = 5


class Cut(Checks):
    def test_recordings(self) -> None:
        self.check_each(
            Check(f"{place}, {'write' if writes else 'read'}", not found, "\n".join(found))
            for place, writes in itertools.product(ENDS, (False, True))
            for found in (list(itertools.islice(accused(place, writes, LONGEST), 3)),)
        )
