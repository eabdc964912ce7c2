"""Both ends of some simulated transfers, matched."""
from __future__ import annotations

from both import tried, words_of
from checks import Checks
from programs import MATCH

CASES = 100


class Simulated(Checks):
    """Transfers of drawn seeds."""

    needs = (MATCH,)

    def test_transfers(self) -> None:
        self.check_each(tried(words_of(["--cases", str(CASES), MATCH.path])))
