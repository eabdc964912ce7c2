"""Some drawn transfers, judged between their ends by the program and by a slow reference."""
from __future__ import annotations

from between import tried, words_of
from checks import Checks
from programs import TRANSFERS

CASES = 200


class Between(Checks):
    """Transfers of drawn seeds."""

    needs = (TRANSFERS,)

    def test_transfers(self) -> None:
        self.check_each(tried(words_of(["--cases", str(CASES), TRANSFERS.path])))
