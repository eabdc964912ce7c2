"""The fuzzer, for some seconds."""
from __future__ import annotations

from checks import Checks
from fuzz import tried, work_of
from programs import AUDIT, refusing


class Fuzz(Checks):
    """Cases of drawn seeds."""

    needs = (AUDIT,)

    def test_cases(self) -> None:
        self.check_each(tried(work_of(["--seconds", "10", "--slower", "5", "--refuse", refusing(), AUDIT.path])))
