"""Some drawn recordings: that the program divides them as the definition does, and that nobody is accused in them."""
from __future__ import annotations

from attribution import tried, words_of
from checks import Checks
from programs import AUDIT, TOOLS, TRANSFERS

CASES = 8
# In these recordings a lawful end was once accused.
ACCUSED_ONCE = (1558112239,)


class Attributed(Checks):
    """Recordings of drawn seeds."""

    needs = (AUDIT, TOOLS, TRANSFERS)

    def test_recordings(self) -> None:
        self.check_each(tried(words_of(["--cases", str(CASES), *self.programs()])))

    def test_accused_once(self) -> None:
        for seed in ACCUSED_ONCE:
            self.check_each(tried(words_of(["--cases", "1", "--seed", str(seed), *self.programs()])))

    def programs(self) -> list[str]:
        return ["--places", TOOLS.path, "--transfers", TRANSFERS.path, AUDIT.path]
