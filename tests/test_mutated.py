"""Changed recordings in 2 GB: each call ends by itself, and in time."""
from __future__ import annotations

from checks import Checks
from mutated import tried, words_of
from programs import TRANSFERS


class Mutated(Checks):
    """Recordings of the same seeds each time."""

    needs = (TRANSFERS,)

    def test_recordings(self) -> None:
        self.check_each(tried(words_of(["--recordings", "300", "--seed", "1350", TRANSFERS.path])))
