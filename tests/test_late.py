"""Requests that come late accuse nobody."""
from __future__ import annotations

import itertools

from checks import Check, Checks
from fuzzing.cut import SERVER, SERVICE
from fuzzing.late import accused
from fuzzing.worlds import Place

LONGEST = 6
PLACES: tuple[Place, ...] = ("server", "between")


class Late(Checks):
    def test_requests(self) -> None:
        self.check_each(
            Check(f"{place}, port {server.port}", not found, "\n".join(found))
            for place, server in itertools.product(PLACES, (SERVER, SERVICE))
            for found in (list(itertools.islice(accused(place, server, LONGEST), 3)),)
        )
