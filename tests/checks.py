"""What the tests share: cases that are told by their names, the programs that they need, and a folder of their own."""
from __future__ import annotations

import functools
import pathlib
import tempfile
import unittest
from collections.abc import Iterable
from typing import NamedTuple

import programs

# unittest tells a failure by its case and by what was got, and passes over the lines of this module.
__unittest = True


class Check(NamedTuple):
    """A case: its name, whether it is as it should be, and what was got."""

    name: str
    holds: bool
    got: object = ""


class Checks(unittest.TestCase):
    """Tests of many cases each. What is not built fails them where it is required, and skips them elsewhere."""

    needs: tuple[programs.Program, ...] = ()

    def setUp(self) -> None:
        for why in filter(None, (program.lacks() for program in self.needs)):
            if programs.is_required():
                self.fail(why)
            self.skipTest(why)

    @functools.cached_property
    def folder(self) -> pathlib.Path:
        """A folder that is gone after the test."""
        held = tempfile.TemporaryDirectory()
        self.addCleanup(held.cleanup)
        return pathlib.Path(held.name).resolve()

    def check(self, name: str, holds: bool, got: object = "") -> None:
        """A case, which fails alone."""
        with self.subTest(name):
            if not holds:
                self.fail(str(got))

    def check_each(self, checks: Iterable[Check]) -> None:
        for it in checks:
            self.check(*it)

    def leave(self, name: str, why: str) -> None:
        """A case that cannot be tried here."""
        with self.subTest(name):
            self.skipTest(why)
