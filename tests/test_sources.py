"""What mypy and ruff say of the Python of this repository, where they are installed; pyproject.toml has their
settings."""
from __future__ import annotations

import importlib.util
import os
import shutil
import subprocess
import sys
from typing import Optional

from checks import Checks
from repository import TOP


def command(name: str) -> Optional[list[str]]:
    """How a checker is called: as a program, or as a module of this Python."""
    if found := shutil.which(name):
        return [found]
    return [sys.executable, "-m", name] if importlib.util.find_spec(name) else None


class Sources(Checks):
    """The checkers' findings."""

    def try_checker(self, name: str, *words: str) -> None:
        call = command(name)
        if call is None:
            self.skipTest(f"{name} is not installed, so the Python is not checked with it")
        done = subprocess.run([*call, *words], cwd=TOP, capture_output=True, text=True)
        self.check(name, done.returncode == 0, done.stdout + done.stderr)

    def test_mypy(self) -> None:
        self.try_checker("mypy", "--cache-dir", os.devnull)

    def test_ruff(self) -> None:
        self.try_checker("ruff", "check", "--no-cache")
